/* replay PLAN: for each line of standard input, a list of choices as `dine replay --choices` has it, prints what
 * `dine replay` prints. */
#include "dine.h"
#include <stdio.h>
#include <stdlib.h>
#include <string.h>

enum { TEXT_MAX = 1 << 20, CHOICES_MAX = 4096, PERIODS_MAX = 4096 };
static char text[TEXT_MAX];
static dine_period periods[PERIODS_MAX];

static void print_name(dine_handle *plan, uint32_t site) {
    uint8_t name[32];
    int64_t len = dine_plan_name(plan, site, name, sizeof name);
    printf("%.*s", (int)len, (const char *)name);
}

static void print_edge(dine_handle *plan, dine_handle *world, uint32_t edge) {
    dine_ends ends;
    dine_plan_ends(plan, edge, &ends);
    printf("edge %u ", edge);
    print_name(plan, ends.lower);
    printf(" ");
    print_name(plan, ends.higher);
    printf(":");
    const char *before = " ";
    int64_t count = dine_world_fork(world, edge, (uint32_t *)periods, 3 * PERIODS_MAX);
    for (int64_t i = 0; i < count && i < PERIODS_MAX; i++) {
        if (i > 0) {
            printf("%sto ", before);
            print_name(plan, periods[i].site);
            before = ", ";
        }
        for (uint32_t k = 0; k < periods[i].count; k++, before = ", ") {
            printf("%s", before);
            print_name(plan, periods[i].site);
            printf("#%u", periods[i].first + k);
        }
    }
    if (dine_plan_version(plan) == 2)
        printf(" = %lld", (long long)dine_world_value(world, edge));
    printf("\n");
}

static size_t read_choices(const char *line, uint32_t *choices) {
    size_t count = 0;
    while (*line && *line != '\n' && count < CHOICES_MAX) {
        char *end;
        choices[count++] = (uint32_t)strtoul(line, &end, 10);
        line = *end == ',' ? end + 1 : end;
    }
    return count;
}

int main(int argc, char **argv) {
    FILE *file = argc == 2 ? fopen(argv[1], "rb") : NULL;
    if (!file)
        return fprintf(stderr, "usage: replay PLAN\n"), 2;
    size_t len = fread(text, 1, sizeof text, file);
    fclose(file);
    dine_handle plan = DINE_CLOSED_HANDLE;
    int64_t status = dine_plan_open((const uint8_t *)text, len, &plan);
    if (status < 0)
        return fprintf(stderr, "no plan: %lld\n", (long long)status), 1;
    static char line[1 << 16];
    static uint32_t choices[CHOICES_MAX];
    while (fgets(line, sizeof line, stdin)) {
        dine_handle world = DINE_CLOSED_HANDLE;
        if (dine_world_open(&plan, &world) < 0)
            return 1;
        int64_t events = dine_world_replay(&world, choices, read_choices(line, choices));
        events += dine_world_finish(&world);
        for (uint32_t edge = 0; edge < dine_plan_edges(&plan); edge++)
            print_edge(&plan, &world, edge);
        printf("events %lld of %lld\n", (long long)events, (long long)dine_world_bound(&world));
        dine_close(&world);
    }
    return dine_close(&plan) == DINE_OK ? 0 : 1;
}
