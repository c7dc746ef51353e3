/* Steps a plan by the choices 1,1,0,0 and then to its end, and prints the logs of the forks. */
#include "dine.h"
#include <stdio.h>
#include <string.h>

static const char *PLAN =
    "version = 1\n[[site]]\nname = \"a\"\njobs = [{ name = \"x\" }]\n"
    "[[site]]\nname = \"b\"\njobs = [{ name = \"y\" }]\n[[edge]]\nends = [\"a\", \"b\"]\n";

int main(void) {
    static const char *kinds[] = {"take", "give", "end", "begin", "quit", "hungry", "ask", "done", "close"};
    const uint32_t choices[] = {1, 1, 0, 0};
    dine_handle plan = DINE_CLOSED_HANDLE, world = DINE_CLOSED_HANDLE;
    int64_t status = dine_plan_open((const uint8_t *)PLAN, strlen(PLAN), &plan);
    if (status < 0)
        return fprintf(stderr, "no plan: %lld\n", (long long)status), 1;
    if (dine_world_open(&plan, &world) < 0)
        return 1;
    long long events = 0;
    for (;; events++) {
        int64_t count = dine_world_count(&world);
        if (count == 0)
            break;
        uint32_t n = events < 4 ? choices[events] : 0;
        dine_event event;
        dine_world_enabled(&world, n, &event);
        printf("%2lld of %lld: site %u %s\n", events + 1, (long long)count, event.site, kinds[event.kind]);
        dine_world_step(&world, &event);
    }
    for (uint32_t edge = 0; edge < dine_plan_edges(&plan); edge++) {
        dine_period p[64];
        int64_t periods = dine_world_fork(&world, edge, (uint32_t *)p, 3 * 64);
        printf("edge %u:", edge);
        for (int64_t i = 0; i < periods && i < 64; i++) {
            if (i > 0)
                printf(" to %u", p[i].site);
            for (uint32_t k = 0; k < p[i].count; k++)
                printf(" %u#%u", p[i].site, p[i].first + k);
        }
        printf("\n");
    }
    printf("events %lld of %lld\n", events, (long long)dine_world_bound(&world));
    return dine_close(&world) == DINE_OK && dine_close(&plan) == DINE_OK ? 0 : 1;
}
