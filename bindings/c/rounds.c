/* Opens and closes plans, worlds and sites in random order, with texts that are no plans among them. As long as there
 * is memory no call is refused it: run it as `(ulimit -v 400000; ./rounds 1000000)`. After small worlds have used all
 * memory up and all is closed, there is as much as before, also in large pieces. */
#include "dine.h"
#include <stdio.h>
#include <stdlib.h>
#include <string.h>

enum { SHAPES = 6, THINGS = 300, SMALL = 200000, LARGEST = 64 * 16 * 1000 + 65536 };
static char text[LARGEST];
static dine_handle plans[SHAPES], things[THINGS], small[SMALL];

/* A ring of sites with this many jobs each. */
static size_t ring(int sites, int jobs) {
    char *at = text + sprintf(text, "version = 1\n");
    for (int i = 0; i < sites; i++) {
        at += sprintf(at, "[[site]]\nname = \"s%d\"\njobs = [", i);
        for (int job = 0; job < jobs; job++)
            at += sprintf(at, "{name=\"x\"},");
        at += sprintf(at, "]\n");
    }
    for (int i = 0; i < sites && sites > 2; i++)
        at += sprintf(at, "[[edge]]\nends = [\"s%d\", \"s%d\"]\n", i, (i + 1) % sites);
    return (size_t)(at - text);
}

static int64_t opened(dine_handle *plan, int sites, int jobs) {
    size_t length = ring(sites, jobs);
    return dine_plan_open((const uint8_t *)text, length, plan);
}

static void failed(const char *what, long round, int64_t status) {
    printf("WRONG %s in round %ld: %lld\n", what, round, (long long)status);
    exit(1);
}

/* Opens a world or a site, or a plan once more, and brings it some way. */
static void open_one(dine_handle *it, long round) {
    static const int sites[SHAPES] = {1, 3, 8, 20, 40, 64}, jobs[SHAPES] = {1, 2, 5, 3, 10, 20};
    int shape = rand() % SHAPES;
    int64_t status = DINE_OK;
    if (!plans[shape].at && (status = opened(&plans[shape], sites[shape], jobs[shape])))
        failed("plan", round, status);
    if (rand() % 2) {
        if ((status = dine_world_open(&plans[shape], it)))
            failed("world", round, status);
        uint32_t choices[8];
        for (int i = 0; i < 8; i++)
            choices[i] = (uint32_t)(rand() % 4);
        dine_world_replay(it, choices, (size_t)(rand() % 9));
    } else if ((status = dine_site_open(&plans[shape], (uint32_t)(rand() % sites[shape]), it))) {
        failed("site", round, status);
    }
    if (rand() % 50 == 0)
        dine_close(&plans[shape]);
}

static void rounds(long count) {
    for (long round = 0; round < count; round++) {
        dine_handle *it = &things[rand() % THINGS];
        if (it->at)
            dine_close(it);
        else
            open_one(it, round);
        if (rand() % 1000 == 0) {
            uint8_t words[64];
            size_t length = ring(2 + rand() % 60, rand() % 30);
            dine_plan_refusal((const uint8_t *)text, length / 2, words, sizeof words);
        }
    }
}

static void close_all(void) {
    for (int i = 0; i < THINGS; i++)
        dine_close(&things[i]);
    for (int i = 0; i < SHAPES; i++)
        dine_close(&plans[i]);
}

/* Uses all memory up by small worlds. */
static long fill(void) {
    dine_handle plan = DINE_CLOSED_HANDLE;
    long count = 0;
    if (opened(&plan, 3, 1))
        return 0;
    while (count < SMALL && !dine_world_open(&plan, &small[count]))
        count++;
    dine_close(&plan);
    return count;
}

int main(int argc, char **argv) {
    long count = argc > 1 ? atol(argv[1]) : 1000000;
    dine_handle large = DINE_CLOSED_HANDLE;
    int64_t status;
    srand(1984);
    rounds(count);
    close_all();
    for (int turn = 0; turn < 2; turn++) {
        long worlds = fill();
        for (long i = 0; i < worlds; i++)
            dine_close(&small[(i * 7919) % worlds]);
        for (long i = 0; i < worlds; i++)
            dine_close(&small[i]);
        if ((status = opened(&large, 64, 1000)))
            failed("largest plan", count, status);
        dine_close(&large);
        printf("%ld worlds, and then the largest plan\n", worlds);
    }
    rounds(count / 10);
    close_all();
    printf("%ld rounds\n", count + count / 10);
    return 0;
}
