/* A plan by calls: a ring of five sites with two jobs each, whose meals add 1 to the value of each edge. Then each call
 * of a builder refuses what it has to, for its reason, and changes nothing. */
#include "dine.h"
#include <stdio.h>
#include <string.h>

static int wrong;

#define WANT(call, status)                                                                                             \
    do {                                                                                                               \
        long long got = (call), want = (status);                                                                       \
        if (got != want)                                                                                               \
            printf("WRONG line %d, %s: %lld, wanted %lld\n", __LINE__, #call, got, want), wrong++;                     \
    } while (0)

static int64_t site(dine_handle *builder, const char *name, uint32_t jobs) {
    return dine_plan_builder_site(builder, (const uint8_t *)name, strlen(name), jobs);
}

static void ring(dine_handle *plan) {
    dine_handle builder = DINE_CLOSED_HANDLE;
    WANT(dine_plan_builder_open(&builder), DINE_OK);
    for (uint32_t n = 0; n < 5; n++) {
        char name[] = {'s', (char)('0' + n), 0};
        WANT(site(&builder, name, 2), n);
        for (uint32_t k = 1; k <= 2; k++)
            WANT(dine_plan_builder_act(&builder, n, k, false, 1), DINE_OK);
    }
    for (uint32_t n = 0; n < 5; n++)
        WANT(dine_plan_builder_edge(&builder, n, (n + 1) % 5), n);
    WANT(dine_plan_builder_value(&builder, 4, 100), DINE_OK);
    WANT(dine_plan_builder_finish(&builder, plan), DINE_OK);
    WANT(dine_close(&builder), DINE_OK);
    WANT(dine_close(&builder), DINE_CLOSED);
}

/* All meals of the ring are eaten: each end of an edge adds 1 twice. */
static void eaten(dine_handle *plan) {
    dine_handle world = DINE_CLOSED_HANDLE;
    dine_ends ends;
    uint8_t name[32];
    WANT(dine_plan_version(plan), 2);
    WANT(dine_plan_sites(plan), 5);
    WANT(dine_plan_edges(plan), 5);
    WANT(dine_plan_jobs(plan, 4), 2);
    WANT(dine_plan_name(plan, 3, name, sizeof name), 2);
    WANT(memcmp(name, "s3", 2), 0);
    WANT(dine_plan_ends(plan, 4, &ends), DINE_OK);
    WANT(ends.lower == 0 && ends.higher == 4, 1);
    WANT(dine_world_open(plan, &world), DINE_OK);
    WANT(dine_world_finish(&world) > 0, 1);
    for (uint32_t edge = 0; edge < 5; edge++)
        WANT(dine_world_value(&world, edge), edge == 4 ? 104 : 4);
    WANT(dine_close(&world), DINE_OK);
}

static void handles(dine_handle *plan) {
    dine_handle builder = DINE_CLOSED_HANDLE, closed = DINE_CLOSED_HANDLE, world = DINE_CLOSED_HANDLE;
    dine_handle *no_builder[] = {&closed, plan, &world};
    WANT(dine_world_open(plan, &world), DINE_OK);
    for (int i = 0; i < 3; i++) {
        dine_handle *it = no_builder[i];
        int64_t status = i == 0 ? DINE_CLOSED : DINE_OTHER_KIND;
        WANT(site(it, "a", 1), status);
        WANT(dine_plan_builder_edge(it, 0, 1), status);
        WANT(dine_plan_builder_value(it, 0, 1), status);
        WANT(dine_plan_builder_resign(it, 0), status);
        WANT(dine_plan_builder_turns(it, 0, 1, 1), status);
        WANT(dine_plan_builder_fails(it, 0, 1), status);
        WANT(dine_plan_builder_act(it, 0, 1, true, 1), status);
        WANT(dine_plan_builder_finish(it, &builder), status);
    }
    WANT(dine_plan_builder_open(&builder), DINE_OK);
    WANT(dine_plan_builder_open(&builder), DINE_OPEN_ALREADY);
    WANT(dine_plan_builder_finish(&builder, plan), DINE_OPEN_ALREADY);
    WANT(dine_plan_builder_finish(&builder, &builder), DINE_SAME_HANDLE);
    WANT(dine_plan_builder_finish(&builder, &closed), -108);
    WANT(dine_plan_sites(&builder), DINE_OTHER_KIND);
    WANT(dine_world_count(&builder), DINE_OTHER_KIND);
    WANT(dine_site_hungry(&builder), DINE_OTHER_KIND);
    WANT(dine_plan_builder_open(NULL), DINE_NULL);
    WANT(dine_plan_builder_site(&builder, NULL, 1, 1), DINE_NULL);
    WANT(dine_plan_builder_site(&builder, NULL, 0, 1), -106);
    WANT(dine_plan_builder_finish(&builder, NULL), DINE_NULL);
    WANT(dine_close(&builder), DINE_OK);
    WANT(dine_close(&world), DINE_OK);
}

static void sites(void) {
    static const char *no_names[] = {"", "a b", "a.b", "\xc3\xa4", "\xff", "123456789012345678901234567890123"};
    dine_handle builder = DINE_CLOSED_HANDLE, plan = DINE_CLOSED_HANDLE;
    WANT(dine_plan_builder_open(&builder), DINE_OK);
    for (int i = 0; i < 6; i++)
        WANT(site(&builder, no_names[i], 5000), -106);
    WANT(site(&builder, "a", 1001), -110);
    WANT(site(&builder, "a", UINT32_MAX), -110);
    WANT(site(&builder, "a", 1000), 0);
    WANT(site(&builder, "a", 5000), -107);
    WANT(site(&builder, "12345678901234567890123456789_-Z", 0), 1);
    for (uint32_t n = 2; n < 64; n++) {
        char name[] = {(char)('A' + n / 26), (char)('A' + n % 26), 0};
        WANT(site(&builder, name, 1), n);
    }
    WANT(site(&builder, "one-more", 5000), -109);
    WANT(site(&builder, "a", 1), -107);
    for (uint32_t i = 0, n = 0; i < 64 && n < 512; i++)
        for (uint32_t j = 0; j < i && n < 512; j++)
            WANT(dine_plan_builder_edge(&builder, i, j), n++);
    WANT(dine_plan_builder_edge(&builder, 63, 62), -115);
    WANT(dine_plan_builder_edge(&builder, 0, 1), -114);
    WANT(dine_plan_builder_finish(&builder, &plan), DINE_OK);
    WANT(dine_plan_sites(&plan), 64);
    WANT(dine_plan_edges(&plan), 512);
    WANT(dine_plan_jobs(&plan, 0), 1000);
    WANT(dine_plan_jobs(&plan, 1), 0);
    WANT(dine_close(&plan), DINE_OK);
    WANT(dine_close(&builder), DINE_OK);
}

static void edges_and_jobs(void) {
    dine_handle builder = DINE_CLOSED_HANDLE, plan = DINE_CLOSED_HANDLE, world = DINE_CLOSED_HANDLE;
    WANT(dine_plan_builder_open(&builder), DINE_OK);
    WANT(site(&builder, "a", 2), 0);
    WANT(dine_plan_builder_edge(&builder, 0, 1), -112);
    WANT(dine_plan_builder_edge(&builder, 7, 7), -112);
    WANT(dine_plan_builder_edge(&builder, 0, 0), -113);
    WANT(dine_plan_builder_value(&builder, 0, 1), DINE_NO_SUCH);
    WANT(site(&builder, "b", 1), 1);
    WANT(dine_plan_builder_edge(&builder, 1, 0), 0);
    WANT(dine_plan_builder_edge(&builder, 0, 1), -114);
    WANT(dine_plan_builder_edge(&builder, 1, 0), -114);
    WANT(dine_plan_builder_value(&builder, 0, 1000001), -119);
    WANT(dine_plan_builder_value(&builder, 0, 1000000), DINE_OK);
    WANT(dine_plan_builder_value(&builder, 1, 1), DINE_NO_SUCH);
    WANT(dine_plan_builder_resign(&builder, 2), DINE_NO_SUCH);
    WANT(dine_plan_builder_resign(&builder, 0), DINE_OK);
    WANT(dine_plan_builder_turns(&builder, 0, 1, 1000001), -111);
    WANT(dine_plan_builder_turns(&builder, 0, 1, 1000000), DINE_OK);
    WANT(dine_plan_builder_act(&builder, 0, 1, true, 1000001), -118);
    WANT(dine_plan_builder_act(&builder, 0, 1, true, 7), DINE_OK);
    WANT(dine_plan_builder_act(&builder, 1, 1, false, 5), DINE_OK);
    for (uint32_t i = 0; i < 3; i++) {
        static const uint32_t none[3][2] = {{0, 0}, {0, 3}, {2, 1}};
        WANT(dine_plan_builder_turns(&builder, none[i][0], none[i][1], 1), DINE_NO_SUCH);
        WANT(dine_plan_builder_fails(&builder, none[i][0], none[i][1]), DINE_NO_SUCH);
        WANT(dine_plan_builder_act(&builder, none[i][0], none[i][1], true, 1), DINE_NO_SUCH);
    }
    WANT(dine_plan_builder_fails(&builder, 0, 1), DINE_OK);
    /* what was refused changed nothing: a job of a fails, and then a drops the other one */
    WANT(dine_plan_builder_finish(&builder, &plan), DINE_OK);
    WANT(dine_world_open(&plan, &world), DINE_OK);
    WANT(dine_world_finish(&world) > 0, 1);
    WANT(dine_world_ate(&world, 0), 1);
    WANT(dine_world_ate(&world, 1), 1);
    WANT(dine_world_value(&world, 0) == 12 || dine_world_value(&world, 0) == 7, 1);
    WANT(dine_close(&world), DINE_OK);
    WANT(dine_close(&plan), DINE_OK);
    /* the builder goes on */
    WANT(site(&builder, "c", 0), 2);
    WANT(dine_plan_builder_finish(&builder, &plan), DINE_OK);
    WANT(dine_plan_sites(&plan), 3);
    WANT(dine_close(&plan), DINE_OK);
    WANT(dine_close(&builder), DINE_OK);
}

int main(void) {
    dine_handle plan = DINE_CLOSED_HANDLE;
    ring(&plan);
    eaten(&plan);
    handles(&plan);
    sites();
    edges_and_jobs();
    WANT(dine_close(&plan), DINE_OK);
    printf("%d wrong\n", wrong);
    return wrong != 0;
}
