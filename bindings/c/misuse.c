/* Calls that are not as they should be: null pointers, handles that are closed, of another kind, used twice or never
 * set, and letters that are cut, changed or made up. Each has to answer, and to change nothing. */
#include "dine.h"
#include <pthread.h>
#include <stdio.h>
#include <stdlib.h>
#include <string.h>

enum { MUTATED = 100000, MISUSED = 1000 };

static const char *PLAN =
    "version = 1\n[[site]]\nname = \"a\"\njobs = [{ name = \"x\" }, { name = \"y\" }]\n"
    "[[site]]\nname = \"b\"\njobs = [{ name = \"z\" }]\n[[edge]]\nends = [\"a\", \"b\"]\n";
static int wrong;
#define WANT(call, status)                                                                                             \
    do {                                                                                                               \
        long long got = (call), want = (status);                                                                       \
        if (got != want)                                                                                               \
            printf("WRONG %s: %lld, wanted %lld\n", #call, got, want), wrong++;                                        \
    } while (0)

static dine_handle plan = DINE_CLOSED_HANDLE;

/* What can be seen of a site. */
typedef struct seen {
    dine_site_now now;
    dine_place place;
    dine_event next;
    int64_t has_next, value, periods;
    uint32_t log[24];
} seen;

static seen look(dine_handle *site) {
    seen it;
    memset(&it, 0, sizeof it);
    dine_site_state(site, &it.now);
    dine_site_place(site, 0, &it.place);
    it.has_next = dine_site_next(site, &it.next);
    it.value = dine_site_value(site, 0);
    it.periods = dine_site_fork(site, 0, it.log, 24);
    return it;
}

/* Brings the pair to where site a has sent its first fork, and returns the letter's length. */
static int64_t first_fork(dine_handle *a, dine_handle *b, uint8_t *letter) {
    uint8_t ask[DINE_LETTER_MAX];
    WANT(dine_site_open(&plan, 0, a), DINE_OK);
    WANT(dine_site_open(&plan, 1, b), DINE_OK);
    WANT(dine_site_hungry(b), DINE_OK);
    int64_t n = dine_site_ask(b, 0, ask, sizeof ask);
    WANT(dine_site_hungry(a), DINE_OK);
    WANT(dine_site_begin(a), DINE_OK);
    WANT(dine_site_end(a, false), DINE_OK);
    WANT(dine_site_take(a, ask, n), DINE_OK);
    return dine_site_give(a, 0, letter, DINE_LETTER_MAX);
}

static void nulls(dine_handle *world, dine_handle *site) {
    uint8_t bytes[32];
    dine_event event = {0, 0, 0};
    dine_handle other = DINE_CLOSED_HANDLE;
    WANT(dine_close(NULL), DINE_NULL);
    WANT(dine_plan_open(NULL, 3, &other), DINE_NULL);
    WANT(dine_plan_open(NULL, 0, &other), -102); /* the empty text has no version */
    WANT(dine_plan_open((const uint8_t *)PLAN, 3, NULL), DINE_NULL);
    WANT(dine_plan_refusal(NULL, 0, bytes, 32), 9); /* 2 Version */
    WANT(dine_plan_refusal((const uint8_t *)PLAN, 3, NULL, 32), DINE_NULL);
    WANT(dine_plan_refusal((const uint8_t *)PLAN, strlen(PLAN), NULL, 0), 0);
    WANT(dine_plan_name(&plan, 0, NULL, 32), DINE_NULL);
    WANT(dine_plan_name(&plan, 0, NULL, 0), 1);
    WANT(dine_plan_ends(&plan, 0, NULL), DINE_NULL);
    WANT(dine_world_open(NULL, &other), DINE_NULL);
    WANT(dine_world_open(&plan, NULL), DINE_NULL);
    WANT(dine_world_open(&plan, &plan), DINE_SAME_HANDLE);
    WANT(dine_site_open(&plan, 0, &plan), DINE_SAME_HANDLE);
    WANT(dine_site_open_in(&plan, 0, 1, &plan), DINE_SAME_HANDLE);
    WANT(dine_site_open_in(NULL, 0, 1, &other), DINE_NULL);
    WANT(dine_site_open_in(&plan, 0, 1, NULL), DINE_NULL);
    WANT(dine_world_enabled(world, 0, NULL), DINE_NULL);
    WANT(dine_world_step(world, NULL), DINE_NULL);
    WANT(dine_world_step(NULL, &event), DINE_NULL);
    WANT(dine_world_replay(world, NULL, 1), DINE_NULL);
    WANT(dine_world_replay(world, NULL, 0), 0);
    WANT(dine_site_take(site, NULL, 5), DINE_NULL);
    WANT(dine_site_take(site, NULL, 0), DINE_LETTER_LENGTH);
    WANT(dine_site_give(site, 0, NULL, 32), DINE_NULL);
    WANT(dine_site_give(NULL, 0, bytes, 32), DINE_NULL);
    WANT(dine_site_state(site, NULL), DINE_NULL);
    WANT(dine_site_turn(NULL, &event, bytes, 32), DINE_NULL);
    WANT(dine_site_turn(site, NULL, bytes, 32), DINE_NULL);
    WANT(dine_site_turn(site, &event, NULL, 32), DINE_NULL);
}

static void handles(void) {
    dine_handle h = DINE_CLOSED_HANDLE, world = DINE_CLOSED_HANDLE, site = DINE_CLOSED_HANDLE, garbage;
    dine_event event;
    WANT(dine_world_count(&h), DINE_CLOSED);
    WANT(dine_close(&h), DINE_CLOSED);
    WANT(dine_plan_open((const uint8_t *)PLAN, 3, &h), -101);
    WANT(dine_plan_open((const uint8_t *)"version = 3", 11, &h), -102);
    WANT(dine_plan_open((const uint8_t *)"\xff\xfe", 2, &h), -101);
    WANT(dine_world_open(&h, &world), DINE_CLOSED);
    WANT(dine_world_open(&plan, &world), DINE_OK);
    WANT(dine_world_open(&plan, &world), DINE_OPEN_ALREADY);
    WANT(dine_site_open(&plan, 0, &world), DINE_OPEN_ALREADY);
    WANT(dine_site_open(&world, 0, &site), DINE_OTHER_KIND);
    WANT(dine_site_open(&plan, 2, &site), DINE_NO_SUCH);
    WANT(dine_site_open_in(&plan, 0, 1, &world), DINE_OPEN_ALREADY);
    WANT(dine_site_open_in(&world, 0, 1, &site), DINE_OTHER_KIND);
    WANT(dine_site_open_in(&plan, 2, 1, &site), DINE_NO_SUCH);
    WANT(dine_site_open(&plan, 1, &site), DINE_OK);
    WANT(dine_site_next(&world, &event), DINE_OTHER_KIND);
    WANT(dine_world_count(&site), DINE_OTHER_KIND);
    WANT(dine_world_count(&plan), DINE_OTHER_KIND);
    WANT(dine_plan_sites(&world), DINE_OTHER_KIND);
    WANT(dine_world_enabled(&world, 99, &event), DINE_NO_SUCH);
    WANT(dine_world_phase(&world, 2), DINE_NO_SUCH);
    WANT(dine_world_value(&world, 1), DINE_NO_SUCH);
    event = (dine_event){0, DINE_BEGIN, 0};
    WANT(dine_world_step(&world, &event), DINE_NOT_NOW);
    event = (dine_event){7, DINE_ASK, 4000000000u};
    WANT(dine_world_step(&world, &event), DINE_NOT_NOW);
    event.kind = 77;
    WANT(dine_world_step(&world, &event), DINE_NO_SUCH);
    nulls(&world, &site);
    WANT(dine_close(&world), DINE_OK);
    WANT(dine_close(&world), DINE_CLOSED);
    memset(&garbage, 0xa5, sizeof garbage); /* never set: the number in it is not that of an open handle */
    WANT(dine_world_count(&garbage), DINE_CLOSED);
    WANT(dine_close(&site), DINE_OK);
}

static void letters(void) {
    dine_handle a = DINE_CLOSED_HANDLE, b = DINE_CLOSED_HANDLE;
    uint8_t letter[64], other[64];
    int64_t n = first_fork(&a, &b, letter);
    WANT(n, DINE_LETTER_MAX);
    WANT(dine_site_give(&a, 0, other, sizeof other), DINE_NOT_NOW);
    WANT(dine_site_give(&a, 9, other, sizeof other), DINE_NO_SUCH);
    WANT(dine_site_done(&a, 0, other, DINE_LETTER_MAX - 1), DINE_SMALL);
    WANT(dine_site_take(&a, letter, n), DINE_BREACH - 3); /* its own letter comes back */
    for (int64_t k = 0; k < n; k++)
        WANT(dine_site_take(&b, letter, k), DINE_LETTER_LENGTH);
    memcpy(other, letter, n);
    WANT(dine_site_take(&b, other, n + 1), DINE_LETTER_LENGTH);
    other[9] = 1;
    WANT(dine_site_take(&b, other, n), DINE_LETTER_EDGE);
    /* mutated letters: each is refused and changes nothing, unless site a could have sent it, after 0 to 2 meals */
    srand(1984);
    seen before = look(&b);
    int refused = 0, lawful = 0;
    while (refused < MUTATED) {
        memcpy(other, letter, n);
        int64_t len = rand() % 4 ? n : rand() % 64;
        for (int changes = 1 + rand() % 3; changes > 0; changes--)
            other[rand() % n] = rand() % 3 ? rand() % 4 : rand();
        int could_be = len == n && !memcmp(other, letter, 17) && !memcmp(other + 21, letter + 21, 8) &&
                       other[17] <= 2 && !other[18] && !other[19] && !other[20];
        int plain = len == 13 && !memcmp(other, letter, 8) && other[8] >= 2 && other[8] <= 4;
        if (could_be || plain) {
            lawful++;
            continue;
        }
        int64_t status = dine_site_take(&b, other, len);
        seen after = look(&b);
        refused++;
        if (status >= 0 || memcmp(&before, &after, sizeof before)) {
            printf("WRONG mutated letter %d: %lld\n", refused, (long long)status);
            wrong++;
            break;
        }
    }
    WANT(dine_site_take(&b, letter, n), DINE_OK);         /* the true letter */
    WANT(dine_site_take(&b, letter, n), DINE_BREACH - 3); /* and once more */
    WANT(dine_site_begin(&b), DINE_OK);
    WANT(dine_site_take(&b, letter, n), DINE_BREACH - 3); /* a site that eats has all its forks */
    WANT(dine_site_hungry(&a), DINE_OK);
    n = dine_site_ask(&a, 0, letter, sizeof letter);
    WANT(dine_site_take(&b, letter, n), DINE_OK);
    WANT(dine_site_begin(&b), DINE_EATING);
    WANT(dine_close(&b), DINE_OK); /* closed while it eats */
    WANT(dine_close(&a), DINE_OK);
    printf("%d mutated letters refused, %d that could have been sent left out\n", refused, lawful);
}

/* A site takes letters while it eats, and acts on them when its meal is over. */
static void during_a_meal(void) {
    dine_handle a = DINE_CLOSED_HANDLE, b = DINE_CLOSED_HANDLE;
    uint8_t letter[DINE_LETTER_MAX], ask[DINE_LETTER_MAX], fork[DINE_LETTER_MAX];
    dine_place place;
    int64_t n = first_fork(&a, &b, letter);
    WANT(dine_site_take(&b, letter, n), DINE_OK);
    WANT(dine_site_begin(&b), DINE_OK);
    WANT(dine_site_hungry(&a), DINE_OK);
    int64_t asked = dine_site_ask(&a, 0, ask, sizeof ask);
    WANT(asked, 13);
    WANT(dine_site_take(&b, ask, asked), DINE_OK);
    WANT(dine_site_take(&b, ask, asked), DINE_BREACH - 2); /* the same Request once more */
    WANT(dine_site_place(&b, 0, &place), DINE_OK);
    WANT(place.has_token, 1);
    WANT(dine_site_give(&b, 0, fork, sizeof fork), DINE_EATING);
    WANT(dine_site_end(&b, false), DINE_OK);
    WANT(dine_site_give(&b, 0, fork, sizeof fork), DINE_LETTER_MAX);
    WANT(dine_site_take(&a, fork, DINE_LETTER_MAX), DINE_OK);
    WANT(dine_site_begin(&a), DINE_OK);
    WANT(dine_site_done(&b, 0, letter, sizeof letter), 13);
    WANT(dine_site_take(&a, letter, 13), DINE_OK); /* Done, during a meal */
    WANT(dine_site_end(&a, false), DINE_OK);
    WANT(dine_site_done(&a, 0, letter, sizeof letter), 13);
    WANT(dine_site_take(&b, letter, 13), DINE_OK);
    WANT(dine_close(&a), DINE_OK);
    WANT(dine_close(&b), DINE_OK);
}

/* The causes of refused plans, in words. */
static void refusals(void) {
    static const char *twice = "version = 1\n[[site]]\nname = \"a\"\n[[site]]\nname = \"a\"\n";
    uint8_t words[64];
    int64_t n = dine_plan_refusal((const uint8_t *)twice, strlen(twice), words, sizeof words);
    WANT(n, (int64_t)strlen("7 SiteTwice at site 1"));
    WANT(memcmp(words, "7 SiteTwice at site 1", n), 0);
    WANT(dine_plan_refusal((const uint8_t *)"version = 3", 11, words, sizeof words), 9);
    WANT(memcmp(words, "2 Version", 9), 0);
    memset(words, '.', sizeof words);
    WANT(dine_plan_refusal((const uint8_t *)"\xff", 1, words, 3), 9); /* no more than fits */
    WANT(memcmp(words, "1 N....", 7), 0);
    WANT(dine_plan_refusal((const uint8_t *)PLAN, strlen(PLAN), words, sizeof words), 0);
    WANT(dine_plan_refusal((const uint8_t *)PLAN, strlen(PLAN), NULL, 0), 0);
    WANT(dine_plan_refusal(NULL, 1, words, sizeof words), DINE_NULL);
}

/* The deepest brackets that a text may have, and one more, on a thread with the stack that dine.h asks for. */
static void *read_nested(void *unused) {
    uint8_t words[64];
    char text[256];
    for (int depth = 80; depth <= 81; depth++) {
        int n = sprintf(text, "version = 1\nx = ");
        memset(text + n, '[', depth);
        memset(text + n + depth, ']', depth);
        WANT(dine_plan_refusal((const uint8_t *)text, n + 2 * depth, words, sizeof words), depth == 80 ? 12 : 9);
        WANT(memcmp(words, depth == 80 ? "3 UnknownKey" : "1 NotToml", depth == 80 ? 12 : 9), 0);
    }
    return unused;
}

static void on_a_small_stack(void) {
    pthread_attr_t attributes;
    pthread_t thread;
    pthread_attr_init(&attributes);
    WANT(pthread_attr_setstacksize(&attributes, 128 * 1024), 0);
    WANT(pthread_create(&thread, &attributes, read_nested, NULL), 0);
    WANT(pthread_join(thread, NULL), 0);
}

int main(void) {
    WANT(dine_plan_open((const uint8_t *)PLAN, strlen(PLAN), &plan), DINE_OK);
    for (int i = 0; i < MISUSED; i++)
        handles();
    letters();
    during_a_meal();
    refusals();
    on_a_small_stack();
    WANT(dine_close(&plan), DINE_OK);
    printf("%d wrong\n", wrong);
    return wrong != 0;
}
