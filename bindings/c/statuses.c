/* Each status by its name: a call that refuses returns the number that dine.h gives its reason, and writes nothing; a
 * call that does a step returns DINE_OK. */
#include "dine.h"
#include <stdio.h>
#include <stdlib.h>
#include <string.h>

static const char *PLAN =
    "version = 1\n[[site]]\nname = \"a\"\njobs = [{ name = \"x\" }, { name = \"y\" }]\n"
    "[[site]]\nname = \"b\"\njobs = [{ name = \"z\" }]\n[[edge]]\nends = [\"a\", \"b\"]\n";
static const char *RESIGNING =
    "version = 2\n[[site]]\nname = \"a\"\njobs = [{ name = \"x\" }, { name = \"y\" }]\non_fault = \"resign\"\n";
enum { BYTES = 64, FORK = DINE_LETTER_MAX, WORD = 13 };
static int wrong;
static dine_handle plan = DINE_CLOSED_HANDLE;
static uint8_t out[BYTES], letter[BYTES];

/* Stops a list of wrong answers that grows long. */
static void stop_if_many(void) {
    if (wrong > 20)
        exit(1);
}

#define WANT(call, status)                                                                                             \
    do {                                                                                                               \
        long long got = (call), want = (status);                                                                       \
        if (got != want)                                                                                               \
            printf("WRONG line %d, %s: %lld, wanted %lld\n", __LINE__, #call, got, want), wrong++, stop_if_many();     \
    } while (0)

/* The call refuses for this reason, and `out` is as it was. */
#define REFUSES(call, status)                                                                                          \
    do {                                                                                                               \
        memset(out, 0xa5, sizeof out);                                                                                 \
        WANT(call, status);                                                                                            \
        for (int at = 0; at < BYTES; at++)                                                                             \
            if (out[at] != 0xa5) {                                                                                     \
                printf("WRONG line %d, %s: wrote\n", __LINE__, #call), wrong++;                                        \
                break;                                                                                                 \
            }                                                                                                          \
    } while (0)

typedef struct pair { dine_handle a, b; } pair;

static pair opened(void) {
    pair it = {DINE_CLOSED_HANDLE, DINE_CLOSED_HANDLE};
    WANT(dine_site_open(&plan, 0, &it.a), DINE_OK);
    WANT(dine_site_open(&plan, 1, &it.b), DINE_OK);
    return it;
}

static void close_both(pair *it) {
    WANT(dine_close(&it->a), DINE_OK);
    WANT(dine_close(&it->b), DINE_OK);
}

/* Carries the letter that a call has put to the other site. */
#define CARRIED(put, to, status)                                                                                       \
    do {                                                                                                               \
        int64_t length = (put);                                                                                        \
        WANT(length > 0, 1);                                                                                           \
        WANT(dine_site_take(to, letter, (size_t)length), status);                                                      \
    } while (0)

/* Site a has eaten once, and was asked for the fork. */
static pair asked(void) {
    pair it = opened();
    WANT(dine_site_hungry(&it.a), DINE_OK);
    WANT(dine_site_begin(&it.a), DINE_OK);
    WANT(dine_site_end(&it.a, false), DINE_OK);
    WANT(dine_site_hungry(&it.b), DINE_OK);
    CARRIED(dine_site_ask(&it.b, 0, letter, BYTES), &it.a, DINE_OK);
    return it;
}

/* What writes an answer, for a handle that holds nothing of this kind. */
static void write_nothing(dine_handle *handle, int64_t of_plan, int64_t of_world, int64_t of_site) {
    REFUSES(dine_plan_name(handle, 0, out, BYTES), of_plan);
    REFUSES(dine_plan_ends(handle, 0, (dine_ends *)(void *)out), of_plan);
    REFUSES(dine_world_enabled(handle, 0, (dine_event *)(void *)out), of_world);
    REFUSES(dine_world_fork(handle, 0, (uint32_t *)(void *)out, BYTES / 4), of_world);
    REFUSES(dine_site_state(handle, (dine_site_now *)(void *)out), of_site);
    REFUSES(dine_site_place(handle, 0, (dine_place *)(void *)out), of_site);
    REFUSES(dine_site_next(handle, (dine_event *)(void *)out), of_site);
    REFUSES(dine_site_fork(handle, 0, (uint32_t *)(void *)out, BYTES / 4), of_site);
    REFUSES(dine_site_give(handle, 0, out, BYTES), of_site);
    REFUSES(dine_site_ask(handle, 0, out, BYTES), of_site);
    REFUSES(dine_site_done(handle, 0, out, BYTES), of_site);
    REFUSES(dine_site_shut(handle, 0, out, BYTES), of_site);
    REFUSES(dine_site_break(handle, 0, out, BYTES), of_site);
    REFUSES(dine_site_act(handle, &(dine_event){0, DINE_GIVE, 0}, out, BYTES), of_site);
    REFUSES(dine_site_turn(handle, (dine_event *)(void *)(out + 32), out, 32), of_site);
}

static void handles(void) {
    dine_handle closed = DINE_CLOSED_HANDLE, world = DINE_CLOSED_HANDLE, site = DINE_CLOSED_HANDLE;
    WANT(dine_world_open(&plan, &world), DINE_OK);
    WANT(dine_site_open(&plan, 1, &site), DINE_OK);
    write_nothing(&closed, DINE_CLOSED, DINE_CLOSED, DINE_CLOSED);
    WANT(dine_close(&world), DINE_OK);
    WANT(dine_world_open(&plan, &world), DINE_OK);
    REFUSES(dine_plan_name(&world, 0, out, BYTES), DINE_OTHER_KIND);
    REFUSES(dine_plan_ends(&site, 0, (dine_ends *)(void *)out), DINE_OTHER_KIND);
    REFUSES(dine_world_enabled(&plan, 0, (dine_event *)(void *)out), DINE_OTHER_KIND);
    REFUSES(dine_world_fork(&site, 0, (uint32_t *)(void *)out, 9), DINE_OTHER_KIND);
    REFUSES(dine_site_state(&plan, (dine_site_now *)(void *)out), DINE_OTHER_KIND);
    REFUSES(dine_site_place(&world, 0, (dine_place *)(void *)out), DINE_OTHER_KIND);
    REFUSES(dine_site_next(&plan, (dine_event *)(void *)out), DINE_OTHER_KIND);
    REFUSES(dine_site_fork(&world, 0, (uint32_t *)(void *)out, 9), DINE_OTHER_KIND);
    REFUSES(dine_site_give(&plan, 0, out, BYTES), DINE_OTHER_KIND);
    /* numbers that are not there */
    REFUSES(dine_plan_name(&plan, 2, out, BYTES), DINE_NO_SUCH);
    REFUSES(dine_plan_ends(&plan, 1, (dine_ends *)(void *)out), DINE_NO_SUCH);
    REFUSES(dine_world_enabled(&world, 99, (dine_event *)(void *)out), DINE_NO_SUCH);
    REFUSES(dine_world_fork(&world, 1, (uint32_t *)(void *)out, 9), DINE_NO_SUCH);
    REFUSES(dine_site_place(&site, 1, (dine_place *)(void *)out), DINE_NO_SUCH);
    REFUSES(dine_site_fork(&site, 0, (uint32_t *)(void *)out, 9), DINE_NO_SUCH);
    REFUSES(dine_site_ask(&site, 1, out, BYTES), DINE_NO_SUCH);
    REFUSES(dine_site_give(&site, 0, out, BYTES), DINE_NOT_NOW);
    REFUSES(dine_site_done(&site, 0, out, DINE_LETTER_MAX - 1), DINE_SMALL);
    WANT(dine_plan_jobs(&plan, 2), DINE_NO_SUCH);
    WANT(dine_world_open(&plan, &world), DINE_OPEN_ALREADY);
    WANT(dine_close(&world), DINE_OK);
    WANT(dine_close(&site), DINE_OK);
}

/* Each step of a world and of a site returns DINE_OK, or why not. */
static void steps(void) {
    dine_handle world = DINE_CLOSED_HANDLE, resigning = DINE_CLOSED_HANDLE, site = DINE_CLOSED_HANDLE;
    dine_event event = {0, DINE_HUNGRY, 0};
    dine_site_now now;
    WANT(dine_world_open(&plan, &world), DINE_OK);
    WANT(dine_world_step(&world, &event), DINE_OK);
    WANT(dine_world_step(&world, &event), DINE_NOT_NOW);
    event.kind = DINE_BEGIN;
    WANT(dine_world_step(&world, &event), DINE_OK);
    event.kind = DINE_CLOSE + 1;
    WANT(dine_world_step(&world, &event), DINE_NO_SUCH);
    WANT(dine_close(&world), DINE_OK);
    /* a site that resigns quits after a job that failed, and after no other */
    WANT(dine_plan_open((const uint8_t *)RESIGNING, strlen(RESIGNING), &resigning), DINE_OK);
    for (int failed = 0; failed <= 1; failed++) {
        WANT(dine_site_open(&resigning, 0, &site), DINE_OK);
        WANT(dine_site_hungry(&site), DINE_OK);
        WANT(dine_site_hungry(&site), DINE_NOT_NOW);
        WANT(dine_site_end(&site, failed), DINE_NOT_NOW);
        WANT(dine_site_begin(&site), DINE_OK);
        WANT(dine_site_quit(&site), DINE_EATING);
        WANT(dine_site_hungry(&site), DINE_EATING);
        WANT(dine_site_end(&site, failed), DINE_OK);
        WANT(dine_site_quit(&site), failed ? DINE_OK : DINE_NOT_NOW);
        WANT(dine_site_hungry(&site), failed ? DINE_NOT_NOW : DINE_OK);
        WANT(dine_site_state(&site, &now), DINE_OK);
        WANT(now.finished, failed);
        WANT(dine_close(&site), DINE_OK);
    }
    WANT(dine_close(&resigning), DINE_OK);
}

/* Bytes that are no letter: those of the run come first, and then the kind tells which length is right. */
static void bytes_of_no_letter(void) {
    static const uint8_t done_of_edge_0[WORD] = {0, 0, 0, 0, 0, 0, 0, 0, 3, 0, 0, 0, 0};
    pair it = opened();
    uint8_t bytes[BYTES];
    memset(bytes, 0, sizeof bytes);
    for (size_t length = 0; length <= 8; length++)
        WANT(dine_site_take(&it.a, bytes, length), DINE_LETTER_LENGTH);
    for (int kind = 0; kind < 256; kind++)
        for (size_t length = 9; length < BYTES; length++) {
            bytes[8] = (uint8_t)kind;
            bytes[9] = 9; /* of an edge that is not there */
            int is_kind = kind >= 1 && kind <= 4, is_length = length == (kind == 1 ? FORK : WORD);
            WANT(dine_site_take(&it.a, bytes, length),
                 !is_kind ? DINE_LETTER_KIND : !is_length ? DINE_LETTER_LENGTH : DINE_LETTER_EDGE);
        }
    /* of another run: whatever follows, and each byte of the number counts */
    for (int at = 0; at < 8; at++) {
        memset(bytes, 0, sizeof bytes);
        bytes[at] = 1;
        for (int kind = 0; kind < 6; kind++)
            for (size_t length = 8; length < BYTES; length++) {
                bytes[8] = (uint8_t)kind;
                WANT(dine_site_take(&it.a, bytes, length), DINE_OTHER_RUN);
            }
    }
    close_both(&it);
    /* these bytes are Done in each version of the library */
    it = asked();
    CARRIED(dine_site_give(&it.a, 0, letter, BYTES), &it.b, DINE_OK);
    WANT(dine_site_begin(&it.b), DINE_OK);
    WANT(dine_site_end(&it.b, false), DINE_OK);
    WANT(dine_site_done(&it.b, 0, letter, BYTES), sizeof done_of_edge_0);
    WANT(memcmp(letter, done_of_edge_0, sizeof done_of_edge_0), 0);
    close_both(&it);
}

/* Letters that the rules do not allow. */
static void breaches(void) {
    static const uint8_t request[WORD] = {[8] = 2}, done[WORD] = {[8] = 3}, closing[WORD] = {[8] = 4};
    uint8_t other[BYTES];
    pair it = asked();
    WANT(dine_site_take(&it.a, request, WORD), DINE_BREACH - 2); /* the same Request once more */
    WANT(dine_site_take(&it.a, done, WORD), DINE_BREACH - 5);    /* with a meal left */
    WANT(dine_site_take(&it.a, closing, WORD), DINE_BREACH - 6); /* before Done */
    WANT(dine_site_give(&it.a, 0, letter, BYTES), FORK);
    memcpy(other, letter, FORK);
    other[17] = 3; /* one meal more than site a has */
    WANT(dine_site_take(&it.b, other, FORK), DINE_LETTER_UNLAWFUL);
    memcpy(other, letter, FORK);
    other[21]++; /* another value than the meals give */
    WANT(dine_site_take(&it.b, other, FORK), DINE_LETTER_UNLAWFUL);
    /* Done, and then a fork with fewer meals than are due */
    WANT(dine_site_take(&it.b, done, WORD), DINE_OK);
    WANT(dine_site_take(&it.b, letter, FORK), DINE_BREACH - 4);
    WANT(dine_site_take(&it.b, done, WORD), DINE_BREACH - 5);
    close_both(&it);
    /* the fork, and once more */
    it = asked();
    WANT(dine_site_give(&it.a, 0, letter, BYTES), FORK);
    WANT(dine_site_take(&it.b, letter, FORK), DINE_OK);
    WANT(dine_site_take(&it.b, letter, FORK), DINE_BREACH - 3);
    /* both are done and close in order, and then anything */
    WANT(dine_site_begin(&it.b), DINE_OK);
    WANT(dine_site_end(&it.b, false), DINE_OK);
    WANT(dine_site_hungry(&it.a), DINE_OK);
    CARRIED(dine_site_ask(&it.a, 0, letter, BYTES), &it.b, DINE_OK);
    CARRIED(dine_site_give(&it.b, 0, letter, BYTES), &it.a, DINE_OK);
    WANT(dine_site_begin(&it.a), DINE_OK);
    WANT(dine_site_end(&it.a, false), DINE_OK);
    CARRIED(dine_site_done(&it.a, 0, letter, BYTES), &it.b, DINE_OK);
    CARRIED(dine_site_done(&it.b, 0, letter, BYTES), &it.a, DINE_OK);
    CARRIED(dine_site_shut(&it.a, 0, letter, BYTES), &it.b, DINE_OK);
    WANT(dine_site_take(&it.b, request, WORD), DINE_BREACH - 1);
    WANT(dine_site_take(&it.b, closing, WORD), DINE_BREACH - 1);
    memset(other, 0, sizeof other);
    other[8] = 1;
    WANT(dine_site_take(&it.b, other, FORK), DINE_BREACH - 1);
    close_both(&it);
}

/* The fork of an older run comes late. If both runs have one number, site b takes it, and two neighbours eat together.
 * If they have not, it is refused and nothing changes. */
static void a_late_letter(uint64_t older, uint64_t run) {
    dine_handle a = DINE_CLOSED_HANDLE, b = DINE_CLOSED_HANDLE;
    uint8_t late[BYTES];
    dine_site_now now;
    int is_same = older == run;
    WANT(dine_site_open_in(&plan, 0, older, &a), DINE_OK);
    WANT(dine_site_open_in(&plan, 1, older, &b), DINE_OK);
    WANT(dine_site_hungry(&b), DINE_OK);
    CARRIED(dine_site_ask(&b, 0, letter, BYTES), &a, DINE_OK);
    WANT(dine_site_give(&a, 0, late, BYTES), FORK);
    for (int at = 0; at < 8; at++)
        WANT(late[at], older >> (8 * at) & 0xff);
    WANT(dine_close(&a), DINE_OK);
    WANT(dine_close(&b), DINE_OK);
    WANT(dine_site_open_in(&plan, 0, run, &a), DINE_OK);
    WANT(dine_site_open_in(&plan, 1, run, &b), DINE_OK);
    WANT(dine_site_hungry(&a), DINE_OK);
    WANT(dine_site_begin(&a), DINE_OK);
    WANT(dine_site_hungry(&b), DINE_OK);
    CARRIED(dine_site_ask(&b, 0, letter, BYTES), &a, DINE_OK);
    WANT(dine_site_take(&b, late, FORK), is_same ? DINE_OK : DINE_OTHER_RUN);
    WANT(dine_site_begin(&b), is_same ? DINE_OK : DINE_NOT_NOW);
    WANT(dine_site_state(&a, &now), DINE_OK);
    WANT(now.phase, 2);
    WANT(dine_site_state(&b, &now), DINE_OK);
    WANT(now.phase, is_same ? 2 : 1);
    /* the run goes on as if nothing had come */
    WANT(dine_site_end(&a, false), DINE_OK);
    if (!is_same) {
        CARRIED(dine_site_give(&a, 0, letter, BYTES), &b, DINE_OK);
        WANT(dine_site_begin(&b), DINE_OK);
    }
    WANT(dine_close(&a), DINE_OK);
    WANT(dine_close(&b), DINE_OK);
}

static void runs(void) {
    const uint64_t most = UINT64_MAX;
    const uint8_t *text = (const uint8_t *)"version = 1\n";
    a_late_letter(0, 0);
    a_late_letter(7, 7);
    a_late_letter(0, 1);
    a_late_letter(most, 0);
    a_late_letter(1, (uint64_t)1 << 63 | 1);
    WANT(dine_run_number(text, 12, 1984) == 0x3dce6814d6b72b26u, 1);
    WANT(dine_run_number(text, 12, 1984) != dine_run_number(text, 12, 1985), 1);
    WANT(dine_run_number(text, 12, 1984) != dine_run_number(text, 11, 1984), 1);
}

/* Both sites by the events that dine_site_next names, until all is done. */
static void by_events(void) {
    pair it = opened();
    dine_handle *sites[2] = {&it.a, &it.b};
    dine_event event = {0, DINE_TAKE, 0};
    dine_site_now now;
    dine_place place;
    REFUSES(dine_site_act(&it.a, &event, out, BYTES), DINE_NO_SUCH);
    event.kind = DINE_CLOSE + 1;
    REFUSES(dine_site_act(&it.a, &event, out, BYTES), DINE_NO_SUCH);
    event.kind = DINE_HUNGRY;
    REFUSES(dine_site_act(&it.b, &event, out, BYTES), DINE_NO_SUCH); /* an event of site a */
    event.kind = DINE_GIVE;
    REFUSES(dine_site_act(&it.a, &event, out, BYTES), DINE_NOT_NOW);
    REFUSES(dine_site_act(&it.a, &event, out, FORK - 1), DINE_SMALL);
    WANT(dine_site_place(&it.a, 0, &place), DINE_OK);
    WANT(place.has_fork && place.is_dirty, 1); /* at the start the lower site has it, dirty */
    WANT(dine_site_place(&it.b, 0, &place), DINE_OK);
    WANT(place.has_fork || place.is_dirty, 0);
    int moves = 0, was_clean = 0;
    for (int turn = 0, idle = 0; idle < 2; turn++) {
        dine_handle *me = sites[turn % 2], *other = sites[(turn + 1) % 2];
        idle++;
        while (dine_site_next(me, &event) == 1) {
            int64_t length = dine_site_act(me, &event, letter, BYTES);
            WANT(length >= 0, 1);
            if (length > 0)
                WANT(dine_site_take(other, letter, (size_t)length), DINE_OK);
            WANT(dine_site_place(me, 0, &place), DINE_OK);
            if (event.kind == DINE_BEGIN)
                WANT(place.is_dirty, 1);
            WANT(dine_site_place(other, 0, &place), DINE_OK);
            if (length == FORK)
                moves++, was_clean += place.has_fork && !place.is_dirty;
            idle = 0;
        }
    }
    WANT(moves > 0 && moves == was_clean, 1);
    for (int i = 0; i < 2; i++) {
        WANT(dine_site_state(sites[i], &now), DINE_OK);
        WANT(now.finished, 1);
        WANT(now.ate, 2 - i);
    }
    close_both(&it);
}

/* A turn of the site, which refuses for this reason, and writes neither an event nor a letter. */
static void no_turn(dine_handle *site, size_t bytes, int64_t status) {
    REFUSES(dine_site_turn(site, (dine_event *)(void *)(out + 32), out, bytes), status);
}

/* Both sites by turns, until both have finished. A turn does what dine_site_next names. */
static void by_turns(void) {
    pair it = opened();
    dine_handle *sites[2] = {&it.a, &it.b};
    dine_event next, event;
    int meals = 0, finished = 0;
    WANT(dine_site_hungry(&it.b), DINE_OK);
    no_turn(&it.b, FORK - 1, DINE_SMALL); /* it is to ask for the fork */
    CARRIED(dine_site_turn(&it.b, &event, letter, BYTES), &it.a, DINE_OK);
    WANT(event.site == 1 && event.kind == DINE_ASK && event.place == 0, 1);
    no_turn(&it.b, BYTES, DINE_WAITS);
    for (int turn = 0; finished < 2 && turn < 20; turn++) {
        dine_handle *me = sites[turn % 2], *other = sites[(turn + 1) % 2];
        int64_t length;
        for (;;) {
            int64_t is_next = dine_site_next(me, &next);
            length = dine_site_turn(me, &event, letter, BYTES);
            WANT(is_next, length >= 0);
            WANT(is_next && memcmp(&next, &event, sizeof event), 0);
            if (length < 0)
                break;
            if (event.kind == DINE_BEGIN) {
                no_turn(me, BYTES, DINE_EATING);
                WANT(dine_site_end(me, false), DINE_OK);
                meals++;
            } else if (length > 0) {
                WANT(dine_site_take(other, letter, (size_t)length), DINE_OK);
            }
        }
        finished = length == DINE_FINISHED ? finished + 1 : 0;
        no_turn(me, 0, finished ? DINE_FINISHED : DINE_WAITS);
    }
    WANT(meals, 3);
    WANT(finished, 2);
    close_both(&it);
}

int main(void) {
    WANT(dine_plan_open((const uint8_t *)PLAN, strlen(PLAN), &plan), DINE_OK);
    handles();
    steps();
    bytes_of_no_letter();
    breaches();
    runs();
    by_events();
    by_turns();
    WANT(dine_close(&plan), DINE_OK);
    printf("%d wrong\n", wrong);
    return wrong != 0;
}
