/* Runs the sites of a plan on MPI ranks, several sites to a rank, as dine_mpi.py does:
 *
 *     mpicc -I../../bindings/c dine_mpi.c ../../bindings/lib/libdine.a -lpthread -o dine_mpi
 *     mpirun -n 4 ./dine_mpi [PLAN]
 *
 * With no plan it takes a grid of 8 by 8 sites with 20 jobs each. At the end rank 0 gathers the journals, and the world
 * of the plan accepts one order of all their events. That MPI carries each letter once and in order is trusted.
 *
 * With DINE_MPI_DIE_AFTER=100 the last rank is killed after 100 letters: mpirun ends the job, and says which rank. */
#include "dine.h"
#include <mpi.h>
#include <signal.h>
#include <stdio.h>
#include <stdlib.h>
#include <string.h>

enum { SIDE = 8, JOBS = 20, SITES_MAX = 64, EDGES_MAX = 512, TEXT_MAX = 1 << 22 };

/* A letter on its way: the number of its site, of its bytes, and the bytes. */
typedef struct note {
    uint32_t to, len;
    uint8_t bytes[DINE_LETTER_MAX];
} note;

/* A note that MPI sends, or that is for a site of this rank. */
typedef struct parcel {
    note note;
    MPI_Request request;
    struct parcel *next;
} parcel;

/* A list of numbers that grows. */
typedef struct numbers {
    uint32_t *at;
    size_t len, room;
} numbers;

static int rank, ranks;
static dine_handle plan, sites[SITES_MAX];
static uint32_t count, unfinished; /* all sites, and those of this rank that have not finished */
/* For each site of this rank its events: the kind and the place of each. */
static numbers journals[SITES_MAX];
static parcel *here, **last = &here, *sending;
static long long letters, dies_at;

static void fail(const char *what, long long status) {
    fprintf(stderr, "rank %d: %s: %lld\n", rank, what, status);
    MPI_Abort(MPI_COMM_WORLD, 1); /* else the other ranks would wait for letters */
}

/* Returns the answer of a call. A refusal ends the job. */
static int64_t must(const char *what, int64_t status) {
    if (status < 0)
        fail(what, status);
    return status;
}

static void *memory(void *old, size_t size) {
    void *at = realloc(old, size);
    if (!at)
        fail("no memory", (long long)size);
    return at;
}

static void push(numbers *list, uint32_t number) {
    if (list->len == list->room)
        list->at = memory(list->at, (list->room = 2 * list->room + 64) * sizeof *list->at);
    list->at[list->len++] = number;
}

static void write_event(uint32_t site, uint32_t kind, uint32_t place) {
    push(&journals[site], kind);
    push(&journals[site], place);
}

/* Frees what MPI has sent. */
static void clear_sent(void) {
    for (parcel **at = &sending; *at;) {
        parcel *it = *at;
        int is_sent;
        MPI_Test(&it->request, &is_sent, MPI_STATUS_IGNORE);
        if (is_sent) {
            *at = it->next;
            free(it);
        } else {
            at = &it->next;
        }
    }
}

/* Sends a letter to a site. It waits for nothing, so no two ranks wait for each other. */
static void send_note(note note) {
    parcel *it = memory(NULL, sizeof *it);
    it->note = note;
    it->next = NULL;
    if ((int)(note.to % ranks) == rank) {
        *last = it;
        last = &it->next;
        return;
    }
    clear_sent();
    MPI_Isend(&it->note, sizeof it->note, MPI_BYTE, note.to % ranks, 0, MPI_COMM_WORLD, &it->request);
    it->next = sending;
    sending = it;
}

/* Does all that site n may do without a letter. */
static void go(uint32_t n) {
    dine_event did;
    dine_place place = {0, 0, 0, 0, 0, 0};
    note it = {0, 0, {0}};
    int64_t len;
    while ((len = dine_site_turn(&sites[n], &did, it.bytes, sizeof it.bytes)) >= 0) {
        write_event(n, did.kind, did.place);
        if (did.kind == DINE_BEGIN) {
            must("the end of a meal", dine_site_end(&sites[n], false)); /* before this call the job is done */
            write_event(n, DINE_END, 0);
        } else if (len > 0) {
            must("a place", dine_site_place(&sites[n], did.place, &place));
            it.to = place.neighbour;
            it.len = (uint32_t)len;
            send_note(it);
        }
    }
    if (len == DINE_FINISHED)
        unfinished--;
    else if (len != DINE_WAITS)
        fail("a turn", len);
}

/* Waits for a letter, and gives it to its site. */
static void take(void) {
    note it;
    if (here) {
        parcel *first = here;
        it = first->note;
        here = first->next;
        if (!here)
            last = &here;
        free(first);
    } else {
        MPI_Recv(&it, sizeof it, MPI_BYTE, MPI_ANY_SOURCE, 0, MPI_COMM_WORLD, MPI_STATUS_IGNORE);
    }
    write_event(it.to, DINE_TAKE, (uint32_t)must("a letter", dine_site_take(&sites[it.to], it.bytes, it.len)));
    if (++letters == dies_at)
        raise(SIGKILL);
    go(it.to);
}

/* Writes for each site of this rank its journal, and the logs of the forks that it has. */
static numbers record(void) {
    numbers out = {0, 0, 0};
    for (uint32_t n = rank; n < count; n += ranks) {
        push(&out, (uint32_t)journals[n].len);
        for (size_t i = 0; i < journals[n].len; i++)
            push(&out, journals[n].at[i]);
        dine_site_now now = {0, 0, 0, 0};
        must("a state", dine_site_state(&sites[n], &now));
        for (uint32_t i = 0; i < now.degree; i++) {
            dine_place place = {0, 0, 0, 0, 0, 0};
            must("a place", dine_site_place(&sites[n], i, &place));
            uint32_t log[3 * 4096], len = 0;
            if (place.has_fork)
                len = 3 * (uint32_t)must("a log", dine_site_fork(&sites[n], i, log, 3 * 4096));
            push(&out, place.edge);
            push(&out, len);
            for (uint32_t k = 0; k < len; k++)
                push(&out, log[k]);
        }
    }
    return out;
}

/* Steps the world through the journals, each as far as it goes, until none goes on. Returns the number of events. */
static long long order(dine_handle *world, numbers *all) {
    size_t next[SITES_MAX] = {0};
    long long events = 0, before = -1, left = 0;
    while (events > before) {
        before = events;
        for (uint32_t n = 0; n < count; n++)
            for (; next[n] < all[n].len; next[n] += 2, events++) {
                dine_event event = {n, all[n].at[next[n]], all[n].at[next[n] + 1]};
                if (dine_world_step(world, &event) < 0)
                    break;
            }
    }
    for (uint32_t n = 0; n < count; n++)
        left += (long long)(all[n].len - next[n]) / 2;
    if (left > 0 || must("the world", dine_world_count(world)) > 0)
        fail("no order: events are left", left);
    return events;
}

/* Reads what a rank wrote: the journals of its sites, and the logs. */
static void read_record(int of, const uint32_t *at, numbers *all, numbers *logs) {
    for (uint32_t n = of; n < count; n += ranks) {
        for (uint32_t len = *at++; len > 0; len--)
            push(&all[n], *at++);
        dine_handle site = DINE_CLOSED_HANDLE;
        dine_site_now now = {0, 0, 0, 0};
        must("a site", dine_site_open(&plan, n, &site));
        must("a state", dine_site_state(&site, &now));
        dine_close(&site);
        for (uint32_t i = 0; i < now.degree; i++) {
            uint32_t edge = *at++;
            for (uint32_t len = *at++; len > 0; len--)
                push(&logs[edge], *at++);
        }
    }
}

/* Gathers all records at rank 0, and finds one order of all events there. */
static void gather(double seconds) {
    numbers mine = record();
    int len = (int)mine.len, lens[1024] = {0}, starts[1024] = {0}, whole = 0;
    double longest = 0;
    long long all_letters = 0;
    MPI_Gather(&len, 1, MPI_INT, lens, 1, MPI_INT, 0, MPI_COMM_WORLD);
    for (int i = 0; i < ranks && rank == 0; whole += lens[i++])
        starts[i] = whole;
    uint32_t *at = memory(NULL, (size_t)(whole + 1) * sizeof *at);
    MPI_Gatherv(mine.at, len, MPI_UINT32_T, at, lens, starts, MPI_UINT32_T, 0, MPI_COMM_WORLD);
    MPI_Reduce(&seconds, &longest, 1, MPI_DOUBLE, MPI_MAX, 0, MPI_COMM_WORLD);
    MPI_Reduce(&letters, &all_letters, 1, MPI_LONG_LONG, MPI_SUM, 0, MPI_COMM_WORLD);
    if (rank != 0)
        return;
    static numbers all[SITES_MAX], logs[EDGES_MAX];
    for (int i = 0; i < ranks; i++)
        read_record(i, at + starts[i], all, logs);
    printf("%u sites on %d ranks: %lld letters, %.0f a second\n", count, ranks, all_letters, all_letters / longest);
    dine_handle world = DINE_CLOSED_HANDLE;
    must("a world", dine_world_open(&plan, &world));
    long long events = order(&world, all);
    uint32_t edges = (uint32_t)must("the edges", dine_plan_edges(&plan));
    for (uint32_t edge = 0; edge < edges; edge++) {
        uint32_t log[3 * 4096];
        int64_t periods = must("a log", dine_world_fork(&world, edge, log, 3 * 4096));
        if (3 * (size_t)periods != logs[edge].len || memcmp(log, logs[edge].at, logs[edge].len * sizeof *log))
            fail("another log of edge", edge);
    }
    printf("one order of all %lld events is accepted, and gives the same log of each of %u forks\n", events, edges);
}

/* Writes the text of a grid: a site for each cell, and an edge between each two cells that touch. */
static size_t grid(char *text) {
    char *at = text + sprintf(text, "version = 1\n");
    for (int cell = 0; cell < SIDE * SIDE; cell++) {
        at += sprintf(at, "[[site]]\nname = \"cell-%d-%d\"\njobs = [", cell / SIDE, cell % SIDE);
        for (int k = 0; k < JOBS; k++)
            at += sprintf(at, "{ name = \"work\" }, ");
        at += sprintf(at, "]\n");
    }
    for (int cell = 0; cell < SIDE * SIDE; cell++)
        for (int down = 0; down < 2; down++) {
            int a = cell / SIDE, b = cell % SIDE, c = a + down, d = b + 1 - down;
            if (c < SIDE && d < SIDE)
                at += sprintf(at, "[[edge]]\nends = [\"cell-%d-%d\", \"cell-%d-%d\"]\n", a, b, c, d);
        }
    return (size_t)(at - text);
}

int main(int argc, char **argv) {
    MPI_Init(&argc, &argv);
    MPI_Comm_rank(MPI_COMM_WORLD, &rank);
    MPI_Comm_size(MPI_COMM_WORLD, &ranks);
    const char *dies = getenv("DINE_MPI_DIE_AFTER");
    if (dies && rank == ranks - 1)
        dies_at = atoll(dies);
    char *text = memory(NULL, TEXT_MAX);
    FILE *file = argc > 1 ? fopen(argv[1], "rb") : NULL;
    if ((argc > 1 && !file) || ranks > 1024)
        fail("no such plan, or more than 1,024 ranks", ranks);
    size_t len = file ? fread(text, 1, TEXT_MAX, file) : grid(text);
    must("the text is no plan", dine_plan_open((const uint8_t *)text, len, &plan));
    count = (uint32_t)must("the sites", dine_plan_sites(&plan));
    for (uint32_t n = rank; n < count; n += ranks, unfinished++)
        must("a site", dine_site_open(&plan, n, &sites[n]));
    MPI_Barrier(MPI_COMM_WORLD);
    double began = MPI_Wtime();
    for (uint32_t n = rank; n < count; n += ranks)
        go(n);
    while (unfinished > 0)
        take();
    double seconds = MPI_Wtime() - began;
    while (sending)
        clear_sent();
    gather(seconds);
    MPI_Finalize();
    return 0;
}
