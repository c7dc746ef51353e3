// A scheduler that decides every step of a program's threads, for x86-64 and glibc. tools/schedules compiles it to a
// library, which LD_PRELOAD puts into the program.
//
// It sets a trap on each atomic instruction and each `pause` of the program, and takes over the calls by which its
// threads wait for one another: futex, sched_yield, pthread_create and pthread_join. One thread runs at a time: it has
// the turn. At each point, a trap or such a call, the turn goes to the thread that a random number chooses. All random
// numbers of a run come from its seed, so the same seed gives the same schedule again. If no thread can run, the run is
// deadlocked, and that is exact: only a thread could have woken another one.
//
// Before main begins, the process becomes a server, which forks itself for each seed and reports how that run ended. So
// the program is loaded, and its traps are set, once for thousands of runs.
#define _GNU_SOURCE
#include <dlfcn.h>
#include <errno.h>
#include <link.h>
#include <linux/futex.h>
#include <pthread.h>
#include <sched.h>
#include <semaphore.h>
#include <signal.h>
#include <stdint.h>
#include <stdio.h>
#include <stdlib.h>
#include <string.h>
#include <sys/mman.h>
#include <sys/resource.h>
#include <sys/syscall.h>
#include <sys/wait.h>
#include <unistd.h>

enum { DEADLOCK = 99, NO_END = 98, BROKEN = 97 }; // the statuses of a run that the scheduler ends
#define MOST_STEPS 3000000                        // a run of more steps has no end; others have some thousands
#define MOST_THREADS 80
#define MOST_SITES 4096

enum State { READY, WAITS, JOINS, ENDED };
static const char *const state_names[] = {"could go on", "waits", "joins a thread", "has ended"};

static struct Thread {
    enum State state;
    sem_t turn;
    int64_t priority;
    const void *address; // at which it waits
    int has_time, error; // whether that wait ends by itself, and what it returns then
    pthread_t handle;
    void *(*function)(void *), *argument;
    struct Thread *joins;
    uintptr_t *stack, calls[40]; // where its stack begins, and the calls that it is in if the run is explained
    int depth;
} threads[MOST_THREADS];
static int count, is_on, explains;

#define OF_THREAD static __thread __attribute__((tls_model("initial-exec")))
OF_THREAD struct Thread *me;
OF_THREAD int inside;     // in the scheduler's own code, where there is no point
OF_THREAD int steps_left; // the number of single steps to the next point, or 0 if it does not step

static struct { uint64_t steps, sum; } *report; // how many points the run had, and a sum of what was chosen there

// ---- Random numbers, and the manner of a run ----
static uint64_t random_state;

static uint64_t next_random(void) { // splitmix64
    uint64_t z = (random_state += 0x9e3779b97f4a7c15ull);
    z = (z ^ (z >> 30)) * 0xbf58476d1ce4e5b9ull;
    z = (z ^ (z >> 27)) * 0x94d049bb133111ebull;
    return z ^ (z >> 31);
}

// Chances are parts of 65536.
static int happens(uint32_t chance) { return chance && (next_random() & 0xffff) < chance; }

// A run goes by priorities that change at some steps ("probabilistic concurrency testing"), or is a random walk.
static int by_priority;
static uint64_t changes[64], change_count;
static int64_t lowest;           // the priority of the thread that yielded last
static uint32_t switch_chance;   // of a walk: that a thread that could go on does not
static int starved;              // of a walk: the number of a thread that runs only if no other can, or -1
static uint32_t stepping_chance; // that some single steps after a trap there is a point between two traps
static uint32_t spurious_chance; // that a wait ends for no reason
static uint32_t early_chance;    // that a wait with a time ends while others could run
static int leaves;               // the thread that has the turn yields it in a walk

static void choose_manner(uint64_t steps_expected) {
    static const uint32_t often[] = {0x10000, 0x8000, 0x1000, 0x300};
    uint64_t bits = next_random();
    int kind = bits & 7;
    by_priority = kind < 4;
    change_count = kind < 3 ? 1 + (bits >> 8) % 4 : kind == 3 ? 5 + (bits >> 8) % 40 : 0;
    for (uint64_t i = 0; i < change_count; i++) changes[i] = 1 + next_random() % steps_expected;
    lowest = -1000;
    switch_chance = by_priority ? 0 : often[kind - 4];
    starved = !by_priority && (bits >> 16) % 4 == 0 ? (int)((bits >> 18) % 6) : -1;
    stepping_chance = (bits >> 24) % 4 == 0 ? 0 : (bits >> 26) % 2 ? 0x1000 : 0x400;
    spurious_chance = (bits >> 28) % 4 == 0 ? 0x400 : 0;
    early_chance = (bits >> 30) % 2 ? 0x2000 : 0;
}

// ---- Whose turn it is ----
static uintptr_t base, code_begin, code_end; // of the program
static int is_code(uintptr_t at) { return at >= code_begin && at < code_end; }

static void await_turn(struct Thread *it) {
    while (sem_wait(&it->turn)) {} // a signal interrupts it
}

// Saves the return addresses on the thread's stack: the words that point behind a call in the program.
static void save_calls(void) {
    me->depth = 0;
    for (uintptr_t *it = __builtin_frame_address(0); it < me->stack && me->depth < 40; it++) {
        const unsigned char *behind = (const unsigned char *)*it;
        if (is_code(*it - 6) && (behind[-5] == 0xe8 || behind[-6] == 0xff || behind[-3] == 0xff || behind[-2] == 0xff))
            me->calls[me->depth++] = *it;
    }
}

// Ends the run. If it is explained, each thread has a line with the calls that it is in, innermost first, as offsets in
// the program: tools/schedules knows their names.
static void end_run(int status, const char *why) {
    dprintf(2, "schedule: %s after %lu steps\n", why, report->steps);
    for (struct Thread *it = threads; explains && it < threads + count; it++) {
        dprintf(2, "thread %ld %s:", it - threads, state_names[it->state]);
        for (int i = 0; i < it->depth; i++) dprintf(2, " %lx", it->calls[i] - base);
        dprintf(2, "\n");
    }
    _exit(status);
}

// One of the threads in this state, at random: one with a time if `by_time`, one at this address if that is not NULL,
// but not `except`. NULL if there is none.
static struct Thread *any(enum State state, int by_time, const void *address, const struct Thread *except) {
    struct Thread *found = NULL;
    uint64_t seen = 0;
    for (struct Thread *it = threads; it < threads + count; it++) {
        int fits = it->state == state && it != except && (it->has_time || !by_time);
        if (fits && (it->address == address || !address) && next_random() % ++seen == 0) found = it;
    }
    return found;
}

static void end_wait(struct Thread *it, int error) { it->state = READY, it->error = error; }

// Chooses one of those that can run. NULL if there is none.
static struct Thread *choose_ready(void) {
    struct Thread *best = leaves ? any(READY, 0, NULL, me) : NULL;
    leaves = 0;
    for (struct Thread *it = threads; by_priority && it < threads + count; it++)
        if (it->state == READY && (!best || it->priority > best->priority)) best = it;
    if (!best && !by_priority && me->state == READY && !happens(switch_chance)) best = me;
    if (!best) best = any(READY, 0, NULL, starved < 0 ? NULL : &threads[starved]);
    return best ? best : any(READY, 0, NULL, NULL);
}

static struct Thread *choose(void) {
    struct Thread *best = choose_ready();
    struct Thread *sleeper = !best || happens(early_chance) ? any(WAITS, 1, NULL, NULL) : NULL;
    if (sleeper) end_wait(sleeper, ETIMEDOUT);
    if (!best) best = sleeper;
    if (!best) end_run(DEADLOCK, "deadlock");
    sleeper = happens(spurious_chance) ? any(WAITS, 0, NULL, NULL) : NULL;
    if (sleeper) end_wait(sleeper, next_random() % 2 ? EINTR : 0);
    return best;
}

// Gives the turn to the chosen thread, and returns when it comes back, or at once if this thread has ended.
static void pass_turn(void) {
    if (explains) save_calls();
    struct Thread *next = choose(), *mine = me;
    report->sum = (report->sum ^ report->steps << 8 ^ (uint64_t)(next - threads)) * 1099511628211ull; // FNV-1a
    if (next == mine) return;
    int comes_back = mine->state != ENDED;
    sem_post(&next->turn);
    if (comes_back) await_turn(mine);
}

static void point(void) {
    if (++report->steps > MOST_STEPS) end_run(NO_END, "no end");
    for (uint64_t i = 0; i < change_count; i++)
        if (changes[i] == report->steps) me->priority = -1 - (int64_t)i;
    pass_turn();
}

// A point of a thread that waits in a loop, so that others have to come to run.
static void yielding_point(void) {
    me->priority = --lowest;
    leaves = !by_priority && next_random() % 8 == 0;
    point();
}

// ---- Traps ----
#define TRAP_FLAG 0x100
#define MOST_CODE (1 << 24)
#define COPY_SIZE 32
#define COPY(site) (copies + COPY_SIZE * (site))
// The sites have numbers from 1. Of each: what it is, and a copy of its instruction with a jump back behind it.
static int site_count;
static char kinds[MOST_SITES];
static unsigned char copies[COPY_SIZE * MOST_SITES] __attribute__((aligned(4096)));
static uint16_t site_at[MOST_CODE]; // of each byte of the code, 0 where no site begins

// At a site: a point, and then the copy of the instruction. At a single step: a point if it was the last one.
static void on_trap(int number, siginfo_t *info, void *context) {
    (void)number;
    int error = errno;
    greg_t *registers = ((ucontext_t *)context)->uc_mcontext.gregs;
    uintptr_t at = (uintptr_t)registers[REG_RIP];
    if (info->si_code == TRAP_TRACE || info->si_code == TRAP_HWBKPT) {
        if (steps_left > 0 && --steps_left > 0) return;
        registers[REG_EFL] &= ~(greg_t)TRAP_FLAG;
        if (is_code(at) && me && !inside) point();
    } else {
        int site = is_code(at - 1) ? site_at[at - 1 - code_begin] : 0;
        if (!site) end_run(BROKEN, "a trap of the program's own");
        if (me && !inside) {
            if (kinds[site] == 'P') yielding_point();
            else point();
            if (!steps_left && happens(stepping_chance)) {
                steps_left = 2 + (int)(next_random() % 40);
                registers[REG_EFL] |= TRAP_FLAG;
            }
        }
        registers[REG_RIP] = (greg_t)COPY(site);
    }
    errno = error;
}

#define need(is_there, what) ((is_there) ? 0 : (dprintf(2, "schedule: no %s\n", what), _exit(BROKEN), 0))

static void set_trap(unsigned char *at, unsigned length, char kind) {
    static const unsigned char jump[6] = {0xff, 0x25}; // to the address behind it
    int site = ++site_count;
    unsigned char *copy = COPY(site), *back = at + length;
    memcpy(copy, at, length);
    memcpy(copy + length, jump, sizeof jump);
    memcpy(copy + length + sizeof jump, &back, sizeof back);
    site_at[(uintptr_t)at - code_begin] = (uint16_t)site;
    kinds[site] = kind;
    *at = 0xcc;
}

// Reads where the code is and then the sites, each a line with an offset, a length, and A (atomic) or P (pause).
static void set_traps(const char *path) {
    FILE *file = fopen(path, "r");
    struct link_map *program;
    need(file && dlinfo(dlopen(NULL, RTLD_LAZY), RTLD_DI_LINKMAP, &program) == 0, "program");
    need(fscanf(file, "%lx %lx", &code_begin, &code_end) == 2, "list of sites");
    need(code_end - code_begin <= MOST_CODE, "place for so much code");
    base = program->l_addr, code_begin += base, code_end += base;
    uintptr_t from = code_begin & ~4095ul;
    const int rights = PROT_READ | PROT_WRITE | PROT_EXEC;
    need(!mprotect((void *)from, code_end - from, rights), "right to write to the code");
    need(!mprotect(copies, sizeof copies, rights), "right to run copies of it");
    unsigned offset, length;
    for (char kind; site_count < MOST_SITES - 1 && fscanf(file, "%x %u %c", &offset, &length, &kind) == 3;)
        set_trap((unsigned char *)base + offset, length, kind);
    fclose(file);
    struct sigaction action = {.sa_sigaction = on_trap, .sa_flags = SA_SIGINFO | SA_NODEFER};
    sigaction(SIGTRAP, &action, NULL);
}

// ---- The calls that are taken over ----
#define IS_SCHEDULED (is_on && me && !inside)
#define ENTER (inside++, steps_left = 0)
#define LEAVE (inside--)

static int wait_at(const uint32_t *word, uint32_t expected, const struct timespec *time) {
    if (__atomic_load_n(word, __ATOMIC_SEQ_CST) != expected) return EAGAIN;
    me->address = word;
    me->has_time = time && time->tv_sec < 1000000; // a wait without end may have a time of centuries
    if (me->has_time) me->priority = --lowest;
    me->state = WAITS;
    pass_turn();
    return me->error;
}

static long wake_at(const uint32_t *word, long most) {
    long woken = 0;
    for (struct Thread *it; woken < most && (it = any(WAITS, 0, word, NULL)); woken++) end_wait(it, 0);
    point();
    return woken;
}

// Stands for `syscall`, whose arguments, though it is variadic, are where those of any other function are.
long own_syscall(long number, long a, long b, long c, long d, long e, long f) __asm__("syscall");
long own_syscall(long number, long a, long b, long c, long d, long e, long f) {
    static long (*other)(long, ...);
    if (!other) other = dlsym(RTLD_NEXT, "syscall");
    if (number != SYS_futex || !IS_SCHEDULED) return other(number, a, b, c, d, e, f);
    ENTER;
    int call = (int)b & FUTEX_CMD_MASK;
    if (call != FUTEX_WAIT && call != FUTEX_WAKE) end_run(BROKEN, "a call of futex that the scheduler does not know");
    point();
    long woken = call == FUTEX_WAKE ? wake_at((void *)a, c) : 0;
    errno = call == FUTEX_WAIT ? wait_at((void *)a, (uint32_t)c, (void *)d) : 0;
    LEAVE;
    return errno ? -1 : woken;
}

int sched_yield(void) {
    if (!IS_SCHEDULED) return (int)syscall(SYS_sched_yield);
    ENTER;
    yielding_point();
    LEAVE;
    return 0;
}

static void *begin_thread(void *given) {
    me = given;
    me->stack = __builtin_frame_address(0);
    await_turn(me);
    void *result = me->function(me->argument);
    ENTER;
    me->state = ENDED;
    for (struct Thread *it = threads; it < threads + count; it++)
        if (it->state == JOINS && it->joins == me) it->state = READY;
    point();
    me = NULL;
    return result;
}

// The new thread can run from now on, and the next point may choose it. No turn is given here: where a sanitizer has
// made this call, it holds a lock that the new thread takes first.
int pthread_create(pthread_t *handle, const pthread_attr_t *how, void *(*function)(void *), void *argument) {
    int (*create)(pthread_t *, const pthread_attr_t *, void *(*)(void *), void *) = dlsym(RTLD_NEXT, "pthread_create");
    if (!IS_SCHEDULED) return create(handle, how, function, argument);
    if (count == MOST_THREADS) return EAGAIN;
    ENTER;
    struct Thread *it = &threads[count];
    *it = (struct Thread){.priority = (int64_t)(next_random() >> 34), .function = function, .argument = argument};
    int error = create(&it->handle, how, begin_thread, it);
    if (!error) *handle = it->handle, count++;
    LEAVE;
    return error;
}

int pthread_join(pthread_t handle, void **result) {
    int (*join)(pthread_t, void **) = dlsym(RTLD_NEXT, "pthread_join");
    if (!IS_SCHEDULED) return join(handle, result);
    ENTER;
    // A handle may be used again once its thread is joined, so the last thread that has it is meant.
    struct Thread *it = threads + count - 1;
    while (it > threads && it->handle != handle) it--;
    if (it->state != ENDED) {
        me->joins = it;
        me->state = JOINS;
        pass_turn();
    }
    int error = join(handle, result);
    LEAVE;
    return error;
}

// ---- The server ----
extern void *__libc_stack_end;

static uint64_t number_of(const char *name) {
    const char *text = getenv(name);
    return text ? strtoull(text, NULL, 0) : 0;
}

static void begin_run(uint64_t seed) {
    // Only one thread runs at a time, and the turn is given sooner on one processor: the one that the server was on.
    cpu_set_t own;
    CPU_ZERO(&own);
    CPU_SET(sched_getcpu(), &own);
    sched_setaffinity(0, sizeof own, &own);
    dup2(1, 2);
    uint64_t seconds = number_of("SCHEDULES_SECONDS");
    setrlimit(RLIMIT_CPU, &(struct rlimit){seconds, seconds}); // ends a run that goes on without any point
    alarm((unsigned)(20 * seconds)); // and one that waits at no point, but none that a busy machine holds up
    memset(report, 0, sizeof *report);
    random_state = seed * 0x9e3779b97f4a7c15ull + 12345;
    choose_manner(number_of("SCHEDULES_STEPS"));
    explains = number_of("SCHEDULES_EXPLAINS") != 0;
    count = 1;
    me = threads;
    *me = (struct Thread){.priority = (int64_t)(next_random() >> 34), .stack = __libc_stack_end};
    is_on = 1;
}

// Runs the program for each seed, on the plan that is its standard input. What a run writes goes to standard output.
// After it comes a line on the run that begins with a zero byte.
__attribute__((constructor)) static void serve(void) {
    if (!getenv("SCHEDULES_SITES")) return;
    report = mmap(NULL, sizeof *report, PROT_READ | PROT_WRITE, MAP_SHARED | MAP_ANONYMOUS, -1, 0);
    need(report != MAP_FAILED, "memory");
    set_traps(getenv("SCHEDULES_SITES"));
    uint64_t first = number_of("SCHEDULES_SEED"), behind = first + number_of("SCHEDULES_RUNS");
    for (uint64_t seed = first; seed < behind; seed++) {
        lseek(0, 0, SEEK_SET);
        pid_t run = fork();
        if (run == 0) return begin_run(seed);
        need(run > 0, "process");
        int status;
        waitpid(run, &status, 0);
        status = WIFEXITED(status) ? WEXITSTATUS(status) : -WTERMSIG(status);
        dprintf(1, "%c%lu %d %lu %lx\n", 0, seed, status, report->steps, report->sum);
    }
    _exit(0);
}
