/* dine.h: the proved rules of Chandy and Misra's dining philosophers, for C.
 *
 * Link with libdine.a or libdine.so. No call starts a thread, sleeps, or reads or writes a file. In a library that is
 * made without the kit, calls on several threads wait for each other; else no call takes a lock.
 *
 * HANDLES. A dine_handle is two words of your memory. It is closed if both are zero:
 *     dine_handle world = DINE_CLOSED_HANDLE;
 * An open call puts a plan, a world, a site or a builder into a closed handle. dine_close takes it out and frees its
 * memory.
 *
 * ANSWERS. A number from 0 on is an answer. A number below 0 says why there is none, and then nothing has changed, and
 * nothing was written for you. A null pointer, a closed handle, a handle of another kind, a number out of range and
 * bytes that are no letter are such answers. Else a call for a step does it if the rules allow it now, and refuses if
 * they do not. It returns DINE_OK if it did the step, or the number of the letter's bytes if the step puts one, or the
 * place if the step takes one. Two things more may stop it: the memory for a letter is too small, or an allocation
 * failed, of a Fork that may be taken.
 *
 * WHAT YOU PROMISE, since nothing can check it:
 *   - a handle is set to zero before its first use, and after that only these calls write into it; no copy of an open
 *     handle is used;
 *   - one call at a time uses a handle. It may go to another thread, if a lock or a join orders the calls;
 *   - a pointer that is not null leads to as many elements as the length says, and no two arguments overlap;
 *   - no call comes from a signal handler;
 *   - a call has 128 KB of stack. dine_plan_open and dine_plan_refusal need the most, for a text with nested brackets.
 *
 * MEMORY. In a library that is made without the kit all handles of a process share one memory, which grows up to 1 GB
 * and is not given back to the system. What is closed is used again, also in pieces of another size. A call copies its
 * arguments there, and returns DINE_MEMORY if they do not fit, whatever it is for.
 *
 * RUNS. A letter begins with the number of its run. A site takes no letter of another run: it returns DINE_OTHER_RUN
 * before anything else is checked. Without that a late letter of an older run would let two neighbours eat together. So
 * open all sites of a run by dine_site_open_in with one number, and take another number for each run; see
 * dine_run_number.
 *
 * WHAT NO CALL CAN KNOW. A number of a site, an edge or a place that is out of range is refused. One of another plan
 * that is in range is taken as a number of this one. A letter of the run is refused if its edge is none of the site's,
 * or if the fork that was kept does not explain it; a Request, a Done or a Close of another plan's edge with the same
 * number is taken, if both runs have one number. A letter tells how many meals its sender ate and the value of the
 * edge, and nothing else is known of them.
 */
#ifndef DINE_H
#define DINE_H
#include <stdbool.h>
#include <stddef.h>
#include <stdint.h>
#ifdef __cplusplus
extern "C" {
#endif

typedef struct dine_handle { void *at; uint32_t state; } dine_handle;
#define DINE_CLOSED_HANDLE { 0, 0 }

enum {
    DINE_OK = 0,
    DINE_CLOSED = -1,           /* the handle is closed */
    DINE_OTHER_KIND = -2,       /* the handle holds a thing of another kind */
    DINE_NOT_NOW = -3,          /* the rules do not allow the event now */
    DINE_NO_SUCH = -4,          /* there is no such site, edge, place, event or kind */
    DINE_MEMORY = -5,           /* an allocation failed */
    DINE_SMALL = -6,            /* the memory for the letter has fewer than DINE_LETTER_MAX bytes */
    DINE_EATING = -7,           /* the site eats: end the meal first; dine_site_take works during a meal */
    DINE_OPEN_ALREADY = -8,     /* the handle to be opened is open */
    DINE_NULL = -9,             /* a pointer is null */
    DINE_SAME_HANDLE = -10,     /* two handles of one call are one */
    DINE_LETTER_LENGTH = -11,   /* the bytes are no letter: too few, or too few or too many for its kind */
    DINE_LETTER_KIND = -12,     /* the bytes are no letter: the one behind the number of the run is no kind */
    DINE_LETTER_UNLAWFUL = -13, /* the other end cannot have done that with the fork */
    DINE_LETTER_EDGE = -14,     /* the letter is of an edge that the site does not have */
    DINE_OTHER_RUN = -15,       /* the letter is of another run */
    DINE_WAITS = -16,           /* a turn: the site can do nothing before it takes a letter */
    DINE_FINISHED = -17,        /* a turn: the site has done all, and put and taken all letters */
    /* The rules do not allow the letter now. Breach n of docs/FORMAT.md is DINE_BREACH - n: */
    DINE_BREACH = -20,
    /* words breaches, by tools/words */
    /* A letter after Close. */
    DINE_BREACH_AFTER_CLOSE = -21,
    /* A Request while the fork is away or the token is here, or after Done, or of another edge, or from a site that ate
     * all its meals. */
    DINE_BREACH_REQUEST_OUT_OF_TURN = -22,
    /* A Fork, although the fork or the token is here. */
    DINE_BREACH_FORK_OUT_OF_TURN = -23,
    /* A Fork that is not the fork of this edge, or whose log is not as it has to be. */
    DINE_BREACH_STRANGE_FORK = -24,
    /* A second Done; or, while the fork is here, a Done of a site that does not resign, before the log has all its
     * meals. */
    DINE_BREACH_DONE_OUT_OF_TURN = -25,
    /* A Close before both sites said Done. */
    DINE_BREACH_CLOSED_EARLY = -26,
    /* end */
    /* The text is no plan, or the builder would have none; dine_plan_refusal writes the cause of a text. Cause n of
     * docs/FORMAT.md is DINE_CAUSE - n: */
    DINE_CAUSE = -100,
    /* words causes, by tools/words */
    /* The text is no TOML, or no UTF-8. */
    DINE_CAUSE_NOT_TOML = -101,
    /* The plan has no `version`, or one that is not the whole number 1 or 2. */
    DINE_CAUSE_VERSION = -102,
    /* A table has a key that plans do not have there, or not in this version. */
    DINE_CAUSE_UNKNOWN_KEY = -103,
    /* A site or a job has no `name`, or an edge no `ends`. */
    DINE_CAUSE_MISSING_KEY = -104,
    /* A value is of the wrong kind, such as a text for a number, or is a number below 0. */
    DINE_CAUSE_WRONG_KIND = -105,
    /* The name of this site, or of one of its jobs, is not 1 to 32 ASCII letters, digits, `_` or `-`. */
    DINE_CAUSE_BAD_NAME = -106,
    /* An earlier site has the name of this site. */
    DINE_CAUSE_SITE_TWICE = -107,
    /* There is no site. */
    DINE_CAUSE_NO_SITE = -108,
    /* There are more than 64 sites. */
    DINE_CAUSE_TOO_MANY_SITES = -109,
    /* This site has more than 1,000 jobs. */
    DINE_CAUSE_TOO_MANY_JOBS = -110,
    /* A job of this site has `turns` above 1,000,000. */
    DINE_CAUSE_TURNS_TOO_LARGE = -111,
    /* An end of this edge is no site's name. */
    DINE_CAUSE_UNKNOWN_END = -112,
    /* Both ends of this edge are one site. */
    DINE_CAUSE_LOOP = -113,
    /* An earlier edge joins the two sites of this one. */
    DINE_CAUSE_EDGE_TWICE = -114,
    /* There are more than 512 edges. */
    DINE_CAUSE_TOO_MANY_EDGES = -115,
    /* A job of this site has both `add` and `set`. */
    DINE_CAUSE_TWO_ACTS = -117,
    /* A job of this site has `add` or `set` above 1,000,000. */
    DINE_CAUSE_ACT_TOO_LARGE = -118,
    /* The value of this edge is above 1,000,000. */
    DINE_CAUSE_VALUE_TOO_LARGE = -119,
    /* `on_fault` of this site is neither `go` nor `resign`. */
    DINE_CAUSE_UNKNOWN_POLICY = -120,
    /* end */
};
/* No letter has more bytes. */
enum { DINE_LETTER_MAX = 29 };

/* The limits of a plan. */
enum {
    /* words limits, by tools/words */
    /* The greatest number of sites of a plan. */
    DINE_MAX_SITES = 64,
    /* The greatest number of edges of a plan. */
    DINE_MAX_EDGES = 512,
    /* The greatest number of turns of a job. */
    DINE_MAX_TURNS = 1000000,
    /* The greatest number of bytes of a name. */
    DINE_MAX_NAME = 32,
    /* The greatest number of jobs of a site. */
    DINE_MAX_JOBS = 1000,
    /* The greatest amount of an act, and the greatest value of an edge before the first meal. */
    DINE_MAX_NUMBER = 1000000,
    /* end */
};

typedef enum dine_kind {
    /* words kinds, by tools/words */
    /* Takes the next letter in the link to the site. */
    DINE_TAKE = 0,
    /* Sends a dirty fork that the neighbour asked for: the release rule. */
    DINE_GIVE = 1,
    /* Ends a meal. */
    DINE_END = 2,
    /* Begins a meal. */
    DINE_BEGIN = 3,
    /* Drops the jobs that it has left, after a meal that failed. */
    DINE_QUIT = 4,
    /* Grows hungry. */
    DINE_HUNGRY = 5,
    /* Sends the token to ask for the fork: the request rule. */
    DINE_ASK = 6,
    /* Says that it will ask no more. */
    DINE_DONE = 7,
    /* Says that it will send nothing more. */
    DINE_CLOSE = 8,
    /* end */
} dine_kind;
typedef struct dine_event { uint32_t site, kind, place; } dine_event;
typedef struct dine_ends { uint32_t lower, higher; } dine_ends;
typedef struct dine_period { uint32_t site, first, count; } dine_period;
/* phase: 0 thinking, 1 hungry, 2 eating */
typedef struct dine_site_now { uint32_t phase, ate, degree, finished; } dine_site_now;
/* is_dirty: the fork is here, and it is in the meal or was eaten with since it came. is_closed: Close was taken */
typedef struct dine_place { uint32_t edge, neighbour, has_fork, has_token, is_dirty, is_closed; } dine_place;

int64_t dine_close(dine_handle *handle);

/* A plan: sites with their jobs, and edges. A world or a site that was opened from it does not need it any more. */
int64_t dine_plan_open(const uint8_t *text, size_t text_len, dine_handle *plan);
/* Writes why the text is no plan, as dine check prints it: "6 BadName at site 0". Returns the number of bytes, at most
 * 40, or 0 if the text is a plan; writes no more than out_len. docs/FORMAT.md explains each cause. */
int64_t dine_plan_refusal(const uint8_t *text, size_t text_len, uint8_t *out, size_t out_len);
/* The version of the text's format, 1 or 2. */
int64_t dine_plan_version(dine_handle *plan);
int64_t dine_plan_sites(dine_handle *plan);
int64_t dine_plan_edges(dine_handle *plan);
int64_t dine_plan_jobs(dine_handle *plan, uint32_t site);
/* Returns the number of bytes of the name, at most DINE_MAX_NAME; writes no more than out_len. */
int64_t dine_plan_name(dine_handle *plan, uint32_t site, uint8_t *out, size_t out_len);
int64_t dine_plan_ends(dine_handle *plan, uint32_t edge, dine_ends *out);

/* A builder: a plan by calls, with no text. Sites and edges get numbers from 0, in the order in which they are added.
 * The jobs of a site have numbers k from 1, which are their names. What no plan can have is refused at once: a call
 * returns the first that holds of the DINE_CAUSE_ statuses that its comment names, and the builder is as it was. */
int64_t dine_plan_builder_open(dine_handle *builder);
/* Returns the number of the site. Refuses: BAD_NAME, SITE_TWICE, TOO_MANY_SITES, TOO_MANY_JOBS. */
int64_t dine_plan_builder_site(dine_handle *builder, const uint8_t *name, size_t name_len, uint32_t jobs);
/* Returns the number of the edge, whose value is 0. Refuses: UNKNOWN_END, LOOP, EDGE_TWICE, TOO_MANY_EDGES. */
int64_t dine_plan_builder_edge(dine_handle *builder, uint32_t a, uint32_t b);
/* The value before the first meal. Refuses: VALUE_TOO_LARGE; DINE_NO_SUCH. */
int64_t dine_plan_builder_value(dine_handle *builder, uint32_t edge, uint32_t value);
/* The site drops the jobs that it has left after one failed. */
int64_t dine_plan_builder_resign(dine_handle *builder, uint32_t site);
/* Refuses: TURNS_TOO_LARGE; DINE_NO_SUCH. */
int64_t dine_plan_builder_turns(dine_handle *builder, uint32_t site, uint32_t k, uint32_t turns);
int64_t dine_plan_builder_fails(dine_handle *builder, uint32_t site, uint32_t k);
/* The meal of the job sets the value of each edge of the site to the amount, or adds the amount. Refuses:
 * ACT_TOO_LARGE; DINE_NO_SUCH. */
int64_t dine_plan_builder_act(dine_handle *builder, uint32_t site, uint32_t k, bool sets, uint32_t amount);
/* Makes the plan, as dine_plan_open does of a text of version 2. The builder stays as it is, and may go on. Refuses:
 * NO_SITE. */
int64_t dine_plan_builder_finish(dine_handle *builder, dine_handle *plan);

/* A world: all sites of a plan in one thread. */
int64_t dine_world_open(dine_handle *plan, dine_handle *world);
/* A bound on the events of any schedule from the start. */
int64_t dine_world_bound(dine_handle *world);
/* How many events are enabled now, and event n of them, from 0. docs/FORMAT.md has their order. */
int64_t dine_world_count(dine_handle *world);
int64_t dine_world_enabled(dine_handle *world, uint32_t n, dine_event *out);
int64_t dine_world_step(dine_handle *world, const dine_event *event);
/* Does for each choice the enabled event of this number, and passes over a choice that has none. Returns the number of
 * events. */
int64_t dine_world_replay(dine_handle *world, const uint32_t *choices, size_t choices_len);
/* Does the first enabled event until none is enabled. Returns the number of events. */
int64_t dine_world_finish(dine_handle *world);
/* What the site is doing, as in dine_site_now, and how many meals it began. */
int64_t dine_world_phase(dine_handle *world, uint32_t site);
int64_t dine_world_ate(dine_handle *world, uint32_t site);
/* Returns the number of periods; out_len counts numbers, three for a period: pass (uint32_t *)periods, 3 * n. Writes no
 * more than out_len numbers. */
int64_t dine_world_fork(dine_handle *world, uint32_t edge, uint32_t *out, size_t out_len);
int64_t dine_world_value(dine_handle *world, uint32_t edge);

/* One site, whose letters are bytes that you carry to the neighbour, each once and in order. A call that puts a letter
 * returns the number of its bytes. dine_site_open opens a site of the run 0. This is a whole site, if receive, work and
 * send are yours:
 *
 *     dine_event event;
 *     uint8_t letter[DINE_LETTER_MAX];
 *     int64_t len;
 *     while ((len = dine_site_turn(&site, &event, letter, sizeof letter)) != DINE_FINISHED) {
 *         if (len == DINE_WAITS) {
 *             dine_site_take(&site, letter, receive(letter));
 *         } else if (event.kind == DINE_BEGIN) {
 *             work();
 *             dine_site_end(&site, false);
 *         } else if (len > 0) {
 *             send(event.place, letter, len);
 *         }
 *     }
 */
int64_t dine_site_open(dine_handle *plan, uint32_t number, dine_handle *site);
int64_t dine_site_open_in(dine_handle *plan, uint32_t number, uint64_t run, dine_handle *site);
/* A number for a run of the plan with this text. `random` is drawn once for each run, and all processes of the run are
 * told it. A process that has another text, or was told of another run, has another number, unless chance has it. It is
 * FNV-1a of the eight bytes of `random`, the least first, and of the text: no defence against whoever means harm. */
static inline uint64_t dine_run_number(const uint8_t *text, size_t text_len, uint64_t random) {
    uint64_t sum = 0xcbf29ce484222325u;
    for (size_t at = 0; at < 8 + text_len; at++) {
        uint64_t byte = at < 8 ? random >> (8 * at) & 0xff : text[at - 8];
        sum = (sum ^ byte) * 0x100000001b3u;
    }
    return sum;
}
int64_t dine_site_state(dine_handle *site, dine_site_now *out);
int64_t dine_site_place(dine_handle *site, uint32_t i, dine_place *out);
/* Writes the event that a turn would do, and returns 1; or 0 if there is none. In a meal it is the End. */
int64_t dine_site_next(dine_handle *site, dine_event *out);
int64_t dine_site_hungry(dine_handle *site);
int64_t dine_site_quit(dine_handle *site);
int64_t dine_site_give(dine_handle *site, uint32_t i, uint8_t *out, size_t out_len);
int64_t dine_site_ask(dine_handle *site, uint32_t i, uint8_t *out, size_t out_len);
int64_t dine_site_done(dine_handle *site, uint32_t i, uint8_t *out, size_t out_len);
int64_t dine_site_shut(dine_handle *site, uint32_t i, uint8_t *out, size_t out_len);
/* Gives the link of a place up, as after the loss of its connection: the letter is Close. */
int64_t dine_site_break(dine_handle *site, uint32_t i, uint8_t *out, size_t out_len);
/* Does an event of this site as the call of its kind does. Returns the number of bytes of the letter that it puts, or
 * 0. An End is that of a job that went well. A Take is no such event: dine_site_take takes a letter. */
int64_t dine_site_act(dine_handle *site, const dine_event *event, uint8_t *out, size_t out_len);
/* Does the first event that the site may do by itself, and writes it. Returns the number of bytes of the letter that it
 * puts, or 0. After DINE_BEGIN do the job, and call dine_site_end. If there is no event: DINE_WAITS or DINE_FINISHED;
 * during a meal: DINE_EATING. Else it refuses only if `out` has too few bytes for a letter, with DINE_SMALL. */
int64_t dine_site_turn(dine_handle *site, dine_event *event, uint8_t *out, size_t out_len);
/* Returns the place at which the letter arrived. */
int64_t dine_site_take(dine_handle *site, const uint8_t *letter, size_t letter_len);
int64_t dine_site_begin(dine_handle *site);
int64_t dine_site_end(dine_handle *site, bool failed);
int64_t dine_site_fork(dine_handle *site, uint32_t i, uint32_t *out, size_t out_len);
int64_t dine_site_value(dine_handle *site, uint32_t i);

#ifdef __cplusplus
}
#endif
#endif
