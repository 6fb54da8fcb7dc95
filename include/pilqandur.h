/* Pilqandur: a tick scheduler and its admission bounds, as static library target/staticlib/libcapi.a (tools/archive).
 *
 * Every function of the library is proved to give, for every value of its arguments, what document 01's rules give, with what
 * document 02's requests have changed of them: the number of the answer, the next state, the bounds, the entries of a run.
 * (docs/MANUAL.md: the rules in plain words, and what to do about each number; crates/capi_c: the contracts; crates/rules/specs:
 * the rules.)
 *
 * What the caller has to see to:
 *
 *  - No value of an argument is outside the contract but a pointer that points to less than it says: `entries` points to
 *    `len` entries, aligned as C has them, that nobody else reads or writes during the call. A list of no entries may be
 *    NULL: pilqandur_run(state, 0, NULL, 0) is a run of no ticks. It says of any state whether it is fit, as
 *    pilqandur_waiting(state) does.
 *  - Header and archive belong together where pilqandur_version() is PILQANDUR_VERSION. Ask at the start, before any other
 *    call; if they differ, compile with the header that came with the archive. Store the number beside a state: a state of
 *    another version cannot be taken up.
 *  - The caller's compiler and the library agree on the x86-64 System V calling convention, and the caller passes structs
 *    laid out as declared here. This is tested, not proved: tests/link compares the sizes and offsets of this header with
 *    those of the Rust declarations and runs a caller of each language; tests/run-calls compares every field of random
 *    states that went through the archive.
 *
 * A state is numbers alone, without pointers: it can be copied, stored and taken up again. Every pattern of bits is taken. A
 * state is fit if its table passes 1, 2 and 3, left[i] <= exec of each task in use, at most 24 wait, each with work 1 to 60,000
 * and arrival <= clock, backlog is the sum of their work, budget <= the server's, clock <= 4,000,000,000, tr and begin <=
 * clock, nr <= 4,000,060,000, and each flag is 0 or 1. Under kind 4, besides: the lengths of the stretches held and budget add
 * up to the server's budget, and the stretches are at most 32, none empty, oldest first, a tick or more between each and the
 * next, all within the server's last period of ticks before the clock (clock - period to clock - 1). The other kinds do not
 * look at the stretches, and leave them. Any other state is refused with 11 and handed back as it came. But 11 is no checksum:
 * most states in which a bit was changed are still states, and are run as such: another id, another clock, even another table,
 * which need not be the admitted one. Keep a checksum beside a stored state (examples/c/saved.c does).
 *
 * A tick goes to the first open task above the server; else to the first waiting request, by the budget; else to the first open
 * task below; else, whatever the kind and the budget, to the first waiting request, which then takes no budget, is no service
 * and leaves the server's state as an idle tick would. So no tick is idle while a request waits. An answer and an entry name the
 * request in both cases alike.
 *
 * A run does not report what finished: make ticks one by one where the responses are wanted.
 *
 * No function keeps anything between calls, allocates or does input or output: the archive has no data of its own, and wants
 * only memcpy, memmove and memset of the C library. State goes in by value and comes back by value where a call may change it:
 * two schedulers are two states. The code uses SSE registers, as x86-64 code does. The header wants C99 or C++11.
 */
#ifndef PILQANDUR_H
#define PILQANDUR_H

#include <stddef.h>
#include <stdint.h>

#ifdef __cplusplus
extern "C" {
#endif

/* The number of this header. It rises with every change of a struct, a number or a meaning. */
#define PILQANDUR_VERSION 5u

/* The limits. Times are in ticks of 10 ms. */
#define PILQANDUR_MAX_TASKS 16
#define PILQANDUR_MAX_WAITING 24
#define PILQANDUR_MAX_STRETCHES 32
#define PILQANDUR_MAX_TIME 60000u        /* of a phase, a period, an execution, a deadline, a server's period and budget */
#define PILQANDUR_MAX_WORK 60000u        /* of a request */
#define PILQANDUR_MAX_BACKLOG 1440000u   /* of the work that waits, in a fit state: 24 times 60,000 */
#define PILQANDUR_LAST_CLOCK 4000000000u /* at it no tick runs */

/* Stack, in bytes: what each call takes at most, whatever its arguments, its return address included. `tools/stack` reads it
 * off the machine code and measures beside it. To it come what memcpy, memmove and memset take (8 bytes were seen; where they
 * are bound at their first call, the loader takes more there, once) and, in the caller's frame, the arguments and the result
 * by value, twice with some compilers: README.md has figures with that. */
#define PILQANDUR_STACK_SET_UP 392
#define PILQANDUR_STACK_ADMIT 856
#define PILQANDUR_STACK_REQUEST 2680
#define PILQANDUR_STACK_TICK 3136
#define PILQANDUR_STACK_RUN 2800
#define PILQANDUR_STACK_WAITING 1336

/* Kinds of a server. */
#define PILQANDUR_BACKGROUND 0u
#define PILQANDUR_POLLING 1u
#define PILQANDUR_DEFERRABLE 2u
#define PILQANDUR_SPORADIC 3u
#define PILQANDUR_RETURNING 4u /* each served tick comes back one period later */

/* Kinds of an entry: who has the tick. */
#define PILQANDUR_IDLE 0u
#define PILQANDUR_TASK 1u
#define PILQANDUR_REQUEST 2u

/* Refusals, in `number`; 0 says that the call was carried out. A refused request, tick or run hands back the state it was
 * given. A call looks at its grounds in the order that is told below, and gives the first. */
#define PILQANDUR_DONE 0u
#define PILQANDUR_TASK_COUNT 1u     /* no task, or more than 16 */
#define PILQANDUR_BAD_TASK 2u       /* a task breaks its limits; `index` is the first such */
#define PILQANDUR_BAD_SERVER 3u     /* the server breaks its limits */
#define PILQANDUR_BAD_WORK 4u       /* work 0 or above 60,000 */
#define PILQANDUR_QUEUE_FULL 5u     /* 24 wait */
#define PILQANDUR_CLOCK_SPENT 6u    /* the ticks wanted pass 4,000,000,000 */
#define PILQANDUR_PLAN_TOO_LONG 7u  /* 7, 8, 9: the plan reader's, in the program `schedule`; no function here gives them */
#define PILQANDUR_BAD_LINE 8u
#define PILQANDUR_LINE_MISPLACED 9u
#define PILQANDUR_SHORT_RECORD 10u  /* fewer entries lent than ticks */
#define PILQANDUR_UNFIT_STATE 11u   /* the state is not fit: see above */

/* A periodic task (a row of a plan). 1 <= exec <= deadline <= period <= 60,000, phase <= 60,000. */
struct pilqandur_task {
    uint32_t phase, period, exec, deadline;
};

/* The server. place is how many tasks stand above it. Kinds 1 to 4: place <= n, 1 <= budget <= period <= 60,000.
 * Kind 0: place = n, period = budget = 0. */
struct pilqandur_server {
    uint32_t kind, place, period, budget;
};

/* The first n tasks are in use, highest priority first. */
struct pilqandur_table {
    struct pilqandur_task tasks[PILQANDUR_MAX_TASKS];
    uint32_t n;
    struct pilqandur_server server;
};

/* What only a sporadic server keeps. A flag is 0 or 1. */
struct pilqandur_sporadic {
    uint32_t tr;     /* the last replenishment */
    uint32_t begin;  /* first tick of the current or latest stretch in which a task above was open */
    uint32_t nr;     /* the next replenishment, once it has served since tr */
    uint32_t served; /* flag: since tr */
    uint32_t late;   /* flag: nr had passed when it was fixed */
    uint32_t above;  /* flag: a task above the server was open in the last tick */
    uint32_t busy;   /* flag: any task was */
};

struct pilqandur_server_state {
    uint32_t budget; /* what is left of it */
    struct pilqandur_sporadic sporadic;
};

/* What a tick changes besides the queue: the execution left of each task, the server, the clock. */
struct pilqandur_progress {
    uint32_t left[PILQANDUR_MAX_TASKS];
    struct pilqandur_server_state server;
    uint32_t clock;
};

/* A request that waits. id is the caller's own. */
struct pilqandur_queued {
    uint32_t id, work, arrival;
};

/* The first n wait, the head first. Whoever fills in or mends a state by hand sets backlog too: a state in which it is not the
 * sum is unfit. */
struct pilqandur_queue {
    struct pilqandur_queued requests[PILQANDUR_MAX_WAITING];
    uint32_t n;
    uint32_t backlog; /* the ticks of work that wait: the sum of `work` over the first n */
};

/* Ticks on end that a server of kind 4 served: `length` of them from `start` on. */
struct pilqandur_stretch {
    uint32_t start, length;
};

/* What only a server of kind 4 keeps: the first n hold the served ticks that have not come back, oldest first. Tick u comes
 * back at tick u + period. With 32 held no tick is served that would open another; one that makes the last longer is. */
struct pilqandur_returns {
    struct pilqandur_stretch stretches[PILQANDUR_MAX_STRETCHES];
    uint32_t n;
};

/* Slots that are not in use keep what they held. */
struct pilqandur_state {
    struct pilqandur_table table;
    struct pilqandur_progress progress;
    struct pilqandur_queue queue;
    struct pilqandur_returns returns;
};

/* A tick of a run. id: the task's index, the request's id, 0 for idle. drops: jobs cut off in this tick because their
 * deadline came. */
struct pilqandur_entry {
    uint32_t kind, id, drops;
};

/* index is 0 but for refusal 2. The state that a refused set-up gives is unfit: every later call refuses it. */
struct pilqandur_set_up_result {
    uint32_t number, index;
    struct pilqandur_state state;
};

/* The worst-case response-time bound of each task and of the server, 0 where there is none; slots past n are 0, and of a
 * refused table all is. admitted is 1 or 0: whether every task, and a server of kinds 1 to 4, has a bound. */
struct pilqandur_admission_result {
    uint32_t number, index;
    uint32_t bounds[PILQANDUR_MAX_TASKS];
    uint32_t serverbound;
    uint32_t admitted;
};

struct pilqandur_moved_result {
    uint32_t number;
    struct pilqandur_state state;
};

/* kind, id, drops as in an entry. finished is 1 if the tick finished a request: then request is its id, and response the
 * ticks from its arrival to the end of this tick. What does not apply is 0, and of a refused tick all is but number and
 * state. */
struct pilqandur_tick_result {
    uint32_t number, kind, id, drops, finished, request, response;
    struct pilqandur_state state;
};

/* work is the ticks of work that wait; 0 where the call was refused. */
struct pilqandur_waiting_result {
    uint32_t number, work;
};

/* The number of the header that the archive belongs to. */
uint32_t pilqandur_version(void);

/* The fresh state of a table. Refuses with 1, 2, 3. */
struct pilqandur_set_up_result pilqandur_set_up(struct pilqandur_table table);

/* The bounds of a table. Refuses with 1, 2, 3. */
struct pilqandur_admission_result pilqandur_admit(struct pilqandur_table table);

/* A request at the queue's end, arriving at the state's clock. Refuses with 11, 4, 5. */
struct pilqandur_moved_result pilqandur_request(struct pilqandur_state state, uint32_t id, uint32_t work);

/* One tick. Refuses with 11, 6. */
struct pilqandur_tick_result pilqandur_tick(struct pilqandur_state state);

/* k ticks; the first k of the len lent entries are written, the others stay. Refuses with 11, 6, 10. */
struct pilqandur_moved_result pilqandur_run(struct pilqandur_state state, uint32_t k, struct pilqandur_entry *entries, size_t len);

/* The work that waits, for a front panel: the ticks of 10 ms that the waiting requests still need, the head included. A request
 * that is taken adds its work, and each tick that goes to a request, by the budget or not, takes one off; every other tick and
 * every refused call leaves the figure. 0: nobody waits. It is not how long the last request will take to finish: to it come
 * the ticks that tasks have meanwhile. The figure is queue.backlog; the queue is walked only to see whether the state is fit, as
 * in every call. The state is not changed, so none comes back. Refuses with 11. */
struct pilqandur_waiting_result pilqandur_waiting(struct pilqandur_state state);

/* ---- The same for a state that the caller keeps and hands out by its address: plain C over the calls above, tested and not
 * proved. Each returns the number, and changes the state only where the call was carried out (number 0); a refused set-up, too,
 * leaves the state that was there. Each reads *state, works on a copy and writes it back: nobody else may use *state meanwhile,
 * no other thread and no interrupt. Let an interrupt note its request, and hand it in between two ticks. pilqandur_waiting_at
 * only reads *state, but nobody may write it meanwhile: let whoever makes the ticks ask, and hand the figure to the panel. */

/* What a tick says, without its state. */
struct pilqandur_ticked {
    uint32_t kind, id, drops, finished, request, response;
};

/* *index is always written: the first bad task for refusal 2, else 0. index may be NULL. */
static inline uint32_t pilqandur_set_up_at(struct pilqandur_state *state, const struct pilqandur_table *table, uint32_t *index)
{
    const struct pilqandur_set_up_result up = pilqandur_set_up(*table);
    if (index)
        *index = up.index;
    if (up.number == PILQANDUR_DONE)
        *state = up.state;
    return up.number;
}

static inline uint32_t pilqandur_request_at(struct pilqandur_state *state, uint32_t id, uint32_t work)
{
    const struct pilqandur_moved_result moved = pilqandur_request(*state, id, work);
    if (moved.number == PILQANDUR_DONE)
        *state = moved.state;
    return moved.number;
}

/* *ticked is written only where the call was carried out. ticked may be NULL. */
static inline uint32_t pilqandur_tick_at(struct pilqandur_state *state, struct pilqandur_ticked *ticked)
{
    const struct pilqandur_tick_result tick = pilqandur_tick(*state);
    if (tick.number == PILQANDUR_DONE) {
        *state = tick.state;
        if (ticked) {
            ticked->kind = tick.kind;
            ticked->id = tick.id;
            ticked->drops = tick.drops;
            ticked->finished = tick.finished;
            ticked->request = tick.request;
            ticked->response = tick.response;
        }
    }
    return tick.number;
}

static inline uint32_t pilqandur_run_at(struct pilqandur_state *state, uint32_t k, struct pilqandur_entry *entries, size_t len)
{
    const struct pilqandur_moved_result moved = pilqandur_run(*state, k, entries, len);
    if (moved.number == PILQANDUR_DONE)
        *state = moved.state;
    return moved.number;
}

/* *work is written only where the call was carried out. work may be NULL. */
static inline uint32_t pilqandur_waiting_at(const struct pilqandur_state *state, uint32_t *work)
{
    const struct pilqandur_waiting_result waiting = pilqandur_waiting(*state);
    if (work && waiting.number == PILQANDUR_DONE)
        *work = waiting.work;
    return waiting.number;
}

#ifdef __cplusplus
}
#endif

#endif
