/* The inline forms of include/pilqandur.h beside the calls that they stand for, on states that are run on, full, damaged and at the last
 * clock: the same number; where it is 0, the same state, record, entries and figure; where it is not, nothing changed. (A refused call hands the
 * state back as it came, so that a form that always copies it back would pass: the test in the form only spares the copy.) After each one that is
 * carried out the work that waits is the sum over the queue. And each number and limit of the header by a call that gives it, at its edge. Ends
 * with 1 at the first fault. */
#include <stdio.h>
#include <stdlib.h>
#include <string.h>

#include "pilqandur.h"

#define LENT 8

static unsigned refused[12], carried_out;

static void expect(int holds, const char *what)
{
    if (!holds) {
        fprintf(stderr, "forms: %s\n", what);
        exit(1);
    }
}

static int same(const void *a, const void *b, size_t size)
{
    return memcmp(a, b, size) == 0;
}

/* The queue walked: the sum of the first n requests' work. */
static uint32_t walked(const struct pilqandur_queue *queue)
{
    uint32_t sum = 0;
    for (uint32_t i = 0; i < queue->n; i++)
        sum += queue->requests[i].work;
    return sum;
}

/* Whether the state is fit, and this much work waits in it. */
static int waits(const struct pilqandur_state *state, uint32_t work)
{
    const struct pilqandur_waiting_result call = pilqandur_waiting(*state);
    return call.number == PILQANDUR_DONE && call.work == work;
}

/* Whether the call refuses the state with 11, and says no figure. */
static int unfit(const struct pilqandur_state *state)
{
    const struct pilqandur_waiting_result call = pilqandur_waiting(*state);
    return call.number == PILQANDUR_UNFIT_STATE && call.work == 0;
}

/* The number is the call's, and the state the call's or the one before. */
static void same_end(const char *what, uint32_t number, uint32_t by_call, const struct pilqandur_state *state,
                     const struct pilqandur_state *before, const struct pilqandur_state *after)
{
    expect(number == by_call, what);
    expect(same(state, number == PILQANDUR_DONE ? after : before, sizeof *state), what);
    expect(number != PILQANDUR_DONE || waits(state, walked(&state->queue)), "the work that waits");
    if (number == PILQANDUR_DONE)
        carried_out++;
    else
        refused[number]++;
}

static void request(struct pilqandur_state *state, uint32_t work)
{
    const struct pilqandur_state before = *state;
    const struct pilqandur_moved_result call = pilqandur_request(before, 5, work);
    same_end("request", pilqandur_request_at(state, 5, work), call.number, state, &before, &call.state);
}

static void tick(struct pilqandur_state *state)
{
    const struct pilqandur_state before = *state;
    const struct pilqandur_tick_result call = pilqandur_tick(before);
    struct pilqandur_ticked ticked, untouched;
    memset(&untouched, 0xee, sizeof untouched);
    ticked = untouched;
    same_end("tick", pilqandur_tick_at(state, &ticked), call.number, state, &before, &call.state);
    const struct pilqandur_ticked said = {call.kind, call.id, call.drops, call.finished, call.request, call.response};
    expect(same(&ticked, call.number == PILQANDUR_DONE ? &said : &untouched, sizeof ticked), "tick: its record");
    struct pilqandur_state again = before;
    expect(pilqandur_tick_at(&again, NULL) == call.number && same(&again, state, sizeof again), "tick without a record");
}

static void run(struct pilqandur_state *state, uint32_t k, size_t len)
{
    const struct pilqandur_state before = *state;
    struct pilqandur_entry by_call[LENT], by_form[LENT];
    memset(by_call, 0xee, sizeof by_call);
    memset(by_form, 0xee, sizeof by_form);
    const struct pilqandur_moved_result call = pilqandur_run(before, k, len == 0 ? NULL : by_call, len);
    same_end("run", pilqandur_run_at(state, k, len == 0 ? NULL : by_form, len), call.number, state, &before, &call.state);
    expect(same(by_call, by_form, sizeof by_call), "run: its entries");
    const size_t written = call.number == PILQANDUR_DONE ? k * sizeof by_form[0] : 0;
    for (size_t i = written; i < sizeof by_form; i++)
        expect(((const unsigned char *)by_form)[i] == 0xee, "run: an entry past its ticks");
}

static void set_up(struct pilqandur_state *state, const struct pilqandur_table *table)
{
    const struct pilqandur_state before = *state;
    const struct pilqandur_set_up_result call = pilqandur_set_up(*table);
    uint32_t index = 77;
    same_end("set_up", pilqandur_set_up_at(state, table, &index), call.number, state, &before, &call.state);
    expect(index == call.index, "set_up: its index");
    struct pilqandur_state again = before;
    expect(pilqandur_set_up_at(&again, table, NULL) == call.number && same(&again, state, sizeof again), "set_up without an index");
}

static void waiting(const struct pilqandur_state *state)
{
    const struct pilqandur_state before = *state;
    const struct pilqandur_waiting_result call = pilqandur_waiting(before);
    uint32_t work = 77777777;
    same_end("waiting", pilqandur_waiting_at(state, &work), call.number, state, &before, &before);
    expect(work == (call.number == PILQANDUR_DONE ? call.work : 77777777), "waiting: its figure");
    expect(call.number == PILQANDUR_DONE || unfit(state), "waiting refuses with 11 alone, and then says 0");
    expect(pilqandur_waiting_at(state, NULL) == call.number, "waiting without a figure");
}

#define ALL 8 /* calls of all() */

static void all(struct pilqandur_state *state)
{
    waiting(state);
    request(state, 3);
    request(state, 0);
    tick(state);
    run(state, 5, LENT);
    run(state, LENT + 1, LENT);
    run(state, 0, 0);
    run(state, 1, 0);
}

static const struct pilqandur_table plain = {.tasks = {{0, 10, 2, 5}, {5, 20, 3, 20}}, .n = 2, .server = {PILQANDUR_SPORADIC, 1, 20, 4}};

static uint32_t set_up_number(struct pilqandur_table table)
{
    return pilqandur_set_up(table).number;
}

/* Refusals 1, 2 and 3, the limits of a table, and the kinds of a server by what they do. */
static void table_numbers(void)
{
    struct pilqandur_table t = {.n = PILQANDUR_MAX_TASKS, .server = {PILQANDUR_BACKGROUND, PILQANDUR_MAX_TASKS, 0, 0}};
    for (uint32_t i = 0; i < PILQANDUR_MAX_TASKS; i++)
        t.tasks[i] = (struct pilqandur_task){PILQANDUR_MAX_TIME, PILQANDUR_MAX_TIME, PILQANDUR_MAX_TIME, PILQANDUR_MAX_TIME};
    expect(set_up_number(t) == PILQANDUR_DONE, "a table at its limits");
    t.n++;
    expect(set_up_number(t) == PILQANDUR_TASK_COUNT, "MAX_TASKS, TASK_COUNT");
    t.n--;
    t.tasks[1].phase++;
    expect(set_up_number(t) == PILQANDUR_BAD_TASK && pilqandur_set_up(t).index == 1, "MAX_TIME, BAD_TASK");
    t = plain;
    t.server.budget = t.server.period = PILQANDUR_MAX_TIME;
    expect(set_up_number(t) == PILQANDUR_DONE, "a server at its limits");
    t.server.period++;
    expect(set_up_number(t) == PILQANDUR_BAD_SERVER, "MAX_TIME, BAD_SERVER");
    t = plain;
    t.server.kind = PILQANDUR_RETURNING;
    expect(set_up_number(t) == PILQANDUR_DONE, "RETURNING");
    t.server.kind = PILQANDUR_RETURNING + 1;
    expect(set_up_number(t) == PILQANDUR_BAD_SERVER, "RETURNING is the last kind");
}

/* document 01's marked cases, with document 02's figures (5/13): the responses of one request under each kind of server. Kind 4 serves it in
 * the same ticks as kind 3, and alone holds what it served: 4 and 8, with an idle tick that was given between them. */
static void kind_responses(void)
{
    const uint32_t kinds[5] = {PILQANDUR_BACKGROUND, PILQANDUR_POLLING, PILQANDUR_DEFERRABLE, PILQANDUR_SPORADIC, PILQANDUR_RETURNING};
    const uint32_t responses[5] = {6, 6, 4, 6, 6};
    for (int i = 0; i < 5; i++) {
        struct pilqandur_table t = {.tasks = {{3, 6, 2, 6}}, .n = 1, .server = {kinds[i], 0, 5, 2}};
        if (kinds[i] == PILQANDUR_BACKGROUND)
            t.server = (struct pilqandur_server){kinds[i], 1, 0, 0};
        struct pilqandur_state s = pilqandur_set_up(t).state;
        struct pilqandur_ticked ticked = {0, 0, 0, 0, 0, 0};
        uint32_t work = 0;
        for (uint32_t tick = 0; !ticked.finished && tick < 20; tick++) {
            if (tick == 3) {
                work = 4;
                expect(pilqandur_request_at(&s, 7, work) == PILQANDUR_DONE, "a request");
            }
            expect(pilqandur_tick_at(&s, &ticked) == PILQANDUR_DONE, "a tick");
            expect(tick >= 3 || ticked.kind == PILQANDUR_IDLE, "IDLE");
            expect(!ticked.finished || ticked.kind == PILQANDUR_REQUEST, "REQUEST");
            work -= ticked.kind == PILQANDUR_REQUEST;
            expect(waits(&s, work), "a tick that goes to a request, and no other, takes one off");
        }
        expect(ticked.response == responses[i], "a kind of server");
        expect(s.returns.n == (kinds[i] == PILQANDUR_RETURNING ? 2u : 0u), "a kind of server: what it holds");
    }
}

/* Whether a request has the next tick, and takes 1 of the budget or 0; no tick comes back in it. */
static int has_tick(struct pilqandur_state s, uint32_t by_budget)
{
    const struct pilqandur_tick_result r = pilqandur_tick(s);
    return r.number == PILQANDUR_DONE && r.kind == PILQANDUR_REQUEST && r.state.progress.server.budget == s.progress.server.budget - by_budget;
}

/* Kind 4's stretches at their limit: no tick is served that would open one more (an idle one is given), and a state with one more is unfit.
 * The other kinds do not look at them. */
static void stretch_numbers(void)
{
    struct pilqandur_table t = {.tasks = {{0, 200, 1, 200}}, .n = 1, .server = {PILQANDUR_RETURNING, 0, 200, PILQANDUR_MAX_STRETCHES + 1}};
    struct pilqandur_state s = pilqandur_set_up(t).state;
    for (uint32_t i = 0; i < PILQANDUR_MAX_STRETCHES; i++)
        s.returns.stretches[i] = (struct pilqandur_stretch){2 * i, 1};
    s.returns.n = PILQANDUR_MAX_STRETCHES;
    s.progress.server.budget = 1;
    s.progress.clock = 2 * PILQANDUR_MAX_STRETCHES - 1;
    expect(pilqandur_request_at(&s, 1, 1) == PILQANDUR_DONE, "MAX_STRETCHES");
    expect(has_tick(s, 1), "a tick that makes the last stretch longer");
    s.progress.clock++;
    expect(has_tick(s, 0), "a tick that would open one stretch more");
    s.returns.n--;
    s.progress.server.budget++;
    expect(has_tick(s, 1), "a tick that opens the last stretch");
    s.returns.n += 2;
    s.progress.server.budget--;
    expect(pilqandur_tick(s).number == PILQANDUR_UNFIT_STATE, "MAX_STRETCHES, UNFIT_STATE");
    s.table.server.kind = PILQANDUR_DEFERRABLE;
    expect(pilqandur_tick(s).number == PILQANDUR_DONE, "stretches under another kind");
}

/* The work that waits at its limit, and a state whose figure is not the sum: another figure, another work, another count. */
static void waiting_numbers(void)
{
    struct pilqandur_state s = pilqandur_set_up(plain).state;
    expect(waits(&s, 0), "a fresh state: nobody waits");
    for (uint32_t i = 1; i <= PILQANDUR_MAX_WAITING; i++)
        expect(pilqandur_request_at(&s, i, PILQANDUR_MAX_WORK) == PILQANDUR_DONE && waits(&s, i * PILQANDUR_MAX_WORK), "a request adds its work");
    expect(waits(&s, PILQANDUR_MAX_BACKLOG), "MAX_BACKLOG");
    const struct pilqandur_state full = s;
    const uint32_t figures[4] = {0, PILQANDUR_MAX_BACKLOG - 1, PILQANDUR_MAX_BACKLOG + 1, 0xffffffffu};
    for (int i = 0; i < 4; i++) {
        s.queue.backlog = figures[i];
        expect(unfit(&s), "another figure, UNFIT_STATE");
        expect(pilqandur_request(s, 1, 0).number == PILQANDUR_UNFIT_STATE && pilqandur_tick(s).number == PILQANDUR_UNFIT_STATE &&
                   pilqandur_run(s, 1, NULL, 0).number == PILQANDUR_UNFIT_STATE, "another figure, UNFIT_STATE before all else");
    }
    s = full;
    s.queue.requests[3].work--;
    expect(unfit(&s), "another work, UNFIT_STATE");
    s.queue.backlog--;
    expect(waits(&s, PILQANDUR_MAX_BACKLOG - 1), "another work with its figure");
    s = full;
    s.queue.n--;
    expect(unfit(&s), "another count, UNFIT_STATE");
    s.queue.backlog -= PILQANDUR_MAX_WORK;
    expect(waits(&s, PILQANDUR_MAX_BACKLOG - PILQANDUR_MAX_WORK), "another count with its figure");
    s = full;
    s.progress.clock = PILQANDUR_LAST_CLOCK;
    expect(waits(&s, PILQANDUR_MAX_BACKLOG), "the work that waits at the last clock");
}

/* Refusals 4, 5, 6 and 10, and the limits of a state. */
static void state_numbers(void)
{
    struct pilqandur_state s = pilqandur_set_up(plain).state;
    expect(pilqandur_tick(s).kind == PILQANDUR_TASK, "TASK");
    expect(pilqandur_request(s, 1, PILQANDUR_MAX_WORK).number == PILQANDUR_DONE, "work at its limit");
    expect(pilqandur_request(s, 1, PILQANDUR_MAX_WORK + 1).number == PILQANDUR_BAD_WORK, "MAX_WORK, BAD_WORK");
    expect(pilqandur_run(s, 1, NULL, 0).number == PILQANDUR_SHORT_RECORD, "SHORT_RECORD");
    for (int i = 0; i < PILQANDUR_MAX_WAITING; i++)
        expect(pilqandur_request_at(&s, 1, 1) == PILQANDUR_DONE, "a queue below its limit");
    expect(pilqandur_request(s, 1, 1).number == PILQANDUR_QUEUE_FULL, "MAX_WAITING, QUEUE_FULL");
    expect(pilqandur_tick(s).number == PILQANDUR_DONE, "a queue at its limit");
    s.queue.n++;
    expect(pilqandur_request(s, 1, 1).number == PILQANDUR_UNFIT_STATE, "MAX_WAITING, UNFIT_STATE");
    s.queue.n--;
    s.progress.clock = PILQANDUR_LAST_CLOCK - 1;
    expect(pilqandur_tick_at(&s, NULL) == PILQANDUR_DONE && pilqandur_tick(s).number == PILQANDUR_CLOCK_SPENT, "LAST_CLOCK, CLOCK_SPENT");
    s.progress.clock++;
    expect(pilqandur_tick(s).number == PILQANDUR_UNFIT_STATE, "LAST_CLOCK, UNFIT_STATE");
}

int main(void)
{
    expect(pilqandur_version() == PILQANDUR_VERSION, "header and archive are of two versions");
    table_numbers();
    kind_responses();
    stretch_numbers();
    waiting_numbers();
    state_numbers();
    struct pilqandur_table table = plain;
    struct pilqandur_state state;
    memset(&state, 0xee, sizeof state);
    table.tasks[1].exec = 0;
    set_up(&state, &table);
    all(&state);
    table.tasks[1].exec = 3;
    set_up(&state, &table);
    for (int i = 0; i < 200; i++)
        all(&state);
    for (int i = 0; i < PILQANDUR_MAX_WAITING + 1; i++)
        request(&state, 60000);
    all(&state);
    uint32_t *const flags[4] = {&state.progress.server.sporadic.served, &state.progress.server.sporadic.late,
                                &state.progress.server.sporadic.above, &state.progress.server.sporadic.busy};
    for (int i = 0; i < 4; i++) {
        const uint32_t flag = *flags[i];
        *flags[i] = 0x100u;
        all(&state);
        expect(*flags[i] == 0x100u, "a damaged flag was changed");
        *flags[i] = flag;
    }
    unsigned met_unfit = refused[PILQANDUR_UNFIT_STATE];
    state.queue.backlog ^= 0x100u;
    all(&state);
    expect(refused[PILQANDUR_UNFIT_STATE] == met_unfit + ALL, "a damaged figure was taken");
    state.queue.backlog ^= 0x100u;
    state.progress.clock = PILQANDUR_LAST_CLOCK;
    all(&state);
    table.server.kind = PILQANDUR_RETURNING;
    set_up(&state, &table);
    for (int i = 0; i < 200; i++)
        all(&state);
    expect(state.returns.n > 0, "no tick is held");
    met_unfit = refused[PILQANDUR_UNFIT_STATE];
    state.returns.stretches[0].length++;
    all(&state);
    expect(refused[PILQANDUR_UNFIT_STATE] == met_unfit + ALL, "a damaged stretch was taken");
    const unsigned met[] = {PILQANDUR_BAD_TASK,    PILQANDUR_BAD_WORK,     PILQANDUR_QUEUE_FULL,
                            PILQANDUR_CLOCK_SPENT, PILQANDUR_SHORT_RECORD, PILQANDUR_UNFIT_STATE};
    for (size_t i = 0; i < sizeof met / sizeof met[0]; i++)
        expect(refused[met[i]] > 0, "a refusal that the forms were to meet was not met");
    printf("forms: %u inline forms carried out, %u refused with 11, each as the call that it stands for\n", carried_out,
           refused[PILQANDUR_UNFIT_STATE]);
    return 0;
}
