/* Prints how much stack each call was seen to take, return address included; how much a function was seen to take that makes the call by its
 * inline form and does nothing else; and how many bytes are passed by value: arguments and result. Each call goes through a door that notes the
 * stack pointer and jumps on; the stack below was painted before. For tools/stack. */
#include <stdio.h>
#include <stdlib.h>
#include <ucontext.h>

#include "pilqandur.h"

#define ROOM 65536
#define PAINT 0x5bd1e995u
#define TICKS 40u

static uint32_t stack[ROOM / 4];
static ucontext_t home, away;
static uintptr_t form_at;
uintptr_t door_at;

#define DOOR(name) \
    __asm__(".text\ndoor_" #name ":\n\tmov %rsp, door_at(%rip)\n\tjmp pilqandur_" #name "\n"); \
    static uintptr_t most_##name, most_form_##name

DOOR(set_up);
DOOR(admit);
DOOR(request);
DOOR(tick);
DOOR(run);
DOOR(waiting);

struct pilqandur_set_up_result door_set_up(struct pilqandur_table table);
struct pilqandur_admission_result door_admit(struct pilqandur_table table);
struct pilqandur_moved_result door_request(struct pilqandur_state state, uint32_t id, uint32_t work);
struct pilqandur_tick_result door_tick(struct pilqandur_state state);
struct pilqandur_moved_result door_run(struct pilqandur_state state, uint32_t k, struct pilqandur_entry *entries, size_t len);
struct pilqandur_waiting_result door_waiting(struct pilqandur_state state);

/* Paints the stack from its far end up to a little below this function's own frame, where its locals may lie. */
static __attribute__((noinline)) void paint(void)
{
    uint32_t *here = __builtin_frame_address(0);
    for (volatile uint32_t *p = stack; (uint32_t *)p < here - 16; p++)
        *p = PAINT;
}

/* The most that was used below `top`. */
static __attribute__((noinline)) void look(uintptr_t *most, uintptr_t top)
{
    const uint32_t *p = stack;
    while (*p == PAINT)
        p++;
    uintptr_t used = top - (uintptr_t)p;
    if (used > *most)
        *most = used;
}

#define MEASURED(name, call) (paint(), call, look(&most_##name, door_at + sizeof(uintptr_t)))
#define FORM(name) (paint(), form_##name(), look(&most_form_##name, form_at))

/* Functions that make one call and nothing else: what they take, their own return address included. */
static struct pilqandur_table form_table;
static struct pilqandur_state form_state;
static struct pilqandur_entry form_entries[TICKS];
static volatile uint32_t form_number;

#define FORM_OF(name, call) \
    static __attribute__((noinline)) void form_##name(void) \
    { \
        form_at = (uintptr_t)__builtin_frame_address(0) + 2 * sizeof(uintptr_t); \
        form_number = call; \
    }

FORM_OF(set_up, pilqandur_set_up_at(&form_state, &form_table, NULL))
FORM_OF(admit, pilqandur_admit(form_table).number)
FORM_OF(request, pilqandur_request_at(&form_state, 1, 1))
FORM_OF(tick, pilqandur_tick_at(&form_state, NULL))
FORM_OF(run, pilqandur_run_at(&form_state, TICKS, form_entries, TICKS))
FORM_OF(waiting, pilqandur_waiting_at(&form_state, NULL))

static uint32_t below(uint32_t n)
{
    return (uint32_t)rand() % n;
}

static struct pilqandur_table any_table(void)
{
    struct pilqandur_table t = {.n = 1 + below(PILQANDUR_MAX_TASKS)};
    for (uint32_t i = 0; i < t.n; i++) {
        uint32_t period = 4 + below(60), deadline = 1 + below(period);
        t.tasks[i] = (struct pilqandur_task){below(20), period, 1 + below(deadline < 5 ? deadline : 5), deadline};
    }
    uint32_t kind = below(PILQANDUR_RETURNING + 1), period = 2 + below(20);
    t.server = (struct pilqandur_server){kind, below(t.n + 1), period, 1 + below(period)};
    if (kind == PILQANDUR_BACKGROUND)
        t.server = (struct pilqandur_server){kind, t.n, 0, 0};
    return t;
}

/* One table: set-up, admission, then requests, ticks, runs and the work that waits from its fresh state on; refused ones too. */
static void one_table(void)
{
    static struct pilqandur_entry entries[TICKS];
    struct pilqandur_table table = any_table();
    struct pilqandur_set_up_result up;
    struct pilqandur_admission_result admission;
    struct pilqandur_moved_result moved;
    struct pilqandur_tick_result tick;
    struct pilqandur_waiting_result waiting;
    MEASURED(set_up, up = door_set_up(table));
    MEASURED(admit, admission = door_admit(table));
    (void)admission;
    struct pilqandur_state state = up.state;
    for (int i = 0; i < 30; i++) {
        MEASURED(request, moved = door_request(state, (uint32_t)i, below(6)));
        MEASURED(waiting, waiting = door_waiting(moved.state));
        MEASURED(tick, tick = door_tick(moved.state));
        MEASURED(run, moved = door_run(tick.state, below(TICKS), entries, TICKS - below(4)));
        state = moved.state;
    }
    state.progress.server.sporadic.busy = 2;
    MEASURED(tick, tick = door_tick(state));
    MEASURED(waiting, waiting = door_waiting(state));
    (void)waiting;
    form_table = table;
    FORM(set_up);
    FORM(admit);
    for (int i = 0; i < 5; i++) {
        FORM(request);
        FORM(tick);
        FORM(run);
        FORM(waiting);
    }
}

static void work(void)
{
    srand(7);
    for (int i = 0; i < 200; i++)
        one_table();
}

int main(void)
{
    getcontext(&away);
    away.uc_stack.ss_sp = stack;
    away.uc_stack.ss_size = sizeof stack;
    away.uc_link = &home;
    makecontext(&away, work, 0);
    swapcontext(&home, &away);

    const size_t state = sizeof(struct pilqandur_state), table = sizeof(struct pilqandur_table);
#define SAY(name, passed) printf("pilqandur_" #name " %zu %zu %zu\n", (size_t)most_##name, (size_t)most_form_##name, (size_t)(passed))
    SAY(set_up, table + sizeof(struct pilqandur_set_up_result));
    SAY(admit, table + sizeof(struct pilqandur_admission_result));
    SAY(request, state + sizeof(struct pilqandur_moved_result));
    SAY(tick, state + sizeof(struct pilqandur_tick_result));
    SAY(run, state + sizeof(struct pilqandur_moved_result));
    SAY(waiting, state + sizeof(struct pilqandur_waiting_result));
    return 0;
}
