/* One call of pilqandur.h made again and again, for bench/turns: the same source is compiled with the header and the archive of each side.
 *   calls CALL KIND TASKS TIMES    CALL is s set-up, a admission, r request, t tick, b a run of 64 ticks, e a run of none, w waiting
 * prints a sum over the answers. */
#include <stdio.h>
#include <stdlib.h>

#include "pilqandur.h"

#define TICKS 64
#define REFILL 1024 /* ticks after which the queue is filled again */

static struct pilqandur_entry entries[TICKS];

static struct pilqandur_table table_of(uint32_t kind, uint32_t n)
{
    struct pilqandur_table table = {0};
    table.n = n;
    for (uint32_t i = 0; i < n; i++) {
        uint32_t period = 20 + 4 * i;
        table.tasks[i] = (struct pilqandur_task){i, period, 1, period};
    }
    table.server = (struct pilqandur_server){kind, n / 2, 10, 3};
    return table;
}

static struct pilqandur_state full(struct pilqandur_state state)
{
    for (struct pilqandur_moved_result r; (r = pilqandur_request(state, 7, 500)).number == 0;)
        state = r.state;
    return state;
}

/* What the call answered the i-th time. */
static uint32_t call(char name, struct pilqandur_state *state, uint32_t i)
{
    uint32_t moved = i * (name == 'b' ? TICKS : 1);
    if ((name == 't' || name == 'b') && moved % REFILL == 0)
        *state = full(*state);
    switch (name) {
    case 's': return pilqandur_set_up(state->table).state.progress.server.budget;
    case 'a': return pilqandur_admit(state->table).bounds[0];
    case 'r': return pilqandur_request(*state, i, 5).state.queue.backlog;
    case 'e': return pilqandur_run(*state, 0, NULL, 0).number;
    case 'w': return pilqandur_waiting(*state).work;
    case 't': {
        struct pilqandur_tick_result r = pilqandur_tick(*state);
        *state = r.state;
        return r.number + r.kind + r.id + r.drops + r.response;
    }
    default: {
        struct pilqandur_moved_result r = pilqandur_run(*state, TICKS, entries, TICKS);
        *state = r.state;
        return r.number + entries[i % TICKS].kind + entries[TICKS - 1].id;
    }
    }
}

int main(int argc, char **argv)
{
    if (argc != 5)
        return 2;
    uint32_t kind = atoi(argv[2]), tasks = atoi(argv[3]), times = atoi(argv[4]);
    struct pilqandur_state state = pilqandur_set_up(table_of(kind, tasks)).state;
    unsigned long long sum = 0;
    if (argv[1][0] == 'w')
        state = full(state);
    for (uint32_t i = 0; i < times; i++)
        sum = sum * 31 + call(argv[1][0], &state, i);
    printf("%llu\n", sum);
    return 0;
}
