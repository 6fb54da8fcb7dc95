/* Ticks through pilqandur.h, for bench/against: the same source is compiled with the header and the archive of each side.
 *   ticks KIND TASKS QUEUE GOES [calls]    QUEUE is 0 none, 1 as many requests as it takes, 2 the same, served in single ticks: task 0 has
 *                                          every other tick, and under kind 4 some 31 stretches are held
 * prints the least nanoseconds of a tick over so many goes, of a run or, with `calls`, of ticks made one by one; and a sum over what was
 * recorded. */
#define _POSIX_C_SOURCE 199309L
#include <stdio.h>
#include <stdlib.h>
#include <time.h>

#include "pilqandur.h"

#define TICKS 5000

static struct pilqandur_entry entries[TICKS];

static double now(void)
{
    struct timespec t;
    clock_gettime(CLOCK_MONOTONIC, &t);
    return t.tv_sec * 1e9 + t.tv_nsec;
}

static struct pilqandur_table table_of(uint32_t kind, uint32_t n, int single)
{
    struct pilqandur_table table = {0};
    table.n = n;
    for (uint32_t i = 0; i < n; i++) {
        uint32_t period = 20 + 4 * i;
        table.tasks[i] = (struct pilqandur_task){i, period, n == 1 ? 6 : 1, period};
    }
    table.server = kind == 0 ? (struct pilqandur_server){0, n, 0, 0} : (struct pilqandur_server){kind, n / 2, 10, 3};
    if (single) {
        table.tasks[0] = (struct pilqandur_task){0, 2, 1, 2};
        table.server = (struct pilqandur_server){kind, 1, 63, 31};
    }
    return table;
}

/* TICKS ticks into the entries, by one run or one by one. */
static int go(struct pilqandur_state state, int calls)
{
    if (!calls)
        return pilqandur_run(state, TICKS, entries, TICKS).number == 0;
    for (int i = 0; i < TICKS; i++) {
        struct pilqandur_tick_result r = pilqandur_tick(state);
        if (r.number != 0)
            return 0;
        entries[i] = (struct pilqandur_entry){r.kind, r.id, r.drops};
        state = r.state;
    }
    return 1;
}

int main(int argc, char **argv)
{
    if (argc != 5 && argc != 6)
        return 2;
    uint32_t kind = atoi(argv[1]), tasks = atoi(argv[2]);
    int full = atoi(argv[3]), goes = atoi(argv[4]);
    struct pilqandur_state start = pilqandur_set_up(table_of(kind, tasks, full == 2)).state;
    for (uint32_t id = 0, number = 0; full && number == 0; id++) {
        struct pilqandur_moved_result r = pilqandur_request(start, id, 60000);
        number = r.number;
        start = r.state;
    }
    double best = 1e18;
    unsigned long long sum = 0;
    for (int i = 0; i < goes; i++) {
        double begun = now();
        int done = go(start, argc == 6);
        double took = now() - begun;
        if (!done)
            return 1;
        if (took < best)
            best = took;
    }
    for (int i = 0; i < TICKS; i++)
        sum = sum * 31 + entries[i].kind * 7 + entries[i].id + entries[i].drops;
    printf("%.2f %llu\n", best / TICKS, sum);
    return 0;
}
