/* Prints the size of each struct that crosses the boundary, the offset of each of its fields, and each number, as C has them. */
#include <stdio.h>

#include "pilqandur.h"

#define SIZE(s) printf(#s " %zu\n", sizeof(struct pilqandur_##s))
#define NUMBER(n) printf(#n " %lu\n", (unsigned long)PILQANDUR_##n)
#define AT(s, f) printf(#s "." #f " %zu\n", offsetof(struct pilqandur_##s, f))

int main(void)
{
    SIZE(task);
    AT(task, phase);
    AT(task, period);
    AT(task, exec);
    AT(task, deadline);
    SIZE(server);
    AT(server, kind);
    AT(server, place);
    AT(server, period);
    AT(server, budget);
    SIZE(table);
    AT(table, tasks);
    AT(table, n);
    AT(table, server);
    SIZE(sporadic);
    AT(sporadic, tr);
    AT(sporadic, begin);
    AT(sporadic, nr);
    AT(sporadic, served);
    AT(sporadic, late);
    AT(sporadic, above);
    AT(sporadic, busy);
    SIZE(server_state);
    AT(server_state, budget);
    AT(server_state, sporadic);
    SIZE(progress);
    AT(progress, left);
    AT(progress, server);
    AT(progress, clock);
    SIZE(queued);
    AT(queued, id);
    AT(queued, work);
    AT(queued, arrival);
    SIZE(queue);
    AT(queue, requests);
    AT(queue, n);
    AT(queue, backlog);
    SIZE(stretch);
    AT(stretch, start);
    AT(stretch, length);
    SIZE(returns);
    AT(returns, stretches);
    AT(returns, n);
    SIZE(state);
    AT(state, table);
    AT(state, progress);
    AT(state, queue);
    AT(state, returns);
    SIZE(entry);
    AT(entry, kind);
    AT(entry, id);
    AT(entry, drops);
    SIZE(set_up_result);
    AT(set_up_result, number);
    AT(set_up_result, index);
    AT(set_up_result, state);
    SIZE(admission_result);
    AT(admission_result, number);
    AT(admission_result, index);
    AT(admission_result, bounds);
    AT(admission_result, serverbound);
    AT(admission_result, admitted);
    SIZE(moved_result);
    AT(moved_result, number);
    AT(moved_result, state);
    SIZE(tick_result);
    AT(tick_result, number);
    AT(tick_result, kind);
    AT(tick_result, id);
    AT(tick_result, drops);
    AT(tick_result, finished);
    AT(tick_result, request);
    AT(tick_result, response);
    AT(tick_result, state);
    SIZE(waiting_result);
    AT(waiting_result, number);
    AT(waiting_result, work);
    NUMBER(MAX_TASKS);
    NUMBER(MAX_WAITING);
    NUMBER(MAX_STRETCHES);
    NUMBER(MAX_TIME);
    NUMBER(MAX_WORK);
    NUMBER(MAX_BACKLOG);
    NUMBER(LAST_CLOCK);
    NUMBER(BACKGROUND);
    NUMBER(POLLING);
    NUMBER(DEFERRABLE);
    NUMBER(SPORADIC);
    NUMBER(RETURNING);
    NUMBER(IDLE);
    NUMBER(TASK);
    NUMBER(REQUEST);
    NUMBER(DONE);
    NUMBER(TASK_COUNT);
    NUMBER(BAD_TASK);
    NUMBER(BAD_SERVER);
    NUMBER(BAD_WORK);
    NUMBER(QUEUE_FULL);
    NUMBER(CLOCK_SPENT);
    NUMBER(PLAN_TOO_LONG);
    NUMBER(BAD_LINE);
    NUMBER(LINE_MISPLACED);
    NUMBER(SHORT_RECORD);
    NUMBER(UNFIT_STATE);
    return 0;
}
