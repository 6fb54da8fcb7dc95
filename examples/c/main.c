/* Document 01's listing from C: one task, a deferrable server, a request at tick 3, eight ticks; and after the run, the request and each tick what
 * a front panel shows, the ticks of work that wait. Every number that comes back is looked at. */
#include <stdio.h>
#include <stdlib.h>

#include "pilqandur.h"

/* A call that was to be carried out. */
static void done(const char *call, uint32_t number)
{
    if (number != PILQANDUR_DONE) {
        fprintf(stderr, "%s: refused with %u\n", call, (unsigned)number);
        exit(1);
    }
}

static void show(uint32_t tick, uint32_t kind, uint32_t id, uint32_t drops)
{
    const char letter = kind == PILQANDUR_TASK ? 'T' : kind == PILQANDUR_REQUEST ? 'A' : 'I';
    printf("X,%u,%c,%u,%u\n", (unsigned)tick, letter, (unsigned)id, (unsigned)drops);
}

/* The front panel. */
static void panel(const struct pilqandur_state *state)
{
    uint32_t work;
    done("waiting", pilqandur_waiting_at(state, &work));
    printf("work waiting %u\n", (unsigned)work);
}

int main(void)
{
    if (pilqandur_version() != PILQANDUR_VERSION) {
        fprintf(stderr, "the archive is of version %u, the header of %u\n", (unsigned)pilqandur_version(), (unsigned)PILQANDUR_VERSION);
        return 1;
    }

    const struct pilqandur_table table = {
        .tasks = {{.phase = 3, .period = 6, .exec = 2, .deadline = 6}},
        .n = 1,
        .server = {.kind = PILQANDUR_DEFERRABLE, .place = 0, .period = 5, .budget = 2},
    };
    const struct pilqandur_admission_result admission = pilqandur_admit(table);
    done("admit", admission.number);
    printf("B,0,%u\nB,S,%u\nV,%u\n", (unsigned)admission.bounds[0], (unsigned)admission.serverbound, (unsigned)admission.admitted);

    struct pilqandur_state state;
    done("set_up", pilqandur_set_up_at(&state, &table, NULL));

    /* three ticks at once, into a lent list */
    struct pilqandur_entry entries[3];
    done("run", pilqandur_run_at(&state, 3, entries, 3));
    for (uint32_t t = 0; t < 3; t++)
        show(t, entries[t].kind, entries[t].id, entries[t].drops);
    panel(&state);

    done("request", pilqandur_request_at(&state, 7, 4));
    panel(&state);

    /* five ticks one by one, which also say what they finish */
    for (uint32_t t = 3; t < 8; t++) {
        struct pilqandur_ticked ticked;
        done("tick", pilqandur_tick_at(&state, &ticked));
        show(t, ticked.kind, ticked.id, ticked.drops);
        if (ticked.finished)
            printf("F,%u,%u,%u\n", (unsigned)t, (unsigned)ticked.request, (unsigned)ticked.response);
        panel(&state);
    }

    /* a refusal: no work. The state stays as it is. */
    printf("refused %u\n", (unsigned)pilqandur_request_at(&state, 8, 0));
    return 0;
}
