/* A state kept over a power failure: saved with a checksum, and taken up again only if all is well. Every number that comes back is looked at.
 *
 * The store is a record in memory here, where a device has battery-backed memory or flash. A device keeps two records and writes them in
 * turn, so that a power failure during a save leaves the other one whole. What was running when the power failed has lost its own data:
 * `left` counts only what a job had of the processor. The clock has not counted the time without power. Whoever cannot live with that
 * sets up anew instead. */
#include <stdio.h>
#include <stdlib.h>
#include <string.h>

#include "pilqandur.h"

/* What is kept. The version says which header the state belongs to: its layout changes with the version. The bytes are in the machine's own order. */
struct record {
    uint32_t version;
    struct pilqandur_state state;
    uint32_t checksum;
};

static const struct pilqandur_table table = {
    .tasks = {{.phase = 0, .period = 10, .exec = 2, .deadline = 5}, {.phase = 5, .period = 20, .exec = 3, .deadline = 20}},
    .n = 2,
    .server = {.kind = PILQANDUR_SPORADIC, .place = 1, .period = 20, .budget = 4},
};

/* CRC-32 (the polynomial 0xEDB88320) over all of the record but the checksum. Structs of 32-bit numbers have no gaps. */
static uint32_t checksum_of(const struct record *record)
{
    const unsigned char *bytes = (const unsigned char *)record;
    uint32_t crc = 0xffffffffu;
    for (size_t i = 0; i < offsetof(struct record, checksum); i++) {
        crc ^= bytes[i];
        for (int bit = 0; bit < 8; bit++)
            crc = (crc >> 1) ^ (0xedb88320u & (0u - (crc & 1u)));
    }
    return ~crc;
}

static void save(struct record *record, const struct pilqandur_state *state)
{
    record->version = PILQANDUR_VERSION;
    record->state = *state;
    record->checksum = checksum_of(record);
}

/* Why a record is not taken up, or NULL and the state. A copy is looked at, so that what was looked at is what is taken. */
static const char *restore(struct pilqandur_state *state, const struct record *store)
{
    const struct record record = *store;
    if (record.version != PILQANDUR_VERSION)
        return "another version";
    if (record.checksum != checksum_of(&record))
        return "a wrong checksum";
    if (memcmp(&record.state.table, &table, sizeof table) != 0)
        return "another table"; /* the one that was admitted is the one to run */
    if (pilqandur_waiting_at(&record.state, NULL) != PILQANDUR_DONE)
        return "an unfit state"; /* it was damaged before it was saved */
    *state = record.state;
    return NULL;
}

/* A call that was to be carried out. */
static void done(const char *call, uint32_t number)
{
    if (number != PILQANDUR_DONE) {
        fprintf(stderr, "%s: refused with %u\n", call, (unsigned)number);
        exit(1);
    }
}

static void set_up(struct pilqandur_state *state)
{
    const struct pilqandur_admission_result admission = pilqandur_admit(table);
    done("admit", admission.number);
    if (!admission.admitted) {
        fprintf(stderr, "the table is not admitted: jobs may be dropped\n");
        exit(1);
    }
    done("set_up", pilqandur_set_up_at(state, &table, NULL));
}

static void ticks(struct pilqandur_state *state, int count)
{
    for (int i = 0; i < count; i++) {
        struct pilqandur_ticked ticked;
        done("tick", pilqandur_tick_at(state, &ticked));
        if (ticked.drops != 0) {
            fprintf(stderr, "a job was dropped\n");
            exit(1);
        }
        if (ticked.finished)
            printf("request %u finished, response %u\n", (unsigned)ticked.request, (unsigned)ticked.response);
    }
}

/* What the next start does with a record. */
static void start(const char *what, const struct record *store)
{
    struct pilqandur_state state;
    const char *fault = restore(&state, store);
    if (fault != NULL)
        set_up(&state);
    printf("%s: %s%s at tick %u\n", what, fault != NULL ? fault : "restored", fault != NULL ? ", set up anew" : "", (unsigned)state.progress.clock);
    ticks(&state, 20);
}

int main(void)
{
    if (pilqandur_version() != PILQANDUR_VERSION) {
        fprintf(stderr, "the archive is of version %u, the header of %u\n", (unsigned)pilqandur_version(), (unsigned)PILQANDUR_VERSION);
        return 1;
    }

    struct pilqandur_state state;
    set_up(&state);
    done("request", pilqandur_request_at(&state, 1, 2));
    ticks(&state, 12);
    done("request", pilqandur_request_at(&state, 2, 10));
    ticks(&state, 8);

    struct record record;
    save(&record, &state);
    start("power back", &record);

    /* One bit of the waiting request's id: still a state, so no call refuses it. Only the checksum tells. */
    struct record changed = record;
    changed.state.queue.requests[0].id ^= 1u;
    struct pilqandur_state other = changed.state;
    printf("a changed id: tick answers %u\n", (unsigned)pilqandur_tick_at(&other, NULL));
    start("a changed id", &changed);

    /* A flag that is neither 0 nor 1: unfit. The call says 11 and leaves the state alone. */
    other = state;
    other.progress.server.sporadic.busy ^= 0x00010000u;
    const struct pilqandur_state before = other;
    printf("a changed flag: tick answers %u", (unsigned)pilqandur_tick_at(&other, NULL));
    printf(", the state is %s\n", memcmp(&other, &before, sizeof other) == 0 ? "as it came" : "changed");
    save(&changed, &other);
    start("a changed flag, saved with a right checksum", &changed);

    /* The figure of the work that waits, one off: unfit too, as it would be with the figure kept and the request's work one off. */
    other = state;
    other.queue.backlog++;
    printf("a changed figure: waiting answers %u\n", (unsigned)pilqandur_waiting_at(&other, NULL));
    save(&changed, &other);
    start("a changed figure, saved with a right checksum", &changed);

    /* A record of earlier firmware. */
    other = state;
    other.table.tasks[1].exec = 4;
    save(&changed, &other);
    start("a record of another table", &changed);
    return 0;
}
