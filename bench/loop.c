/* The inner loop of a run as one would write it in C: the state by pointer, changed in place, no check of fitness. Only for bench/run, which
 * compares its entries and its last state with the library's. */
#include <stdbool.h>
#include <string.h>

#include "pilqandur.h"

static bool due(uint32_t t, uint32_t start, uint32_t period)
{
    return t >= start && (t - start) % period == 0;
}

/* Steps 1 and 2: the drops. */
static uint32_t open_tasks(struct pilqandur_state *s, uint32_t t)
{
    uint32_t drops = 0;
    for (uint32_t i = 0; i < s->table.n; i++) {
        const struct pilqandur_task *k = &s->table.tasks[i];
        uint32_t *left = &s->progress.left[i];
        if (*left > 0 && due(t, k->phase + k->deadline, k->period)) {
            *left = 0;
            drops++;
        }
        if (due(t, k->phase, k->period))
            *left = k->exec;
    }
    return drops;
}

/* Kind 4, step 3: whether the oldest held tick comes back; then it is held no more. */
static bool comes_back(const struct pilqandur_server *v, struct pilqandur_returns *r, uint32_t t)
{
    struct pilqandur_stretch *u = r->stretches;
    if (r->n == 0 || u->start + v->period != t)
        return false;
    if (u->length > 1) {
        u->start++;
        u->length--;
    } else {
        r->n--;
        memmove(u, u + 1, r->n * sizeof *u);
    }
    return true;
}

/* Kind 4: whether tick t follows the last held one. */
static bool goes_on(const struct pilqandur_returns *r, uint32_t t)
{
    if (r->n == 0)
        return false;
    const struct pilqandur_stretch *last = &r->stretches[r->n - 1];
    return last->start + last->length == t;
}

/* Kind 4, step 5: a served tick is held. */
static void hold(struct pilqandur_returns *r, uint32_t t)
{
    if (goes_on(r, t))
        r->stretches[r->n - 1].length++;
    else
        r->stretches[r->n++] = (struct pilqandur_stretch){t, 1};
}

/* Step 3. */
static void replenish(const struct pilqandur_server *v, struct pilqandur_server_state *b, struct pilqandur_returns *r, uint32_t t, bool busy)
{
    struct pilqandur_sporadic *x = &b->sporadic;
    if (v->kind == PILQANDUR_POLLING || v->kind == PILQANDUR_DEFERRABLE) {
        if (t % v->period == 0)
            b->budget = v->budget;
    } else if (v->kind == PILQANDUR_SPORADIC) {
        bool whole = x->served && x->nr == t && !x->late;
        if (whole || (x->late && b->budget == 0) || (busy && t > 0 && !x->busy)) {
            b->budget = v->budget;
            x->tr = t;
            x->served = x->late = false;
            x->nr = 0;
        }
    } else if (v->kind == PILQANDUR_RETURNING) {
        b->budget += comes_back(v, r, t);
    }
}

/* First service after tr. */
static void first_service(const struct pilqandur_server *v, struct pilqandur_sporadic *x, uint32_t t)
{
    uint32_t te = !x->above ? t : x->tr > x->begin ? x->tr : x->begin;
    if (te + v->period == t)
        te = x->tr = t;
    x->nr = te + v->period;
    x->late = x->nr < t;
    x->served = true;
}

/* Step 5, the server. */
static void consume(const struct pilqandur_server *v, struct pilqandur_server_state *b, struct pilqandur_returns *r, uint32_t t, bool above,
                    bool busy, bool serves, bool waited, bool emptied)
{
    struct pilqandur_sporadic *x = &b->sporadic;
    if (v->kind == PILQANDUR_POLLING) {
        b->budget -= serves;
        if ((!above && !waited) || (serves && emptied))
            b->budget = 0;
    } else if (v->kind == PILQANDUR_DEFERRABLE) {
        b->budget -= serves;
    } else if (v->kind == PILQANDUR_SPORADIC) {
        if (above && !x->above)
            x->begin = t;
        if (serves) {
            if (!x->served)
                first_service(v, x, t);
            b->budget--;
        } else if (!above && x->served && b->budget > 0) {
            b->budget--;
        }
        x->above = above;
        x->busy = busy;
    } else if (v->kind == PILQANDUR_RETURNING && serves) {
        b->budget--;
        hold(r, t);
    }
}

/* Step 5, the head request. */
static void serve(struct pilqandur_queue *q)
{
    q->backlog--;
    if (q->requests[0].work > 1) {
        q->requests[0].work--;
        return;
    }
    for (uint32_t i = 1; i < q->n; i++)
        q->requests[i - 1] = q->requests[i];
    q->n--;
}

static struct pilqandur_entry tick(struct pilqandur_state *s)
{
    const struct pilqandur_server *v = &s->table.server;
    struct pilqandur_server_state *b = &s->progress.server;
    struct pilqandur_returns *r = &s->returns;
    uint32_t t = s->progress.clock;
    struct pilqandur_entry e = {0, 0, open_tasks(s, t)};
    uint32_t first = 0;
    while (first < s->table.n && s->progress.left[first] == 0)
        first++;
    bool above = first < v->place, busy = first < s->table.n, waited = s->queue.n > 0, serves = false;
    replenish(v, b, r, t, busy);
    bool room = v->kind != PILQANDUR_RETURNING || r->n < PILQANDUR_MAX_STRETCHES || goes_on(r, t);
    if (!above && waited && b->budget > 0 && room) {
        e = (struct pilqandur_entry){2, s->queue.requests[0].id, e.drops};
        serves = true;
        serve(&s->queue);
    } else if (busy) {
        e = (struct pilqandur_entry){1, first, e.drops};
        s->progress.left[first]--;
    } else if (waited) { /* an idle tick, under any kind: no service */
        e = (struct pilqandur_entry){2, s->queue.requests[0].id, e.drops};
        serve(&s->queue);
    }
    consume(v, b, r, t, above, busy, serves, waited, s->queue.n == 0);
    s->progress.clock = t + 1;
    return e;
}

void loop_run(struct pilqandur_state *state, uint32_t k, struct pilqandur_entry *entries)
{
    for (uint32_t i = 0; i < k; i++)
        entries[i] = tick(state);
}
