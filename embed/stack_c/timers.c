/* A connection's timers. The caller holds the connection's lock, so where its callouts are does not change meanwhile. */
#include "stack.h"

/* A call on a callout, under the lock of the wheel at which it is. */
#define ON_WHEEL(number, status, call)                        \
    do {                                                      \
        struct cpu *on = &stack.cpus[number];                 \
        pthread_mutex_lock(&on->lock);                        \
        status = call;                                        \
        pthread_mutex_unlock(&on->lock);                      \
    } while (0)

/* What a reply says of the armings that were. */
static void count(struct cpu *self, struct conn *c, enum timer t, const callout_reply *r)
{
    if (r->removed)
        self->counts.removed++;
    else if (c->waits[t])
        self->counts.recalled++; /* one that no queue had yet */
    else if (r->code == 1)
        self->counts.cancelled++; /* one that waited for its lock */
    if (r->answer == CALLOUT_ARMED)
        self->counts.armed++;
    if (r->leaves)
        self->counts.left++;
    c->waits[t] = r->answer == CALLOUT_ARMED && !r->leaves && r->cpu != c->at[t];
}

/* A callout that left one CPU comes to another. */
void land(struct cpu *self, const callout_parcel *p)
{
    uint64_t at;
    int32_t status;
    ON_WHEEL(p->cpu, status, callout_land(&on->wheel, p, &at));
    if (status) {
        wrong("land", status);
        return;
    }
    stack.conn[p->id / TIMERS].at[p->id % TIMERS] = p->cpu;
    stack.conn[p->id / TIMERS].waits[p->id % TIMERS] = false;
    self->counts.landed++;
}

void timer_arm(struct cpu *self, struct conn *c, enum timer t, uint64_t after)
{
    callout_reply r;
    callout_parcel p;
    int32_t status;
    ON_WHEEL(c->at[t], status,
             callout_reset(&on->wheel, id_of(c, t), self->now + after, 0, (uintptr_t)conn_timer, id_of(c, t), c->cpu, &r, &p));
    if (status || (r.answer != CALLOUT_ARMED && r.answer != CALLOUT_NOTARMED)) {
        wrong("reset", status);
        return;
    }
    count(self, c, t, &r);
    if (r.leaves)
        land(self, &p);
    else if (c->waits[t])
        self->counts.deferred++; /* it leaves at the end of its service */
}

void timer_stop(struct cpu *self, struct conn *c, enum timer t)
{
    callout_reply r;
    int32_t status;
    ON_WHEEL(c->at[t], status, callout_stop(&on->wheel, id_of(c, t), &r));
    if (status || r.answer != CALLOUT_STOPPED)
        wrong("stop", status);
    else
        count(self, c, t, &r);
}

static void drained(uint64_t arg, struct cpu *self) { conn_drained(self, &stack.conn[arg / TIMERS]); }

/* It is stopped now, or its service names `drained` at its end. */
void timer_drain(struct cpu *self, struct conn *c, enum timer t)
{
    callout_reply r;
    int32_t status;
    ON_WHEEL(c->at[t], status, callout_async_drain(&on->wheel, id_of(c, t), (uintptr_t)drained, &r));
    if (status || r.answer != CALLOUT_STOPPED) {
        wrong("async drain", status);
        return;
    }
    count(self, c, t, &r);
    self->counts.drains++;
    if (r.code == 0)
        c->draining++;
    else
        self->counts.drained_at_once++;
}

void timers_init(struct conn *c)
{
    callout_attr attr = {.lock_kind = CALLOUT_MTX, .lock = c->number};
    for (enum timer t = 0; t < TIMERS; t++) {
        int32_t status;
        c->at[t] = c->cpu;
        c->waits[t] = false;
        ON_WHEEL(c->cpu, status, callout_init(&on->wheel, id_of(c, t), &attr));
        if (status)
            wrong("init", status);
    }
}

void timers_fini(struct conn *c)
{
    for (enum timer t = 0; t < TIMERS; t++) {
        int32_t status;
        ON_WHEEL(c->at[t], status, callout_fini(&on->wheel, id_of(c, t)));
        if (status)
            wrong("fini", status);
    }
}

/* The connection goes to another CPU: what is armed is armed there, and what is not comes there when it is armed next. */
void timers_move(struct cpu *self, struct conn *c, uint32_t to)
{
    c->cpu = to;
    for (enum timer t = 0; t < TIMERS; t++) {
        int32_t status;
        ON_WHEEL(c->at[t], status, callout_pending(&on->wheel, id_of(c, t)));
        if (status < 0)
            wrong("pending", status);
        else if (status == 1)
            timer_arm(self, c, t, (draw(self) % 512 + 1) << 24);
    }
    self->counts.migrated++;
}
