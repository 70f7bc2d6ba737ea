/* What a connection does: no TCP, but its timers as TCP has them. The caller holds the connection's lock. */
#include "stack.h"

#define MS(n) ((uint64_t)(n) * CALLOUT_SECOND / 1000)

void conn_open(struct cpu *self, struct conn *c)
{
    c->state = OPEN;
    c->cpu = self->number;
    c->draining = c->rexmts = c->unacked = 0;
    timers_init(c);
    timer_arm(self, c, KEEP, MS(7200));
    self->counts.opened++;
}

/* All its timers are drained: its callouts go, and it is opened again. */
static void conn_gone(struct cpu *self, struct conn *c)
{
    timers_fini(c);
    self->counts.closed++;
    conn_open(self, c);
}

static void conn_close(struct cpu *self, struct conn *c)
{
    c->state = CLOSING;
    for (enum timer t = 0; t < TIMERS; t++)
        timer_drain(self, c, t);
    if (c->draining == 0)
        conn_gone(self, c);
}

/* An asynchronous drain is done. */
void conn_drained(struct cpu *self, struct conn *c)
{
    self->counts.drained_later++;
    if (--c->draining == 0)
        conn_gone(self, c);
}

static void conn_send(struct cpu *self, struct conn *c)
{
    c->unacked++;
    timer_stop(self, c, DELACK);
    timer_arm(self, c, REXMT, MS(200) << (c->rexmts < 6 ? c->rexmts : 6));
}

static void conn_ack(struct cpu *self, struct conn *c)
{
    c->rexmts = 0;
    c->unacked = c->unacked > 2 ? c->unacked - 2 : 0;
    if (c->unacked)
        timer_arm(self, c, REXMT, MS(200));
    else
        timer_stop(self, c, REXMT);
}

/* A packet comes, or the program sends. */
void conn_packet(struct cpu *self, struct conn *c)
{
    if (c->state != OPEN)
        return;
    uint32_t what = draw(self) % 64;
    timer_arm(self, c, KEEP, MS(7200));
    if (what < 24)
        conn_send(self, c);
    else if (what < 44)
        conn_ack(self, c);
    else if (what < 56)
        timer_arm(self, c, DELACK, MS(40));
    else if (what < 59)
        timer_arm(self, c, PERSIST, MS(500));
    else if (what < 61)
        timer_stop(self, c, PERSIST);
    else if (what < 62)
        timers_move(self, c, 1 - c->cpu);
    else if (what < 63) {
        c->state = TIME_WAIT;
        timer_stop(self, c, REXMT);
        timer_stop(self, c, DELACK);
        timer_stop(self, c, PERSIST);
        timer_stop(self, c, KEEP);
        timer_arm(self, c, MSL2, MS(1000));
    } else
        conn_close(self, c); /* a reset: at once */
}

/* A timer fires. */
void conn_timer(uint64_t arg, struct cpu *self)
{
    struct conn *c = &stack.conn[arg / TIMERS];
    enum timer t = arg % TIMERS;
    self->counts.by_timer[t]++;
    if (c->state == CLOSING)
        return;
    switch (t) {
    case REXMT:
        if (++c->rexmts > 8)
            conn_close(self, c);
        else
            timer_arm(self, c, REXMT, MS(200) << (c->rexmts < 6 ? c->rexmts : 6));
        break;
    case DELACK:
        break;
    case PERSIST:
        if (c->state == OPEN && draw(self) % 4)
            timer_arm(self, c, PERSIST, MS(500));
        break;
    case KEEP:
        /* idle: it goes to the other CPU, which the end of this service sends it to */
        c->cpu = 1 - c->cpu;
        timer_arm(self, c, KEEP, MS(7200));
        break;
    default:
        conn_close(self, c);
    }
}
