/* The timers of a small TCP stack in user space: two CPUs, each with a thread, a wheel and a lock round it; connections, each
 * with a lock and five timers, which run under the connection's lock. A connection's lock is taken before a wheel's. */
#ifndef STACK_H
#define STACK_H

#include <callout.h>
#include <pthread.h>
#include <stdatomic.h>
#include <stdbool.h>
#include <stdint.h>

enum { CPUS = 2, CONNS_MAX = 1 << 16 };
enum timer { REXMT, DELACK, PERSIST, KEEP, MSL2, TIMERS };
enum state { OPEN, TIME_WAIT, CLOSING };

/* All that was counted. Each arming ends once: taken out of a queue by a call, taken back before a queue had it, picked by a CPU,
 * or still armed at the end. */
struct counts {
    uint64_t armed, removed, recalled, picked, left_armed;
    uint64_t fired, skipped, cancelled;         /* a pick is called or skipped; a skip was cancelled by a call */
    uint64_t drains, drained_later, drained_at_once;
    uint64_t left, landed, deferred;            /* callouts that went from CPU to CPU */
    uint64_t opened, closed, migrated, advanced, slept, early;
    uint64_t by_timer[TIMERS];
};

struct conn {
    pthread_mutex_t lock;
    uint32_t number;
    enum state state;
    uint32_t cpu;          /* where its next timers are armed */
    uint32_t at[TIMERS];   /* the CPU at which each of its callouts is */
    bool waits[TIMERS];    /* it is armed at another CPU, and goes there at the end of its service here */
    uint32_t draining;     /* asynchronous drains that are not done */
    uint32_t rexmts, unacked;
};

struct cpu {
    pthread_t thread;
    pthread_mutex_t lock;  /* round all calls on the wheel */
    callout_wheel wheel;
    uint32_t number;
    uint64_t now, seed;
    struct counts counts;
};

struct stack {
    uint32_t conns, rounds;
    bool real;             /* the time is the machine's, else each CPU's own */
    uint64_t until;
    struct cpu cpus[CPUS];
    struct conn *conn;
    atomic_uint wrong;     /* answers that must not come */
};

extern struct stack stack;

static inline uint32_t id_of(const struct conn *c, enum timer t) { return c->number * TIMERS + t; }
uint32_t draw(struct cpu *);
void wrong(const char *what, int32_t status);

/* timers.c: what a connection does with one of its timers, under its lock, on the thread of a CPU. */
void timer_arm(struct cpu *, struct conn *, enum timer, uint64_t after);
void timer_stop(struct cpu *, struct conn *, enum timer);
void timer_drain(struct cpu *, struct conn *, enum timer);
void timers_init(struct conn *);
void timers_fini(struct conn *);
void timers_move(struct cpu *, struct conn *, uint32_t to);
void land(struct cpu *, const callout_parcel *);

/* tcp.c: what a connection does. */
void conn_open(struct cpu *, struct conn *);
void conn_packet(struct cpu *, struct conn *);
void conn_drained(struct cpu *, struct conn *);
void conn_timer(uint64_t arg, struct cpu *);

/* stack.c */
void cpu_service(struct cpu *, uint64_t now);

#endif
