/* libev: ev_timer_start, ev_timer_again and ev_timer_stop of one loop, and ev_run. Its clock is the machine's: what is to be due is armed
 * with a negative span, from 64 buckets ago on. */
#include "workload.h"
#include <ev.h>

static struct ev_loop *loop;
static ev_timer *all;

static void call(struct ev_loop *l, ev_timer *t, int events) { (void)l, (void)t, (void)events, fired++; }

static void open_timers(uint32_t timers)
{
    loop = ev_loop_new(0);
    all = malloc(sizeof *all * timers);
    for (uint32_t i = 0; i < timers; i++)
        ev_timer_init(&all[i], call, 0., 0.);
}

static inline void arm_after(uint32_t i, double span)
{
    ev_timer_set(&all[i], span, 0.);
    ev_timer_start(loop, &all[i]);
}

static inline void arm(uint32_t i, uint32_t bucket) { arm_after(i, 1000. + bucket / 256.); }

static inline void rearm(uint32_t i, uint32_t bucket)
{
    all[i].repeat = 1000. + bucket / 256.;
    ev_timer_again(loop, &all[i]);
}

static inline void stop(uint32_t i) { ev_timer_stop(loop, &all[i]); }
static inline void arm_due(uint32_t i, uint32_t bucket) { arm_after(i, (bucket - 65.) / 256.); }
static inline void expire(void) { ev_run(loop, EVRUN_NOWAIT); }
