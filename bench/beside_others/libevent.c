/* libevent: event_add and event_del of one base without locks, and event_base_loop. Its clock is the machine's, which an arming outside
 * of the loop reads: what is to be due is armed with a negative span, from 64 buckets ago on. */
#include "workload.h"
#include <event2/event.h>
#include <event2/event_struct.h>

static struct event_base *base;
static struct event *all;

static void call(evutil_socket_t s, short events, void *arg) { (void)s, (void)events, (void)arg, fired++; }

static void open_timers(uint32_t timers)
{
    struct event_config *config = event_config_new();
    event_config_set_flag(config, EVENT_BASE_FLAG_NOLOCK);
    base = event_base_new_with_config(config);
    all = malloc(sizeof *all * timers);
    for (uint32_t i = 0; i < timers; i++)
        evtimer_assign(&all[i], base, call, NULL);
}

static inline void arm_after(uint32_t i, long seconds, uint32_t bucket)
{
    struct timeval span = {seconds, (long)bucket * 3906};
    event_add(&all[i], &span);
}

static inline void arm(uint32_t i, uint32_t bucket) { arm_after(i, 1000, bucket); }
static inline void rearm(uint32_t i, uint32_t bucket) { arm(i, bucket); }
static inline void stop(uint32_t i) { event_del(&all[i]); }
static inline void arm_due(uint32_t i, uint32_t bucket) { arm_after(i, -1, bucket); }
static inline void expire(void) { event_base_loop(base, EVLOOP_NONBLOCK); }
