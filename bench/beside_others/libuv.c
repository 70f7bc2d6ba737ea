/* libuv: uv_timer_start and uv_timer_stop of one loop, and uv_run. Its clock is the machine's, in ms: while timers are armed that are to be
 * due, the loop's idea of it is put back by 64 buckets and more. */
#include "workload.h"
#include <uv.h>

static uv_loop_t *loop;
static uv_timer_t *all;

static void call(uv_timer_t *timer) { (void)timer, fired++; }

static void open_timers(uint32_t timers)
{
    loop = uv_default_loop();
    all = malloc(sizeof *all * timers);
    for (uint32_t i = 0; i < timers; i++)
        uv_timer_init(loop, &all[i]);
}

static inline void arm(uint32_t i, uint32_t bucket) { uv_timer_start(&all[i], call, 1000000 + 4 * (uint64_t)bucket, 0); }
static inline void rearm(uint32_t i, uint32_t bucket) { arm(i, bucket); }
static inline void stop(uint32_t i) { uv_timer_stop(&all[i]); }

static inline void arm_due(uint32_t i, uint32_t bucket)
{
    loop->time -= 300;
    uv_timer_start(&all[i], call, 4 * (uint64_t)bucket, 0);
    loop->time += 300;
}

static inline void expire(void) { uv_run(loop, UV_RUN_NOWAIT); }
