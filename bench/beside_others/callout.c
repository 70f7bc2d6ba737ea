/* libcallout: one wheel of 4096 buckets, whose time the program says. */
#include "workload.h"
#include <callout.h>

static const uint64_t bucket_span = CALLOUT_SECOND / 256, far_ahead = 3900;
static callout_wheel wheel;
static callout_reply reply;
static callout_parcel parcel;
static uint64_t now;

static void call(uint64_t i) { (void)i, fired++; }

static void open_timers(uint32_t timers)
{
    if (callout_wheel_new(&wheel, 0, 4096, timers, 0))
        exit(3);
    for (uint32_t i = 0; i < timers; i++)
        callout_init(&wheel, i, &(callout_attr){0});
}

static inline void arm_at(uint32_t i, uint64_t due)
{
    callout_reset(&wheel, i, due, 0, (uint64_t)(uintptr_t)call, i, CALLOUT_HOME, &reply, &parcel);
}

static inline void arm(uint32_t i, uint32_t bucket) { arm_at(i, now + (far_ahead + bucket) * bucket_span); }
static inline void rearm(uint32_t i, uint32_t bucket) { arm(i, bucket); }
static inline void stop(uint32_t i) { callout_stop(&wheel, i, &reply); }
static inline void arm_due(uint32_t i, uint32_t bucket) { arm_at(i, now + (bucket + 1) * bucket_span); }

static inline void expire(void)
{
    uint32_t due;
    now += 65 * bucket_span;
    callout_advance(&wheel, now, &due);
    while (callout_next(&wheel, false, &reply) == 0) {
        ((void (*)(uint64_t))(uintptr_t)reply.func)(reply.arg);
        callout_end(&wheel, false, &reply, &parcel);
    }
}
