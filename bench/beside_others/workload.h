/* The same operations on every timer library, as `PROGRAM TIMERS ROUNDS`. A library's file says what one operation is, includes this, and
 * has its main from here:
 *   open_timers   makes so many timers, none of them armed
 *   arm, rearm    a timer that is not armed, or is, to be due far ahead: after `bucket` of 64 steps of 1/256 s
 *   stop          a timer that is armed
 *   arm_due       a timer that is not armed, so that the next `expire` finds it due, after those of lower buckets
 *   expire        all that is due is called; `fired` counts that
 * A round arms all timers, arms each anew, stops each, and lets each expire, in an order that is drawn once, each into a bucket that is
 * drawn. Printed are the nanoseconds of processor time of one operation, the median of the rounds; callgrind counts the instructions of
 * each `measured_` function. */
#ifndef WORKLOAD_H
#define WORKLOAD_H

#include <stdint.h>
#include <stdio.h>
#include <stdlib.h>
#include <time.h>

static uint64_t fired;

static void open_timers(uint32_t timers);
static inline void arm(uint32_t i, uint32_t bucket);
static inline void rearm(uint32_t i, uint32_t bucket);
static inline void stop(uint32_t i);
static inline void arm_due(uint32_t i, uint32_t bucket);
static inline void expire(void);

static uint32_t timers, *order;
static uint64_t seed = 1;

static inline uint32_t draw(void)
{
    seed = seed * 6364136223846793005u + 1442695040888963407u;
    return (uint32_t)(seed >> 33);
}

static inline uint32_t draw_bucket(void) { return draw() >> 10 & 63; }

#define MEASURED(name, act)                                                                                                                \
    static __attribute__((noinline)) void measured_##name(void)                                                                            \
    {                                                                                                                                      \
        for (uint32_t k = 0; k < timers; k++)                                                                                              \
            act;                                                                                                                           \
    }
MEASURED(arm, arm(order[k], draw_bucket()))
MEASURED(rearm, rearm(order[k], draw_bucket()))
MEASURED(stop, stop(order[k]))
static __attribute__((noinline)) void measured_expire(void) { expire(); }

static double now_ns(void)
{
    struct timespec t;
    clock_gettime(CLOCK_THREAD_CPUTIME_ID, &t);
    return (double)t.tv_sec * 1e9 + (double)t.tv_nsec;
}

static void nothing(void) {}

/* What a part has taken, round by round. */
struct taken {
    double *ns;
    uint32_t rounds;
};

static struct taken taken_in(uint32_t rounds) { return (struct taken){calloc(rounds, sizeof(double)), 0}; }

static void measure(struct taken *taken, void (*measured)(void))
{
    double start = now_ns();
    measured();
    taken->ns[taken->rounds++] = now_ns() - start;
}

static int compare(const void *a, const void *b)
{
    double x = *(const double *)a, y = *(const double *)b;
    return (x > y) - (x < y);
}

static double median(struct taken taken)
{
    qsort(taken.ns, taken.rounds, sizeof(double), compare);
    return taken.ns[taken.rounds / 2];
}

static void draw_order(void)
{
    order = malloc(sizeof *order * timers);
    for (uint32_t k = 0; k < timers; k++)
        order[k] = k;
    for (uint32_t k = timers - 1; k > 0; k--) {
        uint32_t other = draw() % (k + 1), kept = order[k];
        order[k] = order[other];
        order[other] = kept;
    }
}

int main(int argc, char **argv)
{
    uint32_t rounds = argc == 3 ? (uint32_t)strtoul(argv[2], NULL, 10) : 0;
    if (rounds == 0 || (timers = (uint32_t)strtoul(argv[1], NULL, 10)) == 0)
        return 2;
    struct taken clock = taken_in(100), arming = taken_in(rounds), rearming = taken_in(rounds), stopping = taken_in(rounds),
                 expiring = taken_in(rounds);
    draw_order();
    open_timers(timers);
    for (uint32_t n = 0; n < 100; n++)
        measure(&clock, nothing);
    for (uint32_t n = 0; n < rounds; n++) {
        measure(&arming, measured_arm);
        measure(&rearming, measured_rearm);
        measure(&stopping, measured_stop);
        for (uint32_t k = 0; k < timers; k++)
            arm_due(order[k], draw_bucket());
        fired = 0;
        measure(&expiring, measured_expire);
        if (fired != timers)
            return 1;
    }
    double empty = median(clock);
    printf("arm %.1f rearm %.1f stop %.1f expire %.1f\n", (median(arming) - empty) / timers, (median(rearming) - empty) / timers,
           (median(stopping) - empty) / timers, (median(expiring) - empty) / timers);
    return 0;
}
#endif
