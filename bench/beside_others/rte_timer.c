/* DPDK: rte_timer_reset and rte_timer_stop on one lcore, and rte_timer_manage. Its clock is the processor's counter: what is to be due is
 * armed with a span that wraps round, from 64 buckets ago on. */
#include "workload.h"
#include <rte_cycles.h>
#include <rte_eal.h>
#include <rte_lcore.h>
#include <rte_timer.h>

static struct rte_timer *all;
static uint64_t second, bucket_span;
static unsigned lcore;

static void call(struct rte_timer *timer, void *arg) { (void)timer, (void)arg, fired++; }

static void open_timers(uint32_t timers)
{
    char *words[] = {"rte_timer", "--no-huge",  "--no-pci",      "--no-shconf",          "--no-telemetry", "-l", "0", "-m", "64",
                     "--log-level=1", "--file-prefix=beside", NULL};
    if (rte_eal_init(11, words) < 0 || rte_timer_subsystem_init() < 0)
        exit(3);
    lcore = rte_lcore_id();
    second = rte_get_timer_hz();
    bucket_span = second / 256;
    all = malloc(sizeof *all * timers);
    for (uint32_t i = 0; i < timers; i++)
        rte_timer_init(&all[i]);
}

static inline void arm_after(uint32_t i, uint64_t span) { rte_timer_reset(&all[i], span, SINGLE, lcore, call, NULL); }
static inline void arm(uint32_t i, uint32_t bucket) { arm_after(i, 1000 * second + bucket * bucket_span); }
static inline void rearm(uint32_t i, uint32_t bucket) { arm(i, bucket); }
static inline void stop(uint32_t i) { rte_timer_stop(&all[i]); }
static inline void arm_due(uint32_t i, uint32_t bucket) { arm_after(i, (uint64_t)0 - (65 - bucket) * bucket_span); }
static inline void expire(void) { rte_timer_manage(); }
