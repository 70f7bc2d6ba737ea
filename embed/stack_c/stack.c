/* The CPUs of the stack: each advances its wheel, and services what came due.
 *   stack [-c CONNECTIONS] [-n ROUNDS] [-r SECONDS]
 * Without -r each CPU has a clock of its own, which goes on by up to 1/64 s a round. */
#include "stack.h"
#include <inttypes.h>
#include <stdio.h>
#include <stdlib.h>
#include <string.h>
#include <time.h>
#include <unistd.h>

struct stack stack = {.conns = 2000, .rounds = 20000};

uint32_t draw(struct cpu *self)
{
    self->seed = self->seed * 6364136223846793005u + 1442695040888963407u;
    return (uint32_t)(self->seed >> 33);
}

void wrong(const char *what, int32_t status)
{
    if (atomic_fetch_add(&stack.wrong, 1) < 10)
        fprintf(stderr, "%s: %" PRId32 "\n", what, status);
}

static uint64_t machine_time(void)
{
    struct timespec t;
    clock_gettime(CLOCK_MONOTONIC, &t);
    return ((uint64_t)t.tv_sec << 32) + ((uint64_t)t.tv_nsec << 32) / 1000000000;
}

/* A callout is in service: its connection's lock is taken, its function called, and the service ended. */
static void service(struct cpu *self, const callout_reply *picked)
{
    struct conn *c = &stack.conn[picked->id / TIMERS];
    callout_reply r;
    callout_parcel p;
    pthread_mutex_lock(&c->lock);
    pthread_mutex_lock(&self->lock);
    int32_t status = callout_begin(&self->wheel, &r);
    pthread_mutex_unlock(&self->lock);
    if (status)
        wrong("begin", status);
    if (r.answer == CALLOUT_GO) {
        self->counts.fired++;
        ((void (*)(uint64_t, struct cpu *))(uintptr_t)r.func)(r.arg, self);
    } else
        self->counts.skipped++;
    pthread_mutex_lock(&self->lock);
    status = callout_end(&self->wheel, false, &r, &p);
    pthread_mutex_unlock(&self->lock);
    if (status)
        wrong("end", status);
    if (r.leaves) {
        self->counts.left++;
        land(self, &p);
    }
    if (r.func)
        ((void (*)(uint64_t, struct cpu *))(uintptr_t)r.func)(picked->id, self);
    pthread_mutex_unlock(&c->lock);
}

void cpu_service(struct cpu *self, uint64_t now)
{
    callout_reply r;
    uint64_t at = 0;
    uint32_t due;
    int32_t status;
    pthread_mutex_lock(&self->lock);
    int32_t armed = callout_earliest(&self->wheel, &at);
    status = callout_advance(&self->wheel, now, &due);
    pthread_mutex_unlock(&self->lock);
    if (status)
        wrong("advance", status);
    if ((armed || now < at) && due != 0)
        self->counts.early++; /* something came due before the earliest time */
    self->counts.advanced++;
    for (;;) {
        pthread_mutex_lock(&self->lock);
        status = callout_next(&self->wheel, false, &r);
        pthread_mutex_unlock(&self->lock);
        if (status)
            break;
        if (r.answer != CALLOUT_HOLD)
            wrong("next", (int32_t)r.answer);
        self->counts.picked++;
        service(self, &r);
    }
    if (status != -11)
        wrong("next", status);
}

/* Until something is due, but at most a millisecond, when packets come. */
static void sleep_on(struct cpu *self)
{
    uint64_t at = 0, t = machine_time();
    pthread_mutex_lock(&self->lock);
    int32_t status = callout_earliest(&self->wheel, &at);
    pthread_mutex_unlock(&self->lock);
    uint64_t ns = 1000000;
    if (status == 0 && at <= t)
        return;
    if (status == 0 && at - t < CALLOUT_SECOND / 1000)
        ns = ((at - t) * 1000000000 >> 32) + 1;
    self->counts.slept++;
    nanosleep(&(struct timespec){.tv_nsec = (long)ns}, NULL);
}

static void *run(void *arg)
{
    struct cpu *self = arg;
    for (uint32_t round = 0; stack.real ? self->now < stack.until : round < stack.rounds; round++) {
        self->now = stack.real ? machine_time() : self->now + (draw(self) % 64 << 20);
        for (int packets = 0; packets < 16; packets++) {
            struct conn *c = &stack.conn[draw(self) % stack.conns];
            if (c->number % CPUS != self->number && draw(self) % 4)
                continue; /* mostly those that it opened first */
            pthread_mutex_lock(&c->lock);
            conn_packet(self, c);
            pthread_mutex_unlock(&c->lock);
        }
        cpu_service(self, self->now);
        if (stack.real)
            sleep_on(self);
    }
    return NULL;
}

static int say(const char *what, uint64_t a, const char *is, uint64_t b)
{
    printf("%s %" PRIu64 " = %s %" PRIu64 ": %s\n", what, a, is, b, a == b ? "yes" : "NO");
    return a != b;
}

static int check(void)
{
    struct counts sum = {0};
    for (uint32_t i = 0; i < CPUS; i++) {
        const uint64_t *from = (const uint64_t *)&stack.cpus[i].counts;
        uint64_t *to = (uint64_t *)&sum;
        for (size_t k = 0; k < sizeof sum / sizeof *to; k++)
            to[k] += from[k];
    }
    for (uint32_t i = 0; i < stack.conns; i++)
        for (enum timer t = 0; t < TIMERS; t++)
            sum.left_armed += callout_pending(&stack.cpus[stack.conn[i].at[t]].wheel, id_of(&stack.conn[i], t)) == 1;
    int bad = say("armed", sum.armed, "removed + recalled + picked + still armed", sum.removed + sum.recalled + sum.picked + sum.left_armed);
    bad += say("picked", sum.picked, "fired + skipped", sum.fired + sum.skipped);
    bad += say("skipped", sum.skipped, "cancelled in service", sum.cancelled);
    bad += say("drains", sum.drains, "done at once + done at an end", sum.drained_at_once + sum.drained_later);
    bad += say("left", sum.left, "landed", sum.landed);
    bad += say("opened", sum.opened, "closed + open", sum.closed + stack.conns);
    bad += say("wrong answers", stack.wrong, "early", sum.early);
    printf("armed %" PRIu64 ", removed %" PRIu64 ", recalled %" PRIu64 ", fired %" PRIu64 " (retransmit %" PRIu64 ", delayed ack %" PRIu64 ", persist %" PRIu64
           ", keepalive %" PRIu64 ", 2msl %" PRIu64 "), skipped %" PRIu64 ", drained later %" PRIu64 ", landed %" PRIu64 " (%" PRIu64
           " after a service), migrated %" PRIu64 ", closed %" PRIu64 ", slept %" PRIu64 "\n",
           sum.armed, sum.removed, sum.recalled, sum.fired, sum.by_timer[REXMT], sum.by_timer[DELACK], sum.by_timer[PERSIST], sum.by_timer[KEEP],
           sum.by_timer[MSL2], sum.skipped, sum.drained_later, sum.landed, sum.deferred, sum.migrated, sum.closed, sum.slept);
    return bad || stack.wrong;
}

static int start(void)
{
    stack.conn = calloc(stack.conns, sizeof *stack.conn);
    if (!stack.conn)
        return 3;
    for (uint32_t i = 0; i < CPUS; i++) {
        struct cpu *cpu = &stack.cpus[i];
        pthread_mutex_init(&cpu->lock, NULL);
        cpu->number = i;
        cpu->seed = i + 1;
        cpu->now = stack.real ? machine_time() : 0;
        int32_t status = callout_wheel_new(&cpu->wheel, i, 4096, stack.conns * TIMERS, 0);
        if (status)
            return status == -12 ? 3 : 1;
    }
    for (uint32_t i = 0; i < stack.conns; i++) {
        struct conn *c = &stack.conn[i];
        pthread_mutex_init(&c->lock, NULL);
        c->number = i;
        conn_open(&stack.cpus[i % CPUS], c);
    }
    return 0;
}

static int finish(int status)
{
    for (uint32_t i = 0; i < CPUS; i++)
        if (stack.cpus[i].wheel.live && callout_wheel_free(&stack.cpus[i].wheel))
            status = 1;
    free(stack.conn);
    return status;
}

int main(int argc, char **argv)
{
    for (int o; (o = getopt(argc, argv, "c:n:r:")) != -1;) {
        if (o == 'c')
            stack.conns = (uint32_t)strtoul(optarg, NULL, 10);
        else if (o == 'n')
            stack.rounds = (uint32_t)strtoul(optarg, NULL, 10);
        else if (o == 'r')
            stack.until = machine_time() + strtoull(optarg, NULL, 10) * CALLOUT_SECOND, stack.real = true;
        else
            return 2;
    }
    if (stack.conns < 1 || stack.conns > CONNS_MAX)
        return 2;
    int status = start();
    if (status)
        return finish(status);
    for (uint32_t i = 0; i < CPUS; i++)
        pthread_create(&stack.cpus[i].thread, NULL, run, &stack.cpus[i]);
    for (uint32_t i = 0; i < CPUS; i++)
        pthread_join(stack.cpus[i].thread, NULL);
    return finish(check());
}
