/* bench PART CALLOUTS CALLS: r resets callouts that are drawn, s stops and resets them, f fires them. Prints the ns of one. */
#include <callout.h>
#include <stdio.h>
#include <stdlib.h>
#include <time.h>

static const uint64_t bucket = 1u << 24;
static uint64_t seed = 1;
static callout_wheel wheel;
static callout_reply reply;
static callout_parcel parcel;

static uint32_t draw(void)
{
    seed = seed * 6364136223846793005u + 1442695040888963407u;
    return (uint32_t)(seed >> 33);
}

static double now_ns(void)
{
    struct timespec t;
    clock_gettime(CLOCK_PROCESS_CPUTIME_ID, &t);
    return (double)t.tv_sec * 1e9 + (double)t.tv_nsec;
}

static void reset(uint32_t id, uint64_t due) { callout_reset(&wheel, id, due, 0, 0, id, CALLOUT_HOME, &reply, &parcel); }

int main(int argc, char **argv)
{
    if (argc != 4)
        return 2;
    char part = argv[1][0];
    uint32_t live = (uint32_t)strtoul(argv[2], NULL, 10), due;
    uint64_t calls = strtoull(argv[3], NULL, 10), n = 0, now = 0;
    if (callout_wheel_new(&wheel, 0, 4096, live, 0))
        return 1;
    for (uint32_t i = 0; i < live; i++) {
        callout_init(&wheel, i, &(callout_attr){0});
        reset(i, 4000 * bucket + draw() % 64 * bucket);
    }
    double t = now_ns();
    if (part == 'r')
        for (; n < calls; n++) {
            uint32_t d = draw();
            reset(d % live, 4000 * bucket + (d >> 10) % 64 * bucket);
        }
    else if (part == 's')
        for (; n < calls; n++) {
            uint32_t d = draw();
            callout_stop(&wheel, d % live, &reply);
            reset(d % live, 4000 * bucket + (d >> 10) % 64 * bucket);
        }
    else
        while (n < calls) {
            double before = now_ns();
            for (uint32_t i = 0; i < live; i++)
                reset(i, now + (draw() % 64 + 1) * bucket);
            t += now_ns() - before;
            now += 65 * bucket;
            callout_advance(&wheel, now, &due);
            for (; callout_next(&wheel, false, &reply) == 0; n++)
                callout_end(&wheel, false, &reply, &parcel);
        }
    printf("%.1f\n", (now_ns() - t) / (double)n);
    return callout_wheel_free(&wheel);
}
