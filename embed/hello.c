/* A timer that fires: cc hello.c $(pkg-config --cflags --libs callout) */
#include <callout.h>
#include <stdio.h>
#include <time.h>

static uint64_t now(void)
{
    struct timespec t;
    clock_gettime(CLOCK_MONOTONIC, &t);
    return ((uint64_t)t.tv_sec << 32) + ((uint64_t)t.tv_nsec << 32) / 1000000000;
}

static void ring(void *what) { printf("%s\n", (char *)what); }

int main(void)
{
    callout_wheel wheel = {0};
    callout_reply reply;
    callout_parcel parcel;
    uint64_t at;
    uint32_t due;
    if (callout_wheel_new(&wheel, 0, 256, 16, 0) != 0 || callout_init(&wheel, 0, &(callout_attr){0}) != 0)
        return 1;
    callout_reset(&wheel, 0, now() + CALLOUT_SECOND / 2, 0, (uintptr_t)ring, (uintptr_t)"half a second", CALLOUT_HERE, &reply,
                  &parcel);
    while (callout_earliest(&wheel, &at) == 0) {
        uint64_t t = now(), ns = at > t ? ((at - t) * 1000000000 >> 32) + 1 : 0;
        nanosleep(&(struct timespec){.tv_sec = ns / 1000000000, .tv_nsec = ns % 1000000000}, NULL);
        callout_advance(&wheel, now(), &due);
        while (callout_next(&wheel, false, &reply) == 0) {
            ((void (*)(void *))(uintptr_t)reply.func)((void *)(uintptr_t)reply.arg);
            callout_end(&wheel, false, &reply, &parcel);
        }
    }
    return callout_wheel_free(&wheel);
}
