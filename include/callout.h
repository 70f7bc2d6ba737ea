/* callout.h - FreeBSD's callout(9) for a C program: the callouts of one CPU behind a handle.
 *
 * The library has no clock, no thread, no lock and no call back: the program says what time it is, asks what is to be
 * called, and calls it. No call but callout_wheel_new takes memory, and none waits. Each answers 0 (or what its line says)
 * or a negative errno, by Linux's numbers, and then neither the wheel nor what a pointer leads to has changed. Any value is
 * safe. Of what is behind the pointers C owes three things:
 *   - a handle is all zero or as these calls left it, and is not copied;
 *   - no two pointers of one call lead to the same or to nothing;
 *   - one lock of the program's, or one thread, is round all calls on one handle.
 *
 * A time is a number of 2^-32 s below 2^63, from a beginning of the program's own. An id is a number below the wheel's
 * callouts. A program with several CPUs has a wheel for each; all have the same ids, and a callout is at one of them. */
#ifndef CALLOUT_H
#define CALLOUT_H

#include <stdbool.h>
#include <stddef.h>
#include <stdint.h>

#ifdef __cplusplus
extern "C" {
#endif

#define CALLOUT_SECOND ((uint64_t)1 << 32)
#define CALLOUT_TIME_MAX (((uint64_t)1 << 63) - 1)
#define CALLOUT_CALLOUTS_MAX 1048576
/* cpu: the callout's own (that of its last arming, or else 0), or that at which it is */
#define CALLOUT_HOME UINT32_MAX
#define CALLOUT_HERE (UINT32_MAX - 1)

/* The callouts of one CPU. `= {0}` is a handle without; callout_wheel_new gives it some. */
typedef struct callout_wheel {
    void *at;
    bool live;
} callout_wheel;

enum callout_lock { CALLOUT_MPSAFE, CALLOUT_MTX, CALLOUT_RW, CALLOUT_RW_SHARED };

/* What is fixed of a callout. `lock` is the program's own number of its lock; the library takes none. `= {0}`: no lock. */
typedef struct callout_attr {
    uint32_t lock_kind;        /* enum callout_lock */
    uint32_t lock;
    uint32_t returns_unlocked; /* 1: the function gives the lock back itself */
} callout_attr;

enum callout_answer {
    CALLOUT_ARMED = 1,  /* n, cpu, code 1: it took the place of an arming, or cancelled one in service; at where it stands here */
    CALLOUT_NOTARMED,   /* a drain stands: code 1 where the call cancelled one in service */
    CALLOUT_NOHANDLER,  /* a schedule before any reset */
    CALLOUT_WORN,       /* 2^64 - 1 armings were made */
    CALLOUT_STOPPED,    /* code 1: it will not be called; 0: it is in service; -1: nothing was armed */
    CALLOUT_WAIT,       /* a drain: arming n is in service; try again after its end, with took */
    CALLOUT_DRAINED,    /* it is armed no more, and not in service; code 1 or -1 */
    CALLOUT_BUSY,       /* another asynchronous drain stands */
    CALLOUT_YES,
    CALLOUT_NO,
    CALLOUT_DONE,
    CALLOUT_GO,         /* call func(arg), then callout_end */
    CALLOUT_HOLD,       /* take the callout's lock, then callout_begin */
    CALLOUT_SKIP,       /* it was cancelled: give the lock back, then callout_end */
    CALLOUT_ENDED,      /* func where it is not 0: call it, an asynchronous drain is done; woke; leaves */
    CALLOUT_LIVE,
    CALLOUT_RETIRED,
    CALLOUT_INUSE
};

/* What a call answers. What an answer does not tell is 0. */
typedef struct callout_reply {
    uint32_t answer; /* enum callout_answer */
    int32_t code;    /* what the function of callout(9) returns */
    uint64_t n;      /* an arming's number: each callout's are counted from 0 */
    uint64_t func, arg;
    uint64_t at;     /* when it stands in the queue, or is serviced */
    uint32_t id, cpu;
    uint8_t removed; /* the call took an arming out of the queue; a code alone does not tell */
    uint8_t took;    /* of a WAIT: pass it to the next try */
    uint8_t woke;    /* of an ENDED: a drain waits for it */
    uint8_t leaves;  /* the callout is here no more: *parcel is to land at cpu */
} callout_reply;

/* A callout on its way from CPU to CPU: numbers, to be passed on by value and landed once. */
typedef struct callout_parcel {
    uint64_t due, prec, func, arg, made;
    uint32_t id, cpu, lock_kind, lock;
    uint8_t returns_unlocked, direct, active, known;
} callout_parcel;

/* Every call on a handle without callouts: EBADF. */

/* Callouts 1 to CALLOUT_CALLOUTS_MAX, buckets (of 1/256 s) a power of two from 16 to 65536; the last `direct` ids are for
 * callouts that the clock interrupt runs. EINVAL a size, or cpu is HOME or HERE; EEXIST it has some; ENOMEM. */
int32_t callout_wheel_new(callout_wheel *, uint32_t cpu, uint32_t buckets, uint32_t callouts, uint32_t direct);
/* EBUSY a callout is in service. What is armed is forgotten. */
int32_t callout_wheel_free(callout_wheel *);

/* A callout comes, not armed. EINVAL the id or the attributes; EEXIST. */
int32_t callout_init(callout_wheel *, uint32_t id, const callout_attr *);
/* A callout goes, and its id is free. ENOENT; EBUSY armed or in service. */
int32_t callout_fini(callout_wheel *, uint32_t id);

/* ---- what callers do. ENOENT: callout id is not here. EINVAL: a time is 2^63 or more. */

/* From due on func(arg) is to be called, at a CPU. ARMED, NOTARMED, WORN. The parcel is written where the reply leaves. */
int32_t callout_reset(callout_wheel *, uint32_t id, uint64_t due, uint64_t prec, uint64_t func, uint64_t arg,
                      uint32_t cpu, callout_reply *, callout_parcel *);
/* The same with the function and argument of the last reset. NOHANDLER too. */
int32_t callout_schedule(callout_wheel *, uint32_t id, uint64_t due, uint64_t prec, uint32_t cpu, callout_reply *,
                         callout_parcel *);
/* It is armed no more; a call that waits for its lock is cancelled. STOPPED. */
int32_t callout_stop(callout_wheel *, uint32_t id, callout_reply *);
/* The same, and no service has it then: DRAINED, or WAIT and try again. took: false at first. */
int32_t callout_drain_try(callout_wheel *, uint32_t id, bool took, callout_reply *);
/* The same without waiting: STOPPED with code 0 where it is in service, whose end names func; BUSY. */
int32_t callout_async_drain(callout_wheel *, uint32_t id, uint64_t func, callout_reply *);
int32_t callout_pending(callout_wheel *, uint32_t id);    /* 1 armed, 0 not */
int32_t callout_active(callout_wheel *, uint32_t id);     /* 1: armed, and neither stopped, drained nor deactivated since */
int32_t callout_deactivate(callout_wheel *, uint32_t id); /* 0 */

/* ---- what the CPU does: advance; then until EAGAIN: next; where HOLD: take the lock, begin; where GO: call; end. */

/* What is due by now comes due; *due is how many. EINVAL. */
int32_t callout_advance(callout_wheel *, uint64_t now, uint32_t *due);
/* The first that came due, or where direct the first direct one, goes into service: GO or HOLD. EBUSY one is; EAGAIN none.
   An advance takes the buckets from the last time to the new one in their order, and of one bucket the newest arming first. */
int32_t callout_next(callout_wheel *, bool direct, callout_reply *);
/* After HOLD, under the lock: GO or SKIP. EPERM none waits for its lock. */
int32_t callout_begin(callout_wheel *, callout_reply *);
/* After the call, or SKIP: ENDED. EPERM no call is under way that can end. */
int32_t callout_end(callout_wheel *, bool direct, callout_reply *, callout_parcel *);
/* A callout that left another CPU for this one is here, and armed. EINVAL not for this CPU, no id here, or the lane; EEXIST. */
int32_t callout_land(callout_wheel *, const callout_parcel *, uint64_t *at);
/* Nothing is to be serviced before *at: that of the last advance where something came due. EAGAIN nothing is armed here. */
int32_t callout_earliest(callout_wheel *, uint64_t *at);

#ifdef __cplusplus
}
#endif
#endif
