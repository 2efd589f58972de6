/* A countdown over frame time for C and C++, after Android's CountDownTimer in whole milliseconds: it is told the time of each frame, in
 * place of being woken by messages of its own. It takes no memory, never waits, reads no clock and calls nothing back.
 *
 *     mloop_countdown countdown = MLOOP_COUNTDOWN(10000, 1000);         ten seconds, a tick each second
 *     mloop_tick tick = mloop_countdown_frame(&countdown, frame_time);  at each frame
 *     if (tick.kind == MLOOP_TICK) show(tick.left);
 *     if (tick.kind == MLOOP_TICK_FINISHED) end();
 *
 * TIMES of frames are nanoseconds, as mloop_frame_next gives them. What has elapsed are the whole milliseconds from the first frame time
 * to the greatest; an earlier time changes nothing.
 *
 * A COUNTDOWN is plain memory of the caller's, which may be copied: the copy counts on by itself. To begin anew, give it its first value
 * again. To cancel it, tell it no more.
 *
 * MISUSE that is answered, and changes nothing: a null pointer, and an interval of 0. What can't be seen, the caller owes: a pointer that
 * is not null is to one whole object, and `first`, `latest` and `begun` are written by the library alone. A countdown is one thread's at a
 * time. It is for 64 bits alone: x86-64 from x86-64-v2 on, and aarch64.
 *
 * Link with libcountdown_c.a. */
#ifndef COUNTDOWN_H
#define COUNTDOWN_H

#include <stdbool.h>
#include <stddef.h>
#include <stdint.h>

#ifdef __cplusplus
extern "C" {
#endif

typedef struct {
    uint64_t total;    /* how long it counts, in milliseconds (millisInFuture) */
    uint64_t interval; /* how long from tick to tick, in milliseconds, not 0 (countDownInterval) */
    uint64_t first;    /* the first frame time, and the greatest: the library's */
    uint64_t latest;
    bool begun; /* whether it was told a frame: the library's */
} mloop_countdown;

#define MLOOP_COUNTDOWN(total, interval) {(total), (interval), 0, 0, false}

typedef enum {
    MLOOP_TICK = 0,             /* `left` milliseconds are left: at the first frame, and at the first of each interval (onTick) */
    MLOOP_TICK_QUIET = 1,       /* the frame is in the same interval as the one before */
    MLOOP_TICK_FINISHED = 2,    /* the first frame at which no time is left (onFinish) */
    MLOOP_TICK_OVER = 3,        /* it has finished at a frame before */
    MLOOP_TICK_NO_INTERVAL = 4, /* the interval is 0, and nothing changed */
    MLOOP_TICK_NULL = 5         /* the pointer is null */
} mloop_tick_kind;

typedef struct {
    uint64_t left; /* of MLOOP_TICK, else 0 */
    mloop_tick_kind kind;
} mloop_tick;

/* Tells the countdown the time of a frame, in nanoseconds. */
static inline mloop_tick mloop_countdown_frame(mloop_countdown *countdown, uint64_t time);

/* ---- The library's functions. No pointer may be null. */

#define MLOOP_COUNTDOWN_INTERFACE 1

uint32_t mloop_core_countdown_interface(void); /* MLOOP_COUNTDOWN_INTERFACE of the library */
mloop_tick mloop_core_countdown_frame(mloop_countdown *countdown, uint64_t time);

typedef char mloop_countdown_is_for_64_bits[sizeof(void *) == 8 && sizeof(mloop_countdown) == 40 && sizeof(mloop_tick) == 16 ? 1 : -1];

static inline mloop_tick mloop_countdown_frame(mloop_countdown *countdown, uint64_t time)
{
    if (!countdown) {
        mloop_tick none = {0, MLOOP_TICK_NULL};
        return none;
    }
    return mloop_core_countdown_frame(countdown, time);
}

#ifdef __cplusplus
}
#endif

#endif
