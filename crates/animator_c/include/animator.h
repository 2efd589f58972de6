/* An animator over frame time for C and C++, after Android's ValueAnimator in whole numbers with linear steps: it is told the time of each
 * frame, and answers the value of that frame. It takes no memory, never waits, reads no clock and calls nothing back.
 *
 *     mloop_animator needle = MLOOP_ANIMATOR(300, 0, 180);              from 0 to 180 in 300 milliseconds
 *     mloop_value value = mloop_animator_frame(&needle, frame_time);    at each frame
 *     if (value.kind <= MLOOP_VALUE_END) turn(value.value);
 *     if (value.kind == MLOOP_VALUE_END) done();
 *
 * A PLAN is a delay, then ways of `duration` milliseconds each through the keys, one and `repeats` more; with `reverse` each second way goes
 * backwards. A key is a place on the way, from 0 to 1000, and the value there; between two keys a value moves linearly and is rounded down
 * towards the earlier key's. With more than two keys, or a repeat, name the fields:
 *
 *     mloop_animator blink = {.duration = 500, .repeats = 9, .reverse = true, .count = 3, .keys = {{0, 0}, {800, 10}, {1000, 255}}};
 *
 * TIMES of frames are nanoseconds, as mloop_frame_next gives them. What has elapsed are the whole milliseconds from the first frame time
 * to the greatest; an earlier time changes nothing. The delay runs from the first frame too.
 *
 * AN ANIMATOR is plain memory of the caller's, which may be copied: the copy goes on by itself. To begin anew, give it its first value
 * again. To cancel it, tell it no more. A plan that is changed on the way goes on from the same first frame.
 *
 * MISUSE that is answered, and changes nothing: a null pointer, and a plan out of its limits. What can't be seen, the caller owes: a pointer
 * that is not null is to one whole object, flags are 0 or 1, and `first`, `latest` and `begun` are written by the library alone. An animator
 * is one thread's at a time. It is for 64 bits alone: x86-64 from x86-64-v2 on, and aarch64.
 *
 * Link with libanimator_c.a. */
#ifndef ANIMATOR_H
#define ANIMATOR_H

#include <stdbool.h>
#include <stddef.h>
#include <stdint.h>

#ifdef __cplusplus
extern "C" {
#endif

#define MLOOP_MOST_KEYS 16

/* A value at a place of the way (Keyframe). */
typedef struct {
    uint32_t at;    /* 0 to 1,000 */
    uint32_t value; /* 0 to 1,000,000 */
} mloop_key;

typedef struct {
    uint64_t delay;    /* milliseconds from the first frame to the way, 0 to 60,000 (setStartDelay) */
    uint64_t duration; /* milliseconds of one way, 1 to 60,000 (setDuration) */
    uint32_t repeats;  /* ways behind the first one, 0 to 99 (setRepeatCount); all end within 60,000 milliseconds */
    uint32_t count;    /* how many keys: 2 to 16 */
    mloop_key keys[MLOOP_MOST_KEYS]; /* by rising place, the first at 0 and the last at 1000 (ofKeyframe) */
    uint64_t first;    /* the first frame time, and the greatest: the library's */
    uint64_t latest;
    bool reverse; /* each second way goes backwards (setRepeatMode) */
    bool begun;   /* whether it was told a frame: the library's */
} mloop_animator;

/* From one value to another in so many milliseconds (ofInt). */
#define MLOOP_ANIMATOR(duration, from, to) {0, (duration), 0, 2, {{0, (from)}, {1000, (to)}}, 0, 0, false, false}

typedef enum {
    MLOOP_VALUE = 0,         /* the value at this frame (onAnimationUpdate) */
    MLOOP_VALUE_END = 1,     /* the first frame at which all ways are done, with the value that stays (onAnimationEnd) */
    MLOOP_VALUE_OVER = 2,    /* it has ended at a frame before */
    MLOOP_VALUE_NO_PLAN = 3, /* the plan is out of its limits, and nothing changed */
    MLOOP_VALUE_NULL = 4     /* the pointer is null */
} mloop_value_kind;

typedef struct {
    uint32_t value; /* of MLOOP_VALUE and MLOOP_VALUE_END, else 0 */
    mloop_value_kind kind;
} mloop_value;

/* Tells the animator the time of a frame, in nanoseconds. */
static inline mloop_value mloop_animator_frame(mloop_animator *animator, uint64_t time);

/* ---- The library's functions. No pointer may be null. */

#define MLOOP_ANIMATOR_INTERFACE 1

uint32_t mloop_core_animator_interface(void); /* MLOOP_ANIMATOR_INTERFACE of the library */
mloop_value mloop_core_animator_frame(mloop_animator *animator, uint64_t time);

typedef char mloop_animator_is_for_64_bits[sizeof(void *) == 8 && sizeof(mloop_animator) == 176 && sizeof(mloop_value) == 8 ? 1 : -1];

static inline mloop_value mloop_animator_frame(mloop_animator *animator, uint64_t time)
{
    if (!animator) {
        mloop_value none = {0, MLOOP_VALUE_NULL};
        return none;
    }
    return mloop_core_animator_frame(animator, time);
}

#ifdef __cplusplus
}
#endif

#endif
