/* Frames after Android's Choreographer, for C and C++: callbacks by phase, the pulse that a frame is asked for at, and the time of
 * a frame. It is asked and never calls back: a loop asks for the next callback of a frame and runs it.
 *
 * LOCK, WAIT AND CLOCK are the caller's. A handle belongs to the thread that runs the frames; where another thread posts, the
 * caller holds one lock of its own round every call on it. No call waits, starts a thread or reads a clock.
 *
 * A LOOP that has these frames does this:
 *
 *     - after an answer MLOOP_FRAME_ASKED it waits until the moment `time` too, or until the display's own vsync;
 *     - then `mloop_frame_vsync` delivers the pulse, and posts a message to itself (asynchronous, so that barriers let it pass);
 *     - which runs the frame:
 *
 *           if (mloop_frame_begin(&frames, vsync, now()).kind == MLOOP_FRAME_BEGAN)
 *               for (;;) {
 *                   mloop_frame_look look = mloop_frame_next(&frames, now());
 *                   if (look.kind == MLOOP_STEP_RUN) run(look.callback.id, look.time);
 *                   else if (look.kind != MLOOP_STEP_PHASE) break;
 *               }
 *
 *     - after MLOOP_FRAME_LATER it posts a message to itself for the millisecond `time`, which calls `mloop_frame_due`.
 *
 * TIMES are nanoseconds of one clock that does not go back, but a callback's due time is milliseconds of that clock, as a message's.
 * Pulses are the multiples of the interval.
 *
 * HANDLES are plain memory of the caller's: begin with MLOOP_FRAMES_CLOSED, never copy one or write its fields. It is open from
 * `mloop_frame_open` to `mloop_frame_close`. A call on a handle that is not open changes nothing and answers MLOOP_FRAME_NOT_OPEN.
 *
 * MISUSE that is answered, and changes nothing: a null pointer (MLOOP_FRAME_NULL); a call while another one is in progress on the same
 * handle, by a lock that was forgotten, a heap that calls back or a signal handler (MLOOP_FRAME_BUSY); a header that is not the
 * library's (`mloop_frame_open` answers false). What can't be seen, the caller owes: a pointer that is not null is to one whole object, flags
 * are 0 or 1, and a handle is never made up. From another language than C and C++ call the functions mloop_core_frame_* at the end of
 * this file, which look at no pointer. It is for 64 bits alone: x86-64 from x86-64-v2 on, and aarch64.
 *
 * MEMORY comes from the three functions rattle_alloc, rattle_realloc and rattle_dealloc (message_queue.h). Where a call answers
 * MLOOP_FRAME_NO_MEMORY all is as before it. Only `open`, `post`, `remove`, `begin` and `next` take any, and `next`
 * none where it hands out a callback. Posts keep some bytes until the next `begin` or `remove`.
 *
 * Rules are those of AOSP's android.view.Choreographer; where a call follows one of its methods, the method is named.
 *
 * Link with libframe_phases_c.a. */
#ifndef FRAME_PHASES_H
#define FRAME_PHASES_H

#include <stdbool.h>
#include <stddef.h>
#include <stdint.h>

#ifdef __cplusplus
extern "C" {
#endif

#if defined(__GNUC__)
#define MLOOP_FRAME_USE_ANSWER __attribute__((warn_unused_result)) /* without its answer a pulse could be missed */
#else
#define MLOOP_FRAME_USE_ANSWER
#endif

/* What the library holds of a choreographer. */
typedef struct {
    void *at;
    bool live;
} mloop_frames_core;

typedef struct {
    mloop_frames_core core;
    uint32_t busy; /* not 0 while a call is in progress */
} mloop_frames;

#if defined(__cplusplus) && __cplusplus >= 201103L
#define MLOOP_FRAMES_CLOSED {{nullptr, false}, 0}
#else
#define MLOOP_FRAMES_CLOSED {{NULL, false}, 0}
#endif

/* A callback of a frame (Choreographer.CallbackRecord). */
typedef struct {
    uint64_t due;   /* the millisecond from which on it may run; 0: at once */
    uint64_t id;    /* the caller's: which callback it is */
    uint64_t token; /* counts only where `has_token` is set: a removal may name it */
    uint32_t phase; /* 0 input, 1 animation, 2 traversal, 3 commit, where there are four; the last one is commit */
    bool has_token;
} mloop_callback;

/* The kinds of an answer. */
typedef enum {
    MLOOP_FRAME_ASKED = 0,       /* the pulse at `time` is asked for */
    MLOOP_FRAME_LATER = 1,       /* the callback is not due before the millisecond `time` */
    MLOOP_FRAME_ALREADY = 2,     /* a frame is scheduled already */
    MLOOP_FRAME_REMOVED = 3,     /* `number` callbacks were removed */
    MLOOP_FRAME_BEGAN = 4,       /* a frame began, with the frame time `time` */
    MLOOP_FRAME_RUNNING = 5,     /* a frame is in progress */
    MLOOP_FRAME_UNSCHEDULED = 6, /* no frame is scheduled */
    MLOOP_FRAME_BACKWARDS = 7,   /* the frame would be earlier than the last one, at `time`: the next pulse is asked for */
    MLOOP_FRAME_NOTHING = 11,    /* there is none */
    MLOOP_FRAME_NO_MEMORY = 12,  /* all is as before */
    MLOOP_FRAME_NO_PHASE = 13,   /* there is no such phase, and nothing changed */
    MLOOP_FRAME_NOT_OPEN = 14,
    MLOOP_FRAME_CLOSED = 15,
    MLOOP_FRAME_BUSY = 16, /* a call on this handle is in progress */
    MLOOP_FRAME_NULL = 17  /* a pointer is null */
} mloop_frame_kind;

/* The kinds of a step of a frame. */
typedef enum {
    MLOOP_STEP_RUN = 8,        /* `callback` is to run; `number` is that of its posting, `time` the frame time */
    MLOOP_STEP_PHASE = 9,      /* phase `callback.phase` took `number` callbacks, which come next; `time` is their frame time */
    MLOOP_STEP_ENDED = 10,     /* no phase is left, or no frame is in progress */
    MLOOP_STEP_NO_MEMORY = 12, /* all is as before */
    MLOOP_STEP_NOT_OPEN = 14,
    MLOOP_STEP_BUSY = 16,
    MLOOP_STEP_NULL = 17
} mloop_step_kind;

typedef struct {
    uint64_t number; /* as the kind says, else 0 */
    uint64_t time;   /* as the kind says, else 0 */
    mloop_frame_kind kind;
} mloop_frame_answer;

typedef struct {
    mloop_callback callback; /* as the kind says, else all 0 */
    uint64_t number;
    uint64_t time;
    mloop_step_kind kind;
} mloop_frame_look;

/* Opens the handle for a choreographer in which nothing has happened, with pulses at the multiples of `interval` nanoseconds
 * (16666667 for 60 frames a second) and `phases` phases. False, and nothing changes, where it is open, a number is 0, or there is no
 * memory. */
static inline bool mloop_frame_open(mloop_frames *frames, uint64_t interval, uint32_t phases);

/* Closes the handle: what waits is gone, and all memory is given back. MLOOP_FRAME_CLOSED, MLOOP_FRAME_NOT_OPEN. */
static inline mloop_frame_answer mloop_frame_close(mloop_frames *frames);

/* Posts a callback at the moment `now` (postCallback, postCallbackDelayed). Where it is due it schedules a frame. ASKED, LATER,
 * ALREADY, NO_PHASE, NO_MEMORY, NOT_OPEN. */
static inline MLOOP_FRAME_USE_ANSWER mloop_frame_answer mloop_frame_post(mloop_frames *frames, const mloop_callback *callback, uint64_t now);

/* Removes the callbacks of this phase with this id, and with this token where `has_token` is set (removeCallbacks). What a phase
 * took already still runs. REMOVED, NO_PHASE, NO_MEMORY, NOT_OPEN. */
static inline mloop_frame_answer mloop_frame_remove(mloop_frames *frames, const mloop_callback *callback);

/* The message of MLOOP_FRAME_LATER came: schedules a frame where the phase has a callback that is due (doScheduleCallback).
 * ASKED, ALREADY, NOTHING, NO_PHASE, NOT_OPEN. */
static inline MLOOP_FRAME_USE_ANSWER mloop_frame_answer mloop_frame_due(mloop_frames *frames, uint32_t phase, uint64_t now);

/* Schedules a frame at the first pulse after `now` (scheduleFrameLocked). ASKED, ALREADY, NOT_OPEN. */
static inline MLOOP_FRAME_USE_ANSWER mloop_frame_answer mloop_frame_schedule(mloop_frames *frames, uint64_t now);

/* The pulse that is asked for and not delivered yet. ASKED, NOTHING, NOT_OPEN. */
static inline mloop_frame_answer mloop_frame_asked(const mloop_frames *looked_at);

/* Delivers that pulse, if it is not after `now` (FrameDisplayEventReceiver.onVsync): ASKED with it, NOTHING, NOT_OPEN. Where the
 * display has a vsync of its own, `now` UINT64_MAX takes it at any time, and `mloop_frame_begin` has the display's stamp. */
static inline mloop_frame_answer mloop_frame_vsync(mloop_frames *frames, uint64_t now);

/* Begins the scheduled frame, by its vsync stamp, at the moment `at` (doFrame). The frame time is the stamp, but where the frame
 * starts an interval late or more it is moved up by whole intervals. BEGAN, RUNNING, UNSCHEDULED, BACKWARDS, NO_MEMORY,
 * NOT_OPEN. */
static inline mloop_frame_answer mloop_frame_begin(mloop_frames *frames, uint64_t vsync, uint64_t at);

/* The next callback of the frame that is to run, in the order of due time, then posting (doCallbacks): RUN. Where all that a phase
 * took were handed out, the next phase takes those that are due at `now`: PHASE. Each phase takes once, by rising phase. ENDED,
 * NO_MEMORY (call it again), NOT_OPEN. */
static inline mloop_frame_look mloop_frame_next(mloop_frames *frames, uint64_t now);

/* ---- The library's functions. No pointer may be null, and no call may begin before another one on the same handle has ended. */

#define MLOOP_FRAME_INTERFACE 1

uint32_t mloop_core_frame_interface(void); /* MLOOP_FRAME_INTERFACE of the library */
bool mloop_core_frame_open(mloop_frames_core *core, uint64_t interval, uint32_t phases);
mloop_frame_answer mloop_core_frame_close(mloop_frames_core *core);
mloop_frame_answer mloop_core_frame_post(mloop_frames_core *core, const mloop_callback *callback, uint64_t now);
mloop_frame_answer mloop_core_frame_remove(mloop_frames_core *core, const mloop_callback *callback);
mloop_frame_answer mloop_core_frame_due(mloop_frames_core *core, uint32_t phase, uint64_t now);
mloop_frame_answer mloop_core_frame_schedule(mloop_frames_core *core, uint64_t now);
mloop_frame_answer mloop_core_frame_asked(mloop_frames_core *core);
mloop_frame_answer mloop_core_frame_vsync(mloop_frames_core *core, uint64_t now);
mloop_frame_answer mloop_core_frame_begin(mloop_frames_core *core, uint64_t vsync, uint64_t at);
mloop_frame_look mloop_core_frame_next(mloop_frames_core *core, uint64_t now);

/* ---- What stands before each call: it looks at the pointers, and at whether a call is in progress. */

typedef char mloop_frames_are_for_64_bits[sizeof(void *) == 8 && sizeof(mloop_frames_core) == 16 && sizeof(mloop_callback) == 32 &&
                                                  sizeof(mloop_frame_answer) == 24 && sizeof(mloop_frame_look) == 56
                                              ? 1
                                              : -1];

#ifdef __cplusplus
#define MLOOP_FRAME_FROM_CONST(handle) const_cast<mloop_frames *>(handle)
#else
#define MLOOP_FRAME_FROM_CONST(handle) ((mloop_frames *)(uintptr_t)(handle))
#endif

/* Whether the call may go on, which then ends by `mloop_frame_leave`. */
static inline bool mloop_frame_enter(mloop_frames *handle)
{
#if defined(__GNUC__)
    return __atomic_exchange_n(&handle->busy, 1u, __ATOMIC_ACQUIRE) == 0;
#else
    uint32_t busy = handle->busy;
    handle->busy = 1;
    return busy == 0;
#endif
}

static inline void mloop_frame_leave(mloop_frames *handle)
{
#if defined(__GNUC__)
    __atomic_store_n(&handle->busy, 0u, __ATOMIC_RELEASE);
#else
    handle->busy = 0;
#endif
}

static inline mloop_frame_answer mloop_frame_not_done(bool null)
{
    mloop_frame_answer answer = {0, 0, null ? MLOOP_FRAME_NULL : MLOOP_FRAME_BUSY};
    return answer;
}

static inline mloop_frame_look mloop_frame_not_looked(bool null)
{
    mloop_frame_look look = {{0, 0, 0, 0, false}, 0, 0, null ? MLOOP_STEP_NULL : MLOOP_STEP_BUSY};
    return look;
}

static inline bool mloop_frame_open(mloop_frames *frames, uint64_t interval, uint32_t phases)
{
    if (!frames || mloop_core_frame_interface() != MLOOP_FRAME_INTERFACE || !mloop_frame_enter(frames)) return false;
    bool opened = mloop_core_frame_open(&frames->core, interval, phases);
    mloop_frame_leave(frames);
    return opened;
}

static inline mloop_frame_answer mloop_frame_close(mloop_frames *frames)
{
    if (!frames) return mloop_frame_not_done(true);
    if (!mloop_frame_enter(frames)) return mloop_frame_not_done(false);
    mloop_frame_answer answer = mloop_core_frame_close(&frames->core);
    mloop_frame_leave(frames);
    return answer;
}

static inline mloop_frame_answer mloop_frame_post(mloop_frames *frames, const mloop_callback *callback, uint64_t now)
{
    if (!frames || !callback) return mloop_frame_not_done(true);
    if (!mloop_frame_enter(frames)) return mloop_frame_not_done(false);
    mloop_frame_answer answer = mloop_core_frame_post(&frames->core, callback, now);
    mloop_frame_leave(frames);
    return answer;
}

static inline mloop_frame_answer mloop_frame_remove(mloop_frames *frames, const mloop_callback *callback)
{
    if (!frames || !callback) return mloop_frame_not_done(true);
    if (!mloop_frame_enter(frames)) return mloop_frame_not_done(false);
    mloop_frame_answer answer = mloop_core_frame_remove(&frames->core, callback);
    mloop_frame_leave(frames);
    return answer;
}

static inline mloop_frame_answer mloop_frame_due(mloop_frames *frames, uint32_t phase, uint64_t now)
{
    if (!frames) return mloop_frame_not_done(true);
    if (!mloop_frame_enter(frames)) return mloop_frame_not_done(false);
    mloop_frame_answer answer = mloop_core_frame_due(&frames->core, phase, now);
    mloop_frame_leave(frames);
    return answer;
}

static inline mloop_frame_answer mloop_frame_schedule(mloop_frames *frames, uint64_t now)
{
    if (!frames) return mloop_frame_not_done(true);
    if (!mloop_frame_enter(frames)) return mloop_frame_not_done(false);
    mloop_frame_answer answer = mloop_core_frame_schedule(&frames->core, now);
    mloop_frame_leave(frames);
    return answer;
}

static inline mloop_frame_answer mloop_frame_asked(const mloop_frames *looked_at)
{
    mloop_frames *frames = MLOOP_FRAME_FROM_CONST(looked_at);
    if (!frames) return mloop_frame_not_done(true);
    if (!mloop_frame_enter(frames)) return mloop_frame_not_done(false);
    mloop_frame_answer answer = mloop_core_frame_asked(&frames->core);
    mloop_frame_leave(frames);
    return answer;
}

static inline mloop_frame_answer mloop_frame_vsync(mloop_frames *frames, uint64_t now)
{
    if (!frames) return mloop_frame_not_done(true);
    if (!mloop_frame_enter(frames)) return mloop_frame_not_done(false);
    mloop_frame_answer answer = mloop_core_frame_vsync(&frames->core, now);
    mloop_frame_leave(frames);
    return answer;
}

static inline mloop_frame_answer mloop_frame_begin(mloop_frames *frames, uint64_t vsync, uint64_t at)
{
    if (!frames) return mloop_frame_not_done(true);
    if (!mloop_frame_enter(frames)) return mloop_frame_not_done(false);
    mloop_frame_answer answer = mloop_core_frame_begin(&frames->core, vsync, at);
    mloop_frame_leave(frames);
    return answer;
}

static inline mloop_frame_look mloop_frame_next(mloop_frames *frames, uint64_t now)
{
    if (!frames) return mloop_frame_not_looked(true);
    if (!mloop_frame_enter(frames)) return mloop_frame_not_looked(false);
    mloop_frame_look answer = mloop_core_frame_next(&frames->core, now);
    mloop_frame_leave(frames);
    return answer;
}

#ifdef __cplusplus
}
#endif

#endif
