/* What a message loop does next, and for how long it may wait, for C and C++: one table that joins what a queue answered, the pulse that
 * frames ask for, events and idle handlers. It keeps nothing, takes no memory, never waits, reads no clock and calls nothing back.
 *
 * A LOOP over message_queue.h, and over frame_phases.h and loop_sources.h where it has these, does this:
 *
 *     mloop_situation it = MLOOP_SITUATION;
 *     for (;;) {
 *         it.moment = now();                            the moment, a pulse that is asked for, events
 *         mloop_action action = mloop_next(&it);
 *         switch (action.kind) {
 *         case MLOOP_DO_LOOK:    look = msgq_next(.., it.idle_owed); it.look = look.kind; it.time = look.time; break;
 *         case MLOOP_DO_VSYNC:   mloop_frame_vsync(..); break;
 *         case MLOOP_DO_EVENTS:  ..
 *         case MLOOP_DO_MESSAGE: ..
 *         case MLOOP_DO_WAIT:    wait until action.until or a wake; ..
 *         }
 *     }
 *
 * A LOOK stands for one action: the call itself writes into the situation that the queue was not looked at, and whether an idle turn is
 * owed. So the caller writes a look's answer behind MLOOP_DO_LOOK alone, and no look is ever acted on twice.
 *
 * LOCK. Where other threads post, the caller's lock is held from a look to the action that is asked for with it: a post after that look
 * then finds a loop that waits or is about to, and wakes it.
 *
 * TIMES are nanoseconds of one clock that does not go back, but those of a look are milliseconds of it, as messages have them. A wait that
 * ends early does no harm: the loop asks again. UINT64_MAX is never.
 *
 * MISUSE that is answered: a null pointer stops the loop. What can't be seen, the caller owes: a pointer that is not null is to one whole
 * object, and flags are 0 or 1. It is for 64 bits alone: x86-64 from x86-64-v2 on, and aarch64.
 *
 * The order of the table is that of AOSP's android.os.MessageQueue.next and Looper::pollInner; the places of vsync and frames are this
 * library's own.
 *
 * Link with libloop_next_c.a. */
#ifndef LOOP_NEXT_H
#define LOOP_NEXT_H

#include <stdbool.h>
#include <stddef.h>
#include <stdint.h>

#ifdef __cplusplus
extern "C" {
#endif

#define MLOOP_NEVER UINT64_MAX

/* Beside the kinds of a `msgq_look`: the queue was not looked at, or something was done since. */
enum { MLOOP_NOT_LOOKED = 0 };

/* How a loop stands, as its thread sees it. */
typedef struct {
    uint64_t moment;  /* now */
    uint64_t time;    /* of a look MSGQ_WAIT: until when, in milliseconds */
    uint64_t pulse;   /* counts only where `has_pulse` is set: that of MLOOP_FRAME_ASKED */
    uint32_t look;    /* MLOOP_NOT_LOOKED, or behind MLOOP_DO_LOOK the kind of the `msgq_look`; each call sets it back */
    bool has_pulse;   /* a pulse is asked for, and the loop's own timer gives it; false where a display does */
    bool frame_owed;  /* a frame is to run or to go on, and no message of it stands in the queue: there was no memory */
    bool events;      /* events came that were not handled yet */
    bool idle_owed;   /* for `msgq_next`: each call sets it after a message, and clears it after an idle turn */
} mloop_situation;

/* That of a loop before its first step. */
#define MLOOP_SITUATION {0, 0, 0, MLOOP_NOT_LOOKED, false, false, false, true}

/* The kinds of an action. The first row that holds decides, and MLOOP_DO_WAIT is where none does. */
typedef enum {
    MLOOP_DO_MESSAGE = 5, /* a message was taken: it is handled */
    MLOOP_DO_IDLE = 6,    /* the look answered MSGQ_IDLE: the idle handlers run */
    MLOOP_DO_STOP = 8,    /* the look answered that the queue has quit, or is no look's answer to a loop that goes on */
    MLOOP_DO_EVENTS = 1,  /* events wait: they are handled */
    MLOOP_DO_VSYNC = 2,   /* the pulse that is asked for has come: it is delivered */
    MLOOP_DO_FRAME = 3,   /* a frame is owed: it runs */
    MLOOP_DO_LOOK = 4,    /* the queue was not looked at, or the time that it waits for has come: it is looked at */
    MLOOP_DO_WAIT = 7     /* nothing is left to be done before `until` */
} mloop_action_kind;

typedef struct {
    uint64_t until;        /* of MLOOP_DO_WAIT the earlier of the queue's time and the pulse, or MLOOP_NEVER; else 0 */
    mloop_action_kind kind;
} mloop_action;

/* What the loop does next; the situation is left for the next call. */
static inline mloop_action mloop_next(mloop_situation *situation);

/* How long it is from `now` until that moment: 0 where it has come, and MLOOP_NEVER of MLOOP_NEVER. */
static inline uint64_t mloop_nanoseconds(uint64_t until, uint64_t now);

/* The same in milliseconds for poll and its kin: rounded up, so that a wait doesn't end before the moment, at most INT32_MAX, and -1
 * without limit. */
static inline int32_t mloop_milliseconds(uint64_t until, uint64_t now);

/* ---- The library's functions. No pointer may be null. */

#define MLOOP_NEXT_INTERFACE 2

uint32_t mloop_core_next_interface(void); /* MLOOP_NEXT_INTERFACE of the library */
mloop_action mloop_core_next(mloop_situation *situation);
uint64_t mloop_core_nanoseconds(uint64_t until, uint64_t now);
int32_t mloop_core_milliseconds(uint64_t until, uint64_t now);

typedef char mloop_next_is_for_64_bits[sizeof(void *) == 8 && sizeof(mloop_situation) == 32 && sizeof(mloop_action) == 16 ? 1 : -1];

static inline mloop_action mloop_next(mloop_situation *situation)
{
    if (!situation) {
        mloop_action stop = {0, MLOOP_DO_STOP};
        return stop;
    }
    return mloop_core_next(situation);
}

static inline uint64_t mloop_nanoseconds(uint64_t until, uint64_t now)
{
    return mloop_core_nanoseconds(until, now);
}

static inline int32_t mloop_milliseconds(uint64_t until, uint64_t now)
{
    return mloop_core_milliseconds(until, now);
}

#ifdef __cplusplus
}
#endif

#endif
