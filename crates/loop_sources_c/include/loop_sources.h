/* Idle handlers and watched descriptors after Android's MessageQueue, for C and C++. It is asked and never calls back: a loop asks
 * which handler or listener is to run, runs it, and says what it answered.
 *
 * LOCK, WAIT AND THE SYSTEM are the caller's. A handle belongs to the thread that runs the loop. No call waits, reads a clock or
 * looks at a descriptor: descriptors are numbers, and the caller hands in what poll or epoll told.
 *
 * A LOOP does this:
 *
 *     - after MSGQ_IDLE of `msgq_next` it runs an idle turn, of the handlers that stood when it began:
 *
 *           mloop_idle_begin(&sources);
 *           for (mloop_source_look look; (look = mloop_idle_next(&sources)).kind == MLOOP_LOOK_IDLE;)
 *               mloop_idle_done(&sources, look.number, run(look.id));
 *
 *     - before each look for a message it hands in what came, and calls the listeners:
 *
 *           mloop_fd_ready(&sources, fd, events);
 *           mloop_source_look look;
 *           while ((look = mloop_fd_next(&sources)).kind == MLOOP_LOOK_EVENT || look.kind == MLOOP_LOOK_IGNORED)
 *               if (look.kind == MLOOP_LOOK_EVENT)
 *                   mloop_fd_answer(&sources, look.fd, look.birth, look.number, tell(look.id, look.fd, look.events));
 *
 *       and asks the system for what `mloop_fd_watched` says from then on.
 *
 * HANDLES are plain memory of the caller's: begin with MLOOP_SOURCES_CLOSED, never copy one or write its fields. It is open from
 * `mloop_sources_open` to `mloop_sources_close`. A call on a handle that is not open changes nothing and answers
 * MLOOP_SOURCE_NOT_OPEN.
 *
 * MISUSE that is answered, and changes nothing: a null pointer (MLOOP_SOURCE_NULL); a call while another one is in progress on the same
 * handle, by a lock that was forgotten, a heap that calls back or a signal handler (MLOOP_SOURCE_BUSY); a header that is not the
 * library's (`mloop_sources_open` answers false). What can't be seen, the caller owes: a pointer that is not null is to one whole object, flags
 * are 0 or 1, and a handle is never made up. From another language than C and C++ call the functions mloop_core_* at the end of
 * this file, which look at no pointer. It is for 64 bits alone: x86-64 from x86-64-v2 on, and aarch64.
 *
 * MEMORY comes from the three functions rattle_alloc, rattle_realloc and rattle_dealloc (message_queue.h). Where a call answers
 * MLOOP_SOURCE_NO_MEMORY all is as before it. Only `open`, `mloop_idle_add`, `mloop_idle_begin`, `mloop_fd_watch` and
 * `mloop_fd_ready` take any.
 *
 * Link with libloop_sources_c.a. */
#ifndef LOOP_SOURCES_H
#define LOOP_SOURCES_H

#include <stdbool.h>
#include <stddef.h>
#include <stdint.h>

#ifdef __cplusplus
extern "C" {
#endif

/* What the library holds of the sources. */
typedef struct {
    void *at;
    bool live;
} mloop_sources_core;

typedef struct {
    mloop_sources_core core;
    uint32_t busy; /* not 0 while a call is in progress */
} mloop_sources;

#if defined(__cplusplus) && __cplusplus >= 201103L
#define MLOOP_SOURCES_CLOSED {{nullptr, false}, 0}
#else
#define MLOOP_SOURCES_CLOSED {{NULL, false}, 0}
#endif

/* The kinds of an answer. */
typedef enum {
    MLOOP_SOURCE_DONE = 0,
    MLOOP_SOURCE_NOTHING = 1,   /* there is none */
    MLOOP_SOURCE_NO_MEMORY = 5, /* all is as before */
    MLOOP_SOURCE_BAD_MASK = 6,  /* it is no sum of the three bits, and nothing changed */
    MLOOP_SOURCE_NOT_OPEN = 7,
    MLOOP_SOURCE_CLOSED = 8,
    MLOOP_SOURCE_BUSY = 9, /* a call on this handle is in progress */
    MLOOP_SOURCE_NULL = 10 /* a pointer is null */
} mloop_source_kind;

/* The kinds of a look. */
typedef enum {
    MLOOP_LOOK_NOTHING = 1, /* there is none */
    MLOOP_LOOK_IDLE = 2,    /* the idle handler `id` is to run; `number` is its serial number */
    MLOOP_LOOK_EVENT = 3,   /* the listener `id` is to be told that `events` came at `fd` */
    MLOOP_LOOK_IGNORED = 4, /* an event that nobody watches for any more */
    MLOOP_LOOK_NOT_OPEN = 7,
    MLOOP_LOOK_BUSY = 9,
    MLOOP_LOOK_NULL = 10
} mloop_look_kind;

/* The bits of a mask. Each registration has MLOOP_FD_ERROR. */
enum { MLOOP_FD_INPUT = 1, MLOOP_FD_OUTPUT = 2, MLOOP_FD_ERROR = 4 };

typedef struct {
    uint64_t number; /* as each call says, else 0 */
    mloop_source_kind kind;
} mloop_source_answer;

typedef struct {
    uint64_t number; /* a serial number, or the sequence number of a registration; else 0 */
    uint64_t birth;  /* which registration of the descriptor it is */
    uint32_t id;
    uint32_t fd;
    uint32_t events;
    mloop_look_kind kind;
} mloop_source_look;

/* Opens the handle. False, and nothing changes, where it is open or there is no memory. */
static inline bool mloop_sources_open(mloop_sources *sources);

/* Closes it and gives all memory back. CLOSED, NOT_OPEN. */
static inline mloop_source_answer mloop_sources_close(mloop_sources *sources);

/* Adds an idle handler of its own, numbers may repeat (addIdleHandler). DONE: `number` is its serial number, counted from 0.
 * NO_MEMORY, NOT_OPEN. */
static inline mloop_source_answer mloop_idle_add(mloop_sources *sources, uint32_t id);

/* Takes out the first handler of this number (removeIdleHandler). One that an idle turn has begun with still runs in it. DONE,
 * NOTHING, NOT_OPEN. */
static inline mloop_source_answer mloop_idle_remove(mloop_sources *sources, uint32_t id);

/* Begins an idle turn. DONE: `number` is how many handlers are to run, in the order of their adding. What an earlier turn did not
 * hand out is left out. NO_MEMORY, NOT_OPEN. */
static inline mloop_source_answer mloop_idle_begin(mloop_sources *sources);

/* The next handler of the turn: IDLE, NOTHING, NOT_OPEN. */
static inline mloop_source_look mloop_idle_next(mloop_sources *sources);

/* The handler of this serial number answered (queueIdle): with `keep` false it is taken out. DONE where it was, NOTHING, NOT_OPEN. */
static inline mloop_source_answer mloop_idle_done(mloop_sources *sources, uint64_t serial, bool keep);

/* Registers the descriptor for a mask, with the listener `id`; or renews its registration; or with a mask of 0 takes it out
 * (addOnFileDescriptorEventListener). A renewal with the mask that is watched for changes nothing, the listener included. DONE,
 * BAD_MASK, NO_MEMORY, NOT_OPEN. */
static inline mloop_source_answer mloop_fd_watch(mloop_sources *sources, uint32_t fd, uint32_t mask, uint32_t id);

/* Hands in what came at a descriptor. DONE, BAD_MASK, NO_MEMORY, NOT_OPEN. */
static inline mloop_source_answer mloop_fd_ready(mloop_sources *sources, uint32_t fd, uint32_t events);

/* Takes the oldest event that waits: EVENT with those of its bits that are watched for, IGNORED, NOTHING, NOT_OPEN. */
static inline mloop_source_look mloop_fd_next(mloop_sources *sources);

/* The listener of an EVENT answered (onFileDescriptorEvents): the new mask, or 0 to watch no more. It counts only where the
 * registration of that `birth` and `number` still stands. DONE, NOTHING, BAD_MASK, NOT_OPEN. */
static inline mloop_source_answer mloop_fd_answer(mloop_sources *sources, uint32_t fd, uint64_t birth, uint64_t number, uint32_t mask);

/* DONE: `number` is the mask that is watched for at the descriptor. NOTHING, NOT_OPEN. */
static inline mloop_source_answer mloop_fd_watched(const mloop_sources *looked_at, uint32_t fd);

/* ---- The library's functions. No pointer may be null, and no call may begin before another one on the same handle has ended. */

#define MLOOP_SOURCE_INTERFACE 1

uint32_t mloop_core_sources_interface(void); /* MLOOP_SOURCE_INTERFACE of the library */
bool mloop_core_sources_open(mloop_sources_core *core);
mloop_source_answer mloop_core_sources_close(mloop_sources_core *core);
mloop_source_answer mloop_core_idle_add(mloop_sources_core *core, uint32_t id);
mloop_source_answer mloop_core_idle_remove(mloop_sources_core *core, uint32_t id);
mloop_source_answer mloop_core_idle_begin(mloop_sources_core *core);
mloop_source_look mloop_core_idle_next(mloop_sources_core *core);
mloop_source_answer mloop_core_idle_done(mloop_sources_core *core, uint64_t serial, bool keep);
mloop_source_answer mloop_core_fd_watch(mloop_sources_core *core, uint32_t fd, uint32_t mask, uint32_t id);
mloop_source_answer mloop_core_fd_ready(mloop_sources_core *core, uint32_t fd, uint32_t events);
mloop_source_look mloop_core_fd_next(mloop_sources_core *core);
mloop_source_answer mloop_core_fd_answer(mloop_sources_core *core, uint32_t fd, uint64_t birth, uint64_t number, uint32_t mask);
mloop_source_answer mloop_core_fd_watched(mloop_sources_core *core, uint32_t fd);

/* ---- What stands before each call: it looks at the pointers, and at whether a call is in progress. */

typedef char mloop_sources_are_for_64_bits[sizeof(void *) == 8 && sizeof(mloop_sources_core) == 16 && sizeof(mloop_source_answer) == 16 &&
                                                   sizeof(mloop_source_look) == 32
                                               ? 1
                                               : -1];

#ifdef __cplusplus
#define MLOOP_SOURCE_FROM_CONST(handle) const_cast<mloop_sources *>(handle)
#else
#define MLOOP_SOURCE_FROM_CONST(handle) ((mloop_sources *)(uintptr_t)(handle))
#endif

/* Whether the call may go on, which then ends by `mloop_source_leave`. */
static inline bool mloop_source_enter(mloop_sources *handle)
{
#if defined(__GNUC__)
    return __atomic_exchange_n(&handle->busy, 1u, __ATOMIC_ACQUIRE) == 0;
#else
    uint32_t busy = handle->busy;
    handle->busy = 1;
    return busy == 0;
#endif
}

static inline void mloop_source_leave(mloop_sources *handle)
{
#if defined(__GNUC__)
    __atomic_store_n(&handle->busy, 0u, __ATOMIC_RELEASE);
#else
    handle->busy = 0;
#endif
}

static inline mloop_source_answer mloop_source_not_done(bool null)
{
    mloop_source_answer answer = {0, null ? MLOOP_SOURCE_NULL : MLOOP_SOURCE_BUSY};
    return answer;
}

static inline mloop_source_look mloop_source_not_looked(bool null)
{
    mloop_source_look look = {0, 0, 0, 0, 0, null ? MLOOP_LOOK_NULL : MLOOP_LOOK_BUSY};
    return look;
}

static inline bool mloop_sources_open(mloop_sources *sources)
{
    if (!sources || mloop_core_sources_interface() != MLOOP_SOURCE_INTERFACE || !mloop_source_enter(sources)) return false;
    bool opened = mloop_core_sources_open(&sources->core);
    mloop_source_leave(sources);
    return opened;
}

static inline mloop_source_answer mloop_sources_close(mloop_sources *sources)
{
    if (!sources) return mloop_source_not_done(true);
    if (!mloop_source_enter(sources)) return mloop_source_not_done(false);
    mloop_source_answer answer = mloop_core_sources_close(&sources->core);
    mloop_source_leave(sources);
    return answer;
}

static inline mloop_source_answer mloop_idle_add(mloop_sources *sources, uint32_t id)
{
    if (!sources) return mloop_source_not_done(true);
    if (!mloop_source_enter(sources)) return mloop_source_not_done(false);
    mloop_source_answer answer = mloop_core_idle_add(&sources->core, id);
    mloop_source_leave(sources);
    return answer;
}

static inline mloop_source_answer mloop_idle_remove(mloop_sources *sources, uint32_t id)
{
    if (!sources) return mloop_source_not_done(true);
    if (!mloop_source_enter(sources)) return mloop_source_not_done(false);
    mloop_source_answer answer = mloop_core_idle_remove(&sources->core, id);
    mloop_source_leave(sources);
    return answer;
}

static inline mloop_source_answer mloop_idle_begin(mloop_sources *sources)
{
    if (!sources) return mloop_source_not_done(true);
    if (!mloop_source_enter(sources)) return mloop_source_not_done(false);
    mloop_source_answer answer = mloop_core_idle_begin(&sources->core);
    mloop_source_leave(sources);
    return answer;
}

static inline mloop_source_look mloop_idle_next(mloop_sources *sources)
{
    if (!sources) return mloop_source_not_looked(true);
    if (!mloop_source_enter(sources)) return mloop_source_not_looked(false);
    mloop_source_look answer = mloop_core_idle_next(&sources->core);
    mloop_source_leave(sources);
    return answer;
}

static inline mloop_source_answer mloop_idle_done(mloop_sources *sources, uint64_t serial, bool keep)
{
    if (!sources) return mloop_source_not_done(true);
    if (!mloop_source_enter(sources)) return mloop_source_not_done(false);
    mloop_source_answer answer = mloop_core_idle_done(&sources->core, serial, keep);
    mloop_source_leave(sources);
    return answer;
}

static inline mloop_source_answer mloop_fd_watch(mloop_sources *sources, uint32_t fd, uint32_t mask, uint32_t id)
{
    if (!sources) return mloop_source_not_done(true);
    if (!mloop_source_enter(sources)) return mloop_source_not_done(false);
    mloop_source_answer answer = mloop_core_fd_watch(&sources->core, fd, mask, id);
    mloop_source_leave(sources);
    return answer;
}

static inline mloop_source_answer mloop_fd_ready(mloop_sources *sources, uint32_t fd, uint32_t events)
{
    if (!sources) return mloop_source_not_done(true);
    if (!mloop_source_enter(sources)) return mloop_source_not_done(false);
    mloop_source_answer answer = mloop_core_fd_ready(&sources->core, fd, events);
    mloop_source_leave(sources);
    return answer;
}

static inline mloop_source_look mloop_fd_next(mloop_sources *sources)
{
    if (!sources) return mloop_source_not_looked(true);
    if (!mloop_source_enter(sources)) return mloop_source_not_looked(false);
    mloop_source_look answer = mloop_core_fd_next(&sources->core);
    mloop_source_leave(sources);
    return answer;
}

static inline mloop_source_answer mloop_fd_answer(mloop_sources *sources, uint32_t fd, uint64_t birth, uint64_t number, uint32_t mask)
{
    if (!sources) return mloop_source_not_done(true);
    if (!mloop_source_enter(sources)) return mloop_source_not_done(false);
    mloop_source_answer answer = mloop_core_fd_answer(&sources->core, fd, birth, number, mask);
    mloop_source_leave(sources);
    return answer;
}

static inline mloop_source_answer mloop_fd_watched(const mloop_sources *looked_at, uint32_t fd)
{
    mloop_sources *sources = MLOOP_SOURCE_FROM_CONST(looked_at);
    if (!sources) return mloop_source_not_done(true);
    if (!mloop_source_enter(sources)) return mloop_source_not_done(false);
    mloop_source_answer answer = mloop_core_fd_watched(&sources->core, fd);
    mloop_source_leave(sources);
    return answer;
}

#ifdef __cplusplus
}
#endif

#endif
