/* A message queue after Android's MessageQueue, for C and C++: messages in order of their times, barriers that let
 * asynchronous messages pass, removal by a filter, and a quit.
 *
 * LOCK AND WAIT. The queue takes no lock, never waits, starts no thread and reads no clock. The caller holds one lock of its own
 * for each handle round every call on it, also round those that only look, hands in the time, and waits by its own means. One thread
 * at a time looks for messages:
 *
 *     - after a call that answers `wake`, wake the thread that waits for messages, if one does, so that it looks again. The wake may
 *       be given before or after the lock is let go. Where `wake` is false none is needed;
 *     - after `msgq_next` answers MSGQ_WAIT, wait until `time`, after MSGQ_WAIT_FOREVER without limit, in both cases until woken.
 *       Let go of the lock as the wait begins and in one step with it (a condition variable does), and call `msgq_next` again
 *       afterwards. To be woken too often does no harm.
 *
 * WAKES. `wake` is true in these answers MSGQ_DONE, and in no other:
 *
 *     - of a post, where `msgq_next` has answered MSGQ_WAIT or MSGQ_WAIT_FOREVER since it last answered MSGQ_TAKEN, and the message comes
 *       first of all, or is asynchronous, a barrier comes first, and no asynchronous message stands before it;
 *     - of `msgq_remove_barrier`, where that barrier came first, and then a message does or nothing is left, and no quit was done;
 *     - of `msgq_quit`: always. Only the first quit is answered so.
 *
 * TIMES are milliseconds of one clock that does not go back. A call that names an earlier moment than that of a message that was
 * taken, of a barrier, of a quit or of the end before it uses the latest of these, which `msgq_time` answers. So one reading that is
 * far too great makes all that comes later due at once, for good: `msgq_limit` sets how far a moment may be ahead.
 *
 * HANDLES. A handle is plain memory of the caller's: begin with MSGQ_CLOSED, never copy it or write its fields. It is open from
 * `msgq_open` to `msgq_close`. A call on a handle that is not open changes nothing and says so, but for `msgq_open`, `msgq_close` and
 * `msgq_next_dropped`: it answers MSGQ_NOT_OPEN, or false where it answers a bool, or 0 where it counts.
 *
 * MISUSE that is answered, and changes nothing: a null pointer (MSGQ_NULL); a call while another one is in progress on the same
 * handle, by a lock that was forgotten, a heap that calls back or a signal handler (MSGQ_BUSY); a header that is not the library's
 * (`msgq_open` answers false). Calls that answer a bool or a number answer false or 0 then. The sizes of structs are looked at when a
 * program is compiled. What can't be seen, the caller owes: a pointer that is not null is to one whole object, the flags of a struct
 * are 0 or 1, and a handle is never made up. From another language than C and C++ call the functions msgq_core_* at the end of this
 * file, which look at no pointer.
 *
 * OBJECTS. `obj` and `callback` are numbers of the caller's, as a pointer's value. The queue keeps them, and frees nothing that
 * they may stand for. A message that `msgq_next` answers is the caller's again. One that leaves the queue otherwise, by `msgq_remove`,
 * a quit, the end or a close, is not lost: it waits, in the order in which it was dropped, until `msgq_next_dropped` hands it out:
 *
 *     msgq_look d;
 *     while ((d = msgq_next_dropped(&queue)).kind == MSGQ_TAKEN || d.kind == MSGQ_BARRIER)
 *         if (d.kind == MSGQ_TAKEN && d.message.has_obj)
 *             free((void *)(uintptr_t)d.message.obj);
 *
 * MEMORY comes from the three functions at the end of this file. Where a call answers MSGQ_NO_MEMORY all is as before it. Only `msgq_open`,
 * `msgq_reserve`, `msgq_post`, `msgq_post_at_front` and `msgq_barrier` take memory; the last three one block for the message or barrier, which
 * goes back when it is handed out or removed, and now and then one for a list of places where many wait, without which they go on. After a
 * `msgq_reserve` they take the block from those that are kept, and memory only where none is left. Nothing is kept of calls that were made, so
 * a queue that stands for years takes no more than one that was just opened.
 *
 * PROCESSORS. It is for 64 bits alone: x86-64 from x86-64-v2 on (SSE4.2, POPCNT), and aarch64. There is none for microcontrollers.
 *
 * Rules of order, barriers, quits and wakes are those of AOSP's android.os.MessageQueue; where a call follows one of its methods,
 * the method is named. The rest is this library's own.
 *
 * Link with libmessage_queue_c.a. */
#ifndef MESSAGE_QUEUE_H
#define MESSAGE_QUEUE_H

#include <stdbool.h>
#include <stddef.h>
#include <stdint.h>

#ifdef __cplusplus
extern "C" {
#endif

#if defined(__GNUC__)
#define MSGQ_USE_ANSWER __attribute__((warn_unused_result)) /* without its answer a wake could be lost */
#else
#define MSGQ_USE_ANSWER
#endif

/* What the library holds of a queue. */
typedef struct {
    void *at;
    bool live;
} msgq_core;

typedef struct {
    msgq_core core;
    uint32_t busy;   /* not 0 while a call is in progress */
    uint64_t latest; /* the latest moment that was named, where a limit is set */
    uint64_t ahead;  /* how far past it the next one may be; 0: no limit */
} msgq_queue;

#if defined(__cplusplus) && __cplusplus >= 201103L
#define MSGQ_CLOSED {{nullptr, false}, 0, 0, 0}
#else
#define MSGQ_CLOSED {{NULL, false}, 0, 0, 0}
#endif

/* A message (android.os.Message). */
typedef struct {
    uint64_t when;     /* the moment when it is due, in milliseconds, and no delay; at 0 it goes to the front */
    uint64_t obj;      /* counts only where `has_obj` is set */
    uint64_t callback; /* counts only where `has_callback` is set */
    uint32_t handler;  /* whom it is for */
    uint32_t what;     /* the user's code, which a callback keeps too (Android posts a callback with 0) */
    uint32_t arg;
    bool has_obj;
    bool has_callback;
    bool asynchronous; /* barriers let it pass */
} msgq_message;

/* The messages of `handler`: where `by_what` is set those with this `what`, posts of a callback too, or else where `by_callback`
 * is set the posts of this callback, or else all of them; and where `has_obj` is set only those with this object. Barriers never
 * match. */
typedef struct {
    uint64_t obj;
    uint64_t callback;
    uint32_t handler;
    uint32_t what;
    bool by_what;
    bool by_callback;
    bool has_obj;
} msgq_filter;

/* The kinds of an answer. None of their numbers is a kind of a look. */
typedef enum {
    MSGQ_DONE = 0,
    MSGQ_NO_MEMORY = 1,    /* all is as before */
    MSGQ_REFUSED = 2,      /* a post after a quit: `number` is the place of the quit among the calls that had an effect or were refused, from 0 */
    MSGQ_NOT_POSTED = 3,   /* no barrier has the token */
    MSGQ_ALREADY_QUIT = 4, /* `number` is the place of the quit that was done, counted as there */
    MSGQ_NOT_ALLOWED = 5,  /* the queue may not quit; no queue of `msgq_open` answers it */
    MSGQ_NOT_OPEN = 6,     /* the handle is not open */
    MSGQ_BUSY = 7,         /* a call on this handle is in progress */
    MSGQ_NULL = 8,         /* a pointer is null */
    MSGQ_TOO_FAR = 9       /* the moment is further ahead than the limit allows */
} msgq_kind;

typedef struct {
    uint64_t number; /* as each call says, else 0 */
    msgq_kind kind;
    bool wake; /* wake whoever waits for messages, so that it looks again */
} msgq_answer;

/* The kinds of a look. */
typedef enum {
    MSGQ_TAKEN = 16,        /* `message` was taken out; `number` is that of its post */
    MSGQ_IDLE = 17,         /* nothing is due and the head is later or missing; only where an idle turn is owed */
    MSGQ_WAIT = 18,         /* nothing is due until `time`, but for what comes as the next line says */
    MSGQ_WAIT_FOREVER = 19, /* nothing is due until something is posted, a barrier goes or it quits */
    MSGQ_END = 20,          /* it has quit and nothing is due: the `number` messages and barriers that were left are dropped */
    MSGQ_OVER = 21,         /* MSGQ_END was answered before */
    MSGQ_BARRIER = 22,      /* of `msgq_next_dropped`: a barrier was dropped: `number` is its token, `time` its moment */
    MSGQ_NOTHING_LEFT = 23, /* of `msgq_next_dropped`: all that was dropped was handed out */
    MSGQ_LOOK_NOT_OPEN = 24,
    MSGQ_LOOK_BUSY = 25, /* these three as MSGQ_BUSY, MSGQ_NULL and MSGQ_TOO_FAR */
    MSGQ_LOOK_NULL = 26,
    MSGQ_LOOK_TOO_FAR = 27
} msgq_look_kind;

typedef struct {
    msgq_message message; /* all 0 but where `kind` is MSGQ_TAKEN */
    uint64_t number;    /* as the kind says, else 0 */
    uint64_t time;      /* milliseconds: as the kind says; where `msgq_next` answers MSGQ_TAKEN the moment that was used; else 0 */
    msgq_look_kind kind;
} msgq_look;

/* Opens a handle for a queue in which nothing has happened. False, and nothing changes, where there is no memory, and where the
 * handle is open or messages still wait to be handed out. */
static inline bool msgq_open(msgq_queue *queue);

/* Closes the handle: no more is posted or taken. It wakes nobody: quit first, and let the thread that waits for messages end.
 * MSGQ_DONE: `number` is how many messages and barriers wait for `msgq_next_dropped`: what earlier calls dropped, then what stood in
 * the queue, in order. Once the last is handed out, or at once where there is none, nothing is left of the queue, and the handle
 * may be opened anew.
 * MSGQ_NOT_OPEN: the handle is not open; what still waits is freed and not handed out. So two calls free all. */
static inline msgq_answer msgq_close(msgq_queue *queue);

/* Posts the message (enqueueMessage): behind every item whose time is not greater, or at the front where its time is 0.
 * MSGQ_DONE: `number` counts the accepted posts from 0. MSGQ_REFUSED, MSGQ_NO_MEMORY, MSGQ_NOT_OPEN: it was not posted, and is the
 * caller's. */
static inline MSGQ_USE_ANSWER msgq_answer msgq_post(msgq_queue *queue, const msgq_message *message);

/* Posts the message at the front, as `msgq_post` with `when` 0 (Handler.sendMessageAtFrontOfQueue). */
static inline MSGQ_USE_ANSWER msgq_answer msgq_post_at_front(msgq_queue *queue, const msgq_message *message);

/* Posts a barrier at the moment `now`, also after a quit (postSyncBarrier): while it stands first, only asynchronous messages are
 * due. It never wakes. MSGQ_DONE: `number` is its token, counted from 0. MSGQ_NO_MEMORY, MSGQ_TOO_FAR, MSGQ_NOT_OPEN. */
static inline msgq_answer msgq_barrier(msgq_queue *queue, uint64_t now);

/* Removes the first barrier of the token, which is not handed out (removeSyncBarrier). MSGQ_DONE, MSGQ_NOT_POSTED, MSGQ_NO_MEMORY,
 * MSGQ_NOT_OPEN. */
static inline MSGQ_USE_ANSWER msgq_answer msgq_remove_barrier(msgq_queue *queue, uint64_t token);

/* Removes the messages that the filter names (removeMessages and its kin). It never wakes. MSGQ_DONE: `number` is how many; they wait to
 * be handed out. MSGQ_NO_MEMORY, MSGQ_NOT_OPEN. */
static inline msgq_answer msgq_remove(msgq_queue *queue, const msgq_filter *filter);

/* Whether the filter names a message that stands in the queue (hasMessages). Nothing changes. False where no queue is open. */
static inline bool msgq_has(const msgq_queue *looked_at, const msgq_filter *filter);

/* How many messages and barriers stand in the queue. Nothing changes. 0 where no queue is open. */
static inline uint64_t msgq_live(const msgq_queue *looked_at);

/* The moment that the queue has come to, in milliseconds: the latest that a message was taken, a barrier was posted or a quit or the end came
 * at. Nothing changes. 0 where no queue is open. */
static inline uint64_t msgq_time(const msgq_queue *looked_at);

/* Looks for the first message that is due at the moment `now` and that no barrier holds back, and takes it out (next).
 * `idle_owed` says whether the caller still has idle work for this wait: true until MSGQ_IDLE was answered and that work done without
 * the lock, then false, and true again once a message was taken. At MSGQ_END what was left waits to be handed out.
 * MSGQ_OVER where MSGQ_END was answered before, else MSGQ_TAKEN, else MSGQ_END where it has quit, else MSGQ_IDLE where an idle turn is owed
 * and the head is later or missing, else MSGQ_WAIT or MSGQ_WAIT_FOREVER; MSGQ_LOOK_NOT_OPEN, MSGQ_LOOK_TOO_FAR. */
static inline msgq_look msgq_next(msgq_queue *queue, uint64_t now, bool idle_owed);

/* Quits (quit): drops every message and barrier, or safely only those that are due later than `now`, and refuses posts from then
 * on. MSGQ_DONE wakes: `number` is how many were dropped; they wait to be handed out. MSGQ_ALREADY_QUIT, MSGQ_TOO_FAR, MSGQ_NOT_OPEN. MSGQ_NO_MEMORY only
 * where it quit before, and 2 to the 64 calls were made. */
static inline MSGQ_USE_ANSWER msgq_answer msgq_quit(msgq_queue *queue, bool safe, uint64_t now);

/* Hands out the first of what was dropped and not handed out yet, also once the handle is closed: MSGQ_TAKEN with the message and
 * its number, MSGQ_BARRIER, or MSGQ_NOTHING_LEFT. Only where 2 to the 64 of them or more would wait are the earlier ones let go. */
static inline msgq_look msgq_next_dropped(msgq_queue *queue);

/* From now on a `msgq_barrier`, `msgq_next` or `msgq_quit` whose moment is more than `ahead` milliseconds past the latest that these
 * were given, or past `now`, answers MSGQ_TOO_FAR and changes nothing. So a reading in nanoseconds, or a negative one, does no harm. Choose it
 * longer than the longest wait; `ahead` 0 ends the limit, and a later call begins anew from its own `now`. MSGQ_DONE, MSGQ_NOT_OPEN. */
static inline msgq_answer msgq_limit(msgq_queue *queue, uint64_t now, uint64_t ahead);

/* Takes memory for `count` messages and barriers, and from then on keeps the blocks of those that go, up to so many, for those that come. So
 * while no more than so many stand or wait to be handed out, beyond those that stood at this call, no post and no barrier
 * answers MSGQ_NO_MEMORY (tested, and no clause of the library). The close gives them back. MSGQ_DONE, MSGQ_NO_MEMORY (those that were found are kept), MSGQ_NOT_OPEN. */
static inline msgq_answer msgq_reserve(msgq_queue *queue, uint64_t count);

/* What the program provides: a heap. `heap.c` of examples/embed has it over malloc, and so has the toolchain's liblibc_c.a. It is
 * called only from within calls of this file, so with several handles maybe by several threads at once. A block is aligned to
 * `align`, a power of two up to 16. `kept` is how many bytes of the old block have to stay. Where there is no memory `ok` is false,
 * `at` is the address of anything but not null, and in `rattle_realloc` the block is as it was. */
typedef struct {
    bool ok;
    void *at;
} msgq_memory;

msgq_memory rattle_alloc(size_t size, size_t align);
msgq_memory rattle_realloc(void *at, size_t kept, size_t size, size_t align);
void rattle_dealloc(void *at);

/* ---- The library's functions. No pointer may be null, and no call may begin before another one on the same handle has ended. */

#define MSGQ_INTERFACE 1

uint32_t msgq_core_interface(void); /* MSGQ_INTERFACE of the library */
bool msgq_core_open(msgq_core *core);
msgq_answer msgq_core_close(msgq_core *core);
msgq_answer msgq_core_post(msgq_core *core, const msgq_message *message);
msgq_answer msgq_core_post_at_front(msgq_core *core, const msgq_message *message);
msgq_answer msgq_core_barrier(msgq_core *core, uint64_t now);
msgq_answer msgq_core_remove_barrier(msgq_core *core, uint64_t token);
msgq_answer msgq_core_remove(msgq_core *core, const msgq_filter *filter);
bool msgq_core_has(msgq_core *core, const msgq_filter *filter);
uint64_t msgq_core_live(msgq_core *core);
uint64_t msgq_core_time(msgq_core *core);
msgq_look msgq_core_next(msgq_core *core, uint64_t now, bool idle_owed);
msgq_answer msgq_core_quit(msgq_core *core, bool safe, uint64_t now);
msgq_look msgq_core_next_dropped(msgq_core *core);
msgq_answer msgq_core_reserve(msgq_core *core, uint64_t count);

/* ---- What stands before each call: it looks at the pointers, at whether a call is in progress, and at the moment. */

typedef char msgq_is_for_64_bits[sizeof(void *) == 8 && sizeof(size_t) == 8 ? 1 : -1];
typedef char msgq_has_its_sizes[sizeof(msgq_core) == 16 && sizeof(msgq_message) == 40 && sizeof(msgq_filter) == 32 && sizeof(msgq_answer) == 16 &&
                                        sizeof(msgq_look) == 64
                                    ? 1
                                    : -1];

#ifdef __cplusplus
#define MSGQ_FROM_CONST(queue) const_cast<msgq_queue *>(queue)
#else
#define MSGQ_FROM_CONST(queue) ((msgq_queue *)(uintptr_t)(queue))
#endif

/* MSGQ_DONE where the call may go on, which then ends by `msgq_end`. */
static inline msgq_kind msgq_begin(msgq_queue *queue)
{
#if defined(__GNUC__)
    return __atomic_exchange_n(&queue->busy, 1u, __ATOMIC_ACQUIRE) == 0 ? MSGQ_DONE : MSGQ_BUSY;
#else
    uint32_t busy = queue->busy;
    queue->busy = 1;
    return busy == 0 ? MSGQ_DONE : MSGQ_BUSY;
#endif
}

static inline void msgq_end(msgq_queue *queue)
{
#if defined(__GNUC__)
    __atomic_store_n(&queue->busy, 0u, __ATOMIC_RELEASE);
#else
    queue->busy = 0;
#endif
}

/* The same of a call that names a moment. */
static inline msgq_kind msgq_begin_at(msgq_queue *queue, uint64_t now)
{
    msgq_kind kind = msgq_begin(queue);
    if (kind != MSGQ_DONE || queue->ahead == 0 || now <= queue->latest) return kind;
    if (now - queue->latest <= queue->ahead) {
        queue->latest = now;
        return MSGQ_DONE;
    }
    msgq_end(queue);
    return MSGQ_TOO_FAR;
}

static inline msgq_answer msgq_not_done(msgq_kind why)
{
    msgq_answer answer = {0, MSGQ_DONE, false};
    answer.kind = why;
    return answer;
}

static inline msgq_look msgq_not_looked(msgq_kind why)
{
    msgq_look look = {{0, 0, 0, 0, 0, 0, false, false, false}, 0, 0, MSGQ_LOOK_NULL};
    if (why == MSGQ_BUSY) look.kind = MSGQ_LOOK_BUSY;
    if (why == MSGQ_TOO_FAR) look.kind = MSGQ_LOOK_TOO_FAR;
    return look;
}

static inline bool msgq_open(msgq_queue *queue)
{
    if (!queue || msgq_core_interface() != MSGQ_INTERFACE || msgq_begin(queue) != MSGQ_DONE) return false;
    bool opened = msgq_core_open(&queue->core);
    if (opened) queue->latest = queue->ahead = 0;
    msgq_end(queue);
    return opened;
}

static inline msgq_answer msgq_close(msgq_queue *queue)
{
    if (!queue) return msgq_not_done(MSGQ_NULL);
    msgq_kind begun = msgq_begin(queue);
    if (begun != MSGQ_DONE) return msgq_not_done(begun);
    msgq_answer answer = msgq_core_close(&queue->core);
    msgq_end(queue);
    return answer;
}

static inline msgq_answer msgq_post(msgq_queue *queue, const msgq_message *message)
{
    if (!queue || !message) return msgq_not_done(MSGQ_NULL);
    msgq_kind begun = msgq_begin(queue);
    if (begun != MSGQ_DONE) return msgq_not_done(begun);
    msgq_answer answer = msgq_core_post(&queue->core, message);
    msgq_end(queue);
    return answer;
}

static inline msgq_answer msgq_post_at_front(msgq_queue *queue, const msgq_message *message)
{
    if (!queue || !message) return msgq_not_done(MSGQ_NULL);
    msgq_kind begun = msgq_begin(queue);
    if (begun != MSGQ_DONE) return msgq_not_done(begun);
    msgq_answer answer = msgq_core_post_at_front(&queue->core, message);
    msgq_end(queue);
    return answer;
}

static inline msgq_answer msgq_barrier(msgq_queue *queue, uint64_t now)
{
    if (!queue) return msgq_not_done(MSGQ_NULL);
    msgq_kind begun = msgq_begin_at(queue, now);
    if (begun != MSGQ_DONE) return msgq_not_done(begun);
    msgq_answer answer = msgq_core_barrier(&queue->core, now);
    msgq_end(queue);
    return answer;
}

static inline msgq_answer msgq_remove_barrier(msgq_queue *queue, uint64_t token)
{
    if (!queue) return msgq_not_done(MSGQ_NULL);
    msgq_kind begun = msgq_begin(queue);
    if (begun != MSGQ_DONE) return msgq_not_done(begun);
    msgq_answer answer = msgq_core_remove_barrier(&queue->core, token);
    msgq_end(queue);
    return answer;
}

static inline msgq_answer msgq_remove(msgq_queue *queue, const msgq_filter *filter)
{
    if (!queue || !filter) return msgq_not_done(MSGQ_NULL);
    msgq_kind begun = msgq_begin(queue);
    if (begun != MSGQ_DONE) return msgq_not_done(begun);
    msgq_answer answer = msgq_core_remove(&queue->core, filter);
    msgq_end(queue);
    return answer;
}

static inline bool msgq_has(const msgq_queue *looked_at, const msgq_filter *filter)
{
    msgq_queue *queue = MSGQ_FROM_CONST(looked_at);
    if (!queue || !filter || msgq_begin(queue) != MSGQ_DONE) return false;
    bool has = msgq_core_has(&queue->core, filter);
    msgq_end(queue);
    return has;
}

static inline uint64_t msgq_live(const msgq_queue *looked_at)
{
    msgq_queue *queue = MSGQ_FROM_CONST(looked_at);
    if (!queue || msgq_begin(queue) != MSGQ_DONE) return 0;
    uint64_t live = msgq_core_live(&queue->core);
    msgq_end(queue);
    return live;
}

static inline uint64_t msgq_time(const msgq_queue *looked_at)
{
    msgq_queue *queue = MSGQ_FROM_CONST(looked_at);
    if (!queue || msgq_begin(queue) != MSGQ_DONE) return 0;
    uint64_t time = msgq_core_time(&queue->core);
    msgq_end(queue);
    return time;
}

static inline msgq_look msgq_next(msgq_queue *queue, uint64_t now, bool idle_owed)
{
    if (!queue) return msgq_not_looked(MSGQ_NULL);
    msgq_kind begun = msgq_begin_at(queue, now);
    if (begun != MSGQ_DONE) return msgq_not_looked(begun);
    msgq_look look = msgq_core_next(&queue->core, now, idle_owed);
    msgq_end(queue);
    return look;
}

static inline msgq_answer msgq_quit(msgq_queue *queue, bool safe, uint64_t now)
{
    if (!queue) return msgq_not_done(MSGQ_NULL);
    msgq_kind begun = msgq_begin_at(queue, now);
    if (begun != MSGQ_DONE) return msgq_not_done(begun);
    msgq_answer answer = msgq_core_quit(&queue->core, safe, now);
    msgq_end(queue);
    return answer;
}

static inline msgq_look msgq_next_dropped(msgq_queue *queue)
{
    if (!queue) return msgq_not_looked(MSGQ_NULL);
    msgq_kind begun = msgq_begin(queue);
    if (begun != MSGQ_DONE) return msgq_not_looked(begun);
    msgq_look look = msgq_core_next_dropped(&queue->core);
    msgq_end(queue);
    return look;
}

static inline msgq_answer msgq_limit(msgq_queue *queue, uint64_t now, uint64_t ahead)
{
    if (!queue) return msgq_not_done(MSGQ_NULL);
    msgq_kind begun = msgq_begin(queue);
    if (begun != MSGQ_DONE) return msgq_not_done(begun);
    bool live = queue->core.live;
    if (live) {
        queue->latest = now;
        queue->ahead = ahead;
    }
    msgq_end(queue);
    return msgq_not_done(live ? MSGQ_DONE : MSGQ_NOT_OPEN);
}

static inline msgq_answer msgq_reserve(msgq_queue *queue, uint64_t count)
{
    if (!queue) return msgq_not_done(MSGQ_NULL);
    msgq_kind begun = msgq_begin(queue);
    if (begun != MSGQ_DONE) return msgq_not_done(begun);
    msgq_answer answer = msgq_core_reserve(&queue->core, count);
    msgq_end(queue);
    return answer;
}

#ifdef __cplusplus
}
#endif

#endif
