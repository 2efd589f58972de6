/* A message loop for C and C++ programs over four proved libraries: message_queue.h (messages), frame_phases.h (frames), loop_sources.h
 * (idle handlers, descriptors) and loop_next.h, the table by which it decides what comes next and until when it waits. This layer is C,
 * tested and not proved: it adds one lock, a wake, a wait, a clock and function pointers, and hands in what it sees. A program that makes
 * no call of frames, idle handlers or descriptors links none of theirs. It is
 * android.os.Looper, Handler and MessageQueue, and android.view.Choreographer; where a call is one of their methods, the method is named.
 *
 * THREADS. A loop belongs to the thread that calls `mlp_run` or `mlp_run_once`. "Any thread" stands at the calls that others may make
 * too. No function of the user's is called with the lock held.
 *
 * TIMES are milliseconds of CLOCK_MONOTONIC (SystemClock.uptimeMillis), those of frames nanoseconds of it.
 *
 * MISUSE that is answered by false, 0 or -1, and changes nothing: a null loop, handler or function, a handler that is not open, or is open
 * already where it is to be opened, one of another size than the library's. A handler begins with all fields 0 but those that the user
 * sets.
 *
 * OBJECTS. `obj` of a message is the handler's once `handle` is called. A message that is dropped before, by a removal, a quit or the
 * loop's end, is given to the handler's `let_go`. One that is not accepted (false) stays the sender's. */
#ifndef MESSAGE_LOOP_POSIX_H
#define MESSAGE_LOOP_POSIX_H

#include <stdbool.h>
#include <stddef.h>
#include <stdint.h>
#include <stdio.h>

#ifdef __cplusplus
extern "C" {
#endif

#define MLP_VERSION_MAJOR 0
#define MLP_VERSION_MINOR 2
#define MLP_VERSION_PATCH 1
#define MLP_VERSION (MLP_VERSION_MAJOR * 10000 + MLP_VERSION_MINOR * 100 + MLP_VERSION_PATCH)

/* The version of the library that is linked: compare it with MLP_VERSION. */
uint32_t mlp_version(void);

typedef struct mlp_loop mlp_loop;
typedef struct mlp_handler mlp_handler;

typedef struct {
    uint32_t what;
    uint32_t arg;
    void *obj;
    uint64_t when; /* the millisecond at which it was due, 0 for one at the front */
} mlp_message;

/* A handler (Handler). It is the user's memory, and is neither copied nor let go from `mlp_handler_open` to `mlp_handler_close`. */
struct mlp_handler {
    void (*handle)(mlp_handler *self, const mlp_message *message); /* handleMessage */
    void (*let_go)(void *obj);                                     /* for the object of a dropped message, or NULL */
    void *user;
    bool asynchronous; /* its messages pass barriers (Handler.createAsync) */
    mlp_loop *loop;    /* these two are set by `mlp_handler_open` */
    uint32_t id;
};

typedef void (*mlp_func)(void *user);                                 /* Runnable */
typedef void (*mlp_frame_func)(uint64_t frame_time, void *user);      /* Choreographer.FrameCallback */
typedef bool (*mlp_idle_func)(void *user);                            /* queueIdle: true keeps it */
typedef uint32_t (*mlp_fd_func)(int fd, uint32_t events, void *user); /* onFileDescriptorEvents: the new mask, 0 for no more */

enum { MLP_INPUT = 1, MLP_OUTPUT = 2, MLP_ERROR = 4 };                             /* bits of a mask; errors always count */
/* the phases of a frame (Choreographer.CALLBACK_INPUT and its kin), and how many there are */
enum { MLP_PHASE_INPUT, MLP_PHASE_ANIMATION, MLP_PHASE_INSETS, MLP_PHASE_TRAVERSAL, MLP_PHASE_COMMIT, MLP_PHASES };

/* ---- the loop */

/* A loop with frames at multiples of `interval` nanoseconds (0: 16666667). NULL where there is no memory or no descriptor. */
mlp_loop *mlp_new(uint64_t interval);
/* Ends it, after its thread left it and no other thread uses it. What is left is let go of, and handlers that are open are closed. */
void mlp_free(mlp_loop *loop);

/* Runs until it has quit (Looper.loop). */
void mlp_run(mlp_loop *loop);
/* One step of it: handles one message, one frame or one idle turn, or what came at descriptors, and else waits where it may.
 * 1: it may have more to do at once. 0: nothing is due. -1: it has quit. */
int mlp_run_once(mlp_loop *loop, bool may_wait);
/* For a host with a loop of its own: a descriptor that is readable when `mlp_run_once` has something to do (after one that answered
 * 0), for poll, epoll or g_unix_fd_add; -1 on systems that have none. */
int mlp_fd(const mlp_loop *loop);
/* And how many milliseconds the host may wait at most: 0 at once, -1 without limit. */
int mlp_timeout(mlp_loop *loop);
/* Wakes the loop's wait. Any thread, and signal handlers. */
void mlp_wake(mlp_loop *loop);

uint64_t mlp_now(void);    /* milliseconds */
uint64_t mlp_now_ns(void); /* nanoseconds */

/* ---- messages: any thread */

/* Opens the handler. False where there is no memory, and where it is open. One without `handle` serves calls alone, and lets go of messages' objects. */
#define mlp_handler_open(loop, handler) mlp_handler_open_sized(loop, handler, sizeof(mlp_handler))
bool mlp_handler_open_sized(mlp_loop *loop, mlp_handler *handler, size_t size); /* false for a size that is not the library's */
void mlp_handler_close(mlp_handler *handler); /* with all its messages; in the loop's thread or after it */

bool mlp_send(mlp_handler *to, uint32_t what, uint32_t arg, void *obj);                                 /* sendMessage */
bool mlp_send_delayed(mlp_handler *to, uint32_t what, uint32_t arg, void *obj, uint64_t milliseconds);  /* sendMessageDelayed */
bool mlp_send_at(mlp_handler *to, uint32_t what, uint32_t arg, void *obj, uint64_t when);               /* sendMessageAtTime; 0 counts as 1 */
bool mlp_send_front(mlp_handler *to, uint32_t what, uint32_t arg, void *obj);                           /* sendMessageAtFrontOfQueue */
bool mlp_call(mlp_handler *by, mlp_func func, void *user);                                              /* post */
bool mlp_call_delayed(mlp_handler *by, mlp_func func, void *user, uint64_t milliseconds);               /* postDelayed */
uint64_t mlp_remove(mlp_handler *of, uint32_t what);       /* removeMessages: how many */
uint64_t mlp_remove_calls(mlp_handler *of, mlp_func func); /* removeCallbacks */
uint64_t mlp_remove_all(mlp_handler *of);                  /* removeCallbacksAndMessages(null) */
bool mlp_has(mlp_handler *of, uint32_t what);              /* hasMessages */

/* A barrier holds back all but asynchronous messages (postSyncBarrier). False where there is no memory. */
bool mlp_barrier(mlp_loop *loop, uint64_t *token);
bool mlp_unbarrier(mlp_loop *loop, uint64_t token); /* removeSyncBarrier */

/* From now on each call on the loop's queue is written to the log, as a line of text; `msgq_trace_finish` of message_trace.h makes of
 * it a trace that `dashboard check` judges. False where messages were sent before. The log stands until the loop is freed, and is the
 * caller's to close. */
bool mlp_trace(mlp_loop *loop, FILE *log);

/* Takes memory for `count` messages, and keeps that of messages that went for later ones, up to so many (`msgq_reserve`). */
bool mlp_reserve(mlp_loop *loop, uint64_t count);

/* Looper.quit, or quitSafely: what is due by now still runs. False where it quit before. */
bool mlp_quit(mlp_loop *loop, bool safe);

/* ---- frames: any thread, but the function is called in the loop's. The first call takes memory for them. */

bool mlp_on_frame(mlp_loop *loop, uint32_t phase, mlp_frame_func func, void *user); /* postFrameCallback */
bool mlp_on_frame_delayed(mlp_loop *loop, uint32_t phase, mlp_frame_func func, void *user, uint64_t milliseconds);
uint64_t mlp_remove_frame(mlp_loop *loop, uint32_t phase, mlp_frame_func func, void *user); /* removeFrameCallback */
/* The display has a vsync of its own: `ask` is called whenever one is wanted (once for each frame), and the program answers with
 * `mlp_vsync` and its stamp in nanoseconds of CLOCK_MONOTONIC, from any thread. Without it a timer gives the pulses. False where there is
 * no memory. */
bool mlp_use_vsync(mlp_loop *loop, mlp_func ask, void *user);
void mlp_vsync(mlp_loop *loop, uint64_t stamp);

/* ---- idle handlers and descriptors: the loop's thread. A watch ends before its descriptor is closed. */

bool mlp_on_idle(mlp_loop *loop, mlp_idle_func func, void *user);     /* addIdleHandler */
bool mlp_remove_idle(mlp_loop *loop, mlp_idle_func func, void *user); /* removeIdleHandler */
bool mlp_watch(mlp_loop *loop, int fd, uint32_t mask, mlp_fd_func func, void *user); /* addOnFileDescriptorEventListener; mask 0 ends */

#ifdef __cplusplus
}
#endif

#endif
