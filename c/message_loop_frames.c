/* The loop's frames: their messages, and function pointers. Pulses, phases and frame times are decided by frame_phases.h. */
#include "message_loop_parts.h"

#include "frame_phases.h"

#include <stdlib.h>

typedef struct {
    mlp_part part;
    mloop_frames core;
    uint64_t vsync; /* the stamp of the frame that was asked for */
    mlp_func ask;
    void *ask_user;
} mlp_frames;

/* the messages of frames, to the loop's own handler */
enum { DO_FRAME, DUE };

static mlp_frames *frames_of(mlp_loop *loop)
{
    return (mlp_frames *)loop->frames; /* `part` is its first field */
}

/* With the lock: posts a message of frames, which barriers let pass. */
static msgq_answer post(mlp_loop *loop, uint32_t what, uint32_t arg, uint64_t when)
{
    msgq_message message = {.when = when != 0 ? when : 1, .what = what, .arg = arg, .asynchronous = true};
    return msgq_traced_post(&loop->trace, &loop->queue, &message);
}

/* With the lock, behind each call that asks for a pulse or takes one: what the table has to know of it. */
static void tell_pulse(mlp_loop *loop)
{
    mloop_frame_answer pulse = mloop_frame_asked(&frames_of(loop)->core);
    loop->next.has_pulse = pulse.kind == MLOOP_FRAME_ASKED && frames_of(loop)->ask == NULL;
    loop->next.pulse = pulse.time;
}

/* With the lock: a pulse that has come by this moment is there, and the frame's message is posted. Whether the loop is to be woken. */
static bool deliver(mlp_loop *loop, uint64_t moment, const uint64_t *stamp)
{
    mlp_frames *it = frames_of(loop);
    mloop_frame_answer pulse = mloop_frame_vsync(&it->core, moment);
    if (pulse.kind != MLOOP_FRAME_ASKED) return false;
    tell_pulse(loop);
    it->vsync = stamp != NULL ? *stamp : pulse.time;
    msgq_answer answer = post(loop, DO_FRAME, 0, it->vsync / MLP_MILLI);
    loop->next.frame_owed = answer.kind == MSGQ_NO_MEMORY;
    return answer.wake || (loop->next.frame_owed && loop->until != 0);
}

/* Ends a call on the frames, with the lock: where it asked for a pulse the display is asked, or a wait that is longer ends. */
static mloop_frame_kind asked(mlp_loop *loop, mloop_frame_answer answer)
{
    bool asks = answer.kind == MLOOP_FRAME_ASKED || answer.kind == MLOOP_FRAME_BACKWARDS;
    mlp_func ask = frames_of(loop)->ask;
    void *user = frames_of(loop)->ask_user;
    tell_pulse(loop);
    bool wake = asks && loop->next.has_pulse && loop->next.pulse < loop->until;
    mlp_unlock(loop);
    if (asks && ask != NULL) ask(user);
    if (wake) mlp_wake(loop);
    return answer.kind;
}

static void do_frame(mlp_loop *loop)
{
    mlp_lock(loop);
    mlp_frames *it = frames_of(loop);
    mloop_frame_answer answer = mloop_frame_begin(&it->core, it->vsync, mlp_now_ns());
    loop->next.frame_owed = answer.kind == MLOOP_FRAME_NO_MEMORY;
    mloop_frame_kind began = asked(loop, answer);
    /* Running: an earlier turn of this frame found no memory. */
    while (began == MLOOP_FRAME_BEGAN || began == MLOOP_FRAME_RUNNING) {
        mlp_lock(loop);
        mloop_frame_look look = mloop_frame_next(&it->core, mlp_now_ns());
        loop->next.frame_owed = look.kind == MLOOP_STEP_NO_MEMORY;
        mlp_unlock(loop);
        if (look.kind == MLOOP_STEP_RUN)
            ((mlp_frame_func)(uintptr_t)look.callback.id)(look.time, (void *)(uintptr_t)look.callback.token);
        else if (look.kind != MLOOP_STEP_PHASE)
            break;
    }
}

static void handle(mlp_handler *own, const mlp_message *message)
{
    if (message->what == DO_FRAME) {
        do_frame(own->loop);
    } else {
        mlp_lock(own->loop);
        asked(own->loop, mloop_frame_due(&frames_of(own->loop)->core, message->arg, mlp_now_ns()));
    }
}

static void take_pulse(mlp_loop *loop)
{
    mlp_lock(loop);
    deliver(loop, mlp_now_ns(), NULL);
    mlp_unlock(loop);
}

static void end(mlp_loop *loop)
{
    mloop_frame_close(&frames_of(loop)->core);
    free(loop->frames);
}

/* Takes the lock where it answers frames. NULL, without the lock, where there is no loop, or no memory to make them. */
static mlp_frames *with_lock(mlp_loop *loop)
{
    if (!mlp_lock(loop)) return NULL;
    if (loop->frames != NULL) return frames_of(loop);
    mlp_frames *it = calloc(1, sizeof *it);
    if (it != NULL && mloop_frame_open(&it->core, loop->interval, MLP_PHASES)) {
        it->part = (mlp_part){take_pulse, do_frame, end};
        loop->frames = &it->part;
        loop->own = (mlp_handler){.handle = handle, .loop = loop};
        return it;
    }
    mlp_unlock(loop);
    free(it);
    return NULL;
}

static bool post_frame(mlp_loop *loop, uint32_t phase, mlp_frame_func func, void *user, uint64_t due)
{
    mlp_frames *it = func == NULL ? NULL : with_lock(loop);
    if (it == NULL) return false;
    mloop_callback callback = {.due = due, .id = (uintptr_t)func, .token = (uintptr_t)user, .phase = phase, .has_token = true};
    mloop_frame_answer answer = {.kind = MLOOP_FRAME_NO_MEMORY};
    msgq_answer posted = {.kind = MSGQ_DONE};
    uint64_t now = mlp_now_ns();
    /* For one that is due later a message is posted, before it: a message for nothing does no harm. */
    if (due > now / MLP_MILLI) posted = post(loop, DUE, phase, due);
    if (posted.wake) mlp_wake(loop);
    if (posted.kind == MSGQ_DONE) answer = mloop_frame_post(&it->core, &callback, now);
    return asked(loop, answer) <= MLOOP_FRAME_ALREADY;
}

bool mlp_on_frame(mlp_loop *loop, uint32_t phase, mlp_frame_func func, void *user)
{
    return post_frame(loop, phase, func, user, 0);
}

bool mlp_on_frame_delayed(mlp_loop *loop, uint32_t phase, mlp_frame_func func, void *user, uint64_t milliseconds)
{
    return post_frame(loop, phase, func, user, mlp_after(milliseconds));
}

uint64_t mlp_remove_frame(mlp_loop *loop, uint32_t phase, mlp_frame_func func, void *user)
{
    mlp_frames *it = with_lock(loop);
    if (it == NULL) return 0;
    mloop_callback callback = {.id = (uintptr_t)func, .token = (uintptr_t)user, .phase = phase, .has_token = true};
    mloop_frame_answer answer = mloop_frame_remove(&it->core, &callback);
    mlp_unlock(loop);
    return answer.kind == MLOOP_FRAME_REMOVED ? answer.number : 0;
}

bool mlp_use_vsync(mlp_loop *loop, mlp_func ask, void *user)
{
    mlp_frames *it = with_lock(loop);
    if (it == NULL) return false;
    it->ask = ask;
    it->ask_user = user;
    asked(loop, mloop_frame_asked(&it->core));
    return true;
}

void mlp_vsync(mlp_loop *loop, uint64_t stamp)
{
    if (!mlp_lock(loop)) return;
    bool wake = loop->frames != NULL && deliver(loop, MLOOP_NEVER, &stamp);
    mlp_unlock(loop);
    if (wake) mlp_wake(loop);
}
