/* The loop: its handlers, messages and steps. What comes next the table of loop_next.h decides, what it has of the system is
 * message_loop_system.h, and frames, idle handlers and descriptors are its parts (message_loop_parts.h). */
#include "message_loop_parts.h"

#include <stdlib.h>

uint32_t mlp_version(void)
{
    return MLP_VERSION;
}

void mlp_wake(mlp_loop *loop)
{
    if (loop != NULL) mlp_system_wake(&loop->system);
}

int mlp_fd(const mlp_loop *loop)
{
    return loop == NULL ? -1 : loop->system.poll_fd;
}

int mlp_timeout(mlp_loop *loop)
{
    return loop == NULL ? -1 : mloop_milliseconds(loop->until, mlp_now_ns());
}

/* ---- calls on the queue */

/* Takes the lock of the handler's loop, where the handler is open. */
static bool lock_of(const mlp_handler *handler)
{
    return handler != NULL && handler->id != 0 && mlp_lock(handler->loop);
}

/* Ends a call on the queue, with the lock: it wakes the loop where the answer says so, and tells whether the call was done. */
static bool done(mlp_loop *loop, msgq_answer answer)
{
    mlp_unlock(loop);
    if (answer.wake) mlp_wake(loop);
    return answer.kind == MSGQ_DONE;
}

static bool post(const mlp_handler *by, msgq_message message)
{
    if (!lock_of(by)) return false;
    message.handler = by->id;
    message.asynchronous = by->asynchronous;
    return done(by->loop, msgq_traced_post(&by->loop->trace, &by->loop->queue, &message));
}

/* One that goes behind those of its time: at the time 0 it would go to the front. */
static msgq_message message_of(uint32_t what, uint32_t arg, void *obj, uint64_t when)
{
    return (msgq_message){.when = when != 0 ? when : 1, .obj = (uintptr_t)obj, .what = what, .arg = arg, .has_obj = obj != NULL};
}

bool mlp_send_at(mlp_handler *to, uint32_t what, uint32_t arg, void *obj, uint64_t when)
{
    return post(to, message_of(what, arg, obj, when));
}

bool mlp_send_delayed(mlp_handler *to, uint32_t what, uint32_t arg, void *obj, uint64_t milliseconds)
{
    return mlp_send_at(to, what, arg, obj, mlp_after(milliseconds));
}

bool mlp_send(mlp_handler *to, uint32_t what, uint32_t arg, void *obj)
{
    return mlp_send_delayed(to, what, arg, obj, 0);
}

bool mlp_send_front(mlp_handler *to, uint32_t what, uint32_t arg, void *obj)
{
    msgq_message message = message_of(what, arg, obj, 0);
    message.when = 0;
    return post(to, message);
}

bool mlp_call_delayed(mlp_handler *by, mlp_func func, void *user, uint64_t milliseconds)
{
    msgq_message message = message_of(0, 0, user, mlp_after(milliseconds));
    message.has_callback = true;
    message.callback = (uintptr_t)func;
    return func != NULL && post(by, message);
}

bool mlp_call(mlp_handler *by, mlp_func func, void *user)
{
    return mlp_call_delayed(by, func, user, 0);
}

bool mlp_has(mlp_handler *of, uint32_t what)
{
    if (!lock_of(of)) return false;
    msgq_filter filter = {.handler = of->id, .by_what = true, .what = what};
    bool has = msgq_has(&of->loop->queue, &filter);
    mlp_unlock(of->loop);
    return has;
}

bool mlp_barrier(mlp_loop *loop, uint64_t *token)
{
    if (token == NULL || !mlp_lock(loop)) return false;
    msgq_answer answer = msgq_traced_barrier(&loop->trace, &loop->queue, mlp_now());
    *token = answer.number;
    return done(loop, answer);
}

bool mlp_unbarrier(mlp_loop *loop, uint64_t token)
{
    return mlp_lock(loop) && done(loop, msgq_traced_remove_barrier(&loop->trace, &loop->queue, token));
}

bool mlp_reserve(mlp_loop *loop, uint64_t count)
{
    return mlp_lock(loop) && done(loop, msgq_reserve(&loop->queue, count));
}

bool mlp_trace(mlp_loop *loop, FILE *log)
{
    if (!mlp_lock(loop)) return false;
    bool fresh = loop->trace.entries == 0;
    if (fresh) loop->trace.log = log;
    mlp_unlock(loop);
    return fresh;
}

/* ---- calls that drop messages, whose objects are let go of */

/* With the lock: the handler of this number, or NULL where it was closed. */
static mlp_handler *handler_of(mlp_loop *loop, uint32_t id)
{
    return id == 0 ? &loop->own : loop->handlers[id - 1];
}

/* Gives the object of a message that is not handled to its handler; a callback's is the user's own. */
static void let_go(const mlp_handler *handler, const msgq_message *message)
{
    if (message->has_obj && !message->has_callback && handler != NULL && handler->let_go != NULL) handler->let_go((void *)(uintptr_t)message->obj);
}

static void let_go_of_dropped(mlp_loop *loop)
{
    msgq_look look;
    do {
        mlp_lock(loop);
        look = msgq_next_dropped(&loop->queue);
        mlp_handler *handler = handler_of(loop, look.message.handler);
        mlp_unlock(loop);
        let_go(handler, &look.message);
    } while (look.kind == MSGQ_TAKEN || look.kind == MSGQ_BARRIER);
}

static uint64_t remove_by(mlp_handler *of, msgq_filter filter)
{
    if (!lock_of(of)) return 0;
    filter.handler = of->id;
    msgq_answer answer = msgq_traced_remove(&of->loop->trace, &of->loop->queue, &filter);
    bool removed = done(of->loop, answer);
    let_go_of_dropped(of->loop);
    return removed ? answer.number : 0;
}

uint64_t mlp_remove(mlp_handler *of, uint32_t what)
{
    return remove_by(of, (msgq_filter){.by_what = true, .what = what});
}

uint64_t mlp_remove_calls(mlp_handler *of, mlp_func func)
{
    return remove_by(of, (msgq_filter){.by_callback = true, .callback = (uintptr_t)func});
}

uint64_t mlp_remove_all(mlp_handler *of)
{
    return remove_by(of, (msgq_filter){.by_what = false});
}

bool mlp_quit(mlp_loop *loop, bool safe)
{
    bool quits = mlp_lock(loop) && done(loop, msgq_traced_quit(&loop->trace, &loop->queue, safe, mlp_now()));
    if (quits) let_go_of_dropped(loop);
    return quits;
}

/* ---- handlers */

bool mlp_handler_open_sized(mlp_loop *loop, mlp_handler *handler, size_t size)
{
    if (handler == NULL || size != sizeof *handler || handler->id != 0 || !mlp_lock(loop)) return false;
    uint32_t row = 0;
    while (row < loop->handler_count && loop->handlers[row] != NULL) row++;
    mlp_handler **handlers = row < loop->handler_count ? loop->handlers : realloc(loop->handlers, (row + 1) * sizeof *handlers);
    if (handlers != NULL) {
        loop->handlers = handlers;
        if (row == loop->handler_count) loop->handler_count++;
        handlers[row] = handler;
        handler->loop = loop;
        handler->id = row + 1;
    }
    mlp_unlock(loop);
    return handlers != NULL;
}

void mlp_handler_close(mlp_handler *handler)
{
    mlp_remove_all(handler);
    if (!lock_of(handler)) return;
    mlp_loop *loop = handler->loop;
    loop->handlers[handler->id - 1] = NULL;
    handler->loop = NULL;
    handler->id = 0;
    mlp_unlock(loop);
}

/* ---- the loop */

mlp_loop *mlp_new(uint64_t interval)
{
    mlp_loop *loop = calloc(1, sizeof *loop);
    if (loop == NULL) return NULL;
    loop->interval = interval != 0 ? interval : 16666667;
    loop->next = (mloop_situation)MLOOP_SITUATION;
    if (mlp_system_open(&loop->system) && msgq_open(&loop->queue)) return loop;
    mlp_free(loop);
    return NULL;
}

void mlp_free(mlp_loop *loop)
{
    if (loop == NULL) return;
    msgq_close(&loop->queue);
    let_go_of_dropped(loop);
    for (uint32_t row = 0; row < loop->handler_count; row++) mlp_handler_close(loop->handlers[row]);
    if (loop->frames != NULL) loop->frames->end(loop);
    if (loop->sources != NULL) loop->sources->end(loop);
    mlp_system_close(&loop->system);
    free(loop->handlers);
    free(loop);
}

static void dispatch(mlp_handler *handler, const msgq_message *message)
{
    void *obj = message->has_obj ? (void *)(uintptr_t)message->obj : NULL;
    if (message->has_callback) ((mlp_func)(uintptr_t)message->callback)(obj);
    else if (handler != NULL && handler->handle != NULL) handler->handle(handler, &(mlp_message){message->what, message->arg, obj, message->when});
    else let_go(handler, message);
}

/* With the lock: what comes next, once the queue was looked at where the table wants it. */
static mloop_action next_action(mlp_loop *loop, msgq_look *look)
{
    for (;;) {
        loop->next.moment = mlp_now_ns();
        mloop_action action = mloop_next(&loop->next);
        if (action.kind != MLOOP_DO_LOOK) return action;
        *look = msgq_traced_next(&loop->trace, &loop->queue, loop->next.moment / MLP_MILLI, loop->next.idle_owed);
        loop->next.look = look->kind;
        loop->next.time = look->time;
    }
}

int mlp_run_once(mlp_loop *loop, bool may_wait)
{
    if (loop == NULL) return -1;
    /* As `next` does: descriptors are looked at before each message, where any are watched. */
    if (loop->watched != 0 && !loop->next.events) mlp_system_wait(&loop->system, 0, false);
    for (bool handled = false;; handled = true) {
        msgq_look look = {.kind = MSGQ_NOTHING_LEFT};
        mlp_lock(loop);
        mloop_action action = next_action(loop, &look);
        mlp_handler *handler = handler_of(loop, look.message.handler);
        loop->until = action.until;
        mlp_unlock(loop);
        switch (action.kind) {
        case MLOOP_DO_EVENTS: loop->sources->take(loop); continue;
        case MLOOP_DO_VSYNC: loop->frames->take(loop); continue;
        case MLOOP_DO_FRAME: loop->frames->run(loop); return 1;
        case MLOOP_DO_IDLE:
            if (loop->sources != NULL) loop->sources->run(loop);
            return 1;
        case MLOOP_DO_MESSAGE: dispatch(handler, &look.message); return 1;
        case MLOOP_DO_WAIT:
            if (handled) return 1;
            /* A wake that is taken here may be for a message that came after the look: then there is more to do. */
            return mlp_system_wait(&loop->system, action.until, may_wait) || may_wait ? 1 : 0;
        default: let_go_of_dropped(loop); return -1;
        }
    }
}

void mlp_run(mlp_loop *loop)
{
    while (mlp_run_once(loop, true) >= 0) {
    }
}
