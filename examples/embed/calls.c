/* Makes each call of message_queue.h once or more, compares each answer whole, and exits with the number of the first that is
 * wrong, or 0. */
/* The queues of POSIX may be used beside ours, and share no name with it. */
#ifdef __has_include
#if __has_include(<mqueue.h>)
#include <mqueue.h>
#endif
#endif

#include "message_queue.h"

#include <stddef.h>

static msgq_message message(uint32_t what, uint64_t when)
{
    msgq_message m = {.when = when, .handler = 7, .what = what};
    return m;
}

static msgq_message message_with(uint32_t what, uint64_t when, uint64_t obj)
{
    msgq_message m = message(what, when);
    m.has_obj = true;
    m.obj = obj;
    return m;
}

/* The answer, which does not wake. */
static bool is(msgq_answer answer, msgq_kind kind, uint64_t number)
{
    return answer.kind == kind && answer.number == number && !answer.wake;
}

/* It was done, and wakes. */
static bool wakes(msgq_answer answer, uint64_t number)
{
    return answer.kind == MSGQ_DONE && answer.number == number && answer.wake;
}

static bool same(msgq_message a, msgq_message b)
{
    return a.when == b.when && a.obj == b.obj && a.callback == b.callback && a.handler == b.handler && a.what == b.what
           && a.arg == b.arg && a.has_obj == b.has_obj && a.has_callback == b.has_callback && a.asynchronous == b.asynchronous;
}

/* The look, without a message. */
static bool shows(msgq_look look, msgq_look_kind kind, uint64_t number, uint64_t time)
{
    msgq_message none = {0};
    return look.kind == kind && look.number == number && look.time == time && same(look.message, none);
}

/* The message was taken at this time. */
static bool takes(msgq_look look, uint64_t number, uint64_t time, msgq_message m)
{
    return look.kind == MSGQ_TAKEN && look.number == number && look.time == time && same(look.message, m);
}

/* The message is handed out next, which tells no time. */
static bool drops(msgq_queue *queue, uint64_t number, msgq_message m)
{
    return takes(msgq_next_dropped(queue), number, 0, m);
}

static bool nothing_left(msgq_queue *queue)
{
    return shows(msgq_next_dropped(queue), MSGQ_NOTHING_LEFT, 0, 0);
}

/* Each call on a handle that is not open says so. */
static int closed_calls(void)
{
    msgq_queue queue = MSGQ_CLOSED;
    msgq_message m = message(1, 1);
    msgq_filter filter = {.handler = 7};
    if (!is(msgq_post(&queue, &m), MSGQ_NOT_OPEN, 0) || !is(msgq_post_at_front(&queue, &m), MSGQ_NOT_OPEN, 0)) return 41;
    if (!is(msgq_barrier(&queue, 1), MSGQ_NOT_OPEN, 0) || !is(msgq_remove_barrier(&queue, 0), MSGQ_NOT_OPEN, 0)) return 42;
    if (!is(msgq_remove(&queue, &filter), MSGQ_NOT_OPEN, 0) || msgq_has(&queue, &filter)) return 43;
    if (!shows(msgq_next(&queue, 1, false), MSGQ_LOOK_NOT_OPEN, 0, 0) || !is(msgq_quit(&queue, false, 1), MSGQ_NOT_OPEN, 0)) return 44;
    if (!is(msgq_close(&queue), MSGQ_NOT_OPEN, 0) || msgq_live(&queue) != 0) return 45;
    return !nothing_left(&queue) ? 46 : queue.core.live ? 47 : 0;
}

/* What a close drops is handed out behind what a removal dropped before it, also once the handle is closed. */
static int closing(void)
{
    msgq_queue queue = MSGQ_CLOSED;
    if (!msgq_open(&queue) || msgq_open(&queue)) return 51;
    for (uint32_t what = 0; what < 4; what++) {
        msgq_message m = message(what, 10);
        m.obj = 5; /* it does not count, and comes back as 0 */
        if (!is(msgq_post(&queue, &m), MSGQ_DONE, what)) return 52;
    }
    if (!is(msgq_barrier(&queue, 9), MSGQ_DONE, 0)) return 53;
    msgq_filter filter = {.handler = 7, .by_what = true, .what = 2};
    if (msgq_live(&queue) != 5 || !is(msgq_remove(&queue, &filter), MSGQ_DONE, 1) || msgq_live(&queue) != 4) return 54;
    if (!is(msgq_close(&queue), MSGQ_DONE, 5)) return 55;
    msgq_message m = message(4, 10);
    if (!is(msgq_post(&queue, &m), MSGQ_NOT_OPEN, 0) || msgq_open(&queue) || msgq_live(&queue) != 0 || !queue.core.live) return 56;
    if (!drops(&queue, 2, message(2, 10))) return 57;
    if (!shows(msgq_next_dropped(&queue), MSGQ_BARRIER, 0, 9)) return 58;
    if (!drops(&queue, 0, message(0, 10)) || !drops(&queue, 1, message(1, 10)) || !queue.core.live) return 59;
    if (!drops(&queue, 3, message(3, 10)) || queue.core.live || !nothing_left(&queue)) return 60;
    /* Two calls free all where the caller wants nothing of it. */
    if (!msgq_open(&queue) || !is(msgq_post(&queue, &m), MSGQ_DONE, 0)) return 61;
    if (!is(msgq_close(&queue), MSGQ_DONE, 1) || !is(msgq_close(&queue), MSGQ_NOT_OPEN, 0) || queue.core.live) return 62;
    return 0;
}

/* Each cause of a wake, and what is near to it and does not wake. */
static int waking(void)
{
    msgq_queue queue = MSGQ_CLOSED;
    msgq_message m = message(1, 5), passing = message(2, 6);
    passing.asynchronous = true;
    if (!msgq_open(&queue) || !is(msgq_post(&queue, &m), MSGQ_DONE, 0)) return 71;
    if (!takes(msgq_next(&queue, 5, false), 0, 5, m)) return 72;
    if (!is(msgq_barrier(&queue, 5), MSGQ_DONE, 0) || !is(msgq_barrier(&queue, 5), MSGQ_DONE, 1)) return 73;
    if (!shows(msgq_next(&queue, 5, false), MSGQ_WAIT_FOREVER, 0, 0)) return 82;
    /* Behind the barriers: one that they hold back, the first that they let pass, and one more. */
    if (!is(msgq_post(&queue, &m), MSGQ_DONE, 1) || !wakes(msgq_post(&queue, &passing), 2)) return 74;
    passing.when = 7;
    if (!is(msgq_post(&queue, &passing), MSGQ_DONE, 3)) return 75;
    /* A barrier that goes wakes where a message comes first then, or nothing, and not where a barrier does. */
    msgq_filter all = {.handler = 7};
    if (!is(msgq_remove_barrier(&queue, 0), MSGQ_DONE, 0) || !wakes(msgq_remove_barrier(&queue, 1), 0)) return 76;
    if (!is(msgq_remove(&queue, &all), MSGQ_DONE, 3)) return 77;
    if (!is(msgq_barrier(&queue, 5), MSGQ_DONE, 2) || !wakes(msgq_remove_barrier(&queue, 2), 0)) return 78;
    if (!wakes(msgq_quit(&queue, false, 5), 0) || !is(msgq_barrier(&queue, 5), MSGQ_DONE, 3)) return 79;
    if (!is(msgq_remove_barrier(&queue, 3), MSGQ_DONE, 0)) return 80;
    return is(msgq_close(&queue), MSGQ_DONE, 3) && is(msgq_close(&queue), MSGQ_NOT_OPEN, 0) ? 0 : 81;
}

/* The place of a quit counts the calls before it. */
static int quitting(void)
{
    msgq_queue queue = MSGQ_CLOSED;
    msgq_message m = message(1, 1);
    if (!msgq_open(&queue)) return 91;
    for (uint32_t i = 0; i < 1000; i++) {
        if (!is(msgq_post(&queue, &m), MSGQ_DONE, i)) return 92;
    }
    if (!wakes(msgq_quit(&queue, true, 1), 0)) return 94;
    if (!is(msgq_post(&queue, &m), MSGQ_REFUSED, 1000) || !is(msgq_quit(&queue, true, 1), MSGQ_ALREADY_QUIT, 1000)) return 95;
    if (!is(msgq_close(&queue), MSGQ_DONE, 1000)) return 96;
    for (uint32_t i = 0; i < 1000; i++) {
        if (!drops(&queue, i, m)) return 97;
    }
    return queue.core.live ? 98 : 0;
}

int main(void)
{
    int wrong = closed_calls();
    if (wrong == 0) wrong = closing();
    if (wrong == 0) wrong = waking();
    if (wrong == 0) wrong = quitting();
    if (wrong != 0) return wrong;
    msgq_queue queue = MSGQ_CLOSED;
    if (!msgq_open(&queue) || !queue.core.live) return 1;
    if (!shows(msgq_next(&queue, 10, false), MSGQ_WAIT_FOREVER, 0, 0)) return 2;
    /* The first message wakes the looper that waits, a later one does not. */
    msgq_message first = message_with(1, 20, 99), second = message(2, 30);
    if (!wakes(msgq_post(&queue, &first), 0)) return 3;
    if (!is(msgq_post(&queue, &second), MSGQ_DONE, 1)) return 4;
    if (!shows(msgq_next(&queue, 15, true), MSGQ_IDLE, 0, 0)) return 5;
    if (!shows(msgq_next(&queue, 15, false), MSGQ_WAIT, 0, 20)) return 6;
    /* One at the front goes first, whatever its time. */
    msgq_message front = message(3, 25);
    if (!wakes(msgq_post_at_front(&queue, &front), 2)) return 7;
    if (!takes(msgq_next(&queue, 20, false), 2, 20, message(3, 0))) return 8;
    if (!takes(msgq_next(&queue, 20, false), 0, 20, first)) return 9;
    /* A barrier holds back what is not asynchronous. A callback keeps its `what`, and is found by it. */
    if (!is(msgq_barrier(&queue, 22), MSGQ_DONE, 0)) return 10;
    msgq_message callback = message(4, 26);
    callback.asynchronous = true;
    callback.has_callback = true;
    callback.callback = 5;
    if (!is(msgq_post(&queue, &callback), MSGQ_DONE, 3)) return 11;
    msgq_filter by_what = {.handler = 7, .by_what = true, .what = 4}, by_callback = {.handler = 7, .by_callback = true, .callback = 5};
    if (!msgq_has(&queue, &by_what) || !msgq_has(&queue, &by_callback)) return 12;
    if (!takes(msgq_next(&queue, 40, false), 3, 40, callback)) return 13;
    if (!shows(msgq_next(&queue, 40, false), MSGQ_WAIT_FOREVER, 0, 0)) return 14;
    if (!is(msgq_remove_barrier(&queue, 8), MSGQ_NOT_POSTED, 0)) return 15;
    if (!wakes(msgq_remove_barrier(&queue, 0), 0)) return 16;
    /* Removal by what, by object and of all. */
    for (uint32_t what = 5; what < 9; what++) {
        msgq_message m = what < 7 ? message(what, 50) : message_with(what, 50, 1);
        if (!is(msgq_post(&queue, &m), MSGQ_DONE, what - 1)) return 17;
    }
    by_what.what = 5;
    if (!msgq_has(&queue, &by_what) || !is(msgq_remove(&queue, &by_what), MSGQ_DONE, 1) || msgq_has(&queue, &by_what)) return 18;
    msgq_filter with_obj = {.handler = 7, .has_obj = true, .obj = 1}, other = {.handler = 8};
    if (!is(msgq_remove(&queue, &with_obj), MSGQ_DONE, 2)) return 19;
    if (!is(msgq_remove(&queue, &other), MSGQ_DONE, 0)) return 20;
    if (!drops(&queue, 4, message(5, 50)) || !drops(&queue, 6, message_with(7, 50, 1))) return 21;
    if (!drops(&queue, 7, message_with(8, 50, 1)) || !nothing_left(&queue)) return 22;
    /* What is left are 2 at 30 and 6 at 50: a safe quit at 40 drops the second. It is the eighteenth call that is recorded. */
    if (!wakes(msgq_quit(&queue, true, 40), 1) || !drops(&queue, 5, message(6, 50))) return 23;
    if (!is(msgq_quit(&queue, false, 40), MSGQ_ALREADY_QUIT, 17)) return 24;
    if (!is(msgq_post(&queue, &first), MSGQ_REFUSED, 17)) return 25;
    if (!takes(msgq_next(&queue, 40, false), 1, 40, second)) return 26;
    /* A barrier after the quit is left behind, and dropped at the end. */
    if (!is(msgq_barrier(&queue, 41), MSGQ_DONE, 1)) return 27;
    if (!shows(msgq_next(&queue, 42, false), MSGQ_END, 1, 0)) return 28;
    if (!shows(msgq_next_dropped(&queue), MSGQ_BARRIER, 1, 41)) return 29;
    if (!shows(msgq_next(&queue, 42, false), MSGQ_OVER, 0, 0) || msgq_live(&queue) != 0) return 30;
    if (!is(msgq_close(&queue), MSGQ_DONE, 0) || queue.core.live) return 31;
    if (sizeof(msgq_message) != 40 || sizeof(msgq_filter) != 32 || sizeof(msgq_answer) != 16 || sizeof(msgq_look) != 64) return 32;
    return sizeof(msgq_core) == 16 && sizeof(msgq_queue) == 40 && sizeof(msgq_memory) == 16 ? 0 : 33;
}
