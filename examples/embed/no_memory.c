/* Lets each allocation fail in turn: the call answers MSGQ_NO_MEMORY and changes nothing, so the same call made again has the
 * answer that it has with ample memory, and the same messages come. Exits with 0 where it does. */
#include "message_queue.h"

#include <stdio.h>
#include <stdlib.h>

static long countdown;
static unsigned refused;
static char nothing;

static bool fails(void)
{
    return countdown-- == 0;
}

static msgq_memory told(void *at)
{
    msgq_memory memory = {at != NULL, at != NULL ? at : &nothing};
    return memory;
}

msgq_memory rattle_alloc(size_t size, size_t align)
{
    return told(fails() ? NULL : malloc(size != 0 ? size : align));
}

msgq_memory rattle_realloc(void *at, size_t kept, size_t size, size_t align)
{
    (void)kept;
    return told(fails() ? NULL : realloc(at, size != 0 ? size : align));
}

void rattle_dealloc(void *at)
{
    free(at);
}

/* Whether the call is to be made again. */
static bool again(msgq_answer answer)
{
    bool want = answer.kind == MSGQ_NO_MEMORY && answer.number == 0 && !answer.wake;
    refused += want;
    return want;
}

static bool done(msgq_answer answer, uint64_t number)
{
    return answer.kind == MSGQ_DONE && answer.number == number;
}

/* The messages that are taken, and then those that are handed out, by their `what`. */
static const uint32_t takes[] = {0, 3, 6, 9, 1, 4, 7, 10, 2, 8, 11}, drops[] = {5, 99};

enum { TAKES = sizeof takes / sizeof *takes, DROPS = sizeof drops / sizeof *drops };

static bool play(void)
{
    msgq_queue queue = MSGQ_CLOSED;
    msgq_answer answer;
    while (!msgq_open(&queue)) {
        refused++;
        if (queue.core.live) return false;
    }
    for (uint32_t what = 0; what < 12; what++) {
        msgq_message message = {.when = 10 + what % 3, .handler = what % 2, .what = what};
        do {
            answer = msgq_post(&queue, &message);
        } while (again(answer));
        if (!done(answer, what)) return false;
    }
    do {
        answer = msgq_barrier(&queue, 11);
    } while (again(answer));
    if (!done(answer, 0)) return false;
    msgq_filter filter = {.handler = 1, .by_what = true, .what = 5};
    do {
        answer = msgq_remove(&queue, &filter);
    } while (again(answer));
    if (!done(answer, 1)) return false;
    do {
        answer = msgq_remove_barrier(&queue, 0);
    } while (again(answer));
    if (!done(answer, 0)) return false;
    for (int i = 0; i < TAKES; i++) {
        msgq_look look = msgq_next(&queue, 20, false);
        if (look.kind != MSGQ_TAKEN || look.number != takes[i] || look.message.what != takes[i]) return false;
    }
    if (msgq_next(&queue, 20, false).kind != MSGQ_WAIT_FOREVER) return false;
    /* What was removed and what a post leaves is handed out without memory. */
    do {
        msgq_message message = {.when = 30, .what = 99};
        answer = msgq_post(&queue, &message);
    } while (again(answer));
    msgq_filter last = {.by_what = true, .what = 99};
    if (!done(answer, 12) || !msgq_has(&queue, &last) || msgq_live(&queue) != 1) return false;
    if (!done(msgq_quit(&queue, true, 30), 0) || !done(msgq_close(&queue), DROPS)) return false;
    for (int i = 0; i < DROPS; i++) {
        msgq_look look = msgq_next_dropped(&queue);
        if (look.kind != MSGQ_TAKEN || look.message.what != drops[i]) return false;
    }
    return msgq_next_dropped(&queue).kind == MSGQ_NOTHING_LEFT && !queue.core.live;
}

int main(void)
{
    countdown = -1;
    if (!play()) {
        return 1;
    }
    long allocations = 0;
    do {
        countdown = allocations++;
        if (!play()) {
            return 2;
        }
    } while (countdown < 0);
    printf("%ld allocations, %u failures answered\n", allocations - 1, refused);
    return refused == allocations - 1 ? 0 : 3;
}
