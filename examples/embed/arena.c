/* Forty messages wait in an arena of 64 KB, and as one is taken the next is posted, so often as the first argument says (a million). The
 * arena serves for ever; and where memory was reserved none is asked for once the queue runs. Exits with 0 where it is so. */
#include "message_queue.h"

#include <stdio.h>
#include <stdlib.h>

extern size_t arena_requests;

enum { WAITING = 40 };

static bool post(msgq_queue *queue, uint64_t when, uint32_t what)
{
    msgq_message message = {.when = when, .handler = what % 3, .what = what};
    return msgq_post(queue, &message).kind == MSGQ_DONE;
}

/* One is taken and one posted, with now and then a barrier and a removal, which drops the messages of a handler. */
static bool step(msgq_queue *queue, uint64_t i)
{
    uint64_t now = 1000 + i;
    msgq_look look = msgq_next(queue, now, false);
    if (look.kind != MSGQ_TAKEN || !post(queue, now + i * 7 % WAITING, look.message.what)) return false;
    if (i % 1000 != 0) return true;
    msgq_answer barrier = msgq_barrier(queue, now), gone = msgq_remove_barrier(queue, barrier.number);
    msgq_filter filter = {.handler = 1};
    msgq_answer removed = msgq_remove(queue, &filter);
    uint64_t count = 0;
    while (msgq_next_dropped(queue).kind == MSGQ_TAKEN) count += post(queue, now + count, 1);
    return barrier.kind == MSGQ_DONE && gone.kind == MSGQ_DONE && removed.number == count && count > 0;
}

static bool play(uint64_t steps, bool reserved)
{
    msgq_queue queue = MSGQ_CLOSED;
    if (!msgq_open(&queue)) return false;
    if (reserved && msgq_reserve(&queue, WAITING + 1).kind != MSGQ_DONE) return false;
    for (uint32_t what = 0; what < WAITING; what++) {
        if (!post(&queue, 1000 - what, what)) return false;
    }
    size_t requests = 0;
    for (uint64_t i = 0; i < steps; i++) {
        if (i == 2000) requests = arena_requests;
        if (!step(&queue, i)) return false;
    }
    requests = arena_requests - requests;
    printf("%s: %zu requests for memory in the last %lu steps\n", reserved ? "reserved" : "not reserved", requests, (unsigned long)steps - 2000);
    if (msgq_live(&queue) != WAITING || (reserved && requests != 0)) return false;
    return msgq_close(&queue).number == WAITING && msgq_close(&queue).kind == MSGQ_NOT_OPEN && !queue.core.live;
}

/* What a queue asks for at once and can't have is answered, and it goes on. */
static bool too_much(void)
{
    msgq_queue queue = MSGQ_CLOSED;
    if (msgq_reserve(&queue, 1).kind != MSGQ_NOT_OPEN || !msgq_open(&queue)) return false;
    if (msgq_reserve(&queue, 1000000).kind != MSGQ_NO_MEMORY) return false;
    /* All the arena's blocks are kept for messages now. */
    uint32_t posted = 0;
    while (post(&queue, 5, posted)) posted++;
    printf("%u messages fit\n", (unsigned)posted);
    return posted > 300 && msgq_live(&queue) == posted && msgq_close(&queue).number == posted && msgq_close(&queue).kind == MSGQ_NOT_OPEN;
}

int main(int words, char **word)
{
    uint64_t steps = words > 1 ? strtoull(word[1], NULL, 10) : 1000000;
    return play(steps, false) && play(steps, true) && too_much() && play(steps, true) ? 0 : 1;
}
