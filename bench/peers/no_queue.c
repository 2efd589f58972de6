/* A count in the place of a queue, under the same mutex: what the lock, the clock and the program's own loop cost. */
#include "locked.h"

static uint64_t count;
static bool blocked;

static bool open_queue(void)
{
    return true;
}

static msgq_answer post(const msgq_message *message)
{
    msgq_answer answer = {0};
    (void)message;
    answer.wake = blocked && count == 0;
    count++;
    return answer;
}

static msgq_look next(uint64_t now)
{
    msgq_look look = {.kind = MSGQ_TAKEN};
    (void)now;
    blocked = count == 0;
    if (blocked) {
        look.kind = MSGQ_WAIT_FOREVER;
    } else {
        count--;
        look.message.what = 1;
    }
    return look;
}

static void taken(void)
{
}
