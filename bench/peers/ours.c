/* The proved queue under a mutex. */
#include "locked.h"

static msgq_queue queue = MSGQ_CLOSED;

static bool open_queue(void)
{
    return msgq_open(&queue);
}

static msgq_answer post(const msgq_message *message)
{
    return msgq_post(&queue, message);
}

static msgq_look next(uint64_t now)
{
    return msgq_next(&queue, now, false);
}

static void taken(void)
{
}
