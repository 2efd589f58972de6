/* A plain C list in order of time under a mutex, in the manner of AOSP's MessageQueue: an insertion walks from the head. */
#include "locked.h"

typedef struct node {
    struct node *next;
    msgq_message message;
} node;

static node *head;
static bool blocked;

static bool open_queue(void)
{
    return true;
}

static msgq_answer post(const msgq_message *message)
{
    msgq_answer answer = {0};
    node *fresh = malloc(sizeof *fresh);
    if (fresh == NULL) {
        answer.kind = MSGQ_NO_MEMORY;
        return answer;
    }
    fresh->message = *message;
    node **at = &head;
    if (message->when != 0) {
        while (*at != NULL && (*at)->message.when <= message->when) {
            at = &(*at)->next;
        }
    }
    answer.wake = blocked && at == &head;
    fresh->next = *at;
    *at = fresh;
    return answer;
}

static msgq_look next(uint64_t now)
{
    msgq_look look = {.kind = MSGQ_TAKEN};
    node *first = head;
    if (first != NULL && first->message.when <= now) {
        head = first->next;
        look.message = first->message;
        free(first);
        blocked = false;
        return look;
    }
    blocked = true;
    look.kind = first == NULL ? MSGQ_WAIT_FOREVER : MSGQ_WAIT;
    look.time = first == NULL ? 0 : first->message.when;
    return look;
}

static void taken(void)
{
}
