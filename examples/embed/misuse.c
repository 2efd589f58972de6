/* What a program does wrong is answered, and changes nothing: null pointers, a call in a call, a forgotten lock, a clock that once
 * reads wrong. Exits with the number of the first check that is wrong, or 0. */
#include "message_queue.h"

#include <pthread.h>
#include <stdio.h>
#include <stdlib.h>

/* The heap calls back into the queue where it is told to. */
static msgq_queue *called_back;
static unsigned busy;
static char nothing;

static void call_back(void)
{
    msgq_queue *queue = called_back;
    if (queue == NULL) return;
    msgq_message m = {.when = 1};
    msgq_filter all = {.handler = 0};
    busy += msgq_post(queue, &m).kind == MSGQ_BUSY;
    busy += msgq_next(queue, 1, false).kind == MSGQ_LOOK_BUSY;
    busy += msgq_next_dropped(queue).kind == MSGQ_LOOK_BUSY;
    busy += msgq_close(queue).kind == MSGQ_BUSY;
    busy += msgq_quit(queue, false, 1).kind == MSGQ_BUSY;
    busy += !msgq_open(queue) && !msgq_has(queue, &all) && msgq_live(queue) == 0 && msgq_time(queue) == 0;
}

msgq_memory rattle_alloc(size_t size, size_t align)
{
    call_back();
    void *at = malloc(size != 0 ? size : align);
    msgq_memory memory = {at != NULL, at != NULL ? at : &nothing};
    return memory;
}

msgq_memory rattle_realloc(void *at, size_t kept, size_t size, size_t align)
{
    (void)kept;
    void *to = realloc(at, size != 0 ? size : align);
    msgq_memory memory = {to != NULL, to != NULL ? to : &nothing};
    return memory;
}

void rattle_dealloc(void *at)
{
    call_back();
    free(at);
}

static bool is(msgq_answer answer, msgq_kind kind, uint64_t number)
{
    return answer.kind == kind && answer.number == number && !answer.wake;
}

/* A null pointer in each place of each call. */
static int null_pointers(void)
{
    msgq_queue queue = MSGQ_CLOSED;
    msgq_message m = {.when = 1};
    msgq_filter all = {.handler = 0};
    if (msgq_open(NULL) || !msgq_open(&queue)) return 1;
    if (!is(msgq_post(NULL, &m), MSGQ_NULL, 0) || !is(msgq_post(&queue, NULL), MSGQ_NULL, 0)) return 2;
    if (!is(msgq_post_at_front(NULL, &m), MSGQ_NULL, 0) || !is(msgq_post_at_front(&queue, NULL), MSGQ_NULL, 0)) return 3;
    if (!is(msgq_barrier(NULL, 1), MSGQ_NULL, 0) || !is(msgq_remove_barrier(NULL, 0), MSGQ_NULL, 0)) return 4;
    if (!is(msgq_remove(NULL, &all), MSGQ_NULL, 0) || !is(msgq_remove(&queue, NULL), MSGQ_NULL, 0)) return 5;
    if (msgq_has(NULL, &all) || msgq_has(&queue, NULL) || msgq_live(NULL) != 0 || msgq_time(NULL) != 0) return 6;
    if (msgq_next(NULL, 1, false).kind != MSGQ_LOOK_NULL || !is(msgq_quit(NULL, false, 1), MSGQ_NULL, 0)) return 7;
    if (msgq_next_dropped(NULL).kind != MSGQ_LOOK_NULL || !is(msgq_close(NULL), MSGQ_NULL, 0)) return 8;
    if (!is(msgq_limit(NULL, 0, 1), MSGQ_NULL, 0) || !is(msgq_reserve(NULL, 1), MSGQ_NULL, 0)) return 9;
    /* They left the queue as it was. */
    return is(msgq_post(&queue, &m), MSGQ_DONE, 0) && is(msgq_close(&queue), MSGQ_DONE, 1) && is(msgq_close(&queue), MSGQ_NOT_OPEN, 0) ? 0 : 10;
}

/* A heap that calls back: the queue is busy, and stays open. */
static int call_in_a_call(void)
{
    msgq_queue queue = MSGQ_CLOSED;
    msgq_message m = {.when = 1};
    if (!msgq_open(&queue)) return 21;
    called_back = &queue;
    msgq_answer posted = msgq_post(&queue, &m);
    called_back = NULL;
    if (busy != 6 || !is(posted, MSGQ_DONE, 0) || msgq_live(&queue) != 1) return 22;
    called_back = &queue;
    msgq_look taken = msgq_next(&queue, 1, false);
    called_back = NULL;
    if (busy != 12 || taken.kind != MSGQ_TAKEN || taken.number != 0) return 23;
    return is(msgq_close(&queue), MSGQ_DONE, 0) && !queue.core.live ? 0 : 24;
}

/* A lock that was forgotten: a call is done or busy, and no message is lost. */
static msgq_queue shared = MSGQ_CLOSED;

static void *post_without_lock(void *done)
{
    msgq_message m = {.when = 1};
    for (int i = 0; i < 20000; i++) {
        msgq_answer answer = msgq_post(&shared, &m);
        if (answer.kind == MSGQ_DONE) ++*(uint64_t *)done;
        else if (answer.kind != MSGQ_BUSY) exit(31);
    }
    return NULL;
}

static int forgotten_lock(void)
{
    static uint64_t done[4];
    pthread_t threads[4];
    if (!msgq_open(&shared)) return 32;
    for (int i = 0; i < 4; i++) pthread_create(&threads[i], NULL, post_without_lock, &done[i]);
    for (int i = 0; i < 4; i++) pthread_join(threads[i], NULL);
    uint64_t all = done[0] + done[1] + done[2] + done[3];
    printf("%u of 80000 posts without a lock were done, %u stand\n", (unsigned)all, (unsigned)msgq_live(&shared));
    if (all == 0 || msgq_live(&shared) != all) return 33;
    return is(msgq_close(&shared), MSGQ_DONE, all) && is(msgq_close(&shared), MSGQ_NOT_OPEN, 0) ? 0 : 34;
}

/* A reading that is far too great poisons the queue, but not where a limit is set. */
static int wrong_clock(void)
{
    msgq_queue queue = MSGQ_CLOSED;
    msgq_message m = {.when = 1000}, later = {.when = 6000};
    if (!is(msgq_limit(&queue, 1000, 10), MSGQ_NOT_OPEN, 0) || !msgq_open(&queue) || msgq_time(&queue) != 0) return 41;
    if (!is(msgq_limit(&queue, 900, 5000), MSGQ_DONE, 0)) return 42;
    if (!is(msgq_post(&queue, &m), MSGQ_DONE, 0) || !is(msgq_post(&queue, &later), MSGQ_DONE, 1)) return 43;
    if (msgq_next(&queue, 1000 * 1000000u, false).kind != MSGQ_LOOK_TOO_FAR || msgq_next(&queue, UINT64_MAX, true).kind != MSGQ_LOOK_TOO_FAR) return 44;
    if (!is(msgq_barrier(&queue, 5901), MSGQ_TOO_FAR, 0) || !is(msgq_quit(&queue, true, 5901), MSGQ_TOO_FAR, 0)) return 45;
    if (msgq_next(&queue, 1000, false).kind != MSGQ_TAKEN || msgq_time(&queue) != 1000) return 46;
    /* The limit goes along with the latest moment, also of a look that takes nothing. */
    if (msgq_next(&queue, 6001, false).kind != MSGQ_LOOK_TOO_FAR || msgq_next(&queue, 5999, false).kind != MSGQ_WAIT || msgq_time(&queue) != 1000) return 47;
    if (msgq_next(&queue, 10999, false).kind != MSGQ_TAKEN || msgq_time(&queue) != 10999) return 48;
    if (!is(msgq_limit(&queue, 0, 0), MSGQ_DONE, 0) || !is(msgq_barrier(&queue, UINT64_MAX), MSGQ_DONE, 0)) return 49;
    return is(msgq_close(&queue), MSGQ_DONE, 1) && is(msgq_close(&queue), MSGQ_NOT_OPEN, 0) ? 0 : 50;
}

int main(void)
{
    int wrong = null_pointers();
    if (wrong == 0) wrong = call_in_a_call();
    if (wrong == 0) wrong = forgotten_lock();
    if (wrong == 0) wrong = wrong_clock();
    return wrong;
}
