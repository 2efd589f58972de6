/* Plays random calls on a queue, and writes their history as a trace to the standard output, which `dashboard check` is to find legal. The
 * first argument is the seed, the second how many calls; with a third one the trace has one answer that no queue gives. */
#include "message_trace.h"

#include <stdlib.h>

static uint64_t state;

static uint32_t below(uint32_t limit)
{
    state = state * 6364136223846793005u + 1442695040888963407u;
    return (uint32_t)(state >> 33) % limit;
}

static void one_call(msgq_trace *trace, msgq_queue *queue, uint64_t now, uint64_t *barriers)
{
    msgq_message m = {.when = now + below(40), .handler = below(3), .what = below(4), .arg = below(9), .obj = below(3), .callback = below(3)};
    m.has_obj = below(2) == 0, m.has_callback = below(3) == 0, m.asynchronous = below(3) == 0;
    msgq_filter f = {.handler = below(3), .what = below(4), .obj = below(3), .callback = below(3)};
    f.by_what = below(2) == 0, f.by_callback = below(2) == 0, f.has_obj = below(2) == 0;
    uint32_t call = below(100);
    bool wake = false;
    if (call < 40) wake = msgq_traced_post(trace, queue, &m).wake;
    else if (call < 45) wake = msgq_traced_post_at_front(trace, queue, &m).wake;
    else if (call < 50) *barriers += msgq_traced_barrier(trace, queue, now - below(9)).kind == MSGQ_DONE;
    else if (call < 57) wake = msgq_traced_remove_barrier(trace, queue, below((uint32_t)*barriers + 1)).wake;
    else if (call < 60) msgq_traced_remove(trace, queue, &f);
    else msgq_traced_next(trace, queue, now, below(2) == 0);
    (void)wake;
}

int main(int words, char **word)
{
    if (words < 3) return 2;
    state = strtoull(word[1], NULL, 10);
    uint64_t calls = strtoull(word[2], NULL, 10), now = 100, barriers = 0;
    msgq_queue queue = MSGQ_CLOSED;
    msgq_trace trace = {tmpfile(), 0};
    if (trace.log == NULL || !msgq_open(&queue)) return 3;
    for (uint64_t i = 0; i < calls; i++) {
        now += below(5);
        one_call(&trace, &queue, now, &barriers);
        if (i == calls * 4 / 5 && msgq_traced_quit(&trace, &queue, true, now).kind != MSGQ_DONE) return 4;
        if (i == calls * 9 / 10 && msgq_traced_quit(&trace, &queue, false, now).kind != MSGQ_ALREADY_QUIT) return 5;
    }
    if (words > 3) fprintf(trace.log, "0 %llu next %llu dispatched 0\n", (unsigned long long)trace.entries, (unsigned long long)now);
    bool whole = msgq_trace_finish(trace.log, stdout);
    fclose(trace.log);
    msgq_close(&queue);
    return whole && msgq_close(&queue).kind == MSGQ_NOT_OPEN ? 0 : 6;
}
