/* A queue's history as text, written as its calls are made: each function makes one call of message_queue.h, and writes what it was and
 * what it answered as one line. With `trace` NULL, or its `log` NULL, it makes the call alone. `msgq_trace_finish` makes of the lines
 * a trace, which `dashboard check` judges: by a proved program, whether some queue that keeps to the rules could have had this history.
 *
 * The lines are written under the queue's lock. They are whole where the program ends in the middle of a run, so a device that failed
 * can be judged too. Begin with a queue that was just opened. This file is C, tested and not proved. */
#ifndef MESSAGE_TRACE_H
#define MESSAGE_TRACE_H

#include "message_queue.h"

#include <inttypes.h>
#include <stdio.h>

#ifdef __cplusplus
extern "C" {
#endif

typedef struct {
    FILE *log;
    uint64_t entries; /* counted without a log too */
} msgq_trace;

/* The call's sender and number, and whether it is written. All calls are one sender's. */
static inline bool msgq_trace_begin(msgq_trace *trace, bool is_entry)
{
    if (!trace || !is_entry) return false;
    trace->entries++;
    return trace->log && fprintf(trace->log, "0 %" PRIu64 " ", trace->entries - 1) > 0;
}

static inline void msgq_trace_optional(msgq_trace *trace, bool has, uint64_t number)
{
    if (has) fprintf(trace->log, "%" PRIu64 " ", number);
    else fprintf(trace->log, "- ");
}

static inline void msgq_trace_message(msgq_trace *trace, const msgq_message *m, uint64_t when, msgq_answer answer)
{
    if (!msgq_trace_begin(trace, answer.kind == MSGQ_DONE || answer.kind == MSGQ_REFUSED)) return;
    fprintf(trace->log, "post %" PRIu32 " %" PRIu32 " %" PRIu32 " ", m->handler, m->what, m->arg);
    msgq_trace_optional(trace, m->has_obj, m->obj);
    msgq_trace_optional(trace, m->has_callback, m->callback);
    fprintf(trace->log, "%" PRIu64 " %c - %s %" PRIu64 "\n", when, m->asynchronous ? 'a' : 's', answer.kind == MSGQ_DONE ? "accepted" : "refused", answer.number);
}

static inline MSGQ_USE_ANSWER msgq_answer msgq_traced_post(msgq_trace *trace, msgq_queue *queue, const msgq_message *message)
{
    msgq_answer answer = msgq_post(queue, message);
    if (message) msgq_trace_message(trace, message, message->when, answer);
    return answer;
}

static inline MSGQ_USE_ANSWER msgq_answer msgq_traced_post_at_front(msgq_trace *trace, msgq_queue *queue, const msgq_message *message)
{
    msgq_answer answer = msgq_post_at_front(queue, message);
    if (message) msgq_trace_message(trace, message, 0, answer);
    return answer;
}

/* The moment of a barrier, a quit, a message that was taken or an end is the one that the queue used: its time then. */
static inline msgq_answer msgq_traced_barrier(msgq_trace *trace, msgq_queue *queue, uint64_t now)
{
    msgq_answer answer = msgq_barrier(queue, now);
    if (msgq_trace_begin(trace, answer.kind == MSGQ_DONE))
        fprintf(trace->log, "barrier %" PRIu64 " token %" PRIu64 "\n", msgq_time(queue), answer.number);
    return answer;
}

static inline MSGQ_USE_ANSWER msgq_answer msgq_traced_remove_barrier(msgq_trace *trace, msgq_queue *queue, uint64_t token)
{
    msgq_answer answer = msgq_remove_barrier(queue, token);
    if (msgq_trace_begin(trace, answer.kind == MSGQ_DONE || answer.kind == MSGQ_NOT_POSTED))
        fprintf(trace->log, "unbarrier %" PRIu64 " %s\n", token, answer.kind == MSGQ_DONE ? "unbarriered" : "not-posted");
    return answer;
}

static inline msgq_answer msgq_traced_remove(msgq_trace *trace, msgq_queue *queue, const msgq_filter *filter)
{
    msgq_answer answer = msgq_remove(queue, filter);
    if (!msgq_trace_begin(trace, answer.kind == MSGQ_DONE)) return answer;
    fprintf(trace->log, "remove %" PRIu32 " ", filter->handler);
    if (filter->by_what) fprintf(trace->log, "what %" PRIu32 " ", filter->what);
    else if (filter->by_callback) fprintf(trace->log, "callback %" PRIu64 " ", filter->callback);
    else fprintf(trace->log, "all ");
    msgq_trace_optional(trace, filter->has_obj, filter->obj);
    fprintf(trace->log, "removed %" PRIu64 "\n", answer.number);
    return answer;
}

static inline MSGQ_USE_ANSWER msgq_answer msgq_traced_quit(msgq_trace *trace, msgq_queue *queue, bool safe, uint64_t now)
{
    msgq_answer answer = msgq_quit(queue, safe, now);
    if (!msgq_trace_begin(trace, answer.kind == MSGQ_DONE || answer.kind == MSGQ_ALREADY_QUIT)) return answer;
    fprintf(trace->log, "quit %s %" PRIu64 " ", safe ? "safe" : "plain", msgq_time(queue));
    if (answer.kind == MSGQ_DONE) fprintf(trace->log, "quit-done\n");
    else fprintf(trace->log, "already-quit %" PRIu64 "\n", answer.number);
    return answer;
}

/* A look that finds nothing is no entry. */
static inline msgq_look msgq_traced_next(msgq_trace *trace, msgq_queue *queue, uint64_t now, bool idle_owed)
{
    msgq_look look = msgq_next(queue, now, idle_owed);
    if (!msgq_trace_begin(trace, look.kind == MSGQ_TAKEN || look.kind == MSGQ_END)) return look;
    fprintf(trace->log, "next %" PRIu64 " ", msgq_time(queue));
    if (look.kind == MSGQ_TAKEN) fprintf(trace->log, "dispatched %" PRIu64 "\n", look.number);
    else fprintf(trace->log, "disposed\n");
    return look;
}

/* Makes the trace of a log's whole lines, from its beginning on. False where one of the files can't be read or written. */
static inline bool msgq_trace_finish(FILE *log, FILE *to)
{
    char line[256];
    uint64_t entries = 0;
    rewind(log);
    for (int c = getc(log); c != EOF; c = getc(log)) entries += c == '\n';
    rewind(log);
    fprintf(to, "trace 1\nqueue 0 side free 1 %" PRIu64 "\n", entries);
    for (; entries > 0 && fgets(line, sizeof line, log); entries--) fputs(line, to);
    fprintf(to, "end\n");
    return !ferror(log) && !ferror(to) && fflush(to) == 0;
}

#ifdef __cplusplus
}
#endif

#endif
