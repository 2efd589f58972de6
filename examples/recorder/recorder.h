/* Writes what happens on a message queue as a trace, which `dashboard check` holds against the rules (docs/TRACE.md). Copy it into your
 * program: it needs C11 with POSIX, or C++. Record each call on the queue by one call here, under the queue's lock, in the order in which the
 * calls took effect, and no look that found nothing. Moments are milliseconds, senders are your threads, counted from 0, and handlers,
 * callbacks and objects are numbered by you. */
#ifndef RECORDER_H
#define RECORDER_H

#include <inttypes.h>
#include <stdbool.h>
#include <stdio.h>
#include <stdlib.h>
#include <string.h>

enum { RECORDER_SENDERS = 64 };

typedef struct {
    FILE *entries; /* the lines of the entries, kept in memory, since their number stands before them */
    char *text;
    size_t size;
    uint64_t made[RECORDER_SENDERS], count, posts, barriers, quit;
    unsigned looper, senders;
    bool is_main;
} recorder;

typedef struct {
    uint64_t when, obj, callback; /* `when` is 0 at the front of the queue */
    unsigned handler, what, arg;
    bool has_obj, has_callback, asynchronous;
} recorded_post;

/* An empty queue of the looper of this number; `is_main` where it may not quit; at most RECORDER_SENDERS senders. */
static inline void recorder_open(recorder *r, unsigned looper, bool is_main, unsigned senders)
{
    memset(r, 0, sizeof *r);
    r->looper = looper, r->is_main = is_main, r->senders = senders;
    r->entries = open_memstream(&r->text, &r->size);
    if (r->entries == NULL || senders > RECORDER_SENDERS) abort();
}

static inline FILE *recorder_line(recorder *r, unsigned sender)
{
    r->count++;
    fprintf(r->entries, "%u %" PRIu64 " ", sender, r->made[sender]++);
    return r->entries;
}

/* A post, and whether the queue took it. Answers its number, by which its dispatch is told. */
static inline uint64_t recorder_post(recorder *r, unsigned sender, const recorded_post *p, bool accepted)
{
    FILE *out = recorder_line(r, sender);
    char obj[24] = "-", callback[24] = "-";
    if (p->has_obj) snprintf(obj, sizeof obj, "%" PRIu64, p->obj);
    if (p->has_callback) snprintf(callback, sizeof callback, "%" PRIu64, p->callback);
    fprintf(out, "post %u %u %u %s %s %" PRIu64 " %c - ", p->handler, p->what, p->arg, obj, callback, p->when, p->asynchronous ? 'a' : 's');
    fprintf(out, "%s %" PRIu64 "\n", accepted ? "accepted" : "refused", accepted ? r->posts : r->quit);
    return accepted ? r->posts++ : UINT64_MAX;
}

/* The message of this number was taken at `now`; or a look at `now` found that the queue is over. */
static inline void recorder_dispatch(recorder *r, unsigned sender, uint64_t now, uint64_t number)
{
    fprintf(recorder_line(r, sender), "next %" PRIu64 " dispatched %" PRIu64 "\n", now, number);
}
static inline void recorder_over(recorder *r, unsigned sender, uint64_t now) { fprintf(recorder_line(r, sender), "next %" PRIu64 " disposed\n", now); }

/* So many messages of the handler were removed. `which` is `what W`, `callback C` or `all`, and an object or `-`: `what 3 -`. */
static inline void recorder_remove(recorder *r, unsigned sender, unsigned handler, const char *which, uint64_t removed)
{
    fprintf(recorder_line(r, sender), "remove %u %s removed %" PRIu64 "\n", handler, which, removed);
}

/* A barrier: answers its token in the trace. Its removal, and whether it was there. */
static inline uint64_t recorder_barrier(recorder *r, unsigned sender, uint64_t now)
{
    fprintf(recorder_line(r, sender), "barrier %" PRIu64 " token %" PRIu64 "\n", now, r->barriers);
    return r->barriers++;
}
static inline void recorder_unbarrier(recorder *r, unsigned sender, uint64_t token, bool was)
{
    fprintf(recorder_line(r, sender), "unbarrier %" PRIu64 " %s\n", token, was ? "unbarriered" : "not-posted");
}

/* A quit, and whether it took effect. */
static inline void recorder_quit(recorder *r, unsigned sender, bool safe, uint64_t now, bool done)
{
    FILE *out = recorder_line(r, sender);
    fprintf(out, "quit %s %" PRIu64 " ", safe ? "safe" : "plain", now);
    if (done) r->quit = r->count - 1;
    if (done || r->is_main) fprintf(out, "%s\n", done ? "quit-done" : "not-allowed");
    else fprintf(out, "already-quit %" PRIu64 "\n", r->quit);
}

/* Writes the queue's part of a trace, and frees it. Before the first queue goes the line `trace 1`, behind the last the line `end`. */
static inline void recorder_print(recorder *r, FILE *out)
{
    fclose(r->entries);
    fprintf(out, "queue %u %s free %u %" PRIu64 "\n%s", r->looper, r->is_main ? "main" : "side", r->senders, r->count, r->text);
    free(r->text);
}
#endif
