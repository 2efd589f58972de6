/* What the files of the loop in C share, and is no part of its interface: the loop, and how its parts stand beside it. Frames
 * (message_loop_frames.c) and idle handlers with descriptors (message_loop_sources.c) are its parts. Each is made by the first call that
 * wants it, so a program that makes no such call links none of it. */
#ifndef MESSAGE_LOOP_PARTS_H
#define MESSAGE_LOOP_PARTS_H

#include "message_loop_system.h"

#include "loop_next.h"
#include "message_loop_posix.h"
#include "message_trace.h"

/* What the loop has a part do, in the loop's thread and without the lock. */
typedef struct {
    void (*take)(mlp_loop *loop); /* takes what came: a pulse, or events */
    void (*run)(mlp_loop *loop);  /* a step of the loop: a frame, or an idle turn */
    void (*end)(mlp_loop *loop);
} mlp_part;

struct mlp_loop {
    mlp_system system; /* its lock is round all that follows, up to `sources` */
    msgq_queue queue;
    msgq_trace trace;
    mlp_handler **handlers; /* that of the number N stands at N - 1; NULL where it was closed */
    uint32_t handler_count;
    mlp_handler own; /* has the number 0, and is for the messages of frames */
    uint64_t interval;
    uint64_t until; /* until when the loop waits, or is about to, in nanoseconds; 0: it does not */
    mloop_situation next; /* by which the table is asked; frames write the pulse and `frame_owed`, sources, without the lock, `events` */
    mlp_part *frames;     /* NULL: no call wanted them yet */
    mlp_part *sources;    /* the loop's thread alone, as the next one */
    int watched;          /* how many descriptors */
};

/* Takes the lock, where there is a loop. */
static inline bool mlp_lock(mlp_loop *loop)
{
    return loop != NULL && pthread_mutex_lock(&loop->system.lock) == 0;
}

static inline void mlp_unlock(mlp_loop *loop)
{
    pthread_mutex_unlock(&loop->system.lock);
}

#endif
