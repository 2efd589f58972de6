/* Runs a loop with threads that send, a handler, calls, frames, barriers and a safe quit, and writes the history of its queue as a trace to the
 * standard output, which `dashboard check` is to find legal. */
#include "check.h"
#include "message_loop_posix.h"
#include "message_trace.h"

#include <pthread.h>

enum { SENDS = 200, SENDERS = 3 };

static unsigned handled, frames;
static mlp_loop *loop;
static mlp_handler handler, passing;

static void handle(mlp_handler *self, const mlp_message *message)
{
    handled++;
    if (message->what == SENDS) mlp_quit(self->loop, true);
    uint64_t token;
    if (message->what % 50 == 7 && mlp_barrier(loop, &token)) mlp_send(&passing, 1000, (uint32_t)token, NULL);
    if (message->what == 1000) mlp_unbarrier(loop, message->arg);
    if (message->what % 9 == 0) mlp_remove(self, message->what + 1);
}

static void frame(uint64_t frame_time, void *user)
{
    (void)frame_time;
    if (++frames < 20) mlp_on_frame(loop, MLP_PHASE_ANIMATION, frame, user);
}

static void *send_all(void *user)
{
    for (uint32_t i = 0; i < SENDS; i++) {
        if (i % 11 == 0) mlp_send_front(&handler, i, 0, NULL);
        else mlp_send_delayed(i % 5 == 0 ? &passing : &handler, i, 1, user, i % 4);
    }
    return NULL;
}

int main(void)
{
    pthread_t threads[SENDERS];
    FILE *log = tmpfile();
    loop = mlp_new(1000000);
    handler.handle = passing.handle = handle;
    passing.asynchronous = true;
    CHECK(log != NULL && loop != NULL && mlp_trace(loop, log) && mlp_handler_open(loop, &handler) && mlp_handler_open(loop, &passing));
    CHECK(mlp_on_frame(loop, MLP_PHASE_ANIMATION, frame, NULL));
    for (int i = 0; i < SENDERS; i++) pthread_create(&threads[i], NULL, send_all, &handler);
    for (int i = 0; i < SENDERS; i++) pthread_join(threads[i], NULL);
    CHECK(!mlp_trace(loop, log) && !mlp_trace(NULL, log) && mlp_send_delayed(&handler, SENDS, 0, NULL, 60));
    mlp_run(loop);
    CHECK(handled > SENDS && !mlp_send(&handler, 1, 0, NULL));
    mlp_free(loop);
    CHECK(msgq_trace_finish(log, stdout) && fclose(log) == 0);
    return 0;
}
