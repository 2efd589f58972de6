/* long_run MESSAGES FRAMES: a loop handles so many messages, of two posting threads, and runs so many frames, each with callbacks
 * in four phases that post themselves again; and so many callbacks as messages are posted and removed with no frame among them. Tells how much memory the libraries hold on the way. Exits with 0 where nothing is
 * lost, they never hold more than half as much again as they did at most in the first tenth, and all is given back at the end. */
#include "check.h"
#include "counting_heap.h"
#include "frame_phases.h"
#include "message_loop_posix.h"

#include <inttypes.h>
#include <pthread.h>
#include <sched.h>
#include <string.h>

static uint64_t messages, frames_wanted, taken, frames_run;
static size_t most_before, most_since;
static mlp_loop *loop;
static mlp_handler handler;
static atomic_uint_fast64_t waiting;

static void look_at_memory(uint64_t done, uint64_t all)
{
    size_t now = in_use, *largest = done <= all / 10 ? &most_before : &most_since;
    if (now > *largest) *largest = now;
}

static void handle(mlp_handler *self, const mlp_message *message)
{
    (void)self, (void)message;
    waiting--;
    look_at_memory(++taken, messages);
    if (taken == messages) mlp_quit(loop, true);
}

static void *post(void *user)
{
    uint64_t n = *(uint64_t *)user;
    for (uint64_t i = 0; i < n; i++) {
        while (waiting > 64) sched_yield();
        waiting++;
        CHECK(mlp_send_delayed(&handler, 1, (uint32_t)i, NULL, i % 3 == 0));
    }
    return NULL;
}

static void frame(uint64_t frame_time, void *user)
{
    uint32_t phase = (uint32_t)(uintptr_t)user;
    (void)frame_time;
    if (phase == MLP_PHASE_TRAVERSAL) {
        look_at_memory(++frames_run, frames_wanted);
        if (frames_run >= frames_wanted) {
            mlp_quit(loop, true);
            return;
        }
    }
    CHECK(mlp_on_frame(loop, phase, frame, user));
}

/* The display's vsync, which comes at once: frames as fast as they run. */
static mlp_handler display;

static void vsync(mlp_handler *self, const mlp_message *message)
{
    (void)self, (void)message;
    mlp_vsync(loop, mlp_now_ns());
}

static void ask(void *user)
{
    (void)user;
    CHECK(mlp_send(&display, 0, 0, NULL));
}

static void tell(const char *what, uint64_t n, uint64_t from)
{
    double seconds = (double)(mlp_now_ns() - from) / 1e9;
    printf("%" PRIu64 " %s in %.1f s, %.2f us each; in use at most %zu bytes in the first tenth, %zu since\n", n, what, seconds, seconds * 1e6 / (double)n,
           most_before, most_since);
    CHECK(most_since <= most_before + most_before / 2);
    most_before = most_since = 0;
}

/* Callbacks that are posted and removed while no frame runs. */
static void removals(void)
{
    mloop_frames frames = MLOOP_FRAMES_CLOSED;
    CHECK(mloop_frame_open(&frames, 1000, MLP_PHASES));
    uint64_t from = mlp_now_ns();
    for (uint64_t i = 0; i < messages; i++) {
        mloop_callback callback = {.due = UINT64_MAX, .id = i};
        CHECK(mloop_frame_post(&frames, &callback, 0).kind == MLOOP_FRAME_LATER && mloop_frame_remove(&frames, &callback).number == 1);
        look_at_memory(i, messages);
    }
    tell("removals", messages, from);
    CHECK(mloop_frame_close(&frames).kind == MLOOP_FRAME_CLOSED && in_use == 0 && blocks == 0);
}

int main(int argc, char **argv)
{
    messages = argc > 1 ? strtoull(argv[1], NULL, 10) : 100000;
    frames_wanted = argc > 2 ? strtoull(argv[2], NULL, 10) : 1000;
    if (messages != 0) {
        loop = mlp_new(0);
        handler = (mlp_handler){.handle = handle};
        CHECK(loop != NULL && mlp_handler_open(loop, &handler));
        uint64_t from = mlp_now_ns(), half = messages / 2, rest = messages - half;
        pthread_t threads[2];
        pthread_create(&threads[0], NULL, post, &half);
        pthread_create(&threads[1], NULL, post, &rest);
        mlp_run(loop);
        for (int i = 0; i < 2; i++) pthread_join(threads[i], NULL);
        CHECK(taken == messages);
        tell("messages", messages, from);
        mlp_free(loop);
        CHECK(in_use == 0 && blocks == 0);
        removals();
    }
    if (frames_wanted != 0) {
        loop = mlp_new(1000);
        display = (mlp_handler){.handle = vsync, .asynchronous = true};
        CHECK(loop != NULL && mlp_handler_open(loop, &display));
        CHECK(mlp_use_vsync(loop, ask, NULL));
        uint64_t from = mlp_now_ns();
        for (uintptr_t phase = 0; phase <= MLP_PHASE_TRAVERSAL; phase++) CHECK(mlp_on_frame(loop, (uint32_t)phase, frame, (void *)phase));
        mlp_run(loop);
        CHECK(frames_run == frames_wanted);
        tell("frames", frames_wanted, from);
        mlp_free(loop);
        CHECK(in_use == 0 && blocks == 0);
    }
    return 0;
}
