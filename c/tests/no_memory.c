/* Refuses each N-th request for memory, for N from 1 to 60, in a loop with messages, frames and idle handlers: each call is answered,
 * what was accepted comes, nothing hangs, and all memory is given back. And a loop that reserved memory is refused each request, and
 * makes none. Exits with 0 where it is so. */
#include "check.h"
#include "counting_heap.h"
#include "message_loop_posix.h"

static unsigned accepted, handled, freed, frames, accepted_frames, idles;

static void handle(mlp_handler *self, const mlp_message *message)
{
    (void)self;
    handled++;
    free(message->obj);
}

static void let_go(void *obj)
{
    freed++;
    free(obj);
}

static void frame(uint64_t frame_time, void *user)
{
    (void)frame_time, (void)user;
    frames++;
}

static bool idle(void *user)
{
    (void)user;
    idles++;
    return true;
}

/* Whether the loop could be opened. */
static bool play(unsigned long each)
{
    accepted = handled = freed = frames = accepted_frames = idles = 0;
    fail_each = each;
    mlp_loop *loop = mlp_new(1000000);
    mlp_handler handler = {.handle = handle, .let_go = let_go};
    if (loop == NULL) {
        CHECK(blocks == 0);
        return false;
    }
    CHECK(mlp_handler_open(loop, &handler));
    mlp_on_idle(loop, idle, NULL);
    for (unsigned i = 0; i < 60; i++) {
        void *obj = malloc(1);
        if (mlp_send_delayed(&handler, i, 0, obj, i % 7)) accepted++;
        else free(obj);
        if (i % 3 == 0) accepted_frames += i % 2 == 0 ? mlp_on_frame(loop, i % MLP_PHASES, frame, NULL) : mlp_on_frame_delayed(loop, i % MLP_PHASES, frame, NULL, 5);
    }
    uint64_t end = mlp_now() + 3000;
    while ((handled < accepted || frames < accepted_frames) && mlp_now() < end) CHECK(mlp_run_once(loop, false) >= 0);
    CHECK(handled == accepted && frames == accepted_frames && freed == 0);
    void *last = malloc(1);
    if (mlp_send_delayed(&handler, 0, 0, last, 100000)) accepted++;
    else free(last);
    CHECK(mlp_quit(loop, true));
    CHECK(handled + freed == accepted);
    mlp_run(loop);
    mlp_free(loop);
    CHECK(blocks == 0 && in_use == 0);
    return true;
}

/* What was reserved for is accepted, without a request for memory. */
static void reserved(void)
{
    enum { RESERVED = 40 };
    fail_each = 0;
    mlp_loop *loop = mlp_new(0);
    mlp_handler handler = {.handle = handle};
    uint64_t token;
    CHECK(loop != NULL && mlp_handler_open(loop, &handler) && mlp_reserve(loop, RESERVED));
    fail_each = 1;
    for (unsigned turn = 0; turn < 100; turn++) {
        unsigned long before = requests;
        CHECK(mlp_barrier(loop, &token));
        for (unsigned i = 1; i < RESERVED; i++) CHECK(mlp_send(&handler, i, 0, NULL));
        CHECK(mlp_unbarrier(loop, token) && requests == before);
        for (handled = 0; handled < RESERVED - 1;) CHECK(mlp_run_once(loop, false) >= 0);
        CHECK(requests == before);
    }
    refused = 0;
    mlp_free(loop);
    CHECK(blocks == 0 && in_use == 0);
}

int main(void)
{
    reserved();
    unsigned long all = 0, opened = 0;
    for (unsigned long each = 1; each <= 60; each++) {
        requests = 0;
        opened += play(each);
        all += refused;
        refused = 0;
    }
    printf("%lu requests refused, %lu of 60 loops opened\n", all, opened);
    CHECK(opened > 20 && all > 100);
    return 0;
}
