/* What the loop adds to the three libraries: dispatch, threads, objects that are let go of, frames in real time, idle handlers,
 * descriptors, a host's own loop. Exits with 0 where all is right. */
#include "check.h"
#include "message_loop_posix.h"

#include <poll.h>
#include <pthread.h>
#include <stdatomic.h>
#include <string.h>
#include <unistd.h>

static char trace[512];
static size_t traced;

static void tell(char c)
{
    if (traced < sizeof trace - 1) trace[traced++] = c;
    trace[traced] = 0;
}

static void forget_trace(void)
{
    traced = 0;
    trace[0] = 0;
}

static void handle(mlp_handler *self, const mlp_message *message)
{
    (void)self;
    tell((char)message->what);
    if (message->what == 'Q') mlp_quit(self->loop, true);
    free(message->obj);
}

static atomic_uint freed;

static void let_go(void *obj)
{
    free(obj);
    freed++;
}

static void call(void *user)
{
    tell(*(char *)user);
}

/* Runs what is due, and nothing later. */
static int run_due(mlp_loop *loop)
{
    int did;
    while ((did = mlp_run_once(loop, false)) > 0) {
    }
    return did;
}

static void messages(void)
{
    mlp_loop *loop = mlp_new(0);
    mlp_handler a = {.handle = handle, .let_go = let_go}, b = {.handle = handle, .asynchronous = true};
    CHECK(loop != NULL && mlp_handler_open(loop, &a) && mlp_handler_open(loop, &b) && a.id != b.id);
    CHECK(run_due(loop) == 0 && mlp_timeout(loop) == -1);
    /* by time, then by order of posting; at the front first */
    CHECK(mlp_send_delayed(&a, '3', 0, malloc(1), 700) && mlp_send(&a, '1', 0, malloc(1)) && mlp_send(&a, '2', 0, NULL) && mlp_send_front(&a, '0', 0, NULL));
    CHECK(mlp_has(&a, '3') && !mlp_has(&b, '3'));
    CHECK(run_due(loop) == 0 && strcmp(trace, "012") == 0);
    int timeout = mlp_timeout(loop);
    CHECK(timeout >= 0 && timeout <= 700);
    while (strcmp(trace, "0123") != 0) CHECK(mlp_run_once(loop, true) == 1);
    CHECK(!mlp_has(&a, '3'));
    /* a call, and its removal */
    char x = 'x', y = 'y';
    CHECK(mlp_call(&a, call, &x) && mlp_call_delayed(&a, call, &y, 1000000) && mlp_remove_calls(&b, call) == 0);
    CHECK(run_due(loop) == 0 && strcmp(trace, "0123x") == 0 && mlp_remove_calls(&a, call) == 1 && mlp_remove_calls(&a, call) == 0);
    /* at the front the newest goes first, and at the time 0 the oldest */
    forget_trace();
    CHECK(mlp_send_at(&a, 'e', 0, NULL, 0) && mlp_send_at(&a, 'f', 0, NULL, 0) && mlp_send_front(&a, 'd', 0, NULL) && mlp_send_front(&a, 'c', 0, NULL));
    CHECK(run_due(loop) == 0 && strcmp(trace, "cdef") == 0);
    CHECK(mlp_send_delayed(&a, 'z', 0, NULL, UINT64_MAX) && run_due(loop) == 0 && strcmp(trace, "cdef") == 0 && mlp_remove(&a, 'z') == 1);
    /* a barrier holds back what is not asynchronous, in its own millisecond too */
    forget_trace();
    uint64_t token;
    CHECK(mlp_barrier(loop, &token));
    usleep(2000);
    CHECK(mlp_send(&a, 'a', 0, NULL) && mlp_send(&b, 'b', 0, NULL));
    CHECK(run_due(loop) == 0 && strcmp(trace, "b") == 0);
    CHECK(mlp_unbarrier(loop, token) && !mlp_unbarrier(loop, token));
    CHECK(run_due(loop) == 0 && strcmp(trace, "ba") == 0);
    /* objects of what is removed, and of what a handler leaves behind */
    freed = 0;
    CHECK(mlp_send_delayed(&a, 'r', 0, malloc(1), 9) && mlp_send_delayed(&a, 'r', 0, malloc(1), 9) && mlp_send_delayed(&a, 's', 0, malloc(1), 9));
    CHECK(mlp_remove(&a, 'r') == 2 && freed == 2);
    mlp_handler_close(&a);
    CHECK(freed == 3 && mlp_handler_open(loop, &a));
    /* a safe quit: what is due still runs, what is later is let go of, and nothing is accepted any more */
    forget_trace();
    CHECK(mlp_send(&a, 'd', 0, NULL) && mlp_send_delayed(&a, 'l', 0, malloc(1), 100000) && mlp_quit(loop, true) && !mlp_quit(loop, true) && freed == 4);
    CHECK(!mlp_send(&a, 'n', 0, NULL));
    mlp_run(loop);
    CHECK(strcmp(trace, "d") == 0 && mlp_run_once(loop, true) == -1);
    mlp_free(loop);
    /* a loop that is ended with messages in it */
    loop = mlp_new(0);
    CHECK(mlp_handler_open(loop, &a) && mlp_send(&a, 'z', 0, malloc(1)));
    mlp_free(loop);
    CHECK(freed == 5);
}

static uint64_t frame_times[MLP_PHASES];

static void phase_func(uint64_t frame_time, void *user)
{
    uint32_t phase = *(uint32_t *)user;
    tell((char)('0' + phase));
    frame_times[phase] = frame_time;
}

typedef struct {
    mlp_loop *loop;
    uint64_t frames, last, skipped;
} animation;

static void animate(uint64_t frame_time, void *user)
{
    animation *it = user;
    if (it->last != 0) {
        CHECK(frame_time > it->last && (frame_time - it->last) % 5000000 == 0);
        it->skipped += (frame_time - it->last) / 5000000 - 1;
    }
    it->last = frame_time;
    if (++it->frames < 40) CHECK(mlp_on_frame(it->loop, MLP_PHASE_ANIMATION, animate, it));
    else mlp_quit(it->loop, true);
}

static atomic_uint asks;

static void count_ask(void *user)
{
    (void)user;
    asks++;
}

static void frames(void)
{
    forget_trace();
    mlp_loop *loop = mlp_new(5000000);
    uint32_t phases[MLP_PHASES] = {MLP_PHASE_INPUT, MLP_PHASE_ANIMATION, MLP_PHASE_INSETS, MLP_PHASE_TRAVERSAL, MLP_PHASE_COMMIT};
    CHECK(!mlp_on_frame(loop, MLP_PHASES, phase_func, &phases[0]));
    for (int i = MLP_PHASES - 1; i >= 0; i--) CHECK(mlp_on_frame(loop, phases[i], phase_func, &phases[i]));
    CHECK(mlp_on_frame(loop, 1, phase_func, &phases[2]) && mlp_remove_frame(loop, 1, phase_func, &phases[2]) == 1 && mlp_remove_frame(loop, 1, phase_func, &phases[2]) == 0);
    CHECK(run_due(loop) == 0 && mlp_timeout(loop) <= 5 && (mlp_timeout(loop) >= 0 || traced != 0));
    /* a barrier does not hold back a frame */
    uint64_t token;
    CHECK(mlp_barrier(loop, &token));
    while (strlen(trace) < 5) CHECK(mlp_run_once(loop, true) == 1);
    CHECK(strcmp(trace, "01234") == 0 && frame_times[0] % 5000000 == 0 && frame_times[0] == frame_times[2] && mlp_unbarrier(loop, token));
    /* one that is due later */
    uint64_t before = mlp_now();
    CHECK(mlp_on_frame_delayed(loop, 0, phase_func, &phases[0], 23));
    while (strlen(trace) < 6) CHECK(mlp_run_once(loop, true) == 1);
    CHECK(mlp_now() - before >= 23);
    /* an animation until a quit */
    animation it = {.loop = loop};
    CHECK(mlp_on_frame(loop, MLP_PHASE_ANIMATION, animate, &it));
    mlp_run(loop);
    CHECK(it.frames == 40);
    mlp_free(loop);
    /* a display's own vsync */
    loop = mlp_new(16666667);
    forget_trace();
    CHECK(mlp_use_vsync(loop, count_ask, NULL));
    mlp_vsync(loop, 1);
    CHECK(mlp_on_frame(loop, 1, phase_func, &phases[1]) && mlp_on_frame(loop, 2, phase_func, &phases[2]) && asks == 1);
    usleep(40000);
    CHECK(run_due(loop) == 0 && traced == 0);
    uint64_t stamp = mlp_now_ns();
    mlp_vsync(loop, stamp);
    while (traced < 2) CHECK(mlp_run_once(loop, true) == 1);
    CHECK(strcmp(trace, "12") == 0 && frame_times[1] >= stamp && asks == 1);
    mlp_free(loop);
    printf("40 frames, %u pulses skipped\n", (unsigned)it.skipped);
}

static bool idle_once(void *user)
{
    tell(*(char *)user);
    return false;
}

static bool idle_always(void *user)
{
    tell(*(char *)user);
    return true;
}

static uint32_t on_input(int fd, uint32_t events, void *user)
{
    char c;
    CHECK(events & MLP_INPUT);
    CHECK(read(fd, &c, 1) == 1);
    tell(c);
    if (c == 'q') mlp_quit(user, true);
    return c == 'e' ? 0 : MLP_INPUT;
}

static void sources(void)
{
    forget_trace();
    mlp_loop *loop = mlp_new(0);
    mlp_handler a = {.handle = handle};
    char i = 'i', j = 'j';
    int ends[2];
    CHECK(mlp_handler_open(loop, &a) && mlp_on_idle(loop, idle_once, &i) && mlp_on_idle(loop, idle_always, &j) && pipe(ends) == 0);
    CHECK(mlp_send(&a, 'm', 0, NULL) && run_due(loop) == 0 && strcmp(trace, "mij") == 0);
    CHECK(run_due(loop) == 0 && strcmp(trace, "mij") == 0); /* none without a message in between */
    CHECK(mlp_send(&a, 'n', 0, NULL) && run_due(loop) == 0 && strcmp(trace, "mijnj") == 0);
    CHECK(mlp_remove_idle(loop, idle_always, &j) && !mlp_remove_idle(loop, idle_always, &j));
    /* a descriptor: its listener ends it by 0 */
    forget_trace();
    CHECK(mlp_watch(loop, ends[0], MLP_INPUT, on_input, loop) && write(ends[1], "ae", 2) == 2);
    while (strlen(trace) < 2) CHECK(mlp_run_once(loop, true) == 1);
    CHECK(strcmp(trace, "ae") == 0 && write(ends[1], "x", 1) == 1 && run_due(loop) == 0 && strcmp(trace, "ae") == 0);
    CHECK(mlp_watch(loop, ends[0], MLP_INPUT, on_input, loop) && run_due(loop) == 0);
    while (strlen(trace) < 3) CHECK(mlp_run_once(loop, true) == 1);
    CHECK(mlp_watch(loop, ends[0], 0, NULL, NULL) && write(ends[1], "y", 1) == 1 && run_due(loop) == 0 && strcmp(trace, "aex") == 0);
    /* of two descriptors the first one's watch ends, and the other one is still told of */
    int more[2];
    CHECK(pipe(more) == 0 && mlp_watch(loop, ends[0], MLP_ERROR, on_input, loop) && mlp_watch(loop, more[0], MLP_INPUT, on_input, loop));
    CHECK(mlp_watch(loop, ends[0], 0, NULL, NULL) && write(more[1], "z", 1) == 1 && run_due(loop) == 0 && strcmp(trace, "aexz") == 0);
    CHECK(mlp_watch(loop, more[0], 0, NULL, NULL) && close(more[0]) == 0 && close(more[1]) == 0);
    /* what came at a descriptor goes before a message */
    CHECK(mlp_watch(loop, ends[0], MLP_INPUT, on_input, loop) && mlp_send(&a, 'm', 0, NULL) && run_due(loop) == 0 && strcmp(trace, "aexzym") == 0);
    CHECK(write(ends[1], "q", 1) == 1);
    mlp_run(loop);
    CHECK(strcmp(trace, "aexzymq") == 0);
    close(ends[0]);
    close(ends[1]);
    mlp_free(loop);
}

#ifndef POSTS
#define POSTS 5000u
#endif

enum { THREADS = 4 };

typedef struct {
    mlp_handler handler;
    uint32_t next[THREADS];
    uint32_t taken;
} counter;

static void count(mlp_handler *self, const mlp_message *message)
{
    counter *it = self->user;
    CHECK(message->arg == it->next[message->what]++);
    free(message->obj);
    if (++it->taken == THREADS * POSTS) mlp_quit(self->loop, true);
}

typedef struct {
    counter *to;
    uint32_t what;
} poster;

static void *post_all(void *user)
{
    poster *it = user;
    for (uint32_t i = 0; i < POSTS; i++) CHECK(mlp_send(&it->to->handler, it->what, i, malloc(8)));
    return NULL;
}

/* Threads post to a loop that runs: nothing is lost, and each thread's messages come in its order. */
static void threads(bool by_host)
{
    mlp_loop *loop = mlp_new(0);
    counter it = {.handler = {.handle = count, .let_go = let_go, .user = &it}};
    CHECK(mlp_handler_open(loop, &it.handler));
    pthread_t ids[THREADS];
    poster posters[THREADS];
    for (uint32_t i = 0; i < THREADS; i++) {
        posters[i] = (poster){&it, i};
        CHECK(pthread_create(&ids[i], NULL, post_all, &posters[i]) == 0);
    }
    if (!by_host || mlp_fd(loop) < 0) {
        mlp_run(loop);
    } else {
        /* A host's own loop: its wait by mlp_fd and mlp_timeout, then all that is due. */
        for (;;) {
            int did = run_due(loop);
            if (did < 0) break;
            struct pollfd host = {.fd = mlp_fd(loop), .events = POLLIN};
            CHECK(poll(&host, 1, mlp_timeout(loop)) >= 0);
        }
    }
    for (uint32_t i = 0; i < THREADS; i++) pthread_join(ids[i], NULL);
    CHECK(it.taken == THREADS * POSTS);
    mlp_free(loop);
}

/* What is null, or not open, is answered. */
static void misuse(void)
{
    mlp_loop *loop = mlp_new(0);
    mlp_handler handler = {.handle = handle}, none = {.handle = NULL};
    uint64_t token;
    CHECK(!mlp_handler_open(NULL, &handler) && !mlp_handler_open(loop, NULL));
    CHECK(!mlp_handler_open_sized(loop, &handler, sizeof handler - 8) && handler.loop == NULL);
    for (mlp_handler *it = NULL; it != &handler; it = it == NULL ? &none : &handler) {
        CHECK(!mlp_send(it, 1, 0, NULL) && !mlp_send_delayed(it, 1, 0, NULL, 1) && !mlp_send_at(it, 1, 0, NULL, 1) && !mlp_send_front(it, 1, 0, NULL));
        CHECK(!mlp_call(it, call, NULL) && !mlp_has(it, 1) && mlp_remove(it, 1) == 0 && mlp_remove_calls(it, call) == 0 && mlp_remove_all(it) == 0);
        mlp_handler_close(it);
    }
    CHECK(mlp_handler_open(loop, &handler) && !mlp_call(&handler, NULL, NULL) && mlp_reserve(loop, 3) && !mlp_reserve(NULL, 3));
    CHECK(!mlp_barrier(NULL, &token) && !mlp_barrier(loop, NULL) && !mlp_unbarrier(NULL, 0) && !mlp_quit(NULL, true));
    CHECK(!mlp_on_frame(NULL, 0, phase_func, NULL) && !mlp_on_frame(loop, 0, NULL, NULL) && mlp_remove_frame(NULL, 0, phase_func, NULL) == 0);
    CHECK(!mlp_on_idle(loop, NULL, NULL) && !mlp_remove_idle(NULL, NULL, NULL) && !mlp_watch(loop, -1, 1, NULL, NULL) && !mlp_watch(loop, 0, 1, NULL, NULL));
    CHECK(mlp_run_once(NULL, true) == -1 && mlp_fd(NULL) == -1 && mlp_timeout(NULL) == -1);
    CHECK(!mlp_use_vsync(NULL, NULL, NULL));
    mlp_vsync(NULL, 0);
    mlp_wake(NULL);
    mlp_run(NULL);
    mlp_free(NULL);
    /* A handler of calls alone lets go of a message's object. */
    unsigned before = freed;
    none.let_go = let_go;
    CHECK(mlp_handler_open(loop, &none) && mlp_send(&none, 1, 0, malloc(1)) && run_due(loop) == 0 && freed == before + 1);
    mlp_handler_close(&handler);
    CHECK(!mlp_send(&handler, 1, 0, NULL) && run_due(loop) == 0);
    /* One that is open is not opened once more, and the end of its loop closes it. */
    CHECK(mlp_handler_open(loop, &handler) && handler.id == 1 && !mlp_handler_open(loop, &handler) && mlp_send(&handler, 1, 0, NULL));
    mlp_free(loop);
    CHECK(handler.loop == NULL && !mlp_send(&handler, 1, 0, NULL) && none.loop == NULL);
    mlp_handler_close(&handler);
}

int main(void)
{
    alarm(100); /* a lost wake is told, and does not hang */
    misuse();
    CHECK(mlp_version() == MLP_VERSION);
    messages();
    frames();
    sources();
    threads(false);
    for (int i = 0; i < 5; i++) threads(true);
    puts("the loop does as it is to");
    return 0;
}
