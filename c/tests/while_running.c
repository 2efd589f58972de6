/* What runs on a loop and changes that loop while it runs: handlers, idle handlers and listeners. Exits with 0 where all is right. */
#include "check.h"
#include "message_loop_posix.h"

#include <fcntl.h>
#include <string.h>
#include <unistd.h>

static char trace[64];
static mlp_handler plain, passing; /* the second sends asynchronous messages */
static uint64_t token;

static void tell(char c)
{
    size_t end = strlen(trace);
    CHECK(end + 1 < sizeof trace);
    trace[end] = c;
    trace[end + 1] = 0;
}

/* Runs what is due, and answers whether just this was told. */
static bool runs(mlp_loop *loop, const char *wanted)
{
    trace[0] = 0;
    while (mlp_run_once(loop, false) > 0) {
    }
    return strcmp(trace, wanted) == 0;
}

static void handle(mlp_handler *self, const mlp_message *message)
{
    tell((char)message->what);
    switch (message->what) {
    case 'f': CHECK(mlp_send_front(self, 'x', 0, NULL)); break;
    case 'b': CHECK(mlp_barrier(self->loop, &token) && mlp_send(&plain, 'x', 0, NULL) && mlp_send(&passing, 'u', 0, NULL)); break;
    case 'u': CHECK(!mlp_has(self, 'y') && mlp_has(&plain, 'x') && mlp_unbarrier(self->loop, token)); break;
    case 'r': CHECK(mlp_has(self, 'x') && mlp_remove(self, 'x') == 2 && !mlp_has(self, 'x')); break;
    case 'q': CHECK(mlp_quit(self->loop, false) && !mlp_send(self, 'x', 0, NULL)); break;
    case 's': CHECK(mlp_quit(self->loop, true) && !mlp_send(self, 'x', 0, NULL)); break;
    default: break;
    }
}

static mlp_loop *opened(void)
{
    mlp_loop *loop = mlp_new(0);
    plain = (mlp_handler){.handle = handle};
    passing = (mlp_handler){.handle = handle, .asynchronous = true};
    CHECK(loop != NULL && mlp_handler_open(loop, &plain) && mlp_handler_open(loop, &passing) && runs(loop, ""));
    return loop;
}

static void send_all(const char *codes)
{
    for (; *codes != 0; codes++) CHECK(mlp_send(&plain, (uint32_t)*codes, 0, NULL));
}

static void handlers(void)
{
    mlp_loop *loop = opened();
    CHECK(!mlp_has(&plain, 'x') && mlp_timeout(loop) == -1); /* idle */
    send_all("fc");
    CHECK(mlp_has(&plain, 'c') && runs(loop, "fxc") && !mlp_has(&plain, 'c') && mlp_timeout(loop) == -1);
    send_all("b");
    CHECK(runs(loop, "bux"));
    send_all("rxcx");
    CHECK(runs(loop, "rc"));
    CHECK(mlp_send_delayed(&plain, 'l', 0, NULL, 1000000));
    CHECK(runs(loop, "") && mlp_has(&plain, 'l') && mlp_timeout(loop) > 0); /* idle too: it is later */
    send_all("sc");
    CHECK(runs(loop, "sc") && mlp_run_once(loop, true) == -1 && !mlp_has(&plain, 'l'));
    mlp_free(loop);
    loop = opened();
    send_all("cqc");
    CHECK(runs(loop, "cq") && mlp_run_once(loop, true) == -1);
    mlp_free(loop);
}

static bool idle_second(void *user)
{
    (void)user;
    tell('2');
    return true;
}

static bool idle_first(void *user)
{
    tell('1');
    CHECK(mlp_remove_idle(user, idle_second, user) && mlp_send(&plain, 'x', 0, NULL));
    return false;
}

/* An idle handler that removes the next one and posts. The removed one runs this once, since it stood there as the turn began. */
static void idle(void)
{
    mlp_loop *loop = opened();
    CHECK(mlp_on_idle(loop, idle_first, loop) && mlp_on_idle(loop, idle_second, loop));
    send_all("c");
    CHECK(runs(loop, "c12x"));
    send_all("c");
    CHECK(runs(loop, "c"));
    mlp_free(loop);
}

static uint32_t seventh(int fd, uint32_t events, void *user)
{
    char c;
    CHECK(events == MLP_OUTPUT || read(fd, &c, 1) == 1);
    tell('7');
    CHECK(mlp_watch(user, fd, 0, NULL, NULL)); /* it removes itself, and what it answers has no effect */
    return MLP_INPUT;
}

static uint32_t third(int fd, uint32_t events, void *user)
{
    char c;
    CHECK(events == MLP_INPUT && read(fd, &c, 1) == 1);
    tell('3');
    CHECK(mlp_watch(user, fd, MLP_INPUT | MLP_OUTPUT, seventh, user)); /* in its place, and what it answers has no effect */
    return 0;
}

static void listeners(void)
{
    mlp_loop *loop = opened();
    int ends[2];
    CHECK(pipe(ends) == 0 && fcntl(ends[0], F_SETFL, O_NONBLOCK) == 0 && mlp_watch(loop, ends[0], MLP_INPUT, third, loop));
    CHECK(write(ends[1], "ab", 2) == 2);
    CHECK(runs(loop, "37") && write(ends[1], "c", 1) == 1 && runs(loop, ""));
    close(ends[0]);
    close(ends[1]);
    mlp_free(loop);
}

int main(void)
{
    handlers();
    idle();
    listeners();
    puts("all right");
    return 0;
}
