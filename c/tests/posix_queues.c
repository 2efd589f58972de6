/* POSIX's own message queues beside ours: their header comes first, and a loop watches one of them, for whose descriptor Linux can
 * wait. Exits with 0 where what was sent comes, and where this system has no such queues. */
#include <mqueue.h>

#include "check.h"
#include "message_loop_posix.h"
#include "message_queue.h"

#include <fcntl.h>
#include <string.h>
#include <unistd.h>

static char taken[8];

static uint32_t take(int fd, uint32_t events, void *user)
{
    char text[2] = "";
    CHECK(events == MLP_INPUT && mq_receive((mqd_t)fd, text, sizeof text, NULL) == sizeof text);
    strcat(taken, text);
    if (strlen(taken) == 3) mlp_quit(user, true);
    return MLP_INPUT;
}

int main(void)
{
    char name[32];
    snprintf(name, sizeof name, "/message_loop_%d", (int)getpid());
    struct mq_attr attributes = {.mq_maxmsg = 3, .mq_msgsize = 2};
    mqd_t queue = mq_open(name, O_CREAT | O_EXCL | O_RDWR | O_NONBLOCK, 0600, &attributes);
    if (queue == (mqd_t)-1) {
        puts("no queue of POSIX opens here");
        return 0;
    }
    CHECK(mq_unlink(name) == 0);
    mlp_loop *loop = mlp_new(0);
    CHECK(loop != NULL && mlp_watch(loop, (int)queue, MLP_INPUT, take, loop));
    CHECK(mq_send(queue, "b", 2, 1) == 0 && mq_send(queue, "a", 2, 2) == 0 && mq_send(queue, "c", 2, 0) == 0);
    mlp_run(loop);
    CHECK(strcmp(taken, "abc") == 0);
    mlp_free(loop);
    CHECK(mq_close(queue) == 0);
    puts("three messages of a queue of POSIX came by a loop");
    return 0;
}
