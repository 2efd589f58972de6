/* The loop's lock, wake and clock, and its wait on Linux. That of other systems is message_loop_poll.c. */
#include "message_loop_system.h"

#include "loop_next.h"
#include "message_loop_posix.h"

#include <errno.h>
#include <stdlib.h>
#include <time.h>
#include <unistd.h>

uint64_t mlp_now_ns(void)
{
    struct timespec t;
    clock_gettime(CLOCK_MONOTONIC, &t);
    return (uint64_t)t.tv_sec * MLP_SECOND + (uint64_t)t.tv_nsec;
}

uint64_t mlp_now(void)
{
    return mlp_now_ns() / MLP_MILLI;
}

uint64_t mlp_after(uint64_t milliseconds)
{
    uint64_t now = mlp_now();
    return milliseconds > UINT64_MAX - now ? UINT64_MAX : now + milliseconds;
}

bool mlp_system_open(mlp_system *system)
{
    *system = (mlp_system){.poll_fd = -1, .timer_fd = -1, .wake_in = -1, .wake_out = -1};
    pthread_mutex_init(&system->lock, NULL);
    return mlp_system_open_own(system) && mlp_system_watch(system, system->wake_in, MLP_INPUT);
}

void mlp_system_close(mlp_system *system)
{
    if (system->poll_fd >= 0) close(system->poll_fd);
    if (system->timer_fd >= 0) close(system->timer_fd);
    if (system->wake_in >= 0) close(system->wake_in);
    if (system->wake_out >= 0 && system->wake_out != system->wake_in) close(system->wake_out);
    free(system->polls);
    pthread_mutex_destroy(&system->lock);
}

void mlp_system_wake(mlp_system *system)
{
    int saved = errno;
    uint64_t one = 1; /* an eventfd takes eight bytes */
    ssize_t n = write(system->wake_out, &one, sizeof one);
    (void)n; /* full: a wake stands already */
    errno = saved;
}

void mlp_system_came(mlp_system *system, int fd, bool input, bool output, bool error)
{
    if (fd == system->wake_in || fd == system->timer_fd) {
        uint64_t buffer[8];
        ssize_t n = read(fd, buffer, sizeof buffer);
        (void)n; /* what a pipe keeps is one wake too many, which does no harm */
    } else {
        system->ready(system->ready_user, fd, (input ? MLP_INPUT : 0u) | (output ? MLP_OUTPUT : 0u) | (error ? MLP_ERROR : 0u));
    }
}

#ifdef MLP_EPOLL
#include <sys/epoll.h>
#include <sys/eventfd.h>
#include <sys/timerfd.h>

bool mlp_system_open_own(mlp_system *system)
{
    system->poll_fd = epoll_create1(EPOLL_CLOEXEC);
    system->timer_fd = timerfd_create(CLOCK_MONOTONIC, TFD_NONBLOCK | TFD_CLOEXEC);
    system->wake_in = system->wake_out = eventfd(0, EFD_NONBLOCK | EFD_CLOEXEC);
    return mlp_system_watch(system, system->timer_fd, MLP_INPUT);
}

bool mlp_system_watch(mlp_system *system, int fd, uint32_t mask)
{
    struct epoll_event event = {.events = (mask & MLP_INPUT ? EPOLLIN : 0u) | (mask & MLP_OUTPUT ? EPOLLOUT : 0u), .data.fd = fd};
    if (mask == 0) epoll_ctl(system->poll_fd, EPOLL_CTL_DEL, fd, &event);
    return mask == 0 || epoll_ctl(system->poll_fd, EPOLL_CTL_MOD, fd, &event) == 0 || epoll_ctl(system->poll_fd, EPOLL_CTL_ADD, fd, &event) == 0;
}

bool mlp_system_wait(mlp_system *system, uint64_t until, bool may_wait)
{
    if (until != 0) {
        uint64_t at = until == MLOOP_NEVER ? 0 : until; /* 0 disarms */
        struct itimerspec timer = {.it_value = {.tv_sec = (time_t)(at / MLP_SECOND), .tv_nsec = (long)(at % MLP_SECOND)}};
        timerfd_settime(system->timer_fd, TFD_TIMER_ABSTIME, &timer, NULL);
    }
    struct epoll_event events[16];
    int count = epoll_wait(system->poll_fd, events, 16, may_wait ? -1 : 0);
    for (int i = 0; i < count; i++) {
        uint32_t e = events[i].events;
        mlp_system_came(system, events[i].data.fd, e & EPOLLIN, e & EPOLLOUT, e & (EPOLLERR | EPOLLHUP));
    }
    return count > 0;
}
#endif
