/* The loop's wait on systems without epoll: poll, and a pipe that wakes it. */
#include "message_loop_system.h"

#ifndef MLP_EPOLL
#include "loop_next.h"
#include "message_loop_posix.h"

#include <fcntl.h>
#include <poll.h>
#include <stdlib.h>
#include <unistd.h>

bool mlp_system_open_own(mlp_system *system)
{
    int ends[2];
    if (pipe(ends) != 0) return false;
    for (int i = 0; i < 2; i++) {
        fcntl(ends[i], F_SETFL, O_NONBLOCK);
        fcntl(ends[i], F_SETFD, FD_CLOEXEC);
    }
    system->wake_in = ends[0];
    system->wake_out = ends[1];
    return true;
}

bool mlp_system_watch(mlp_system *system, int fd, uint32_t mask)
{
    uint32_t row = 0;
    while (row < system->poll_count && system->polls[row].fd != fd) row++;
    if (mask == 0) {
        if (row < system->poll_count) system->polls[row] = system->polls[--system->poll_count];
        return true;
    }
    if (row == system->poll_count) {
        struct pollfd *polls = realloc(system->polls, (row + 1) * sizeof *polls);
        if (polls == NULL) return false;
        system->polls = polls;
        system->poll_count++;
    }
    system->polls[row] = (struct pollfd){.fd = fd, .events = (short)((mask & MLP_INPUT ? POLLIN : 0) | (mask & MLP_OUTPUT ? POLLOUT : 0))};
    return true;
}

bool mlp_system_wait(mlp_system *system, uint64_t until, bool may_wait)
{
    int count = poll(system->polls, system->poll_count, may_wait ? mloop_milliseconds(until, mlp_now_ns()) : 0);
    for (uint32_t i = 0; count > 0 && i < system->poll_count; i++) {
        short e = system->polls[i].revents;
        if (e != 0) mlp_system_came(system, system->polls[i].fd, e & POLLIN, e & POLLOUT, e & (POLLERR | POLLHUP | POLLNVAL));
    }
    return count > 0;
}
#endif
