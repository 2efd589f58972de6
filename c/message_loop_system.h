/* What the loop in C has of the system, and is no part of its interface: a lock, a wake, a wait for descriptors until a moment, a clock.
 * On Linux it waits by epoll and a timerfd, and an eventfd wakes it (message_loop_system.c); elsewhere, and with MLP_PORTABLE, by poll and
 * a pipe (message_loop_poll.c). Masks are those of message_loop_posix.h. Each file of the loop includes this one first. */
#ifndef MESSAGE_LOOP_SYSTEM_H
#define MESSAGE_LOOP_SYSTEM_H

#if !defined(_GNU_SOURCE) && !defined(_POSIX_C_SOURCE)
#define _POSIX_C_SOURCE 200809L
#endif
#if defined(__linux__) && !defined(MLP_PORTABLE)
#define MLP_EPOLL
#endif
#include <pthread.h>
#include <stdbool.h>
#include <stdint.h>

#if defined(__GNUC__)
#define MLP_INTERNAL __attribute__((visibility("hidden")))
#else
#define MLP_INTERNAL
#endif

#define MLP_MILLI UINT64_C(1000000) /* nanoseconds */
#define MLP_SECOND UINT64_C(1000000000)

typedef struct {
    pthread_mutex_t lock;
    int poll_fd, timer_fd, wake_in, wake_out; /* -1: there is none; an eventfd is both ends of the wake */
    struct pollfd *polls;                     /* of poll: the wake, then what is watched */
    uint32_t poll_count;
    void (*ready)(void *user, int fd, uint32_t events); /* called for each descriptor that something came at, but its own */
    void *ready_user;
} mlp_system;

/* False where there is no memory or no descriptor; it is closed all the same. */
MLP_INTERNAL bool mlp_system_open(mlp_system *system);
MLP_INTERNAL void mlp_system_close(mlp_system *system);
/* From any thread, and from signal handlers. */
MLP_INTERNAL void mlp_system_wake(mlp_system *system);
/* Watches for the mask from now on; 0 is not at all. False where the system does not take it. */
MLP_INTERNAL bool mlp_system_watch(mlp_system *system, int fd, uint32_t mask);
/* Waits until the moment in nanoseconds of CLOCK_MONOTONIC, a wake or an event, or not at all. Whether anything came. */
MLP_INTERNAL bool mlp_system_wait(mlp_system *system, uint64_t until, bool may_wait);
/* The millisecond that comes so many later, or the last one. */
MLP_INTERNAL uint64_t mlp_after(uint64_t milliseconds);

/* Within these files: opens the descriptors of its own; and what is done where something came at a descriptor. */
MLP_INTERNAL bool mlp_system_open_own(mlp_system *system);
MLP_INTERNAL void mlp_system_came(mlp_system *system, int fd, bool input, bool output, bool error);

#endif
