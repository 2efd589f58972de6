/* A clock that the program holds in its hand: CLOCK_MONOTONIC as GLib and Qt read it. */
#ifndef HELD_CLOCK_H
#define HELD_CLOCK_H

#include <cstdint>
#include <sys/syscall.h>
#include <time.h>
#include <unistd.h>

namespace held_clock {
inline int64_t now = 1000; // milliseconds
}

extern "C" __attribute__((visibility("default"))) int clock_gettime(clockid_t clock, struct timespec *time)
{
    if (clock != CLOCK_MONOTONIC && clock != CLOCK_MONOTONIC_RAW && clock != CLOCK_MONOTONIC_COARSE) {
        return static_cast<int>(syscall(SYS_clock_gettime, clock, time));
    }
    time->tv_sec = held_clock::now / 1000;
    time->tv_nsec = held_clock::now % 1000 * 1000000;
    return 0;
}

#endif
