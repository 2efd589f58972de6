/* Makes each call of countdown.h and compares its answer: ticks, several intervals in one frame, times that go back, the end, and what a
 * countdown is refused for. Exits with 0 where all is right. */
#include "check.h"
#include "countdown.h"

#define MILLI UINT64_C(1000000)

static bool tells(mloop_countdown *countdown, uint64_t time, mloop_tick_kind kind, uint64_t left)
{
    mloop_tick tick = mloop_countdown_frame(countdown, time);
    return tick.kind == kind && tick.left == left;
}

int main(void)
{
    /* a tenth of a second, ticking each 30 milliseconds, from 7 milliseconds on */
    mloop_countdown it = MLOOP_COUNTDOWN(100, 30), begun = it;
    CHECK(tells(&it, 7 * MILLI, MLOOP_TICK, 100));
    CHECK(tells(&it, 36 * MILLI, MLOOP_TICK_QUIET, 0) && tells(&it, 37 * MILLI - 1, MLOOP_TICK_QUIET, 0));
    CHECK(tells(&it, 37 * MILLI, MLOOP_TICK, 70) && tells(&it, 38 * MILLI, MLOOP_TICK_QUIET, 0));
    /* an earlier time changes nothing */
    CHECK(tells(&it, 0, MLOOP_TICK_QUIET, 0) && tells(&it, 39 * MILLI, MLOOP_TICK_QUIET, 0));
    mloop_countdown copy = it;
    /* two intervals at once */
    CHECK(tells(&it, 97 * MILLI, MLOOP_TICK, 10) && tells(&it, 107 * MILLI - 1, MLOOP_TICK_QUIET, 0));
    CHECK(tells(&it, 107 * MILLI, MLOOP_TICK_FINISHED, 0) && tells(&it, 107 * MILLI, MLOOP_TICK_OVER, 0) && tells(&it, 8 * MILLI, MLOOP_TICK_OVER, 0));
    /* a copy counts on by itself, and the first value begins anew */
    CHECK(tells(&copy, 67 * MILLI, MLOOP_TICK, 40));
    it = begun;
    CHECK(tells(&it, 500 * MILLI, MLOOP_TICK, 100) && tells(&it, 600 * MILLI, MLOOP_TICK_FINISHED, 0));
    /* of nothing; the longest; no interval; no countdown */
    mloop_countdown none = MLOOP_COUNTDOWN(0, 1), longest = MLOOP_COUNTDOWN(UINT64_MAX, UINT64_MAX), never = MLOOP_COUNTDOWN(100, 0);
    CHECK(tells(&none, 5, MLOOP_TICK_FINISHED, 0) && tells(&none, 5, MLOOP_TICK_OVER, 0));
    CHECK(tells(&longest, 0, MLOOP_TICK, UINT64_MAX) && tells(&longest, UINT64_MAX, MLOOP_TICK_QUIET, 0));
    CHECK(tells(&never, 5, MLOOP_TICK_NO_INTERVAL, 0) && !never.begun && never.first == 0 && never.latest == 0);
    CHECK(tells(NULL, 5, MLOOP_TICK_NULL, 0) && mloop_core_countdown_interface() == MLOOP_COUNTDOWN_INTERFACE);
    puts("the countdown tells what it is to");
    return 0;
}
