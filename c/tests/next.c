/* Makes each call of loop_next.h and compares its answer and the situation that it leaves: each row of the table, which row goes first, and
 * how waits are rounded. Exits with 0 where all are right. */
#include "check.h"
#include "loop_next.h"
#include "message_queue.h"

static bool is(mloop_situation it, mloop_action_kind kind, uint64_t until, bool idle_owed)
{
    mloop_situation before = it;
    mloop_action action = mloop_next(&it);
    if (it.look != MLOOP_NOT_LOOKED || it.idle_owed != idle_owed) return false; /* no look stands for a second action */
    if (it.moment != before.moment || it.time != before.time || it.pulse != before.pulse || it.has_pulse != before.has_pulse) return false;
    return it.events == before.events && it.frame_owed == before.frame_owed && action.kind == kind && action.until == until;
}

/* At moment 50 milliseconds, with all that can come: the rows fall away from the first on. */
static void rows(void)
{
    mloop_situation it = {.moment = 50000000, .time = 51, .pulse = 50000000, .look = MSGQ_TAKEN, .has_pulse = true, .frame_owed = true, .events = true};
    CHECK(is(it, MLOOP_DO_MESSAGE, 0, true));
    it.idle_owed = true;
    CHECK(is(it, MLOOP_DO_MESSAGE, 0, true));
    it.look = MSGQ_IDLE;
    CHECK(is(it, MLOOP_DO_IDLE, 0, false));
    for (uint32_t look = 1; look < 40; look++) {
        if (look >= MSGQ_TAKEN && look <= MSGQ_WAIT_FOREVER) continue;
        it.look = look;
        CHECK(is(it, MLOOP_DO_STOP, 0, true));
    }
    uint32_t stands[3] = {MLOOP_NOT_LOOKED, MSGQ_WAIT, MSGQ_WAIT_FOREVER};
    for (int i = 0; i < 3; i++) {
        mloop_situation one = it;
        one.look = stands[i];
        CHECK(is(one, MLOOP_DO_EVENTS, 0, true));
        one.events = false;
        CHECK(is(one, MLOOP_DO_VSYNC, 0, true));
        one.pulse++;
        CHECK(is(one, MLOOP_DO_FRAME, 0, true));
        one.pulse--;
        one.has_pulse = false;
        CHECK(is(one, MLOOP_DO_FRAME, 0, true));
    }
    it = (mloop_situation)MLOOP_SITUATION;
    CHECK(is(it, MLOOP_DO_LOOK, 0, true));
    it = (mloop_situation){.moment = 50000000};
    CHECK(is(it, MLOOP_DO_LOOK, 0, false));
    CHECK(mloop_next(NULL).kind == MLOOP_DO_STOP);
}

static void waits(void)
{
    mloop_situation it = {.moment = 50999999, .time = 51, .look = MSGQ_WAIT, .idle_owed = true};
    CHECK(is(it, MLOOP_DO_WAIT, 51000000, true));
    it.moment++;
    CHECK(is(it, MLOOP_DO_LOOK, 0, true));
    it.moment--;
    it.has_pulse = true;
    it.pulse = 51000001;
    CHECK(is(it, MLOOP_DO_WAIT, 51000000, true));
    it.pulse = 50999999 + 1;
    CHECK(is(it, MLOOP_DO_WAIT, 51000000, true));
    it.time = 52;
    CHECK(is(it, MLOOP_DO_WAIT, 51000000, true));
    it.look = MSGQ_WAIT_FOREVER;
    CHECK(is(it, MLOOP_DO_WAIT, 51000000, true));
    it.has_pulse = false;
    CHECK(is(it, MLOOP_DO_WAIT, MLOOP_NEVER, true));
    /* a time in milliseconds that nanoseconds don't hold */
    it.look = MSGQ_WAIT;
    it.time = UINT64_MAX / 1000000 + 1;
    CHECK(is(it, MLOOP_DO_WAIT, MLOOP_NEVER, true));
    it.time = UINT64_MAX / 1000000;
    CHECK(is(it, MLOOP_DO_WAIT, UINT64_C(18446744073709000000), true));
    it.time = UINT64_MAX;
    it.moment = UINT64_MAX;
    CHECK(is(it, MLOOP_DO_WAIT, MLOOP_NEVER, true));
}

static void rounding(void)
{
    CHECK(mloop_nanoseconds(70, 50) == 20 && mloop_nanoseconds(50, 50) == 0 && mloop_nanoseconds(50, 70) == 0);
    CHECK(mloop_nanoseconds(MLOOP_NEVER, 50) == MLOOP_NEVER && mloop_nanoseconds(MLOOP_NEVER - 1, 0) == MLOOP_NEVER - 1);
    CHECK(mloop_milliseconds(50, 50) == 0 && mloop_milliseconds(50, 70) == 0 && mloop_milliseconds(51, 50) == 1);
    CHECK(mloop_milliseconds(3000000, 2000000) == 1 && mloop_milliseconds(3000001, 2000000) == 2 && mloop_milliseconds(2999999, 2000000) == 1);
    CHECK(mloop_milliseconds(MLOOP_NEVER, 5) == -1 && mloop_milliseconds(MLOOP_NEVER - 1, 0) == INT32_MAX);
    CHECK(mloop_milliseconds(UINT64_C(2147483647000000), 0) == INT32_MAX && mloop_milliseconds(UINT64_C(2147483646000000), 0) == INT32_MAX - 1);
    CHECK(mloop_core_next_interface() == MLOOP_NEXT_INTERFACE);
}

int main(void)
{
    rows();
    waits();
    rounding();
    puts("each row of the table is right");
    return 0;
}
