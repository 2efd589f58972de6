/* Makes each call of animator.h and compares its answer: values between keys, a delay, repeats both ways, times that go back, the end, and
 * each limit of a plan. Exits with 0 where all is right. */
#include "animator.h"
#include "check.h"

#define MILLI UINT64_C(1000000)

static bool tells(mloop_animator *animator, uint64_t time, mloop_value_kind kind, uint32_t value)
{
    mloop_value told = mloop_animator_frame(animator, time);
    return told.kind == kind && told.value == value;
}

/* Whether a plan is refused, and left as it is. */
static bool is_refused(mloop_animator animator)
{
    return tells(&animator, 5, MLOOP_VALUE_NO_PLAN, 0) && !animator.begun && animator.first == 0 && animator.latest == 0;
}

/* Whether it is taken, and answers this value at its first frame. */
static bool starts_at(mloop_animator animator, uint32_t value)
{
    return tells(&animator, 5, MLOOP_VALUE, value) && animator.begun;
}

static void limits(void)
{
    mloop_animator good = MLOOP_ANIMATOR(100, 3, 7), it = good;
    CHECK(starts_at(good, 3));
    it.delay = 59900; CHECK(starts_at(it, 3));
    it.delay = 59901; CHECK(is_refused(it));
    it = good, it.duration = 60000; CHECK(starts_at(it, 3));
    it.duration = 60001; CHECK(is_refused(it));
    it.duration = 0; CHECK(is_refused(it));
    it = good, it.repeats = 99; CHECK(starts_at(it, 3));
    it.repeats = 100, it.duration = 1; CHECK(is_refused(it));
    it = good, it.duration = UINT64_MAX, it.repeats = UINT32_MAX; CHECK(is_refused(it));
    it = good, it.count = 0; CHECK(is_refused(it));
    it.count = 1; CHECK(is_refused(it));
    it.count = 3; CHECK(is_refused(it)); /* the third key is at 0 */
    it.count = 17; CHECK(is_refused(it));
    it.count = UINT32_MAX; CHECK(is_refused(it));
    it = good, it.keys[0].at = 1; CHECK(is_refused(it));
    it = good, it.keys[1].at = 999; CHECK(is_refused(it));
    it.keys[1].at = 1001; CHECK(is_refused(it));
    it = good, it.keys[1].value = 1000000; CHECK(starts_at(it, 3));
    it.keys[1].value = 1000001; CHECK(is_refused(it));
    it = good, it.count = MLOOP_MOST_KEYS;
    for (uint32_t i = 0; i < MLOOP_MOST_KEYS; i++) it.keys[i] = (mloop_key){i < 15 ? i : 1000, i + 10};
    CHECK(starts_at(it, 10));
    it.keys[14].at = 13; CHECK(is_refused(it)); /* at the same place */
}

int main(void)
{
    /* up and down again in two tenths of a second, behind 20 milliseconds, from 7 milliseconds on */
    mloop_animator it = {.delay = 20, .duration = 100, .repeats = 1, .count = 3, .keys = {{0, 10}, {500, 110}, {1000, 60}}, .reverse = true}, begun = it;
    CHECK(tells(&it, 7 * MILLI, MLOOP_VALUE, 10) && tells(&it, 27 * MILLI, MLOOP_VALUE, 10));
    CHECK(tells(&it, 28 * MILLI - 1, MLOOP_VALUE, 10) && tells(&it, 28 * MILLI, MLOOP_VALUE, 12));
    CHECK(tells(&it, 77 * MILLI, MLOOP_VALUE, 110) && tells(&it, 102 * MILLI, MLOOP_VALUE, 85));
    /* an earlier time changes nothing */
    CHECK(tells(&it, 0, MLOOP_VALUE, 85) && tells(&it, 78 * MILLI, MLOOP_VALUE, 85));
    mloop_animator copy = it;
    /* the turn, the way back, the end, which comes once */
    CHECK(tells(&it, 127 * MILLI, MLOOP_VALUE, 60) && tells(&it, 152 * MILLI, MLOOP_VALUE, 85) && tells(&it, 177 * MILLI, MLOOP_VALUE, 110));
    CHECK(tells(&it, 227 * MILLI - 1, MLOOP_VALUE, 12) && tells(&it, 227 * MILLI, MLOOP_VALUE_END, 10));
    CHECK(tells(&it, 227 * MILLI, MLOOP_VALUE_OVER, 0) && tells(&it, 8 * MILLI, MLOOP_VALUE_OVER, 0));
    /* a copy goes on by itself, and the first value begins anew */
    CHECK(tells(&copy, 103 * MILLI, MLOOP_VALUE, 84));
    it = begun;
    CHECK(tells(&it, 500 * MILLI, MLOOP_VALUE, 10) && tells(&it, 900 * MILLI, MLOOP_VALUE_END, 10));
    /* each way anew */
    it = begun, it.reverse = false;
    CHECK(tells(&it, 0, MLOOP_VALUE, 10) && tells(&it, 120 * MILLI, MLOOP_VALUE, 10) && tells(&it, 220 * MILLI, MLOOP_VALUE_END, 60));
    /* one frame alone, at the greatest time */
    it = begun;
    CHECK(tells(&it, UINT64_MAX, MLOOP_VALUE, 10) && tells(&it, 0, MLOOP_VALUE, 10));
    limits();
    CHECK(tells(NULL, 5, MLOOP_VALUE_NULL, 0) && mloop_core_animator_interface() == MLOOP_ANIMATOR_INTERFACE);
    puts("the animator tells what it is to");
    return 0;
}
