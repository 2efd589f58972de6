/* A small device: a loop of one thread in 64 KB of memory, with forty messages that wait, frames, a countdown and an animator in them. Its clock goes on
 * while it sleeps, in whole milliseconds as a tick timer does, and a little in each step, so that hours pass in seconds. It handles so
 * many messages as the first argument says (a million). Exits with 0 where each came at its time, each frame at its pulse, each second was
 * counted, each needle ran from end to end, and all memory is back. */
#include "animator.h"
#include "countdown.h"
#include "frame_phases.h"
#include "loop_next.h"
#include "message_queue.h"

#include <stdio.h>
#include <stdlib.h>

#define MILLI UINT64_C(1000000)
#define INTERVAL UINT64_C(16666667)
#define CHECK(x) ((x) ? (void)0 : (fprintf(stderr, "%s:%d: %s\n", __FILE__, __LINE__, #x), exit(1)))

#define NEEDLE {.duration = 500, .repeats = 2 * SECONDS - 1, .reverse = true, .count = 2, .keys = {{0, 0}, {1000, 500}}}

enum { WAITING = 40, SECONDS = 10, FRAME = 100, ANIMATION = 1, PHASES = 5 };

static struct {
    msgq_queue queue;
    mloop_frames frames;
    mloop_countdown countdown;
    mloop_animator needle; /* there and back each second, as long as the countdown */
    uint64_t clock; /* nanoseconds */
    uint64_t began; /* the first frame time of countdown and needle; 0: with the next frame */
    uint64_t vsync; /* the stamp of the frame whose message is under way */
    uint64_t handled, wanted, frames_run, last_frame, finished, idles, sleeps;
    uint32_t ticks, random;
} device = {.queue = MSGQ_CLOSED, .frames = MLOOP_FRAMES_CLOSED, .countdown = MLOOP_COUNTDOWN(SECONDS * 1000, 1000), .needle = NEEDLE, .clock = 5 * MILLI + 300, .random = 1};

static uint64_t now(void)
{
    return device.clock += 1000; /* each step takes a microsecond */
}

static void post(uint64_t when, uint32_t what, bool asynchronous)
{
    msgq_message message = {.when = when, .what = what, .asynchronous = asynchronous};
    CHECK(msgq_post(&device.queue, &message).kind == MSGQ_DONE); /* the wake is the loop's own, which runs */
}

static void ask_for_a_frame(void)
{
    mloop_callback callback = {.id = 1, .phase = ANIMATION};
    CHECK(mloop_frame_post(&device.frames, &callback, now()).kind <= MLOOP_FRAME_ALREADY);
}

/* The animation of a frame: the seconds that are left. */
static void animate(uint64_t time)
{
    CHECK(time % INTERVAL == 0 && time > device.last_frame && device.clock - time < 3 * MILLI);
    device.last_frame = time;
    device.frames_run++;
    if (device.began == 0) device.began = time;
    mloop_tick tick = mloop_countdown_frame(&device.countdown, time);
    if (tick.kind == MLOOP_TICK) {
        CHECK(tick.left <= SECONDS * 1000 - 1000 * device.ticks && tick.left + 20 > SECONDS * 1000 - 1000 * device.ticks);
        device.ticks++;
    }
    mloop_value value = mloop_animator_frame(&device.needle, time);
    if (tick.kind <= MLOOP_TICK_QUIET) { /* one more each millisecond, or one less on the way back */
        uint64_t elapsed = (time - device.began) / MILLI % 1000;
        CHECK(value.kind == MLOOP_VALUE && value.value == (elapsed <= 500 ? elapsed : 1000 - elapsed));
    } else {
        CHECK(tick.kind == MLOOP_TICK_FINISHED && value.kind == MLOOP_VALUE_END && value.value == 0);
        CHECK(device.ticks == SECONDS);
        device.ticks = 0;
        device.finished++;
        device.countdown = (mloop_countdown)MLOOP_COUNTDOWN(SECONDS * 1000, 1000);
        device.needle = (mloop_animator)NEEDLE;
        device.began = 0;
    }
    ask_for_a_frame();
}

static void run_frame(void)
{
    CHECK(mloop_frame_begin(&device.frames, device.vsync, now()).kind == MLOOP_FRAME_BEGAN);
    mloop_frame_look look;
    while ((look = mloop_frame_next(&device.frames, now())).kind == MLOOP_STEP_RUN || look.kind == MLOOP_STEP_PHASE) {
        if (look.kind == MLOOP_STEP_RUN) animate(look.time);
    }
    CHECK(look.kind == MLOOP_STEP_ENDED);
}

static void handle(const msgq_message *message)
{
    uint64_t millisecond = device.clock / MILLI;
    CHECK(millisecond >= message->when && millisecond - message->when <= 2);
    if (message->what == FRAME) {
        run_frame();
        return;
    }
    device.random = device.random * 1664525u + 1013904223u;
    if (++device.handled == device.wanted) CHECK(msgq_quit(&device.queue, false, millisecond).kind == MSGQ_DONE);
    else post(millisecond + 1 + device.random / 65536 % 400, message->what, false);
}

/* One step of the loop: what the table says. */
static bool step(mloop_situation *it, msgq_look *look)
{
    mloop_frame_answer pulse = mloop_frame_asked(&device.frames);
    it->moment = now();
    it->pulse = pulse.time;
    it->has_pulse = pulse.kind == MLOOP_FRAME_ASKED;
    mloop_action action = mloop_next(it);
    switch (action.kind) {
    case MLOOP_DO_LOOK:
        *look = msgq_next(&device.queue, it->moment / MILLI, it->idle_owed);
        it->look = look->kind;
        it->time = look->time;
        return true;
    case MLOOP_DO_VSYNC:
        device.vsync = mloop_frame_vsync(&device.frames, it->moment).time;
        post(device.vsync / MILLI, FRAME, true);
        return true;
    case MLOOP_DO_MESSAGE: handle(&look->message); return true;
    case MLOOP_DO_IDLE: device.idles++; return true;
    case MLOOP_DO_WAIT:
        CHECK(action.until > it->moment && action.until != MLOOP_NEVER);
        device.clock += (uint64_t)mloop_milliseconds(action.until, it->moment) * MILLI;
        CHECK(device.clock >= action.until && device.clock - action.until < MILLI);
        device.sleeps++;
        return true;
    default: return false;
    }
}

int main(int words, char **word)
{
    device.wanted = words > 1 ? strtoull(word[1], NULL, 10) : 1000000;
    CHECK(msgq_open(&device.queue) && mloop_frame_open(&device.frames, INTERVAL, PHASES));
    CHECK(msgq_reserve(&device.queue, WAITING + 1).kind == MSGQ_DONE);
    for (uint32_t what = 0; what < WAITING; what++) post(10 + what, what, false);
    ask_for_a_frame();
    mloop_situation it = MLOOP_SITUATION;
    msgq_look look = {.kind = MSGQ_NOTHING_LEFT};
    while (step(&it, &look)) {
    }
    CHECK(look.kind == MSGQ_END && device.handled == device.wanted);
    uint64_t seconds = device.clock / (1000 * MILLI);
    printf("%lu messages, %lu frames, %lu countdowns, %lu sleeps, %lu idle turns in %lu seconds of the device\n", (unsigned long)device.handled,
           (unsigned long)device.frames_run, (unsigned long)device.finished, (unsigned long)device.sleeps, (unsigned long)device.idles, (unsigned long)seconds);
    CHECK(device.frames_run + 2 > seconds * 60 && device.finished + 2 > seconds / (SECONDS + 1));
    /* all of the memory is back, in one piece */
    CHECK(mloop_frame_close(&device.frames).kind == MLOOP_FRAME_CLOSED);
    while (msgq_next_dropped(&device.queue).kind == MSGQ_TAKEN) {
    }
    CHECK(msgq_close(&device.queue).number == 0 && !device.queue.core.live);
    msgq_memory all = rattle_alloc(64 * 1024 - 64, 16);
    CHECK(all.ok);
    rattle_dealloc(all.at);
    return 0;
}
