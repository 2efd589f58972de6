/* Makes each call of frame_phases.h and loop_sources.h, on open and on closed handles, and compares its answer whole. Exits with 0
 * where all are right. */
#include <mqueue.h> /* POSIX's own queues, whose names are not to meet ours */

#include "check.h"
#include "frame_phases.h"
#include "loop_sources.h"

#include <string.h>

#define INTERVAL 10000000u

static bool is(mloop_frame_answer a, mloop_frame_kind kind, uint64_t number, uint64_t time)
{
    return a.kind == kind && a.number == number && a.time == time;
}

static bool looks(mloop_frame_look a, mloop_step_kind kind, mloop_callback callback, uint64_t number, uint64_t time)
{
    return a.kind == kind && a.number == number && a.time == time && a.callback.due == callback.due && a.callback.id == callback.id &&
           a.callback.token == callback.token && a.callback.phase == callback.phase && a.callback.has_token == callback.has_token;
}

static void frames_on_a_closed_handle(mloop_frames *frames)
{
    mloop_callback callback = {.phase = 0};
    CHECK(is(mloop_frame_close(frames), MLOOP_FRAME_NOT_OPEN, 0, 0));
    CHECK(is(mloop_frame_post(frames, &callback, 1), MLOOP_FRAME_NOT_OPEN, 0, 0));
    CHECK(is(mloop_frame_remove(frames, &callback), MLOOP_FRAME_NOT_OPEN, 0, 0));
    CHECK(is(mloop_frame_due(frames, 0, 1), MLOOP_FRAME_NOT_OPEN, 0, 0));
    CHECK(is(mloop_frame_schedule(frames, 1), MLOOP_FRAME_NOT_OPEN, 0, 0));
    CHECK(is(mloop_frame_asked(frames), MLOOP_FRAME_NOT_OPEN, 0, 0));
    CHECK(is(mloop_frame_vsync(frames, 1), MLOOP_FRAME_NOT_OPEN, 0, 0));
    CHECK(is(mloop_frame_begin(frames, 1, 1), MLOOP_FRAME_NOT_OPEN, 0, 0));
    CHECK(looks(mloop_frame_next(frames, 1), MLOOP_STEP_NOT_OPEN, (mloop_callback){0}, 0, 0));
    CHECK(!frames->core.live);
}

static void frames(void)
{
    mloop_frames frames = MLOOP_FRAMES_CLOSED;
    frames_on_a_closed_handle(&frames);
    CHECK(!mloop_frame_open(&frames, 0, 4) && !mloop_frame_open(&frames, INTERVAL, 0) && !frames.core.live);
    CHECK(mloop_frame_open(&frames, INTERVAL, 4) && frames.core.live);
    CHECK(!mloop_frame_open(&frames, INTERVAL, 4) && frames.core.live);
    CHECK(is(mloop_frame_asked(&frames), MLOOP_FRAME_NOTHING, 0, 0));
    CHECK(is(mloop_frame_vsync(&frames, UINT64_MAX), MLOOP_FRAME_NOTHING, 0, 0));
    CHECK(is(mloop_frame_begin(&frames, 1, 1), MLOOP_FRAME_UNSCHEDULED, 0, 0));
    CHECK(looks(mloop_frame_next(&frames, 1), MLOOP_STEP_ENDED, (mloop_callback){0}, 0, 0));

    mloop_callback animation = {.id = 5, .token = 6, .phase = 1, .has_token = true}, input = {.due = 3, .id = 7, .phase = 0};
    mloop_callback commit = {.id = 8, .phase = 3}, later = {.due = 50, .id = 9, .phase = 1}, none = {.phase = 4};
    CHECK(is(mloop_frame_post(&frames, &none, 4000000), MLOOP_FRAME_NO_PHASE, 0, 0));
    CHECK(is(mloop_frame_remove(&frames, &none), MLOOP_FRAME_NO_PHASE, 0, 0));
    CHECK(is(mloop_frame_due(&frames, 4, 1), MLOOP_FRAME_NO_PHASE, 0, 0));
    CHECK(is(mloop_frame_post(&frames, &animation, 4000000), MLOOP_FRAME_ASKED, 0, INTERVAL));
    CHECK(is(mloop_frame_post(&frames, &input, 4000000), MLOOP_FRAME_ALREADY, 0, 0));
    CHECK(is(mloop_frame_post(&frames, &commit, 4000000), MLOOP_FRAME_ALREADY, 0, 0));
    CHECK(is(mloop_frame_post(&frames, &later, 4000000), MLOOP_FRAME_LATER, 0, 50));
    CHECK(is(mloop_frame_schedule(&frames, 4000000), MLOOP_FRAME_ALREADY, 0, 0));
    CHECK(is(mloop_frame_asked(&frames), MLOOP_FRAME_ASKED, 0, INTERVAL));
    CHECK(is(mloop_frame_vsync(&frames, INTERVAL - 1), MLOOP_FRAME_NOTHING, 0, 0));
    CHECK(is(mloop_frame_vsync(&frames, INTERVAL), MLOOP_FRAME_ASKED, 0, INTERVAL));
    CHECK(is(mloop_frame_vsync(&frames, INTERVAL), MLOOP_FRAME_NOTHING, 0, 0));

    /* The frame starts 2.5 intervals late: its time is moved up by two. */
    uint64_t start = 35000000, time = 30000000;
    CHECK(is(mloop_frame_begin(&frames, INTERVAL, start), MLOOP_FRAME_BEGAN, 0, time));
    CHECK(is(mloop_frame_begin(&frames, INTERVAL, start), MLOOP_FRAME_RUNNING, 0, 0));
    CHECK(looks(mloop_frame_next(&frames, start), MLOOP_STEP_PHASE, (mloop_callback){.phase = 0}, 1, time));
    CHECK(looks(mloop_frame_next(&frames, start), MLOOP_STEP_RUN, input, 1, time));
    CHECK(looks(mloop_frame_next(&frames, start), MLOOP_STEP_PHASE, (mloop_callback){.phase = 1}, 1, time));
    CHECK(looks(mloop_frame_next(&frames, start), MLOOP_STEP_RUN, animation, 0, time));
    /* Posted within the frame: the phase was taken already, so it asks for the next one. */
    CHECK(is(mloop_frame_post(&frames, &animation, start), MLOOP_FRAME_ASKED, 0, 40000000));
    CHECK(looks(mloop_frame_next(&frames, start), MLOOP_STEP_PHASE, (mloop_callback){.phase = 2}, 0, time));
    /* Commit is two intervals late: its time is moved up too. */
    CHECK(looks(mloop_frame_next(&frames, 55000000), MLOOP_STEP_PHASE, (mloop_callback){.phase = 3}, 1, 40000000));
    /* No frame begins while a callback is to be handed out. */
    CHECK(is(mloop_frame_begin(&frames, 50000000, 55000000), MLOOP_FRAME_RUNNING, 0, 0));
    CHECK(looks(mloop_frame_next(&frames, 55000000), MLOOP_STEP_RUN, commit, 2, 40000000));
    CHECK(looks(mloop_frame_next(&frames, 55000000), MLOOP_STEP_ENDED, (mloop_callback){0}, 0, 0));

    CHECK(is(mloop_frame_begin(&frames, 20000000, 30000000), MLOOP_FRAME_BACKWARDS, 0, 40000000));
    CHECK(is(mloop_frame_asked(&frames), MLOOP_FRAME_ASKED, 0, 40000000));
    animation.token = 1;
    CHECK(is(mloop_frame_remove(&frames, &animation), MLOOP_FRAME_REMOVED, 0, 0));
    animation.has_token = false;
    CHECK(is(mloop_frame_remove(&frames, &animation), MLOOP_FRAME_REMOVED, 1, 0));
    CHECK(is(mloop_frame_vsync(&frames, UINT64_MAX), MLOOP_FRAME_ASKED, 0, 40000000));
    CHECK(is(mloop_frame_begin(&frames, 60000000, 60000000), MLOOP_FRAME_BEGAN, 0, 60000000));
    for (uint32_t phase = 0; phase < 4; phase++) {
        bool at_1 = phase == 1;
        CHECK(looks(mloop_frame_next(&frames, 60000000), MLOOP_STEP_PHASE, (mloop_callback){.phase = phase}, at_1, 60000000));
        if (at_1) CHECK(looks(mloop_frame_next(&frames, 60000000), MLOOP_STEP_RUN, later, 3, 60000000));
    }
    CHECK(looks(mloop_frame_next(&frames, 60000000), MLOOP_STEP_ENDED, (mloop_callback){0}, 0, 0));
    later.due = 70;
    CHECK(is(mloop_frame_post(&frames, &later, 60000000), MLOOP_FRAME_LATER, 0, 70));
    CHECK(is(mloop_frame_due(&frames, 1, 69999999), MLOOP_FRAME_NOTHING, 0, 0));
    CHECK(is(mloop_frame_due(&frames, 1, 70000000), MLOOP_FRAME_ASKED, 0, 80000000));
    CHECK(is(mloop_frame_due(&frames, 1, 70000000), MLOOP_FRAME_ALREADY, 0, 0));
    CHECK(is(mloop_frame_close(&frames), MLOOP_FRAME_CLOSED, 0, 0));
    frames_on_a_closed_handle(&frames);
}

static bool says(mloop_source_answer a, mloop_source_kind kind, uint64_t number)
{
    return a.kind == kind && a.number == number;
}

static bool turns(mloop_source_look a, mloop_look_kind kind, uint64_t number, uint32_t id)
{
    return a.kind == kind && a.number == number && a.id == id && a.birth == 0 && a.fd == 0 && a.events == 0;
}

static bool comes(mloop_source_look a, uint32_t fd, uint32_t events, uint64_t birth, uint64_t number, uint32_t id)
{
    return a.kind == MLOOP_LOOK_EVENT && a.fd == fd && a.events == events && a.birth == birth && a.number == number && a.id == id;
}

static void sources_on_a_closed_handle(mloop_sources *sources)
{
    CHECK(says(mloop_sources_close(sources), MLOOP_SOURCE_NOT_OPEN, 0));
    CHECK(says(mloop_idle_add(sources, 1), MLOOP_SOURCE_NOT_OPEN, 0));
    CHECK(says(mloop_idle_remove(sources, 1), MLOOP_SOURCE_NOT_OPEN, 0));
    CHECK(says(mloop_idle_begin(sources), MLOOP_SOURCE_NOT_OPEN, 0));
    CHECK(turns(mloop_idle_next(sources), MLOOP_LOOK_NOT_OPEN, 0, 0));
    CHECK(says(mloop_idle_done(sources, 0, false), MLOOP_SOURCE_NOT_OPEN, 0));
    CHECK(says(mloop_fd_watch(sources, 1, 1, 1), MLOOP_SOURCE_NOT_OPEN, 0));
    CHECK(says(mloop_fd_ready(sources, 1, 1), MLOOP_SOURCE_NOT_OPEN, 0));
    CHECK(turns(mloop_fd_next(sources), MLOOP_LOOK_NOT_OPEN, 0, 0));
    CHECK(says(mloop_fd_answer(sources, 1, 0, 0, 0), MLOOP_SOURCE_NOT_OPEN, 0));
    CHECK(says(mloop_fd_watched(sources, 1), MLOOP_SOURCE_NOT_OPEN, 0));
    CHECK(!sources->core.live);
}

static void sources(void)
{
    mloop_sources sources = MLOOP_SOURCES_CLOSED;
    sources_on_a_closed_handle(&sources);
    CHECK(mloop_sources_open(&sources) && !mloop_sources_open(&sources) && sources.core.live);
    CHECK(says(mloop_idle_begin(&sources), MLOOP_SOURCE_DONE, 0) && turns(mloop_idle_next(&sources), MLOOP_LOOK_NOTHING, 0, 0));
    CHECK(says(mloop_idle_add(&sources, 3), MLOOP_SOURCE_DONE, 0));
    CHECK(says(mloop_idle_add(&sources, 4), MLOOP_SOURCE_DONE, 1));
    CHECK(says(mloop_idle_add(&sources, 3), MLOOP_SOURCE_DONE, 2));
    CHECK(says(mloop_idle_begin(&sources), MLOOP_SOURCE_DONE, 3));
    CHECK(turns(mloop_idle_next(&sources), MLOOP_LOOK_IDLE, 0, 3));
    CHECK(says(mloop_idle_done(&sources, 0, true), MLOOP_SOURCE_NOTHING, 0));
    CHECK(says(mloop_idle_remove(&sources, 3), MLOOP_SOURCE_DONE, 0));
    CHECK(turns(mloop_idle_next(&sources), MLOOP_LOOK_IDLE, 1, 4));
    CHECK(says(mloop_idle_done(&sources, 1, false), MLOOP_SOURCE_DONE, 0));
    CHECK(turns(mloop_idle_next(&sources), MLOOP_LOOK_IDLE, 2, 3));
    CHECK(turns(mloop_idle_next(&sources), MLOOP_LOOK_NOTHING, 0, 0));
    CHECK(says(mloop_idle_remove(&sources, 4), MLOOP_SOURCE_NOTHING, 0));
    CHECK(says(mloop_idle_begin(&sources), MLOOP_SOURCE_DONE, 1) && turns(mloop_idle_next(&sources), MLOOP_LOOK_IDLE, 2, 3));

    CHECK(says(mloop_fd_watched(&sources, 5), MLOOP_SOURCE_NOTHING, 0));
    CHECK(says(mloop_fd_watch(&sources, 5, 8, 1), MLOOP_SOURCE_BAD_MASK, 0) && says(mloop_fd_ready(&sources, 5, 8), MLOOP_SOURCE_BAD_MASK, 0));
    CHECK(says(mloop_fd_watch(&sources, 5, MLOOP_FD_INPUT, 1), MLOOP_SOURCE_DONE, 0));
    CHECK(says(mloop_fd_watched(&sources, 5), MLOOP_SOURCE_DONE, 5));
    CHECK(says(mloop_fd_ready(&sources, 5, 3), MLOOP_SOURCE_DONE, 0) && says(mloop_fd_ready(&sources, 6, 1), MLOOP_SOURCE_DONE, 0));
    CHECK(says(mloop_fd_ready(&sources, 5, 2), MLOOP_SOURCE_DONE, 0) && says(mloop_fd_ready(&sources, 5, 4), MLOOP_SOURCE_DONE, 0));
    CHECK(comes(mloop_fd_next(&sources), 5, 1, 0, 0, 1));
    CHECK(turns(mloop_fd_next(&sources), MLOOP_LOOK_IGNORED, 0, 0));
    CHECK(says(mloop_fd_answer(&sources, 5, 0, 0, 8), MLOOP_SOURCE_BAD_MASK, 0));
    CHECK(says(mloop_fd_answer(&sources, 5, 0, 0, 2), MLOOP_SOURCE_DONE, 0) && says(mloop_fd_watched(&sources, 5), MLOOP_SOURCE_DONE, 6));
    CHECK(says(mloop_fd_answer(&sources, 5, 1, 0, 2), MLOOP_SOURCE_NOTHING, 0));
    CHECK(says(mloop_fd_watch(&sources, 5, 7, 2), MLOOP_SOURCE_DONE, 0));
    CHECK(comes(mloop_fd_next(&sources), 5, 2, 0, 1, 2));
    CHECK(says(mloop_fd_watch(&sources, 5, 0, 0), MLOOP_SOURCE_DONE, 0) && turns(mloop_fd_next(&sources), MLOOP_LOOK_IGNORED, 0, 0));
    CHECK(turns(mloop_fd_next(&sources), MLOOP_LOOK_NOTHING, 0, 0));
    CHECK(says(mloop_fd_watch(&sources, 5, 1, 0), MLOOP_SOURCE_DONE, 0) && says(mloop_fd_ready(&sources, 5, 1), MLOOP_SOURCE_DONE, 0));
    CHECK(comes(mloop_fd_next(&sources), 5, 1, 1, 0, 0));
    CHECK(says(mloop_sources_close(&sources), MLOOP_SOURCE_CLOSED, 0));
    sources_on_a_closed_handle(&sources);
}

/* A null pointer, and a call in a call, are answered. The mark is set here by hand: a heap that calls back is tried in misuse.c. */
static void misuse(void)
{
    mloop_frames frames = MLOOP_FRAMES_CLOSED;
    mloop_callback callback = {.id = 1};
    CHECK(!mloop_frame_open(NULL, 1, 1) && mloop_frame_open(&frames, INTERVAL, 4));
    CHECK(is(mloop_frame_post(NULL, &callback, 1), MLOOP_FRAME_NULL, 0, 0) && is(mloop_frame_post(&frames, NULL, 1), MLOOP_FRAME_NULL, 0, 0));
    CHECK(is(mloop_frame_remove(NULL, &callback), MLOOP_FRAME_NULL, 0, 0) && is(mloop_frame_remove(&frames, NULL), MLOOP_FRAME_NULL, 0, 0));
    CHECK(is(mloop_frame_due(NULL, 0, 1), MLOOP_FRAME_NULL, 0, 0) && is(mloop_frame_schedule(NULL, 1), MLOOP_FRAME_NULL, 0, 0));
    CHECK(is(mloop_frame_asked(NULL), MLOOP_FRAME_NULL, 0, 0) && is(mloop_frame_vsync(NULL, 1), MLOOP_FRAME_NULL, 0, 0));
    CHECK(is(mloop_frame_begin(NULL, 1, 1), MLOOP_FRAME_NULL, 0, 0) && is(mloop_frame_close(NULL), MLOOP_FRAME_NULL, 0, 0));
    CHECK(looks(mloop_frame_next(NULL, 1), MLOOP_STEP_NULL, (mloop_callback){0}, 0, 0));
    frames.busy = 1;
    CHECK(is(mloop_frame_post(&frames, &callback, 1), MLOOP_FRAME_BUSY, 0, 0) && !mloop_frame_open(&frames, 1, 1));
    CHECK(is(mloop_frame_close(&frames), MLOOP_FRAME_BUSY, 0, 0) && looks(mloop_frame_next(&frames, 1), MLOOP_STEP_BUSY, (mloop_callback){0}, 0, 0));
    frames.busy = 0;
    CHECK(is(mloop_frame_post(&frames, &callback, 1), MLOOP_FRAME_ASKED, 0, INTERVAL) && is(mloop_frame_close(&frames), MLOOP_FRAME_CLOSED, 0, 0));

    mloop_sources sources = MLOOP_SOURCES_CLOSED;
    CHECK(!mloop_sources_open(NULL) && mloop_sources_open(&sources) && says(mloop_sources_close(NULL), MLOOP_SOURCE_NULL, 0));
    CHECK(says(mloop_idle_add(NULL, 1), MLOOP_SOURCE_NULL, 0) && says(mloop_idle_remove(NULL, 1), MLOOP_SOURCE_NULL, 0));
    CHECK(says(mloop_idle_begin(NULL), MLOOP_SOURCE_NULL, 0) && turns(mloop_idle_next(NULL), MLOOP_LOOK_NULL, 0, 0));
    CHECK(says(mloop_idle_done(NULL, 0, true), MLOOP_SOURCE_NULL, 0) && says(mloop_fd_watch(NULL, 1, 1, 1), MLOOP_SOURCE_NULL, 0));
    CHECK(says(mloop_fd_ready(NULL, 1, 1), MLOOP_SOURCE_NULL, 0) && turns(mloop_fd_next(NULL), MLOOP_LOOK_NULL, 0, 0));
    CHECK(says(mloop_fd_answer(NULL, 1, 0, 0, 1), MLOOP_SOURCE_NULL, 0) && says(mloop_fd_watched(NULL, 1), MLOOP_SOURCE_NULL, 0));
    sources.busy = 1;
    CHECK(says(mloop_idle_add(&sources, 1), MLOOP_SOURCE_BUSY, 0) && turns(mloop_fd_next(&sources), MLOOP_LOOK_BUSY, 0, 0) && !mloop_sources_open(&sources));
    sources.busy = 0;
    CHECK(says(mloop_idle_add(&sources, 1), MLOOP_SOURCE_DONE, 0) && says(mloop_sources_close(&sources), MLOOP_SOURCE_CLOSED, 0));
}

int main(void)
{
    CHECK(sizeof(mloop_frames) == 24 && sizeof(mloop_callback) == 32 && sizeof(mloop_frame_answer) == 24 && sizeof(mloop_frame_look) == 56);
    CHECK(sizeof(mloop_sources) == 24 && sizeof(mloop_source_answer) == 16 && sizeof(mloop_source_look) == 32);
    frames();
    sources();
    misuse();
    puts("each call answers as it is to");
    return 0;
}
