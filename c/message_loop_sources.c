/* The loop's idle handlers and descriptors: their function pointers, and what the system watches. Which of them runs next is decided by
 * loop_sources.h. All of it belongs to the loop's thread. */
#include "message_loop_parts.h"

#include "loop_sources.h"

#include <stdlib.h>

typedef struct {
    mlp_idle_func func;
    void *user;
    uint32_t added; /* how often it stands; 0: the row is free, but not within an idle turn, which may still run it */
} idle_entry;

typedef struct {
    int fd;
    uint32_t mask; /* what the system is asked for; 0: the row is free */
    mlp_fd_func func;
    void *user;
} watch_entry;

typedef struct {
    mlp_part part;
    mloop_sources core;
    idle_entry *idles;
    watch_entry *watches;
    uint32_t idle_count, watch_count;
    bool idle_turn;
} mlp_sources;

static mlp_sources *sources_of(mlp_loop *loop)
{
    return (mlp_sources *)loop->sources; /* `part` is its first field */
}

/* ---- what the loop does with them */

/* What the table watches for at the row's descriptor is what the system is asked for. */
static bool watch_as_table(mlp_loop *loop, uint32_t row)
{
    watch_entry *watch = &sources_of(loop)->watches[row];
    uint32_t mask = (uint32_t)mloop_fd_watched(&sources_of(loop)->core, (uint32_t)watch->fd).number;
    if (mask == watch->mask) return true;
    loop->watched += (mask != 0) - (watch->mask != 0);
    watch->mask = mask;
    return mlp_system_watch(&loop->system, watch->fd, mask);
}

static void run_idle_handlers(mlp_loop *loop)
{
    mlp_sources *it = sources_of(loop);
    mloop_source_look look;
    it->idle_turn = mloop_idle_begin(&it->core).kind == MLOOP_SOURCE_DONE;
    while (it->idle_turn && (look = mloop_idle_next(&it->core)).kind == MLOOP_LOOK_IDLE) {
        idle_entry entry = it->idles[look.id];
        bool keep = entry.func(entry.user);
        if (mloop_idle_done(&it->core, look.number, keep).kind == MLOOP_SOURCE_DONE) it->idles[look.id].added--;
    }
    it->idle_turn = false;
}

static void take_events(mlp_loop *loop)
{
    mlp_sources *it = sources_of(loop);
    mloop_source_look look;
    loop->next.events = false;
    while ((look = mloop_fd_next(&it->core)).kind == MLOOP_LOOK_EVENT || look.kind == MLOOP_LOOK_IGNORED) {
        if (look.kind == MLOOP_LOOK_IGNORED) continue;
        watch_entry watch = it->watches[look.id];
        uint32_t mask = watch.func((int)look.fd, look.events, watch.user);
        mloop_fd_answer(&it->core, look.fd, look.birth, look.number, mask & 7);
        watch_as_table(loop, look.id);
    }
}

/* Something came at a descriptor. Without memory it is told again at the next wait. */
static void ready(void *user, int fd, uint32_t events)
{
    mlp_loop *loop = user;
    if (mloop_fd_ready(&sources_of(loop)->core, (uint32_t)fd, events).kind == MLOOP_SOURCE_DONE) loop->next.events = true;
}

static void end(mlp_loop *loop)
{
    mlp_sources *it = sources_of(loop);
    mloop_sources_close(&it->core);
    free(it->idles);
    free(it->watches);
    free(it);
}

/* The loop's, which are made where there are none. NULL where there is no memory. */
static mlp_sources *made(mlp_loop *loop)
{
    if (loop->sources != NULL) return sources_of(loop);
    mlp_sources *it = calloc(1, sizeof *it);
    if (it == NULL || !mloop_sources_open(&it->core)) {
        free(it);
        return NULL;
    }
    it->part = (mlp_part){take_events, run_idle_handlers, end};
    loop->sources = &it->part;
    loop->system.ready = ready;
    loop->system.ready_user = loop;
    return it;
}

/* ---- idle handlers */

/* The row of the handler, or else a free one, or else the number of rows. */
static uint32_t idle_row(const mlp_sources *it, mlp_idle_func func, void *user)
{
    uint32_t empty = it->idle_count;
    for (uint32_t id = 0; id < it->idle_count; id++) {
        if (it->idles[id].func == func && it->idles[id].user == user) return id;
        if (it->idles[id].added == 0 && !it->idle_turn) empty = id;
    }
    return empty;
}

bool mlp_on_idle(mlp_loop *loop, mlp_idle_func func, void *user)
{
    mlp_sources *it = loop == NULL || func == NULL ? NULL : made(loop);
    if (it == NULL) return false;
    uint32_t id = idle_row(it, func, user);
    idle_entry *idles = id < it->idle_count ? it->idles : realloc(it->idles, (id + 1) * sizeof *idles);
    if (idles == NULL) return false;
    it->idles = idles;
    if (id == it->idle_count) idles[it->idle_count++] = (idle_entry){.added = 0};
    if (mloop_idle_add(&it->core, id).kind != MLOOP_SOURCE_DONE) return false;
    it->idles[id] = (idle_entry){func, user, it->idles[id].added + 1};
    return true;
}

bool mlp_remove_idle(mlp_loop *loop, mlp_idle_func func, void *user)
{
    if (loop == NULL || loop->sources == NULL) return false;
    mlp_sources *it = sources_of(loop);
    uint32_t id = idle_row(it, func, user);
    if (id == it->idle_count || mloop_idle_remove(&it->core, id).kind != MLOOP_SOURCE_DONE) return false;
    it->idles[id].added--;
    return true;
}

/* ---- descriptors */

/* The row of the descriptor, or else a free one, or else the number of rows. */
static uint32_t watch_row(const mlp_sources *it, int fd)
{
    uint32_t empty = it->watch_count;
    for (uint32_t row = 0; row < it->watch_count; row++) {
        if (it->watches[row].mask != 0 && it->watches[row].fd == fd) return row;
        if (it->watches[row].mask == 0) empty = row;
    }
    return empty;
}

bool mlp_watch(mlp_loop *loop, int fd, uint32_t mask, mlp_fd_func func, void *user)
{
    mlp_sources *it = loop == NULL || fd < 0 || (mask != 0 && func == NULL) ? NULL : made(loop);
    if (it == NULL) return false;
    uint32_t row = watch_row(it, fd);
    if (mask == 0 && (row == it->watch_count || it->watches[row].mask == 0)) return true;
    watch_entry *watches = row < it->watch_count ? it->watches : realloc(it->watches, (row + 1) * sizeof *watches);
    if (watches == NULL) return false;
    it->watches = watches;
    if (row == it->watch_count) watches[it->watch_count++] = (watch_entry){.mask = 0};
    watches[row].fd = fd;
    if (mloop_fd_watch(&it->core, (uint32_t)fd, mask, row).kind != MLOOP_SOURCE_DONE) return false;
    if (mask != 0) watches[row].func = func, watches[row].user = user;
    if (watch_as_table(loop, row)) return true;
    mloop_fd_watch(&it->core, (uint32_t)fd, 0, row); /* the system does not take it */
    watch_as_table(loop, row);
    return false;
}
