/* libuv: one timer a message, allocated for it. A loop takes posts of its own thread alone, so it has no mode `posters`. */
#include "bench.h"

#include <unistd.h>
#include <uv.h>

static uv_loop_t *loop;
static long left;
static int chained;

static void closed(uv_handle_t *handle)
{
    free(handle);
}

static void one(uv_timer_t *timer);

static void post(uint64_t after)
{
    uv_timer_t *timer = malloc(sizeof *timer);
    uv_timer_init(loop, timer);
    uv_timer_start(timer, one, after, 0);
}

static void one(uv_timer_t *timer)
{
    uv_close((uv_handle_t *)timer, closed);
    if (--left > 0 && chained) {
        post(0);
    }
}

static void run(char **word, long count)
{
    left = count;
    chained = is_mode(word, "chain");
    uv_update_time(loop);
    for (long i = 0; i < (chained ? 1 : count); i++) {
        int at_once = chained || is_mode(word, "burst");
        post(at_once ? 0 : is_mode(word, "rising") ? (uint64_t)(i * 20 / count) : scattered(20));
    }
    if (is_mode(word, "rising") || is_mode(word, "scatter")) {
        usleep(30000);
    }
    uv_run(loop, UV_RUN_DEFAULT);
}

int main(int words, char **word)
{
    long count = count_of(words, word), rounds = rounds_of(word);
    if (is_mode(word, "posters")) {
        return 7;
    }
    loop = uv_default_loop();
    uint64_t start = processor_time();
    for (long round = 0; round < rounds; round++) {
        run(word, count);
    }
    report(processor_time() - start, count * rounds);
    return left != 0;
}
