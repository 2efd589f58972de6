/* GLib's main context: one source a message, an idle source for now and a timeout for a time.
 *
 * Beside the modes of bench.h it has one of its own: `glib order COUNT 1` posts so many sources for scattered times that have passed, and
 * prints how many of them ran behind one of a later time. */
#include "bench.h"

#include <glib.h>

static GMainContext *context;
static GMainLoop *loop;
static long left;
static gboolean chained;
static gint64 latest;
static long late;

static void post(gint64 ready);

static gboolean one(gpointer argument)
{
    (void)argument;
    if (--left == 0) {
        g_main_loop_quit(loop);
    } else if (chained) {
        post(0);
    }
    return G_SOURCE_REMOVE;
}

/* For this moment of the monotonic clock in microseconds, or for now at 0. */
static void post(gint64 ready)
{
    GSource *source = ready != 0 ? g_timeout_source_new(0) : g_idle_source_new();
    if (ready != 0) {
        g_source_set_ready_time(source, ready);
    }
    g_source_set_priority(source, G_PRIORITY_DEFAULT);
    g_source_set_callback(source, one, NULL, NULL);
    g_source_attach(source, context);
    g_source_unref(source);
}

static gpointer post_some(gpointer given)
{
    struct share *share = given;
    stay_on(share->processor);
    for (long i = share->count; i > 0; i--) {
        post(0);
    }
    return NULL;
}

static void posters(char **word, long count)
{
    GThread *threads[POSTERS];
    struct share shares[POSTERS];
    for (int i = 0; i < posters_of(word); i++) {
        shares[i] = share_of(word, count, i);
        threads[i] = g_thread_new("poster", post_some, &shares[i]);
    }
    stay_on(is_apart(word) ? 0 : -1);
    g_main_loop_run(loop);
    for (int i = 0; i < posters_of(word); i++) {
        g_thread_join(threads[i]);
    }
}

/* Runs for the moment that it was posted for. */
static gboolean one_of(gpointer ready)
{
    late += *(gint64 *)ready < latest;
    latest = MAX(latest, *(gint64 *)ready);
    g_free(ready);
    return one(NULL);
}

static int order(long count)
{
    gint64 now = g_get_monotonic_time();
    left = count;
    for (long i = 0; i < count; i++) {
        gint64 *ready = g_new(gint64, 1);
        *ready = 1 + (gint64)scattered((uint64_t)now);
        GSource *source = g_timeout_source_new(0);
        g_source_set_ready_time(source, *ready);
        g_source_set_priority(source, G_PRIORITY_DEFAULT);
        g_source_set_callback(source, one_of, ready, NULL);
        g_source_attach(source, context);
        g_source_unref(source);
    }
    g_main_loop_run(loop);
    printf("%ld of %ld ran behind one of a later time\n", late, count);
    return 0;
}

static void run(char **word, long count)
{
    gint64 now = g_get_monotonic_time();
    left = count;
    chained = is_mode(word, "chain");
    if (has_posters(word)) {
        posters(word, count);
        return;
    }
    for (long i = 0; i < (chained ? 1 : count); i++) {
        gboolean at_once = chained || is_mode(word, "burst");
        post(at_once ? 0 : is_mode(word, "rising") ? now - count + i : 1 + (gint64)scattered((uint64_t)now));
    }
    g_main_loop_run(loop);
}

int main(int words, char **word)
{
    long count = count_of(words, word), rounds = rounds_of(word);
    context = g_main_context_new();
    loop = g_main_loop_new(context, FALSE);
    if (is_mode(word, "order")) {
        return order(count);
    }
    uint64_t start = time_of(word);
    for (long round = 0; round < rounds; round++) {
        run(word, count);
    }
    report(time_of(word) - start, count * rounds);
    return left != 0;
}
