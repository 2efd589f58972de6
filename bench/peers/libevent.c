/* libevent with its locks on: one event a message (event_base_once). */
#include "bench.h"

#include <event2/event.h>
#include <event2/thread.h>
#include <pthread.h>
#include <unistd.h>

static struct event_base *base;
static long left;
static int chained;

static void one(evutil_socket_t socket, short what, void *argument);

static void post(long microseconds)
{
    struct timeval after = {microseconds / 1000000, microseconds % 1000000};
    event_base_once(base, -1, EV_TIMEOUT, one, NULL, &after);
}

static void one(evutil_socket_t socket, short what, void *argument)
{
    (void)socket;
    (void)what;
    (void)argument;
    if (--left == 0) {
        event_base_loopbreak(base);
    } else if (chained) {
        post(0);
    }
}

static void *post_some(void *given)
{
    struct share *share = given;
    stay_on(share->processor);
    for (long i = share->count; i > 0; i--) {
        post(0);
    }
    return NULL;
}

static void posters(char **word, long count)
{
    pthread_t threads[POSTERS];
    struct share shares[POSTERS];
    for (int i = 0; i < posters_of(word); i++) {
        shares[i] = share_of(word, count, i);
        pthread_create(&threads[i], NULL, post_some, &shares[i]);
    }
    stay_on(is_apart(word) ? 0 : -1);
    event_base_loop(base, EVLOOP_NO_EXIT_ON_EMPTY);
    for (int i = 0; i < posters_of(word); i++) {
        pthread_join(threads[i], NULL);
    }
}

static void run(char **word, long count)
{
    left = count;
    chained = is_mode(word, "chain");
    if (has_posters(word)) {
        posters(word, count);
        return;
    }
    for (long i = 0; i < (chained ? 1 : count); i++) {
        int at_once = chained || is_mode(word, "burst");
        post(at_once ? 0 : is_mode(word, "rising") ? 1 + i * 20000 / count : 1 + (long)scattered(20000));
    }
    if (is_mode(word, "rising") || is_mode(word, "scatter")) {
        usleep(30000);
    }
    event_base_dispatch(base);
}

int main(int words, char **word)
{
    long count = count_of(words, word), rounds = rounds_of(word);
    evthread_use_pthreads();
    base = event_base_new();
    uint64_t start = time_of(word);
    for (long round = 0; round < rounds; round++) {
        run(word, count);
    }
    report(time_of(word) - start, count * rounds);
    return left != 0;
}
