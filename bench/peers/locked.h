/* The modes over a queue under a pthread mutex with a condition variable: what `ours.c` and `plain_list.c` share. The file that
 * includes this defines open_queue, post, next and taken.
 *
 * Where it defines MOMENT_KEPT too, the thread that takes keeps the moment that it read, as libuv and libevent keep the time of a
 * turn: it looks and posts for that moment, and reads the clock anew once nothing is due by it. Where it defines SPINS, a thread tries
 * so often for the lock before it sleeps. */
#include "bench.h"

#include "message_queue.h"
#include <pthread.h>

static bool open_queue(void);
static msgq_answer post(const msgq_message *message);
static msgq_look next(uint64_t now);
/* Is called once for each message that was taken, under the lock. */
static void taken(void);

static pthread_mutex_t lock = PTHREAD_MUTEX_INITIALIZER;
static pthread_cond_t changed;
static uint64_t sum;

static void hold(void)
{
#ifdef SPINS
    for (int tries = 0; tries < SPINS; tries++) {
        if (pthread_mutex_trylock(&lock) == 0) {
            return;
        }
        for (int pause = 0; pause < 20; pause++) {
            __builtin_ia32_pause();
        }
    }
#endif
    pthread_mutex_lock(&lock);
}

static uint64_t milliseconds(void)
{
    return nanoseconds(CLOCK_MONOTONIC) / 1000000;
}

/* The moment that the taking thread keeps. */
static uint64_t moment;

/* The moment for which the taking thread posts. */
static uint64_t own_moment(void)
{
#ifdef MOMENT_KEPT
    return moment;
#else
    return milliseconds();
#endif
}

static msgq_look look_now(void)
{
#ifdef MOMENT_KEPT
    msgq_look look = next(moment);
    if (look.kind == MSGQ_TAKEN) {
        return look;
    }
    moment = milliseconds();
    return next(moment);
#else
    return next(milliseconds());
#endif
}

static void send(uint64_t when)
{
    msgq_message message = {.when = when, .handler = 7, .what = 1};
    hold();
    msgq_answer answer = post(&message);
    if (answer.wake) {
        pthread_cond_signal(&changed);
    }
    pthread_mutex_unlock(&lock);
    if (answer.kind != MSGQ_DONE) {
        exit(3);
    }
}

static void wait_for(const msgq_look *look)
{
    if (look->kind == MSGQ_WAIT) {
        struct timespec time = {(time_t)(look->time / 1000), (long)(look->time % 1000) * 1000000};
        pthread_cond_timedwait(&changed, &lock, &time);
    } else if (look->kind == MSGQ_WAIT_FOREVER) {
        pthread_cond_wait(&changed, &lock);
    } else {
        exit(4);
    }
}

static void take(void)
{
    hold();
    msgq_look look = look_now();
    while (look.kind != MSGQ_TAKEN) {
        wait_for(&look);
        look = look_now();
    }
    taken();
    pthread_mutex_unlock(&lock);
    sum += look.message.what;
}

static void *post_some(void *given)
{
    struct share *share = given;
    stay_on(share->processor);
    for (long i = share->count; i > 0; i--) {
        send(milliseconds());
    }
    return NULL;
}

static void posters(char **word, long count)
{
    pthread_t threads[POSTERS];
    struct share shares[POSTERS];
    for (int i = 0; i < posters_of(word); i++) {
        shares[i] = share_of(word, count, i);
        pthread_create(&threads[i], NULL, post_some, &shares[i]);
    }
    stay_on(is_apart(word) ? 0 : -1);
    for (long i = 0; i < count; i++) {
        take();
    }
    for (int i = 0; i < posters_of(word); i++) {
        pthread_join(threads[i], NULL);
    }
}

/* All are posted, then all are taken. */
static void each_then_all(char **word, long count)
{
    uint64_t now = milliseconds();
    for (long i = 0; i < count; i++) {
        send(is_mode(word, "burst") ? now : is_mode(word, "rising") ? now - (uint64_t)(count - i) / 1000 : 1 + scattered(now));
    }
    for (long i = 0; i < count; i++) {
        take();
    }
}

static void chain(long count)
{
    for (long i = 0; i < count; i++) {
        send(own_moment());
        take();
    }
}

int main(int words, char **word)
{
    long count = count_of(words, word), rounds = rounds_of(word);
    pthread_condattr_t monotonic;
    pthread_condattr_init(&monotonic);
    pthread_condattr_setclock(&monotonic, CLOCK_MONOTONIC);
    pthread_cond_init(&changed, &monotonic);
    if (!open_queue()) {
        return 5;
    }
    moment = milliseconds();
    uint64_t start = time_of(word);
    for (long round = 0; round < rounds; round++) {
        if (has_posters(word)) {
            posters(word, count);
        } else if (is_mode(word, "chain")) {
            chain(count);
        } else {
            each_then_all(word, count);
        }
    }
    report(time_of(word) - start, count * rounds);
    return sum != (uint64_t)(count * rounds);
}
