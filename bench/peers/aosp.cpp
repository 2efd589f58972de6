/* AOSP's native android::Looper (libutils): one message a post, by sendMessageAtTime, and pollOnce on the real clock. Its list is an array
 * in order, from whose front one message is taken at a time, so a long one costs a walk and a move. */
#include "bench.h"

#include <thread>
#include <unistd.h>
#include <utils/Looper.h>

using namespace android;

static sp<Looper> looper;
static long left;
static bool chained;
static uint64_t sum;

static void post(nsecs_t when);

struct Counter : MessageHandler {
    void handleMessage(const Message &message) override
    {
        sum += static_cast<uint64_t>(message.what);
        if (--left > 0 && chained) {
            post(systemTime(SYSTEM_TIME_MONOTONIC));
        }
    }
};

static sp<Counter> handler;

static void post(nsecs_t when)
{
    looper->sendMessageAtTime(when, handler, Message(1));
}

static void drain()
{
    while (left > 0) {
        looper->pollOnce(-1);
    }
}

static void posters(long count)
{
    std::thread threads[POSTERS];
    for (std::thread &thread : threads) {
        thread = std::thread([count] {
            for (long i = count / POSTERS; i > 0; i--) {
                post(systemTime(SYSTEM_TIME_MONOTONIC));
            }
        });
    }
    drain();
    for (std::thread &thread : threads) {
        thread.join();
    }
}

static void run(char **word, long count)
{
    nsecs_t now = systemTime(SYSTEM_TIME_MONOTONIC);
    chained = is_mode(word, "chain");
    if (is_mode(word, "posters")) {
        left = count;
        posters(count);
        return;
    }
    left = count;
    for (long i = 0; i < (chained ? 1 : count); i++) {
        bool at_once = chained || is_mode(word, "burst");
        nsecs_t past = is_mode(word, "rising") ? now - (count - i) * 1000 : static_cast<nsecs_t>(1 + scattered(static_cast<uint64_t>(now) / 1000000)) * 1000000;
        post(at_once ? now : past);
    }
    drain();
}

int main(int words, char **word)
{
    long count = count_of(words, word), rounds = rounds_of(word);
    looper = new Looper(false);
    handler = new Counter();
    uint64_t start = processor_time();
    for (long round = 0; round < rounds; round++) {
        run(word, count);
    }
    report(processor_time() - start, count * rounds);
    return sum != static_cast<uint64_t>(count * rounds);
}
