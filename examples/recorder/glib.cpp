/* Histories of GLib's main context, judged by `dashboard check`.
 *
 *     glib PROGRAM [COUNT] [CHANGED]
 *
 * A message is a source of one priority with a ready time. Of the sources that are ready at one look GLib dispatches the one that was
 * attached first, whatever their ready times. So its rule is the queue's as far as no look finds two of different times: the clock goes on by
 * one millisecond at a time, each with a look, and what is posted is due later, or now where a handler posts it. Removals are by source.
 * With a look at every fifth millisecond alone the check finds the first message that came out of order, which is told at the end. */
#include "judge.h"

#include "held_clock.h"

#include <glib.h>

struct Told {
    History history;
    std::mt19937_64 &random;
    GMainContext *context = g_main_context_new();
    std::map<int, GSource *> sources;
    int64_t again = 0;
    int64_t step;

    Told(unsigned number, std::mt19937_64 &r, int64_t milliseconds) : history(number), random(r), step(milliseconds) {}
    ~Told() { g_main_context_unref(context); }
    int64_t below(int64_t limit) { return static_cast<int64_t>(random() % static_cast<uint64_t>(limit)); }
    void post(int64_t soonest);
    void remove()
    {
        int number = static_cast<int>(below(static_cast<int64_t>(history.told.posts) + 1));
        auto at = sources.find(number);
        if (at != sources.end()) {
            g_source_destroy(at->second);
            sources.erase(at);
        }
        history.removed(0, number);
    }
    void look()
    {
        while (g_main_context_iteration(context, FALSE)) {
        }
    }
};

struct Message { Told *told; int number; };

static gboolean handle(gpointer it)
{
    Message *message = static_cast<Message *>(it);
    Told &told = *message->told;
    told.sources.erase(message->number);
    told.history.dispatched(message->number, held_clock::now);
    if (told.again > 0 && told.below(3) == 0) {
        told.again--;
        told.post(0);
    }
    return G_SOURCE_REMOVE;
}

void Told::post(int64_t soonest)
{
    int64_t when = held_clock::now + (below(3) == 0 ? soonest : soonest + below(12));
    int number = history.post(0, when);
    GSource *source = g_timeout_source_new(0);
    g_source_set_ready_time(source, when * 1000);
    g_source_set_callback(source, handle, new Message{this, number}, [](gpointer it) { delete static_cast<Message *>(it); });
    g_source_attach(source, context);
    g_source_unref(source);
    sources[number] = source;
}

static std::string history(unsigned number, std::mt19937_64 &random, int64_t step)
{
    held_clock::now = 1000;
    Told told(number, random, step);
    told.again = told.below(10);
    for (int64_t i = 1 + told.below(60); i > 0; i--) {
        int64_t pick = told.below(10);
        if (pick < 6) {
            told.post(1);
        } else if (pick < 7) {
            told.remove();
        } else {
            held_clock::now += step;
            told.look();
        }
    }
    for (int i = 0; i < 30; i++) {
        held_clock::now += step;
        told.look();
    }
    return told.history.text();
}

int main(int words, char **word)
{
    must(words >= 2, "usage: glib PROGRAM [COUNT] [CHANGED]");
    uint64_t count = words > 2 ? strtoull(word[2], nullptr, 10) : 1000, changed = words > 3 ? strtoull(word[3], nullptr, 10) : 50;
    bool fine = judge(word[1], "GLib's main context", count, changed, [](unsigned number, std::mt19937_64 &random) { return history(number, random, 1); });
    std::mt19937_64 random(1);
    std::string all;
    for (unsigned i = 0; i < 20; i++) {
        all += history(i, random, 5);
    }
    std::string verdict = run_program(word[1], "check", trace_of(all));
    printf("  with a look at every fifth millisecond alone, which is not the queue's rule: %s", verdict.c_str());
    return fine && verdict.rfind("illegal ", 0) == 0 ? 0 : 1;
}
