/* AOSP's native android::Looper, the queue for C and `dashboard run` on scripts that mean the same.
 *
 *     scripts PROGRAM [--seed S] [--count N] [--plant P] [--class common|zero] [--loopers L]
 *
 * A script has one to three loopers, or as many as are named, a thread for each, and handlers, blocks and reactions that stay with their looper, so that it has one
 * report whatever the schedule. Each looper is one AOSP Looper and one queue for C: `post` is sendMessageDelayed, `front` sendMessageAtTime
 * with a time before all others, `remove` and `remove-all` are removeMessages, a reaction is a sendMessageDelayed by the handler while
 * it handles. The clock goes from a block to the next by the looper's own waits. Compared: of each looper the lines `dispatch` in order,
 * with the time, the handler, the what, and the number of the post where the what is used once; and how many were accepted, dispatched,
 * removed and left. The class `zero` has a block at time 0 and differs by design. The plants: 1 the script delays some posts by one more,
 * 2 the queue for C gets them so, 3 the queue's removals take every what. */
#include "message_queue.h"
#include "program.h"
#include "virtual_time.h"

#include <climits>
#include <cstring>
#include <map>
#include <random>
#include <sstream>
#include <vector>

using namespace android;

struct Command { int looper; std::string word; int handler, what; int64_t delay; };
struct Block { int64_t time; std::vector<Command> commands; };
struct Reaction { int handler, what, times, to_handler, to_what; int64_t delay; };
struct Script {
    int loopers = 1;
    std::vector<int> home; // of each handler
    std::vector<Reaction> reactions;
    std::vector<Block> blocks;
    int64_t end = 0;
};
struct Line { int64_t time, number, handler, what; };
struct Told {
    std::vector<Line> lines;
    int64_t accepted = 0, dispatched = 0, removed = 0, left = 0;
};

static int plant = 0;

static std::string text(const Script &s)
{
    std::ostringstream out;
    out << "dashboard 1\nloopers " << s.loopers << "\nthreads " << s.loopers << "\n";
    for (size_t h = 0; h < s.home.size(); h++) {
        out << "handler " << h << " " << s.home[h] << "\n";
    }
    out << "vsync 16666667\n";
    for (const Reaction &r : s.reactions) {
        out << "on " << r.handler << " " << r.what << " times " << r.times << " post " << r.to_handler << " " << r.to_what << " " << r.delay << "\n";
    }
    for (const Block &b : s.blocks) {
        out << "at " << b.time << "\n";
        for (const Command &c : b.commands) {
            out << c.looper << " " << c.word << " " << c.handler;
            if (c.word != "remove-all") {
                out << " " << c.what;
            }
            if (c.word == "post") {
                out << " " << c.delay + (plant == 1 && c.delay == 3 ? 1 : 0);
            }
            out << "\n";
        }
    }
    out << "end " << s.end << "\n";
    return out.str();
}

/* One looper of the script, on a queue of whatever kind. */
struct Run {
    const Script &s;
    int which;
    std::vector<int> left;
    std::map<std::pair<int, int>, std::pair<int, int64_t>> posts; // how often, and the number of the last
    bool draining = false;
    Told told;

    Run(const Script &of, int number) : s(of), which(number)
    {
        for (const Reaction &r : s.reactions) {
            left.push_back(r.times);
        }
    }
    virtual ~Run() = default;
    virtual void send_delayed(int handler, int what, int64_t delay) = 0;
    virtual void front(int handler, int what) = 0;
    virtual void remove(int handler, int what) = 0;
    virtual void remove_all(int handler) = 0;
    /* Handles what is due, and waits so many milliseconds at most where nothing is. */
    virtual void poll(int most) = 0;

    int64_t now() const { return virtual_time::now / 1000000; }
    void count(int handler, int what)
    {
        auto &at = posts[{handler, what}];
        at.first++;
        at.second = told.accepted++;
    }
    void handled(int handler, int what)
    {
        if (draining) {
            told.left++;
            return;
        }
        told.dispatched++;
        told.lines.push_back({now(), 0, handler, what});
        for (size_t i = 0; i < s.reactions.size(); i++) {
            const Reaction &r = s.reactions[i];
            if (r.handler == handler && r.what == what && left[i] > 0) {
                left[i]--;
                count(r.to_handler, r.to_what);
                send_delayed(r.to_handler, r.to_what, r.delay);
            }
        }
    }
    /* Lets the looper wait and work until the moment, and leaves what is due at it. */
    void until(int64_t moment)
    {
        while (now() < moment - 1) {
            poll(static_cast<int>(moment - 1 - now()));
        }
        virtual_time::now = moment * 1000000;
    }
    void act(const Command &c)
    {
        if (c.word == "post") {
            count(c.handler, c.what);
            send_delayed(c.handler, c.what, c.delay);
        } else if (c.word == "front") {
            count(c.handler, c.what);
            front(c.handler, c.what);
        } else if (c.word == "remove") {
            remove(c.handler, c.what);
        } else {
            remove_all(c.handler);
        }
    }
    Told run()
    {
        virtual_time::now = 0;
        virtual_time::passes = true;
        poll(0);
        for (const Block &b : s.blocks) {
            until(b.time);
            for (const Command &c : b.commands) {
                if (c.looper == which) {
                    act(c);
                }
            }
            poll(0);
        }
        until(s.end);
        poll(0);
        draining = true;
        virtual_time::passes = false;
        virtual_time::now += int64_t{1} << 60;
        poll(0);
        told.removed = told.accepted - told.dispatched - told.left;
        for (Line &line : told.lines) {
            auto at = posts[{static_cast<int>(line.handler), static_cast<int>(line.what)}];
            line.number = at.first == 1 ? at.second : -1;
        }
        return told;
    }
};

struct Aosp : Run {
    struct Handler : MessageHandler {
        Aosp *run;
        int number;
        Handler(Aosp *r, int n) : run(r), number(n) {}
        void handleMessage(const Message &message) override { run->handled(number, message.what); }
    };
    sp<Looper> looper = new Looper(false);
    std::vector<sp<Handler>> handlers;
    int64_t fronts = 0;

    Aosp(const Script &of, int number) : Run(of, number)
    {
        for (size_t h = 0; h < s.home.size(); h++) {
            handlers.push_back(new Handler(this, static_cast<int>(h)));
        }
    }
    const sp<Handler> &handler(int number) { return handlers[static_cast<size_t>(number)]; }
    void send_delayed(int h, int what, int64_t delay) override { looper->sendMessageDelayed(delay * 1000000, handler(h), Message(what)); }
    /* The native looper has no front: a time before all others is one. */
    void front(int h, int what) override { looper->sendMessageAtTime(-++fronts, handler(h), Message(what)); }
    void remove(int h, int what) override { looper->removeMessages(handler(h), what); }
    void remove_all(int h) override { looper->removeMessages(handler(h)); }
    void poll(int most) override { looper->pollOnce(most); }
};

struct Ours : Run {
    msgq_queue queue = MSGQ_CLOSED;

    Ours(const Script &of, int number) : Run(of, number) { must(msgq_open(&queue), "no queue"); }
    ~Ours() override
    {
        msgq_close(&queue);
        msgq_close(&queue);
    }
    void post(int handler, int what, uint64_t when)
    {
        msgq_message message = {};
        message.when = when;
        message.handler = static_cast<uint32_t>(handler);
        message.what = static_cast<uint32_t>(what);
        must(msgq_post(&queue, &message).kind == MSGQ_DONE, "a post that was not accepted");
    }
    void send_delayed(int handler, int what, int64_t delay) override
    {
        post(handler, what, static_cast<uint64_t>(now() + delay + (plant == 2 && delay == 3 ? 1 : 0)));
    }
    void front(int handler, int what) override { post(handler, what, 0); }
    void take_out(const msgq_filter &filter) { must(msgq_remove(&queue, &filter).kind == MSGQ_DONE, "a removal that was not made"); }
    void remove(int handler, int what) override
    {
        msgq_filter filter = {};
        filter.handler = static_cast<uint32_t>(handler);
        filter.what = static_cast<uint32_t>(what);
        filter.by_what = plant != 3;
        take_out(filter);
    }
    void remove_all(int handler) override
    {
        msgq_filter filter = {};
        filter.handler = static_cast<uint32_t>(handler);
        take_out(filter);
    }
    /* Handles what is due; where nothing is, the clock goes on by the wait, and what is due then is handled. */
    void poll(int most) override
    {
        for (int64_t rounds = 0; rounds < 2; rounds++) {
            msgq_look look = msgq_next(&queue, static_cast<uint64_t>(now()), false);
            bool took = false;
            for (; look.kind == MSGQ_TAKEN; look = msgq_next(&queue, static_cast<uint64_t>(now()), false)) {
                took = true;
                handled(static_cast<int>(look.message.handler), static_cast<int>(look.message.what));
            }
            if (took || most == 0 || rounds == 1) {
                return;
            }
            int64_t wait = look.kind == MSGQ_WAIT ? static_cast<int64_t>(look.time) - now() : most;
            virtual_time::now += std::min<int64_t>(wait, most) * 1000000;
        }
    }
};

/* What the program's report tells of each looper. */
static std::vector<Told> read_report(const std::string &report)
{
    std::vector<Told> all;
    std::istringstream lines(report);
    std::string line;
    while (std::getline(lines, line)) {
        std::istringstream words(line);
        std::string first, second, name;
        words >> first >> second;
        if (first == "looper") {
            all.emplace_back();
        } else if (second == "dispatch") {
            Line one;
            one.time = atoll(first.c_str());
            words >> one.number >> one.handler >> one.what;
            all.back().lines.push_back(one);
        } else if (first == "fates") {
            Told &told = all.back();
            int64_t dropped, stranded, queued;
            words >> told.accepted >> name >> told.dispatched >> name >> told.removed >> name >> dropped >> name >> stranded >> name >> queued;
            told.left = dropped + stranded + queued;
        }
    }
    return all;
}

/* What AOSP's looper and another queue tell differently; empty where they agree. */
static std::string differs(const Told &aosp, const Told &other)
{
    char told[300];
    for (size_t i = 0; i < std::max(aosp.lines.size(), other.lines.size()); i++) {
        if (i >= aosp.lines.size() || i >= other.lines.size()) {
            snprintf(told, sizeof told, "AOSP dispatches %zu, the other %zu", aosp.lines.size(), other.lines.size());
            return told;
        }
        const Line &a = aosp.lines[i], &b = other.lines[i];
        if (a.time != b.time || a.handler != b.handler || a.what != b.what || (a.number >= 0 && a.number != b.number)) {
            snprintf(told, sizeof told, "dispatch %zu: AOSP at %ld number %ld handler %ld what %ld, the other at %ld number %ld handler %ld what %ld", i,
                     a.time, a.number, a.handler, a.what, b.time, b.number, b.handler, b.what);
            return told;
        }
    }
    if (aosp.accepted != other.accepted || aosp.dispatched != other.dispatched || aosp.removed != other.removed || aosp.left != other.left) {
        snprintf(told, sizeof told, "AOSP accepted %ld dispatched %ld removed %ld left %ld, the other %ld %ld %ld %ld", aosp.accepted, aosp.dispatched,
                 aosp.removed, aosp.left, other.accepted, other.dispatched, other.removed, other.left);
        return told;
    }
    return "";
}

struct Compared { uint64_t loopers = 0, dispatches = 0, numbered = 0, removed = 0, left = 0; };

static std::string differs(const char *program, const Script &s, Compared *compared)
{
    std::string report = run_program(program, "run", text(s));
    std::vector<Told> theirs = read_report(report);
    if (theirs.size() != static_cast<size_t>(s.loopers)) {
        return "the report has not each looper: " + report;
    }
    for (int q = 0; q < s.loopers; q++) {
        Told aosp = Aosp(s, q).run();
        std::string told = differs(aosp, theirs[static_cast<size_t>(q)]);
        if (!told.empty()) {
            return "looper " + std::to_string(q) + " of the program: " + told;
        }
        told = differs(aosp, Ours(s, q).run());
        if (!told.empty()) {
            return "looper " + std::to_string(q) + ", the queue for C: " + told;
        }
        if (compared != nullptr) {
            compared->loopers++;
            compared->dispatches += aosp.lines.size();
            for (const Line &line : aosp.lines) {
                compared->numbered += line.number >= 0;
            }
            compared->removed += static_cast<uint64_t>(aosp.removed);
            compared->left += static_cast<uint64_t>(aosp.left);
        }
    }
    return "";
}

static Script make(std::mt19937_64 &random, const std::string &klass, int loopers)
{
    auto below = [&](int64_t limit) { return static_cast<int64_t>(random() % static_cast<uint64_t>(limit)); };
    Script s;
    s.loopers = loopers > 0 ? loopers : below(3) == 0 ? 1 + static_cast<int>(below(3)) : 1;
    int64_t times = std::max(1, loopers); // as many commands and reactions for each of so many
    std::vector<std::vector<int>> of(static_cast<size_t>(s.loopers));
    for (int64_t h = s.loopers + below(3 * times + 1); h > 0; h--) {
        int looper = s.home.size() < static_cast<size_t>(s.loopers) ? static_cast<int>(s.home.size()) : static_cast<int>(below(s.loopers));
        of[static_cast<size_t>(looper)].push_back(static_cast<int>(s.home.size()));
        s.home.push_back(looper);
    }
    bool unique = below(2) == 0;
    int serial = 10;
    int64_t span = 1 + below(below(3) == 0 ? 40 : 8);
    auto handler_of = [&](int looper) {
        auto &all = of[static_cast<size_t>(looper)];
        return all[static_cast<size_t>(below(static_cast<int64_t>(all.size())))];
    };
    for (int64_t i = below(4 * times + 1); i > 0; i--) {
        int looper = static_cast<int>(below(s.loopers));
        Reaction r;
        r.handler = handler_of(looper);
        r.what = static_cast<int>(below(5));
        r.times = 1 + static_cast<int>(below(5));
        r.to_handler = handler_of(looper);
        r.to_what = static_cast<int>(below(5));
        r.delay = below(3) == 0 ? 0 : below(span + 1);
        s.reactions.push_back(r);
    }
    int64_t time = klass == "zero" ? 0 : 1 + below(5);
    for (int64_t b = 1 + below(8); b > 0; b--) {
        Block block;
        block.time = time;
        time += 1 + below(span + 1);
        for (int64_t c = below(8 * times + 1); c > 0; c--) {
            Command one;
            one.looper = static_cast<int>(below(s.loopers));
            one.handler = handler_of(one.looper);
            int64_t pick = below(100);
            one.word = pick < 68 ? "post" : pick < 80 ? "front" : pick < 94 ? "remove" : "remove-all";
            bool posts = pick < 80;
            one.what = unique && below(3) != 0 ? posts ? serial++ : 10 + static_cast<int>(below(serial - 9)) : static_cast<int>(below(5));
            one.delay = below(3) == 0 ? 0 : below(span + 1);
            block.commands.push_back(one);
        }
        s.blocks.push_back(block);
    }
    s.end = s.blocks.back().time + below(2 * span + 2);
    return s;
}

/* Leaves out what the difference doesn't need. */
static Script smallest(const char *program, Script s)
{
    bool again = true;
    auto tried = [&](const Script &less) {
        if (differs(program, less, nullptr).empty()) {
            return false;
        }
        s = less;
        again = true;
        return true;
    };
    while (again) {
        again = false;
        for (size_t i = 0; i < s.reactions.size(); i++) {
            Script less = s;
            less.reactions.erase(less.reactions.begin() + static_cast<long>(i));
            i -= tried(less);
        }
        for (size_t b = 0; b < s.blocks.size(); b++) {
            for (size_t i = 0; i < s.blocks[b].commands.size(); i++) {
                Script less = s;
                less.blocks[b].commands.erase(less.blocks[b].commands.begin() + static_cast<long>(i));
                i -= tried(less);
            }
        }
        for (size_t b = 0; b < s.blocks.size() && s.blocks.size() > 1; b++) {
            if (s.blocks[b].commands.empty()) {
                Script less = s;
                less.blocks.erase(less.blocks.begin() + static_cast<long>(b));
                b -= tried(less);
            }
        }
    }
    return s;
}

int main(int words, char **word)
{
    uint64_t seed = 1, count = 1000, faults = 0;
    int loopers = 0;
    std::string klass = "common";
    must(words >= 2, "usage: scripts PROGRAM [--seed S] [--count N] [--plant P] [--class WORD] [--loopers L]");
    for (int i = 2; i + 1 < words; i += 2) {
        if (strcmp(word[i], "--seed") == 0) seed = strtoull(word[i + 1], nullptr, 10);
        if (strcmp(word[i], "--count") == 0) count = strtoull(word[i + 1], nullptr, 10);
        if (strcmp(word[i], "--plant") == 0) plant = atoi(word[i + 1]);
        if (strcmp(word[i], "--class") == 0) klass = word[i + 1];
        if (strcmp(word[i], "--loopers") == 0) loopers = atoi(word[i + 1]);
    }
    Compared compared;
    for (uint64_t i = 0; i < count; i++) {
        std::mt19937_64 random(seed * 1000003 + i);
        Script s = make(random, klass, loopers);
        if (!differs(word[1], s, &compared).empty() && faults++ == 0) {
            if (plant != 0) {
                break; // it was seen
            }
            Script less = smallest(word[1], s);
            printf("first difference, script %lu, smallest:\n%s  %s\n", i, text(less).c_str(), differs(word[1], less, nullptr).c_str());
        }
    }
    printf("scripts, class %s, seed %lu, plant %d: %lu scripts, %lu differ\n", klass.c_str(), seed, plant, count, faults);
    printf("  compared: %lu loopers, %lu dispatches, %lu of them with their number, %lu removed, %lu left\n", compared.loopers, compared.dispatches,
           compared.numbered, compared.removed, compared.left);
    return faults > 0;
}
