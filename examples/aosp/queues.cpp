/* AOSP's native android::Looper (libutils of Debian's android-libutils) and the queue for C on the same random sequences.
 *
 *     queues [--seed S] [--count N] [--plant P] [--class WORD]
 *
 * A sequence is a list of operations (send, send at a time, send delayed, send to the front, remove by handler, remove by handler and what,
 * the clock goes on, poll) and a table of reactions, by which handlers send, remove and let time pass while they handle a message.
 * It runs on AOSP's Looper and on the queue, each from the same reading of the held clock. Compared, entry by entry: the time, handler and
 * what of each dispatch; after each poll how long the wait would be, in milliseconds; and for a poll that dispatches nothing whether a post
 * since the last poll woke the looper. At the end the clock goes past every time and all is drained.
 *
 * The class `common` has the rules that both have. `zero`, `ragged` and `unpolled` differ by design; docs/ANDROID.md says how.
 * The plants: 1 a front post goes by its time, 2 a removal takes every what, 3 each eighth post is a unit early, 4 our clock is a unit
 * ahead, 5 no post wakes. */
#include "message_queue.h"
#include "program.h"
#include "virtual_time.h"

#include <cstdio>
#include <cstdlib>
#include <cstring>
#include <memory>
#include <random>
#include <string>
#include <vector>

using namespace android;

enum Kind { SEND, SEND_AT, SEND_DELAYED, FRONT, REMOVE_ALL, REMOVE, ADVANCE, POLL, KINDS };
static const char *const NAMES[] = {"send", "send_at", "send_delayed", "front", "remove_all", "remove", "advance", "poll"};

struct Op {
    Kind kind = POLL;
    int handler = 0;
    int what = 0;
    int64_t time = 0; // a moment for SEND_AT, an amount for SEND_DELAYED and ADVANCE, in units
};

struct Reaction {
    int handler, klass;
    int times;
    Op op;
};

struct Case {
    int64_t unit = 1000000; // nanoseconds of a unit of time
    int64_t start = 1000;   // the clock at the start, in units
    bool unique = false;
    bool ragged = false;    // AOSP in nanoseconds, ours by the milliseconds of the same clock
    bool first_poll = true;
    std::vector<Op> ops;
    std::vector<Reaction> reactions;
};

struct Entry {
    char type; // 'd' a dispatch, 'w' a wait, 'k' a poll that dispatched nothing
    int64_t a, b, c;
    bool operator==(const Entry &other) const { return type == other.type && a == other.a && b == other.b && c == other.c; }
};

static int plant = 0;
static constexpr int WAIT = 1000000; // milliseconds that a probe may wait

struct Side {
    const Case &it;
    std::vector<Entry> log;
    std::vector<int> left;
    int depth = 0;
    uint64_t accepted = 0, dispatched = 0;

    explicit Side(const Case &of) : it(of)
    {
        for (const Reaction &r : of.reactions) {
            left.push_back(r.times);
        }
    }
    virtual ~Side() = default;
    virtual void send(int handler, int what) = 0;
    virtual void send_at(int handler, int what, int64_t when) = 0; // in units
    virtual void send_delayed(int handler, int what, int64_t delay) = 0;
    virtual void front(int handler, int what) = 0;
    virtual void remove_all(int handler) = 0;
    virtual void remove(int handler, int what) = 0;
    virtual void poll() = 0;

    void advance(int64_t by) { virtual_time::now += by * it.unit; }

    void handled(int handler, int what)
    {
        dispatched++;
        log.push_back({'d', virtual_time::now, handler, what});
        for (size_t i = 0; i < it.reactions.size(); i++) {
            const Reaction &r = it.reactions[i];
            if (r.handler == handler && r.klass == what % 4 && left[i] > 0) {
                left[i]--;
                act(r.op);
            }
        }
    }

    void act(const Op &op)
    {
        switch (op.kind) {
        case SEND: accepted++; send(op.handler, op.what); break;
        case SEND_AT: accepted++; send_at(op.handler, op.what, op.time); break;
        case SEND_DELAYED: accepted++; send_delayed(op.handler, op.what, op.time); break;
        case FRONT: accepted++; front(op.handler, op.what); break;
        case REMOVE_ALL: remove_all(op.handler); break;
        case REMOVE: remove(op.handler, op.what); break;
        case ADVANCE: advance(op.time); break;
        default: poll();
        }
    }

    void run()
    {
        virtual_time::now = it.start * it.unit;
        if (it.first_poll) {
            poll();
        }
        for (const Op &op : it.ops) {
            act(op);
        }
        for (int i = 0; i < 3; i++) {
            virtual_time::now += int64_t{4000000} * it.unit;
            poll();
        }
        log.push_back({'e', static_cast<int64_t>(accepted), static_cast<int64_t>(dispatched), 0});
    }
};

struct Aosp : Side {
    struct Handler : MessageHandler {
        Aosp *owner;
        int number;
        Handler(Aosp *o, int n) : owner(o), number(n) {}
        void handleMessage(const Message &message) override { owner->handled(number, message.what); }
    };
    sp<Looper> looper = new Looper(false);
    std::vector<sp<Handler>> handlers;
    int64_t fronts = 0;

    explicit Aosp(const Case &of) : Side(of)
    {
        for (int i = 0; i < 4; i++) {
            handlers.push_back(new Handler(this, i));
        }
    }
    void send(int handler, int what) override { looper->sendMessage(handlers[handler], Message(what)); }
    void send_at(int handler, int what, int64_t when) override { looper->sendMessageAtTime(when * it.unit, handlers[handler], Message(what)); }
    void send_delayed(int handler, int what, int64_t delay) override { looper->sendMessageDelayed(delay * it.unit, handlers[handler], Message(what)); }
    /* The native looper has no front: a time before all others is one. */
    void front(int handler, int what) override { looper->sendMessageAtTime(-++fronts, handlers[handler], Message(what)); }
    void remove_all(int handler) override { looper->removeMessages(handlers[handler]); }
    void remove(int handler, int what) override { looper->removeMessages(handlers[handler], what); }
    void poll() override
    {
        uint64_t before = dispatched;
        int result = looper->pollOnce(0);
        if (dispatched == before) {
            log.push_back({'k', result == Looper::POLL_WAKE, 0, 0});
            if (result != Looper::POLL_WAKE && result != Looper::POLL_TIMEOUT) {
                log.push_back({'?', result, 0, 0});
            }
        } else if (result != Looper::POLL_CALLBACK) {
            log.push_back({'?', result, 0, 0});
        }
        /* How long would it wait? The wait is told its time and returns at once. */
        looper->pollOnce(WAIT);
        log.push_back({'w', virtual_time::last_timeout, 0, 0});
    }
};

struct Ours : Side {
    msgq_queue queue = MSGQ_CLOSED;
    bool woken = false;
    uint64_t removed = 0;

    explicit Ours(const Case &of) : Side(of)
    {
        must(msgq_open(&queue), "no queue");
    }
    ~Ours() override
    {
        msgq_close(&queue);
        msgq_close(&queue);
    }
    uint64_t clock() const { return static_cast<uint64_t>(it.ragged ? virtual_time::now / 1000000 : virtual_time::now / it.unit) + (plant == 4 ? 1 : 0); }
    uint64_t moment(int64_t when) const { return static_cast<uint64_t>(it.ragged ? when * it.unit / 1000000 : when); }
    void post(int handler, int what, uint64_t when, bool to_front)
    {
        msgq_message message = {};
        message.when = plant == 3 && when > 1 && (accepted & 7) == 0 ? when - 1 : when;
        message.handler = static_cast<uint32_t>(handler);
        message.what = static_cast<uint32_t>(what);
        msgq_answer answer = to_front && plant != 1 ? msgq_post_at_front(&queue, &message) : msgq_post(&queue, &message);
        must(answer.kind == MSGQ_DONE && answer.number == accepted - 1, "a post that was not accepted");
        woken |= plant == 5 ? false : answer.wake;
    }
    void send(int handler, int what) override { post(handler, what, clock(), false); }
    void send_at(int handler, int what, int64_t when) override { post(handler, what, moment(when), false); }
    void send_delayed(int handler, int what, int64_t delay) override
    {
        int64_t now = it.ragged ? virtual_time::now / it.unit : static_cast<int64_t>(clock());
        post(handler, what, moment(now + delay), false);
    }
    void front(int handler, int what) override { post(handler, what, plant == 1 ? 1 : 0, true); }
    void take_out(const msgq_filter &filter)
    {
        bool has = msgq_has(&queue, &filter);
        uint64_t before = msgq_live(&queue);
        msgq_answer answer = msgq_remove(&queue, &filter);
        must(answer.kind == MSGQ_DONE && !answer.wake, "a removal that was not made, or woke");
        must(has == (answer.number > 0) && before - msgq_live(&queue) == answer.number, "a removal with a wrong count");
        removed += answer.number;
        for (uint64_t i = 0; i < answer.number; i++) {
            msgq_look look = msgq_next_dropped(&queue);
            must(look.kind == MSGQ_TAKEN && look.message.handler == filter.handler, "another message was dropped");
            must(!filter.by_what || look.message.what == filter.what, "a message of another what was dropped");
        }
        must(msgq_next_dropped(&queue).kind == MSGQ_NOTHING_LEFT, "more was dropped than the answer says");
    }
    void remove_all(int handler) override
    {
        msgq_filter filter = {};
        filter.handler = static_cast<uint32_t>(handler);
        take_out(filter);
    }
    void remove(int handler, int what) override
    {
        msgq_filter filter = {};
        filter.handler = static_cast<uint32_t>(handler);
        filter.what = static_cast<uint32_t>(what);
        filter.by_what = plant != 2;
        take_out(filter);
    }
    void poll() override
    {
        uint64_t before = dispatched;
        msgq_look look = msgq_next(&queue, clock(), false);
        while (look.kind == MSGQ_TAKEN) {
            handled(static_cast<int>(look.message.handler), static_cast<int>(look.message.what));
            look = msgq_next(&queue, clock(), false);
        }
        if (dispatched == before) {
            log.push_back({'k', woken, 0, 0});
        }
        woken = false;
        int64_t wait = WAIT;
        if (look.kind == MSGQ_WAIT) {
            uint64_t units = look.time - clock();
            uint64_t nanoseconds = units * static_cast<uint64_t>(it.ragged ? 1000000 : it.unit);
            wait = static_cast<int64_t>((nanoseconds + 999999) / 1000000);
            wait = wait < WAIT ? wait : WAIT;
        } else {
            must(look.kind == MSGQ_WAIT_FOREVER, "a look that neither takes nor waits");
        }
        log.push_back({'w', wait, 0, 0});
        must(accepted == dispatched + removed + msgq_live(&queue), "a message was lost or doubled");
    }
};

static size_t differs(const Case &it, std::string *told)
{
    Aosp aosp(it);
    aosp.run();
    Ours ours(it);
    ours.run();
    size_t most = std::max(aosp.log.size(), ours.log.size());
    for (size_t i = 0; i < most; i++) {
        bool both = i < aosp.log.size() && i < ours.log.size();
        if (!both || !(aosp.log[i] == ours.log[i])) {
            if (told != nullptr) {
                char text[300];
                auto show = [](const std::vector<Entry> &log, size_t at) {
                    char one[120];
                    if (at >= log.size()) {
                        return std::string("nothing");
                    }
                    snprintf(one, sizeof one, "%c %ld %ld %ld", log[at].type, log[at].a, log[at].b, log[at].c);
                    return std::string(one);
                };
                snprintf(text, sizeof text, "entry %zu: AOSP %s, ours %s", i, show(aosp.log, i).c_str(), show(ours.log, i).c_str());
                *told = text;
            }
            return i + 1;
        }
    }
    return 0;
}

static Case make(std::mt19937_64 &random, const std::string &klass)
{
    auto below = [&](int64_t limit) { return static_cast<int64_t>(random() % static_cast<uint64_t>(limit)); };
    Case it;
    it.unit = klass == "ragged" ? 100000 : below(4) == 0 ? 1 : 1000000;
    it.ragged = klass == "ragged";
    it.first_poll = klass != "unpolled";
    it.start = it.unit == 1 ? 1000000 + below(5000000) : 50 + below(1000);
    it.unique = below(2) == 0;
    int64_t span = it.unit == 1 ? (below(2) == 0 ? 20 : 5000000) : 1 + below(40);
    int handlers = 1 + static_cast<int>(below(4));
    int serial = 0;
    int64_t moment = it.start;
    std::vector<int64_t> used;
    auto what = [&] { return it.unique ? serial++ : static_cast<int>(below(5)); };
    auto known = [&] { return it.unique ? static_cast<int>(below(serial + 1)) : static_cast<int>(below(5)); };
    auto one = [&](bool outside) {
        Op op;
        int64_t pick = below(outside ? 100 : 80);
        op.handler = static_cast<int>(below(handlers));
        if (pick < 14) {
            op.kind = SEND;
            op.what = what();
        } else if (pick < 48) {
            op.kind = SEND_AT;
            op.what = what();
            int64_t at = below(10);
            if (at < 3 && !used.empty()) {
                op.time = used[static_cast<size_t>(below(static_cast<int64_t>(used.size())))]; // a tie
            } else if (at < 6) {
                op.time = moment - below(span + 1);
            } else {
                op.time = moment + below(span + 1);
            }
            op.time = std::max<int64_t>(klass == "zero" ? 0 : 1, op.time);
            if (klass == "zero" && below(4) == 0) {
                op.time = 0;
            }
            used.push_back(op.time);
        } else if (pick < 60) {
            op.kind = SEND_DELAYED;
            op.what = what();
            op.time = below(3) == 0 ? 0 : below(span + 1);
        } else if (pick < 66) {
            op.kind = klass == "zero" ? SEND : FRONT;
            op.what = what();
        } else if (pick < 68) {
            op.kind = REMOVE_ALL;
        } else if (pick < 76) {
            op.kind = REMOVE;
            op.what = known();
        } else if (pick < 86) {
            op.kind = ADVANCE;
            op.time = below(span + 1);
            moment += op.time;
        } else {
            op.kind = POLL;
        }
        return op;
    };
    int length = 1 + static_cast<int>(below(below(10) == 0 ? 300 : 40));
    for (int i = 0; i < length; i++) {
        it.ops.push_back(one(true));
    }
    for (int64_t i = below(6); i > 0; i--) {
        Reaction r;
        r.handler = static_cast<int>(below(handlers));
        r.klass = static_cast<int>(below(4));
        r.times = 1 + static_cast<int>(below(6));
        r.op = one(false);
        it.reactions.push_back(r);
    }
    return it;
}

/* Leaves out what the difference doesn't need. */
static Case smallest(Case it)
{
    bool again = true;
    while (again) {
        again = false;
        for (size_t i = 0; i < it.reactions.size(); i++) {
            Case less = it;
            less.reactions.erase(less.reactions.begin() + static_cast<long>(i));
            if (differs(less, nullptr) != 0) {
                it = less;
                again = true;
                i--;
            }
        }
        for (size_t i = 0; i < it.ops.size(); i++) {
            Case less = it;
            less.ops.erase(less.ops.begin() + static_cast<long>(i));
            if (differs(less, nullptr) != 0) {
                it = less;
                again = true;
                i--;
            }
        }
    }
    return it;
}

static void show(const Case &it)
{
    printf("  unit %ld ns, the clock starts at %ld units\n", it.unit, it.start);
    for (const Op &op : it.ops) {
        printf("    %s handler %d what %d time %ld\n", NAMES[op.kind], op.handler, op.what, op.time);
    }
    for (const Reaction &r : it.reactions) {
        printf("    on handler %d class %d times %d: %s handler %d what %d time %ld\n", r.handler, r.klass, r.times, NAMES[r.op.kind], r.op.handler,
               r.op.what, r.op.time);
    }
    std::string told;
    differs(it, &told);
    printf("    %s\n", told.c_str());
}

int main(int words, char **word)
{
    uint64_t seed = 1, count = 20000;
    std::string klass = "common";
    for (int i = 1; i + 1 < words; i += 2) {
        if (strcmp(word[i], "--seed") == 0) seed = strtoull(word[i + 1], nullptr, 10);
        if (strcmp(word[i], "--count") == 0) count = strtoull(word[i + 1], nullptr, 10);
        if (strcmp(word[i], "--plant") == 0) plant = atoi(word[i + 1]);
        if (strcmp(word[i], "--class") == 0) klass = word[i + 1];
    }
    uint64_t faults = 0, ops = 0, first = 0, entries[3] = {0, 0, 0}, woken = 0;
    uint64_t kinds[KINDS] = {};
    Case smallest_so_far;
    for (uint64_t i = 0; i < count; i++) {
        std::mt19937_64 random(seed * 1000003 + i);
        Case it = make(random, klass);
        ops += it.ops.size();
        for (const Op &op : it.ops) {
            kinds[op.kind]++;
        }
        if (differs(it, nullptr) != 0) {
            faults++;
            if (plant != 0) {
                break; // it was seen
            }
            if (faults == 1) {
                first = i;
            }
            if (faults <= 20) {
                Case less = smallest(it);
                if (faults == 1 || less.ops.size() + less.reactions.size() < smallest_so_far.ops.size() + smallest_so_far.reactions.size()) {
                    smallest_so_far = less;
                }
            }
        } else {
            Ours counted(it);
            counted.run();
            for (const Entry &e : counted.log) {
                entries[0] += e.type == 'd';
                entries[1] += e.type == 'w';
                entries[2] += e.type == 'k';
                woken += e.type == 'k' && e.a == 1;
            }
        }
    }
    printf("class %s seed %lu plant %d: %lu sequences, %lu operations, %lu differ", klass.c_str(), seed, plant, count, ops, faults);
    printf("; compared: %lu dispatches, %lu waits, %lu polls without dispatch (%lu woken)\n", entries[0], entries[1], entries[2], woken);
    printf("  operations:");
    for (int k = 0; k < KINDS; k++) {
        printf(" %s %lu", NAMES[k], kinds[k]);
    }
    printf("\n");
    if (faults > 0 && plant == 0) {
        printf("  first at sequence %lu; the smallest of the first 20:\n", first);
        show(smallest_so_far);
    }
    return faults > 0;
}
