/* Histories of AOSP's native android::Looper (libutils), judged by `dashboard check`.
 *
 *     aosp PROGRAM [COUNT] [CHANGED]
 *
 * Random sends at past, present and future times with ties, delayed sends, sends before all others, removals by handler and by handler and
 * what, and polls, with sends from within handlers. Two things are told in the trace's words: a time before all others is a post at the
 * front, with the WHEN 0; and a removal's count, which the looper doesn't tell, is that of the posts that have not come. */
#include "judge.h"

#include "../aosp/virtual_time.h"

using namespace android;

struct Told;
struct Hand : MessageHandler {
    Told &told;
    unsigned number;
    Hand(Told &t, unsigned n) : told(t), number(n) {}
    void handleMessage(const Message &message) override;
};

struct Told {
    History history;
    std::mt19937_64 &random;
    sp<Looper> looper = new Looper(false);
    sp<Hand> hands[3];
    int64_t fronts = 0, again = 0, last = 50;

    Told(unsigned number, std::mt19937_64 &r) : history(number), random(r)
    {
        for (unsigned i = 0; i < 3; i++) {
            hands[i] = new Hand(*this, i);
        }
    }
    int64_t below(int64_t limit) { return static_cast<int64_t>(random() % static_cast<uint64_t>(limit)); }
    int64_t now() const { return virtual_time::now / 1000000; }
    void send()
    {
        unsigned hand = static_cast<unsigned>(below(3));
        int64_t pick = below(10), at = pick < 3 ? last : pick < 6 ? now() - below(20) : now() + below(20);
        if (pick == 9) {
            looper->sendMessageAtTime(-++fronts, hands[hand], Message(history.post(hand, 0)));
        } else if (pick == 8) {
            int64_t delay = below(20);
            looper->sendMessageDelayed(delay * 1000000, hands[hand], Message(history.post(hand, now() + delay)));
        } else {
            last = at;
            looper->sendMessageAtTime(at * 1000000, hands[hand], Message(history.post(hand, at)));
        }
    }
    void act()
    {
        int64_t pick = below(20);
        unsigned hand = static_cast<unsigned>(below(3));
        if (pick < 10) {
            send();
        } else if (pick < 12) {
            int number = static_cast<int>(below(static_cast<int64_t>(history.told.posts) + 1));
            looper->removeMessages(hands[hand], number);
            history.removed(hand, number);
        } else if (pick < 13) {
            looper->removeMessages(hands[hand]);
            history.removed_all(hand);
        } else if (pick < 16) {
            virtual_time::now += below(20) * 1000000;
        } else {
            looper->pollOnce(0);
        }
    }
};

void Hand::handleMessage(const Message &message)
{
    told.history.dispatched(message.what, told.now());
    if (told.again > 0 && told.below(3) == 0) {
        told.again--;
        told.send();
    }
}

static std::string make(unsigned number, std::mt19937_64 &random)
{
    virtual_time::now = 50000000;
    Told told(number, random);
    told.again = told.below(10);
    for (int64_t i = 1 + told.below(40); i > 0; i--) {
        told.act();
    }
    virtual_time::now += 1000000000;
    told.looper->pollOnce(0);
    return told.history.text();
}

int main(int words, char **word)
{
    must(words >= 2, "usage: aosp PROGRAM [COUNT] [CHANGED]");
    uint64_t count = words > 2 ? strtoull(word[2], nullptr, 10) : 1000, changed = words > 3 ? strtoull(word[3], nullptr, 10) : 50;
    return judge(word[1], "AOSP's native looper", count, changed, make) ? 0 : 1;
}
