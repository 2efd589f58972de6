/* Histories of Qt's event loop, judged by `dashboard check`.
 *
 *     qt PROGRAM [COUNT] [CHANGED]
 *
 * Half of the histories are of posted events (QCoreApplication::postEvent), each a post for now, with removals by receiver. The other half
 * are of precise timers that are killed as they come, each a post for its time, with removals by killTimer; their moments are whole
 * milliseconds. Qt has no one order for both: posted events go before timers. */
#include "judge.h"

#include "held_clock.h"

#include <QCoreApplication>
#include <QEvent>
#include <QObject>
#include <QTimerEvent>

struct Told;
struct Numbered : QEvent {
    int number;
    explicit Numbered(int n) : QEvent(QEvent::User), number(n) {}
};
struct Receiver : QObject {
    Told *told = nullptr;
    unsigned number = 0;
    bool event(QEvent *event) override;
};

struct Told {
    History history;
    std::mt19937_64 &random;
    Receiver receivers[2];
    std::map<int, int> timers, numbers; // of each message, and back
    bool by_timers;
    int64_t again = 0;

    Told(unsigned number, std::mt19937_64 &r) : history(number), random(r), by_timers(number % 2 == 1)
    {
        for (unsigned i = 0; i < 2; i++) {
            receivers[i].told = this;
            receivers[i].number = i;
        }
    }
    int64_t below(int64_t limit) { return static_cast<int64_t>(random() % static_cast<uint64_t>(limit)); }
    void post()
    {
        unsigned hand = static_cast<unsigned>(below(2));
        if (!by_timers) {
            QCoreApplication::postEvent(&receivers[hand], new Numbered(history.post(hand, held_clock::now)));
            return;
        }
        int64_t delay = 1 + below(12);
        int number = history.post(hand, held_clock::now + delay);
        int timer = receivers[hand].startTimer(static_cast<int>(delay), Qt::PreciseTimer);
        timers[number] = timer;
        numbers[timer] = number;
    }
    void remove()
    {
        unsigned hand = static_cast<unsigned>(below(2));
        if (!by_timers) {
            QCoreApplication::removePostedEvents(&receivers[hand], QEvent::User);
            history.removed_all(hand);
            return;
        }
        int number = static_cast<int>(below(static_cast<int64_t>(history.told.posts) + 1));
        auto at = history.waiting.find(number);
        if (at != history.waiting.end() && at->second == hand) {
            receivers[hand].killTimer(timers[number]);
        }
        history.removed(hand, number);
    }
    void come(int number)
    {
        history.dispatched(number, held_clock::now);
        if (again > 0 && below(3) == 0) {
            again--;
            post();
        }
    }
};

bool Receiver::event(QEvent *event)
{
    if (event->type() == QEvent::User) {
        told->come(static_cast<Numbered *>(event)->number);
        return true;
    }
    if (event->type() == QEvent::Timer) {
        int timer = static_cast<QTimerEvent *>(event)->timerId();
        killTimer(timer);
        told->come(told->numbers[timer]);
        return true;
    }
    return QObject::event(event);
}

static std::string make(unsigned number, std::mt19937_64 &random)
{
    held_clock::now = 1000;
    Told told(number, random);
    told.again = told.below(10);
    for (int64_t i = 1 + told.below(60); i > 0; i--) {
        int64_t pick = told.below(10);
        if (pick < 6) {
            told.post();
        } else if (pick < 7) {
            told.remove();
        } else {
            held_clock::now += told.below(6);
            QCoreApplication::processEvents();
        }
    }
    for (int i = 0; i < 60; i++) {
        held_clock::now += 1;
        QCoreApplication::processEvents();
    }
    return told.history.text();
}

int main(int words, char **word)
{
    must(words >= 2, "usage: qt PROGRAM [COUNT] [CHANGED]");
    qputenv("QT_NO_GLIB", "1");
    QCoreApplication application(words, word);
    uint64_t count = words > 2 ? strtoull(word[2], nullptr, 10) : 1000, changed = words > 3 ? strtoull(word[3], nullptr, 10) : 50;
    return judge(word[1], "Qt's event loop", count, changed, make) ? 0 : 1;
}
