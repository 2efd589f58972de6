/* Qt: an event posted to an object for now (QCoreApplication::postEvent), and a single timer a message for a time. */
#include "bench.h"

#include <QCoreApplication>
#include <QEvent>
#include <QObject>
#include <QThread>
#include <QTimer>
#include <unistd.h>

static long left;
static bool chained;

class Receiver : public QObject {
public:
    void one()
    {
        if (--left == 0) {
            QCoreApplication::quit();
        } else if (chained) {
            post();
        }
    }

    void post() { QCoreApplication::postEvent(this, new QEvent(QEvent::User)); }

    bool event(QEvent *event) override
    {
        if (event->type() == QEvent::User) {
            one();
            return true;
        }
        return QObject::event(event);
    }
};

static void posters(Receiver &receiver, long count)
{
    QThread *threads[POSTERS];
    for (QThread *&thread : threads) {
        thread = QThread::create([&receiver, count] {
            for (long i = count / POSTERS; i > 0; i--) {
                receiver.post();
            }
        });
        thread->start();
    }
    QCoreApplication::exec();
    for (QThread *thread : threads) {
        thread->wait();
        delete thread;
    }
}

static void run(Receiver &receiver, char **word, long count)
{
    left = count;
    chained = is_mode(word, "chain");
    if (is_mode(word, "posters")) {
        posters(receiver, count);
        return;
    }
    for (long i = 0; i < (chained ? 1 : count); i++) {
        if (chained || is_mode(word, "burst")) {
            receiver.post();
        } else {
            long after = is_mode(word, "rising") ? i * 20 / count : static_cast<long>(scattered(20));
            QTimer::singleShot(static_cast<int>(after), Qt::PreciseTimer, &receiver, [&receiver] { receiver.one(); });
        }
    }
    if (is_mode(word, "rising") || is_mode(word, "scatter")) {
        usleep(30000);
    }
    QCoreApplication::exec();
}

int main(int words, char **word)
{
    long count = count_of(words, word), rounds = rounds_of(word);
    QCoreApplication application(words, word);
    Receiver receiver;
    uint64_t start = processor_time();
    for (long round = 0; round < rounds; round++) {
        run(receiver, word, count);
    }
    report(processor_time() - start, count * rounds);
    return left != 0;
}
