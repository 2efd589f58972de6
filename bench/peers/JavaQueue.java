// A queue in the manner of AOSP's MessageQueue: one monitor, a singly linked list in order of time, a pool of fifty messages.
// JavaQueue MODE COUNT ROUNDS, as the programs of bench.h; the first three runs of all rounds are not measured.
public final class JavaQueue {
    static final class Message {
        long when;
        int what;
        Message next;
    }

    static final int POSTERS = 4;
    static final Object poolLock = new Object();
    static Message pool;
    static int pooled;

    static Message obtain() {
        synchronized (poolLock) {
            if (pool != null) {
                Message m = pool;
                pool = m.next;
                m.next = null;
                pooled--;
                return m;
            }
        }
        return new Message();
    }

    static void recycle(Message m) {
        m.what = 0;
        m.when = 0;
        synchronized (poolLock) {
            if (pooled < 50) {
                m.next = pool;
                pool = m;
                pooled++;
            }
        }
    }

    private Message head;
    private boolean blocked;

    synchronized void enqueue(Message m, long when) {
        m.when = when;
        if (head == null || when == 0 || when < head.when) {
            m.next = head;
            head = m;
            if (blocked) {
                notify();
            }
            return;
        }
        Message before = head;
        while (before.next != null && before.next.when <= when) {
            before = before.next;
        }
        m.next = before.next;
        before.next = m;
    }

    synchronized Message next() throws InterruptedException {
        for (;;) {
            long now = milliseconds();
            if (head != null && head.when <= now) {
                blocked = false;
                Message m = head;
                head = m.next;
                m.next = null;
                return m;
            }
            blocked = true;
            wait(head == null ? 0 : Math.max(1, head.when - now));
        }
    }

    static long milliseconds() {
        return System.nanoTime() / 1000000;
    }

    static long processorTime() {
        return java.lang.management.ManagementFactory.getThreadMXBean().getCurrentThreadCpuTime();
    }

    void send(long when) {
        Message m = obtain();
        m.what = 1;
        enqueue(m, when);
    }

    void take(long count) throws InterruptedException {
        for (long i = 0; i < count; i++) {
            recycle(next());
        }
    }

    static long byPosters;

    void posters(long count) throws InterruptedException {
        Thread[] threads = new Thread[POSTERS];
        for (int i = 0; i < POSTERS; i++) {
            threads[i] = new Thread(() -> {
                for (long k = 0; k < count / POSTERS; k++) {
                    send(milliseconds());
                }
                synchronized (JavaQueue.class) {
                    byPosters += processorTime();
                }
            });
            threads[i].start();
        }
        take(count);
        for (Thread thread : threads) {
            thread.join();
        }
    }

    private long seed = 12345;

    void round(String mode, long count) throws InterruptedException {
        long now = milliseconds();
        if (mode.equals("posters")) {
            posters(count);
        } else if (mode.equals("chain")) {
            for (long i = 0; i < count; i++) {
                send(milliseconds());
                take(1);
            }
        } else {
            for (long i = 0; i < count; i++) {
                seed = seed * 6364136223846793005L + 1442695040888963407L;
                send(mode.equals("burst") ? now : mode.equals("rising") ? now - (count - i) / 1000 : 1 + (seed >>> 33) % now);
            }
            take(count);
        }
    }

    double run(String mode, long count, long rounds) throws InterruptedException {
        byPosters = 0;
        long start = processorTime();
        for (long i = 0; i < rounds; i++) {
            round(mode, count);
        }
        return (double) (processorTime() - start + byPosters) / (count * rounds);
    }

    public static void main(String[] words) throws InterruptedException {
        long count = Long.parseLong(words[1]) / POSTERS * POSTERS, rounds = Long.parseLong(words[2]);
        for (int i = 0; i < 3; i++) {
            new JavaQueue().run(words[0], count, rounds);
        }
        System.out.printf(java.util.Locale.ROOT, "%.1f%n", new JavaQueue().run(words[0], count, rounds));
    }
}
