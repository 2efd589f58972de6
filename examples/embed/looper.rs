//! Two threads post and one looper takes the messages, under a `Mutex` with a `Condvar` of this program's own, over the safe queue of
//! message_queue.rs. Each box comes back by one call, or is dropped with the queue.
#![forbid(unsafe_code)]
use message_queue::{Back, Dropped, Label, Next, Queue};
use std::sync::{Condvar, Mutex, MutexGuard};
use std::thread;
use std::time::{Duration, Instant};

const POSTS: u32 = 1000;

/// The calls that are recorded before the quit: of two threads each post and each message that is taken, and one removal.
const PLACE_OF_QUIT: u64 = 2 * (POSTS as u64 + 1) + 2 * POSTS as u64 + 1;

struct Shared {
    queue: Mutex<Queue<u32>>,
    changed: Condvar,
    start: Instant,
}

impl Shared {
    fn now(&self) -> u64 {
        self.start.elapsed().as_millis() as u64 + 1
    }

    fn lock(&self) -> MutexGuard<'_, Queue<u32>> {
        self.queue.lock().unwrap()
    }

    /// Posts to the handler, every tenth message for a later time, and one that is never due.
    fn post_all(&self, handler: u32) {
        for what in 0..=POSTS {
            let later = if what % 10 == 0 { 5 } else { 0 };
            let when = if what == POSTS { u64::MAX } else { self.now() + later };
            let label = Label { handler, what, ..Label::default() };
            if self.lock().post(label, when, Box::new(what)).expect("posted").wake {
                self.changed.notify_one();
            }
        }
    }

    /// Takes messages until the queue has quit, and counts each handler's.
    fn take_all(&self) -> [u32; 2] {
        let mut counts = [0; 2];
        let mut queue = self.lock();
        loop {
            match queue.next(self.now(), false) {
                Next::Taken(message, _) => {
                    assert_eq!(*message.value, message.label.what);
                    counts[message.label.handler as usize] += (*message.value < POSTS) as u32;
                }
                Next::Idle => unreachable!("no idle turn is owed"),
                Next::Wait(Some(until)) => {
                    let wait = Duration::from_millis(until.saturating_sub(self.now()).min(1000));
                    queue = self.changed.wait_timeout(queue, wait).unwrap().0;
                }
                Next::Wait(None) => queue = self.changed.wait(queue).unwrap(),
                Next::Ended(left) => {
                    assert_eq!(left, 0);
                    return counts;
                }
            }
        }
    }

    fn wait_for_all_taken(&self) {
        let is_there = |handler| (0..POSTS).any(|what| self.lock().has(handler, Some(what)));
        while is_there(0) || is_there(1) {
            thread::sleep(Duration::from_millis(1));
        }
    }
}

fn main() {
    let queue = Mutex::new(Queue::open().expect("memory"));
    let shared = Shared { queue, changed: Condvar::new(), start: Instant::now() };
    let counts = thread::scope(|scope| {
        let looper = scope.spawn(|| shared.take_all());
        let posters = [0, 1].map(|handler| scope.spawn({ let shared = &shared; move || shared.post_all(handler) }));
        for poster in posters {
            poster.join().unwrap();
        }
        shared.wait_for_all_taken();
        let mut queue = shared.lock();
        assert_eq!(queue.len(), 2);
        let removed = queue.remove(0, None);
        let quit = queue.quit(true, shared.now()).expect("the first quit");
        shared.changed.notify_one();
        let mut freed = 0;
        while let Some(Dropped::Message(message)) = queue.next_dropped() {
            assert_eq!(*message.value, POSTS);
            freed += 1;
        }
        drop(queue);
        assert_eq!((removed, quit.number, quit.wake, freed), (Some(1), 1, true, 2));
        looper.join().unwrap()
    });
    assert_eq!(counts, [POSTS; 2]);
    let mut queue = shared.queue.into_inner().unwrap();
    let late = queue.post(Label::default(), 1, Box::new(7));
    assert_eq!(late, Err(Back { value: Box::new(7), quit: Some(PLACE_OF_QUIT) }));
    assert!(queue.is_empty());
    barriers();
    println!("taken {} and {}, a late post comes back", counts[0], counts[1]);
}

/// A barrier holds back what is not asynchronous; what is left is dropped with the queue.
fn barriers() {
    let mut queue = Queue::open().expect("memory");
    assert!(queue.reserve(3));
    let token = queue.barrier(5).expect("memory").number;
    let passing = Label { asynchronous: true, what: 2, ..Label::default() };
    let posted = [(Label::default(), 6, "held"), (passing, 7, "passes")].map(|(label, when, text)| queue.post(label, when, Box::new(text)).expect("posted"));
    assert_eq!(posted.map(|done| done.number), [0, 1]);
    assert!(matches!(queue.next(7, false), Next::Taken(message, 1) if *message.value == "passes" && message.label == passing && message.when == 7));
    assert_eq!((queue.next(7, true), queue.next(7, false)), (Next::Wait(None), Next::Wait(None)));
    assert!(queue.remove_barrier(token).expect("it stands").wake && queue.remove_barrier(token).is_none());
    assert!(queue.post_at_front(Label::default(), Box::new("first")).expect("posted").wake);
    assert!(matches!(queue.next(7, false), Next::Taken(message, 2) if *message.value == "first" && message.when == 0));
    assert_eq!((queue.len(), queue.time()), (1, 7));
}
