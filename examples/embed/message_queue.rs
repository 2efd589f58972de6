//! A message queue after Android's MessageQueue, in ordinary Rust: a safe wrapper of the static library that message_queue.h
//! describes. Each message carries a box, which comes back by one call and never twice, or is dropped with the queue.
//!
//! The queue takes no lock, never waits and reads no clock: times are milliseconds of the caller's. What the library does is proved;
//! this file is not, and holds all the unsafe code. Build it by rustc alone:
//!
//!     rustc --edition 2024 -O --crate-type rlib message_queue.rs
//!     rustc --edition 2024 -O looper.rs --extern message_queue=libmessage_queue.rlib -C link-arg=libmessage_queue_c.a -C link-arg=heap.o
use std::marker::PhantomData;

/// The library's functions and structs, as message_queue.h has them.
mod c {
    #[repr(C)]
    pub struct Handle {
        pub at: *mut u8,
        pub live: bool,
    }

    #[repr(C)]
    #[derive(Clone, Copy, Default)]
    pub struct Message {
        pub when: u64,
        pub obj: u64,
        pub callback: u64,
        pub handler: u32,
        pub what: u32,
        pub arg: u32,
        pub has_obj: bool,
        pub has_callback: bool,
        pub asynchronous: bool,
    }

    #[repr(C)]
    #[derive(Default)]
    pub struct Filter {
        pub obj: u64,
        pub callback: u64,
        pub handler: u32,
        pub what: u32,
        pub by_what: bool,
        pub by_callback: bool,
        pub has_obj: bool,
    }

    #[repr(C)]
    pub struct Answer {
        pub number: u64,
        pub kind: u32,
        pub wake: bool,
    }

    #[repr(C)]
    pub struct Look {
        pub message: Message,
        pub number: u64,
        pub time: u64,
        pub kind: u32,
    }

    pub const INTERFACE: u32 = 1;
    pub const DONE: u32 = 0;
    pub const REFUSED: u32 = 2;
    pub const TAKEN: u32 = 16;
    pub const IDLE: u32 = 17;
    pub const WAIT: u32 = 18;
    pub const WAIT_FOREVER: u32 = 19;
    pub const BARRIER: u32 = 22;

    unsafe extern "C" {
        pub fn msgq_core_interface() -> u32;
        pub fn msgq_core_open(queue: *mut Handle) -> bool;
        pub fn msgq_core_close(queue: *mut Handle) -> Answer;
        pub fn msgq_core_post(queue: *mut Handle, message: *const Message) -> Answer;
        pub fn msgq_core_barrier(queue: *mut Handle, now: u64) -> Answer;
        pub fn msgq_core_remove_barrier(queue: *mut Handle, token: u64) -> Answer;
        pub fn msgq_core_remove(queue: *mut Handle, filter: *const Filter) -> Answer;
        pub fn msgq_core_has(queue: *mut Handle, filter: *const Filter) -> bool;
        pub fn msgq_core_live(queue: *mut Handle) -> u64;
        pub fn msgq_core_time(queue: *mut Handle) -> u64;
        pub fn msgq_core_next(queue: *mut Handle, now: u64, idle_owed: bool) -> Look;
        pub fn msgq_core_quit(queue: *mut Handle, safe: bool, now: u64) -> Answer;
        pub fn msgq_core_next_dropped(queue: *mut Handle) -> Look;
        pub fn msgq_core_reserve(queue: *mut Handle, count: u64) -> Answer;
    }
}

/// Whom a message is for, and what it is.
#[derive(Clone, Copy, Debug, Default, PartialEq, Eq)]
pub struct Label {
    pub handler: u32,
    pub what: u32,
    pub arg: u32,
    /// Barriers let it pass.
    pub asynchronous: bool,
}

/// A message that comes back.
#[derive(Debug, PartialEq)]
pub struct Message<T> {
    pub label: Label,
    /// When it was due; 0 for one at the front.
    pub when: u64,
    pub value: Box<T>,
}

/// What a look answers.
#[derive(Debug, PartialEq)]
pub enum Next<T> {
    /// A message that is due, and its number.
    Taken(Message<T>, u64),
    /// Nothing is due, and an idle turn is owed.
    Idle,
    /// Nothing is due until this moment, or without limit.
    Wait(Option<u64>),
    /// It has quit, and this many were left.
    Ended(u64),
}

/// What a removal, a quit or the end dropped.
#[derive(Debug, PartialEq)]
pub enum Dropped<T> {
    Message(Message<T>),
    Barrier { token: u64, when: u64 },
}

/// A call that was done: its number, and whether whoever waits for messages is to be woken.
#[must_use = "a wake could be lost"]
#[derive(Clone, Copy, Debug, PartialEq, Eq)]
pub struct Done {
    pub number: u64,
    pub wake: bool,
}

/// A box that was not posted: the queue quit before, at this place among its calls, or there was no memory.
#[derive(Debug, PartialEq)]
pub struct Back<T> {
    pub value: Box<T>,
    pub quit: Option<u64>,
}

/// A queue of boxes, for the messages of handlers.
pub struct Queue<T> {
    handle: c::Handle,
    boxes: PhantomData<Box<T>>,
}

// SAFETY: what the library keeps of a queue may go to another thread, and so may the boxes; `&mut` gives it to one call at a time.
unsafe impl<T: Send> Send for Queue<T> {}

fn done(answer: c::Answer) -> Option<Done> {
    (answer.kind == c::DONE).then_some(Done { number: answer.number, wake: answer.wake })
}

// SAFETY of the calls below: the handle is never copied and stays in its queue, and all pointers are to objects of these
// functions. A number of an object comes from `Box::into_raw` in `post`, and the queue hands each out once.
impl<T> Queue<T> {
    /// A queue in which nothing has happened. None where there is no memory, or the library is another one.
    pub fn open() -> Option<Queue<T>> {
        let mut handle = c::Handle { at: std::ptr::null_mut(), live: false };
        let is_ours = unsafe { c::msgq_core_interface() } == c::INTERFACE;
        (is_ours && unsafe { c::msgq_core_open(&mut handle) }).then_some(Queue { handle, boxes: PhantomData })
    }

    /// Posts the box for a moment (one at 0 goes to the front). It comes back where it is refused.
    pub fn post(&mut self, label: Label, when: u64, value: Box<T>) -> Result<Done, Back<T>> {
        let Label { handler, what, arg, asynchronous } = label;
        let obj = Box::into_raw(value) as u64;
        let message = c::Message { when, obj, handler, what, arg, has_obj: true, asynchronous, ..Default::default() };
        let answer = unsafe { c::msgq_core_post(&mut self.handle, &message) };
        let quit = (answer.kind == c::REFUSED).then_some(answer.number);
        done(answer).ok_or_else(|| Back { value: Queue::message(&message).value, quit })
    }

    /// Posts the box before all others.
    pub fn post_at_front(&mut self, label: Label, value: Box<T>) -> Result<Done, Back<T>> {
        self.post(label, 0, value)
    }

    fn message(message: &c::Message) -> Message<T> {
        let &c::Message { handler, what, arg, asynchronous, when, obj, .. } = message;
        Message { label: Label { handler, what, arg, asynchronous }, when, value: unsafe { Box::from_raw(obj as *mut T) } }
    }

    /// Holds back all but asynchronous messages from this moment on; `number` is its token. None where there is no memory.
    pub fn barrier(&mut self, now: u64) -> Option<Done> {
        done(unsafe { c::msgq_core_barrier(&mut self.handle, now) })
    }

    /// None where no barrier has the token.
    pub fn remove_barrier(&mut self, token: u64) -> Option<Done> {
        done(unsafe { c::msgq_core_remove_barrier(&mut self.handle, token) })
    }

    /// Takes the first message that is due and that no barrier holds back.
    pub fn next(&mut self, now: u64, idle_owed: bool) -> Next<T> {
        let look = unsafe { c::msgq_core_next(&mut self.handle, now, idle_owed) };
        match look.kind {
            c::TAKEN => Next::Taken(Queue::message(&look.message), look.number),
            c::IDLE => Next::Idle,
            c::WAIT => Next::Wait(Some(look.time)),
            c::WAIT_FOREVER => Next::Wait(None),
            _ => Next::Ended(look.number),
        }
    }

    /// Whether a message of the handler stands, with this `what` where one is given.
    pub fn has(&mut self, handler: u32, what: Option<u32>) -> bool {
        unsafe { c::msgq_core_has(&mut self.handle, &filter(handler, what)) }
    }

    /// How many messages and barriers stand in it.
    pub fn len(&mut self) -> u64 {
        unsafe { c::msgq_core_live(&mut self.handle) }
    }

    pub fn is_empty(&mut self) -> bool {
        self.len() == 0
    }

    /// The moment that the queue has come to.
    pub fn time(&mut self) -> u64 {
        unsafe { c::msgq_core_time(&mut self.handle) }
    }

    /// Takes memory for so many messages, and keeps that of messages that went for later ones. False where there is too little.
    pub fn reserve(&mut self, count: u64) -> bool {
        done(unsafe { c::msgq_core_reserve(&mut self.handle, count) }).is_some()
    }

    /// Removes the messages of a handler, with this `what` where one is given; they are handed out. None where there is no memory.
    pub fn remove(&mut self, handler: u32, what: Option<u32>) -> Option<u64> {
        done(unsafe { c::msgq_core_remove(&mut self.handle, &filter(handler, what)) }).map(|done| done.number)
    }

    /// Quits, and answers how many it dropped: all, or safely those that are not due yet. None where it quit before.
    pub fn quit(&mut self, safe: bool, now: u64) -> Option<Done> {
        done(unsafe { c::msgq_core_quit(&mut self.handle, safe, now) })
    }

    /// The next message or barrier that a removal, a quit or the end dropped, in order.
    pub fn next_dropped(&mut self) -> Option<Dropped<T>> {
        let look = unsafe { c::msgq_core_next_dropped(&mut self.handle) };
        match look.kind {
            c::TAKEN => Some(Dropped::Message(Queue::message(&look.message))),
            c::BARRIER => Some(Dropped::Barrier { token: look.number, when: look.time }),
            _ => None,
        }
    }
}

impl<T> Drop for Queue<T> {
    fn drop(&mut self) {
        unsafe { c::msgq_core_close(&mut self.handle) };
        while self.next_dropped().is_some() {}
    }
}

fn filter(handler: u32, what: Option<u32>) -> c::Filter {
    c::Filter { handler, what: what.unwrap_or(0), by_what: what.is_some(), ..Default::default() }
}
