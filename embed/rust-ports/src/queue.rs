//! The message queues of clients and workers: many senders, each with a line of its own, and one
//! taker.

use std::alloc::{handle_alloc_error, Layout};
use std::fmt;
use std::mem;
use std::sync::Arc;

use crate::error::{Refused, TooManyLines, TryRecvError, Why};
use crate::later::{drop_all, Grave};
use crate::port::{adopt_all, MAX_PORTS};
use crate::receive::{receives, Source};
use crate::sys::{self, Drains, Words};
use crate::{wake, Message, MessagePort, Payload};

/// The most lines that a queue has at a time.
pub const MAX_LINES: usize = 32;

/// What one sender posts over at a queue. Its messages come in the order in which it posts them.
///
/// It is moved to the sender's thread like any other value. Dropped, it gives its place at the
/// queue back, once all that was posted over it was taken.
///
/// ```
/// use std::thread;
/// use varukoni_ports::WorkerQueue;
///
/// let mut queue = WorkerQueue::new();
/// let mut line = queue.line().unwrap();
/// let sender = thread::spawn(move || line.post_message("hello", vec![]).unwrap());
/// assert_eq!(queue.recv().unwrap().payload.as_bytes(), Some(&b"hello"[..]));
/// # sender.join().unwrap();
/// ```
pub struct Line {
    handle: sys::Poster,
    grave: Arc<Grave<sys::Fan>>,
}

impl Line {
    /// Posts a message, which owns its ports then. Nothing waits, whatever the other threads do.
    ///
    /// After an error all that was given comes back: the queue is closed, memory ran out, or there
    /// are more than 16 ports.
    ///
    /// ```
    /// use varukoni_ports::{Why, WorkerQueue};
    ///
    /// let mut queue = WorkerQueue::new();
    /// let mut line = queue.line().unwrap();
    /// drop(queue);
    /// let refused = line.post_message("late", vec![]).unwrap_err();
    /// assert_eq!(refused.why, Why::Closed);
    /// ```
    #[inline]
    pub fn post_message(
        &mut self,
        payload: impl Into<Payload>,
        ports: Vec<MessagePort>,
    ) -> Result<(), Refused> {
        let payload = payload.into();
        if ports.len() > MAX_PORTS {
            return Err(Refused {
                why: Why::TooManyPorts,
                payload,
                ports,
            });
        }
        let words = Message { payload, ports }.into_words();
        let mut woken = 0;
        // The handle is this line's alone (`&mut self`), and the three places are different ones.
        let status = unsafe { sys::varukoni_poster_post(&mut self.handle, &words, &mut woken) };
        if status == sys::DONE {
            wake::wake(woken);
            return Ok(());
        }
        // The library has taken nothing, so these words are this call's still.
        let message = unsafe { Message::from_words(words) };
        Err(self.refused(status, message))
    }

    /// What the library didn't post comes back.
    #[cold]
    fn refused(&self, status: u8, message: Message) -> Refused {
        if status == sys::CLOSED {
            self.grave.go_on();
        }
        let why = match status {
            sys::CLOSED => Why::Closed,
            _ => Why::OutOfMemory,
        };
        let Message { payload, ports } = message;
        Refused {
            why,
            payload,
            ports,
        }
    }
}

impl Drop for Line {
    fn drop(&mut self) {
        let mut woken = 0;
        // The handle is this line's alone, and the two places are different ones.
        unsafe { sys::varukoni_poster_close(&mut self.handle, &mut woken) };
        wake::wake(woken);
        self.grave.go_on();
    }
}

impl fmt::Debug for Line {
    fn fmt(&self, out: &mut fmt::Formatter<'_>) -> fmt::Result {
        out.debug_struct("Line").finish_non_exhaustive()
    }
}

/// A taker with lines.
struct Queue {
    handle: sys::Fan,
    grave: Arc<Grave<sys::Fan>>,
    /// How many lines were not found at their ends yet.
    lines: usize,
    is_started: bool,
}

impl Queue {
    /// Where there is no memory it ends the process, as `Vec::push` does.
    fn open() -> Queue {
        let mut handle = sys::Fan::CLOSED;
        // The handle is closed, and this call's alone.
        if unsafe { sys::varukoni_fan_open(&mut handle) } != sys::DONE {
            handle_alloc_error(Layout::new::<[u8; 5_000]>());
        }
        Queue {
            handle,
            grave: Arc::new(Grave::new()),
            lines: 0,
            is_started: false,
        }
    }

    fn line(&mut self) -> Result<Line, TooManyLines> {
        let mut handle = sys::Poster::CLOSED;
        // The handles are this call's alone, and the three places are different ones.
        match unsafe { sys::varukoni_fan_line(&mut self.handle, &mut handle, &mut 0) } {
            sys::DONE => {
                self.lines += 1;
                let grave = Arc::clone(&self.grave);
                Ok(Line { handle, grave })
            }
            sys::FULL => Err(TooManyLines),
            _ => handle_alloc_error(Layout::new::<[u8; 5_000]>()),
        }
    }

    #[inline]
    fn start(&mut self) {
        if !self.is_started {
            self.is_started = true;
            // The handle is this queue's alone.
            unsafe { sys::varukoni_fan_start(&mut self.handle) };
        }
    }

    #[inline]
    fn take(&mut self, words: &mut Words) -> Result<(), TryRecvError> {
        self.start();
        loop {
            // The handle is this queue's alone, and the three places are different ones.
            match unsafe { sys::varukoni_fan_take(&mut self.handle, words, &mut 0) } {
                sys::DONE => return Ok(()),
                sys::ENDED => self.lines -= 1,
                _ if self.lines == 0 => return Err(TryRecvError::Ended),
                _ => return Err(TryRecvError::Empty),
            }
        }
    }

    fn arm(&mut self, token: u64) -> (u8, u64) {
        let mut old = 0;
        // The handle is this queue's alone.
        let status = unsafe { sys::varukoni_fan_arm(&mut self.handle, token, &mut old) };
        (status, old)
    }

    /// Closes the handle, and gives what comes out of it. What is still to come is left to the
    /// lines.
    fn shut(&mut self) -> Vec<Message> {
        let mut handle = mem::replace(&mut self.handle, sys::Fan::CLOSED);
        if !handle.is_open() {
            return Vec::new();
        }
        let mut own = 0;
        // The handle is this call's alone, and the two places are different ones.
        unsafe { sys::varukoni_fan_close(&mut handle, &mut own) };
        wake::forget(own);
        self.grave.leave(handle)
    }
}

impl Drop for Queue {
    fn drop(&mut self) {
        drop_all(self.shut());
    }
}

macro_rules! queue {
    ($(#[$about:meta])* $name:ident) => {
        $(#[$about])*
        pub struct $name(Queue);

        impl $name {
            /// A line for one more sender, of which there are at most 32 at a time.
            ///
            /// Where there is no memory it ends the process, as `Vec::push` does.
            ///
            /// ```
            #[doc = concat!("let mut queue = varukoni_ports::", stringify!($name), "::new();")]
            /// let lines: Vec<_> = (0..32).map(|_| queue.line().unwrap()).collect();
            /// assert!(queue.line().is_err());
            /// ```
            pub fn line(&mut self) -> Result<Line, TooManyLines> {
                self.0.line()
            }

            /// Takes the next message, if one is there: the lines are asked in turn, from behind
            /// the one that gave the last. `Ended` says that no line is left, and all that was
            /// posted was taken.
            ///
            /// ```
            #[doc = concat!("let mut queue = varukoni_ports::", stringify!($name), "::new();")]
            /// let mut line = queue.line().unwrap();
            /// line.post_message("hello", vec![]).unwrap();
            /// assert!(queue.try_recv().is_ok());
            /// assert!(queue.try_recv().is_err());
            /// ```
            #[inline]
            pub fn try_recv(&mut self) -> Result<Message, TryRecvError> {
                self.try_take()
            }

            /// Closes the queue, and hands back what nobody took: each line's messages in order.
            /// Dropping it does the same, and drops that.
            ///
            /// What is being posted at this very moment may come later: it is dropped at the next
            /// call over its line, once, as all else.
            ///
            /// ```
            #[doc = concat!("let mut queue = varukoni_ports::", stringify!($name), "::new();")]
            /// queue.line().unwrap().post_message("unread", vec![]).unwrap();
            /// assert_eq!(queue.close().len(), 1);
            /// ```
            pub fn close(mut self) -> Vec<Message> {
                let mut left_over = self.0.shut();
                adopt_all(&mut left_over);
                left_over
            }
        }

        impl Source for $name {
            type Item = Message;

            #[inline]
            fn take(&mut self, words: &mut Words) -> Result<(), TryRecvError> {
                self.0.take(words)
            }

            #[inline]
            unsafe fn item(words: Words) -> Message {
                Message::arrived(words)
            }

            fn arm(&mut self, token: u64) -> (u8, u64) {
                self.0.arm(token)
            }
        }


        impl Default for $name {
            fn default() -> $name {
                $name::new()
            }
        }

        impl fmt::Debug for $name {
            fn fmt(&self, out: &mut fmt::Formatter<'_>) -> fmt::Result {
                out.debug_struct(stringify!($name)).finish_non_exhaustive()
            }
        }
    };
}

queue! {
    /// The message queue of a worker, at which its clients post (`ServiceWorker.postMessage`).
    ///
    /// ```
    /// use std::thread;
    /// use varukoni_ports::WorkerQueue;
    ///
    /// let mut queue = WorkerQueue::new();
    /// let clients: Vec<_> = (0..4_u64)
    ///     .map(|n| (n, queue.line().unwrap()))
    ///     .map(|(n, mut line)| thread::spawn(move || line.post_message(n, vec![]).unwrap()))
    ///     .collect();
    /// let sum: u64 = queue.map(|message| message.payload.downcast::<u64>().unwrap()).sum();
    /// assert_eq!(sum, 0 + 1 + 2 + 3);
    /// # for client in clients { client.join().unwrap(); }
    /// ```
    WorkerQueue
}

queue! {
    /// The message queue of a client, at which workers post (`Client.postMessage`). It is started
    /// by [`start_messages`](ClientQueue::start_messages), as
    /// `navigator.serviceWorker.startMessages()` does, or by the first call that receives.
    ///
    /// ```
    /// use varukoni_ports::ClientQueue;
    ///
    /// let mut queue = ClientQueue::new();
    /// let mut line = queue.line().unwrap();
    /// line.post_message("waits", vec![]).unwrap();
    /// queue.start_messages();
    /// assert_eq!(queue.recv().unwrap().payload.as_bytes(), Some(&b"waits"[..]));
    /// ```
    ClientQueue
}

receives!(
    WorkerQueue,
    Message,
    "let mut taker = varukoni_ports::WorkerQueue::new();
let mut line = taker.line().unwrap();
line.post_message(\"hello\", vec![]).unwrap();"
);
receives!(
    ClientQueue,
    Message,
    "let mut taker = varukoni_ports::ClientQueue::new();
let mut line = taker.line().unwrap();
line.post_message(\"hello\", vec![]).unwrap();"
);

impl WorkerQueue {
    /// A queue with no line, which is started.
    ///
    /// Where there is no memory it ends the process, as `Vec::push` does.
    ///
    /// ```
    /// use varukoni_ports::{TryRecvError, WorkerQueue};
    ///
    /// let mut queue = WorkerQueue::new();
    /// assert_eq!(queue.try_recv().unwrap_err(), TryRecvError::Ended);
    /// ```
    pub fn new() -> WorkerQueue {
        let mut queue = Queue::open();
        queue.start();
        WorkerQueue(queue)
    }
}

impl ClientQueue {
    /// A queue with no line, which isn't started.
    ///
    /// Where there is no memory it ends the process, as `Vec::push` does.
    ///
    /// ```
    /// let mut queue = varukoni_ports::ClientQueue::new();
    /// assert!(queue.line().is_ok());
    /// ```
    pub fn new() -> ClientQueue {
        ClientQueue(Queue::open())
    }

    /// Allows messages to be taken.
    ///
    /// ```
    /// let mut queue = varukoni_ports::ClientQueue::new();
    /// queue.start_messages();
    /// ```
    pub fn start_messages(&mut self) {
        self.0.start();
    }
}
