//! What is left of closed handles, and how messages are dropped: what they hold after them, and not
//! within.

use std::cell::RefCell;
use std::sync::{Mutex, MutexGuard, PoisonError};

use crate::sys::{self, Drains, Words};
use crate::Message;

/// Locks what no panic leaves half done.
pub(crate) fn locked<T>(place: &Mutex<T>) -> MutexGuard<'_, T> {
    place.lock().unwrap_or_else(PoisonError::into_inner)
}

/// A closed handle that isn't at its end: who still posts there drains it after its own last call.
pub(crate) struct Grave<H>(Mutex<Option<H>>);

impl<H: Drains> Grave<H> {
    pub(crate) const fn new() -> Grave<H> {
        Grave(Mutex::new(None))
    }

    /// Leaves a closed handle, and gives what comes out of it now.
    pub(crate) fn leave(&self, mut handle: H) -> Vec<Message> {
        let mut found = Vec::new();
        // Who posts there may have made its last call before the place was locked.
        let mut place = locked(&self.0);
        if !drained(&mut handle, &mut found) {
            *place = Some(handle);
        }
        found
    }

    /// Goes on with a handle that was left, and drops what comes out of it.
    pub(crate) fn go_on(&self) {
        let mut found = Vec::new();
        let mut place = locked(&self.0);
        if let Some(handle) = place.as_mut() {
            if drained(handle, &mut found) {
                *place = None;
            }
        }
        drop(place);
        drop_all(found);
    }
}

/// Takes all that comes out of a closed handle. Whether it is at its end.
fn drained<H: Drains>(handle: &mut H, found: &mut Vec<Message>) -> bool {
    loop {
        let mut words = Words::default();
        match handle.drain(&mut words) {
            // Each message that was posted is handed back once.
            sys::DONE => found.push(unsafe { Message::from_words(words) }),
            sys::ENDED => return true,
            _ => return false,
        }
    }
}

thread_local! {
    /// Messages to be dropped, while some are.
    static LATER: RefCell<Option<Vec<Message>>> = const { RefCell::new(None) };
}

/// Drops messages with all that they hold, however deep, without a call within a call.
pub(crate) fn drop_all(messages: Vec<Message>) {
    // Where the thread ends already the messages are dropped by the calls within.
    let is_first = LATER.try_with(|later| match &mut *later.borrow_mut() {
        Some(waiting) => {
            waiting.extend(messages);
            false
        }
        none => {
            *none = Some(messages);
            true
        }
    });
    while is_first == Ok(true) {
        let next = LATER.with(|later| {
            let mut later = later.borrow_mut();
            let next = later.as_mut().and_then(Vec::pop);
            if next.is_none() {
                *later = None;
            }
            next
        });
        match next {
            Some(message) => drop(message),
            None => return,
        }
    }
}
