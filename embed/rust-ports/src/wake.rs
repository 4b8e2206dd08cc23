//! Who is woken. A token of the library is the address of a boxed waker; the library hands each
//! token out once, so whoever gets it owns the waker.

use std::sync::Arc;
use std::task::{Wake, Waker};
use std::thread::{self, Thread};

/// The token of a waker.
pub(crate) fn token(waker: &Waker) -> u64 {
    Box::into_raw(Box::new(waker.clone())) as usize as u64
}

/// The waker of a token that the library has handed out; none where it handed out none.
fn owned(token: u64) -> Option<Box<Waker>> {
    // "Each token is handed out once": the box is made anew from it once.
    (token != 0).then(|| unsafe { Box::from_raw(token as usize as *mut Waker) })
}

/// Wakes whom a token names.
#[inline]
pub(crate) fn wake(token: u64) {
    if token != 0 {
        wake_sleeper(token);
    }
}

#[cold]
fn wake_sleeper(token: u64) {
    if let Some(waker) = owned(token) {
        waker.wake();
    }
}

/// Gives up a token that came back unused.
pub(crate) fn forget(token: u64) {
    drop(owned(token));
}

struct Unpark(Thread);

impl Wake for Unpark {
    fn wake(self: Arc<Self>) {
        self.0.unpark();
    }
}

/// Calls with a waker of this thread, which is made once.
pub(crate) fn with_this_thread<A>(call: impl FnOnce(&Waker) -> A) -> A {
    thread_local!(static WAKER: Waker = Waker::from(Arc::new(Unpark(thread::current()))));
    WAKER.with(call)
}
