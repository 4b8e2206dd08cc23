//! Payloads that are counted, and numbers.

use std::sync::atomic::{AtomicUsize, Ordering};
use std::sync::Arc;

use varukoni_ports::Payload;

/// A value that counts how many of its like are there.
pub struct Counted(Arc<AtomicUsize>);

impl Counted {
    pub fn new(count: &Arc<AtomicUsize>) -> Counted {
        count.fetch_add(1, Ordering::SeqCst);
        Counted(Arc::clone(count))
    }
}

impl Drop for Counted {
    fn drop(&mut self) {
        self.0.fetch_sub(1, Ordering::SeqCst);
    }
}

/// The number that a payload was made of.
#[allow(dead_code)] // A crate of tests without numbers has it too.
pub fn number(payload: Payload) -> u64 {
    payload.downcast().unwrap()
}
