//! What is posted and taken.

use std::mem;

use crate::payload::address_of_ports;
use crate::port::{self, MessagePort};
use crate::sys::Words;
use crate::Payload;

/// A message: its payload, and the ports that were sent with it, in their order.
///
/// Each of its ports belongs to whoever has the message. One that is dropped is closed.
///
/// ```
/// use varukoni_ports::{channel, Message};
///
/// let (mut left, mut right) = channel();
/// left.post_message("a port", vec![channel().0]).unwrap();
/// let Message { payload, ports } = right.recv().unwrap();
/// assert_eq!((payload.as_bytes(), ports.len()), (Some(&b"a port"[..]), 1));
/// ```
#[derive(Debug)]
pub struct Message {
    /// What it carries beside its ports.
    pub payload: Payload,
    /// The ports that came with it.
    pub ports: Vec<MessagePort>,
}

impl Message {
    /// The message as words, which own it until it is made of them again.
    #[inline]
    pub(crate) fn into_words(self) -> Words {
        let Message { payload, ports } = self;
        if ports.capacity() > 0 {
            return payload.into_words(boxed(ports));
        }
        // The list owns nothing, and to drop it would be a call.
        mem::forget(ports);
        payload.into_words(0)
    }

    /// The message of these words, which is taken out once.
    pub(crate) unsafe fn from_words(words: Words) -> Message {
        let ports = match address_of_ports(&words) {
            0 => Vec::new(),
            address => *Box::from_raw(place_of(address)),
        };
        let payload = Payload::from_words(words);
        Message { payload, ports }
    }

    /// The same of a message that has arrived: its ports are another owner's.
    #[inline]
    pub(crate) unsafe fn arrived(words: Words) -> Message {
        let ports = match address_of_ports(&words) {
            0 => Vec::new(),
            address => *Box::from_raw(adopted(address)),
        };
        let payload = Payload::from_words(words);
        Message { payload, ports }
    }
}

/// The address of a box with the ports, or 0 where there are none.
fn boxed(ports: Vec<MessagePort>) -> u64 {
    match ports.is_empty() {
        true => 0,
        false => Box::into_raw(Box::new(ports)) as usize as u64,
    }
}

/// Where `boxed` has put the ports.
fn place_of(address: u64) -> *mut Vec<MessagePort> {
    address as usize as *mut Vec<MessagePort>
}

/// The same, where they are adopted. They stay there: so a list of none is made of three registers
/// and needs no place that a call would fill.
unsafe fn adopted(address: u64) -> *mut Vec<MessagePort> {
    let place = place_of(address);
    port::adopt(&mut *place);
    place
}
