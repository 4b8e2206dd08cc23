//! Message ports.

use std::alloc::{handle_alloc_error, Layout};
use std::fmt;
use std::mem;
use std::sync::Arc;

use crate::error::{Refused, TryRecvError, Why};
use crate::later::{drop_all, Grave};
use crate::receive::{receives, Source};
use crate::sys::{self, Drains, Words};
use crate::{wake, Message, Payload};

/// The most ports in a message.
pub const MAX_PORTS: usize = 16;

/// What is left of the two ports of a channel once they are closed, and not yet ended: each is
/// drained by the other port's next call.
struct Channel {
    graves: [Grave<sys::Port>; 2],
}

/// One of the two entangled ports of a channel (HTML, "Message ports").
///
/// A port is moved to another thread like any other value, or sent in a message. What waits in it
/// travels along, and its peer goes on posting. It is closed when it is dropped: then all that it
/// has posted is taken first, and its peer's posts are refused.
///
/// It is started by the first call that receives, as a port of a browser is by setting `onmessage`.
///
/// ```
/// use std::thread;
/// use varukoni_ports::channel;
///
/// let (mut left, mut right) = channel();
/// let echo = thread::spawn(move || {
///     for message in &mut right {
///         let number = message.payload.downcast::<u64>().unwrap();
///         let mut back = message.ports.into_iter().next().unwrap();
///         back.post_message(number + 1, vec![]).unwrap();
///     }
/// });
/// let (mut reply, far) = channel();
/// left.post_message(41_u64, vec![far]).unwrap();
/// assert_eq!(reply.recv().unwrap().payload.downcast::<u64>().unwrap(), 42);
/// drop(left);
/// echo.join().unwrap();
/// ```
pub struct MessagePort {
    handle: sys::Port,
    channel: Arc<Channel>,
    side: usize,
    is_started: bool,
}

/// Two entangled ports, as `new MessageChannel()` makes them.
///
/// Where there is no memory it ends the process, as `Vec::push` does.
///
/// ```
/// let (mut port1, mut port2) = varukoni_ports::channel();
/// port1.post_message("hello", vec![]).unwrap();
/// assert_eq!(port2.recv().unwrap().payload.as_bytes(), Some(&b"hello"[..]));
/// ```
pub fn channel() -> (MessagePort, MessagePort) {
    let (mut first, mut second) = (sys::Port::CLOSED, sys::Port::CLOSED);
    // "No two pointers of a call overlap": these are two places.
    if unsafe { sys::varukoni_channel_open(&mut first, &mut second, 0) } != sys::DONE {
        handle_alloc_error(Layout::new::<[u8; 5_000]>());
    }
    let channel = Arc::new(Channel {
        graves: [Grave::new(), Grave::new()],
    });
    let other = Arc::clone(&channel);
    (
        MessagePort {
            handle: first,
            channel,
            side: 0,
            is_started: false,
        },
        MessagePort {
            handle: second,
            channel: other,
            side: 1,
            is_started: false,
        },
    )
}

impl MessagePort {
    /// Posts a message, which owns its ports then. Nothing waits, whatever the other thread does.
    ///
    /// After an error all that was given comes back:
    ///
    /// ```
    /// use varukoni_ports::{channel, Why};
    ///
    /// let (mut left, right) = channel();
    /// drop(right);
    /// let refused = left.post_message("late", vec![]).unwrap_err();
    /// assert_eq!(refused.why, Why::Closed);
    /// assert_eq!(refused.payload.as_bytes(), Some(&b"late"[..]));
    /// ```
    #[inline]
    pub fn post_message(
        &mut self,
        payload: impl Into<Payload>,
        ports: Vec<MessagePort>,
    ) -> Result<(), Refused> {
        let payload = payload.into();
        if let Some(why) = self.refusal_of(&ports) {
            return Err(Refused {
                why,
                payload,
                ports,
            });
        }
        let words = Message { payload, ports }.into_words();
        let mut woken = 0;
        // The handle is this port's alone (`&mut self`), and the three places are different ones.
        let status = unsafe { sys::varukoni_port_post(&mut self.handle, &words, &mut woken) };
        if status == sys::DONE {
            wake::wake(woken);
            return Ok(());
        }
        // The library has taken nothing, so these words are this call's still.
        let message = unsafe { Message::from_words(words) };
        Err(self.refused(status, message))
    }

    /// What the library didn't post comes back.
    #[cold]
    fn refused(&self, status: u8, message: Message) -> Refused {
        let why = if status == sys::NO_MEMORY {
            Why::OutOfMemory
        } else {
            Why::Closed
        };
        if why == Why::Closed {
            self.peer_grave().go_on();
        }
        let Message { payload, ports } = message;
        Refused {
            why,
            payload,
            ports,
        }
    }

    /// Why these ports can't be sent by this one.
    #[inline]
    fn refusal_of(&self, ports: &[MessagePort]) -> Option<Why> {
        if ports.len() > MAX_PORTS {
            return Some(Why::TooManyPorts);
        }
        let holds_target = ports
            .iter()
            .any(|port| Arc::ptr_eq(&port.channel, &self.channel));
        holds_target.then_some(Why::HoldsTarget)
    }

    /// Allows messages to be taken, as the first call that receives does.
    ///
    /// ```
    /// let (_near, mut far) = varukoni_ports::channel();
    /// far.start();
    /// ```
    #[inline]
    pub fn start(&mut self) {
        if !self.is_started {
            self.is_started = true;
            // The handle is this port's alone.
            unsafe { sys::varukoni_port_start(&mut self.handle) };
        }
    }

    /// Takes the next message, if one is there.
    ///
    /// ```
    /// use varukoni_ports::{channel, TryRecvError};
    ///
    /// let (left, mut right) = channel();
    /// assert_eq!(right.try_recv().unwrap_err(), TryRecvError::Empty);
    /// drop(left);
    /// assert_eq!(right.try_recv().unwrap_err(), TryRecvError::Ended);
    /// ```
    #[inline]
    pub fn try_recv(&mut self) -> Result<Message, TryRecvError> {
        self.try_take()
    }

    /// The peer is closed, and nothing of what it has posted is left.
    #[cold]
    fn ended(&self) -> TryRecvError {
        self.peer_grave().go_on();
        TryRecvError::Ended
    }

    /// Closes the port, and hands back what nobody took, in order. Dropping it does the same, and
    /// drops that.
    ///
    /// What its peer is posting at this very moment may come later: it is dropped at the peer's
    /// next call, once, as all else.
    ///
    /// ```
    /// use varukoni_ports::channel;
    ///
    /// let (mut left, right) = channel();
    /// left.post_message("unread", vec![]).unwrap();
    /// let left_over = right.close();
    /// assert_eq!(left_over[0].payload.as_bytes(), Some(&b"unread"[..]));
    /// ```
    pub fn close(mut self) -> Vec<Message> {
        let mut left_over = self.shut();
        adopt_all(&mut left_over);
        left_over
    }

    /// Closes the handle, and gives what comes out of it. What is still to come is left to the
    /// peer.
    fn shut(&mut self) -> Vec<Message> {
        if !self.handle.is_open() {
            return Vec::new();
        }
        let (mut own, mut woken) = (0, 0);
        // The handle is this port's alone, and the places are different ones.
        unsafe { sys::varukoni_port_close(&mut self.handle, &mut own, &mut woken) };
        wake::forget(own);
        wake::wake(woken);
        self.peer_grave().go_on();
        let handle = mem::replace(&mut self.handle, sys::Port::CLOSED);
        self.channel.graves[self.side].leave(handle)
    }

    /// What is left of the peer, once this port has ended its line.
    fn peer_grave(&self) -> &Grave<sys::Port> {
        &self.channel.graves[1 - self.side]
    }
}

impl Source for MessagePort {
    type Item = Message;

    #[inline]
    fn take(&mut self, words: &mut Words) -> Result<(), TryRecvError> {
        self.start();
        // The handle is this port's alone, and the two places are different ones.
        match unsafe { sys::varukoni_port_take(&mut self.handle, words) } {
            sys::DONE => Ok(()),
            sys::ENDED => Err(self.ended()),
            _ => Err(TryRecvError::Empty),
        }
    }

    #[inline]
    unsafe fn item(words: Words) -> Message {
        Message::arrived(words)
    }

    fn arm(&mut self, token: u64) -> (u8, u64) {
        let mut old = 0;
        // The handle is this port's alone.
        let status = unsafe { sys::varukoni_port_arm(&mut self.handle, token, &mut old) };
        (status, old)
    }
}

receives!(
    MessagePort,
    Message,
    "let (mut near, mut taker) = varukoni_ports::channel();
near.post_message(\"hello\", vec![]).unwrap();"
);

/// The ports of these messages are another owner's.
pub(crate) fn adopt_all(messages: &mut [Message]) {
    for message in messages {
        adopt(&mut message.ports);
    }
}

/// The ports of a message that has arrived are another owner's: disabled, and nobody's to wake.
pub(crate) fn adopt(ports: &mut [MessagePort]) {
    for port in ports {
        let mut old = 0;
        port.is_started = false;
        // The handle is this message's alone.
        unsafe { sys::varukoni_port_adopt(&mut port.handle, 0, &mut old) };
        wake::forget(old);
    }
}

impl Drop for MessagePort {
    fn drop(&mut self) {
        drop_all(self.shut());
    }
}

impl fmt::Debug for MessagePort {
    fn fmt(&self, out: &mut fmt::Formatter<'_>) -> fmt::Result {
        out.debug_struct("MessagePort")
            .field("is_started", &self.is_started)
            .finish_non_exhaustive()
    }
}
