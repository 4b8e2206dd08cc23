//! Why a call came to nothing.

use std::error::Error;
use std::fmt;

use crate::{MessagePort, Payload};

/// Why a message was not posted.
#[derive(Debug, Clone, Copy, PartialEq, Eq)]
pub enum Why {
    /// The other port, or the queue, is closed: this stays so.
    Closed,
    /// There was no memory.
    OutOfMemory,
    /// The list has more than 16 ports.
    TooManyPorts,
    /// The list has the port at which the message would arrive. A browser posts such a message
    /// nowhere and loses the ports (HTML, "Message ports", the message port post message steps).
    HoldsTarget,
}

impl fmt::Display for Why {
    fn fmt(&self, out: &mut fmt::Formatter<'_>) -> fmt::Result {
        out.write_str(match self {
            Why::Closed => "the other side is closed",
            Why::OutOfMemory => "out of memory",
            Why::TooManyPorts => "more than 16 ports in a message",
            Why::HoldsTarget => "the message holds the port at which it would arrive",
        })
    }
}

/// A message that was not posted: all of it comes back.
///
/// ```
/// use varukoni_ports::{channel, Refused};
///
/// let (mut left, right) = channel();
/// drop(right);
/// let Refused { why, payload, .. } = left.post_message("late", vec![]).unwrap_err();
/// assert_eq!(why.to_string(), "the other side is closed");
/// assert_eq!(payload.as_bytes(), Some(&b"late"[..]));
/// ```
#[derive(Debug)]
pub struct Refused {
    /// Why it was not posted.
    pub why: Why,
    /// The payload, as it was.
    pub payload: Payload,
    /// The ports, in their order. They are the caller's as before.
    pub ports: Vec<MessagePort>,
}

impl fmt::Display for Refused {
    fn fmt(&self, out: &mut fmt::Formatter<'_>) -> fmt::Result {
        self.why.fmt(out)
    }
}

impl Error for Refused {}

/// Nothing more will come: the other port is closed, and all that it has posted was taken.
#[derive(Debug, Clone, Copy, PartialEq, Eq)]
pub struct Ended;

impl fmt::Display for Ended {
    fn fmt(&self, out: &mut fmt::Formatter<'_>) -> fmt::Result {
        out.write_str("the other port is closed, and nothing is left")
    }
}

impl Error for Ended {}

/// Why nothing was taken.
#[derive(Debug, Clone, Copy, PartialEq, Eq)]
pub enum TryRecvError {
    /// Nothing is there now.
    Empty,
    /// Nothing more will come.
    Ended,
}

impl fmt::Display for TryRecvError {
    fn fmt(&self, out: &mut fmt::Formatter<'_>) -> fmt::Result {
        match self {
            TryRecvError::Empty => out.write_str("nothing is there now"),
            TryRecvError::Ended => Ended.fmt(out),
        }
    }
}

impl Error for TryRecvError {}

/// Why nothing was taken in time.
#[derive(Debug, Clone, Copy, PartialEq, Eq)]
pub enum RecvTimeoutError {
    /// Nothing came in that time.
    Timeout,
    /// Nothing more will come.
    Ended,
}

impl fmt::Display for RecvTimeoutError {
    fn fmt(&self, out: &mut fmt::Formatter<'_>) -> fmt::Result {
        match self {
            RecvTimeoutError::Timeout => out.write_str("nothing came in time"),
            RecvTimeoutError::Ended => Ended.fmt(out),
        }
    }
}

impl Error for RecvTimeoutError {}

/// A queue has as many lines as it may have.
#[derive(Debug, Clone, Copy, PartialEq, Eq)]
pub struct TooManyLines;

impl fmt::Display for TooManyLines {
    fn fmt(&self, out: &mut fmt::Formatter<'_>) -> fmt::Result {
        out.write_str("the queue has 32 lines")
    }
}

impl Error for TooManyLines {}

/// A broadcast didn't come to all: memory ran out.
#[derive(Debug, Clone, Copy, PartialEq, Eq)]
pub struct Undelivered {
    /// At how many channels it was posted.
    pub posted: usize,
    /// At how many it was not.
    pub refused: usize,
}

impl fmt::Display for Undelivered {
    fn fmt(&self, out: &mut fmt::Formatter<'_>) -> fmt::Result {
        write!(out, "out of memory for {} of the channels", self.refused)
    }
}

impl Error for Undelivered {}
