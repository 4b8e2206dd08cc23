//! Message ports, worker queues and broadcast channels between the threads of one program, over a
//! proved library.
//!
//! A [`MessagePort`] is one of the two ends of a channel. What is posted at one is taken at the
//! other, in order and each once, with no lock and no wait; a port can be sent in a message, and
//! what waits in it travels along.
//!
//! ```
//! let (mut left, mut right) = varukoni_ports::channel();
//! left.post_message("hello", vec![]).unwrap();
//! let message = right.recv().unwrap();
//! assert_eq!(message.payload.as_bytes(), Some(&b"hello"[..]));
//! ```
//!
//! A [`WorkerQueue`] or [`ClientQueue`] has many senders, each with a [`Line`] of its own; what is
//! posted at one [`BroadcastChannel`] comes to all others of its name.
//!
//! What the library is proved to do, and what it asks of a caller, stands in `varukoni_ports.h`.
//! The safe functions meet what the header asks: `&mut self` lets one call run at a time for one
//! handle, no two places of a call overlap, and `Drop` closes it. That the declarations here fit
//! the header is proved by nothing.

#![warn(missing_docs)]

mod broadcast;
mod error;
mod later;
mod message;
mod payload;
mod port;
mod queue;
mod receive;
mod sys;
mod wake;

pub use broadcast::{BroadcastChannel, Shared};
pub use error::{Ended, RecvTimeoutError, Refused, TooManyLines, TryRecvError, Undelivered, Why};
pub use message::Message;
pub use payload::Payload;
pub use port::{channel, MessagePort, MAX_PORTS};
pub use queue::{ClientQueue, Line, WorkerQueue, MAX_LINES};
