//! Messages through a channel: std::sync::mpsc, or that of the crate which is named as a feature.
//! Senders are threads of their own, and the receiver is the first thread, which adds up what the
//! messages tell.
use std::time::{Duration, Instant};

// The channels have no limit, so that no sender waits. A receiver waits as the channel has it for
// threads.
#[cfg(feature = "async-channel")]
use async_channel::{unbounded as channel, Receiver, Sender};
#[cfg(feature = "crossbeam-channel")]
use crossbeam_channel::{unbounded as channel, Receiver, Sender};
#[cfg(feature = "flume")]
use flume::{unbounded as channel, Receiver, Sender};
#[cfg(not(any(
    feature = "async-channel",
    feature = "crossbeam-channel",
    feature = "flume",
    feature = "tokio"
)))]
use std::sync::mpsc::{channel, Receiver, Sender};
#[cfg(feature = "tokio")]
use tokio::sync::mpsc::{
    unbounded_channel as channel, UnboundedReceiver as Receiver, UnboundedSender as Sender,
};

pub trait Message: Send {
    /// The message of a sender with this number, which may carry a clone of the text.
    fn of(sender: u8, number: u64, text: &str) -> Self;

    /// What the receiver adds up.
    fn told(&self) -> u64;
}

#[cfg(not(feature = "async-channel"))]
fn send<M>(sender: &Sender<M>, message: M) -> bool {
    sender.send(message).is_ok()
}

#[cfg(feature = "async-channel")]
fn send<M>(sender: &Sender<M>, message: M) -> bool {
    sender.send_blocking(message).is_ok()
}

#[cfg(not(any(feature = "async-channel", feature = "tokio")))]
fn receive<M>(receiver: &mut Receiver<M>) -> Option<M> {
    receiver.recv().ok()
}

#[cfg(feature = "async-channel")]
fn receive<M>(receiver: &mut Receiver<M>) -> Option<M> {
    receiver.recv_blocking().ok()
}

#[cfg(feature = "tokio")]
fn receive<M>(receiver: &mut Receiver<M>) -> Option<M> {
    receiver.blocking_recv()
}

// Sends so many messages, and says when it began.
fn send_all<M: Message>(
    zero: &Instant,
    text: &str,
    number_of_sender: u8,
    sender: Sender<M>,
    each: u64,
) -> Duration {
    let begin = zero.elapsed();
    for number in 0..each {
        assert!(send(&sender, M::of(number_of_sender, number, text)));
    }
    begin
}

/// Sends and receives, and prints how long that took, in microseconds, how many messages there
/// were, and what they told in all.
pub fn time_run<M: Message>(senders: u8, each: u64, text: &str) {
    let text = text.to_string();
    let messages = u64::from(senders) * each;
    let (sender, mut receiver) = channel::<M>();
    let zero = Instant::now();
    std::thread::scope(|scope| {
        let threads: Vec<_> = (0..senders)
            .map(|number| {
                let (zero, text, sender) = (&zero, &text, sender.clone());
                scope.spawn(move || send_all(zero, text, number, sender, each))
            })
            .collect();
        let mut told = 0;
        for _ in 0..messages {
            told += receive(&mut receiver).unwrap().told();
        }
        let end = zero.elapsed();
        let begins = threads.into_iter().map(|thread| thread.join().unwrap());
        let time = end - begins.min().unwrap();
        println!("{} {messages} {told}", time.as_micros());
    })
}
