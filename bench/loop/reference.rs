//! Takes from the channels of Rust's library, of which some are busy, in one thread: 1,000 messages
//! are sent at a time at the busy ones in turn and then taken, which is timed; or each channel is
//! asked in vain. What it takes more with many channels is what their memory takes to reach, which
//! no loop over them saves. Prints how long all took, in microseconds, and how many messages were
//! taken, or how often all were asked.
//! usage: reference deliveries|idle PORTS BUSY COUNT

use std::env;
use std::hint::black_box;
use std::sync::mpsc::{Receiver, Sender, channel};
use std::time::{Duration, Instant};

/// As long as an envelope of the hub.
type Message = [u64; 9];

const A_TIME: usize = 1000;

fn deliveries(ends: &[(Sender<Message>, Receiver<Message>)], busy: usize, count: usize) -> Duration {
    let step = ends.len() / busy;
    let places: Vec<usize> = (0..A_TIME).map(|turn| turn % busy * step).collect();
    let mut taken = Duration::ZERO;
    for _ in 0..count / A_TIME {
        for place in &places {
            ends[*place].0.send([1; 9]).expect("its receiver is there");
        }
        let start = Instant::now();
        for place in &places {
            black_box(ends[*place].1.try_recv().expect("a message was sent"));
        }
        taken += start.elapsed();
    }
    taken
}

fn idle(ends: &[(Sender<Message>, Receiver<Message>)], count: usize) -> Duration {
    let start = Instant::now();
    for _ in 0..count {
        for end in ends {
            assert!(black_box(end.1.try_recv()).is_err());
        }
    }
    start.elapsed()
}

fn main() {
    let words: Vec<String> = env::args().skip(1).collect();
    let [what, numbers @ ..] = words.as_slice() else {
        panic!("usage: reference deliveries|idle PORTS BUSY COUNT");
    };
    let numbers: Vec<usize> = numbers.iter().map(|it| it.parse().expect("a number")).collect();
    let [ports, busy, count] = numbers[..] else {
        panic!("usage: reference deliveries|idle PORTS BUSY COUNT");
    };
    let ends: Vec<_> = (0..ports).map(|_| channel()).collect();
    // Each channel has its memory before the time is taken, as a port of the hub has.
    for (sender, receiver) in &ends {
        sender.send([0; 9]).expect("its receiver is there");
        receiver.try_recv().expect("a message was sent");
    }
    let took = match what.as_str() {
        "deliveries" => deliveries(&ends, busy, count),
        _ => idle(&ends, count),
    };
    println!("{} {count}", took.as_micros());
}
