// Numbers over the ports of embed/rust-ports, and over the channels of the crate that is named as a
// feature. Senders are threads or tasks of their own, and the receiver is the first one. It prints
// the microseconds from the first send to the last receive, how many came, and their sum.
// usage: reference ports|channels flood SENDERS EACH
//        reference ports|channels round 1 EACH
//        reference ports|channels tasks SENDERS EACH (over tokio)
use std::thread;
use std::time::Instant;
use varukoni_ports::{channel, WorkerQueue};

struct Told {
    begin: Instant,
    count: u64,
    sum: u64,
}

fn told(begin: Instant, numbers: impl Iterator<Item = u64>) -> Told {
    let (count, sum) = numbers.fold((0, 0), |(count, sum), n| (count + 1, sum + n));
    Told { begin, count, sum }
}

/// A sender of all numbers, in a thread of its own.
fn spawn_sender(each: u64, send: impl FnMut(u64) + Send + 'static) {
    thread::spawn(move || (0..each).for_each(send));
}

fn number(message: varukoni_ports::Message) -> u64 {
    message.payload.downcast().unwrap()
}

// One sender has a port, and several have a line each at one queue.
fn flood_ports(senders: u64, each: u64) -> Told {
    if senders == 1 {
        let (mut near, mut far) = channel();
        let begin = Instant::now();
        spawn_sender(each, move |n| near.post_message(n, vec![]).unwrap());
        return told(begin, far.map(number));
    }
    let mut queue = WorkerQueue::new();
    let lines: Vec<_> = (0..senders).map(|_| queue.line().unwrap()).collect();
    let begin = Instant::now();
    for mut line in lines {
        spawn_sender(each, move |n| line.post_message(n, vec![]).unwrap());
    }
    told(begin, queue.map(number))
}

fn round_ports(each: u64) -> Told {
    let (mut near, mut far) = channel();
    thread::spawn(move || {
        while let Ok(message) = far.recv() {
            if far.post_message(message.payload, vec![]).is_err() {
                return;
            }
        }
    });
    let begin = Instant::now();
    told(
        begin,
        (0..each).map(|n| {
            near.post_message(n, vec![]).unwrap();
            number(near.recv().unwrap())
        }),
    )
}

#[cfg(feature = "crossbeam-channel")]
mod channels {
    use super::*;
    use crossbeam_channel::unbounded;

    pub fn flood(senders: u64, each: u64) -> Told {
        let (sender, receiver) = unbounded();
        let begin = Instant::now();
        for sender in vec![sender; senders as usize] {
            spawn_sender(each, move |n| sender.send(n).unwrap());
        }
        told(begin, receiver.into_iter())
    }

    pub fn round(each: u64) -> Told {
        let ((near, there), (far, here)) = (unbounded(), unbounded());
        thread::spawn(move || {
            for n in there {
                if far.send(n).is_err() {
                    return;
                }
            }
        });
        let begin = Instant::now();
        told(
            begin,
            (0..each).map(|n: u64| {
                near.send(n).unwrap();
                here.recv().unwrap()
            }),
        )
    }
}

#[cfg(feature = "tokio")]
mod tasks {
    use super::*;
    use tokio::runtime::{Builder, Runtime};
    use tokio::sync::mpsc::unbounded_channel;

    fn runtime() -> Runtime {
        Builder::new_multi_thread()
            .worker_threads(2)
            .build()
            .unwrap()
    }

    pub fn ports(senders: u64, each: u64) -> Told {
        let mut queue = WorkerQueue::new();
        let lines: Vec<_> = (0..senders).map(|_| queue.line().unwrap()).collect();
        runtime().block_on(async {
            let begin = Instant::now();
            for mut line in lines {
                tokio::spawn(async move {
                    for n in 0..each {
                        line.post_message(n, vec![]).unwrap();
                    }
                });
            }
            let taker = tokio::spawn(async move {
                let (mut count, mut sum) = (0, 0);
                while let Some(message) = queue.next().await {
                    (count, sum) = (count + 1, sum + number(message));
                }
                (count, sum)
            });
            let (count, sum) = taker.await.unwrap();
            Told { begin, count, sum }
        })
    }

    pub fn channels(senders: u64, each: u64) -> Told {
        let (sender, mut receiver) = unbounded_channel();
        runtime().block_on(async {
            let begin = Instant::now();
            for sender in vec![sender; senders as usize] {
                tokio::spawn(async move {
                    for n in 0..each {
                        sender.send(n).unwrap();
                    }
                });
            }
            let taker = tokio::spawn(async move {
                let (mut count, mut sum) = (0, 0_u64);
                while let Some(n) = receiver.recv().await {
                    (count, sum) = (count + 1, sum + n);
                }
                (count, sum)
            });
            let (count, sum) = taker.await.unwrap();
            Told { begin, count, sum }
        })
    }
}

fn main() {
    let words: Vec<String> = std::env::args().collect();
    let (senders, each) = (words[3].parse().unwrap(), words[4].parse().unwrap());
    let told = match (words[1].as_str(), words[2].as_str()) {
        ("ports", "flood") => flood_ports(senders, each),
        ("ports", "round") => round_ports(each),
        #[cfg(feature = "crossbeam-channel")]
        ("channels", "flood") => channels::flood(senders, each),
        #[cfg(feature = "crossbeam-channel")]
        ("channels", "round") => channels::round(each),
        #[cfg(feature = "tokio")]
        ("ports", "tasks") => tasks::ports(senders, each),
        #[cfg(feature = "tokio")]
        ("channels", "tasks") => tasks::channels(senders, each),
        other => panic!("no such run: {other:?}"),
    };
    let micros = told.begin.elapsed().as_micros();
    println!("{micros} {} {}", told.count, told.sum);
}
