//! What the compiler can't see of ports: what comes, what is dropped, and who is woken.

mod counted;

use std::future::Future;
use std::sync::atomic::{AtomicUsize, Ordering};
use std::sync::Arc;
use std::task::{Context, Poll, Wake, Waker};
use std::thread;
use std::time::{Duration, Instant};

use counted::{number, Counted};
use varukoni_ports::{channel, MessagePort, Payload, RecvTimeoutError, TryRecvError, Why};

#[test]
fn what_waits_travels_along() {
    let (mut near, far) = channel();
    let (mut road, mut there) = channel();
    near.post_message(1_u64, vec![]).unwrap();
    near.post_message(2_u64, vec![]).unwrap();
    road.post_message("a port", vec![far]).unwrap();
    near.post_message(3_u64, vec![]).unwrap();
    let taker = thread::spawn(move || {
        let mut far = there.recv().unwrap().ports.pop().unwrap();
        let mut got = Vec::new();
        while let Ok(message) = far.recv() {
            got.push(number(message.payload));
            if got.len() == 2 {
                far.post_message("two", vec![]).unwrap();
            }
        }
        got
    });
    assert_eq!(near.recv().unwrap().payload.as_bytes(), Some(&b"two"[..]));
    near.post_message(4_u64, vec![]).unwrap();
    drop(near);
    assert_eq!(taker.join().unwrap(), [1, 2, 3, 4]);
}

#[test]
fn what_is_refused_comes_back() {
    let (mut left, right) = channel();
    let (other, mut other_far) = channel();
    let many: Vec<MessagePort> = (0..17).map(|_| channel().0).collect();
    let refused = left.post_message("x", many).unwrap_err();
    assert_eq!((refused.why, refused.ports.len()), (Why::TooManyPorts, 17));
    let refused = left.post_message("y", vec![other, right]).unwrap_err();
    assert_eq!((refused.why, refused.ports.len()), (Why::HoldsTarget, 2));
    let mut ports = refused.ports.into_iter();
    let (mut other, right) = (ports.next().unwrap(), ports.next().unwrap());
    other.post_message(7_u64, vec![]).unwrap();
    assert_eq!(number(other_far.recv().unwrap().payload), 7);
    drop(right);
    let refused = left.post_message(vec![1, 2], vec![other]).unwrap_err();
    assert_eq!((refused.why, refused.ports.len()), (Why::Closed, 1));
    assert_eq!(refused.payload.into_bytes().unwrap(), [1, 2]);
}

#[test]
fn what_nobody_reads_is_dropped_once() {
    let count = Arc::new(AtomicUsize::new(0));
    let (mut left, mut right) = channel();
    for _ in 0..100 {
        left.post_message(Payload::new(Counted::new(&count)), vec![])
            .unwrap();
    }
    drop(right.recv().unwrap());
    assert_eq!(count.load(Ordering::SeqCst), 99);
    drop(right);
    assert_eq!(count.load(Ordering::SeqCst), 0);
    let refused = left
        .post_message(Payload::new(Counted::new(&count)), vec![])
        .unwrap_err();
    assert_eq!(count.load(Ordering::SeqCst), 1);
    drop(refused);
    assert_eq!(count.load(Ordering::SeqCst), 0);
}

#[test]
fn what_is_posted_beside_a_close_is_dropped_once() {
    let count = Arc::new(AtomicUsize::new(0));
    for round in 0..300_u32 {
        let (mut left, right) = channel();
        let posting = {
            let count = Arc::clone(&count);
            thread::spawn(move || {
                let mut accepted = 0;
                while left
                    .post_message(Payload::new(Counted::new(&count)), vec![])
                    .is_ok()
                {
                    accepted += 1;
                }
                accepted
            })
        };
        for _ in 0..round % 7 {
            thread::yield_now();
        }
        drop(right);
        posting.join().unwrap();
        assert_eq!(count.load(Ordering::SeqCst), 0, "round {round}");
    }
}

#[test]
fn a_million_nested_ports_are_dropped() {
    let count = Arc::new(AtomicUsize::new(0));
    let (mut first, mut last) = channel();
    for _ in 0..1_000_000 {
        let (mut next, end) = channel();
        next.post_message(Payload::new(Counted::new(&count)), vec![last])
            .unwrap();
        last = end;
    }
    drop(last);
    assert_eq!(count.load(Ordering::SeqCst), 0);
    assert_eq!(
        first.post_message("x", vec![]).unwrap_err().why,
        Why::Closed
    );
}

#[test]
fn ports_within_a_payload_are_dropped_too() {
    let (mut first, mut last) = channel();
    for _ in 0..100_000 {
        let (mut next, end) = channel();
        next.post_message(Payload::new(last), vec![]).unwrap();
        last = end;
    }
    drop(last);
    assert_eq!(
        first.post_message("x", vec![]).unwrap_err().why,
        Why::Closed
    );
}

#[test]
fn close_hands_back_what_nobody_took() {
    let (mut left, mut right) = channel();
    for n in 0..5_u64 {
        left.post_message(n, vec![channel().0]).unwrap();
    }
    assert_eq!(number(right.recv().unwrap().payload), 0);
    let left_over = right.close();
    assert_eq!(left_over.len(), 4);
    for (message, n) in left_over.into_iter().zip(1..) {
        assert_eq!((message.ports.len(), number(message.payload)), (1, n));
    }
}

#[test]
fn a_payload_is_what_it_was_made_of() {
    let payload = Payload::new(String::from("text"));
    let payload = payload.downcast::<u64>().unwrap_err();
    let payload = payload.into_bytes().unwrap_err();
    assert_eq!(payload.downcast::<String>().unwrap(), "text");
    assert_eq!(Payload::new(-5_i32).downcast::<i32>().unwrap(), -5);
    assert!(Payload::new(()).downcast::<()>().is_ok());
    assert_eq!(Payload::from(Vec::new()).as_bytes(), Some(&[][..]));
    assert_eq!(
        Payload::new([7_u8; 3]).downcast::<[u8; 3]>().unwrap(),
        [7; 3]
    );
}

#[test]
fn a_timeout_passes_and_nothing_is_lost() {
    let (mut left, mut right) = channel();
    let begun = Instant::now();
    let nothing = right.recv_timeout(Duration::from_millis(20));
    assert_eq!(nothing.unwrap_err(), RecvTimeoutError::Timeout);
    assert!(begun.elapsed() >= Duration::from_millis(20));
    left.post_message(1_u64, vec![]).unwrap();
    assert_eq!(
        number(right.recv_timeout(Duration::ZERO).unwrap().payload),
        1
    );
    drop(left);
    let ended = right.recv_timeout(Duration::from_secs(60));
    assert_eq!(ended.unwrap_err(), RecvTimeoutError::Ended);
    assert_eq!(right.try_recv().unwrap_err(), TryRecvError::Ended);
}

struct Woken(AtomicUsize);

impl Wake for Woken {
    fn wake(self: Arc<Self>) {
        self.0.fetch_add(1, Ordering::SeqCst);
    }
}

#[test]
fn a_task_is_woken_once_and_its_waker_dropped() {
    let woken = Arc::new(Woken(AtomicUsize::new(0)));
    let waker = Waker::from(Arc::clone(&woken));
    let (mut left, mut right) = channel();
    {
        let mut next = Box::pin(right.next());
        let mut context = Context::from_waker(&waker);
        assert!(next.as_mut().poll(&mut context).is_pending());
        assert!(next.as_mut().poll(&mut context).is_pending());
        left.post_message(1_u64, vec![]).unwrap();
        left.post_message(2_u64, vec![]).unwrap();
        assert_eq!(woken.0.load(Ordering::SeqCst), 1);
        match next.as_mut().poll(&mut context) {
            Poll::Ready(Some(message)) => assert_eq!(number(message.payload), 1),
            _ => panic!("a message was there"),
        }
    }
    assert_eq!(number(right.try_recv().unwrap().payload), 2);
    assert!(right
        .poll_recv(&mut Context::from_waker(&waker))
        .is_pending());
    drop(left);
    assert_eq!(woken.0.load(Ordering::SeqCst), 2);
    drop((right, waker));
    assert_eq!(Arc::strong_count(&woken), 1);
}

/// How long the stress takes: VARUKONI_STRESS_SECONDS, or a second.
fn stress_time() -> Duration {
    let seconds = std::env::var("VARUKONI_STRESS_SECONDS").ok();
    Duration::from_secs(seconds.and_then(|text| text.parse().ok()).unwrap_or(1))
}

/// A port on its way round: who holds it takes what waits and sends it on.
struct Baton {
    home: MessagePort,
    posted: u64,
}

#[test]
fn sixteen_threads_pass_ports_round() {
    const THREADS: usize = 16;
    const BATONS: usize = 24;
    let end = Instant::now() + stress_time();
    let mut roads = Vec::new();
    let mut there = Vec::new();
    for _ in 0..THREADS {
        let (to, from) = channel();
        roads.push(to);
        there.push(from);
    }
    let mut batons: Vec<Vec<Baton>> = (0..THREADS).map(|_| Vec::new()).collect();
    for n in 0..BATONS {
        let (home, away) = channel();
        roads[n % THREADS].post_message(0_u64, vec![away]).unwrap();
        batons[n % THREADS].push(Baton { home, posted: 0 });
    }
    // Thread n takes from road n and posts at road n + 1.
    roads.rotate_left(1);
    let threads: Vec<_> = roads
        .into_iter()
        .zip(there)
        .zip(batons)
        .map(|((mut to, mut from), mut own)| {
            thread::spawn(move || {
                let (mut hops, mut taken) = (0_u64, 0_u64);
                while Instant::now() < end {
                    for baton in &mut own {
                        if baton.home.post_message(baton.posted, vec![]).is_ok() {
                            baton.posted += 1;
                        }
                    }
                    let message = match from.recv_timeout(Duration::from_millis(1)) {
                        Ok(message) => message,
                        Err(_) => continue,
                    };
                    let mut next = number(message.payload);
                    let mut away = message.ports.into_iter().next().unwrap();
                    for _ in 0..50 {
                        let message = match away.try_recv() {
                            Ok(message) => message,
                            Err(_) => break,
                        };
                        assert_eq!(number(message.payload), next);
                        (next, taken) = (next + 1, taken + 1);
                    }
                    if to.post_message(next, vec![away]).is_err() {
                        break;
                    }
                    hops += 1;
                }
                (hops, taken)
            })
        })
        .collect();
    let (mut hops, mut taken) = (0, 0);
    for thread in threads {
        let (more, got) = thread.join().unwrap();
        (hops, taken) = (hops + more, taken + got);
    }
    println!("{THREADS} threads: {hops} hops, {taken} messages taken in order");
    assert!(hops > 100 && taken > 1_000);
}
