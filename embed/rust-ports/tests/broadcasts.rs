//! What the compiler can't see of broadcast channels: who gets what in which order, and what is
//! dropped.

mod counted;

use std::sync::atomic::{AtomicUsize, Ordering};
use std::sync::Arc;
use std::thread;
use std::time::Duration;

use counted::Counted;
use varukoni_ports::{BroadcastChannel, RecvTimeoutError, Shared, TryRecvError};

fn number(shared: &Shared) -> u64 {
    *shared.downcast_ref().unwrap()
}

#[test]
fn all_get_one_order() {
    const CHANNELS: u64 = 4;
    const EACH: u64 = 3_000;
    let channels: Vec<_> = (0..CHANNELS)
        .map(|_| BroadcastChannel::new("one order"))
        .collect();
    let mut watch = BroadcastChannel::new("one order");
    let threads: Vec<_> = (0..CHANNELS)
        .zip(channels)
        .map(|(own, mut channel)| {
            thread::spawn(move || {
                let mut found = Vec::new();
                for n in 0..EACH {
                    let posted = channel.post_message(Shared::new(own * EACH + n));
                    assert_eq!(posted.unwrap(), CHANNELS as usize);
                    found.extend(channel.try_recv().ok().as_ref().map(number));
                }
                while found.len() < ((CHANNELS - 1) * EACH) as usize {
                    found.push(number(&channel.recv().unwrap()));
                }
                // It stays until all have posted at it.
                (channel, found)
            })
        })
        .collect();
    let order: Vec<u64> = (0..CHANNELS * EACH)
        .map(|_| number(&watch.recv().unwrap()))
        .collect();
    for (own, thread) in (0..CHANNELS).zip(threads) {
        let others = order.iter().filter(|n| **n / EACH != own);
        let (channel, found) = thread.join().unwrap();
        assert!(found.iter().eq(others), "channel {own}");
        drop(channel);
    }
}

#[test]
fn names_and_origins_are_apart() {
    let mut here = BroadcastChannel::in_origin("https://a.test", "news");
    let mut there = BroadcastChannel::in_origin("https://b.test", "news");
    let mut other = BroadcastChannel::in_origin("https://a.test", "other");
    let near = BroadcastChannel::in_origin("https://a.test", "news");
    assert_eq!(near.post_message("x").unwrap(), 1);
    assert_eq!(near.name(), "news");
    assert_eq!(here.try_recv().unwrap().as_bytes(), Some(&b"x"[..]));
    for silent in [&mut there, &mut other] {
        assert_eq!(silent.try_recv().unwrap_err(), TryRecvError::Empty);
    }
}

#[test]
fn who_has_closed_gets_nothing_and_what_waits_is_dropped() {
    let count = Arc::new(AtomicUsize::new(0));
    let near = BroadcastChannel::new("closing");
    let (first, mut second) = (near_twin(&near), near_twin(&near));
    let counted = |posted: usize| {
        let shared = Shared::new(Counted::new(&count));
        assert_eq!(near.post_message(shared).unwrap(), posted);
    };
    counted(2);
    first.close();
    counted(1);
    assert_eq!(count.load(Ordering::SeqCst), 2);
    drop(second.recv().unwrap());
    assert_eq!(count.load(Ordering::SeqCst), 1);
    drop(second);
    assert_eq!(count.load(Ordering::SeqCst), 0);
    counted(0);
    assert_eq!(count.load(Ordering::SeqCst), 0);
}

fn near_twin(channel: &BroadcastChannel) -> BroadcastChannel {
    BroadcastChannel::new(channel.name())
}

#[test]
fn posts_beside_closings_are_dropped() {
    let count = Arc::new(AtomicUsize::new(0));
    let threads: Vec<_> = (0..4)
        .map(|_| Arc::clone(&count))
        .map(|count| {
            thread::spawn(move || {
                let mut posted = 0;
                for round in 0..2_000 {
                    let mut channel = BroadcastChannel::new("beside");
                    let shared = Shared::new(Counted::new(&count));
                    posted += channel.post_message(shared).unwrap();
                    if round % 2 == 0 {
                        drop(channel.try_recv());
                    }
                }
                posted
            })
        })
        .collect();
    for thread in threads {
        thread.join().unwrap();
    }
    assert_eq!(count.load(Ordering::SeqCst), 0);
}

#[test]
fn a_timeout_passes_and_a_sleeper_is_woken() {
    let near = BroadcastChannel::new("sleep");
    let mut far = BroadcastChannel::new("sleep");
    let nothing = far.recv_timeout(Duration::from_millis(5));
    assert_eq!(nothing.unwrap_err(), RecvTimeoutError::Timeout);
    let taker = thread::spawn(move || far.map(|shared| number(&shared)).take(100).sum::<u64>());
    for n in 0..100_u64 {
        thread::sleep(Duration::from_micros(100));
        near.post_message(Shared::new(n)).unwrap();
    }
    assert_eq!(taker.join().unwrap(), 4_950);
}
