//! What the compiler can't see of queues: which messages come in which order, what is dropped, and
//! who is woken.

mod counted;

use std::sync::atomic::{AtomicUsize, Ordering};
use std::sync::Arc;
use std::thread;
use std::time::Duration;

use counted::{number, Counted};
use varukoni_ports::{
    channel, ClientQueue, Line, Payload, RecvTimeoutError, TooManyLines, TryRecvError, Why,
    WorkerQueue, MAX_LINES,
};

#[test]
fn each_line_comes_in_order_and_whole() {
    const LINES: u64 = 4;
    const EACH: u64 = 30_000;
    let mut queue = WorkerQueue::new();
    let senders: Vec<_> = (0..LINES)
        .map(|sender| (sender, queue.line().unwrap()))
        .map(|(sender, mut line)| {
            thread::spawn(move || {
                for n in 0..EACH {
                    line.post_message(sender * EACH + n, vec![]).unwrap();
                    if n % 1_000 == 0 {
                        thread::sleep(Duration::from_micros(50));
                    }
                }
            })
        })
        .collect();
    let mut next = [0; LINES as usize];
    while let Ok(message) = queue.recv() {
        let found = number(message.payload);
        let place = &mut next[(found / EACH) as usize];
        assert_eq!(found % EACH, *place);
        *place += 1;
    }
    assert_eq!(next, [EACH; LINES as usize]);
    assert_eq!(queue.try_recv().unwrap_err(), TryRecvError::Ended);
    for sender in senders {
        sender.join().unwrap();
    }
}

#[test]
fn lines_are_asked_in_turn() {
    let mut queue = ClientQueue::new();
    let mut lines: Vec<Line> = (0..3).map(|_| queue.line().unwrap()).collect();
    for (n, line) in (0_u64..).zip(&mut lines) {
        line.post_message(n, vec![]).unwrap();
        line.post_message(n + 10, vec![]).unwrap();
    }
    queue.start_messages();
    let found: Vec<u64> = (0..6)
        .map(|_| number(queue.try_recv().unwrap().payload))
        .collect();
    assert_eq!(found, [0, 1, 2, 10, 11, 12]);
}

#[test]
fn a_place_is_free_again_once_all_was_taken() {
    let mut queue = WorkerQueue::new();
    let mut lines: Vec<Line> = (0..MAX_LINES).map(|_| queue.line().unwrap()).collect();
    assert_eq!(queue.line().unwrap_err(), TooManyLines);
    let mut last = lines.pop().unwrap();
    last.post_message(7_u64, vec![]).unwrap();
    drop(last);
    assert_eq!(queue.line().unwrap_err(), TooManyLines);
    assert_eq!(number(queue.recv().unwrap().payload), 7);
    assert_eq!(queue.try_recv().unwrap_err(), TryRecvError::Empty);
    let mut again = queue.line().unwrap();
    again.post_message(8_u64, vec![]).unwrap();
    assert_eq!(number(queue.recv().unwrap().payload), 8);
}

#[test]
fn a_refusal_gives_all_back() {
    let mut queue = WorkerQueue::new();
    let mut line = queue.line().unwrap();
    let many = (0..17).map(|_| channel().0).collect();
    let refused = line.post_message("x", many).unwrap_err();
    assert_eq!((refused.why, refused.ports.len()), (Why::TooManyPorts, 17));
    drop(queue);
    let refused = line.post_message(5_u64, vec![channel().0]).unwrap_err();
    assert_eq!((refused.why, refused.ports.len()), (Why::Closed, 1));
    assert_eq!(number(refused.payload), 5);
}

#[test]
fn close_hands_back_what_nobody_took() {
    let mut queue = WorkerQueue::new();
    let mut line = queue.line().unwrap();
    let (mut near, far) = channel();
    line.post_message(1_u64, vec![]).unwrap();
    line.post_message(2_u64, vec![far]).unwrap();
    drop(line);
    assert_eq!(number(queue.recv().unwrap().payload), 1);
    let mut left = queue.close();
    assert_eq!(left.len(), 1);
    let mut far = left.pop().unwrap().ports.pop().unwrap();
    near.post_message(3_u64, vec![]).unwrap();
    assert_eq!(number(far.recv().unwrap().payload), 3);
}

#[test]
fn what_is_posted_beside_a_close_is_dropped_once() {
    let count = Arc::new(AtomicUsize::new(0));
    for round in 0..200_u32 {
        let mut queue = WorkerQueue::new();
        let senders: Vec<_> = (0..4)
            .map(|_| (queue.line().unwrap(), Arc::clone(&count)))
            .map(|(mut line, count)| {
                thread::spawn(move || loop {
                    let payload = Payload::new(Counted::new(&count));
                    if line.post_message(payload, vec![]).is_err() {
                        return;
                    }
                })
            })
            .collect();
        for _ in 0..round % 7 {
            thread::yield_now();
        }
        drop(queue);
        for sender in senders {
            sender.join().unwrap();
        }
        assert_eq!(count.load(Ordering::SeqCst), 0, "round {round}");
    }
}

#[test]
fn a_timeout_passes_and_an_end_is_told() {
    let mut queue = ClientQueue::new();
    let line = queue.line().unwrap();
    let nothing = queue.recv_timeout(Duration::from_millis(20));
    assert_eq!(nothing.unwrap_err(), RecvTimeoutError::Timeout);
    let sender = thread::spawn(move || {
        thread::sleep(Duration::from_millis(20));
        drop(line);
    });
    let ended = queue.recv_timeout(Duration::from_secs(60));
    assert_eq!(ended.unwrap_err(), RecvTimeoutError::Ended);
    sender.join().unwrap();
}
