//! A page and its worker, each on a thread: a queue, a port with a message waiting in it, and a
//! broadcast.

use std::thread;
use varukoni_ports::{channel, BroadcastChannel, MessagePort, Payload, WorkerQueue};

fn text(payload: &Payload) -> &str {
    std::str::from_utf8(payload.as_bytes().unwrap()).unwrap()
}

/// Reads what waits in the port that comes first, and replies there.
fn work(mut queue: WorkerQueue) {
    let news = BroadcastChannel::new("news");
    while let Ok(mut message) = queue.recv() {
        println!("worker: {}", text(&message.payload));
        let mut port: MessagePort = message.ports.remove(0);
        println!("worker: {}", text(&port.recv().unwrap().payload));
        news.post_message("the worker has read it").unwrap();
        port.post_message("a reply", vec![]).unwrap();
    }
}

fn main() {
    let mut queue = WorkerQueue::new();
    let mut line = queue.line().unwrap();
    let mut news = BroadcastChannel::new("news");
    let worker = thread::spawn(move || work(queue));

    let (mut port, sent) = channel();
    port.post_message("it waited", vec![]).unwrap();
    line.post_message("a port", vec![sent]).unwrap();
    while let Ok(message) = port.recv() {
        println!("page: {}", text(&message.payload));
    }
    println!("page: the port is closed");
    let heard = news.recv().unwrap();
    println!(
        "news: {}",
        String::from_utf8_lossy(heard.as_bytes().unwrap())
    );

    // A worker whose queue has no line left ends.
    drop(line);
    worker.join().unwrap();
}
