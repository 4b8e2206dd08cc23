// The same messages through a channel (bench/channels.rs), of which the receiver adds up the
// numbers. A message is three words, or with `bytes` a Vec of 64 bytes.
// usage: reference SENDERS EACH words|bytes
#[path = "../channels.rs"]
mod channels;

use channels::{time_run, Message};

// Two of the words are sent and not read.
#[allow(dead_code)]
struct Words(u64, u64, u64);

impl Message for Words {
    fn of(_sender: u8, number: u64, _text: &str) -> Words {
        Words(0, number, 0)
    }

    fn told(&self) -> u64 {
        self.1
    }
}

impl Message for Vec<u8> {
    fn of(_sender: u8, number: u64, _text: &str) -> Vec<u8> {
        let mut bytes = [1; 64];
        bytes[..8].copy_from_slice(&number.to_le_bytes());
        bytes.to_vec()
    }

    fn told(&self) -> u64 {
        let mut front = [0; 8];
        front.copy_from_slice(&self[..8]);
        u64::from_le_bytes(front)
    }
}

fn main() {
    let words: Vec<String> = std::env::args().collect();
    let (senders, each) = (words[1].parse().unwrap(), words[2].parse().unwrap());
    match words[3].as_str() {
        "bytes" => time_run::<Vec<u8>>(senders, each, ""),
        _ => time_run::<Words>(senders, each, ""),
    }
}
