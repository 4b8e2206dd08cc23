// The same messages through a channel (bench/channels.rs), of which the receiver adds up the bytes
// of the text. A message is a clone of the text, or with `envelope` all that an envelope of the
// mailbox carries.
// usage: reference SENDERS EACH [envelope]
#[path = "../channels.rs"]
mod channels;

use channels::{time_run, Message};

const TEXT: &str = "{\"a\":1}";

impl Message for String {
    fn of(_sender: u8, _number: u64, text: &str) -> String {
        text.to_string()
    }

    fn told(&self) -> u64 {
        self.len() as u64
    }
}

// What an envelope carries beside its body is sent and not read.
#[allow(dead_code)]
struct Envelope {
    end: u32,
    epoch: u32,
    line: u8,
    number: u64,
    agent: u32,
    body: String,
    ports: Vec<u32>,
    notice: bool,
}

impl Message for Envelope {
    fn of(sender: u8, number: u64, text: &str) -> Envelope {
        let (body, ports) = (text.to_string(), Vec::new());
        Envelope {
            end: 0,
            epoch: 0,
            line: sender,
            number,
            agent: 0,
            body,
            ports,
            notice: false,
        }
    }

    fn told(&self) -> u64 {
        self.body.len() as u64
    }
}

fn main() {
    let words: Vec<String> = std::env::args().collect();
    let (senders, each) = (words[1].parse().unwrap(), words[2].parse().unwrap());
    if words.get(3).is_some_and(|word| word == "envelope") {
        time_run::<Envelope>(senders, each, TEXT);
    } else {
        time_run::<String>(senders, each, TEXT);
    }
}
