// Messages there and back through two channels of std::sync::mpsc, between the first thread and
// another, each of which sleeps where it finds nothing. A message is a clone of the text. Prints
// how long it took, in microseconds, how many answers came and how many bytes of text they had.
// usage: reference TRIPS
use std::sync::mpsc::channel;
use std::time::Instant;

const TEXT: &str = "{\"a\":1}";

fn main() {
    let trips: u64 = std::env::args().nth(1).unwrap().parse().unwrap();
    let (to_far, from_near) = channel();
    let (to_near, from_far) = channel();
    let answerer = std::thread::spawn(move || {
        for _ in 0..trips {
            let _asked: String = from_near.recv().unwrap();
            to_near.send(TEXT.to_string()).unwrap();
        }
    });
    let zero = Instant::now();
    let mut bytes = 0;
    for _ in 0..trips {
        to_far.send(TEXT.to_string()).unwrap();
        bytes += from_far.recv().unwrap().len();
    }
    let micros = zero.elapsed().as_micros();
    answerer.join().unwrap();
    println!("{micros} {trips} {bytes}");
}
