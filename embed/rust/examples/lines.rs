//! Runs the step lines of standard input one after the other, and prints their outcome lines.
//! With the word `time` it prints how many nanoseconds a line took instead, and how many bytes
//! were said.

use std::error::Error;
use std::io::{self, Read, Write};
use std::time::Instant;

fn main() -> Result<(), Box<dyn Error>> {
    let mut input = Vec::new();
    io::stdin().read_to_end(&mut input)?;
    let lines: Vec<&[u8]> = input.split_inclusive(|byte| *byte == b'\n').collect();
    let is_timed = std::env::args().nth(1).as_deref() == Some("time");
    let mut hub = varukoni::Hub::open()?;
    let mut said = Vec::with_capacity(8 * input.len());
    let start = Instant::now();
    for line in &lines {
        said.extend_from_slice(hub.line(line.strip_suffix(b"\n").unwrap_or(line))?);
        said.push(b'\n');
    }
    let time = start.elapsed();
    if is_timed {
        println!("{} {} {}", time.as_micros(), lines.len(), said.len());
    } else {
        io::stdout().write_all(&said)?;
    }
    Ok(())
}
