//! Records what the agents of a hub put and got, as logs of docs/FORMATS.md (`hublog 3`).
//!
//! ```ignore
//! let mut sender = hublog::Recorder::create("logs/agent-0.log", 0)?;
//! sender.put(1, 0, 0, 0, &[], r#"{"count": 1}"#)?; // accepted at end 1, line 0, as 0:0
//! sender.finish()?;
//! let mut receiver = hublog::Recorder::create("logs/agent-1.log", 1)?;
//! receiver.got(1, 0, 0, 0, &[], r#"{"count": 1}"#)?; // under the name that travelled with it
//! receiver.closed(1)?;
//! receiver.finish()?;
//! ```
//!
//! `tools/report logs` says whether the hub is right. This file is a module of the hub and needs
//! `std` alone. Each agent has a file of its own, which must be new, and an entry is in it before
//! the call returns. The log of an agent is in the order in which it acts: `got` comes before the
//! message is used, and `put` directly before the hand-over. Where that can be refused, as by a
//! full channel, it stands behind `putting`, whose guard takes the entry back unless it is kept:
//!
//! ```ignore
//! let putting = sender.putting(1, 0, 0, number, &[], body)?;
//! channel.try_send((number, body))?; // full: nothing was accepted or logged
//! putting.keep();
//! ```
//!
//! A `put` directly behind the hand-over is as good, where that doesn't itself deliver: logs are
//! compared by names, and not by time. The name of a message has to travel with it: a receiver that
//! counts can't see a drop. A hub without epochs has epoch 0 in every name; its lines count over
//! their whole life, and `adopted(end, count)` says how often the end has moved.
//!
//! `finish` writes the last line, by which record/merge sees that the log is whole. A body is a
//! JSON text, which is written without white space between its parts. One past the limits of
//! docs/FORMATS.md (fractions, numbers of more than 64 bits, more than 64 levels, too many bytes,
//! halves of a surrogate pair) is written as `digest` of that text. Other wrong arguments are
//! refused by a `Refusal`, and nothing is written.

// A hub need not call all of it.
#![allow(dead_code)]

use std::collections::BTreeSet;
use std::fmt;
use std::fs::{File, OpenOptions};
use std::io::{self, Seek, SeekFrom, Write};
use std::path::Path;

const MOST_AGENT: u32 = 15;
const MOST_END: u32 = 65_535;
const MOST_LINE: u32 = 31;
const MOST_EPOCH: u32 = 65_535;
const MOST_NUMBER: u64 = (1 << 62) - 1;
const MOST_PORTS: usize = 16;
const MOST_NESTING: usize = 64;
const MOST_BYTES: usize = 262_144;

/// Why nothing was written.
#[derive(Debug)]
pub enum Refusal {
    BadAgent,
    BadEnd,
    BadLine,
    BadEpoch,
    BadNumber,
    BadPorts,
    NotJson,
    PutTwice,
    ClosedTwice,
    Finished,
    /// The file couldn't be made or written.
    Io(io::Error),
}

impl fmt::Display for Refusal {
    fn fmt(&self, out: &mut fmt::Formatter<'_>) -> fmt::Result {
        match self {
            Refusal::Io(error) => write!(out, "Io: {error}"),
            other => write!(out, "{other:?}"),
        }
    }
}

impl std::error::Error for Refusal {}

impl From<io::Error> for Refusal {
    fn from(error: io::Error) -> Self {
        Refusal::Io(error)
    }
}

/// The log of one agent. Each call writes one entry.
pub struct Recorder {
    /// None once the log is finished.
    file: Option<File>,
    size: u64,
    /// `E L EP:N` of each put.
    names: BTreeSet<String>,
    closed: BTreeSet<u32>,
}

impl Recorder {
    /// Begins the log of an agent, in a new file.
    pub fn create(path: impl AsRef<Path>, agent: u32) -> Result<Self, Refusal> {
        within(agent, MOST_AGENT, Refusal::BadAgent)?;
        let file = OpenOptions::new().write(true).create_new(true).open(path)?;
        let mut recorder = Recorder {
            file: Some(file),
            size: 0,
            names: BTreeSet::new(),
            closed: BTreeSet::new(),
        };
        recorder.write(&format!("hublog 3\nagent {agent}"))?;
        Ok(recorder)
    }

    /// A message was accepted on a line of an end, under the name `epoch:number`.
    pub fn put(
        &mut self,
        end: u32,
        line: u32,
        epoch: u32,
        number: u64,
        ports: &[u32],
        body: &str,
    ) -> Result<(), Refusal> {
        let place = place_text(end, line, epoch, number)?;
        self.write_put(place, &content_text(ports, body)?)
    }

    /// A put before the hand-over, which is taken back unless the guard is kept.
    pub fn putting(
        &mut self,
        end: u32,
        line: u32,
        epoch: u32,
        number: u64,
        ports: &[u32],
        body: &str,
    ) -> Result<Putting<'_>, Refusal> {
        let place = place_text(end, line, epoch, number)?;
        let size = self.size;
        self.put(end, line, epoch, number, ports, body)?;
        Ok(Putting {
            recorder: self,
            size,
            place,
            is_kept: false,
        })
    }

    /// A message was delivered, under the name that travelled with it.
    pub fn got(
        &mut self,
        end: u32,
        line: u32,
        epoch: u32,
        number: u64,
        ports: &[u32],
        body: &str,
    ) -> Result<(), Refusal> {
        let place = place_text(end, line, epoch, number)?;
        let content = content_text(ports, body)?;
        self.write(&format!("got {place} {content}"))
    }

    /// The last message of a line was accepted: it says that nothing more comes there.
    pub fn put_notice(
        &mut self,
        end: u32,
        line: u32,
        epoch: u32,
        number: u64,
    ) -> Result<(), Refusal> {
        self.write_put(place_text(end, line, epoch, number)?, "notice")
    }

    /// The last message of a line was delivered.
    pub fn got_notice(
        &mut self,
        end: u32,
        line: u32,
        epoch: u32,
        number: u64,
    ) -> Result<(), Refusal> {
        let place = place_text(end, line, epoch, number)?;
        self.write(&format!("got {place} notice"))
    }

    /// The agent adopted an end, whose newest queue is `epoch`.
    pub fn adopted(&mut self, end: u32, epoch: u32) -> Result<(), Refusal> {
        within(end, MOST_END, Refusal::BadEnd)?;
        within(epoch, MOST_EPOCH, Refusal::BadEpoch)?;
        self.write(&format!("adopted {end} {epoch}"))
    }

    /// The agent closed an end.
    pub fn closed(&mut self, end: u32) -> Result<(), Refusal> {
        within(end, MOST_END, Refusal::BadEnd)?;
        if self.closed.contains(&end) {
            return Err(Refusal::ClosedTwice);
        }
        self.write(&format!("closed {end}"))?;
        self.closed.insert(end);
        Ok(())
    }

    /// Writes the last line: the log is whole. More calls of it do nothing.
    pub fn finish(&mut self) -> Result<(), Refusal> {
        if self.file.is_some() {
            self.write("deliveries")?;
            self.file = None;
        }
        Ok(())
    }

    fn write_put(&mut self, place: String, content: &str) -> Result<(), Refusal> {
        if self.names.contains(&place) {
            return Err(Refusal::PutTwice);
        }
        self.write(&format!("put {place} {content}"))?;
        self.names.insert(place);
        Ok(())
    }

    /// A file has no buffer, so the entry is in it when this returns.
    fn write(&mut self, line: &str) -> Result<(), Refusal> {
        let file = self.file.as_mut().ok_or(Refusal::Finished)?;
        file.write_all(format!("{line}\n").as_bytes())?;
        self.size += line.len() as u64 + 1;
        Ok(())
    }

    fn cut_back(&mut self, size: u64) -> Result<(), Refusal> {
        let file = self.file.as_mut().ok_or(Refusal::Finished)?;
        file.set_len(size)?;
        file.seek(SeekFrom::Start(size))?;
        self.size = size;
        Ok(())
    }
}

/// A put whose hand-over is under way. Dropped, it takes the entry back.
#[must_use = "a put that isn't kept is taken back"]
pub struct Putting<'a> {
    recorder: &'a mut Recorder,
    /// How long the log was before the entry.
    size: u64,
    place: String,
    is_kept: bool,
}

impl Putting<'_> {
    /// The message was accepted.
    pub fn keep(mut self) {
        self.is_kept = true;
    }
}

impl Drop for Putting<'_> {
    fn drop(&mut self) {
        if self.is_kept {
            return;
        }
        self.recorder.names.remove(&self.place);
        // Where the file refuses that, the log ends here, and is seen to be cut.
        if self.recorder.cut_back(self.size).is_err() {
            self.recorder.file = None;
        }
    }
}

fn within(value: u32, most: u32, refusal: Refusal) -> Result<(), Refusal> {
    (value <= most).then_some(()).ok_or(refusal)
}

/// `E L EP:N` of an entry.
fn place_text(end: u32, line: u32, epoch: u32, number: u64) -> Result<String, Refusal> {
    within(end, MOST_END, Refusal::BadEnd)?;
    within(line, MOST_LINE, Refusal::BadLine)?;
    within(epoch, MOST_EPOCH, Refusal::BadEpoch)?;
    if number > MOST_NUMBER {
        return Err(Refusal::BadNumber);
    }
    Ok(format!("{end} {line} {epoch}:{number}"))
}

/// `LIST` of an entry.
fn ports_text(ports: &[u32]) -> Result<String, Refusal> {
    let different: BTreeSet<&u32> = ports.iter().collect();
    let is_list = ports.len() <= MOST_PORTS && different.len() == ports.len();
    if !is_list || ports.iter().any(|&port| port > MOST_END) {
        return Err(Refusal::BadPorts);
    }
    let texts: Vec<_> = ports.iter().map(u32::to_string).collect();
    match ports {
        [] => Ok("-".to_string()),
        _ => Ok(texts.join(",")),
    }
}

/// `LIST BODY` of an entry.
fn content_text(ports: &[u32], body: &str) -> Result<String, Refusal> {
    Ok(format!("{} {}", ports_text(ports)?, body_text(body)?))
}

// Bodies

/// A body in place of bytes that no log can have, by which a change is still seen.
pub fn digest(data: &[u8]) -> String {
    let hash = data.iter().fold(0xcbf2_9ce4_8422_2325_u64, |hash, &byte| {
        (hash ^ u64::from(byte)).wrapping_mul(0x100_0000_01b3)
    });
    format!(
        r#"{{"digest":"fnv1a64 {hash:016x} of {} bytes"}}"#,
        data.len()
    )
}

/// The text of a body, or of the digest in its place.
fn body_text(text: &str) -> Result<String, Refusal> {
    let mut reader = Reader {
        text: text.as_bytes(),
        at: 0,
        plain: Vec::new(),
        is_body: true,
    };
    reader.read().ok_or(Refusal::NotJson)?;
    let plain = String::from_utf8(reader.plain).map_err(|_| Refusal::NotJson)?;
    if reader.is_body && plain.len() <= MOST_BYTES {
        Ok(plain)
    } else {
        Ok(digest(plain.as_bytes()))
    }
}

/// Reads a JSON text, and copies it without white space. None is no JSON.
struct Reader<'a> {
    text: &'a [u8],
    at: usize,
    plain: Vec<u8>,
    /// Whether it is within the limits of docs/FORMATS.md, its length aside.
    is_body: bool,
}

impl Reader<'_> {
    /// The whole text is one value. Brackets that are open stand in a list, so that no text is
    /// nested too deep for the stack.
    fn read(&mut self) -> Option<()> {
        let mut open = Vec::new();
        loop {
            if !self.value(&mut open)? {
                while let Some(&bracket) = open.last() {
                    if self.next_member(bracket)? {
                        break;
                    }
                    open.pop();
                }
            }
            if open.is_empty() {
                self.skip_space();
                return (self.at == self.text.len()).then_some(());
            }
        }
    }

    /// Reads a value, or the beginning of one with members: then whether a member comes first.
    fn value(&mut self, open: &mut Vec<u8>) -> Option<bool> {
        self.skip_space();
        match self.peek()? {
            bracket @ (b'[' | b'{') => return self.begin(bracket, open),
            b'"' => self.string()?,
            b't' => self.word("true")?,
            b'f' => self.word("false")?,
            b'n' => self.word("null")?,
            _ => self.number()?,
        }
        Some(false)
    }

    fn begin(&mut self, bracket: u8, open: &mut Vec<u8>) -> Option<bool> {
        self.copy();
        if open.len() == MOST_NESTING {
            self.is_body = false;
        }
        self.skip_space();
        if self.peek()? == closing(bracket) {
            self.copy();
            return Some(false);
        }
        open.push(bracket);
        if bracket == b'{' {
            self.key()?;
        }
        Some(true)
    }

    /// Whether another member comes, rather than the end of the list or object.
    fn next_member(&mut self, bracket: u8) -> Option<bool> {
        self.skip_space();
        let found = self.peek()?;
        if found == closing(bracket) {
            self.copy();
            return Some(false);
        }
        self.expect(b',')?;
        if bracket == b'{' {
            self.key()?;
        }
        Some(true)
    }

    fn key(&mut self) -> Option<()> {
        self.skip_space();
        self.string()?;
        self.skip_space();
        self.expect(b':')
    }

    fn string(&mut self) -> Option<()> {
        self.expect(b'"')?;
        loop {
            match self.peek()? {
                b'"' => {
                    self.copy();
                    return Some(());
                }
                b'\\' => self.escape()?,
                0..=0x1f => return None,
                _ => self.copy(),
            }
        }
    }

    fn escape(&mut self) -> Option<()> {
        self.copy();
        if self.peek()? != b'u' {
            let is_known = b"\"\\/bfnrt".contains(&self.peek()?);
            self.copy();
            return is_known.then_some(());
        }
        let unit = self.unit()?;
        if (0xdc00..0xe000).contains(&unit) {
            self.is_body = false;
        }
        if (0xd800..0xdc00).contains(&unit) {
            self.second_half()?;
        }
        Some(())
    }

    /// Behind the first half of a surrogate pair: the second one, where it is there.
    fn second_half(&mut self) -> Option<()> {
        let digits = self.text.get(self.at + 2..self.at + 6);
        let is_pair = self.text[self.at..].starts_with(b"\\u")
            && digits
                .and_then(unit_of)
                .map_or(false, |unit| (0xdc00..0xe000).contains(&unit));
        if !is_pair {
            self.is_body = false;
            return Some(());
        }
        self.copy();
        self.unit().map(|_| ())
    }

    /// `uXXXX`, as a number.
    fn unit(&mut self) -> Option<u32> {
        let unit = unit_of(self.text.get(self.at + 1..self.at + 5)?)?;
        (0..5).for_each(|_| self.copy());
        Some(unit)
    }

    fn word(&mut self, word: &str) -> Option<()> {
        word.bytes().try_for_each(|byte| self.expect(byte))
    }

    fn number(&mut self) -> Option<()> {
        let begin = self.at;
        self.is_copied(b"-");
        if !self.is_copied(b"0") {
            self.digits()?;
        }
        let whole = self.at;
        if self.is_copied(b".") {
            self.digits()?;
        }
        if self.is_copied(b"eE") {
            self.is_copied(b"+-");
            self.digits()?;
        }
        let text = std::str::from_utf8(&self.text[begin..self.at]).ok()?;
        let fits = text.parse::<i64>().is_ok() || text.parse::<u64>().is_ok();
        self.is_body &= whole == self.at && fits && text != "-0";
        Some(())
    }

    fn digits(&mut self) -> Option<()> {
        let begin = self.at;
        while self.is_copied(b"0123456789") {}
        (self.at > begin).then_some(())
    }

    fn expect(&mut self, byte: u8) -> Option<()> {
        self.is_copied(&[byte]).then_some(())
    }

    /// Copies the next byte where it is one of these, and says whether it was.
    fn is_copied(&mut self, bytes: &[u8]) -> bool {
        let is_one = self.peek().map_or(false, |byte| bytes.contains(&byte));
        if is_one {
            self.copy();
        }
        is_one
    }

    fn peek(&self) -> Option<u8> {
        self.text.get(self.at).copied()
    }

    fn copy(&mut self) {
        self.plain.extend(self.peek());
        self.at += 1;
    }

    fn skip_space(&mut self) {
        while matches!(self.peek(), Some(b' ' | b'\t' | b'\n' | b'\r')) {
            self.at += 1;
        }
    }
}

fn closing(bracket: u8) -> u8 {
    if bracket == b'[' {
        b']'
    } else {
        b'}'
    }
}

fn unit_of(digits: &[u8]) -> Option<u32> {
    if !digits.iter().all(u8::is_ascii_hexdigit) {
        return None;
    }
    u32::from_str_radix(std::str::from_utf8(digits).ok()?, 16).ok()
}
