// The same job as `messagehub steps` does for `agent -`, `channel A`, `start E`, `post P - BODY`
// and `take E`, as plain Rust: the whole input is parsed first, a body is checked and kept as its
// compact text, and the outcomes of all step lines are written at the end of a block.
use std::collections::{BTreeMap, VecDeque};
use std::io::{self, Read, Write};
use std::process::exit;

const MAX_NESTING: usize = 64;
const MAX_AGENTS: usize = 16;
const BLOCK: usize = 1 << 16;

enum Command {
    Agent,
    Channel(u32),
    Start(u32),
    Post(u32, String),
    Take(u32),
}

struct Envelope {
    number: u64,
    body: String,
}

struct End {
    peer: usize,
    put: u64,
    is_enabled: bool,
    queue: VecDeque<Envelope>,
}

#[derive(Default)]
struct Hub {
    agents: usize,
    ends: Vec<End>,
}

enum Value {
    Word(String),
    Items(Vec<Value>),
    Members(BTreeMap<String, Value>),
}

/// Reads one JSON value, and tells whether its text was compact with its keys in order.
struct Scanner<'a> {
    text: &'a str,
    at: usize,
    is_compact: bool,
}

impl<'a> Scanner<'a> {
    fn peek(&self) -> Option<u8> {
        self.text.as_bytes().get(self.at).copied()
    }

    fn space(&mut self) {
        while matches!(self.peek(), Some(b' ' | b'\t' | b'\r')) {
            self.at += 1;
            self.is_compact = false;
        }
    }

    fn eat(&mut self, byte: u8) -> Option<()> {
        (self.peek()? == byte).then(|| self.at += 1)
    }

    fn string(&mut self) -> Option<&'a str> {
        self.eat(b'"')?;
        let start = self.at;
        loop {
            match self.peek()? {
                b'"' => break,
                b'\\' => {
                    // An escape may have a shorter form, so such a text is written anew.
                    self.is_compact = false;
                    self.at += 2;
                }
                0..=31 => return None,
                _ => self.at += 1,
            }
        }
        self.at += 1;
        self.text.get(start..self.at - 1)
    }

    fn number(&mut self) -> Option<&'a str> {
        let start = self.at;
        if self.peek() == Some(b'-') {
            self.at += 1;
        }
        while matches!(self.peek(), Some(b'0'..=b'9')) {
            self.at += 1;
        }
        let text = &self.text[start..self.at];
        let digits = text.trim_start_matches('-');
        let is_canonical = digits == "0" || !digits.starts_with('0');
        let fits = text.parse::<i64>().is_ok() || text.parse::<u64>().is_ok();
        (is_canonical && fits && text != "-0").then_some(text)
    }

    fn word(&mut self) -> Option<&'a str> {
        let rest = &self.text[self.at..];
        let word = ["null", "true", "false"].iter().find(|word| rest.starts_with(**word))?;
        self.at += word.len();
        Some(&rest[..word.len()])
    }

    fn items(&mut self, depth: usize) -> Option<Vec<Value>> {
        self.eat(b'[')?;
        let mut items = Vec::new();
        self.space();
        if self.eat(b']').is_some() {
            return Some(items);
        }
        loop {
            items.push(self.value(depth + 1)?);
            if self.eat(b',').is_none() {
                self.eat(b']')?;
                return Some(items);
            }
        }
    }

    fn members(&mut self, depth: usize) -> Option<BTreeMap<String, Value>> {
        self.eat(b'{')?;
        let mut members = BTreeMap::new();
        let mut last: Option<&str> = None;
        self.space();
        if self.eat(b'}').is_some() {
            return Some(members);
        }
        loop {
            self.space();
            let key = self.string()?;
            if last.is_some_and(|last| last >= key) {
                self.is_compact = false;
            }
            last = Some(key);
            self.space();
            self.eat(b':')?;
            members.insert(key.to_owned(), self.value(depth + 1)?);
            if self.eat(b',').is_none() {
                self.eat(b'}')?;
                return Some(members);
            }
        }
    }

    fn value(&mut self, depth: usize) -> Option<Value> {
        if depth > MAX_NESTING {
            return None;
        }
        self.space();
        let value = match self.peek()? {
            b'{' => Value::Members(self.members(depth)?),
            b'[' => Value::Items(self.items(depth)?),
            b'"' => {
                let start = self.at;
                self.string()?;
                Value::Word(self.text[start..self.at].to_owned())
            }
            b'-' | b'0'..=b'9' => Value::Word(self.number()?.to_owned()),
            _ => Value::Word(self.word()?.to_owned()),
        };
        self.space();
        Some(value)
    }

    /// Passes one value and keeps nothing of it, as long as its text is compact.
    fn skip(&mut self, depth: usize) -> Option<()> {
        if depth > MAX_NESTING || !self.is_compact {
            return None;
        }
        match self.peek()? {
            b'{' => {
                self.at += 1;
                if self.eat(b'}').is_some() {
                    return Some(());
                }
                let mut last: Option<&str> = None;
                loop {
                    let key = self.string()?;
                    if last.is_some_and(|last| last >= key) {
                        return None;
                    }
                    last = Some(key);
                    self.eat(b':')?;
                    self.skip(depth + 1)?;
                    if self.eat(b',').is_none() {
                        return self.eat(b'}');
                    }
                }
            }
            b'[' => {
                self.at += 1;
                if self.eat(b']').is_some() {
                    return Some(());
                }
                loop {
                    self.skip(depth + 1)?;
                    if self.eat(b',').is_none() {
                        return self.eat(b']');
                    }
                }
            }
            b'"' => self.string().map(drop),
            b'-' | b'0'..=b'9' => self.number().map(drop),
            _ => self.word().map(drop),
        }
    }
}

fn write_value(value: &Value, text: &mut String) {
    match value {
        Value::Word(word) => text.push_str(word),
        Value::Items(items) => {
            text.push('[');
            for (at, item) in items.iter().enumerate() {
                if at > 0 {
                    text.push(',');
                }
                write_value(item, text);
            }
            text.push(']');
        }
        Value::Members(members) => {
            text.push('{');
            for (at, (key, member)) in members.iter().enumerate() {
                if at > 0 {
                    text.push(',');
                }
                text.push('"');
                text.push_str(key);
                text.push_str("\":");
                write_value(member, text);
            }
            text.push('}');
        }
    }
}

fn body_of(text: &str) -> Option<String> {
    let scanner = |is_compact| Scanner { text, at: 0, is_compact };
    let mut compact = scanner(true);
    if compact.skip(0).is_some() && compact.is_compact && compact.at == text.len() {
        return Some(text.to_owned());
    }
    let mut whole = scanner(false);
    let value = whole.value(0)?;
    if whole.at != text.len() {
        return None;
    }
    let mut written = String::new();
    write_value(&value, &mut written);
    Some(written)
}

fn number_of(word: &str) -> Option<u32> {
    let is_canonical = word == "0" || !word.starts_with(['0', '+']);
    word.parse().ok().filter(|_| is_canonical)
}

fn command_of(line: &str) -> Option<Command> {
    let (word, rest) = line.split_once(' ')?;
    match word {
        "agent" => (rest == "-").then_some(Command::Agent),
        "channel" => Some(Command::Channel(number_of(rest)?)),
        "start" => Some(Command::Start(number_of(rest)?)),
        "take" => Some(Command::Take(number_of(rest)?)),
        "post" => {
            let (port, rest) = rest.split_once(' ')?;
            let (list, body) = rest.split_once(' ')?;
            let port = number_of(port)?;
            (list == "-").then_some(())?;
            Some(Command::Post(port, body_of(body)?))
        }
        _ => None,
    }
}

impl Hub {
    fn perform(&mut self, command: Command, output: &mut Vec<u8>) -> io::Result<()> {
        match command {
            Command::Agent if self.agents < MAX_AGENTS => {
                self.agents += 1;
                writeln!(output, "agent {}", self.agents - 1)
            }
            Command::Agent => writeln!(output, "too-many-agents"),
            Command::Channel(agent) if (agent as usize) < self.agents => {
                let first = self.ends.len();
                for peer in [first + 1, first] {
                    self.ends.push(End { peer, put: 0, is_enabled: false, queue: VecDeque::new() });
                }
                writeln!(output, "ends {first} {}", first + 1)
            }
            Command::Start(end) if (end as usize) < self.ends.len() => {
                self.ends[end as usize].is_enabled = true;
                writeln!(output, "started")
            }
            Command::Post(port, body) if (port as usize) < self.ends.len() => {
                let target = self.ends[port as usize].peer;
                let target = &mut self.ends[target];
                let number = target.put;
                target.put += 1;
                target.queue.push_back(Envelope { number, body });
                writeln!(output, "accepted 0:{number}")
            }
            Command::Take(end) if (end as usize) < self.ends.len() => {
                let end = &mut self.ends[end as usize];
                if !end.is_enabled {
                    return writeln!(output, "disabled");
                }
                match end.queue.pop_front() {
                    Some(Envelope { number, body }) => {
                        writeln!(output, "got 0:{number} from 0 {body}")
                    }
                    None => writeln!(output, "empty"),
                }
            }
            _ => writeln!(output, "not-now"),
        }
    }
}

fn main() -> io::Result<()> {
    let mut input = Vec::new();
    io::stdin().read_to_end(&mut input)?;
    let mut commands = Vec::new();
    let lines = input.strip_suffix(b"\n").unwrap_or(&input).split(|byte| *byte == b'\n');
    for (at, line) in lines.enumerate() {
        match std::str::from_utf8(line).ok().and_then(command_of) {
            Some(command) => commands.push(command),
            None => {
                eprintln!("line {}: not a step line", at + 1);
                exit(65);
            }
        }
    }
    let mut hub = Hub::default();
    let mut output = Vec::with_capacity(BLOCK + 256);
    let mut stdout = io::stdout().lock();
    for command in commands {
        hub.perform(command, &mut output)?;
        if output.len() >= BLOCK {
            stdout.write_all(&output)?;
            output.clear();
        }
    }
    stdout.write_all(&output)
}
