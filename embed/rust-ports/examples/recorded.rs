//! Threads that send each other messages and ports, and record what they put and got:
//!
//! `recorded FOLDER AGENTS ROUNDS SEED`
//!
//! Each agent is a thread with a log in the folder and a queue, at which each other agent has a
//! line, and two ports to share. It posts and takes at what it has, sends ports on over lines,
//! closes some, and in the end all. tools/report judges the logs. The last line tells how much was
//! done.

#[path = "../../../record/hublog.rs"]
mod hublog;

use hublog::Recorder;
use std::path::Path;
use std::sync::{Arc, Barrier};
use std::thread;
use varukoni_ports::{channel, Line, MessagePort, Payload, Refused, TryRecvError, WorkerQueue};

const MOST_SENT: usize = 3;
const MOST_PORTS: usize = 24;

/// A port, and what is known of it, which goes with it.
struct Held {
    port: MessagePort,
    known: Known,
}

#[derive(Clone, Copy)]
struct Known {
    end: u32,
    peer: u32,
    moves: u32,
    posted: u64,
}

/// A line to another agent's queue.
struct Way {
    line: Line,
    end: u32,
    number: u32,
    posted: u64,
}

/// What a message is made of beside its ports.
struct Note {
    line: u32,
    number: u64,
    ports: Vec<Known>,
    body: String,
}

#[derive(Default)]
struct Counts {
    put: u64,
    got: u64,
    adopted: u64,
    closed: u64,
    refused: u64,
}

struct Agent {
    log: Recorder,
    end: u32,
    queue: WorkerQueue,
    ways: Vec<Way>,
    ports: Vec<Held>,
    random: u64,
    counts: Counts,
}

fn ends_of(ports: &[Known]) -> Vec<u32> {
    ports.iter().map(|known| known.end).collect()
}

impl Agent {
    fn draw(&mut self, below: usize) -> usize {
        self.random = self
            .random
            .wrapping_mul(6_364_136_223_846_793_005)
            .wrapping_add(1_442_695_040_888_963_407);
        (self.random >> 33) as usize % below
    }

    /// Posts over a line, and sends some ports along.
    fn post_over_line(&mut self) {
        let at = self.draw(self.ways.len());
        let count = self.draw(MOST_SENT + 1).min(self.ports.len());
        let from = self.ports.len() - count;
        let (sent, ports): (Vec<_>, Vec<_>) = self
            .ports
            .drain(from..)
            .map(|held| (held.port, held.known))
            .unzip();
        let way = &mut self.ways[at];
        let body = format!("\"{} over line {}\"", way.posted, way.number);
        let ends = ends_of(&ports);
        let putting = self
            .log
            .putting(way.end, way.number, 0, way.posted, &ends, &body)
            .unwrap();
        let (line, number) = (way.number, way.posted);
        let note = Payload::new(Note {
            line,
            number,
            ports,
            body,
        });
        match way.line.post_message(note, sent) {
            Ok(()) => {
                putting.keep();
                way.posted += 1;
                self.counts.put += 1;
            }
            Err(Refused { payload, ports, .. }) => {
                drop(putting);
                let known = payload.downcast::<Note>().unwrap().ports;
                let back = ports.into_iter().zip(known);
                self.ports
                    .extend(back.map(|(port, known)| Held { port, known }));
                self.counts.refused += 1;
                self.ways.remove(at);
            }
        }
    }

    fn post_over_port(&mut self, at: usize) {
        let Held { port, known } = &mut self.ports[at];
        let body = known.posted.to_string();
        let putting = self
            .log
            .putting(known.peer, 0, 0, known.posted, &[], &body)
            .unwrap();
        let note = Note {
            line: 0,
            number: known.posted,
            ports: vec![],
            body,
        };
        if port.post_message(Payload::new(note), vec![]).is_ok() {
            putting.keep();
            known.posted += 1;
            self.counts.put += 1;
            return;
        }
        drop(putting);
        self.counts.refused += 1;
        self.close(at);
    }

    fn close(&mut self, at: usize) {
        let Held { port, known } = self.ports.swap_remove(at);
        self.log.closed(known.end).unwrap();
        port.close();
        self.counts.closed += 1;
    }

    fn take_from_queue(&mut self) {
        let message = match self.queue.try_recv() {
            Ok(message) => message,
            Err(_) => return,
        };
        let note = message.payload.downcast::<Note>().unwrap();
        let ends = ends_of(&note.ports);
        self.log
            .got(self.end, note.line, 0, note.number, &ends, &note.body)
            .unwrap();
        self.counts.got += 1;
        for (port, mut known) in message.ports.into_iter().zip(note.ports) {
            known.moves += 1;
            self.log.adopted(known.end, known.moves).unwrap();
            self.counts.adopted += 1;
            self.ports.push(Held { port, known });
        }
        while self.ports.len() > MOST_PORTS {
            self.close(0);
        }
    }

    fn take_from_port(&mut self, at: usize) {
        let Held { port, known } = &mut self.ports[at];
        match port.try_recv() {
            Ok(message) => {
                let note = message.payload.downcast::<Note>().unwrap();
                self.log
                    .got(known.end, 0, 0, note.number, &[], &note.body)
                    .unwrap();
                self.counts.got += 1;
            }
            Err(TryRecvError::Ended) => self.close(at),
            Err(TryRecvError::Empty) => {}
        }
    }

    fn step(&mut self) {
        let choice = self.draw(8);
        match choice {
            0 | 1 if !self.ways.is_empty() => self.post_over_line(),
            2..=5 if !self.ports.is_empty() => {
                let at = self.draw(self.ports.len());
                match choice {
                    2 | 3 => self.post_over_port(at),
                    _ => self.take_from_port(at),
                }
            }
            _ => self.take_from_queue(),
        }
    }

    fn run(mut self, rounds: usize) -> Counts {
        for _ in 0..rounds {
            self.step();
        }
        while !self.ports.is_empty() {
            self.close(0);
        }
        self.log.closed(self.end).unwrap();
        self.queue.close();
        self.counts.closed += 1;
        self.log.finish().unwrap();
        self.counts
    }
}

/// Agents with queues at the ends 0, 1 and so on, and a channel between each two neighbours.
fn agents_of(folder: &Path, count: u32, seed: u64) -> Vec<Agent> {
    let mut agents: Vec<Agent> = (0..count)
        .map(|n| Agent {
            log: Recorder::create(folder.join(format!("agent-{n}.log")), n).unwrap(),
            end: n,
            queue: WorkerQueue::new(),
            ways: vec![],
            ports: vec![],
            random: seed + u64::from(n),
            counts: Counts::default(),
        })
        .collect();
    for to in 0..count {
        for (number, from) in (0..).zip((0..count).filter(|from| *from != to)) {
            let line = agents[to as usize].queue.line().unwrap();
            agents[from as usize].ways.push(Way {
                line,
                end: to,
                number,
                posted: 0,
            });
        }
    }
    for n in 0..count {
        let ends = (count + 2 * n, count + 2 * n + 1);
        let (one, other) = channel();
        for (agent, port, end, peer) in [
            (n, one, ends.0, ends.1),
            ((n + 1) % count, other, ends.1, ends.0),
        ] {
            let known = Known {
                end,
                peer,
                moves: 0,
                posted: 0,
            };
            agents[agent as usize].ports.push(Held { port, known });
        }
    }
    agents
}

fn main() {
    let words: Vec<String> = std::env::args().collect();
    let (count, rounds): (u32, usize) = (words[2].parse().unwrap(), words[3].parse().unwrap());
    let agents = agents_of(Path::new(&words[1]), count, words[4].parse().unwrap());
    let begin = Arc::new(Barrier::new(agents.len()));
    let threads: Vec<_> = agents
        .into_iter()
        .map(|agent| {
            let begin = Arc::clone(&begin);
            thread::spawn(move || {
                begin.wait();
                agent.run(rounds)
            })
        })
        .collect();
    let mut all = Counts::default();
    for thread in threads {
        let more = thread.join().unwrap();
        all.put += more.put;
        all.got += more.got;
        all.adopted += more.adopted;
        all.closed += more.closed;
        all.refused += more.refused;
    }
    let Counts {
        put,
        got,
        adopted,
        closed,
        refused,
    } = all;
    println!("{put} put, {got} got, {adopted} adopted, {closed} closed, {refused} refused");
}
