//! Writes a small fixed log by record/hublog.rs, and prints what wrong arguments are refused by.
//! usage: fixed FILE, or fixed texts FILE, or fixed late FOLDER

#[path = "../../record/hublog.rs"]
mod hublog;

use hublog::{digest, Recorder, Refusal};

fn write(path: &str) -> Result<Recorder, Refusal> {
    let mut log = Recorder::create(path, 3)?;
    log.put(1, 0, 0, 0, &[], " { \"count\" :\n1 }")?;
    let ports: Vec<u32> = (0..15).chain([65_535]).collect();
    log.put(65_535, 31, 65_535, (1 << 62) - 1, &ports, "null")?;
    log.got(2, 0, 0, 0, &[5], "[true, \"a\\nb\"]")?;
    log.put(1, 0, 0, 1, &[], "1.5")?;
    log.put(1, 0, 0, 2, &[], &digest(b"foobar"))?;
    log.put_notice(1, 0, 0, 3)?;
    log.got_notice(2, 0, 0, 1)?;
    log.adopted(5, 1)?;
    log.closed(2)?;
    Ok(log)
}

fn show<T>(found: Result<T, Refusal>) {
    match found {
        Ok(_) => println!("nothing"),
        Err(Refusal::Io(_)) => println!("Io"),
        Err(refusal) => println!("{refusal}"),
    }
}

fn refused(path: &str, log: &mut Recorder) {
    show(Recorder::create(path, 16));
    show(Recorder::create(path, 3));
    show(log.put(65_536, 0, 0, 0, &[], "1"));
    show(log.put(1, 32, 0, 0, &[], "1"));
    show(log.put(1, 0, 65_536, 0, &[], "1"));
    show(log.got(1, 0, 0, 1 << 62, &[], "1"));
    show(log.put(1, 0, 0, 0, &[65_536], "1"));
    show(log.put(1, 0, 0, 0, &[4, 4], "1"));
    show(log.put(1, 0, 0, 0, &(0..17).collect::<Vec<u32>>(), "1"));
    show(log.got(1, 0, 0, 0, &[], "{1: 2}"));
    show(log.adopted(65_536, 0));
    show(log.adopted(1, 65_536));
    show(log.closed(65_536));
    show(log.closed(2));
    show(log.put_notice(1, 32, 0, 0));
    show(log.got_notice(65_536, 0, 0, 0));
    show(log.put(1, 0, 0, 0, &[], "1"));
    show(log.put_notice(1, 0, 0, 1));
    drop(log.putting(1, 0, 0, 4, &[], "\"refused\""));
    // What was taken back isn't there, and may be put again.
    if let Ok(putting) = log.putting(1, 0, 0, 4, &[], "\"accepted\"") {
        putting.keep();
    }
}

/// The JSON texts that the recorder has to tell apart, one a line: as a body, past one, or none.
fn told(path: &str) -> Result<(), Refusal> {
    let texts = std::fs::read_to_string(path)?;
    let mut log = Recorder::create(format!("{path}.log"), 0)?;
    for (number, text) in (0..).zip(texts.lines()) {
        if let Err(refusal) = log.put(0, 0, 0, number, &[], text) {
            println!("{refusal}");
            log.put(0, 0, 0, number, &[], "\"none\"")?;
        }
    }
    log.finish()
}

/// The logs of a hub that delivers a message a second time, behind the notice of its line.
fn late(folder: &str) -> Result<(), Refusal> {
    let mut sender = Recorder::create(format!("{folder}/agent-0.log"), 0)?;
    sender.put(1, 0, 0, 0, &[], "\"one\"")?;
    sender.put_notice(1, 0, 0, 1)?;
    sender.finish()?;
    let mut receiver = Recorder::create(format!("{folder}/agent-1.log"), 1)?;
    receiver.got(1, 0, 0, 0, &[], "\"one\"")?;
    receiver.got_notice(1, 0, 0, 1)?;
    receiver.got(1, 0, 0, 0, &[], "\"one\"")?;
    receiver.finish()
}

fn fixed(path: &str) -> Result<(), Refusal> {
    let mut log = write(path)?;
    refused(path, &mut log);
    log.finish()?;
    log.finish()?;
    show(log.closed(7));
    Ok(())
}

fn main() -> Result<(), Refusal> {
    let words: Vec<String> = std::env::args().skip(1).collect();
    match words.iter().map(String::as_str).collect::<Vec<_>>()[..] {
        ["texts", path] => told(path),
        ["late", folder] => late(folder),
        [path] => fixed(path),
        _ => panic!("wrong words"),
    }
}
