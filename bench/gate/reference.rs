// The same pattern on a bare AtomicU64: a fetch_add and a fetch_sub a pair. What the words show is
// used as the gate uses it, and threads are made as the gate's program makes them: half of the jobs
// in the caller's thread. With `slots` each pair also takes a value out of its line's slot beside
// the word and puts it back, as the gate does with the right of a line: what the slots cost without
// the gate.
// usage: reference THREADS PAIRS [slots]
use std::cell::UnsafeCell;
use std::sync::atomic::{AtomicU64, Ordering::SeqCst};
use std::sync::Arc;
use std::time::{Duration, Instant};

#[repr(C)]
struct Shared {
    word: AtomicU64,
    slots: [UnsafeCell<[u64; 2]>; 4],
}

// Each line touches its own slot alone.
unsafe impl Sync for Shared {}

struct Run {
    begin: Duration,
    end: Duration,
    let_in: u64,
    found_enabled: u64,
}

#[inline(never)]
fn make_pairs<const SLOTS: bool>(zero: &Instant, shared: &Shared, line: usize, pairs: u32) -> Run {
    let word = &shared.word;
    let slot = shared.slots[line].get();
    let mut let_in = 0u64;
    let mut found_enabled = 0u64;
    let begin = zero.elapsed();
    for _ in 0..pairs {
        if word.fetch_add(256, SeqCst) & 6 == 0 {
            let_in = let_in.wrapping_add(1);
        }
        if SLOTS {
            unsafe {
                let [_, tag] = std::ptr::read_volatile(slot);
                std::ptr::write_volatile(slot, [0, tag]);
                std::ptr::write_volatile(slot, [1, tag]);
            }
        }
        found_enabled = found_enabled.wrapping_add(word.fetch_sub(256, SeqCst) & 1);
    }
    let end = zero.elapsed();
    Run { begin, end, let_in, found_enabled }
}

// Each job in a thread of its own: one half of the jobs from the caller's thread, the other from a
// new one.
fn map_halves<J: Send, X: Send>(mut jobs: Vec<J>, call: &(impl Fn(J) -> X + Sync)) -> Vec<X> {
    if jobs.len() < 2 {
        return jobs.into_iter().map(call).collect();
    }
    let high = jobs.split_off(jobs.len() / 2);
    std::thread::scope(|scope| {
        let back = scope.spawn(|| map_halves(high, call));
        let mut all = map_halves(jobs, call);
        all.extend(back.join().unwrap());
        all
    })
}

fn main() {
    let words: Vec<String> = std::env::args().collect();
    let threads: usize = words[1].parse().unwrap();
    let pairs: u32 = words[2].parse().unwrap();
    let with_slots = words.get(3).is_some_and(|word| word == "slots");
    let shared = Arc::new(Shared {
        word: AtomicU64::new(0),
        slots: [const { UnsafeCell::new([1, 0]) }; 4],
    });
    let jobs: Vec<(Arc<Shared>, usize)> = (0..threads).map(|line| (shared.clone(), line)).collect();
    let zero = Instant::now();
    let runs = map_halves(jobs, &|(shared, line)| {
        if with_slots {
            make_pairs::<true>(&zero, &shared, line, pairs)
        } else {
            make_pairs::<false>(&zero, &shared, line, pairs)
        }
    });
    let begin = runs.iter().map(|run| run.begin).min().unwrap();
    let end = runs.iter().map(|run| run.end).max().unwrap();
    let let_in: u64 = runs.iter().map(|run| run.let_in).sum();
    let found_enabled: u64 = runs.iter().map(|run| run.found_enabled).sum();
    println!("{} {} {}", (end - begin).as_micros(), let_in, found_enabled);
}
