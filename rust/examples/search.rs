//! Looks for sheets that take the library long.
//!
//!     cargo run --release --example search -- time FILE...
//!     cargo run --release --example search -- climb SECONDS SEED FOLDER FACTS BOTH [FILE...]
//!
//! `time` prints what each sheet takes, beside the reference. `climb` draws sheets of every shape (and
//! takes those that are named), changes them a little again and again, keeps a change that takes
//! longer, and writes the slowest sheet of each climb to the folder. It takes no sheet with more than
//! FACTS facts, and where BOTH is `no` none with a both, so that slow sheets of other kinds are found.

use hofadiju::{compare_into, ANSWER_BYTES, WORK_NUMBERS};
use reference::{fast::Comparer, Limits};
use sheets::{draw, Draft, Rng, BOTH, SHAPES};
use std::time::{Duration, Instant};

/// A climb ends where one call takes this long.
const LONG: Duration = Duration::from_millis(400);

/// A climb ends after this many changes in a row that were not kept.
const PATIENCE: usize = 600;

/// Which sheets a climb may take.
#[derive(Clone, Copy)]
struct Allowed {
    facts: usize,
    both: bool,
}

impl Allowed {
    fn has(self, draft: &Draft) -> bool {
        draft.facts <= self.facts && (self.both || draft.nodes.iter().all(|node| node.0 != BOTH))
    }
}

struct Meter {
    answer: Vec<u8>,
    work: Vec<u32>,
    comparer: Comparer,
}

impl Meter {
    fn library(&mut self, sheet: &[u8]) -> (Duration, String) {
        let before = Instant::now();
        let outcome = compare_into(sheet, 0, 1, &mut self.answer, &mut self.work);
        let time = before.elapsed();
        let said = match outcome {
            Ok(outcome) => {
                let members = u16::from_le_bytes([self.answer[0], self.answer[1]]);
                format!("{:?} {}, {members} members", outcome.verdict, outcome.round)
            }
            Err(error) => error.line().unwrap_or_else(|| error.to_string()),
        };
        (time, said)
    }

    fn least(&mut self, sheet: &[u8], times: usize) -> Duration {
        let mut least = self.library(sheet).0;
        for _ in 1..times {
            if least < LONG {
                least = least.min(self.library(sheet).0);
            }
        }
        least
    }

    fn reference(&mut self, sheet: &[u8]) -> Duration {
        let before = Instant::now();
        self.comparer.compare(Limits::DOCUMENT, sheet, 0, 1, &mut self.answer, &mut self.work);
        before.elapsed()
    }
}

/// The same sheet with one thing changed.
fn changed(draft: &Draft, rng: &mut Rng) -> Draft {
    let mut draft = draft.clone();
    let facts = draft.facts;
    let count = draft.nodes.len();
    let bit = |rng: &mut Rng| if facts == 0 { 0 } else { 1u16 << rng.below(facts) };
    match rng.below(14) {
        0 => {
            let node = &mut draft.nodes[rng.below(count)];
            if matches!(node.0, 1 | 2) {
                node.1 ^= bit(rng);
            }
        }
        1 | 2 => {
            let own = rng.below(count);
            let node = &mut draft.nodes[own];
            match node.0 {
                2 => node.2 = rng.below(count) as u16,
                3 | 4 if rng.percent(50) => node.1 = rng.below(own) as u16,
                3 | 4 => node.2 = rng.below(own) as u16,
                _ => {}
            }
        }
        3..=5 => {
            let own = rng.below(count);
            draft.nodes[own] = node(own, count, facts, rng);
        }
        6 | 7 if count < 64 => draft.nodes.push(node(count, count + 1, facts, rng)),
        8 if draft.rules.len() < 32 && facts > 0 => {
            let at = rng.below(draft.rules.len() + 1);
            draft.rules.insert(at, (rng.some_set(facts, 3), rng.some_set(facts, 3)));
        }
        9 if !draft.rules.is_empty() => drop(draft.rules.remove(rng.below(draft.rules.len()))),
        10 if !draft.rules.is_empty() => {
            let at = rng.below(draft.rules.len());
            let rule = &mut draft.rules[at];
            if rng.percent(50) {
                rule.0 ^= bit(rng);
            } else {
                rule.1 ^= bit(rng);
            }
        }
        11 if facts < 12 => draft.facts += 1,
        _ => {
            let start = &mut draft.starts[rng.below(2)];
            match rng.below(4) {
                0 => start.0 ^= bit(rng),
                1 if start.1.len() < 8 => start.1.push(rng.below(count) as u8),
                2 if start.1.len() > 1 => drop(start.1.remove(rng.below(start.1.len()))),
                _ if !start.1.is_empty() => start.1[0] = (count - 1 - rng.below(count.min(4))) as u8,
                _ => {}
            }
        }
    }
    draft
}

fn node(own: usize, count: usize, facts: usize, rng: &mut Rng) -> (u8, u16, u16) {
    let lower = |rng: &mut Rng| {
        let reach = 1 + rng.below(own);
        (own - 1 - rng.below(reach)) as u16
    };
    match rng.below(if own == 0 { 4 } else { 10 }) {
        0 => (0, 0, 0),
        1 => (1, rng.set(facts, 3), 0),
        2 | 3 => (2, rng.set(facts, 4), rng.below(count) as u16),
        4..=6 => (3, lower(rng), lower(rng)),
        _ => (4, lower(rng), lower(rng)),
    }
}

fn climb(mut best: Draft, allowed: Allowed, meter: &mut Meter, rng: &mut Rng, end: Instant) -> (Draft, Duration) {
    let mut most = meter.least(&best.bytes(), 2);
    let mut idle = 0;
    while idle < PATIENCE && most < LONG && Instant::now() < end {
        let mut next = changed(&best, rng);
        if rng.percent(40) {
            next = changed(&next, rng);
        }
        if !allowed.has(&next) {
            continue;
        }
        let bytes = next.bytes();
        idle += 1;
        if meter.library(&bytes).0 <= most {
            continue;
        }
        // The two take turns, so that a time that was long by chance does not count.
        let own = best.bytes();
        let (mut new, mut old) = (LONG, LONG);
        for _ in 0..4 {
            new = new.min(meter.library(&bytes).0);
            old = old.min(meter.library(&own).0);
        }
        if new > old {
            idle = if new > old.mul_f64(1.02) { 0 } else { idle };
            (best, most) = (next, new);
        } else {
            most = old;
        }
    }
    (best, most)
}

fn main() {
    let words: Vec<String> = std::env::args().skip(1).collect();
    let words: Vec<&str> = words.iter().map(String::as_str).collect();
    let comparer = Comparer::new();
    let mut meter = Meter { answer: vec![0; ANSWER_BYTES], work: vec![0; WORK_NUMBERS], comparer };
    match words.as_slice() {
        ["time", files @ ..] => {
            for file in files {
                let sheet = std::fs::read(file).expect(file);
                let (_, said) = meter.library(&sheet);
                let time = meter.least(&sheet, 5);
                meter.reference(&sheet);
                let reference = (0..5).map(|_| meter.reference(&sheet)).min().unwrap();
                println!("{file}: {said}; library {time:?}, reference {reference:?}");
            }
        }
        ["climb", seconds, seed, folder, facts, both, files @ ..] => {
            let allowed = Allowed { facts: facts.parse().expect("a number of facts"), both: *both == "yes" };
            let mut rng = Rng::new(seed.parse().expect("a seed"));
            let end = Instant::now() + Duration::from_secs(seconds.parse().expect("seconds"));
            let mut named: Vec<Draft> =
                files.iter().map(|file| Draft::read(&std::fs::read(file).expect(file)).expect(file)).collect();
            let mut number = 0;
            while Instant::now() < end {
                let shape = &SHAPES[rng.below(SHAPES.len())];
                let (name, first) = match named.pop() {
                    Some(draft) => ("named", draft),
                    None => (shape.name, draw(shape, &mut rng)),
                };
                if !allowed.has(&first) {
                    continue;
                }
                let (draft, time) = climb(first, allowed, &mut meter, &mut rng, end);
                let (_, said) = meter.library(&draft.bytes());
                let reference = meter.reference(&draft.bytes());
                println!("{number:03} from {name}: {said}; library {time:?}, reference {reference:?}");
                std::fs::write(format!("{folder}/{seed}-{number:03}.sheet"), draft.bytes()).expect(folder);
                number += 1;
            }
        }
        _ => eprintln!("usage: search time FILE... | search climb SECONDS SEED FOLDER FACTS BOTH [FILE...]"),
    }
}
