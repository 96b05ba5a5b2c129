//! The library held to what an earlier one gave. `stored-reports.txt` was written by the library as it was
//! before rules could have an empty premise; on sheets without such a rule nothing has changed. The file is
//! written anew, by the library in a folder, with
//!
//!     HOFADIJU_LIB_DIR=FOLDER HOFADIJU_STORED=tests/stored-reports.txt \
//!         cargo test --release -j1 --test stored -- --ignored
//!
//! A sheet has one digest for all five calls. A sheet that the earlier library refused with 6 has a `-`.

mod common;

use common::{Call, CompareAll, CompareRounds, CompareTwo, EveryStart, Harness};
use sheets::{alike_pair, damage, draw, variants, Rng, SHAPES};

const STORED: &str = include_str!("stored-reports.txt");

/// How many sheets of each shape are made in each way: 4,030 in all.
const MADE: [(&str, usize); 4] = [("drawn", 100), ("alike pairs", 60), ("variants", 60), ("damaged", 90)];

/// The sheets' bytes by shape and way, each with a name.
fn groups() -> Vec<(String, Vec<Vec<u8>>)> {
    let mut groups = vec![];
    for (i, shape) in SHAPES.iter().enumerate() {
        let many = shape.with_starts(2, 16);
        for (j, (way, count)) in MADE.into_iter().enumerate() {
            let mut rng = Rng::new(9_000 + (MADE.len() * i + j) as u64);
            let make = |k: usize| {
                let mut bytes = match (way, k % 3) {
                    ("drawn", _) | ("damaged", 0) => draw(shape, &mut rng),
                    ("alike pairs", _) | ("damaged", 1) => alike_pair(shape, &mut rng),
                    _ => variants(&many, &mut rng),
                }
                .bytes();
                if way == "damaged" {
                    damage(&mut bytes, &mut rng);
                }
                bytes
            };
            groups.push((format!("{}, {way}", shape.name), (0..count).map(make).collect()));
        }
    }
    groups
}

/// FNV-1a with 64 bits.
struct Digest(u64);

impl Digest {
    fn new() -> Digest {
        Digest(0xCBF2_9CE4_8422_2325)
    }

    fn bytes(&mut self, bytes: &[u8]) {
        for &byte in bytes {
            self.0 = (self.0 ^ u64::from(byte)).wrapping_mul(0x100_0000_01B3);
        }
    }

    /// What a call gives, with an answer slice that suffices; its number is given back.
    fn call<C: Call<N>, const N: usize>(
        &mut self,
        harness: &mut Harness<C, N>,
        sheet: &[u8],
        choice: C::Choice,
    ) -> u32 {
        let room = harness.room();
        let ((number, numbers), answer) = harness.alone(sheet, choice, room);
        self.bytes(&number.to_le_bytes());
        for number in numbers {
            self.bytes(&(number as u64).to_le_bytes());
        }
        self.bytes(answer);
        number
    }
}

/// The five calls.
struct Calls {
    two: [Harness<CompareTwo>; 2],
    all: Harness<CompareAll, 3>,
    rounds: [Harness<CompareRounds, 5>; 2],
}

impl Calls {
    fn new() -> Calls {
        Calls {
            two: [Harness::new(110), Harness::desk(110)],
            all: Harness::all(110),
            rounds: [Harness::rounds(110), Harness::rounds_desk(110)],
        }
    }

    /// The digest of what the calls give of starts 0 and 1, of all starts and after one round, and the number
    /// that the first of them returns.
    fn digest(&mut self, sheet: &[u8]) -> (u64, u32) {
        let mut digest = Digest::new();
        let [number, _] = self.two.each_mut().map(|harness| digest.call(harness, sheet, (0, 1)));
        digest.call(&mut self.all, sheet, EveryStart);
        for harness in &mut self.rounds {
            digest.call(harness, sheet, (0, 1, 1));
        }
        (digest.0, number)
    }
}

#[test]
fn reports_are_those_that_are_stored() {
    let lines = STORED.lines().filter(|line| !line.starts_with('#'));
    let mut stored = lines.flat_map(str::split_whitespace);
    let mut calls = Calls::new();
    let mut all = Digest::new();
    let (mut seen, mut skipped) = ([0; 24], 0);
    for (group, sheets) in groups() {
        for (i, sheet) in sheets.iter().enumerate() {
            let (digest, number) = calls.digest(sheet);
            assert_ne!(number, 6, "{group} {i}: {sheet:?}");
            let earlier = stored.next().expect("an entry for each sheet");
            if earlier == "-" {
                skipped += 1;
                continue;
            }
            assert_eq!(format!("{digest:016x}"), earlier, "{group} {i}: {sheet:?}");
            all.bytes(&digest.to_le_bytes());
            seen[number as usize] += 1;
        }
    }
    assert_eq!(stored.next(), Some("all"));
    assert_eq!(stored.next(), Some(&format!("{:016x}", all.0)[..]));
    assert_eq!(stored.next(), None);
    println!("{} sheets by number {seen:?}, {skipped} skipped", seen.iter().sum::<usize>());
    assert!(seen[0] > 2_500 && skipped < 100);
    for number in [1, 2, 3, 4, 5, 7, 8, 9, 10, 11, 12, 13, 21] {
        assert!(seen[number] > 0, "{number} was not seen");
    }
}

/// Writes the file that HOFADIJU_STORED names.
#[test]
#[ignore = "writes the stored reports anew"]
fn write_stored_reports() {
    let Some(file) = std::env::var_os("HOFADIJU_STORED") else {
        println!("HOFADIJU_STORED names no file to write");
        return;
    };
    let mut calls = Calls::new();
    let mut all = Digest::new();
    let mut text = String::from(
        "# What the library gave before rules could have an empty premise; tests/stored.rs writes this file and\n\
         # reads it. One digest a sheet, - where the sheet was refused with 6; then the digest of all.\n",
    );
    for (group, sheets) in groups() {
        text += &format!("# {group}\n");
        for eight in sheets.chunks(8) {
            let entries = eight.iter().map(|sheet| match calls.digest(sheet) {
                (_, 6) => "-".to_string(),
                (digest, _) => {
                    all.bytes(&digest.to_le_bytes());
                    format!("{digest:016x}")
                }
            });
            text += &(entries.collect::<Vec<String>>().join(" ") + "\n");
        }
    }
    text += &format!("# all of them\nall {:016x}\n", all.0);
    std::fs::write(file, text).unwrap();
}
