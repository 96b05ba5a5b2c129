//! Reads a sheet from a file and compares two of its starts, or all of them.
//!
//!     cargo run --release --example compare -- [--desk] [--rounds K] ../samples/k-2-4.sheet [LEFT RIGHT]
//!     cargo run --release --example compare -- --all ../samples/k-2-4.sheet
//!
//! Without LEFT and RIGHT it compares starts 0 and 1; with --desk it does so within the desk's limits, and
//! with --rounds after K rounds. Then it prints the verdict, the number of classes in that round and the
//! number of members, and a line for each member. With --all it prints the number of classes among the
//! starts and the round, and then a line for each group of starts that behave alike. The exit status is 0
//! for SAME and for one group, 1 for DIFF and for more groups, 2 for a refusal, 3 where the words, the file
//! or the library's answer cannot be read and 4 for OPEN.

use hofadiju::{
    compare, compare_all, compare_desk, compare_rounds, compare_rounds_desk, Error, Grouping, Partition, Report,
    RoundsVerdict, Verdict,
};
use std::fmt::Display;
use std::process::ExitCode;

const USAGE: &str = "usage: compare [--desk] [--rounds K] FILE [LEFT RIGHT] | compare --all FILE";

/// What is printed, and the exit status that goes with it.
trait Said: Display {
    fn status(&self) -> u8;
}

impl Said for Report {
    fn status(&self) -> u8 {
        match self.verdict {
            Verdict::Same => 0,
            Verdict::Diff => 1,
            _ => 3,
        }
    }
}

impl Said for Partition {
    fn status(&self) -> u8 {
        match self.verdict {
            RoundsVerdict::Same => 0,
            RoundsVerdict::Diff => 1,
            RoundsVerdict::Open => 4,
            _ => 3,
        }
    }
}

impl Said for Grouping {
    fn status(&self) -> u8 {
        u8::from(self.groups().len() != 1)
    }
}

fn main() -> ExitCode {
    let words: Vec<String> = std::env::args().skip(1).collect();
    let mut words = words.iter().map(String::as_str).peekable();
    let (mut desk, mut all, mut rounds) = (false, false, None);
    while let Some(option) = words.next_if(|word| word.starts_with("--")) {
        match option {
            "--desk" => desk = true,
            "--all" => all = true,
            "--rounds" => match words.next().and_then(|word| word.parse().ok()) {
                Some(count) => rounds = Some(count),
                None => return failed("K is a number of rounds, from 0 and of at most 64 bits"),
            },
            _ => return failed(USAGE),
        }
    }
    let (file, left, right) = match words.collect::<Vec<_>>()[..] {
        [file] => (file, Some(0), Some(1)),
        [file, left, right] if !all => (file, left.parse().ok(), right.parse().ok()),
        _ => return failed(USAGE),
    };
    let (Some(left), Some(right)) = (left, right) else {
        return failed("LEFT and RIGHT are the numbers of two starts");
    };
    match (all, desk, rounds) {
        (true, false, None) => printed(file, compare_all),
        (true, ..) => failed(USAGE),
        (false, false, None) => printed(file, |sheet| compare(sheet, left, right)),
        (false, true, None) => printed(file, |sheet| compare_desk(sheet, left, right)),
        (false, false, Some(count)) => printed(file, |sheet| compare_rounds(sheet, left, right, count)),
        (false, true, Some(count)) => printed(file, |sheet| compare_rounds_desk(sheet, left, right, count)),
    }
}

/// Prints what is said of a file's sheet.
fn printed<T: Said>(file: &str, compare: impl FnOnce(&[u8]) -> Result<T, Error>) -> ExitCode {
    let sheet = match std::fs::read(file) {
        Ok(sheet) => sheet,
        Err(error) => return failed(&format!("{file}: {error}")),
    };
    match compare(&sheet) {
        Ok(said) => {
            print!("{said}");
            ExitCode::from(said.status())
        }
        Err(error) => {
            eprintln!("{file}: {error}");
            match error.line() {
                Some(line) => {
                    println!("{line}");
                    ExitCode::from(2)
                }
                None => ExitCode::from(3),
            }
        }
    }
}

fn failed(message: &str) -> ExitCode {
    eprintln!("{message}");
    ExitCode::from(3)
}
