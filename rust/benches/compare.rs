//! The library beside the reference written for speed, on the same sheets in one run.
//!
//!     rust/bench [DIRECTORY...]
//!
//! Both are given the same call: reading included, the same answer and work slices, the work slice
//! cleared by the call; the reference also keeps its own buffers from call to call. For each sheet
//! the two take turns, and the least time of several turns counts. A directory's `*.sheet` files form
//! a class of their own. In classes with standing facts the sheets have rules with an empty premise; in
//! classes called desk both are given the desk's limits; in classes called all starts both compare all
//! sixteen starts of each sheet; in those called after so many rounds both stop there. Two tables of their
//! own have the comparison of all starts beside that of two starts and of every two, and the comparisons
//! after so many rounds beside the whole one, all by the library.

use hofadiju::{
    compare_all_into, compare_desk_into, compare_into, compare_rounds_into, Error, Outcome, ALL_ANSWER_BYTES,
    ANSWER_BYTES, DESK_ANSWER_BYTES, ROUNDS_ANSWER_BYTES, WORK_NUMBERS,
};
use reference::{fast::Comparer, Limits, Returned};
use sheets::{alike_pair, draw, variants, with_standing, Draft, Rng, Shape, SHAPES, STOP};
use std::hint::black_box;
use std::path::{Path, PathBuf};
use std::time::{Duration, Instant};

/// How often the two take turns on a sheet, and about how long one turn lasts.
const TURNS: usize = 7;
const TURN: Duration = Duration::from_micros(200);

/// The numbers of rounds after which heavy sheets and deep ones are compared.
const ROUNDS: [u64; 4] = [0, 1, 2, 8];

struct Slices {
    answer: Vec<u8>,
    work: Vec<u32>,
}

type CompareInto = fn(&[u8], usize, usize, &mut [u8], &mut [u32]) -> Result<Outcome, Error>;

/// One of the library's calls: of two starts, with the reference's limits and the length of the answer
/// slice, of all starts, or of two starts after so many rounds.
#[derive(Clone, Copy)]
enum Call {
    Two { function: CompareInto, limits: Limits, answer: usize },
    All,
    After { rounds: u64 },
}

const DOCUMENT: Call = Call::Two { function: compare_into, limits: Limits::DOCUMENT, answer: ANSWER_BYTES };
const DESK: Call = Call::Two { function: compare_desk_into, limits: Limits::DESK, answer: DESK_ANSWER_BYTES };

struct Class {
    name: String,
    call: Call,
    sheets: Vec<(String, Vec<u8>)>,
}

impl Class {
    /// The same sheets for the desk's call.
    fn desk(&self) -> Class {
        Class { name: format!("{}, desk", self.name), call: DESK, sheets: self.sheets.clone() }
    }

    /// The sheets for the call of all starts.
    fn all_starts(self) -> Class {
        Class { name: format!("{}, all starts", self.name), call: Call::All, sheets: self.sheets }
    }

    /// The same sheets for the call after so many rounds.
    fn after(&self, rounds: u64) -> Class {
        let plural = if rounds == 1 { "" } else { "s" };
        let name = format!("{}, after {rounds} round{plural}", self.name);
        Class { name, call: Call::After { rounds }, sheets: self.sheets.clone() }
    }

    /// Whether each sheet has rows of its own.
    fn by_sheet(&self) -> bool {
        self.sheets.len() <= 40
    }
}

/// The least time of one call of each, in nanoseconds, and whether the sheet was refused.
struct Measured {
    library: f64,
    peer: f64,
    refused: bool,
}

fn library(call: Call, sheet: &[u8], slices: &mut Slices) -> Result<usize, u32> {
    match call {
        Call::Two { function, answer, .. } => two_starts(function, answer, sheet, (0, 1), slices),
        Call::All => all_starts(sheet, slices),
        Call::After { rounds } => after_rounds(rounds, sheet, slices),
    }
}

fn two_starts(
    function: CompareInto,
    answer: usize,
    sheet: &[u8],
    (left, right): (usize, usize),
    slices: &mut Slices,
) -> Result<usize, u32> {
    let outcome = function(sheet, left, right, &mut slices.answer[..answer], &mut slices.work);
    outcome.map(|outcome| outcome.length).map_err(refused_by)
}

/// The number of a refusal that the crate knows.
fn refused_by(error: Error) -> u32 {
    error.refusal().unwrap_or_else(|| panic!("{error}")).number()
}

fn all_starts(sheet: &[u8], slices: &mut Slices) -> Result<usize, u32> {
    let outcome = compare_all_into(sheet, &mut slices.answer[..ALL_ANSWER_BYTES], &mut slices.work);
    outcome.map(|outcome| outcome.length).map_err(refused_by)
}

fn after_rounds(rounds: u64, sheet: &[u8], slices: &mut Slices) -> Result<usize, u32> {
    let answer = &mut slices.answer[..ROUNDS_ANSWER_BYTES];
    let outcome = compare_rounds_into(sheet, 0, 1, rounds, answer, &mut slices.work);
    outcome.map(|outcome| outcome.length).map_err(refused_by)
}

fn peer(call: Call, sheet: &[u8], slices: &mut Slices, comparer: &mut Comparer) -> Result<usize, u32> {
    let Slices { answer: bytes, work } = slices;
    match call {
        Call::Two { limits, answer, .. } => length(comparer.compare(limits, sheet, 0, 1, &mut bytes[..answer], work)),
        Call::All => length(comparer.compare_all(Limits::DOCUMENT, sheet, &mut bytes[..ALL_ANSWER_BYTES], work)),
        Call::After { rounds } => {
            let answer = &mut bytes[..ROUNDS_ANSWER_BYTES];
            length(comparer.compare_rounds(Limits::DOCUMENT, sheet, (0, 1), rounds, answer, work))
        }
    }
}

/// The answer's length, or the refusal's number.
fn length<const N: usize>((number, result): Returned<N>) -> Result<usize, u32> {
    match number {
        0 => Ok(result[N - 2]),
        refusal => Err(refusal),
    }
}

/// Nanoseconds of one call, where `calls` are made.
fn time<T>(calls: usize, mut call: impl FnMut() -> T) -> f64 {
    let before = Instant::now();
    for _ in 0..calls {
        black_box(call());
    }
    before.elapsed().as_nanos() as f64 / calls as f64
}

fn calls_in_a_turn(once: f64) -> usize {
    (TURN.as_nanos() as f64 / once.max(1.0)).clamp(1.0, 10_000.0) as usize
}

fn measure(call: Call, sheet: &[u8], slices: &mut Slices, comparer: &mut Comparer) -> Measured {
    let outcome = library(call, sheet, slices);
    let bytes = slices.answer.clone();
    assert_eq!(peer(call, sheet, slices, comparer), outcome, "{sheet:?}");
    assert!(bytes == slices.answer, "{sheet:?}");
    let library_calls = calls_in_a_turn(time(1, || library(call, sheet, slices)));
    let peer_calls = calls_in_a_turn(time(1, || peer(call, sheet, slices, comparer)));
    let mut least = Measured { library: f64::MAX, peer: f64::MAX, refused: outcome.is_err() };
    for _ in 0..TURNS {
        least.library = least.library.min(time(library_calls, || library(call, sheet, slices)));
        least.peer = least.peer.min(time(peer_calls, || peer(call, sheet, slices, comparer)));
    }
    least
}

/// The least times by the library of one call for all sixteen starts, of one for starts 0 and 1, and of
/// the 120 calls for every two.
struct Beside {
    all: f64,
    two: f64,
    every_two: f64,
}

fn every_two(sheet: &[u8], slices: &mut Slices) -> usize {
    let pairs = (0..16).flat_map(|left| (left + 1..16).map(move |right| (left, right)));
    pairs.filter(|&pair| two_starts(compare_into, ANSWER_BYTES, sheet, pair, slices).is_ok()).count()
}

/// Of a sheet that is not refused, so that every two of its starts have a report.
fn beside(sheet: &[u8], slices: &mut Slices) -> Beside {
    assert_eq!(every_two(sheet, slices), 120, "{sheet:?}");
    let all_calls = calls_in_a_turn(time(1, || all_starts(sheet, slices)));
    let two_calls = calls_in_a_turn(time(1, || library(DOCUMENT, sheet, slices)));
    let mut least = Beside { all: f64::MAX, two: f64::MAX, every_two: f64::MAX };
    for _ in 0..TURNS {
        least.all = least.all.min(time(all_calls, || all_starts(sheet, slices)));
        least.two = least.two.min(time(two_calls, || library(DOCUMENT, sheet, slices)));
        least.every_two = least.every_two.min(time(1, || every_two(sheet, slices)));
    }
    least
}

fn beside_row(name: &str, measured: &[Beside]) -> String {
    let all = |of: fn(&Beside) -> f64| median(measured.iter().map(of).collect());
    format!(
        "| {name} | {} | {} | {} | {} | {:.2} | {:.2} | {:.3} |\n",
        measured.len(),
        micros(all(|m| m.all)),
        micros(all(|m| m.two)),
        micros(all(|m| m.every_two)),
        all(|m| m.all / m.two),
        all(|m| m.all / (m.every_two / 120.0)),
        all(|m| m.all / m.every_two),
    )
}

/// The least times by the library of the whole comparison and of those after so many rounds.
struct Bounded {
    whole: f64,
    after: [f64; ROUNDS.len()],
}

fn bounded(sheet: &[u8], slices: &mut Slices) -> Bounded {
    let calls = [DOCUMENT].into_iter().chain(ROUNDS.map(|rounds| Call::After { rounds }));
    let mut least: Vec<(Call, usize, f64)> =
        calls.map(|call| (call, calls_in_a_turn(time(1, || library(call, sheet, slices))), f64::MAX)).collect();
    for _ in 0..TURNS {
        for (call, calls, least) in &mut least {
            *least = least.min(time(*calls, || library(*call, sheet, slices)));
        }
    }
    Bounded { whole: least[0].2, after: std::array::from_fn(|i| least[i + 1].2) }
}

fn bounded_row(name: &str, measured: &[Bounded]) -> String {
    let middle = |of: &dyn Fn(&Bounded) -> f64| median(measured.iter().map(of).collect());
    let times = (0..ROUNDS.len()).map(|i| micros(middle(&|m| m.after[i])));
    let parts = (0..ROUNDS.len()).map(|i| format!("{:.2}", middle(&|m| m.after[i] / m.whole)));
    let cells: Vec<String> = times.chain(parts).collect();
    format!("| {name} | {} | {} | {} |\n", measured.len(), micros(middle(&|m| m.whole)), cells.join(" | "))
}

/// The rows of a class's sheets that are not refused and, where it has few, of each of them.
fn rows<T>(
    class: &Class,
    slices: &mut Slices,
    measure: fn(&[u8], &mut Slices) -> T,
    row: fn(&str, &[T]) -> String,
) -> String {
    let sheets = class.sheets.iter().filter(|(_, sheet)| library(class.call, sheet, slices).is_ok());
    let sheets: Vec<&(String, Vec<u8>)> = sheets.collect();
    let measured: Vec<T> = sheets.iter().map(|(_, sheet)| measure(sheet, slices)).collect();
    if measured.is_empty() {
        return String::new();
    }
    let mut rows = row(&class.name, &measured);
    if class.by_sheet() {
        for ((name, _), m) in sheets.iter().zip(&measured) {
            rows += &row(name, std::slice::from_ref(m));
        }
    }
    rows
}

fn median(mut numbers: Vec<f64>) -> f64 {
    numbers.sort_by(f64::total_cmp);
    let middle = numbers.len() / 2;
    if numbers.len() % 2 == 1 {
        numbers[middle]
    } else {
        (numbers[middle - 1] + numbers[middle]) / 2.0
    }
}

/// A time in microseconds.
fn micros(nanos: f64) -> String {
    match nanos / 1_000.0 {
        few if few < 100.0 => format!("{few:.1}"),
        many => format!("{many:.0}"),
    }
}

fn drawn(name: &str, count: usize, seed: u64, shape: &Shape, make: fn(&Shape, &mut Rng) -> Draft) -> Class {
    let mut rng = Rng::new(seed);
    let sheets = (0..count).map(|i| (format!("{name} {i}"), make(shape, &mut rng).bytes())).collect();
    Class { name: name.to_string(), call: DOCUMENT, sheets }
}

fn found(folder: &Path) -> Class {
    let entries = std::fs::read_dir(folder).unwrap_or_else(|error| panic!("{}: {error}", folder.display()));
    let mut files: Vec<PathBuf> = entries.map(|entry| entry.unwrap().path()).collect();
    files.retain(|file| file.extension().is_some_and(|ending| ending == "sheet"));
    files.sort();
    let name = |file: &Path| file.file_stem().unwrap().to_string_lossy().into_owned();
    let sheets = files.iter().map(|file| (name(file), std::fs::read(file).unwrap())).collect();
    Class { name: name(folder), call: DOCUMENT, sheets }
}

/// So many threads in a chain of so many asks, against the same with one thread an ask further: a round for
/// each ask of each thread.
fn deep() -> Class {
    let sheets = [(1, 63), (2, 30), (3, 12), (4, 8), (8, 4)].map(|(threads, asks)| {
        let mut draft = Draft { nodes: vec![(STOP, 0, 0)], ..Draft::default() };
        let first = draft.chain(asks, 0, 0);
        let further = [vec![first; threads - 1], vec![first - 1]].concat();
        draft.starts = vec![(0, vec![first; threads]), (0, further)];
        let plural = if threads == 1 { "" } else { "s" };
        (format!("{threads} thread{plural}, {asks} asks"), draft.bytes())
    });
    Class { name: "deep chains".to_string(), call: DOCUMENT, sheets: sheets.to_vec() }
}

fn shape(name: &str) -> &'static Shape {
    SHAPES.iter().find(|shape| shape.name == name).expect("a shape of this name")
}

/// The rows of every class, library beside reference, and then those of single sheets.
fn print_ratios<'a>(classes: impl Iterator<Item = &'a Class>, slices: &mut Slices) {
    let mut comparer = Comparer::new();
    let mut single = String::new();
    println!("Times in microseconds; ratio is library / reference.\n");
    println!("| Sheets | Count | Refused | Ratio, median | Library, median | Reference, median | Library, worst | Reference, worst |");
    println!("|---|---|---|---|---|---|---|---|");
    for class in classes {
        let measured: Vec<Measured> =
            class.sheets.iter().map(|(_, sheet)| measure(class.call, sheet, slices, &mut comparer)).collect();
        if measured.is_empty() {
            continue;
        }
        let all = |of: fn(&Measured) -> f64| measured.iter().map(of).collect::<Vec<f64>>();
        let most = |of: fn(&Measured) -> f64| all(of).into_iter().fold(0.0, f64::max);
        println!(
            "| {} | {} | {} | {:.2} | {} | {} | {} | {} |",
            class.name,
            measured.len(),
            measured.iter().filter(|measured| measured.refused).count(),
            median(all(|m| m.library / m.peer)),
            micros(median(all(|m| m.library))),
            micros(median(all(|m| m.peer))),
            micros(most(|m| m.library)),
            micros(most(|m| m.peer)),
        );
        // After so many rounds single sheets have a table of their own.
        if class.by_sheet() && !matches!(class.call, Call::After { .. }) {
            for ((name, _), m) in class.sheets.iter().zip(&measured) {
                let (library, peer) = (micros(m.library), micros(m.peer));
                single +=
                    &format!("| {} {} | {:.2} | {} | {} |\n", class.name, name, m.library / m.peer, library, peer);
            }
        }
    }
    println!("\n| Sheet | Ratio | Library | Reference |\n|---|---|---|---|\n{single}");
}

fn main() {
    let here = Path::new(env!("CARGO_MANIFEST_DIR"));
    let samples = [found(&here.join("../samples"))];
    let random = [
        drawn("small random", 400, 1, shape("small"), draw),
        drawn("medium random", 200, 2, shape("medium"), draw),
        drawn("large random", 100, 3, shape("large"), draw),
        drawn("alike pairs", 200, 4, shape("medium"), alike_pair),
        drawn("medium with standing facts", 200, 9, shape("medium"), |shape, rng| with_standing(draw(shape, rng), rng)),
    ];
    let mut heavy = vec![found(&here.join("benches/worst")), deep()];
    let words = std::env::args().skip(1).filter(|word| !word.starts_with('-'));
    heavy.extend(words.map(|word| found(Path::new(&word))));
    let desk: Vec<Class> = random.iter().map(Class::desk).collect();
    let sixteen = |name: &str| shape(name).with_starts(16, 16);
    let together = [
        drawn("small random", 200, 5, &sixteen("small"), draw),
        drawn("medium random", 100, 6, &sixteen("medium"), draw),
        drawn("large random", 100, 7, &sixteen("large"), draw),
        drawn("medium variants", 100, 8, &sixteen("medium"), variants),
        found(&here.join("benches/sixteen")),
    ]
    .map(Class::all_starts);
    let after: Vec<Class> = heavy.iter().flat_map(|class| ROUNDS.map(|rounds| class.after(rounds))).collect();

    let mut slices = Slices { answer: vec![0; ANSWER_BYTES], work: vec![0; WORK_NUMBERS] };
    let classes = [&samples[..], &random, &heavy, &desk, &together, &after];
    print_ratios(classes.into_iter().flatten(), &mut slices);
    println!("Sixteen starts by the library, sheets that are not refused; medians.\n");
    println!("| Sheets | Count | All starts | Starts 0 and 1 | Every two, 120 calls | All / starts 0 and 1 | All / mean of two | All / every two |");
    println!("|---|---|---|---|---|---|---|---|");
    for class in &together {
        print!("{}", rows(class, &mut slices, beside, beside_row));
    }
    println!("\nAfter so many rounds by the library, beside the whole call, sheets that are not refused; medians.\n");
    println!("| Sheets | Count | Whole | 0 rounds | 1 round | 2 rounds | 8 rounds | 0 / whole | 1 / whole | 2 / whole | 8 / whole |");
    println!("|---|---|---|---|---|---|---|---|---|---|---|");
    for class in &heavy {
        print!("{}", rows(class, &mut slices, bounded, bounded_row));
    }
}
