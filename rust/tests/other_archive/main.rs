//! The crate on an archive of another version: nothing that it says makes the crate panic, and a number that is not
//! known is named by the error.
//!
//! The archive is that of `archive.c`, whose calls say what the environment says. `rust/run` builds it and runs these
//! tests with it. With the library itself they are left out.

use hofadiju::{
    check, compare, compare_all, compare_all_into, compare_desk, compare_desk_into, compare_into, compare_rounds,
    compare_rounds_desk, compare_rounds_desk_into, compare_rounds_into, library_version, notation, BuildError, Error,
    Node, Reason, Refusal, RoundsVerdict, Sheet, SheetBuilder, Verdict, ALL_ANSWER_BYTES, ANSWER_BYTES,
    DESK_ANSWER_BYTES, DESK_ROUNDS_ANSWER_BYTES, ROUNDS_ANSWER_BYTES, VERSION, WORK_NUMBERS,
};
use sheets::{damage, draw, Rng, SHAPES};
use std::env::set_var;
use std::fmt::Debug;

/// From now on a call of the library returns this number, gives this result and writes these bytes.
fn says(number: u32, result: &[usize], bytes: &[u8]) {
    let result: String = result.iter().map(|number| format!(" {number}")).collect();
    set_var("HOFADIJU_SAYS", format!("{number}{result}"));
    set_var("HOFADIJU_SAYS_BYTES", bytes.iter().map(|byte| format!("{byte:02x}")).collect::<String>());
}

/// One node, a stop, and two starts without threads.
const SHEET: [u8; 15] = [0, 0, 1, 0, 0, 0, 0, 0, 2, 0, 0, 0, 0, 0, 0];

const TEXT: &str = "node n0 = stop\nstart s0 at nothing\nstart s1 at nothing\n";

/// Two members without threads, at stores 0 and 1, in classes 0 and 1.
const MEMBERS: [u8; 12] = [2, 0, 0, 0, 0, 0, 0, 1, 0, 0, 1, 0];

/// One step: the left side moves with label 1 to member 1, and there is no reply.
const STEPS: [u8; 9] = [1, 0, 0, 1, 0, 1, 0, 255, 255];

/// The sheet of `SHEET`, not built yet.
fn builder() -> SheetBuilder {
    let mut builder = SheetBuilder::new();
    builder.node("n0", Node::Stop).unwrap();
    builder.start("s0", 0, &[]).unwrap();
    builder.start("s1", 0, &[]).unwrap();
    builder
}

/// What each call that reads a sheet gives in the place of an answer.
struct Errors {
    /// `compare` and the three like it.
    two: Vec<Option<Error>>,
    /// `compare_all` and `compare_all_into`.
    all: Vec<Option<Error>>,
    /// `compare_rounds` and the three like it.
    rounds: Vec<Option<Error>>,
    /// Those that read a sheet and compare nothing, by the same function of the library as `compare`.
    reading: Vec<Option<Error>>,
}

impl Errors {
    fn all_calls(&self) -> Vec<Option<Error>> {
        [&self.two[..], &self.all, &self.rounds, &self.reading].concat()
    }
}

/// Every call on this sheet, with slices that suffice.
fn errors(sheet: &[u8]) -> Errors {
    let mut answer = vec![0; ANSWER_BYTES];
    let mut work = vec![0; WORK_NUMBERS];
    Errors {
        two: vec![
            compare(sheet, 0, 1).err(),
            compare_desk(sheet, 0, 1).err(),
            compare_into(sheet, 0, 1, &mut answer, &mut work).err(),
            compare_desk_into(sheet, 0, 1, &mut answer, &mut work).err(),
        ],
        all: vec![compare_all(sheet).err(), compare_all_into(sheet, &mut answer, &mut work).err()],
        rounds: vec![
            compare_rounds(sheet, 0, 1, 2).err(),
            compare_rounds_desk(sheet, 0, 1, 2).err(),
            compare_rounds_into(sheet, 0, 1, 2, &mut answer, &mut work).err(),
            compare_rounds_desk_into(sheet, 0, 1, 2, &mut answer, &mut work).err(),
        ],
        reading: vec![
            check(sheet).err(),
            Sheet::from_bytes(sheet).err(),
            builder().build().err().map(|error| match error {
                BuildError::Unread(error) => error,
                error => panic!("{error}"),
            }),
            notation::read(TEXT).err().map(|problem| problem.error.expect("what the library says")),
        ],
    }
}

/// All texts of a result.
fn texts<T: Debug>(result: Result<T, impl std::error::Error>) -> String {
    match result {
        Ok(value) => format!("{value:?}"),
        Err(error) => format!("{error:?} {error} {:?}", error.source().map(ToString::to_string)),
    }
}

/// All that the crate's calls say of these bytes and this text, with answer slices of any length. Nothing panics.
fn every_text(sheet: &[u8], text: &str, rng: &mut Rng) -> String {
    let (left, right, rounds) = (rng.below(3), rng.below(3), rng.number());
    let mut said = format!("{}\n", library_version());
    let mut say = |text: String| said += &(text + "\n");
    say(texts(compare(sheet, left, right).inspect(|report| drop(report.to_string()))));
    say(texts(compare_desk(sheet, left, right).inspect(|report| drop(report.to_string()))));
    say(texts(compare_all(sheet).inspect(|grouping| drop(grouping.to_string()))));
    say(texts(compare_rounds(sheet, left, right, rounds).inspect(|partition| drop(partition.to_string()))));
    say(texts(compare_rounds_desk(sheet, left, right, rounds).inspect(|partition| drop(partition.to_string()))));
    let mut answer = vec![0; rng.pick(&[0, 1, 5, 21, 22, 64, ANSWER_BYTES])];
    let mut work = vec![0; rng.pick(&[0, 1, WORK_NUMBERS])];
    for call in [compare_into, compare_desk_into] {
        let outcome = call(sheet, left, right, &mut answer, &mut work);
        say(format!("{:?}", outcome.as_ref().map(|outcome| outcome.report(&answer))));
        say(texts(outcome));
    }
    for call in [compare_rounds_into, compare_rounds_desk_into] {
        let outcome = call(sheet, left, right, rounds, &mut answer, &mut work);
        say(format!("{:?}", outcome.as_ref().map(|outcome| outcome.partition(&answer))));
        say(texts(outcome));
    }
    let outcome = compare_all_into(sheet, &mut answer, &mut work);
    say(format!("{:?}", outcome.as_ref().map(|outcome| outcome.grouping(&answer))));
    say(texts(outcome));
    say(texts(check(sheet)));
    let (read, built) = (Sheet::from_bytes(sheet), builder().build());
    for sheet in [read.as_ref().ok(), built.as_ref().ok()].into_iter().flatten() {
        let text = sheet.to_string();
        say(texts(notation::read(&text)));
        say(format!("{text} {:?} {} {}", sheet.to_bytes(), sheet.set_text(u16::MAX), sheet.node_text(usize::MAX)));
    }
    say(texts(read));
    say(texts(built));
    say(texts(notation::read(text)));
    say(texts(text.parse::<Sheet>()));
    said
}

/// Stops where the crate is linked with the library itself.
fn stand_in() {
    set_var("HOFADIJU_SAYS_VERSION", "7");
    assert_eq!(library_version(), 7, "these tests are for the archive of archive.c; rust/run passes them");
}

#[test]
#[ignore = "for another archive; rust/run passes it"]
fn another_archive() {
    stand_in();
    refusals();
    verdicts();
    two_starts();
    all_starts();
    after_rounds();
    kinds();
    versions();
    anything();
}

fn refusals() {
    // 6 is an older archive's; 16, 25 and 99 might be a newer one's.
    for number in [6, 16, 25, 99, u32::MAX] {
        for place in [0, 3, 41, usize::MAX] {
            says(number, &[place; 6], &[]);
            let error = Error::UnknownRefusal { number, place };
            assert!(errors(&SHEET).all_calls().iter().all(|own| *own == Some(error)), "{number} {place}");
            assert_eq!((error.refusal(), error.line()), (None, Some(format!("REFUSED {number} {place}"))));
            assert!(error.to_string().contains(&format!("refuses with {number} at place {place},")), "{error}");
        }
    }
    // One that is known, at a place that no library gives.
    says(5, &[usize::MAX; 6], &[]);
    let error = Refusal::new(Reason::AbsentFact, usize::MAX).into();
    assert!(errors(&SHEET).all_calls().iter().all(|own| *own == Some(error)));
    // A sheet has been read where the work slice is too short. Otherwise that is a refusal as any other.
    says(23, &[0; 6], &[]);
    let Errors { two, all, rounds, reading } = errors(&SHEET);
    let error = Refusal::new(Reason::WorkShort, 0).into();
    assert!([two, all, rounds].concat().iter().all(|own| *own == Some(error)));
    assert_eq!(reading, [None; 4]);
    // A problem with the text has the refusal and the field of the place.
    says(99, &[5; 6], &[]);
    let problem = notation::read(TEXT).unwrap_err();
    assert_eq!((problem.line, problem.column), (1, 6));
    assert!(problem.to_string().contains("REFUSED 99 5: byte 5 of the sheet, the first field of node 0"), "{problem}");
}

fn verdicts() {
    let bytes = [&MEMBERS[..], &[0, 0]].concat();
    for number in [2, 3, 7, usize::MAX] {
        says(0, &[number, 0, 0, 1, 14, 0], &bytes);
        let Errors { two, rounds, reading, .. } = errors(&SHEET);
        let error = Error::UnknownVerdict { number };
        assert!([two, reading].concat().iter().all(|own| *own == Some(error)), "{number}");
        assert!(rounds.iter().all(|own| (number == 2) != (*own == Some(error))), "{number}: {rounds:?}");
        assert!(error.to_string().contains(&format!("verdict {number},")), "{error}");
        assert_eq!((error.refusal(), error.line()), (None, None));
    }
}

/// `compare` and `compare_desk` give this.
fn both_reports(result: [usize; 6], bytes: &[u8], wrong: bool) {
    says(0, &result, bytes);
    let expected = wrong.then_some(Error::UnknownAnswer { length: result[4] });
    assert_eq!(compare(&SHEET, 0, 1).err(), expected, "{result:?} {bytes:?}");
    assert_eq!(compare_desk(&SHEET, 0, 1).err(), expected, "{result:?} {bytes:?}");
}

fn two_starts() {
    let bytes = [&MEMBERS[..], &STEPS].concat();
    let length = bytes.len();
    both_reports([1, 1, 0, 1, length, 0], &bytes, false);
    let report = compare(&SHEET, 0, 1).unwrap();
    assert_eq!((report.verdict, report.round, report.left, report.right), (Verdict::Diff, 1, 0, 1));
    assert_eq!(report.to_string(), "DIFF 1\nCONFIGURATIONS 2\n0 0 0 -\n1 1 1 -\nTRAIL 1\nL 1 1 -\n");
    // Cut, too long, and longer than the slice.
    for cut in 0..length {
        both_reports([1, 1, 0, 1, cut, 0], &bytes[..cut], true);
    }
    both_reports([1, 1, 0, 1, length + 1, 0], &bytes, true);
    for length in [ANSWER_BYTES + 1, usize::MAX] {
        both_reports([1, 1, 0, 1, length, 0], &bytes, true);
    }
    says(0, &[1, 1, 0, 1, DESK_ANSWER_BYTES + 1, 0], &bytes);
    assert_eq!(compare_desk(&SHEET, 0, 1), Err(Error::UnknownAnswer { length: DESK_ANSWER_BYTES + 1 }));
    // Positions of the starts.
    for (left, right) in [(2, 1), (0, 2), (usize::MAX, 1), (0, usize::MAX)] {
        both_reports([1, 1, left, right, length, 0], &bytes, true);
    }
    // A member count, a thread count and a step count that are too high; a side, a target and replies.
    for (at, value) in [(0, 3), (1, 1), (4, 200), (12, 2), (13, 255), (14, 2), (17, 2), (18, 1), (20, 254)] {
        let mut bytes = bytes.clone();
        bytes[at] = value;
        both_reports([1, 1, 0, 1, length, 0], &bytes, true);
    }
    let mut reply = bytes.clone();
    reply[19..].copy_from_slice(&[1, 0]);
    both_reports([1, 1, 0, 1, length, 0], &reply, false);
    reply[19..].copy_from_slice(&[2, 0]);
    both_reports([1, 1, 0, 1, length, 0], &reply, true);
}

fn all_starts() {
    // A class for each start, of which there are 2 to 16.
    for starts in 0..20 {
        let bytes = [&MEMBERS[..], &vec![0; 2 * starts]].concat();
        says(0, &[0, bytes.len(), 0], &bytes);
        let expected = Error::UnknownAnswer { length: bytes.len() };
        assert_eq!(compare_all(&SHEET).err(), (!(2..=16).contains(&starts)).then_some(expected), "{starts}");
    }
    let bytes = [&MEMBERS[..], &[0, 0, 1, 0]].concat();
    for length in [0, 1, 11, 12, 15, 17, ALL_ANSWER_BYTES + 1, usize::MAX] {
        says(0, &[0, length, 0], &bytes);
        assert_eq!(compare_all(&SHEET), Err(Error::UnknownAnswer { length }));
    }
}

fn after_rounds() {
    // The verdict, the number of classes and of members, and the length.
    let given = |result: [usize; 4], bytes: &[u8]| {
        says(0, &result, bytes);
        let own = compare_rounds(&SHEET, 0, 1, 5);
        assert_eq!(own, compare_rounds_desk(&SHEET, 0, 1, 5));
        own
    };
    let partition = given([2, 1, 2, 12], &MEMBERS).unwrap();
    assert_eq!((partition.verdict, partition.classes), (RoundsVerdict::Open, 1));
    assert_eq!(given([7, 1, 2, 12], &MEMBERS), Err(Error::UnknownVerdict { number: 7 }));
    for members in [0, 1, 3, usize::MAX] {
        assert_eq!(given([2, 1, members, 12], &MEMBERS), Err(Error::UnknownAnswer { length: 12 }));
    }
    for length in [0, 1, 2, 11, 13, ROUNDS_ANSWER_BYTES + 1, usize::MAX] {
        assert_eq!(given([2, 1, 2, length], &MEMBERS), Err(Error::UnknownAnswer { length }));
    }
    says(0, &[2, 1, 2, DESK_ROUNDS_ANSWER_BYTES + 1], &MEMBERS);
    let error = Error::UnknownAnswer { length: DESK_ROUNDS_ANSWER_BYTES + 1 };
    assert_eq!(compare_rounds_desk(&SHEET, 0, 1, 5), Err(error));
    assert!(error.to_string().contains(" 835 bytes "), "{error}");
}

fn kinds() {
    // An archive that reads this has a fifth kind of node.
    for number in [5, 6, 255] {
        let mut sheet = SHEET;
        sheet[3] = number as u8;
        for says_of_it in [0, 23] {
            says(says_of_it, &[0; 6], &[]);
            assert_eq!(check(&sheet), Ok(()));
            let error = Sheet::from_bytes(&sheet).unwrap_err();
            assert_eq!(error, Error::UnknownKind { number, place: 3 });
            assert!(error.to_string().contains(&format!("kind {number} at byte 3,")), "{error}");
            assert_eq!((error.refusal(), error.line()), (None, None));
        }
    }
    // One that reads bytes of which these are only a part, or that reads more than four sections.
    says(23, &[0; 6], &[]);
    for length in 0..SHEET.len() {
        assert_eq!(Sheet::from_bytes(&SHEET[..length]), Err(Error::UnknownAnswer { length }));
    }
    let length = SHEET.len() + 1;
    assert_eq!(Sheet::from_bytes(&[&SHEET[..], &[0]].concat()), Err(Error::UnknownAnswer { length }));
    assert_eq!(Sheet::from_bytes(&SHEET).unwrap().to_bytes(), SHEET);
    // One that gives a meaning to the fields of a stop and to the second field of a tell.
    for (kind, fields) in [(0, 4..8), (1, 6..8)] {
        for at in fields {
            let mut sheet = SHEET;
            (sheet[3], sheet[at]) = (kind, 1);
            assert_eq!(Sheet::from_bytes(&sheet), Err(Error::UnknownAnswer { length: sheet.len() }));
        }
    }
}

fn versions() {
    for version in [0, 100, 201, 300, u32::MAX] {
        set_var("HOFADIJU_SAYS_VERSION", version.to_string());
        assert_eq!(library_version(), version);
        let errors = [
            Error::UnknownRefusal { number: 25, place: 0 },
            Error::UnknownVerdict { number: 2 },
            Error::UnknownKind { number: 5, place: 3 },
            Error::UnknownAnswer { length: 9 },
        ];
        for error in errors {
            let version = format!("(its version is {version}, and {VERSION} was expected)");
            assert!(error.to_string().ends_with(&version), "{error}");
        }
    }
}

/// A result and bytes that one of the three kinds of calls might give, or nearly so.
fn nearly_right(rng: &mut Rng) -> (Vec<usize>, Vec<u8>) {
    let (kind, mut bytes) = (rng.below(3), MEMBERS.to_vec());
    bytes.extend(match kind {
        0 => &STEPS[..],
        1 => &[0, 0, 1, 0],
        _ => &[],
    });
    let mut result = match kind {
        0 => vec![1, 1, 0, 1, bytes.len(), 0],
        1 => vec![1, bytes.len(), 0],
        _ => vec![2, 1, 2, bytes.len(), 0],
    };
    if rng.percent(30) {
        let at = rng.below(result.len());
        result[at] = rng.pick(&[0, 1, 2, 3, 11, 13, 255, 65_535, usize::MAX]);
    }
    if rng.percent(40) {
        damage(&mut bytes, rng);
    }
    (result, bytes)
}

fn anything() {
    let mut rng = Rng::new(900);
    let texts = [
        TEXT.to_string(),
        TEXT.trim_end().to_string(),
        format!("{TEXT}# {}{}", "x".repeat(150), "\r".repeat(150)),
        format!("{}{TEXT}", "fact f\r\n".repeat(2)),
        TEXT.replace('\n', " "),
        "start".to_string(),
    ];
    let [mut refused, mut unknown, mut reports, mut groupings, mut partitions] = [0; 5];
    for i in 0..20_000 {
        let mut sheet = draw(&SHAPES[i % SHAPES.len()], &mut rng).bytes();
        if rng.percent(50) {
            damage(&mut sheet, &mut rng);
        }
        let number = if rng.percent(60) { 0 } else { rng.below(30) as u32 };
        let (mut result, mut bytes) = nearly_right(&mut rng);
        if rng.percent(20) {
            let high = rng.pick(&[2, 3, 256]);
            result = (0..6).map(|_| rng.below(24)).collect();
            bytes = (0..rng.below(40)).map(|_| rng.below(high) as u8).collect();
        }
        says(number, &result, &bytes);
        let text = &texts[rng.below(texts.len())];
        let said = every_text(&sheet, text, &mut rng);
        let seen = |word: &str| usize::from(said.contains(word));
        refused += seen("Refused(");
        unknown += seen("Unknown");
        reports += seen("Report {");
        groupings += seen("Grouping {");
        partitions += seen("Partition {");
    }
    let counts = [refused, unknown, reports, groupings, partitions];
    println!("{counts:?} of 20,000 with a refusal, something unknown, a report, a grouping, a partition");
    assert!(counts.iter().all(|&count| count > 1_000), "{counts:?}");
}
