//! The crate's own functions: values, texts, and document 01's known sheets.

use hofadiju::{
    compare, compare_all, compare_all_into, compare_desk, compare_desk_into, compare_into, compare_rounds,
    compare_rounds_desk, compare_rounds_desk_into, compare_rounds_into, library_version, AllOutcome, Error, Outcome,
    Partition, Reason, Refusal, Report, RoundsOutcome, RoundsVerdict, Side, Verdict, ALL_ANSWER_BYTES, ANSWER_BYTES,
    DESK_ANSWER_BYTES, DESK_ROUNDS_ANSWER_BYTES, LONGEST_SHEET, ROUNDS_ANSWER_BYTES, VERSION, WORK_NUMBERS,
};
use sheets::{alike_pair, variants, Draft, Rng, ASK, SHAPES, STOP};
use std::path::Path;

/// Sheet K of document 01 with these two starts.
fn sheet_k(left: (u16, &[u8]), right: (u16, &[u8])) -> Vec<u8> {
    sheets::sheet_k(&[left, right]).bytes()
}

fn report_k(left: (u16, &[u8]), right: (u16, &[u8])) -> Report {
    compare(&sheet_k(left, right), 0, 1).expect("sheet K is not refused")
}

#[test]
fn known_sheets() {
    let report = report_k((0, &[2]), (0, &[4]));
    assert_eq!((report.verdict, report.round), (Verdict::Same, 1));
    assert_eq!((report.left, report.right), (0, 1));
    assert_eq!(
        report.to_string(),
        "SAME 1\nCONFIGURATIONS 6\n0 0 0 2\n1 0 0 4\n2 1 1 -\n3 1 2 1\n4 3 3 -\n5 3 4 1\nTRAIL 0\n"
    );

    let report = report_k((0, &[2]), (0, &[3]));
    assert_eq!((report.verdict, report.round), (Verdict::Diff, 1));

    let report = report_k((0, &[2]), (0, &[7]));
    assert_eq!((report.verdict, report.round, report.steps.len()), (Verdict::Diff, 2, 1));
    let step = report.steps[0];
    assert_eq!((step.side, step.label, step.reply), (Side::Right, 3, None));

    let report = report_k((0, &[1]), (1, &[1]));
    assert_eq!((report.verdict, report.round, report.steps.len()), (Verdict::Diff, 0, 0));

    let report = report_k((0, &[]), (0, &[]));
    assert_eq!((report.verdict, report.round), (Verdict::Same, 0));
    assert_eq!(report.to_string(), "SAME 0\nCONFIGURATIONS 1\n0 0 0 -\nTRAIL 0\n");

    let report = report_k((0, &[8]), (0, &[1]));
    assert_eq!((report.verdict, report.round), (Verdict::Diff, 2));
    assert_eq!(report.steps.iter().map(|step| step.side).collect::<Vec<_>>(), [Side::Left, Side::Left]);
}

#[test]
fn an_ask_with_two_labels() {
    // Sheet L: three facts, one rule, 3 gives 4; ask 4 at store 1 has labels 2 and 4.
    let nodes = vec![(STOP, 0, 0), (ASK, 4, 0)];
    let draft = Draft { facts: 3, rules: vec![(3, 4)], nodes, starts: vec![(1, vec![1]), (1, vec![])] };
    let report = compare(&draft.bytes(), 0, 1).unwrap();
    let stores: Vec<u16> = report.members.iter().map(|member| member.store).collect();
    assert_eq!(stores, [1, 1, 5, 7]);
}

#[test]
fn samples() {
    let folder = Path::new(env!("CARGO_MANIFEST_DIR")).join("../samples");
    let mut held = 0;
    for entry in std::fs::read_dir(folder).unwrap() {
        let path = entry.unwrap().path();
        if path.extension().is_none_or(|ending| ending != "sheet") {
            continue;
        }
        let sheet = std::fs::read(&path).unwrap();
        // The samples are small enough for the desk, or too large for both.
        let outcome = compare(&sheet, 0, 1);
        assert_eq!(outcome, compare_desk(&sheet, 0, 1));
        let printed = match outcome {
            Ok(report) => report.to_string(),
            Err(error) => error.line().unwrap() + "\n",
        };
        let expected = std::fs::read_to_string(path.with_extension("report")).unwrap();
        assert_eq!(printed, expected, "{}", path.display());
        // The samples have two starts, or are refused.
        match (compare_all(&sheet), compare(&sheet, 0, 1)) {
            (Ok(grouping), Ok(report)) => {
                let groups = if report.verdict == Verdict::Same { vec![vec![0, 1]] } else { vec![vec![0], vec![1]] };
                assert_eq!((grouping.groups(), grouping.members), (groups, report.members), "{}", path.display());
            }
            (all, two) => assert_eq!(all.err(), two.err(), "{}", path.display()),
        }
        // After enough rounds, and at the desk too, the verdict and the members are the report's.
        let partition = compare_rounds(&sheet, 0, 1, 100);
        assert_eq!(partition, compare_rounds_desk(&sheet, 0, 1, 100), "{}", path.display());
        match (partition, compare(&sheet, 0, 1)) {
            (Ok(Partition { verdict, members, .. }), Ok(report)) => {
                assert_eq!((verdict.settled(), members), (Some(report.verdict), report.members), "{}", path.display());
            }
            (after, end) => assert_eq!(after.err(), end.err(), "{}", path.display()),
        }
        held += 1;
    }
    assert!(held >= 4);
}

#[test]
fn reasons_have_numbers_and_texts() {
    for number in 0..100 {
        let reason = Reason::from_number(number);
        assert_eq!(reason.is_some(), matches!(number, 1..=5 | 7..=15 | 21..=23));
        let Some(reason) = reason else { continue };
        let refusal = Refusal::new(reason, 1);
        assert_eq!(refusal.number(), number);
        assert_eq!(refusal.line(), format!("REFUSED {number} 1"));
        assert!(refusal.to_string().len() > 20);
        let error = Error::from(refusal);
        assert_eq!((error.refusal(), error.line()), (Some(refusal), Some(refusal.line())));
        assert_eq!(error.to_string(), refusal.to_string());
    }
    let texts: std::collections::HashSet<String> =
        Reason::ALL.iter().map(|&reason| Refusal::new(reason, 0).to_string()).collect();
    assert_eq!(texts.len(), Reason::ALL.len());
    let error = compare(&[], 0, 0).unwrap_err();
    let refusal = error.refusal().unwrap();
    assert_eq!((refusal.reason, refusal.place), (Reason::CutOff, 0));
    let errors: [Box<dyn std::error::Error>; 2] = [Box::new(error), Box::new(refusal)];
    assert!(errors.iter().all(|error| error.to_string().contains("only 0 bytes")));
}

type Compare = fn(&[u8], usize, usize) -> Result<Report, Error>;
type CompareInto = fn(&[u8], usize, usize, &mut [u8], &mut [u32]) -> Result<Outcome, Error>;

#[test]
fn the_two_functions_agree() {
    functions_agree(compare, compare_into, ANSWER_BYTES);
    functions_agree(compare_desk, compare_desk_into, DESK_ANSWER_BYTES);
}

fn functions_agree(compare: Compare, compare_into: CompareInto, room: usize) {
    let mut rng = Rng::new(31);
    let mut answer = vec![0xEE; room];
    let mut work = vec![0xEEEE; WORK_NUMBERS];
    for i in 0..2_000 {
        let bytes = alike_pair(&SHAPES[i % SHAPES.len()], &mut rng).bytes();
        let outcome = compare_into(&bytes, 0, 1, &mut answer, &mut work);
        match (compare(&bytes, 0, 1), outcome) {
            (Ok(report), Ok(outcome)) => {
                assert_eq!(outcome.report(&answer).as_ref(), Some(&report));
                assert_eq!(outcome.report(&answer[..outcome.length - 1]), None);
                let classes = report.members[report.left].class == report.members[report.right].class;
                assert_eq!(classes, report.verdict == Verdict::Same);
                let lines = 3 + report.members.len() + report.steps.len();
                let text = report.to_string();
                assert_eq!(text.lines().count(), lines);
                assert!(text.ends_with('\n'));
            }
            (Err(error), Err(other)) => assert_eq!(error, other),
            _ => panic!("one of the two is refused: {bytes:?}"),
        }
    }
}

#[test]
fn the_two_functions_for_all_starts_agree() {
    let mut rng = Rng::new(33);
    let mut answer = vec![0xEE; ALL_ANSWER_BYTES];
    let mut work = vec![0xEEEE; WORK_NUMBERS];
    for i in 0..2_000 {
        let draft = variants(&SHAPES[i % SHAPES.len()].with_starts(2, 16), &mut rng);
        let bytes = draft.bytes();
        let outcome = compare_all_into(&bytes, &mut answer, &mut work);
        match (compare_all(&bytes), outcome) {
            (Ok(grouping), Ok(outcome)) => {
                assert_eq!(outcome.grouping(&answer).as_ref(), Some(&grouping));
                assert_eq!(outcome.grouping(&answer[..outcome.length - 1]), None);
                let length = outcome.length;
                let mut shorter = outcome;
                shorter.length -= 1;
                assert_eq!(shorter.grouping(&answer), None);
                let threads: usize = grouping.members.iter().map(|member| member.threads.len()).sum();
                assert_eq!(length, 2 + 5 * grouping.members.len() + threads + 2 * draft.starts.len());
                groups_are_the_classes(&grouping.classes, &grouping.groups());
                let lines = 1 + grouping.groups().len();
                let text = grouping.to_string();
                assert_eq!(text.lines().count(), lines);
                assert!(text.ends_with('\n'));
            }
            (Err(error), Err(other)) => assert_eq!(error, other),
            _ => panic!("one of the two is refused: {bytes:?}"),
        }
    }
}

/// Each start is in one group, with exactly the starts of its class; groups and starts ascend.
fn groups_are_the_classes(classes: &[usize], groups: &[Vec<usize>]) {
    let mut starts = groups.concat();
    starts.sort();
    assert_eq!(starts, (0..classes.len()).collect::<Vec<_>>());
    for group in groups {
        assert!(group.is_sorted());
        assert!((0..classes.len()).all(|start| group.contains(&start) == (classes[start] == classes[group[0]])));
    }
    assert!(groups.is_sorted_by_key(|group| group[0]));
}

/// What the three kinds of calls give on a sheet with one node, a stop, and two starts without threads, for tests
/// that change it.
fn some_outcomes() -> (Outcome, AllOutcome, RoundsOutcome) {
    let sheet = [0, 0, 1, 0, 0, 0, 0, 0, 2, 0, 0, 0, 0, 0, 0];
    let (mut answer, mut work) = ([0; 16], vec![0; WORK_NUMBERS]);
    let two = compare_into(&sheet, 0, 1, &mut answer, &mut work).unwrap();
    let all = compare_all_into(&sheet, &mut answer, &mut work).unwrap();
    let after = compare_rounds_into(&sheet, 0, 1, 0, &mut answer, &mut work).unwrap();
    (two, all, after)
}

#[test]
fn bytes_that_are_no_report() {
    let report = |left: usize, right: usize, bytes: &[u8]| {
        let mut outcome = some_outcomes().0;
        (outcome.left, outcome.right, outcome.length) = (left, right, bytes.len());
        outcome.report(bytes)
    };
    // Two members without threads, and no step.
    let bytes = [2, 0, 0, 0, 0, 0, 0, 1, 0, 0, 1, 0, 0, 0];
    assert_eq!(report(0, 1, &bytes).unwrap().members.len(), 2);
    for (left, right) in [(2, 1), (0, 2), (usize::MAX, 0), (0, usize::MAX)] {
        assert_eq!(report(left, right, &bytes), None);
    }
    assert_eq!(report(0, 0, &[0, 0, 0, 0]), None);
    for end in 0..bytes.len() {
        assert_eq!(report(0, 1, &bytes[..end]), None);
    }
    assert_eq!(report(0, 1, &[&bytes[..], &[0]].concat()), None);
    // One step more: its side, its label, its target and the reply.
    let step = |step: [u8; 7]| report(0, 1, &[&bytes[..12], &[1, 0], &step].concat());
    let told = step([1, 4, 1, 1, 0, 255, 255]).unwrap().steps[0];
    assert_eq!((told.side, told.label, told.target, told.reply), (Side::Right, 0x104, 1, None));
    assert_eq!(step([0, 0, 0, 0, 0, 1, 0]).unwrap().steps[0].reply, Some(1));
    for wrong in [[2, 0, 0, 0, 0, 0, 0], [0, 0, 0, 2, 0, 0, 0], [0, 0, 0, 0, 1, 0, 0], [0, 0, 0, 0, 0, 254, 255]] {
        assert_eq!(step(wrong), None);
    }
    // The length is longer than the slice.
    let mut outcome = some_outcomes().0;
    outcome.length = usize::MAX;
    assert_eq!(outcome.report(&bytes), None);
}

#[test]
fn bytes_that_are_no_grouping() {
    let grouping = |bytes: &[u8]| {
        let mut outcome = some_outcomes().1;
        outcome.length = bytes.len();
        outcome.grouping(bytes)
    };
    // No member, and the classes of 1 to 17 starts.
    for starts in 1..=17 {
        assert_eq!(grouping(&vec![0; 2 + 2 * starts]).is_some(), (2..=16).contains(&starts));
    }
    for bytes in [&[][..], &[0], &[0; 7], &[1, 0, 0, 0, 3, 0, 0]] {
        assert_eq!(grouping(bytes), None);
    }
}

type CompareRounds = fn(&[u8], usize, usize, u64) -> Result<Partition, Error>;
type CompareRoundsInto = fn(&[u8], usize, usize, u64, &mut [u8], &mut [u32]) -> Result<RoundsOutcome, Error>;

#[test]
fn the_two_functions_after_rounds_agree() {
    functions_after_rounds_agree(compare_rounds, compare_rounds_into, ROUNDS_ANSWER_BYTES);
    functions_after_rounds_agree(compare_rounds_desk, compare_rounds_desk_into, DESK_ROUNDS_ANSWER_BYTES);
}

fn functions_after_rounds_agree(compare: CompareRounds, compare_into: CompareRoundsInto, room: usize) {
    let mut rng = Rng::new(34);
    let mut answer = vec![0xEE; room];
    let mut work = vec![0xEEEE; WORK_NUMBERS];
    let mut verdicts = [0; 3];
    for i in 0..2_000 {
        let bytes = alike_pair(&SHAPES[i % SHAPES.len()], &mut rng).bytes();
        let rounds = rng.pick(&[0, 1, 2, u64::MAX]);
        let outcome = compare_into(&bytes, 0, 1, rounds, &mut answer, &mut work);
        match (compare(&bytes, 0, 1, rounds), outcome) {
            (Ok(partition), Ok(outcome)) => {
                assert_eq!(outcome.partition(&answer).as_ref(), Some(&partition));
                let RoundsOutcome { verdict, classes, members, length, .. } = outcome;
                assert_eq!(outcome.partition(&answer[..length - 1]), None);
                for (members, length) in [(members, length - 1), (members - 1, length), (members + 1, length)] {
                    let mut changed = outcome;
                    (changed.members, changed.length) = (members, length);
                    assert_eq!(changed.partition(&answer), None);
                }
                assert_eq!((verdict, classes), (partition.verdict, partition.classes));
                let threads: usize = partition.members.iter().map(|member| member.threads.len()).sum();
                assert_eq!((members, length), (partition.members.len(), 2 + 5 * members + threads));
                let text = partition.to_string();
                assert!(text.starts_with(&format!("{verdict} {classes} {members}\n")) && text.ends_with('\n'));
                assert_eq!(text.lines().count(), 1 + members);
                verdicts[verdict as usize] += 1;
            }
            (Err(error), Err(other)) => assert_eq!(error, other),
            _ => panic!("one of the two is refused: {bytes:?}"),
        }
    }
    assert!(verdicts.iter().all(|&count| count > 50), "{verdicts:?}");
}

#[test]
fn bytes_that_are_no_partition() {
    let partition = |members: usize, bytes: &[u8]| {
        let mut outcome = some_outcomes().2;
        (outcome.members, outcome.length) = (members, bytes.len());
        outcome.partition(bytes)
    };
    assert!(partition(0, &[0, 0]).is_some());
    assert!(partition(1, &[1, 0, 0, 0, 0, 0, 0]).is_some());
    // A count of steps, a byte too few, and another number of members.
    assert_eq!(partition(1, &[1, 0, 0, 0, 0, 0, 0, 0, 0]), None);
    assert_eq!(partition(1, &[1, 0, 0, 0, 0, 0]), None);
    assert_eq!(partition(2, &[1, 0, 0, 0, 0, 0, 0]), None);
    assert_eq!(partition(0, &[]), None);
}

#[test]
fn verdicts_after_rounds_have_texts() {
    let all = [RoundsVerdict::Same, RoundsVerdict::Diff, RoundsVerdict::Open];
    assert_eq!(all.map(|verdict| verdict.to_string()), ["SAME", "DIFF", "OPEN"]);
    assert_eq!(all.map(RoundsVerdict::settled), [Some(Verdict::Same), Some(Verdict::Diff), None]);
}

#[test]
fn the_desk_reports_the_same_or_is_too_large() {
    let mut rng = Rng::new(32);
    let (mut reports, mut too_large) = (0, 0);
    for i in 0..2_000 {
        let bytes = alike_pair(&SHAPES[i % SHAPES.len()], &mut rng).bytes();
        match (compare_desk(&bytes, 0, 1), compare(&bytes, 0, 1)) {
            (Err(error), Ok(_)) if error == Refusal::new(Reason::TooLarge, 0).into() => too_large += 1,
            (desk, other) => {
                assert_eq!(desk, other);
                reports += usize::from(desk.is_ok());
            }
        }
    }
    assert!(reports > 1_000 && too_large > 0);
}

#[test]
fn short_slices() {
    let bytes = sheet_k((0, &[2]), (0, &[4]));
    let mut work = vec![7; WORK_NUMBERS];
    let refusal = compare_into(&bytes, 0, 1, &mut [], &mut work).unwrap_err();
    assert_eq!(refusal, Refusal::new(Reason::AnswerShort, 38).into());
    assert!(work.iter().all(|&number| number == 0));
    let refusal = compare_into(&bytes, 0, 1, &mut [], &mut []).unwrap_err();
    assert_eq!(refusal, Refusal::new(Reason::WorkShort, 0).into());
    let refusal = compare_desk_into(&bytes, 0, 1, &mut [], &mut work).unwrap_err();
    assert_eq!(refusal, Refusal::new(Reason::AnswerShort, 38).into());
    let refusal = compare_desk_into(&bytes, 0, 1, &mut [], &mut []).unwrap_err();
    assert_eq!(refusal, Refusal::new(Reason::WorkShort, 0).into());
    let refusal = compare_all_into(&bytes, &mut [], &mut work).unwrap_err();
    assert_eq!(refusal, Refusal::new(Reason::AnswerShort, 40).into());
    let refusal = compare_all_into(&bytes, &mut [], &mut []).unwrap_err();
    assert_eq!(refusal, Refusal::new(Reason::WorkShort, 0).into());
    for compare_rounds_into in [compare_rounds_into, compare_rounds_desk_into] {
        let refusal = compare_rounds_into(&bytes, 0, 1, 0, &mut [], &mut work).unwrap_err();
        assert_eq!(refusal, Refusal::new(Reason::AnswerShort, 36).into());
        let refusal = compare_rounds_into(&bytes, 0, 1, 0, &mut [], &mut []).unwrap_err();
        assert_eq!(refusal, Refusal::new(Reason::WorkShort, 0).into());
    }
}

#[test]
fn threads_call_at_the_same_time() {
    let sheet = sheet_k((0, &[2]), (0, &[7]));
    let expected = compare(&sheet, 0, 1).unwrap();
    let grouping = compare_all(&sheet).unwrap();
    let partition = compare_rounds(&sheet, 0, 1, 1).unwrap();
    std::thread::scope(|scope| {
        for _ in 0..4 {
            scope.spawn(|| {
                for _ in 0..200 {
                    assert_eq!(compare(&sheet, 0, 1).as_ref(), Ok(&expected));
                    assert_eq!(compare_all(&sheet).as_ref(), Ok(&grouping));
                    assert_eq!(compare_rounds(&sheet, 0, 1, 1).as_ref(), Ok(&partition));
                }
            });
        }
    });
}

/// What the header gives this name: the word behind it, or behind it and an equals sign.
fn in_header(name: &str) -> u32 {
    let header = Path::new(env!("CARGO_MANIFEST_DIR")).join("../include/hofadiju.h");
    let header = std::fs::read_to_string(header).unwrap();
    let mut words = header.split_whitespace().skip_while(|&word| word != name).skip(1);
    let value = words.find(|&word| word != "=").unwrap_or_else(|| panic!("{name} is not there"));
    value.trim_end_matches(',').parse().unwrap_or_else(|_| panic!("{name} is {value}"))
}

#[test]
fn versions() {
    let number = |[major, minor, patch]: [u32; 3]| 10_000 * major + 100 * minor + patch;
    let header = ["HOFADIJU_VERSION_MAJOR", "HOFADIJU_VERSION_MINOR", "HOFADIJU_VERSION_PATCH"].map(in_header);
    let package = [env!("CARGO_PKG_VERSION_MAJOR"), env!("CARGO_PKG_VERSION_MINOR"), env!("CARGO_PKG_VERSION_PATCH")];
    assert_eq!(VERSION, library_version());
    assert_eq!(VERSION, number(header));
    assert_eq!(VERSION, number(package.map(|part| part.parse().unwrap())));
}

#[test]
fn numbers_of_the_header() {
    let numbers = [
        ("HOFADIJU_ANSWER_BYTES", ANSWER_BYTES),
        ("HOFADIJU_DESK_ANSWER_BYTES", DESK_ANSWER_BYTES),
        ("HOFADIJU_ALL_ANSWER_BYTES", ALL_ANSWER_BYTES),
        ("HOFADIJU_ROUNDS_ANSWER_BYTES", ROUNDS_ANSWER_BYTES),
        ("HOFADIJU_DESK_ROUNDS_ANSWER_BYTES", DESK_ROUNDS_ANSWER_BYTES),
        ("HOFADIJU_WORK_NUMBERS", WORK_NUMBERS),
        ("HOFADIJU_LONGEST_SHEET", LONGEST_SHEET),
    ];
    for (name, number) in numbers {
        assert_eq!(in_header(name) as usize, number, "{name}");
    }
    // TooManyFacts is HOFADIJU_TOO_MANY_FACTS there.
    for reason in Reason::ALL {
        let mut name = "HOFADIJU".to_string();
        for letter in format!("{reason:?}").chars() {
            name += if letter.is_uppercase() { "_" } else { "" };
            name.push(letter.to_ascii_uppercase());
        }
        assert_eq!(in_header(&name), reason.number(), "{name}");
    }
}
