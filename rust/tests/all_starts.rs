//! All starts of a sheet compared together: held to the reference, and to the comparison of every two of
//! them.

mod common;

use common::{CompareAll, EveryStart, Harness, ALL_ANSWER, WORK};
use hofadiju::{
    compare, compare_all, compare_into, Error, Grouping, Member, Reason, Refusal, Report, Verdict, ANSWER_BYTES,
    WORK_NUMBERS,
};
use reference::{plain, Judgement};
use sheets::{alike_pair, damage, draw, sheet_k, variants, Draft, Rng, Shape, ASK, BOTH, EITHER, SHAPES, STOP, TELL};
use std::collections::{BTreeMap, BTreeSet};
use std::path::Path;

/// A draft whose node 0 is stop, with these starts at store 0.
fn bare(starts: &[&[u8]]) -> Draft {
    Draft { nodes: vec![(STOP, 0, 0)], starts: at_store_0(starts), ..Draft::default() }
}

fn at_store_0(starts: &[&[u8]]) -> Vec<(u16, Vec<u8>)> {
    starts.iter().map(|threads| (0, threads.to_vec())).collect()
}

/// A sheet's grouping, after its call is held to the reference with slices of many lengths.
fn grouping(draft: &Draft) -> Grouping {
    let bytes = draft.bytes();
    let (number, _) = Harness::all(60).compare_with_all_lengths(&bytes, EveryStart);
    assert_eq!(number, 0, "{draft:?}");
    compare_all(&bytes).unwrap()
}

fn too_large(draft: &Draft) {
    assert_eq!(Harness::all(61).number(&draft.bytes()), (21, 0));
    assert_eq!(compare_all(&draft.bytes()), Err(Refusal::new(Reason::TooLarge, 0).into()));
}

// Known groups

#[test]
fn sheet_k_with_every_start() {
    let starts: [(u16, &[u8]); 8] =
        [(0, &[2]), (0, &[4]), (0, &[3]), (0, &[7]), (0, &[1]), (1, &[1]), (0, &[]), (0, &[8])];
    let draft = sheet_k(&starts);
    let grouping = grouping(&draft);
    assert_eq!(grouping.groups(), [vec![0, 1], vec![2], vec![3], vec![4], vec![5], vec![6], vec![7]]);
    assert_eq!(grouping.round, 2);
    // [2] and [4] alone come to rest in round 1.
    assert_eq!(compare(&draft.bytes(), 0, 1).unwrap().round, 1);
    assert_eq!(grouping.to_string(), "CLASSES 7 2\n0 1\n2\n3\n4\n5\n6\n7\n");
}

#[test]
fn equal_starts_are_one_member() {
    // The same threads in another order, as written and opened, at a store that is closed to the same.
    let ways: [(u16, &[u8]); 6] =
        [(2, &[8, 5]), (3, &[5, 8]), (2, &[1, 5, 1]), (3, &[0, 1, 5, 0, 1]), (2, &[5, 1, 1]), (3, &[8, 0, 5])];
    let sixteen: Vec<(u16, &[u8])> = ways.into_iter().cycle().take(16).collect();
    for starts in [&sixteen[..2], &sixteen[..5], &sixteen[..]] {
        let grouping = grouping(&sheet_k(starts));
        assert_eq!(grouping.groups(), [(0..starts.len()).collect::<Vec<_>>()]);
        let member = &grouping.members[2];
        assert_eq!((member.store, &member.threads[..]), (3, &[1, 1, 5][..]));
        assert_eq!(grouping.classes, vec![member.class as usize; starts.len()]);
    }
    let nothing = grouping(&bare(&[&[], &[0, 0]]));
    assert_eq!((nothing.round, nothing.members.len(), &nothing.classes[..]), (0, 1, &[0, 0][..]));
}

#[test]
fn sixteen_starts_all_apart() {
    let mut draft = bare(&[]);
    draft.chain(15, 0, 0);
    draft.starts = (0..16).map(|i| (0, vec![i * 7 % 16])).collect();
    let grouping = grouping(&draft);
    assert_eq!(grouping.groups(), (0..16).map(|start| vec![start]).collect::<Vec<_>>());
    assert_eq!((grouping.round, grouping.members.len()), (15, 16));
    // Each chain is a member of the longest one's set, and classes are numbered by first member.
    let classes: Vec<usize> = (0..16).map(|i| i * 7 % 16).collect();
    assert_eq!(grouping.classes, classes);
}

#[test]
fn unequal_stores() {
    let starts: [(u16, &[u8]); 7] = [(7, &[1]), (0, &[1]), (2, &[1]), (4, &[1]), (3, &[1]), (1, &[1]), (0, &[])];
    let grouping = grouping(&sheet_k(&starts));
    assert_eq!(grouping.groups(), [vec![0], vec![1], vec![2, 4], vec![3], vec![5], vec![6]]);
}

#[test]
fn groups_over_other_nodes() {
    let mut draft = Draft { facts: 2, ..bare(&[]) };
    let tell = draft.push(TELL, 2, 0);
    let twice = draft.push(EITHER, tell, tell);
    let ask = draft.push(ASK, 1, tell);
    let other = draft.push(ASK, 1, twice);
    let higher = draft.push(ASK, 3, tell);
    let absorbed = draft.push(EITHER, ask, higher);
    let still = draft.push(EITHER, 0, 0);
    let starts = [tell, ask, twice, absorbed, still, other, 0].map(|node| (0, vec![node as u8]));
    draft.starts = starts.to_vec();
    assert_eq!(grouping(&draft).groups(), [vec![0, 2], vec![1, 3, 5], vec![4, 6]]);
}

#[test]
fn classes_beyond_one_byte() {
    // A loop that asks for each of eight facts: a member for each store. A chain stands at the last one.
    let mut draft = Draft { facts: 8, ..Draft::default() };
    let asks: Vec<u16> = (0..8).map(|fact| draft.push(ASK, 1 << fact, 0)).collect();
    let node = asks[1..].iter().fold(asks[0], |sofar, &ask| draft.push(EITHER, sofar, ask));
    for ask in asks {
        draft.nodes[ask as usize].2 = node;
    }
    let end = draft.push(STOP, 0, 0);
    let first = draft.chain(3, 0, end);
    let twice = draft.push(EITHER, first as u16, first as u16) as u8;
    let node = node as u8;
    draft.starts = vec![(255, vec![first]), (0, vec![node]), (255, vec![twice]), (255, vec![0]), (255, vec![node])];
    let grouping = grouping(&draft);
    // At the last store: nothing, the loop, then the chain's three asks.
    assert_eq!(grouping.classes, [259, 0, 259, 256, 256]);
}

// Limits

/// Threads that wait for nothing: 495 places for eight of them on a chain of four asks that ends at node 1,
/// which cannot move; 9 for eight at node 6, which goes on to node 7, and 8 for seven of them beside node 1.
fn crowd() -> Draft {
    let mut draft = bare(&[&[5; 8], &[6; 8], &[1, 6, 6, 6, 6, 6, 6, 6]]);
    let still = draft.push(EITHER, 0, 0);
    draft.chain(4, 0, still);
    draft.push(ASK, 0, 7);
    draft.push(ASK, 0, 7);
    draft
}

fn every_pair_reports(bytes: &[u8], starts: usize) {
    for left in 0..starts {
        for right in 0..starts {
            assert!(compare(bytes, left, right).is_ok(), "{left} {right}");
        }
    }
}

#[test]
fn members_at_the_limit() {
    let mut draft = crowd();
    assert_eq!(plain::size_all(&draft.bytes()), Some((512, 1_350)));
    assert_eq!(grouping(&draft).groups(), [vec![0], vec![1, 2]]);
    draft.starts.push((0, vec![]));
    assert_eq!(plain::size_all(&draft.bytes()), Some((513, 1_350)));
    too_large(&draft);
    every_pair_reports(&draft.bytes(), 4);
}

#[test]
fn moves_at_the_limit() {
    // Threads on a ladder of six rungs, each of which leads to itself and to every lower one, and a node
    // that asks nothing for ever.
    let mut draft = Draft { nodes: vec![(ASK, 0, 0)], ..Draft::default() };
    let mut rung = 0;
    for _ in 1..6 {
        let ask = draft.push(ASK, 0, 0);
        rung = draft.push(EITHER, rung, ask);
        draft.nodes[ask as usize].2 = rung;
    }
    let alone = draft.nodes.len() as u8;
    draft.push(ASK, 0, alone as u16);
    let top = rung as u8;
    draft.starts = at_store_0(&[&[top; 5], &[top; 4], &[top, top, top, top, alone], &[top], &[alone]]);
    assert_eq!(plain::size_all(&draft.bytes()), Some((511, 4_096)));
    assert_eq!(grouping(&draft).groups(), [[0, 1, 2, 3, 4]]);
    draft.starts.push((0, vec![alone, alone]));
    assert_eq!(plain::size_all(&draft.bytes()), Some((512, 4_097)));
    too_large(&draft);
    every_pair_reports(&draft.bytes(), 6);
}

#[test]
fn threads_at_the_limit() {
    let mut draft = bare(&[&[3, 1, 1, 1, 1, 1, 1], &[1; 8], &[3]]);
    draft.nodes.extend([(TELL, 0, 0), (BOTH, 1, 1), (ASK, 0, 2)]);
    assert_eq!(grouping(&draft).groups().len(), 3);
    // A start that comes to nine threads, alone or beside any other.
    draft.starts.push((0, vec![3, 1, 1, 1, 1, 1, 1, 1]));
    too_large(&draft);
    for other in 0..4 {
        let refusal = compare(&draft.bytes(), other, 3).unwrap_err().refusal().unwrap();
        assert_eq!(refusal.reason, Reason::TooLarge);
    }
    assert!(compare(&draft.bytes(), 0, 1).is_ok());
}

#[test]
fn longest_answer() {
    let mut draft = crowd();
    let mut rng = Rng::new(600);
    while draft.starts.len() < 16 {
        draft.starts.push((0, (0..8).map(|_| 1 + rng.below(5) as u8).collect()));
    }
    let bytes = draft.bytes();
    let mut harness = Harness::all(62);
    let returned = harness.compare_with_all_lengths(&bytes, EveryStart);
    assert_eq!(returned, (0, [33, ALL_ANSWER, 0]));
    assert_eq!(hofadiju::ALL_ANSWER_BYTES, ALL_ANSWER);
    let grouping = compare_all(&bytes).unwrap();
    assert!(grouping.members.len() == 512 && grouping.members.iter().all(|member| member.threads.len() == 8));
}

// Slices and the order of refusals

#[test]
fn slices_of_every_length() {
    let mut harness = Harness::all(63);
    let mut rng = Rng::new(601);
    for shape in &SHAPES {
        for _ in 0..4 {
            let bytes = variants(&shape.with_starts(2, 16), &mut rng).bytes();
            let judgement = harness.judge(&bytes, EveryStart);
            let Judgement::Answer { numbers, bytes: answer } = &judgement else { continue };
            let needed = answer.len();
            let mut held = |answer_len, work_len| harness.hold(&judgement, &bytes, EveryStart, answer_len, work_len);
            for short in [0, 1, needed / 2, needed - 3, needed - 2, needed - 1] {
                assert_eq!(held(short, WORK), (22, [0, 0, needed]));
            }
            for enough in [needed, needed + 1, needed + 2, needed + 3, ALL_ANSWER, ALL_ANSWER + 1] {
                assert_eq!(held(enough, WORK), (0, *numbers));
            }
            // 23 comes before 22.
            for (answer_len, work_len) in [(needed, 0), (needed, WORK - 1), (0, WORK - 1), (needed - 1, 1)] {
                assert_eq!(held(answer_len, work_len), (23, [0; 3]));
            }
            for work_len in [WORK + 1, WORK + 2_000] {
                assert_eq!(held(needed, work_len), (0, *numbers));
                assert_eq!(held(needed - 1, work_len), (22, [0, 0, needed]));
            }
        }
    }
    assert!(harness.calls > 600);
}

#[test]
fn order_of_refusals() {
    let mut harness = Harness::all(64);
    // The third start grows without end.
    let mut draft = bare(&[&[], &[1], &[2]]);
    draft.nodes.extend([(TELL, 0, 0), (ASK, 0, 3), (BOTH, 1, 2)]);
    let bytes = draft.bytes();
    let mut held = |bytes: &[u8], answer_len, work_len| {
        let judgement = harness.judge(bytes, EveryStart);
        harness.hold(&judgement, bytes, EveryStart, answer_len, work_len)
    };
    for answer_len in [0, ALL_ANSWER] {
        assert_eq!(held(&bytes, answer_len, WORK - 1), (23, [0; 3]));
        assert_eq!(held(&bytes, answer_len, WORK), (21, [0; 3]));
        assert_eq!(held(&bytes, answer_len, WORK + 100), (21, [0; 3]));
        // The sheet's refusals come first.
        let longer = [&bytes[..], &[0]].concat();
        assert_eq!(held(&longer, answer_len, 0), (13, [0, 0, bytes.len()]));
        let shorter = &bytes[..bytes.len() - 1];
        assert_eq!(held(shorter, answer_len, WORK), (1, [0, 0, shorter.len()]));
    }
}

// Random sheets

/// Of each shape this many sheets: 20,800 in all, with 2 to 16 starts as drawn, variants of a start, and
/// alike pairs.
const EACH: usize = 1_600;

fn drawn(shape: &Shape, i: usize, rng: &mut Rng) -> Draft {
    let many = shape.with_starts(2, 16);
    match i % 4 {
        0 => draw(&many, rng),
        1 => alike_pair(shape, rng),
        _ => variants(&many, rng),
    }
}

#[test]
fn sheets_of_every_shape() {
    let mut harness = Harness::all(65);
    let mut starts = [0; 17];
    for shape in &SHAPES {
        let mut rng = Rng::new(602);
        for i in 0..EACH {
            let draft = drawn(shape, i, &mut rng);
            starts[draft.starts.len()] += 1;
            if i % 20 < 2 {
                harness.compare_with_all_lengths(&draft.bytes(), EveryStart);
            } else {
                harness.compare(&draft.bytes(), EveryStart);
            }
        }
    }
    let Harness { seen, calls, longest, .. } = &harness;
    println!("{} sheets, {} answers, {} too large, {calls} calls", harness.total(), seen[0], seen[21]);
    println!("sheets by number of starts: {:?}, longest answer {longest} bytes", &starts[2..]);
    assert_eq!(harness.total(), seen[0] + seen[21], "every drawn sheet is well formed");
    assert!(seen[0] > 15_000 && seen[21] > 1_000);
    assert!(starts[2..].iter().all(|&sheets| sheets > 500));
}

#[test]
fn many_members() {
    let mut harness = Harness::all(66);
    let mut rng = Rng::new(603);
    let medium = SHAPES.iter().find(|shape| shape.name == "medium").unwrap();
    let shape = Shape { nodes: (30, 60), facts: (1, 6), starts: (16, 16), store: 2, ..medium.clone() };
    let mut large = 0;
    for _ in 0..1_500 {
        let (number, [_, length, _]) = harness.compare(&draw(&shape, &mut rng).bytes(), EveryStart);
        large += usize::from(number == 0 && length > 1_500);
    }
    println!("{large} large answers of {}, {} too large", harness.seen[0], harness.seen[21]);
    assert!(large > 50);
}

#[test]
fn damaged_sheets() {
    let mut harness = Harness::all(67);
    let mut rng = Rng::new(604);
    for i in 0..10_000 {
        let mut bytes = drawn(&SHAPES[i % SHAPES.len()], i, &mut rng).bytes();
        damage(&mut bytes, &mut rng);
        if i % 20 == 0 {
            harness.compare_with_all_lengths(&bytes, EveryStart);
        } else {
            harness.compare(&bytes, EveryStart);
        }
    }
    println!("{:?}", harness.seen);
    for number in [0, 1, 2, 3, 4, 5, 7, 8, 9, 10, 11, 12, 13, 21] {
        assert!(harness.seen[number] > 0, "{number} was not seen");
    }
    assert_eq!((harness.seen[6], harness.seen[14]), (0, 0));
}

#[test]
fn every_cut_and_every_byte_of_a_sheet() {
    let mut harness = Harness::all(68);
    let bytes = sheet_k(&[(0, &[2]), (2, &[7, 1]), (0, &[4]), (0, &[8, 5]), (1, &[])]).bytes();
    assert_eq!(harness.compare(&bytes, EveryStart).0, 0);
    for end in 0..bytes.len() {
        assert_eq!(harness.compare(&bytes[..end], EveryStart), (1, [0, 0, end]));
    }
    for at in 0..bytes.len() {
        for value in 0..=255 {
            let mut changed = bytes.clone();
            changed[at] = value;
            harness.compare(&changed, EveryStart);
        }
    }
}

#[test]
fn random_bytes() {
    let mut harness = Harness::all(69);
    let mut rng = Rng::new(605);
    for _ in 0..5_000 {
        let length = rng.below(40);
        let high = rng.pick(&[3, 6, 256]);
        let bytes: Vec<u8> = (0..length).map(|_| rng.below(high) as u8).collect();
        harness.compare(&bytes, EveryStart);
    }
    for length in [724, 725, 1_000, 100_000] {
        harness.compare(&vec![0; length], EveryStart);
        harness.compare(&vec![32; length], EveryStart);
    }
}

#[test]
fn kept_slow_sheets() {
    let mut harness = Harness::all(70);
    let mut beside = Beside::new();
    for folder in ["benches/worst", "benches/sixteen"] {
        for entry in std::fs::read_dir(Path::new(env!("CARGO_MANIFEST_DIR")).join(folder)).unwrap() {
            let path = entry.unwrap().path();
            if path.extension().is_some_and(|ending| ending == "sheet") {
                let bytes = std::fs::read(path).unwrap();
                harness.compare_with_all_lengths(&bytes, EveryStart);
                beside.hold(&Draft::read(&bytes).unwrap());
            }
        }
    }
    assert!(beside.alike > 100 && beside.apart > 100);
}

// Every two starts

/// The library's answer for all starts beside its reports on every two of them.
struct Beside {
    all: Harness<CompareAll, 3>,
    answer: Vec<u8>,
    work: Vec<u32>,
    /// How many sheets, and of those how many were refused while each two starts had a report.
    sheets: usize,
    only_all_refused: usize,
    /// How many pairs of two starts said SAME and DIFF.
    alike: usize,
    apart: usize,
}

impl Beside {
    fn new() -> Beside {
        let (answer, work) = (vec![0; ANSWER_BYTES], vec![0; WORK_NUMBERS]);
        let all = Harness::all(71);
        Beside { all, answer, work, sheets: 0, only_all_refused: 0, alike: 0, apart: 0 }
    }

    fn report(&mut self, bytes: &[u8], left: usize, right: usize) -> Result<Report, Error> {
        let outcome = compare_into(bytes, left, right, &mut self.answer, &mut self.work)?;
        Ok(outcome.report(&self.answer).unwrap())
    }

    fn hold(&mut self, draft: &Draft) {
        self.sheets += 1;
        let bytes = draft.bytes();
        self.all.compare(&bytes, EveryStart);
        let starts = draft.starts.len();
        let pairs = (0..starts).flat_map(|left| (left..starts).map(move |right| (left, right)));
        match compare_all(&bytes) {
            Ok(grouping) => {
                let mut seen = BTreeSet::new();
                for (left, right) in pairs {
                    // The set of all starts holds that of two, so no pair is too large.
                    let report = self.report(&bytes, left, right).unwrap();
                    self.agree(&grouping, &report, (left, right));
                    seen.extend(report.members.into_iter().map(|member| (member.store, member.threads)));
                }
                assert_eq!(seen.len(), grouping.members.len(), "every member is one of some pair's");
                assert_eq!(grouping.groups().concat().len(), starts);
            }
            Err(error) => {
                assert_eq!(error, Refusal::new(Reason::TooLarge, 0).into());
                let reports = pairs.filter(|&(left, right)| self.report(&bytes, left, right).is_ok()).count();
                self.only_all_refused += usize::from(reports == starts * (starts + 1) / 2);
            }
        }
    }

    /// The card's sentence, and the same for all members that the pair's set has.
    fn agree(&mut self, grouping: &Grouping, report: &Report, (left, right): (usize, usize)) {
        let same = grouping.classes[left] == grouping.classes[right];
        assert_eq!(same, report.verdict == Verdict::Same, "starts {left} {right}");
        let group = |start| grouping.groups().iter().position(|group| group.contains(&start));
        assert_eq!(same, group(left) == group(right));
        self.alike += usize::from(same && left != right);
        self.apart += usize::from(!same);
        // The whole set's round is at least that of two starts.
        assert!(report.round <= grouping.round);
        let (mut there, mut back) = (BTreeMap::new(), BTreeMap::new());
        for member in &report.members {
            let class = class_in(grouping, member);
            assert_eq!(*there.entry(member.class).or_insert(class), class, "starts {left} {right}");
            assert_eq!(*back.entry(class).or_insert(member.class), member.class, "starts {left} {right}");
        }
        for (place, start) in [(report.left, left), (report.right, right)] {
            assert_eq!(class_in(grouping, &report.members[place]), grouping.classes[start]);
        }
    }
}

/// The class in a grouping of a configuration that a report has.
fn class_in(grouping: &Grouping, member: &Member) -> usize {
    let key = |member: &Member| (member.store, member.threads.len(), member.threads.clone());
    let place = grouping.members.binary_search_by_key(&key(member), key).expect("a member of the larger set");
    grouping.members[place].class
}

#[test]
fn agrees_with_every_pair() {
    let mut beside = Beside::new();
    for shape in &SHAPES {
        let mut rng = Rng::new(606);
        for i in 0..240 {
            beside.hold(&drawn(shape, i, &mut rng));
        }
    }
    let Beside { sheets, only_all_refused, alike, apart, .. } = beside;
    println!(
        "{sheets} sheets, {alike} pairs alike, {apart} apart, {only_all_refused} sheets refused though no pair is"
    );
    assert!(alike > 20_000 && apart > 20_000 && only_all_refused > 0);
}

#[test]
fn a_sheet_of_two_starts() {
    // The set is that of the two, so members and classes are those of the report.
    let mut rng = Rng::new(608);
    let mut answers = 0;
    for i in 0..4_000 {
        let shape = SHAPES[i % SHAPES.len()].with_starts(2, 2);
        let draft = if i % 2 == 0 { alike_pair(&shape, &mut rng) } else { draw(&shape, &mut rng) };
        let bytes = draft.bytes();
        match (compare_all(&bytes), compare(&bytes, 0, 1)) {
            (Ok(grouping), Ok(report)) => {
                let class = |place: usize| report.members[place].class;
                assert_eq!(grouping.classes, [class(report.left), class(report.right)]);
                assert_eq!(grouping.members, report.members);
                assert!(report.verdict == Verdict::Diff || grouping.round == report.round);
                answers += 1;
            }
            (all, two) => assert_eq!(all.err(), two.err()),
        }
    }
    assert!(answers > 3_000);
}

#[test]
fn the_round_of_alike_starts() {
    // Where all starts are alike, the round is the highest of any two.
    let mut rng = Rng::new(607);
    let mut held = 0;
    for i in 0..2_000 {
        let draft = variants(&SHAPES[i % SHAPES.len()].with_starts(2, 16), &mut rng);
        let bytes = draft.bytes();
        let Ok(grouping) = compare_all(&bytes) else { continue };
        if grouping.groups().len() == 1 {
            let starts = draft.starts.len();
            let pairs = (0..starts).flat_map(|left| (left..starts).map(move |right| (left, right)));
            let rounds = pairs.map(|(left, right)| compare(&bytes, left, right).unwrap().round);
            assert_eq!(rounds.max(), Some(grouping.round));
            held += 1;
        }
    }
    println!("{held} sheets of alike starts");
    assert!(held > 100);
}
