//! Two starts after so many rounds, at document 01's limits and at the desk's: held to the reference, to
//! what the comparing call says in the end, and from one number of rounds to the next.

mod common;

use common::{pair::Pair, CompareRounds, Harness, ANSWER, DESK_ROUNDS_ANSWER, ROUNDS_ANSWER, WORK};
use hofadiju::{compare, compare_desk, compare_rounds, compare_rounds_desk, Partition, Report, RoundsVerdict, Verdict};
use reference::{plain, Judgement, Limits};
use sheets::{
    alike_pair, damage, deepest_chain, draw, ladder_and_chain, sheet_k, six_tells, variants, Draft, Rng, ASK, BOTH,
    EITHER, SHAPES, STOP, TELL,
};
use std::collections::{BTreeMap, BTreeSet};
use std::path::Path;
use RoundsVerdict::{Diff, Open, Same};

/// Numbers of rounds around the largest of one, two, four and eight bytes.
const LARGE: [u64; 9] = [255, 256, 65_535, 65_536, u32::MAX as u64, 1 << 32, (1 << 32) + 1, u64::MAX - 1, u64::MAX];

/// The calls on starts 0 and 1, at both limits and with slices of many lengths.
fn partition(draft: &Draft, rounds: u64) -> Partition {
    let bytes = draft.bytes();
    let (_, (number, _)) = Pair::rounds(80).compare_with_all_lengths(&bytes, (0, 1, rounds));
    assert_eq!(number, 0, "{draft:?}");
    compare_rounds(&bytes, 0, 1, rounds).unwrap()
}

/// The verdict, the number of classes and the number of members of starts 0 and 1.
fn said(draft: &Draft, rounds: u64) -> (RoundsVerdict, usize, usize) {
    let Partition { verdict, classes, members, .. } = partition(draft, rounds);
    (verdict, classes, members.len())
}

// Known sheets

#[test]
fn pairs_of_sheet_k() {
    let k = |left: (u16, &[u8]), right: (u16, &[u8])| {
        let draft = sheet_k(&[left, right]);
        [0, 1, 2, 3].map(|rounds| said(&draft, rounds))
    };
    assert_eq!(k((0, &[2]), (0, &[4])), [(Open, 3, 6), (Same, 5, 6), (Same, 5, 6), (Same, 5, 6)]);
    assert_eq!(k((0, &[2]), (0, &[3])), [(Open, 3, 6), (Diff, 6, 6), (Diff, 6, 6), (Diff, 6, 6)]);
    // The move of [7] with label 3 is redundant in round 0 and no longer in round 1.
    assert_eq!(k((0, &[2]), (0, &[7])), [(Open, 4, 8), (Open, 7, 8), (Diff, 8, 8), (Diff, 8, 8)]);
    assert_eq!(k((0, &[1]), (1, &[1])), [(Diff, 2, 4), (Diff, 4, 4), (Diff, 4, 4), (Diff, 4, 4)]);
    assert_eq!(k((0, &[]), (0, &[])), [(Same, 1, 1); 4]);
    assert_eq!(k((0, &[8]), (0, &[1])), [(Open, 1, 3), (Open, 2, 3), (Diff, 3, 3), (Diff, 3, 3)]);
}

#[test]
fn members_and_classes_of_sheet_k() {
    let draft = sheet_k(&[(0, &[2]), (0, &[7])]);
    let text = |rounds| partition(&draft, rounds).to_string();
    assert_eq!(text(0), "OPEN 4 8\n0 0 0 2\n1 0 0 7\n2 1 1 -\n3 1 1 1\n4 3 2 -\n5 3 2 1\n6 3 2 5\n7 7 3 -\n");
    assert_eq!(text(1), "OPEN 7 8\n0 0 0 2\n1 0 0 7\n2 1 1 -\n3 1 2 1\n4 3 3 -\n5 3 4 1\n6 3 5 5\n7 7 6 -\n");
    assert_eq!(text(2), "DIFF 8 8\n0 0 0 2\n1 0 1 7\n2 1 2 -\n3 1 3 1\n4 3 4 -\n5 3 5 1\n6 3 6 5\n7 7 7 -\n");
}

#[test]
fn a_chain_of_63_rounds() {
    let draft = deepest_chain();
    let classes = |rounds: u64| partition(&draft, rounds).members.iter().map(|m| m.class).collect::<Vec<usize>>();
    for (rounds, verdict) in [(0, Open), (1, Open), (31, Open), (62, Open), (63, Diff), (64, Diff), (u64::MAX, Diff)] {
        let parted = rounds.min(63) as usize;
        assert_eq!(said(&draft, rounds), (verdict, parted + 1, 64));
        // By round n those have parted that have fewer than n asks to go.
        assert_eq!(classes(rounds), (0..64).map(|asks| parted.min(asks)).collect::<Vec<_>>());
    }
    for rounds in LARGE {
        assert_eq!(said(&draft, rounds), (Diff, 64, 64));
    }
}

#[test]
fn any_number_of_rounds() {
    let mut pair = Pair::rounds(81);
    // The chain twice, which is one member, the chain and nothing, and nothing twice.
    let chain = deepest_chain();
    let first = chain.starts[0].1[0];
    for starts in [[vec![first], vec![first]], [vec![first], vec![0]], [vec![0], vec![0, 0]]] {
        let draft = Draft { starts: starts.map(|threads| (0, threads)).to_vec(), ..chain.clone() };
        let bytes = draft.bytes();
        let end = compare(&bytes, 0, 1).unwrap();
        for rounds in LARGE {
            let (desk, other) = pair.compare_with_all_lengths(&bytes, (0, 1, rounds));
            assert_eq!((desk, other.0), (other, 0));
            let partition = compare_rounds(&bytes, 0, 1, rounds).unwrap();
            assert_eq!(partition.verdict.settled(), Some(end.verdict));
            assert_eq!(partition.members, end.members);
        }
    }
}

// Starts that are together while others part

#[test]
fn one_member_is_open_while_others_part() {
    let mut draft = deepest_chain();
    draft.starts[1] = draft.starts[0].clone();
    assert_eq!(compare(&draft.bytes(), 0, 1).unwrap().verdict, Verdict::Same);
    for rounds in 0..=64 {
        let expected = if rounds < 63 { (Open, rounds as usize + 1, 64) } else { (Same, 64, 64) };
        assert_eq!(said(&draft, rounds), expected);
    }
}

#[test]
fn alike_starts_are_open_while_others_part() {
    // Two threads in a chain of 29 asks; on the left one of them is at an either of the first ask twice.
    let mut draft = Draft { nodes: vec![(STOP, 0, 0)], ..Draft::default() };
    let first = draft.chain(29, 0, 0);
    let twice = draft.push(EITHER, first as u16, first as u16) as u8;
    draft.starts = vec![(0, vec![first, twice]), (0, vec![first, first])];
    let report = compare(&draft.bytes(), 0, 1).unwrap();
    assert_eq!((report.verdict, report.round, report.members.len()), (Verdict::Same, 58, 495));
    for rounds in [0, 1, 2, 30, 57] {
        assert_eq!(said(&draft, rounds), (Open, rounds as usize + 1, 495));
    }
    for rounds in [58, 59, 1_000, u64::MAX] {
        assert_eq!(said(&draft, rounds), (Same, 59, 495));
    }
}

#[test]
fn starts_part_while_others_are_still_together() {
    // DIFF goes before OPEN: apart by a fact that is told at once, beside a chain that takes long to part.
    let mut draft = Draft { facts: 2, nodes: vec![(STOP, 0, 0)], ..Draft::default() };
    let tells = [1, 2].map(|set| draft.push(TELL, set, 0) as u8);
    let first = draft.chain(10, 0, 0);
    draft.starts = tells.map(|tell| (0, vec![first, tell])).to_vec();
    let classes: Vec<usize> = (0..14).map(|rounds| said(&draft, rounds).1).collect();
    assert!(classes.windows(2).filter(|two| two[0] < two[1]).count() > 8, "{classes:?}");
    assert_eq!(said(&draft, 0).0, Open);
    for rounds in 1..14 {
        assert_eq!(said(&draft, rounds).0, Diff);
    }
    // At unequal stores from round 0 on.
    draft.starts = vec![(1, vec![first]), (2, vec![first])];
    for rounds in 0..14 {
        assert_eq!(said(&draft, rounds).0, Diff);
    }
    assert!(said(&draft, 0).1 < said(&draft, 14).1);
}

#[test]
fn parted_in_exactly_one_round() {
    // So many asks before unlike tells are told apart by one round more.
    for asks in 0..12 {
        let mut draft = Draft { facts: 2, nodes: vec![(STOP, 0, 0)], ..Draft::default() };
        let starts = [1, 2].map(|set| {
            let tell = draft.push(TELL, set, 0);
            (0, vec![draft.chain(asks, 0, tell)])
        });
        draft.starts = starts.to_vec();
        for rounds in 0..asks as u64 + 4 {
            let verdict = if rounds <= asks as u64 { Open } else { Diff };
            assert_eq!(said(&draft, rounds).0, verdict, "{asks} asks, {rounds} rounds");
        }
    }
}

// Limits

#[test]
fn members_and_moves_at_the_desks_limits() {
    let mut pair = Pair::rounds(82);
    let mut desk = |draft: Draft, members: usize, moves: usize| {
        let bytes = draft.bytes();
        assert_eq!(plain::size(&bytes, 0, 1), Some((members, moves)));
        let numbers = [0, 1, 5, u64::MAX].map(|rounds| {
            let (desk, other) = pair.compare_with_all_lengths(&bytes, (0, 1, rounds));
            assert_eq!(other.0, 0);
            assert_eq!(compare_rounds_desk(&bytes, 0, 1, rounds).is_ok(), desk.0 == 0);
            desk.0
        });
        assert_eq!(numbers, [numbers[0]; 4]);
        numbers[0]
    };
    assert_eq!(desk(six_tells((0..6).rev().collect()), 64, 192), 0);
    assert_eq!(desk(six_tells(vec![]), 65, 192), 21);
    assert_eq!(desk(ladder_and_chain(false), 63, 512), 0);
    assert_eq!(desk(ladder_and_chain(true), 63, 513), 21);
}

#[test]
fn members_and_moves_at_document_01s_limits() {
    // 16 by 32 places, and one member more.
    let mut draft = Draft { nodes: vec![(STOP, 0, 0), (TELL, 0, 0)], ..Draft::default() };
    let first = draft.chain(15, 0, 0);
    let second = draft.chain(31, 0, 0);
    draft.starts = vec![(0, vec![first, second]), (0, vec![second, first]), (0, vec![1])];
    // A ladder of twenty rungs: 4,096 moves, and one more.
    let mut ladder = Draft { nodes: vec![(ASK, 0, 0)], ..Draft::default() };
    let mut wide = 0;
    for _ in 1..20 {
        let ask = ladder.push(ASK, 0, 0);
        wide = ladder.push(EITHER, wide, ask);
        ladder.nodes[ask as usize].2 = wide;
    }
    let end = ladder.push(STOP, 0, 0);
    let short = ladder.chain(1, 0, 0);
    let long = ladder.chain(21, 0, end);
    ladder.starts = vec![(0, vec![wide as u8, wide as u8]), (0, vec![short, long])];
    let mut longer = ladder.clone();
    longer.nodes[end as usize] = (ASK, 0, end);
    let mut pair = Pair::rounds(83);
    for (draft, right, number) in [(&draft, 1, 0), (&draft, 2, 21), (&ladder, 1, 0), (&longer, 1, 21)] {
        for rounds in [0, 1, 2, u64::MAX] {
            let (desk, other) = pair.compare_with_all_lengths(&draft.bytes(), (0, right, rounds));
            assert_eq!((desk.0, other.0), (21, number));
        }
    }
}

/// 64 members of eight threads: two in chains of seven asks, beside six that cannot move.
fn longest_at_the_desk() -> Draft {
    let mut draft = Draft { nodes: vec![(STOP, 0, 0), (EITHER, 0, 0)], ..Draft::default() };
    let first = draft.chain(7, 0, 1);
    let second = draft.chain(7, 0, 1);
    let start = |first, second| (0, [vec![1; 6], vec![first, second]].concat());
    draft.starts = vec![start(first, second), start(first, second - 1)];
    draft
}

/// 512 members of eight threads: 495 places for eight threads in a chain of four asks, and 17 for one in a
/// chain of sixteen beside seven that cannot move.
fn longest() -> Draft {
    let mut draft = Draft { nodes: vec![(STOP, 0, 0), (EITHER, 0, 0), (EITHER, 0, 0)], ..Draft::default() };
    let first = draft.chain(4, 0, 1);
    let second = draft.chain(16, 0, 2);
    draft.starts = vec![(0, vec![first; 8]), (0, [vec![1; 7], vec![second]].concat())];
    draft
}

#[test]
fn longest_answers() {
    assert_eq!((hofadiju::ROUNDS_ANSWER_BYTES, hofadiju::DESK_ROUNDS_ANSWER_BYTES), (6_658, 834));
    assert_eq!((ROUNDS_ANSWER, DESK_ROUNDS_ANSWER), (6_658, 834));
    let mut pair = Pair::rounds(84);
    let bytes = longest_at_the_desk().bytes();
    for (rounds, classes) in [(0, 1), (1, 2), (13, 14), (14, 15), (15, 15)] {
        let verdict = if rounds < 14 { 2 } else { 1 };
        let (desk, _) = pair.compare_with_all_lengths(&bytes, (0, 1, rounds));
        assert_eq!(desk, (0, [verdict, classes, 64, DESK_ROUNDS_ANSWER, 0]));
    }
    let bytes = longest().bytes();
    for (rounds, verdict, classes) in [(0, 2, 1), (1, 2, 2), (16, 2, 17), (17, 1, 18), (32, 1, 33), (33, 1, 33)] {
        let (desk, other) = pair.compare_with_all_lengths(&bytes, (0, 1, rounds));
        assert_eq!((desk.0, other), (21, (0, [verdict, classes, 512, ROUNDS_ANSWER, 0])));
    }
}

#[test]
fn classes_beyond_one_byte() {
    // A loop that asks for each of eight facts: a member, and a class of round 0, for each store.
    let mut draft = Draft { facts: 8, ..Draft::default() };
    let asks: Vec<u16> = (0..8).map(|fact| draft.push(ASK, 1 << fact, 0)).collect();
    let node = asks[1..].iter().fold(asks[0], |sofar, &ask| draft.push(EITHER, sofar, ask));
    for ask in asks {
        draft.nodes[ask as usize].2 = node;
    }
    let end = draft.push(STOP, 0, 0);
    let first = draft.chain(3, 0, end);
    draft.starts = vec![(255, vec![first]), (0, vec![node as u8])];
    let counts: Vec<usize> = (0..6).map(|rounds| said(&draft, rounds).1).collect();
    assert_eq!(counts, [256, 257, 258, 259, 260, 260]);
    // The chain's first ask is the last member. At its store stand nothing, the loop and three asks, and an
    // ask parts from the loop when those after it have.
    let last = |rounds| partition(&draft, rounds).members.last().unwrap().class;
    assert_eq!([0, 1, 2, 3, 4, 5].map(last), [255, 256, 256, 256, 259, 259]);
}

// Slices and the order of refusals

#[test]
fn slices_of_every_length() {
    let mut rng = Rng::new(700);
    for (mut harness, room) in [(Harness::rounds(85), ROUNDS_ANSWER), (Harness::rounds_desk(85), DESK_ROUNDS_ANSWER)] {
        for i in 0..4 * SHAPES.len() {
            let bytes = alike_pair(&SHAPES[i % SHAPES.len()], &mut rng).bytes();
            let choice = (0, 1, rng.pick(&[0, 1, 2, u64::MAX]));
            let judgement = harness.judge(&bytes, choice);
            let Judgement::Answer { numbers, bytes: answer } = &judgement else { continue };
            let needed = answer.len();
            let mut held = |answer_len, work_len| harness.hold(&judgement, &bytes, choice, answer_len, work_len);
            for short in [0, 1, needed / 2, needed - 3, needed - 2, needed - 1] {
                assert_eq!(held(short, WORK), (22, [0, 0, 0, 0, needed]));
            }
            for enough in [needed, needed + 1, needed + 2, needed + 9, room, room + 1] {
                assert_eq!(held(enough, WORK), (0, *numbers));
            }
            // 23 comes before 22.
            for (answer_len, work_len) in [(needed, 0), (needed, WORK - 1), (0, WORK - 1), (needed - 1, 1)] {
                assert_eq!(held(answer_len, work_len), (23, [0; 5]));
            }
            for work_len in [WORK + 1, WORK + 2_000] {
                assert_eq!(held(needed, work_len), (0, *numbers));
                assert_eq!(held(needed - 1, work_len), (22, [0, 0, 0, 0, needed]));
            }
        }
        assert!(harness.calls > 600);
    }
}

#[test]
fn order_of_refusals() {
    // A start that grows without end, and one that does not.
    let nodes = vec![(TELL, 0, 0), (ASK, 0, 2), (BOTH, 0, 1)];
    let bytes = Draft { nodes, starts: vec![(0, vec![1]), (0, vec![0])], ..Draft::default() }.bytes();
    for mut harness in [Harness::rounds(86), Harness::rounds_desk(86)] {
        for rounds in [0, 1, u64::MAX] {
            let mut held = |bytes: &[u8], (left, right), answer_len, work_len| {
                let judgement = harness.judge(bytes, (left, right, rounds));
                harness.hold(&judgement, bytes, (left, right, rounds), answer_len, work_len)
            };
            let refused = |number, place| (number, [0, 0, 0, 0, place]);
            for answer_len in [0, ROUNDS_ANSWER] {
                assert_eq!(held(&bytes, (0, 1), answer_len, WORK), refused(21, 0));
                assert_eq!(held(&bytes, (0, 1), answer_len, WORK + 100), refused(21, 0));
                assert_eq!(held(&bytes, (0, 1), answer_len, WORK - 1), refused(23, 0));
                assert_eq!(held(&bytes, (2, 2), answer_len, 0), refused(14, 0));
                assert_eq!(held(&bytes, (0, 2), answer_len, 0), refused(14, 1));
                let longer = [&bytes[..], &[0]].concat();
                assert_eq!(held(&longer, (2, 2), answer_len, 0), refused(13, bytes.len()));
                let shorter = &bytes[..bytes.len() - 1];
                assert_eq!(held(shorter, (2, 2), answer_len, 0), refused(1, shorter.len()));
            }
            assert_eq!(held(&bytes, (1, 1), 0, WORK), refused(22, 13));
            assert_eq!(held(&bytes, (1, 1), 13, WORK).0, 0);
        }
    }
}

// Beside the comparing call

/// A call after so many rounds beside the comparing call with the same limits.
struct Beside {
    whole: Harness,
    rounds: Harness<CompareRounds, 5>,
    /// How often both were refused, by the comparing call's number, and how often only that one was.
    refused: [usize; 24],
    only_whole_short: usize,
}

impl Beside {
    fn both_limits(seed: u64) -> [Beside; 2] {
        let pairs = [(Harness::new(seed), Harness::rounds(seed)), (Harness::desk(seed), Harness::rounds_desk(seed))];
        pairs.map(|(whole, rounds)| Beside { whole, rounds, refused: [0; 24], only_whole_short: 0 })
    }

    /// The two refuse alike. The lengths that they need differ by the trail, and with them when 22 is given
    /// and its place.
    fn hold(&mut self, sheet: &[u8], (left, right, rounds): (usize, usize, u64), rng: &mut Rng) {
        let whole = self.whole.judge(sheet, (left, right));
        let after = self.rounds.judge(sheet, (left, right, rounds));
        let (most, needed) = match (&whole, &after) {
            (Judgement::Answer { bytes: report, .. }, Judgement::Answer { bytes, .. }) => (report.len(), bytes.len()),
            _ => (100, 100),
        };
        for answer_len in [0, most / 2, most.saturating_sub(10), most - 2, most - 1, most, rng.below(2 * most), ANSWER]
        {
            for work_len in [WORK, WORK - 1, 0, WORK + 5] {
                let one = self.whole.hold(&whole, sheet, (left, right), answer_len, work_len);
                let other = self.rounds.hold(&after, sheet, (left, right, rounds), answer_len, work_len);
                let (one, other) = ((one.0, one.1[5]), (other.0, other.1[4]));
                let expected = match one {
                    (22, _) if answer_len >= needed => (0, 0),
                    (22, place) => (22, place - trail_length(&whole)),
                    refusal => refusal,
                };
                assert_eq!(other, expected, "{one:?}, {rounds} rounds, {answer_len} {work_len}, sheet {sheet:?}");
                self.refused[one.0 as usize] += usize::from(one.0 == other.0);
                self.only_whole_short += usize::from(one.0 != other.0);
            }
        }
    }
}

/// How many bytes of a report the trail takes, its count included.
fn trail_length(whole: &Judgement) -> usize {
    let Judgement::Answer { bytes, .. } = whole else { panic!("refused") };
    let number = |at: usize| usize::from(u16::from_le_bytes([bytes[at], bytes[at + 1]]));
    let members = (0..number(0)).fold(2, |at, _| at + 5 + usize::from(bytes[at + 2]));
    bytes.len() - members
}

#[test]
fn refuses_as_the_comparing_call_does() {
    for mut beside in Beside::both_limits(87) {
        let mut rng = Rng::new(701);
        for i in 0..1_300 {
            let shape = &SHAPES[i % SHAPES.len()];
            let mut bytes = if i % 3 == 0 { alike_pair(shape, &mut rng) } else { draw(shape, &mut rng) }.bytes();
            if i % 2 == 0 {
                damage(&mut bytes, &mut rng);
            }
            let rounds = rng.pick(&[0, 1, 2, 3, 10, u64::MAX]);
            beside.hold(&bytes, (rng.below(3), rng.below(3), rounds), &mut rng);
        }
        println!("{:?}, only the comparing call's answer slice too short: {}", beside.refused, beside.only_whole_short);
        for number in [0, 1, 2, 3, 4, 5, 7, 8, 9, 10, 11, 12, 13, 14, 21, 22, 23] {
            assert!(beside.refused[number] > 0, "{number} was not seen");
        }
        assert_eq!(beside.refused[6], 0);
        assert!(beside.only_whole_short > 100);
    }
}

// Every number of rounds

/// What the comparing call says of two starts, and the result's round.
struct End {
    report: Report,
    classes: usize,
    last: u64,
}

impl End {
    /// `None` where the set is too large. A set of two starts has the same rounds where they are the only
    /// starts of a sheet, so the call for all starts gives the result's round.
    fn of(draft: &Draft, left: usize, right: usize) -> Option<End> {
        let starts = [left, right].map(|start| draft.starts[start].clone()).to_vec();
        let alone = Draft { starts, ..draft.clone() };
        let Judgement::Answer { numbers: [last, ..], .. } = plain::judge_all(Limits::DOCUMENT, &alone.bytes()) else {
            return None;
        };
        let report = compare(&draft.bytes(), left, right).unwrap();
        let classes = report.members.iter().map(|member| member.class).collect::<BTreeSet<_>>().len();
        Some(End { report, classes, last: last as u64 })
    }

    /// The verdict after so many rounds, by the rounds of the report.
    fn verdict(&self, rounds: u64) -> RoundsVerdict {
        match self.report.verdict {
            Verdict::Diff if self.report.round as u64 <= rounds => Diff,
            _ if self.last <= rounds => Same,
            _ => Open,
        }
    }
}

/// Each class of a later round lies within one of the round before.
fn refines(later: &Partition, before: &Partition) -> bool {
    let mut within = BTreeMap::new();
    let pairs = later.members.iter().zip(&before.members);
    pairs.into_iter().all(|(later, before)| *within.entry(later.class).or_insert(before.class) == before.class)
}

/// Classes are numbered from 0 by first member.
fn numbered_by_first_member(partition: &Partition) -> bool {
    let mut next = 0;
    partition.members.iter().all(|member| {
        let new = member.class == next;
        next += usize::from(new);
        new || member.class < next
    }) && next == partition.classes
}

/// Counts over all sheets and numbers of rounds.
#[derive(Debug, Default)]
struct Counts {
    sheets: usize,
    too_large: usize,
    desk_answers: usize,
    /// The result's rounds, added up, and the highest.
    rounds: u64,
    most_rounds: u64,
    same: usize,
    diff: usize,
    /// Open starts that prove SAME, and that prove DIFF.
    open_same: usize,
    open_diff: usize,
    /// Starts that are apart while some class is still to be split.
    diff_before_rest: usize,
}

struct EveryRound {
    pair: Pair<CompareRounds, 5>,
    counts: Counts,
}

impl EveryRound {
    fn new(seed: u64) -> EveryRound {
        EveryRound { pair: Pair::rounds(seed), counts: Counts::default() }
    }

    /// Both calls for every number of rounds from 0 to two past the result's, and for the largest.
    fn hold(&mut self, draft: &Draft, left: usize, right: usize, all_lengths: bool) {
        self.counts.sheets += 1;
        let bytes = draft.bytes();
        let Some(end) = End::of(draft, left, right) else {
            self.counts.too_large += 1;
            for rounds in [0, 1, u64::MAX] {
                assert_eq!(self.pair.compare(&bytes, (left, right, rounds)), ((21, [0; 5]), (21, [0; 5])));
            }
            return;
        };
        self.counts.rounds += end.last;
        self.counts.most_rounds = self.counts.most_rounds.max(end.last);
        let desk = compare_desk(&bytes, left, right).is_ok();
        let mut before = None;
        for rounds in (0..=end.last + 2).chain([u64::MAX]) {
            let (by_desk, other) = if all_lengths {
                self.pair.compare_with_all_lengths(&bytes, (left, right, rounds))
            } else {
                self.pair.compare(&bytes, (left, right, rounds))
            };
            assert_eq!((by_desk.0, other.0), (if desk { 0 } else { 21 }, 0));
            self.counts.desk_answers += usize::from(desk);
            let partition = compare_rounds(&bytes, left, right, rounds).unwrap();
            self.agree(&end, rounds, &partition, before.as_ref());
            before = Some(partition);
        }
    }

    /// One number of rounds beside the report and beside the number before it.
    fn agree(&mut self, end: &End, rounds: u64, partition: &Partition, before: Option<&Partition>) {
        let End { report, classes, last } = end;
        assert_eq!(partition.verdict, end.verdict(rounds));
        assert!(numbered_by_first_member(partition));
        // The card's sentences: the final number of classes is at least the first number and at most the
        // second, and a larger number of rounds leaves SAME and DIFF as they are.
        assert!(partition.classes <= *classes && *classes <= partition.members.len());
        if let Some(before) = before {
            assert!(before.verdict == Open || before.verdict == partition.verdict);
            assert!(refines(partition, before));
            // A round up to the result's splits some class.
            assert_eq!(before.classes < partition.classes, rounds <= *last);
        }
        assert!(partition.verdict.settled().is_none_or(|verdict| verdict == report.verdict));
        if rounds >= *last {
            assert_eq!(partition.verdict.settled(), Some(report.verdict));
            assert_eq!(partition.members, report.members);
        }
        let together = partition.members[report.left].class == partition.members[report.right].class;
        assert_eq!(together, partition.verdict != Diff);
        if rounds == 0 {
            let stores: BTreeSet<u16> = partition.members.iter().map(|member| member.store).collect();
            assert_eq!(partition.classes, stores.len());
            assert!(partition.members.windows(2).all(|m| (m[0].class == m[1].class) == (m[0].store == m[1].store)));
        }
        let counts = &mut self.counts;
        let count = match (partition.verdict, report.verdict) {
            (Same, _) => &mut counts.same,
            (Diff, _) => &mut counts.diff,
            (Open, Verdict::Same) => &mut counts.open_same,
            (Open, Verdict::Diff) => &mut counts.open_diff,
            (verdict, end) => panic!("{verdict:?} {end:?}"),
        };
        *count += 1;
        counts.diff_before_rest += usize::from(partition.verdict == Diff && rounds < *last);
    }
}

/// Of each shape this many sheets: 20,800 in all, a third of them alike pairs.
const EACH: usize = 1_600;

#[test]
fn sheets_of_every_shape() {
    let mut every = EveryRound::new(88);
    for shape in &SHAPES {
        let mut rng = Rng::new(702);
        for i in 0..EACH {
            let draft = if i % 3 == 2 { alike_pair(shape, &mut rng) } else { draw(shape, &mut rng) };
            let starts = draft.starts.len();
            let (left, right) = if i % 3 == 2 { (0, 1) } else { (rng.below(starts), rng.below(starts)) };
            every.hold(&draft, left, right, i % 20 == 0);
        }
    }
    let EveryRound { pair, counts } = &every;
    println!("{} calls of each, {counts:?}, {:?}", pair.desk.calls, pair.cases);
    println!("the desk's longest answer has {} bytes, the other call's {}", pair.desk.longest, pair.document.longest);
    assert!(counts.same > 5_000 && counts.diff > 5_000 && counts.too_large > 1_000);
    assert!(counts.open_same > 5_000 && counts.open_diff > 5_000 && counts.diff_before_rest > 1_000);
    assert!(pair.cases.desk_21_beside_answer > 1_000 && pair.cases.desk_21_beside_22 > 0);
    assert!(pair.desk.longest <= DESK_ROUNDS_ANSWER && pair.document.longest > DESK_ROUNDS_ANSWER);
}

#[test]
fn variants_of_a_start() {
    let mut every = EveryRound::new(89);
    let mut rng = Rng::new(703);
    for i in 0..2_000 {
        let draft = variants(&SHAPES[i % SHAPES.len()].with_starts(2, 16), &mut rng);
        let starts = draft.starts.len();
        every.hold(&draft, rng.below(starts), rng.below(starts), false);
    }
    println!("{:?}", every.counts);
    assert!(every.counts.same > 500 && every.counts.open_same > 500);
}

#[test]
fn chains_beside_each_other() {
    let mut every = EveryRound::new(90);
    for lengths in [&[7, 7][..], &[7, 8], &[3, 15], &[1, 31], &[1, 32], &[3, 3, 3], &[1; 6], &[1; 7], &[2; 3], &[62]] {
        for facts in [0, 1, 2] {
            let mut draft = Draft { facts, nodes: vec![(STOP, 0, 0)], ..Draft::default() };
            let set = |i: usize| if facts == 0 { 0 } else { 1 << (i % facts) };
            let firsts: Vec<u8> =
                lengths.iter().enumerate().map(|(i, &length)| draft.chain(length, set(i), 0)).collect();
            let mut shorter = firsts.clone();
            *shorter.last_mut().unwrap() -= 1;
            draft.starts = vec![(0, firsts), (0, shorter)];
            every.hold(&draft, 0, 1, false);
            every.hold(&draft, 0, 0, false);
        }
    }
    println!("{:?}", every.counts);
    assert!(every.counts.most_rounds >= 62);
}

#[test]
fn damaged_sheets() {
    let mut pair = Pair::rounds(91);
    let mut rng = Rng::new(704);
    let mut seen = [0; 24];
    for i in 0..5_000 {
        let mut bytes = draw(&SHAPES[i % SHAPES.len()], &mut rng).bytes();
        damage(&mut bytes, &mut rng);
        let choice = (rng.below(3), rng.below(3), rng.pick(&[0, 1, 2, 3, 7, u64::MAX]));
        let (desk, _) =
            if i % 20 == 0 { pair.compare_with_all_lengths(&bytes, choice) } else { pair.compare(&bytes, choice) };
        seen[desk.0 as usize] += 1;
    }
    println!("{seen:?}, {} calls of each, {:?}", pair.desk.calls, pair.cases);
    for number in [0, 1, 2, 3, 4, 5, 7, 8, 9, 10, 11, 12, 13, 14, 21] {
        assert!(seen[number] > 0, "{number} was not seen");
    }
    assert_eq!(seen[6], 0);
}

#[test]
fn every_cut_and_every_byte_of_a_sheet() {
    let mut pair = Pair::rounds(92);
    let bytes = sheet_k(&[(0, &[2]), (0, &[7]), (1, &[8, 5])]).bytes();
    for end in 0..bytes.len() {
        for rounds in [0, u64::MAX] {
            assert_eq!(pair.compare(&bytes[..end], (0, 1, rounds)).1, (1, [0, 0, 0, 0, end]));
        }
    }
    for at in 0..bytes.len() {
        for value in 0..=255 {
            let mut changed = bytes.clone();
            changed[at] = value;
            pair.compare(&changed, (0, 1, value as u64 % 4));
        }
    }
}

#[test]
fn any_start_numbers() {
    let mut pair = Pair::rounds(93);
    let mut rng = Rng::new(705);
    let numbers = [0, 1, 2, 3, 7, 8, 15, 16, 17, 255, 256, 65_536, 1 << 32, usize::MAX];
    for i in 0..2_000 {
        let draft = draw(&SHAPES[i % SHAPES.len()], &mut rng);
        let (left, right) = (rng.pick(&numbers), rng.pick(&numbers));
        let (desk, returned) = pair.compare(&draft.bytes(), (left, right, rng.pick(&LARGE)));
        let starts = draft.starts.len();
        if left >= starts {
            assert_eq!((desk, returned), ((14, [0; 5]), (14, [0; 5])));
        } else if right >= starts {
            assert_eq!((desk, returned), ((14, [0, 0, 0, 0, 1]), (14, [0, 0, 0, 0, 1])));
        } else {
            assert!(desk.0 != 14 && returned.0 != 14);
        }
    }
}

#[test]
fn kept_slow_sheets() {
    let mut pair = Pair::rounds(94);
    for folder in ["benches/worst", "benches/sixteen"] {
        for entry in std::fs::read_dir(Path::new(env!("CARGO_MANIFEST_DIR")).join(folder)).unwrap() {
            let path = entry.unwrap().path();
            if path.extension().is_some_and(|ending| ending == "sheet") {
                let bytes = std::fs::read(path).unwrap();
                for rounds in [0, 1, 2, 8, u64::MAX] {
                    pair.compare(&bytes, (0, 1, rounds));
                }
            }
        }
    }
    assert!(pair.cases.both_answer + pair.cases.desk_21_beside_answer > 40);
}
