//! The desk's call (64 members, 512 moves) beside document 01's: each held to the reference at its own
//! limits, and the one to the other.

mod common;

use common::{pair::Pair, DESK_ANSWER, WORK};
use reference::{plain, Judgement};
use sheets::{
    alike_pair, damage, deepest_chain, draw, ladder_and_chain, six_tells, Draft, Rng, ASK, EITHER, SHAPES, STOP,
};
use std::path::Path;

// Sheets at the limits

/// On the left a loop over six facts that asks for one of these sets again and again: a member for each
/// store, with one move for each different rest of a set that the store lacks. On the right the same
/// loop, or node 0, which asks nothing for ever and is one member with one move.
fn loop_of_asks(sets: &[u16], alone: bool) -> Draft {
    let mut draft = Draft { facts: 6, nodes: vec![(ASK, 0, 0)], ..Draft::default() };
    let asks: Vec<u16> = sets.iter().map(|&set| draft.push(ASK, set, 0)).collect();
    let node = asks[1..].iter().fold(asks[0], |sofar, &ask| draft.push(EITHER, sofar, ask));
    for ask in asks {
        draft.nodes[ask as usize].2 = node;
    }
    draft.starts = vec![(0, vec![node as u8]), (0, vec![if alone { 0 } else { node as u8 }])];
    draft
}

/// Nothing, every set of one or two facts, and two sets of three. With a set its subsets are here too, so
/// a store has one move for each set that is disjoint from it, and a set of k facts is disjoint from 2 to
/// the power 6 - k stores: 64 + 6 * 32 + 15 * 16 + 2 * 8 = 512 moves.
fn sets_for_512_moves() -> Vec<u16> {
    let few = (0..64_u16).filter(|set| set.count_ones() <= 2);
    few.chain([0b000111, 0b111000]).collect()
}

#[test]
fn members_and_moves_at_the_limits() {
    let mut pair = Pair::new(51);
    let mut held = |draft: Draft, members: usize, moves: usize| {
        let bytes = draft.bytes();
        assert_eq!(plain::size(&bytes, 0, 1), Some((members, moves)));
        let (desk, other) = pair.compare_with_all_lengths(&bytes, (0, 1));
        assert_eq!(other.0, 0);
        desk.0
    };
    assert_eq!(held(six_tells((0..6).rev().collect()), 64, 192), 0);
    assert_eq!(held(six_tells(vec![]), 65, 192), 21);
    assert_eq!(held(ladder_and_chain(false), 63, 512), 0);
    assert_eq!(held(ladder_and_chain(true), 63, 513), 21);
    assert_eq!(held(loop_of_asks(&sets_for_512_moves(), false), 64, 512), 0);
    assert_eq!(held(loop_of_asks(&sets_for_512_moves(), true), 65, 513), 21);
}

#[test]
fn loops_with_many_moves() {
    let mut pair = Pair::new(58);
    let mut rng = Rng::new(502);
    let (mut within, mut beyond) = (0, 0);
    for _ in 0..200 {
        let mut sets: Vec<u16> = (0..64).collect();
        rng.shuffle(&mut sets);
        sets.truncate(30 + rng.below(3));
        let bytes = loop_of_asks(&sets, false).bytes();
        let (members, moves) = plain::size(&bytes, 0, 1).unwrap();
        assert!(members <= 64);
        let (desk, _) = pair.compare(&bytes, (0, 1));
        assert_eq!(desk.0, if moves > 512 { 21 } else { 0 });
        within += usize::from(moves <= 512);
        beyond += usize::from(moves > 512);
    }
    println!("{within} loops within the desk's moves, {beyond} beyond");
    assert!(within > 20 && beyond > 20);
}

#[test]
fn the_desks_limit_comes_before_a_short_answer() {
    let mut pair = Pair::new(52);
    let bytes = six_tells(vec![]).bytes();
    let judged = pair.judge(&bytes, (0, 1));
    let refused = |number, place| (number, [0, 0, 0, 0, 0, place]);
    // Two counts, the 64 members on the left with 192 threads in all, one without threads, one step.
    let needed = 4 + (5 * 64 + 192) + 5 + 7;
    for answer_len in [0, needed - 1] {
        assert_eq!(pair.hold(&judged, answer_len, WORK), (refused(21, 0), refused(22, needed)));
        assert_eq!(pair.hold(&judged, answer_len, WORK - 1), (refused(23, 0), refused(23, 0)));
    }
    let (desk, other) = pair.hold(&judged, needed, WORK);
    assert_eq!((desk, other.0), (refused(21, 0), 0));
}

// Random sheets

/// Of each shape this many sheets: 20,800 in all, a third of them alike pairs.
const EACH: usize = 1_600;

#[test]
fn sheets_of_every_shape() {
    let mut pair = Pair::new(53);
    for shape in &SHAPES {
        let mut rng = Rng::new(500);
        for i in 0..EACH {
            let draft = if i % 3 == 2 { alike_pair(shape, &mut rng) } else { draw(shape, &mut rng) };
            let starts = draft.starts.len();
            let (left, right) = if i % 3 == 2 { (0, 1) } else { (rng.below(starts), rng.below(starts)) };
            let bytes = draft.bytes();
            if i % 20 == 0 {
                pair.compare_with_all_lengths(&bytes, (left, right));
            } else {
                pair.compare(&bytes, (left, right));
            }
        }
    }
    let Pair { document, desk, cases } = &pair;
    println!("{} calls of each, {cases:?}", desk.calls);
    println!("the desk's longest report has {} bytes, the other call's {}", desk.longest, document.longest);
    assert!(cases.both_answer > 0 && cases.desk_21_beside_answer > 0 && cases.desk_21_beside_22 > 0);
    assert!(cases.both_21 > 0 && cases.both_22 > 0);
    assert!(desk.longest <= DESK_ANSWER && document.longest > DESK_ANSWER);
}

#[test]
fn damaged_sheets() {
    let mut pair = Pair::new(54);
    let mut rng = Rng::new(501);
    let mut seen = [0; 24];
    for i in 0..5_000 {
        let mut bytes = draw(&SHAPES[i % SHAPES.len()], &mut rng).bytes();
        damage(&mut bytes, &mut rng);
        let (left, right) = (rng.below(3), rng.below(3));
        let (desk, _) = if i % 20 == 0 {
            pair.compare_with_all_lengths(&bytes, (left, right))
        } else {
            pair.compare(&bytes, (left, right))
        };
        seen[desk.0 as usize] += 1;
    }
    println!("{seen:?}, {} calls of each, {:?}", pair.desk.calls, pair.cases);
    for number in [0, 1, 2, 3, 4, 5, 7, 8, 9, 10, 11, 12, 13, 14, 21] {
        assert!(seen[number] > 0, "{number} was not seen");
    }
    assert_eq!(seen[6], 0);
}

// Heavy sheets

/// The counts of members and of steps in a report's bytes.
fn counts(bytes: &[u8]) -> (u16, u16) {
    let number = |at: usize| u16::from_le_bytes([bytes[at], bytes[at + 1]]);
    let members = number(0);
    let end = (0..members).fold(2, |at, _| at + 5 + bytes[at + 2] as usize);
    (members, number(end))
}

/// The deepest chain, one ask shorter, beside seven threads that cannot move; it ends at an eighth.
fn longest_report() -> Draft {
    let mut draft = Draft { nodes: vec![(STOP, 0, 0), (EITHER, 0, 0)], ..Draft::default() };
    let first = draft.chain(62, 0, 1);
    let start = |thread: u8| (0, [vec![1; 7], vec![thread]].concat());
    draft.starts = vec![start(first), start(first - 1)];
    draft
}

#[test]
fn deep_trails() {
    let mut pair = Pair::new(55);
    for (draft, members, round, length) in [(deepest_chain(), 64, 63, 828), (longest_report(), 63, 62, 1_257)] {
        let bytes = draft.bytes();
        let (desk, _) = pair.compare_with_all_lengths(&bytes, (0, 1));
        let (number, [verdict, rounds, .., needed, _]) = desk;
        assert_eq!((number, verdict, rounds, needed), (0, 1, round, length));
        let Judgement::Answer { bytes, .. } = pair.judge(&bytes, (0, 1)).desk else { panic!("refused") };
        assert_eq!(counts(&bytes), (members, round as u16));
    }
}

#[test]
fn chains_beside_each_other() {
    let mut pair = Pair::new(56);
    for lengths in [&[7, 7][..], &[7, 8], &[3, 15], &[1, 31], &[1, 32], &[3, 3, 3], &[1; 6], &[1; 7], &[1; 8], &[2; 3]]
    {
        for facts in [0, 1, 2] {
            let mut draft = Draft { facts, nodes: vec![(STOP, 0, 0)], ..Draft::default() };
            let set = |i: usize| if facts == 0 { 0 } else { 1 << (i % facts) };
            let firsts: Vec<u8> =
                lengths.iter().enumerate().map(|(i, &length)| draft.chain(length, set(i), 0)).collect();
            let mut shorter = firsts.clone();
            *shorter.last_mut().unwrap() -= 1;
            draft.starts = vec![(0, firsts), (0, shorter)];
            pair.compare_with_all_lengths(&draft.bytes(), (0, 1));
        }
    }
    assert!(pair.desk.seen[0] > 5 && pair.desk.seen[21] > 5, "{:?}", pair.desk.seen);
}

#[test]
fn kept_slow_sheets() {
    let mut pair = Pair::new(57);
    let folder = Path::new(env!("CARGO_MANIFEST_DIR")).join("benches/worst");
    for entry in std::fs::read_dir(folder).unwrap() {
        let path = entry.unwrap().path();
        if path.extension().is_some_and(|ending| ending == "sheet") {
            pair.compare(&std::fs::read(path).unwrap(), (0, 1));
        }
    }
}
