//! The library held to the reference on heavy sheets: near the limits, deep, or slow in some part.

mod common;

use common::Harness;
use sheets::{draw, Draft, Rng, Shape, ASK, BOTH, EITHER, SHAPES, STOP, TELL};
use std::path::Path;

/// A draft without facts, whose node 0 is stop.
fn bare() -> Draft {
    Draft { facts: 0, rules: vec![], nodes: vec![(STOP, 0, 0)], starts: vec![] }
}

fn compare(harness: &mut Harness, draft: &Draft) {
    assert!(draft.nodes.len() <= 64);
    assert!(matches!(harness.compare_with_all_lengths(&draft.bytes(), (0, 1)).0, 0 | 21));
}

#[test]
fn chains_beside_each_other() {
    let mut harness = Harness::new(41);
    for lengths in [&[62][..], &[30, 31], &[15, 31], &[21, 22], &[20, 20], &[7, 7, 7], &[4, 4, 4, 3], &[1; 8], &[2; 6]]
    {
        for facts in [0, 1, 2] {
            let mut draft = Draft { facts, ..bare() };
            let set = |i: usize| if facts == 0 { 0 } else { 1 << (i % facts) };
            let firsts: Vec<u8> =
                lengths.iter().enumerate().map(|(i, &length)| draft.chain(length, set(i), 0)).collect();
            let mut shorter = firsts.clone();
            *shorter.last_mut().unwrap() -= 1;
            draft.starts = vec![(0, firsts), (0, shorter)];
            compare(&mut harness, &draft);
        }
    }
    assert!(harness.seen[0] > 10 && harness.seen[21] > 5);
}

/// A tell inside levels of eithers over boths, each with another part beside it that cannot move: one
/// node that comes to its tell in very many ways.
fn nested(levels: usize, choices: usize, doubled: usize) -> Draft {
    let mut draft = bare();
    let mut inner = draft.push(TELL, 0, 0);
    for _ in 0..levels {
        let mut outer = None;
        for _ in 0..choices {
            let beside = draft.push(EITHER, 0, 0);
            let both = draft.push(BOTH, inner, beside);
            outer = Some(outer.map_or(both, |outer| draft.push(EITHER, outer, both)));
        }
        inner = outer.unwrap();
    }
    for _ in 0..doubled {
        inner = draft.push(EITHER, inner, inner);
    }
    draft.starts = vec![(0, vec![inner as u8]), (0, vec![inner as u8 - 1])];
    draft
}

/// The same with one part beside the tell in each level that may be there or not: 2 to the power
/// `levels` lists of threads beside the tell, and `doubled` eithers of the same node twice above them.
fn optional(levels: usize, doubled: usize) -> Draft {
    let mut draft = bare();
    let mut inner = draft.push(TELL, 0, 0);
    for _ in 0..levels {
        let beside = draft.push(EITHER, 0, 0);
        let both = draft.push(BOTH, inner, beside);
        inner = draft.push(EITHER, both, inner);
    }
    for _ in 0..doubled {
        inner = draft.push(EITHER, inner, inner);
    }
    draft.starts = vec![(0, vec![inner as u8]), (0, vec![inner as u8 - 1])];
    draft
}

#[test]
fn nested_nodes() {
    let mut harness = Harness::new(42);
    for (levels, choices) in
        [(1, 2), (2, 2), (4, 2), (6, 2), (7, 2), (8, 2), (3, 3), (5, 3), (4, 4), (9, 2), (7, 1), (2, 8)]
    {
        for doubled in [0, 1, 3] {
            compare(&mut harness, &nested(levels, choices, doubled));
        }
    }
    // Sixty eithers, each of the one before it twice.
    compare(&mut harness, &nested(0, 1, 60));
    for levels in 1..=9 {
        for doubled in [0, 1, 2, 5] {
            compare(&mut harness, &optional(levels, doubled));
        }
    }
    compare(&mut harness, &optional(7, 38));
}

/// The most that 64 nodes allow.
#[test]
fn nested_as_deep_as_can_be() {
    compare(&mut Harness::new(47), &optional(8, 38));
}

/// Facts that are worth each other where fact 0 is there, and a loop that asks for many sets of them at
/// every store.
fn coinciding_labels(facts: usize, alike: usize) -> Draft {
    let group: u16 = ((1 << alike) - 1) << 1;
    let rules = (1..=alike).map(|fact| (1 | 1 << fact, group)).collect();
    let mut draft = Draft { facts, rules, ..bare() };
    let loops: Vec<u16> = (alike + 1..facts).map(|fact| draft.push(ASK, 1 << fact, 0)).collect();
    let asks: Vec<u16> = (1..1 << alike).take(20).map(|set: u16| draft.push(ASK, set << 1, 0)).collect();
    let all = [loops.clone(), asks].concat();
    let node = all[1..].iter().fold(all[0], |sofar, &ask| draft.push(EITHER, sofar, ask));
    for ask in loops {
        draft.nodes[ask as usize].2 = node;
    }
    draft.starts = vec![(1, vec![node as u8]), (1, vec![node as u8 - 1])];
    draft
}

#[test]
fn asks_with_the_same_labels() {
    let mut harness = Harness::new(43);
    for facts in [5, 8, 10, 12] {
        for alike in 2..facts - 2 {
            compare(&mut harness, &coinciding_labels(facts, alike));
        }
    }
}

#[test]
fn rules_that_give_many_labels() {
    let mut harness = Harness::new(44);
    let mut rng = Rng::new(400);
    for i in 0..200 {
        let facts = 8 + i % 5;
        let last = 1 << (facts - 1);
        let rules = (0..32).map(|_| (rng.some_set(facts - 1, 5), rng.pick(&[last, last, 1, 2]))).collect();
        let mut draft = Draft { facts, rules, ..bare() };
        for _ in 0..1 + rng.below(3) {
            let beside = draft.push(EITHER, 0, 0);
            draft.push(ASK, last | rng.set(facts, 1), beside);
        }
        let threads: Vec<u8> = (2..draft.nodes.len() as u8).step_by(2).collect();
        draft.starts = vec![(0, threads.clone()), (rng.set(facts, 2), threads)];
        compare(&mut harness, &draft);
    }
}

#[test]
fn many_members() {
    let mut harness = Harness::new(45);
    let mut rng = Rng::new(401);
    let medium = SHAPES.iter().find(|shape| shape.name == "medium").unwrap();
    let shape = Shape { nodes: (30, 60), facts: (1, 6), rules: (0, 4), threads: (2, 4), store: 2, ..medium.clone() };
    let mut large = 0;
    for _ in 0..3_000 {
        let (number, result) = harness.compare(&draw(&shape, &mut rng).bytes(), (0, 1));
        large += usize::from(number == 0 && result[4] > 1_500);
    }
    println!("{large} large reports of {}", harness.seen[0]);
    assert!(large > 50);
}

#[test]
fn kept_slow_sheets() {
    let mut harness = Harness::new(46);
    let folder = Path::new(env!("CARGO_MANIFEST_DIR")).join("benches/worst");
    for entry in std::fs::read_dir(folder).unwrap() {
        let path = entry.unwrap().path();
        if path.extension().is_some_and(|ending| ending == "sheet") {
            harness.compare(&std::fs::read(path).unwrap(), (0, 1));
        }
    }
}
