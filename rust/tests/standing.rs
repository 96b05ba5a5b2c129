//! Facts that always stand: rules with an empty premise. The library held to answers worked out by hand, to
//! the reference on random sheets, and to its own answers on the same sheets without those facts.

mod common;

use common::{pair::Pair, Call, CompareAll, CompareRounds, EveryStart, Harness};
use hofadiju::{compare, compare_all, compare_desk, compare_rounds};
use sheets::{
    alike_pair, damage, draw, sheet_k, variants, with_standing, without_standing, Draft, Rng, Shape, ASK, BOTH, EITHER,
    SHAPES, STOP, TELL,
};
use std::path::Path;

/// The library's five calls.
struct Calls {
    two: Pair,
    rounds: Pair<CompareRounds, 5>,
    all: Harness<CompareAll, 3>,
}

impl Calls {
    fn new(seed: u64) -> Calls {
        Calls { two: Pair::new(seed), rounds: Pair::rounds(seed), all: Harness::all(seed) }
    }

    /// All five held to the reference, with slices that suffice or of many lengths. Gives the number of the
    /// comparing call.
    fn hold(&mut self, sheet: &[u8], (left, right): (usize, usize), rounds: u64, all_lengths: bool) -> u32 {
        if all_lengths {
            self.all.compare_with_all_lengths(sheet, EveryStart);
            self.rounds.compare_with_all_lengths(sheet, (left, right, rounds));
            self.two.compare_with_all_lengths(sheet, (left, right)).1 .0
        } else {
            self.all.compare(sheet, EveryStart);
            self.rounds.compare(sheet, (left, right, rounds));
            self.two.compare(sheet, (left, right)).1 .0
        }
    }
}

// Worked out by hand

/// The report's text, after every call is held to the reference with slices of many lengths.
fn text(draft: &Draft, left: usize, right: usize) -> String {
    let bytes = draft.bytes();
    let mut calls = Calls::new(100);
    for rounds in [0, 1, 2, u64::MAX] {
        calls.hold(&bytes, (left, right), rounds, true);
    }
    let report = compare(&bytes, left, right).unwrap();
    assert_eq!(compare_desk(&bytes, left, right).as_ref(), Ok(&report));
    report.to_string()
}

/// Starts of one thread each, at store 0.
fn at_store_0(threads: &[u8]) -> Vec<(u16, Vec<u8>)> {
    threads.iter().map(|&thread| (0, vec![thread])).collect()
}

#[test]
fn a_tell_and_an_ask() {
    // Fact 0 stands, so both starts are at store 1. The tell has label 1; the ask lacks fact 1 and has label 3,
    // which is {1} closed. The right has no move with label 1.
    let nodes = vec![(STOP, 0, 0), (TELL, 2, 0), (ASK, 2, 0)];
    let draft = Draft { facts: 2, rules: vec![(0, 1)], nodes, starts: at_store_0(&[1, 2]) };
    assert_eq!(text(&draft, 0, 1), "DIFF 1\nCONFIGURATIONS 3\n0 1 0 1\n1 1 1 2\n2 3 2 -\nTRAIL 1\nL 1 2 -\n");
    // With the ask on the left its move is tried first, and the tell has none with label 3.
    assert_eq!(text(&draft, 1, 0), "DIFF 1\nCONFIGURATIONS 3\n0 1 0 1\n1 1 1 2\n2 3 2 -\nTRAIL 1\nL 3 2 -\n");
}

#[test]
fn a_start_at_store_0_is_shown_at_the_least_store() {
    // Stores 0 and 1 are the same store where fact 0 stands, and the two starts one member. Store 2 is 3.
    let nodes = vec![(STOP, 0, 0), (TELL, 2, 0)];
    let starts = vec![(0, vec![1]), (1, vec![1]), (2, vec![])];
    let mut draft = Draft { facts: 2, rules: vec![(0, 1)], nodes, starts };
    assert_eq!(text(&draft, 0, 1), "SAME 0\nCONFIGURATIONS 2\n0 1 0 1\n1 3 1 -\nTRAIL 0\n");
    assert_eq!(text(&draft, 0, 2), "DIFF 0\nCONFIGURATIONS 2\n0 1 0 1\n1 3 1 -\nTRAIL 0\n");
    let report = compare(&draft.bytes(), 0, 1).unwrap();
    assert_eq!((report.left, report.right), (0, 0));
    // Without the rule they are two stores.
    draft.rules.clear();
    assert_eq!(text(&draft, 0, 1), "DIFF 0\nCONFIGURATIONS 4\n0 0 0 1\n1 1 1 1\n2 2 2 -\n3 3 3 -\nTRAIL 0\n");
}

/// Fact 0 stands and by the rules before it facts 1 and 2 do too; fact 3 does not. Nodes: ask {2}, which
/// stands; tell nothing; ask {3}.
fn fired_chain() -> Draft {
    let nodes = vec![(STOP, 0, 0), (ASK, 4, 0), (TELL, 0, 0), (ASK, 8, 0)];
    Draft { facts: 4, rules: vec![(2, 4), (1, 2), (0, 1)], nodes, starts: at_store_0(&[1, 2, 3]) }
}

#[test]
fn a_standing_fact_fires_a_chain_of_rules() {
    let draft = fired_chain();
    assert_eq!(draft.least(), 7);
    // The ask of what stands reduces at once, as the tell of nothing does.
    assert_eq!(text(&draft, 0, 1), "SAME 1\nCONFIGURATIONS 3\n0 7 0 -\n1 7 1 1\n2 7 1 2\nTRAIL 0\n");
    // The ask of {3} has label 15, {3} and all that stands; the tell's label 7 has no reply.
    assert_eq!(text(&draft, 1, 2), "DIFF 1\nCONFIGURATIONS 4\n0 7 0 -\n1 7 1 2\n2 7 2 3\n3 15 3 -\nTRAIL 1\nL 7 0 -\n");
    // All starts, and two of them after no round and after one: at store 7 are nothing, [2] and [3].
    let bytes = draft.bytes();
    assert_eq!(compare_all(&bytes).unwrap().to_string(), "CLASSES 2 1\n0 1\n2\n");
    let after = |rounds| compare_rounds(&bytes, 1, 2, rounds).unwrap().to_string();
    assert_eq!(after(0), "OPEN 2 4\n0 7 0 -\n1 7 0 2\n2 7 0 3\n3 15 1 -\n");
    assert_eq!(after(1), "DIFF 4 4\n0 7 0 -\n1 7 1 2\n2 7 2 3\n3 15 3 -\n");
}

#[test]
fn nothing_on_both_sides_of_a_rule() {
    // Two tells of nothing and one: the left's first step leads to one tell, the right's to none, and from
    // there only the left goes on.
    let nodes = vec![(STOP, 0, 0), (TELL, 0, 0), (BOTH, 1, 1)];
    let mut draft = Draft { facts: 0, rules: vec![(0, 0)], nodes, starts: at_store_0(&[2, 1]) };
    let expected = "DIFF 2\nCONFIGURATIONS 3\n0 0 0 -\n1 0 1 1\n2 0 2 1+1\nTRAIL 2\nL 0 1 0\nL 0 0 -\n";
    for rules in [vec![], vec![(0, 0)], vec![(0, 0); 32]] {
        draft.rules = rules;
        assert_eq!(text(&draft, 0, 1), expected);
    }
}

#[test]
fn a_move_that_the_least_label_makes_redundant() {
    // Either of telling nothing (label 1, to store 1) and of the ask (label 3, to store 3). The first with 3
    // added is where the second leads, so the second is redundant, and the tell alone is alike.
    let nodes = vec![(STOP, 0, 0), (TELL, 0, 0), (ASK, 2, 0), (EITHER, 1, 2)];
    let draft = Draft { facts: 2, rules: vec![(0, 1)], nodes, starts: at_store_0(&[1, 2, 3]) };
    assert_eq!(text(&draft, 0, 2), "SAME 1\nCONFIGURATIONS 4\n0 1 0 -\n1 1 1 1\n2 1 1 3\n3 3 2 -\nTRAIL 0\n");
    // The ask alone answers the either's ask, but not its tell.
    assert_eq!(text(&draft, 1, 2), "DIFF 1\nCONFIGURATIONS 4\n0 1 0 -\n1 1 1 2\n2 1 2 3\n3 3 3 -\nTRAIL 1\nR 1 0 -\n");
}

#[test]
fn two_labels_beside_what_stands() {
    // Document 01's sheet L with fact 3, which stands: ask {2} at store {0} has the labels {1} and {2}, both
    // with fact 3. By the first the store gets fact 2 too. The first of the two has no reply.
    let nodes = vec![(STOP, 0, 0), (ASK, 4, 0)];
    let starts = vec![(1, vec![1]), (1, vec![])];
    let draft = Draft { facts: 4, rules: vec![(3, 4), (0, 8)], nodes, starts };
    assert_eq!(
        text(&draft, 0, 1),
        "DIFF 1\nCONFIGURATIONS 4\n0 9 0 -\n1 9 1 1\n2 13 2 -\n3 15 3 -\nTRAIL 1\nL 10 3 -\n"
    );
}

#[test]
fn every_fact_stands() {
    // There is one store, and a tell and an ask of anything have its number as label.
    let nodes = vec![(TELL, 5, 0), (ASK, 3, 2), (STOP, 0, 0)];
    let starts = vec![(0, vec![0]), (4, vec![1]), (2, vec![])];
    let draft = Draft { facts: 3, rules: vec![(0, 7)], nodes, starts };
    assert_eq!(text(&draft, 0, 1), "SAME 1\nCONFIGURATIONS 3\n0 7 0 -\n1 7 1 0\n2 7 1 1\nTRAIL 0\n");
    assert_eq!(text(&draft, 0, 2), "DIFF 1\nCONFIGURATIONS 2\n0 7 0 -\n1 7 1 0\nTRAIL 1\nL 7 0 -\n");
}

/// Sheet K of document 01 with one fact before the others, which stands.
fn k_with_standing(left: u8, right: u8) -> Draft {
    let k = sheet_k(&[(0, &[left]), (0, &[right])]);
    let nodes = k.nodes.into_iter().map(|(kind, first, second)| match kind {
        TELL | ASK => (kind, 2 * first, second),
        _ => (kind, first, second),
    });
    Draft { facts: 4, rules: vec![(4, 2), (0, 1)], nodes: nodes.collect(), starts: k.starts }
}

#[test]
fn sheet_k_with_one_fact_that_stands() {
    // Document 01's stores 0, 1, 3 and 7 become 1, 3, 7 and 15, and its label 3 becomes 7.
    assert_eq!(
        text(&k_with_standing(2, 4), 0, 1),
        "SAME 1\nCONFIGURATIONS 6\n0 1 0 2\n1 1 0 4\n2 3 1 -\n3 3 2 1\n4 7 3 -\n5 7 4 1\nTRAIL 0\n"
    );
    assert_eq!(
        text(&k_with_standing(2, 7), 0, 1),
        "DIFF 2\nCONFIGURATIONS 8\n0 1 0 2\n1 1 1 7\n2 3 2 -\n3 3 3 1\n4 7 4 -\n5 7 5 1\n6 7 6 5\n7 15 7 -\n\
         TRAIL 1\nR 7 6 -\n"
    );
    assert_eq!(
        text(&k_with_standing(8, 1), 0, 1),
        "DIFF 2\nCONFIGURATIONS 3\n0 1 0 -\n1 1 1 1\n2 1 2 1+1\nTRAIL 2\nL 1 1 0\nL 1 0 -\n"
    );
}

// Reading

#[test]
fn absent_facts_in_the_conclusion_of_an_empty_premise() {
    let mut calls = Calls::new(101);
    for facts in 0..=12 {
        let every = ((1_u32 << facts) - 1) as u16;
        let sheet = |rules: &[(u16, u16)]| {
            let nodes = vec![(TELL, 0, 0), (ASK, every, 0)];
            Draft { facts, rules: rules.to_vec(), nodes, starts: at_store_0(&[0, 1]) }.bytes()
        };
        assert_eq!(calls.hold(&sheet(&[(0, every)]), (0, 1), 1, true), 0);
        // Two counts, the names, and two bytes for the premise.
        let place = 2 + 8 * facts + 2;
        for absent in [1 << facts, 1 << 15, u16::MAX] {
            let refused = (5, [0, 0, 0, 0, 0, place]);
            assert_eq!(calls.two.compare(&sheet(&[(0, absent)]), (0, 1)), (refused, refused));
            calls.hold(&sheet(&[(0, absent)]), (0, 1), 1, true);
            let refused = (5, [0, 0, 0, 0, 0, place + 4]);
            assert_eq!(calls.two.compare(&sheet(&[(0, 0), (0, absent)]), (0, 1)), (refused, refused));
        }
    }
}

#[test]
fn a_rule_of_nothing_says_nothing() {
    let mut harness = Harness::new(102);
    let mut rng = Rng::new(801);
    let mut reports = 0;
    for i in 0..2_600 {
        let mut draft = drawn(&SHAPES[i % SHAPES.len()], i, &mut rng);
        if draft.rules.len() == 32 {
            draft.rules.pop();
        }
        let room = harness.room();
        let (returned, answer) = harness.alone(&draft.bytes(), (0, 1), room);
        let before = (returned, answer.to_vec());
        let place = rng.below(draft.rules.len() + 1);
        draft.rules.insert(place, (0, 0));
        let (returned, answer) = harness.alone(&draft.bytes(), (0, 1), room);
        assert_eq!((returned, answer.to_vec()), before, "{draft:?}");
        harness.compare(&draft.bytes(), (0, 1));
        reports += usize::from(returned.0 == 0);
    }
    assert!(reports > 2_000);
}

// Random sheets

/// Of each shape this many sheets: 20,800 in all, as drawn, alike pairs, and variants of a start.
const EACH: usize = 1_600;

fn drawn(shape: &Shape, i: usize, rng: &mut Rng) -> Draft {
    let many = shape.with_starts(2, 16);
    let draft = match i % 3 {
        0 => draw(&many, rng),
        1 => alike_pair(shape, rng),
        _ => variants(&many, rng),
    };
    with_standing(draft, rng)
}

/// Two starts of a sheet; those of an alike pair are 0 and 1.
fn chosen(draft: &Draft, i: usize, rng: &mut Rng) -> (usize, usize) {
    let starts = draft.starts.len();
    match i % 3 {
        1 => (0, 1),
        _ => (rng.below(starts), rng.below(starts)),
    }
}

/// How many sheets have a least store of 0, of all facts, and between the two.
#[derive(Debug, Default)]
struct Least {
    empty: usize,
    full: usize,
    between: usize,
}

impl Least {
    fn count(&mut self, draft: &Draft) {
        let least = draft.least();
        let count = match least {
            0 => &mut self.empty,
            _ if least.count_ones() as usize == draft.facts => &mut self.full,
            _ => &mut self.between,
        };
        *count += 1;
    }
}

#[test]
fn sheets_of_every_shape() {
    let mut calls = Calls::new(103);
    let mut least = Least::default();
    let mut seen = [0; 24];
    for shape in &SHAPES {
        let mut rng = Rng::new(802);
        for i in 0..EACH {
            let draft = drawn(shape, i, &mut rng);
            least.count(&draft);
            let starts = chosen(&draft, i, &mut rng);
            let rounds = rng.pick(&[0, 0, 1, 1, 2, 3, 5, u64::MAX]);
            seen[calls.hold(&draft.bytes(), starts, rounds, i % 20 == 0) as usize] += 1;
        }
    }
    let Calls { two, rounds, all } = &calls;
    println!("{} sheets, {} reports, {} too large, {least:?}", EACH * SHAPES.len(), seen[0], seen[21]);
    println!("two starts: {:?}", two.cases);
    println!("after so many rounds: {:?}", rounds.cases);
    println!("all starts: {} answers, {} too large", all.seen[0], all.seen[21]);
    // A copied node may open to one thread more than its own, where a both of two stops became an either; so a
    // start may rarely have nine threads (12). Every other sheet is well formed.
    assert_eq!(seen[0] + seen[21] + seen[12], EACH * SHAPES.len());
    assert!(seen[12] < 10);
    assert!(least.empty > 1_000 && least.full > 1_000 && least.between > 10_000);
    for cases in [&two.cases, &rounds.cases] {
        assert!(cases.both_answer > 10_000 && cases.both_21 > 500 && cases.both_22 > 500);
        assert!(cases.desk_21_beside_answer > 500 && cases.desk_21_beside_22 > 10);
    }
    assert!(all.seen[0] > 15_000 && all.seen[21] > 500);
}

#[test]
fn damaged_sheets() {
    let mut calls = Calls::new(104);
    let mut rng = Rng::new(803);
    let mut seen = [0; 24];
    for i in 0..7_800 {
        let mut bytes = drawn(&SHAPES[i % SHAPES.len()], i, &mut rng).bytes();
        damage(&mut bytes, &mut rng);
        let starts = (rng.below(3), rng.below(3));
        let rounds = rng.pick(&[0, 1, 2, 3, 7, u64::MAX]);
        seen[calls.hold(&bytes, starts, rounds, i % 20 == 0) as usize] += 1;
    }
    println!("{seen:?}");
    for number in [0, 1, 2, 3, 4, 5, 7, 8, 9, 10, 11, 12, 13, 14, 21] {
        assert!(seen[number] > 0, "{number} was not seen");
    }
    assert_eq!(seen[6], 0);
}

#[test]
fn every_cut_and_every_byte_of_a_sheet() {
    let mut pair = Pair::new(105);
    let mut all = Harness::all(105);
    let bytes = k_with_standing(2, 7).bytes();
    for end in 0..bytes.len() {
        let refused = (1, [0, 0, 0, 0, 0, end]);
        assert_eq!(pair.compare(&bytes[..end], (0, 1)), (refused, refused));
        assert_eq!(all.compare(&bytes[..end], EveryStart), (1, [0, 0, end]));
    }
    for at in 0..bytes.len() {
        for value in 0..=255 {
            let mut changed = bytes.clone();
            changed[at] = value;
            pair.compare(&changed, (0, 1));
            all.compare(&changed, EveryStart);
        }
    }
}

/// The sheets that are kept for being slow, with facts that stand.
fn kept_slow_sheets(rng: &mut Rng) -> Vec<Draft> {
    let mut drafts = vec![];
    for folder in ["benches/worst", "benches/sixteen"] {
        for entry in std::fs::read_dir(Path::new(env!("CARGO_MANIFEST_DIR")).join(folder)).unwrap() {
            let path = entry.unwrap().path();
            if path.extension().is_some_and(|ending| ending == "sheet") {
                let draft = Draft::read(&std::fs::read(path).unwrap()).unwrap();
                drafts.extend((0..4).map(|_| with_standing(draft.clone(), rng)));
            }
        }
    }
    drafts
}

#[test]
fn slow_sheets() {
    let mut calls = Calls::new(106);
    let mut rng = Rng::new(804);
    for draft in kept_slow_sheets(&mut rng) {
        let number = calls.hold(&draft.bytes(), (0, 1), rng.pick(&[0, 1, 2, 8]), false);
        assert!(matches!(number, 0 | 21), "{draft:?}");
    }
}

// The same sheet without the facts that stand

/// The answer's bytes with these facts, which are in none of them, in every store and in every label of a
/// trail.
fn raised(answer: &[u8], facts: u16, trail: bool) -> Vec<u8> {
    let mut bytes = answer.to_vec();
    let number = |at: usize| u16::from_le_bytes([answer[at], answer[at + 1]]);
    let mut raise = |at: usize| {
        assert_eq!(number(at) & facts, 0);
        bytes[at..at + 2].copy_from_slice(&(number(at) | facts).to_le_bytes());
    };
    let mut at = 2;
    for _ in 0..number(0) {
        raise(at);
        at += 5 + usize::from(answer[at + 2]);
    }
    if trail {
        let steps = number(at);
        for step in 0..usize::from(steps) {
            raise(at + 3 + 7 * step);
        }
    }
    bytes
}

/// The sheet with the facts that stand in every set of its nodes and starts.
fn joined(draft: &Draft) -> Draft {
    let least = draft.least();
    let nodes = draft.nodes.iter().map(|&(kind, first, second)| match kind {
        TELL | ASK => (kind, first | least, second),
        _ => (kind, first, second),
    });
    let starts = draft.starts.iter().map(|(store, threads)| (store | least, threads.clone()));
    Draft { facts: draft.facts, rules: draft.rules.clone(), nodes: nodes.collect(), starts: starts.collect() }
}

/// The sheet without the rules (0, 0).
fn without_idle_rules(draft: &Draft) -> Draft {
    let rules = draft.rules.iter().copied().filter(|&rule| rule != (0, 0));
    Draft { rules: rules.collect(), ..draft.clone() }
}

/// A sheet in three other writings, and the facts that stand.
struct Writings {
    own: Vec<u8>,
    /// The facts that stand are in all sets of nodes and starts.
    joined: Vec<u8>,
    /// They are in no set; then rules that say nothing are left out too, so that no premise is empty.
    without: [Vec<u8>; 2],
    least: u16,
}

impl Writings {
    fn new(draft: &Draft) -> Writings {
        let without = without_standing(draft);
        assert_eq!(without.least(), 0);
        let bare = without_idle_rules(&without);
        assert!(bare.rules.iter().all(|&(premise, _)| premise != 0));
        Writings {
            own: draft.bytes(),
            joined: joined(draft).bytes(),
            without: [without, bare].map(|draft| draft.bytes()),
            least: draft.least(),
        }
    }

    /// One call on all of them: the same numbers, and the same bytes but for what stands. Gives what is
    /// returned.
    fn hold<C: Call<N>, const N: usize>(
        &self,
        harness: &mut Harness<C, N>,
        choice: C::Choice,
        trail: bool,
    ) -> (u32, [usize; N]) {
        let room = harness.room();
        let needed = match harness.alone(&self.own, choice, room).0 {
            (0, numbers) => numbers[N - 2],
            _ => room,
        };
        for answer_len in [room, needed, needed - 1, 0] {
            let (returned, answer) = harness.alone(&self.own, choice, answer_len);
            let answer = answer.to_vec();
            let other = harness.alone(&self.joined, choice, answer_len);
            assert_eq!(other, (returned, &answer[..]), "joined, {choice:?}: {:?}", self.own);
            for without in &self.without {
                let (other, bytes) = harness.alone(without, choice, answer_len);
                assert_eq!(other, returned, "{choice:?}: {:?}", self.own);
                if returned.0 == 0 {
                    assert_eq!(raised(bytes, self.least, trail), answer, "{choice:?}: {:?}", self.own);
                }
            }
        }
        harness.alone(&self.own, choice, room).0
    }
}

/// The five calls on sheets and on the same sheets without what stands.
struct Law {
    two: [Harness; 2],
    rounds: [Harness<CompareRounds, 5>; 2],
    all: Harness<CompareAll, 3>,
    least: Least,
    /// How often each call gave an answer and 21: two starts, so many rounds, all starts.
    answers: [usize; 3],
    too_large: [usize; 3],
    /// How many trails have a step, where some fact stands.
    trails: usize,
}

impl Law {
    fn new(seed: u64) -> Law {
        Law {
            two: [Harness::new(seed), Harness::desk(seed)],
            rounds: [Harness::rounds(seed), Harness::rounds_desk(seed)],
            all: Harness::all(seed),
            least: Least::default(),
            answers: [0; 3],
            too_large: [0; 3],
            trails: 0,
        }
    }

    fn hold(&mut self, draft: &Draft, (left, right): (usize, usize), rounds: u64) {
        self.least.count(draft);
        let writings = Writings::new(draft);
        let Law { answers, too_large, .. } = self;
        let mut count = |call: usize, number: u32| {
            answers[call] += usize::from(number == 0);
            too_large[call] += usize::from(number == 21);
        };
        for harness in &mut self.two {
            let (number, [verdict, round, ..]) = writings.hold(harness, (left, right), true);
            count(0, number);
            self.trails += usize::from(writings.least != 0 && number == 0 && verdict == 1 && round > 0);
        }
        for harness in &mut self.rounds {
            count(1, writings.hold(harness, (left, right, rounds), false).0);
        }
        count(2, writings.hold(&mut self.all, EveryStart, false).0);
    }
}

#[test]
fn the_same_without_what_stands() {
    let mut law = Law::new(107);
    for shape in &SHAPES {
        let mut rng = Rng::new(805);
        for i in 0..EACH {
            let draft = drawn(shape, i, &mut rng);
            let starts = chosen(&draft, i, &mut rng);
            law.hold(&draft, starts, rng.pick(&[0, 1, 2, 3, u64::MAX]));
        }
    }
    let Law { least, answers, too_large, trails, .. } = &law;
    println!("{} sheets, {least:?}, {trails} trails", EACH * SHAPES.len());
    println!("two starts, after so many rounds, all starts: {answers:?} answers, {too_large:?} too large");
    assert!(least.between > 10_000 && *trails > 5_000);
    assert!(answers.iter().all(|&count| count > 10_000) && too_large.iter().all(|&count| count > 500));
}

#[test]
fn slow_sheets_without_what_stands() {
    let mut law = Law::new(108);
    let mut rng = Rng::new(806);
    for draft in kept_slow_sheets(&mut rng) {
        law.hold(&draft, (0, 1), rng.pick(&[0, 1, 2, 8]));
    }
    assert!(law.least.between > 0);
}
