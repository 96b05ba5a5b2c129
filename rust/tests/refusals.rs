//! Each refusal of document 01, its condition just met and just not met; 6 is gone by card 2 of document 02.
//! The desk's own numbers for 21 are in desk.rs, the limits over all starts in all_starts.rs, and slices
//! after so many rounds in rounds_bound.rs.

mod common;

use common::{Harness, ANSWER, WORK};
use reference::plain;
use sheets::{Draft, ASK, BOTH, EITHER, STOP, TELL};

/// Two facts, one rule, three nodes, two starts: a sheet with nothing wrong.
fn good() -> Draft {
    Draft {
        facts: 2,
        rules: vec![(1, 2)],
        nodes: vec![(STOP, 0, 0), (TELL, 1, 0), (ASK, 2, 1)],
        starts: vec![(0, vec![1]), (0, vec![2, 1])],
    }
}

// Where the names of `good` begin, and the counts of its rules, nodes and starts stand.
const NAMES: usize = 1;
const RULES: usize = 17;
const NODES: usize = 22;
const STARTS: usize = 38;

fn number(draft: &Draft) -> (u32, usize) {
    number_of(&draft.bytes())
}

/// For document 01's call and for the desk's.
fn harnesses() -> [Harness; 2] {
    [Harness::new(1), Harness::desk(1)]
}

/// The desk's call and that of all starts are held too: they give the same, or 21 beside a report. So are
/// the calls after so many rounds, which give what the calls with their limits do.
fn number_of(bytes: &[u8]) -> (u32, usize) {
    let [number, desk] = harnesses().map(|mut harness| harness.number(bytes));
    let all = Harness::all(1).number(bytes);
    for other in [desk, all] {
        assert!(other == number || other == (21, 0) && number == (0, 0), "{other:?} {number:?} {bytes:?}");
    }
    for rounds in [0, u64::MAX] {
        let after = [Harness::rounds(1), Harness::rounds_desk(1)].map(|mut harness| harness.number(bytes, rounds));
        assert_eq!(after, [number, desk], "{rounds} rounds, {bytes:?}");
    }
    number
}

/// The good sheet with one byte changed.
fn with_byte(at: usize, value: u8) -> (u32, usize) {
    let mut bytes = good().bytes();
    bytes[at] = value;
    number_of(&bytes)
}

#[test]
fn the_good_sheet_is_not_refused() {
    assert_eq!(number(&good()), (0, 0));
}

#[test]
fn refusal_1_cut_off() {
    let bytes = good().bytes();
    for end in 0..bytes.len() {
        assert_eq!(number_of(&bytes[..end]), (1, end));
    }
    // In one field 1 comes first: a cut name is not looked at, nor half a set.
    let mut name = bytes[..NAMES + 7].to_vec();
    name[NAMES] = 0;
    assert_eq!(number_of(&name), (1, NAMES + 7));
    let mut set = bytes[..RULES + 2].to_vec();
    set[RULES + 1] = 255;
    assert_eq!(number_of(&set), (1, RULES + 2));
}

#[test]
fn refusal_2_facts() {
    let facts = |facts| number(&Draft { facts, ..good() });
    assert_eq!(facts(12), (0, 0));
    assert_eq!(facts(13), (2, 0));
    assert_eq!(with_byte(0, 255), (2, 0));
    assert_eq!(number_of(&[13]), (2, 0));
    assert_eq!(number_of(&[12]), (1, 1));
}

#[test]
fn refusal_3_name_bytes() {
    for at in NAMES..RULES {
        for value in [32, 126] {
            assert_eq!(with_byte(at, value), (0, 0));
        }
        for value in [31, 127, 0, 255, 128] {
            assert_eq!(with_byte(at, value), (3, at));
        }
    }
    // The name's first such byte.
    let mut bytes = good().bytes();
    (bytes[NAMES + 9], bytes[NAMES + 12]) = (7, 7);
    assert_eq!(number_of(&bytes), (3, NAMES + 9));
}

#[test]
fn refusal_4_rules() {
    let rules = |count| number(&Draft { rules: vec![(1, 2); count], ..good() });
    assert_eq!(rules(32), (0, 0));
    assert_eq!(rules(33), (4, RULES));
    assert_eq!(with_byte(RULES, 255), (4, RULES));
}

#[test]
fn refusal_5_absent_facts() {
    for at in [RULES + 1, RULES + 3, NODES + 7, NODES + 12, STARTS + 1, STARTS + 5] {
        assert_eq!(with_byte(at, 3), (0, 0));
        assert_eq!(with_byte(at, 4), (5, at));
        assert_eq!(with_byte(at + 1, 1), (5, at));
    }
    let full = |facts: usize, set: u16| {
        let nodes = vec![(TELL, set, 0), (ASK, 0, 0)];
        number(&Draft { facts, rules: vec![], nodes, starts: vec![(0, vec![0]), (0, vec![1])] })
    };
    for facts in 0..=12 {
        let place = 4 + 8 * facts;
        assert_eq!(full(facts, ((1u32 << facts) - 1) as u16), (0, 0));
        assert_eq!(full(facts, 1 << facts), (5, place));
        assert_eq!(full(facts, 1 << 15), (5, place));
    }
}

#[test]
fn no_refusal_6_for_an_empty_premise() {
    assert_eq!(with_byte(RULES + 1, 0), (0, 0));
    assert_eq!(with_byte(RULES + 3, 0), (0, 0));
    let rule = |facts, rule| number(&Draft { facts, rules: vec![rule], ..good() });
    for conclusion in 0..4 {
        assert_eq!(rule(2, (0, conclusion)), (0, 0));
    }
    // 5 holds for both sets of a rule, the premise's first, whether or not the other set is empty.
    for absent in [4, 1 << 12, 1 << 15, u16::MAX] {
        assert_eq!(rule(2, (0, absent)), (5, RULES + 3));
        assert_eq!(rule(2, (absent, 0)), (5, RULES + 1));
        assert_eq!(rule(2, (absent, absent)), (5, RULES + 1));
    }
    // An empty premise is read to its end, and what follows is checked.
    let mut bytes = good().bytes();
    bytes[RULES + 1] = 0;
    for end in RULES + 1..RULES + 5 {
        assert_eq!(number_of(&bytes[..end]), (1, end));
    }
    bytes[NODES] = 65;
    assert_eq!(number_of(&bytes), (7, NODES));
    // Without facts only the rule (0, 0) has no absent one.
    let no_facts = |rules: Vec<(u16, u16)>| {
        let nodes = vec![(TELL, 0, 0), (ASK, 0, 0)];
        number(&Draft { facts: 0, rules, nodes, starts: vec![(0, vec![0]), (0, vec![1])] })
    };
    assert_eq!(no_facts(vec![(0, 0)]), (0, 0));
    assert_eq!(no_facts(vec![(0, 0); 32]), (0, 0));
    assert_eq!(no_facts(vec![(0, 0); 33]), (4, 1));
    assert_eq!(no_facts(vec![(0, 1)]), (5, 4));
    assert_eq!(no_facts(vec![(1, 0)]), (5, 2));
    assert_eq!(no_facts(vec![(0, 0), (0, 1)]), (5, 8));
}

#[test]
fn refusal_7_nodes() {
    let nodes = |count| {
        let starts = vec![(0, vec![0]), (0, vec![0])];
        number(&Draft { facts: 0, rules: vec![], nodes: vec![(STOP, 0, 0); count], starts })
    };
    assert_eq!(nodes(0), (7, 2));
    assert_eq!(nodes(1), (0, 0));
    assert_eq!(nodes(64), (0, 0));
    assert_eq!(nodes(65), (7, 2));
    assert_eq!(nodes(255), (7, 2));
}

#[test]
fn refusal_8_kinds() {
    let kind = |kind| number(&Draft { nodes: vec![(STOP, 0, 0), (TELL, 1, 0), (kind, 0, 0)], ..good() });
    for allowed in 0..=4 {
        assert_eq!(kind(allowed), (0, 0));
    }
    assert_eq!(kind(5), (8, NODES + 11));
    assert_eq!(kind(255), (8, NODES + 11));
}

#[test]
fn refusal_9_node_numbers() {
    let third = |kind, first, second| {
        number(&Draft { nodes: vec![(STOP, 0, 0), (TELL, 1, 0), (kind, first, second)], ..good() })
    };
    let place = NODES + 11;
    // An ask names any node, itself too.
    assert_eq!(third(ASK, 2, 2), (0, 0));
    assert_eq!(third(ASK, 2, 3), (9, place + 3));
    assert_eq!(third(ASK, 2, 256), (9, place + 3));
    for kind in [BOTH, EITHER] {
        assert_eq!(third(kind, 1, 1), (0, 0));
        assert_eq!(third(kind, 2, 1), (9, place + 1));
        assert_eq!(third(kind, 1, 2), (9, place + 3));
        assert_eq!(third(kind, 256, 1), (9, place + 1));
        // Node 0 has no lower node.
        let first = Draft { nodes: vec![(kind, 0, 0)], starts: vec![(0, vec![]), (0, vec![])], ..good() };
        assert_eq!(number(&first), (9, NODES + 2));
    }
    // Threads of a start.
    assert_eq!(with_byte(STARTS + 4, 2), (0, 0));
    assert_eq!(with_byte(STARTS + 4, 3), (9, STARTS + 4));
    assert_eq!(with_byte(STARTS + 9, 255), (9, STARTS + 9));
}

#[test]
fn refusal_10_unused_fields() {
    for at in [NODES + 2, NODES + 4, NODES + 9] {
        assert_eq!(with_byte(at, 0), (0, 0));
        assert_eq!(with_byte(at, 1), (10, at));
        assert_eq!(with_byte(at + 1, 1), (10, at));
    }
}

#[test]
fn refusal_11_starts() {
    let starts = |count| number(&Draft { starts: vec![(0, vec![1]); count], ..good() });
    assert_eq!(starts(0), (11, STARTS));
    assert_eq!(starts(1), (11, STARTS));
    assert_eq!(starts(2), (0, 0));
    assert_eq!(starts(16), (0, 0));
    assert_eq!(starts(17), (11, STARTS));
}

#[test]
fn refusal_12_threads() {
    let threads = |threads: Vec<u8>| number(&Draft { starts: vec![(0, vec![]), (0, threads)], ..good() });
    let place = STARTS + 6;
    assert_eq!(threads(vec![1; 8]), (0, 0));
    assert_eq!(threads(vec![1; 9]), (12, place));
    assert_eq!(threads(vec![9; 9]), (12, place));
    // Stops open to nothing, a both to two threads.
    let opened = |threads: Vec<u8>| {
        let nodes = vec![(STOP, 0, 0), (TELL, 1, 0), (BOTH, 1, 1), (BOTH, 2, 2)];
        number(&Draft { nodes, starts: vec![(0, vec![]), (0, threads)], ..good() })
    };
    let place = NODES + 21 + 6;
    assert_eq!(opened(vec![0; 8]), (0, 0));
    assert_eq!(opened(vec![3, 3]), (0, 0));
    assert_eq!(opened(vec![3, 0, 3, 1]), (12, place));
    assert_eq!(opened(vec![2, 2, 2, 2]), (0, 0));
    assert_eq!(opened(vec![2, 2, 1, 2, 2]), (12, place));
    // The opened count comes after the last thread.
    assert_eq!(opened(vec![3, 3, 3, 4]), (9, place + 4));
}

#[test]
fn refusal_13_extra_bytes() {
    let mut bytes = good().bytes();
    let end = bytes.len();
    for extra in [0, 255] {
        bytes.truncate(end);
        bytes.push(extra);
        assert_eq!(number_of(&bytes), (13, end));
        bytes.push(extra);
        assert_eq!(number_of(&bytes), (13, end));
    }
    // The longest sheet, and one byte more.
    let nodes = vec![(STOP, 0, 0); 64];
    let longest = Draft { facts: 12, rules: vec![(1, 1); 32], nodes, starts: vec![(0, vec![0; 8]); 16] };
    let mut bytes = longest.bytes();
    assert_eq!(bytes.len(), hofadiju::LONGEST_SHEET);
    assert_eq!(number_of(&bytes), (0, 0));
    bytes.push(0);
    assert_eq!(number_of(&bytes), (13, 724));
}

#[test]
fn refusal_14_absent_starts() {
    let mut harnesses = harnesses();
    let mut chosen = |bytes: &[u8], left, right| {
        let [(number, result), desk] =
            harnesses.each_mut().map(|harness| harness.compare_with_all_lengths(bytes, (left, right)));
        assert_eq!((number, result), desk);
        (number, result[5])
    };
    let bytes = good().bytes();
    assert_eq!(chosen(&bytes, 1, 1), (0, 0));
    assert_eq!(chosen(&bytes, 2, 1), (14, 0));
    assert_eq!(chosen(&bytes, 1, 2), (14, 1));
    assert_eq!(chosen(&bytes, 2, 2), (14, 0));
    assert_eq!(chosen(&bytes, usize::MAX, usize::MAX), (14, 0));
    // 14 comes after 13.
    let longer = [&bytes[..], &[0]].concat();
    assert_eq!(chosen(&longer, 2, 2), (13, bytes.len()));
}

#[test]
fn refusal_15_wide_nodes() {
    // Nodes 1 to 3 open to 2, 4 and 8 threads.
    let doubled = [(TELL, 0, 0), (BOTH, 0, 0), (BOTH, 1, 1), (BOTH, 2, 2)];
    let with = |more: &[(u8, u16, u16)]| {
        let nodes = [&doubled[..], more].concat();
        number(&Draft { facts: 0, rules: vec![], nodes, starts: vec![(0, vec![0]), (0, vec![0])] })
    };
    assert_eq!(with(&[]), (0, 0));
    assert_eq!(with(&[(BOTH, 3, 0)]), (15, 3 + 20));
    assert_eq!(with(&[(STOP, 0, 0), (BOTH, 3, 4)]), (0, 0));
    assert_eq!(with(&[(EITHER, 3, 3), (BOTH, 4, 4)]), (0, 0));
    // In a node 15 comes after 9, and before what follows the node.
    assert_eq!(with(&[(BOTH, 3, 4)]), (9, 3 + 23));
    assert_eq!(with(&[(BOTH, 3, 0), (9, 0, 0)]), (15, 3 + 20));
}

#[test]
fn refusal_21_members() {
    // Two chains of asks, 15 and 31 long: 16 by 32 places.
    let mut draft = Draft { facts: 0, rules: vec![], nodes: vec![(STOP, 0, 0), (TELL, 0, 0)], starts: vec![] };
    let first = draft.chain(15, 0, 0);
    let second = draft.chain(31, 0, 0);
    draft.starts = vec![(0, vec![first, second]), (0, vec![second, first])];
    assert_eq!(plain::size(&draft.bytes(), 0, 1).map(|size| size.0), Some(512));
    assert_eq!(number(&draft), (0, 0));
    draft.starts[1] = (0, vec![1]);
    assert_eq!(plain::size(&draft.bytes(), 0, 1).map(|size| size.0), Some(513));
    assert_eq!(number(&draft), (21, 0));
}

#[test]
fn refusal_21_moves() {
    // Node 0 asks nothing for ever; either k chooses among the first k + 1 asks, and ask k leads there.
    let mut draft = Draft { facts: 0, rules: vec![], nodes: vec![(ASK, 0, 0)], starts: vec![] };
    let mut wide = 0;
    for _ in 1..20 {
        let ask = draft.push(ASK, 0, 0);
        wide = draft.push(EITHER, wide, ask);
        draft.nodes[ask as usize].2 = wide;
    }
    let end = draft.push(STOP, 0, 0);
    let short = draft.chain(1, 0, 0);
    let long = draft.chain(21, 0, end);
    draft.starts = vec![(0, vec![wide as u8, wide as u8]), (0, vec![short, long])];
    assert_eq!(plain::size(&draft.bytes(), 0, 1).map(|size| size.1), Some(4_096));
    assert_eq!(number(&draft), (0, 0));
    // The long chain's end now asks for ever too, which is one more move beside the short chain's start.
    draft.nodes[end as usize] = (ASK, 0, end);
    assert_eq!(plain::size(&draft.bytes(), 0, 1).map(|size| size.1), Some(4_097));
    assert_eq!(number(&draft), (21, 0));
}

#[test]
fn refusal_21_threads() {
    let wide = |tells: usize| {
        let nodes = vec![(TELL, 0, 0), (BOTH, 0, 0), (ASK, 0, 1)];
        let threads = [vec![2], vec![0; tells]].concat();
        number(&Draft { facts: 0, rules: vec![], nodes, starts: vec![(0, threads), (0, vec![])] })
    };
    assert_eq!(wide(6), (0, 0));
    assert_eq!(wide(7), (21, 0));
    // A both inside an either: one part moves, the other is opened beside seven threads.
    let inside = |tells: usize| {
        let nodes = vec![(TELL, 0, 0), (BOTH, 0, 0), (BOTH, 1, 0), (EITHER, 2, 0)];
        let threads = [vec![3], vec![0; tells]].concat();
        number(&Draft { facts: 0, rules: vec![], nodes, starts: vec![(0, threads), (0, vec![])] })
    };
    assert_eq!(inside(6), (0, 0));
    assert_eq!(inside(7), (21, 0));
    // A part that cannot move makes no move, however many threads stand beside it.
    let stuck = Draft {
        facts: 0,
        rules: vec![],
        nodes: vec![
            (STOP, 0, 0),
            (EITHER, 0, 0),
            (BOTH, 1, 1),
            (BOTH, 2, 2),
            (BOTH, 3, 3),
            (TELL, 0, 0),
            (EITHER, 4, 4),
        ],
        starts: vec![(0, vec![6, 5, 5, 5, 5, 5, 5, 5]), (0, vec![6])],
    };
    assert_eq!(number(&stuck), (0, 0));
}

#[test]
fn refusals_22_and_23_slices() {
    let mut harnesses = harnesses();
    let bytes = good().bytes();
    let judgement = harnesses[0].judge(&bytes, (0, 1));
    assert_eq!(judgement, harnesses[1].judge(&bytes, (0, 1)));
    let (_, [_, _, _, _, length, _]) = judgement.returned(ANSWER, WORK);
    let mut held = |answer_len, work_len| {
        let [(number, result), desk] =
            harnesses.each_mut().map(|harness| harness.hold(&judgement, &bytes, (0, 1), answer_len, work_len));
        assert_eq!((number, result), desk);
        (number, result[5])
    };
    for answer_len in 0..length {
        assert_eq!(held(answer_len, WORK), (22, length));
    }
    for answer_len in length..length + 20 {
        assert_eq!(held(answer_len, WORK), (0, 0));
    }
    // 23 comes before 22.
    for work_len in [0, 1, 100, 8_192, WORK - 2, WORK - 1] {
        assert_eq!(held(length, work_len), (23, 0));
        assert_eq!(held(0, work_len), (23, 0));
    }
    for work_len in [WORK, WORK + 1, WORK + 2_000] {
        assert_eq!(held(length, work_len), (0, 0));
    }
}

#[test]
fn refusal_23_before_21_and_after_14() {
    let growing = Draft {
        facts: 0,
        rules: vec![],
        nodes: vec![(TELL, 0, 0), (ASK, 0, 2), (BOTH, 0, 1)],
        starts: vec![(0, vec![1]), (0, vec![1])],
    };
    let bytes = growing.bytes();
    for mut harness in harnesses() {
        let judgement = harness.judge(&bytes, (0, 1));
        assert_eq!(harness.hold(&judgement, &bytes, (0, 1), 0, WORK - 1), (23, [0; 6]));
        assert_eq!(harness.hold(&judgement, &bytes, (0, 1), 0, WORK), (21, [0; 6]));
        let judgement = harness.judge(&bytes, (0, 2));
        assert_eq!(harness.hold(&judgement, &bytes, (0, 2), 0, 0), (14, [0, 0, 0, 0, 0, 1]));
    }
}
