//! The two implementations agree with each other, and with the sheets that document 01 knows.

use reference::{fast, plain, Judgement, Limits, Returned, WORK_NUMBERS};
use sheets::{
    alike_pair, damage, deepest_chain, draw, sheet_k, variants, with_standing, Draft, Rng, ASK, BOTH, SHAPES, TELL,
};

/// Verdict, round and steps as side, label, target, reply.
type Short = (usize, usize, Vec<(u8, u16, u16, u16)>);

fn short(draft: &Draft) -> Short {
    let judgement = plain::judge(Limits::DOCUMENT, &draft.bytes(), 0, 1);
    assert_eq!(plain::judge(Limits::DESK, &draft.bytes(), 0, 1), judgement);
    let Judgement::Answer { numbers: [verdict, round, ..], bytes } = judgement else {
        panic!("refused");
    };
    let number = |at: usize| u16::from_le_bytes([bytes[at], bytes[at + 1]]);
    let mut at = 2;
    for _ in 0..number(0) {
        at += 5 + bytes[at + 2] as usize;
    }
    let step = |i: usize| at + 2 + 7 * i;
    let steps = (0..number(at) as usize).map(step);
    (verdict, round, steps.map(|at| (bytes[at], number(at + 1), number(at + 3), number(at + 5))).collect())
}

#[test]
fn known_sheets() {
    let k = |left: (u16, &[u8]), right: (u16, &[u8])| short(&sheet_k(&[left, right]));
    assert_eq!(k((0, &[2]), (0, &[4])), (0, 1, vec![]));
    let (verdict, round, _) = k((0, &[2]), (0, &[3]));
    assert_eq!((verdict, round), (1, 1));
    let (verdict, round, steps) = k((0, &[2]), (0, &[7]));
    assert_eq!((verdict, round, steps.len()), (1, 2, 1));
    assert_eq!((steps[0].0, steps[0].1, steps[0].3), (1, 3, 65535));
    assert_eq!(k((0, &[1]), (1, &[1])), (1, 0, vec![]));
    assert_eq!(k((0, &[]), (0, &[])), (0, 0, vec![]));
    let (verdict, round, steps) = k((0, &[8]), (0, &[1]));
    assert_eq!((verdict, round), (1, 2));
    assert_eq!(steps.iter().map(|step| step.0).collect::<Vec<_>>(), [0, 0]);
    let growing = Draft {
        facts: 0,
        rules: vec![],
        nodes: vec![(TELL, 0, 0), (ASK, 0, 2), (BOTH, 0, 1)],
        starts: vec![(0, vec![1]), (0, vec![1])],
    };
    for limits in [Limits::DOCUMENT, Limits::DESK] {
        assert_eq!(plain::judge(limits, &growing.bytes(), 0, 1), Judgement::TooLarge);
        assert_eq!(plain::judge_all(limits, &growing.bytes()), Judgement::TooLarge);
    }
}

#[test]
fn all_starts_of_sheet_k() {
    let starts: [(u16, &[u8]); 8] =
        [(0, &[2]), (0, &[3]), (0, &[4]), (0, &[7]), (0, &[8]), (0, &[1]), (1, &[1]), (0, &[2])];
    let bytes = sheet_k(&starts).bytes();
    let Judgement::Answer { numbers: [round, length, place], bytes } = plain::judge_all(Limits::DOCUMENT, &bytes)
    else {
        panic!("refused");
    };
    assert_eq!((round, length, place), (2, bytes.len(), 0));
    let classes: Vec<u16> =
        bytes[length - 16..].chunks(2).map(|class| u16::from_le_bytes([class[0], class[1]])).collect();
    // In the order of the members: nothing, [1], [2], [3], [4], [7], [1, 1] at store 0, then store 1.
    assert_eq!(classes, [2, 3, 2, 4, 5, 1, 7, 2]);
}

/// What is said of starts 0 and 1 after 0 to 3 rounds: verdict, number of classes, number of members.
fn after_rounds(draft: &Draft) -> [[usize; 3]; 4] {
    [0, 1, 2, 3].map(|k| {
        let judgement = plain::judge_rounds(Limits::DOCUMENT, &draft.bytes(), 0, 1, k);
        assert_eq!(plain::judge_rounds(Limits::DESK, &draft.bytes(), 0, 1, k), judgement);
        let Judgement::Answer { numbers: [verdict, classes, members, length, 0], bytes } = judgement else {
            panic!("refused");
        };
        assert_eq!(length, bytes.len());
        [verdict, classes, members]
    })
}

#[test]
fn sheet_k_after_rounds() {
    let k = |left: (u16, &[u8]), right: (u16, &[u8])| after_rounds(&sheet_k(&[left, right]));
    assert_eq!(k((0, &[2]), (0, &[4])), [[2, 3, 6], [0, 5, 6], [0, 5, 6], [0, 5, 6]]);
    assert_eq!(k((0, &[2]), (0, &[3])), [[2, 3, 6], [1, 6, 6], [1, 6, 6], [1, 6, 6]]);
    assert_eq!(k((0, &[2]), (0, &[7])), [[2, 4, 8], [2, 7, 8], [1, 8, 8], [1, 8, 8]]);
    assert_eq!(k((0, &[1]), (1, &[1])), [[1, 2, 4], [1, 4, 4], [1, 4, 4], [1, 4, 4]]);
    assert_eq!(k((0, &[]), (0, &[])), [[0, 1, 1]; 4]);
    assert_eq!(k((0, &[8]), (0, &[1])), [[2, 1, 3], [2, 2, 3], [1, 3, 3], [1, 3, 3]]);
}

struct Held {
    comparer: fast::Comparer,
    answer: Vec<u8>,
    work: Vec<u32>,
}

impl Held {
    fn new() -> Held {
        Held { comparer: fast::Comparer::new(), answer: vec![], work: vec![0; WORK_NUMBERS] }
    }

    /// Holds one implementation to the other; gives the number that was returned.
    fn hold(&mut self, limits: Limits, bytes: &[u8], left: usize, right: usize) -> u32 {
        let judgement = plain::judge(limits, bytes, left, right);
        self.hold_to(&judgement, &format!("{limits:?} {left} {right} {bytes:?}"), |comparer, answer, work| {
            comparer.compare(limits, bytes, left, right, answer, work)
        })
    }

    /// The same for all starts.
    fn hold_all(&mut self, limits: Limits, bytes: &[u8]) -> u32 {
        let judgement = plain::judge_all(limits, bytes);
        self.hold_to(&judgement, &format!("{limits:?} all {bytes:?}"), |comparer, answer, work| {
            comparer.compare_all(limits, bytes, answer, work)
        })
    }

    /// The same after k rounds.
    fn hold_rounds(&mut self, limits: Limits, bytes: &[u8], left: usize, right: usize, k: u64) -> u32 {
        let judgement = plain::judge_rounds(limits, bytes, left, right, k);
        self.hold_to(
            &judgement,
            &format!("{limits:?} {left} {right}, {k} rounds {bytes:?}"),
            |comparer, answer, work| comparer.compare_rounds(limits, bytes, (left, right), k, answer, work),
        )
    }

    fn hold_to<const N: usize>(
        &mut self,
        judgement: &Judgement<N>,
        context: &str,
        call: impl FnOnce(&mut fast::Comparer, &mut [u8], &mut [u32]) -> Returned<N>,
    ) -> u32 {
        let mut expected = vec![0xA5; 10_237];
        let returned = judgement.call(&mut expected, &mut self.work);
        self.answer.clear();
        self.answer.resize(10_237, 0xA5);
        let other = call(&mut self.comparer, &mut self.answer, &mut self.work);
        assert!(returned == other && self.answer == expected, "{context}\n{returned:?}\n{other:?}");
        returned.0
    }
}

#[test]
fn random_sheets() {
    let mut held = Held::new();
    for shape in &SHAPES {
        let mut rng = Rng::new(1);
        let (mut seen, mut desk) = ([0; 24], [0; 24]);
        for i in 0..1_500 {
            let draft = if i % 3 == 0 { alike_pair(shape, &mut rng) } else { draw(shape, &mut rng) };
            seen[held.hold(Limits::DOCUMENT, &draft.bytes(), 0, 1) as usize] += 1;
            desk[held.hold(Limits::DESK, &draft.bytes(), 0, 1) as usize] += 1;
        }
        for (at, seen) in [("", seen), (", desk", desk)] {
            let other = 1_500 - seen[0] - seen[21];
            println!("{}{at}: {} reports, {} too large, {other} other", shape.name, seen[0], seen[21]);
        }
    }
}

#[test]
fn random_sheets_all_starts() {
    let mut held = Held::new();
    for shape in &SHAPES {
        let many = shape.with_starts(2, 16);
        let mut rng = Rng::new(2);
        let (mut seen, mut desk) = ([0; 24], [0; 24]);
        for i in 0..1_500 {
            let draft = if i % 3 == 0 { draw(&many, &mut rng) } else { variants(&many, &mut rng) };
            let mut bytes = draft.bytes();
            if i % 10 == 9 {
                damage(&mut bytes, &mut rng);
            }
            seen[held.hold_all(Limits::DOCUMENT, &bytes) as usize] += 1;
            desk[held.hold_all(Limits::DESK, &bytes) as usize] += 1;
        }
        for (at, seen) in [("", seen), (", desk's limits", desk)] {
            let other = 1_500 - seen[0] - seen[21];
            println!("{}, all starts{at}: {} answers, {} too large, {other} other", shape.name, seen[0], seen[21]);
        }
    }
}

#[test]
fn random_sheets_after_rounds() {
    let mut held = Held::new();
    for shape in &SHAPES {
        let mut rng = Rng::new(3);
        let (mut seen, mut desk) = ([0; 24], [0; 24]);
        for i in 0..1_500 {
            let draft = if i % 3 == 0 { alike_pair(shape, &mut rng) } else { draw(shape, &mut rng) };
            let mut bytes = draft.bytes();
            if i % 10 == 9 {
                damage(&mut bytes, &mut rng);
            }
            let k = rng.pick(&[0, 0, 1, 1, 2, 3, 5, 10, u64::MAX]);
            seen[held.hold_rounds(Limits::DOCUMENT, &bytes, 0, 1, k) as usize] += 1;
            desk[held.hold_rounds(Limits::DESK, &bytes, 0, 1, k) as usize] += 1;
        }
        for (at, seen) in [("", seen), (", desk's limits", desk)] {
            let other = 1_500 - seen[0] - seen[21];
            println!("{}, after rounds{at}: {} answers, {} too large, {other} other", shape.name, seen[0], seen[21]);
        }
    }
}

/// Every call on sheets with facts that always stand; one in ten is damaged.
#[test]
fn random_sheets_with_standing_facts() {
    let mut held = Held::new();
    for shape in &SHAPES {
        let many = shape.with_starts(2, 16);
        let mut rng = Rng::new(4);
        // How many sheets have a least store of 0, of all facts, and between the two.
        let mut least = [0; 3];
        let (mut seen, mut all, mut after) = ([0; 24], [0; 24], [0; 24]);
        for i in 0..1_500 {
            let draft = match i % 3 {
                0 => alike_pair(shape, &mut rng),
                1 => draw(shape, &mut rng),
                _ => variants(&many, &mut rng),
            };
            let draft = with_standing(draft, &mut rng);
            least[match draft.least() {
                0 => 0,
                every if every == (1 << draft.facts) - 1 => 1,
                _ => 2,
            }] += 1;
            let mut bytes = draft.bytes();
            if i % 10 == 9 {
                damage(&mut bytes, &mut rng);
            }
            let k = rng.pick(&[0, 0, 1, 1, 2, 3, 5, 10, u64::MAX]);
            for limits in [Limits::DOCUMENT, Limits::DESK] {
                seen[held.hold(limits, &bytes, 0, 1) as usize] += 1;
                all[held.hold_all(limits, &bytes) as usize] += 1;
                after[held.hold_rounds(limits, &bytes, 0, 1, k) as usize] += 1;
            }
        }
        println!("{}, standing facts: least store 0, all facts, between {least:?}", shape.name);
        for (call, seen) in [("two starts", seen), ("all starts", all), ("after rounds", after)] {
            println!("  {call}: {} answers, {} too large", seen[0], seen[21]);
            assert_eq!(seen[6], 0);
        }
    }
}

#[test]
fn a_deep_chain_after_rounds() {
    let mut held = Held::new();
    let bytes = deepest_chain().bytes();
    for k in (0..70).chain([255, 256, 65_536, 1 << 32, u64::MAX]) {
        for limits in [Limits::DOCUMENT, Limits::DESK] {
            assert_eq!(held.hold_rounds(limits, &bytes, 0, 1, k), 0);
            assert_eq!(held.hold_rounds(limits, &bytes, 0, 0, k), 0);
        }
    }
}
