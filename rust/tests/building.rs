//! Sheets as values: what the builder takes and what it does not, and sheets, their bytes and their fields.

use hofadiju::{
    check, compare, facts_of, field_at, is_name, notation, BuildError, Error, Field, Node, Part, Reason, Refusal, Rule,
    Sheet, SheetBuilder, Verdict, LONGEST_SHEET, MAX_FACTS, MAX_NODES, MAX_RULES, MAX_STARTS, MAX_THREADS, MIN_STARTS,
    NAME_BYTES,
};
use sheets::{
    alike_pair, damage, draw, sheet_k, variants, with_standing, Draft, Rng, ASK, BOTH, EITHER, SHAPES, STOP, TELL,
};
use std::error::Error as _;

// The builder

/// So many facts a, b, c and so on; a stop, node 0; no starts.
fn with_facts(facts: usize) -> SheetBuilder {
    let mut sheet = SheetBuilder::new();
    for name in ('a'..='z').take(facts) {
        sheet.fact(&name.to_string()).unwrap();
    }
    sheet.node("stop_here", Node::Stop).unwrap();
    sheet
}

/// The bytes of the sheet with two starts more, old and new, that run these nodes at the empty store.
fn bytes_with(sheet: &SheetBuilder, old: &[usize], new: &[usize]) -> Result<Vec<u8>, BuildError> {
    let mut sheet = sheet.clone();
    sheet.start("old", 0, old).unwrap();
    sheet.start("new", 0, new).unwrap();
    sheet.build().map(|sheet| sheet.to_bytes())
}

/// This cannot be done with the sheet, for this reason, and leaves it as it was.
fn not_done<T: std::fmt::Debug + PartialEq>(
    sheet: &mut SheetBuilder,
    error: BuildError,
    tried: impl FnOnce(&mut SheetBuilder) -> Result<T, BuildError>,
) {
    let before = format!("{sheet:?}");
    assert_eq!(tried(sheet), Err(error));
    assert_eq!(format!("{sheet:?}"), before);
}

#[test]
fn a_sheet_as_it_is_built() {
    let mut sheet = SheetBuilder::new();
    assert_eq!(sheet.fact("door"), Ok(0));
    assert_eq!(sheet.fact_written("lamp-in-the-hall", "lamp 1"), Ok(1));
    assert_eq!(sheet.set(&[]), Ok(0));
    assert_eq!(sheet.set(&["lamp-in-the-hall"]), Ok(2));
    assert_eq!(sheet.set(&["lamp-in-the-hall", "door", "door"]), Ok(3));
    sheet.rule(2, 1).unwrap();
    sheet.rule(0, 0).unwrap();
    assert_eq!(sheet.next_node(), 0);
    assert_eq!(sheet.node("wait", Node::Ask(1, 2)), Ok(0));
    assert_eq!(sheet.unnamed_node(Node::Stop), Ok(1));
    assert_eq!(sheet.next_node(), 2);
    assert_eq!(sheet.node("light", Node::Tell(2)), Ok(2));
    assert_eq!(sheet.node("two", Node::Both(0, 2)), Ok(3));
    assert_eq!(sheet.node("one", Node::Either(3, 3)), Ok(4));
    assert_eq!(sheet.node_number("light"), Ok(2));
    assert_eq!(sheet.start("old", 3, &[4, 1, 4]), Ok(0));
    assert_eq!(sheet.start("new", 0, &[]), Ok(1));
    let sheet = sheet.build().unwrap();
    let mut bytes = b"\x02door    lamp 1  \x02".to_vec();
    bytes.extend([2, 0, 1, 0, 0, 0, 0, 0]);
    bytes.push(5);
    bytes.extend([2, 1, 0, 2, 0]);
    bytes.extend([0, 0, 0, 0, 0]);
    bytes.extend([1, 2, 0, 0, 0]);
    bytes.extend([3, 0, 0, 2, 0]);
    bytes.extend([4, 3, 0, 3, 0]);
    bytes.push(2);
    bytes.extend([3, 0, 3, 4, 1, 4]);
    bytes.extend([0, 0, 0]);
    assert_eq!(sheet.to_bytes(), bytes);
    assert_eq!(check(&bytes), Ok(()));
    let names: Vec<&str> = sheet.facts().iter().map(|fact| fact.name.as_str()).collect();
    assert_eq!(names, ["door", "lamp-in-the-hall"]);
    assert_eq!(sheet.facts()[1].sheet_name, *b"lamp 1  ");
    assert_eq!(sheet.rules(), [Rule { premise: 2, conclusion: 1 }, Rule { premise: 0, conclusion: 0 }]);
    assert_eq!((sheet.start_number("new"), sheet.start_number("wait")), (Some(1), None));
    assert_eq!((sheet.starts()[0].store, &sheet.starts()[0].nodes[..]), (3, &[4, 1, 4][..]));
    assert_eq!((sheet.node_name(0), sheet.node_name(5)), (Some("wait"), None));
    assert_eq!(sheet.fact_names(u16::MAX), ["door", "lamp-in-the-hall"]);
    assert_eq!(facts_of(0b1000_0000_0000_0101).collect::<Vec<_>>(), [0, 2, 15]);
}

#[test]
fn nodes_without_a_name() {
    let mut sheet = with_facts(1);
    let ends = [1, 3].map(|number| {
        assert_eq!(sheet.unnamed_node(Node::Stop), Ok(number));
        sheet.unnamed_node(Node::Ask(1, number)).unwrap()
    });
    let two = sheet.unnamed_node(Node::Both(ends[0], ends[1])).unwrap();
    let twice = sheet.unnamed_node(Node::Tell(1)).unwrap();
    sheet.start("old", 0, &[two, twice]).unwrap();
    sheet.start("new", 0, &[twice]).unwrap();
    let sheet = sheet.build().unwrap();
    // The both is used once, but node 6, which is used twice, comes between it and the starts.
    let text = "fact a\n\nnode stop_here = stop\nnode n5 = both (ask a then stop) and (ask a then stop)\n\
                node n6 = tell a\n\nstart old at nothing run n5, n6\nstart new at nothing run n6\n";
    assert_eq!(sheet.to_string(), text);
    assert_eq!([0, 1, 2, 5].map(|node| sheet.node_name(node)), [Some("stop_here"), None, None, Some("n5")]);
    assert_eq!(text.parse(), Ok(sheet));
}

#[test]
fn as_much_as_a_sheet_may_have() {
    let mut sheet = SheetBuilder::new();
    for fact in 0..12 {
        assert_eq!(sheet.fact(&format!("f{fact}")), Ok(fact));
    }
    not_done(&mut sheet, BuildError::TooMany { part: Part::Fact, most: 12 }, |sheet| sheet.fact("f12"));
    not_done(&mut sheet, BuildError::TooMany { part: Part::Fact, most: 12 }, |sheet| sheet.fact_written("f12", ""));
    for _ in 0..32 {
        sheet.rule(0xFFF, 0xFFF).unwrap();
    }
    not_done(&mut sheet, BuildError::TooMany { part: Part::Rule, most: 32 }, |sheet| sheet.rule(0, 0));
    for node in 0..64 {
        let added = match node % 2 {
            0 => sheet.node(&format!("n{node}"), Node::Ask(0xFFF, 63)),
            _ => sheet.unnamed_node(Node::Either(node - 1, 0)),
        };
        assert_eq!(added, Ok(node));
    }
    let too_many = BuildError::TooMany { part: Part::Node, most: 64 };
    not_done(&mut sheet, too_many.clone(), |sheet| sheet.node("n64", Node::Stop));
    not_done(&mut sheet, too_many, |sheet| sheet.unnamed_node(Node::Stop));
    let too_many = BuildError::TooMany { part: Part::Thread, most: 8 };
    for start in 0..16 {
        not_done(&mut sheet, too_many.clone(), |sheet| sheet.start("s", 0, &[0; 9]));
        assert_eq!(sheet.start(&format!("s{start}"), 0xFFF, &[63; 8]), Ok(start));
    }
    not_done(&mut sheet, BuildError::TooMany { part: Part::Start, most: 16 }, |sheet| sheet.start("s16", 0, &[]));
    let bytes = sheet.build().unwrap().to_bytes();
    assert_eq!((bytes.len(), check(&bytes)), (724, Ok(())));
    assert_eq!(Sheet::from_bytes(&bytes).unwrap().to_bytes(), bytes);
    assert_eq!(check(&[&bytes[..], &[0]].concat()), Err(Refusal::new(Reason::ExtraBytes, 724).into()));
    assert_eq!((MAX_FACTS, NAME_BYTES, MAX_RULES, MAX_NODES, MIN_STARTS, MAX_STARTS), (12, 8, 32, 64, 2, 16));
    assert_eq!((MAX_THREADS, LONGEST_SHEET), (8, 724));
}

#[test]
fn as_little_as_a_sheet_may_have() {
    let no_nodes = BuildError::TooFew { part: Part::Node, least: 1 };
    let no_starts = BuildError::TooFew { part: Part::Start, least: 2 };
    let mut sheet = SheetBuilder::new();
    assert_eq!(sheet.clone().build(), Err(no_nodes.clone()));
    sheet.start("old", 0, &[]).unwrap();
    sheet.start("new", 0, &[]).unwrap();
    assert_eq!(sheet.clone().build(), Err(no_nodes));
    sheet.unnamed_node(Node::Stop).unwrap();
    assert_eq!(sheet.build().unwrap().to_bytes(), [0, 0, 1, 0, 0, 0, 0, 0, 2, 0, 0, 0, 0, 0, 0]);

    let mut sheet = with_facts(0);
    assert_eq!(sheet.clone().build(), Err(no_starts.clone()));
    sheet.start("old", 0, &[]).unwrap();
    assert_eq!(sheet.clone().build(), Err(no_starts));
    sheet.start("new", 0, &[]).unwrap();
    assert!(sheet.build().is_ok());
}

/// The words of the notation.
const WORDS: [&str; 17] = [
    "fact", "rule", "gives", "node", "stop", "tell", "ask", "then", "both", "and", "either", "or", "call", "start",
    "at", "run", "nothing",
];

#[test]
fn names() {
    let bad = ["", " ", "1", "1a", "-", "-a", "a b", " a", "a ", "a.b", "a,b", "\"a\"", "é", "aé", "a\n", "{a}", "#"];
    for name in bad.into_iter().chain(WORDS) {
        assert!(!is_name(name), "{name}");
        let mut sheet = with_facts(0);
        let error = BuildError::BadName(name.to_string());
        not_done(&mut sheet, error.clone(), |sheet| sheet.fact(name));
        not_done(&mut sheet, error.clone(), |sheet| sheet.fact_written(name, "fine"));
        not_done(&mut sheet, error.clone(), |sheet| sheet.node(name, Node::Stop));
        not_done(&mut sheet, error.clone(), |sheet| sheet.start(name, 0, &[]));
        assert_eq!(error.to_string(), format!("'{name}' cannot be a name"));
    }
    let long = "x".repeat(300);
    let good = ["a", "_", "__", "_1", "a-", "A-1", "x_y-z", "Fact", "facts", "no-thing", "n0", &long];
    for name in good {
        assert!(is_name(name), "{name}");
        // A fact, a node and a start may have the same name.
        let mut sheet = with_facts(0);
        assert_eq!(sheet.fact_written(name, "fine"), Ok(0));
        assert_eq!(sheet.node(name, Node::Stop), Ok(1));
        assert_eq!(sheet.start(name, 0, &[1]), Ok(0));
        let twice = |part| BuildError::NameTwice(part, name.to_string());
        not_done(&mut sheet, twice(Part::Fact), |sheet| sheet.fact_written(name, "other"));
        not_done(&mut sheet, twice(Part::Fact), |sheet| sheet.fact(name));
        not_done(&mut sheet, twice(Part::Node), |sheet| sheet.node(name, Node::Tell(1)));
        not_done(&mut sheet, twice(Part::Start), |sheet| sheet.start(name, 1, &[]));
        assert_eq!(twice(Part::Node).to_string(), format!("there are two nodes called {name}"));
    }
}

#[test]
fn names_on_the_sheet() {
    let mut sheet = with_facts(0);
    assert_eq!(sheet.fact("eight__8"), Ok(0));
    not_done(&mut sheet, BuildError::BadSheetName("nine____9".to_string()), |sheet| sheet.fact("nine____9"));
    for wrong in ["nine    9", "\u{1f}", "a\u{7f}", "é", "\n", "\0"] {
        let error = BuildError::BadSheetName(wrong.to_string());
        assert!(error.to_string().contains("has 8 characters from 32 to 126"));
        not_done(&mut sheet, error, |sheet| sheet.fact_written("f", wrong));
    }
    for (number, right) in [(1, ""), (2, " ~!\"#'\\x"), (3, "eight  8"), (4, "        "), (5, "eight__8")] {
        assert_eq!(sheet.fact_written(&format!("f{number}"), right), Ok(number));
    }
    let bytes = bytes_with(&sheet, &[], &[]).unwrap();
    assert_eq!(&bytes[..49], b"\x06eight__8         ~!\"#'\\xeight  8        eight__8");
    // Names that cannot stand in a text, or that a fact before has, give way to f and the number.
    let names: Vec<String> = Sheet::from_bytes(&bytes).unwrap().facts().iter().map(|fact| fact.name.clone()).collect();
    assert_eq!(names, ["eight__8", "f1", "f2", "f3", "f4", "f5"]);
}

#[test]
fn names_that_no_one_has() {
    let sheet = with_facts(2);
    let unknown = |part, name: &str| BuildError::UnknownName(part, name.to_string());
    assert_eq!(sheet.set(&["a", "b"]), Ok(3));
    assert_eq!(sheet.set(&["a", "c", "d"]), Err(unknown(Part::Fact, "c")));
    assert_eq!(sheet.set(&["stop_here"]), Err(unknown(Part::Fact, "stop_here")));
    assert_eq!(sheet.node_number("stop_here"), Ok(0));
    assert_eq!(sheet.node_number("a"), Err(unknown(Part::Node, "a")));
    assert_eq!(sheet.node_number(""), Err(unknown(Part::Node, "")));
    assert_eq!(unknown(Part::Fact, "c").to_string(), "there is no fact called c");
}

#[test]
fn facts_that_are_not_there() {
    for facts in 0..=12 {
        let mut sheet = with_facts(facts);
        let all = (1 << facts) - 1;
        sheet.rule(all, all).unwrap();
        sheet.node("tells", Node::Tell(all)).unwrap();
        sheet.node("asks", Node::Ask(all, 0)).unwrap();
        sheet.start("full", all, &[]).unwrap();
        for absent in facts..16 {
            let set = 1 << absent;
            // The lowest of the facts that are not there is named.
            let error = BuildError::AbsentFact(absent);
            for set in [set, set | all, set | 1 << 15] {
                not_done(&mut sheet, error.clone(), |sheet| sheet.rule(set, 0));
                not_done(&mut sheet, error.clone(), |sheet| sheet.rule(0, set));
                not_done(&mut sheet, error.clone(), |sheet| sheet.node("n", Node::Tell(set)));
                not_done(&mut sheet, error.clone(), |sheet| sheet.node("n", Node::Ask(set, 0)));
                not_done(&mut sheet, error.clone(), |sheet| sheet.unnamed_node(Node::Tell(set)));
                not_done(&mut sheet, error.clone(), |sheet| sheet.start("s", set, &[]));
            }
            assert_eq!(error.to_string(), format!("there is no fact {absent}"));
        }
        assert!(bytes_with(&sheet, &[1], &[2]).is_ok());
    }
}

#[test]
fn nodes_that_are_not_there() {
    // Two nodes: an ask may name either, also before it is there, and so may a start.
    let mut sheet = SheetBuilder::new();
    sheet.node("first", Node::Ask(0, 1)).unwrap();
    assert_eq!(bytes_with(&sheet, &[0], &[0]), Err(BuildError::AbsentNode(1)));
    sheet.node("second", Node::Ask(0, 0)).unwrap();
    assert!(bytes_with(&sheet, &[0, 1], &[1]).is_ok());
    for absent in [2, 3, 63, 64, 255, 256, 257, 65_535, 65_536, 65_537, usize::MAX] {
        let error = BuildError::AbsentNode(absent);
        assert_eq!(bytes_with(&sheet, &[absent], &[1]), Err(error.clone()));
        assert_eq!(bytes_with(&sheet, &[0], &[1, 0, absent]), Err(error.clone()));
        let mut other = sheet.clone();
        other.unnamed_node(Node::Ask(0, absent)).unwrap();
        let built = bytes_with(&other, &[0], &[1]);
        assert!(if absent == 2 { built.is_ok() } else { built == Err(error.clone()) });
        assert_eq!(error.to_string(), format!("there is no node {absent}"));
    }
}

#[test]
fn both_and_either_name_nodes_before_them() {
    for kind in [Node::Both as fn(usize, usize) -> Node, Node::Either] {
        let mut sheet = SheetBuilder::new();
        for number in 0..5 {
            for later in [number, number + 1, 63, 64, 256, 65_536, usize::MAX] {
                let error = BuildError::LaterNode { node: number, named: later };
                not_done(&mut sheet, error.clone(), |sheet| sheet.node("n", kind(later, later)));
                not_done(&mut sheet, error.clone(), |sheet| sheet.unnamed_node(kind(later, usize::MAX)));
                if number > 0 {
                    not_done(&mut sheet, error.clone(), |sheet| sheet.node("n", kind(later, 0)));
                    not_done(&mut sheet, error.clone(), |sheet| sheet.node("n", kind(number - 1, later)));
                }
                let says = format!("node {number} names node {later}, and both and either name lower nodes only");
                assert_eq!(error.to_string(), says);
            }
            let node = if number == 0 { Node::Stop } else { kind(number - 1, 0) };
            assert_eq!(sheet.node(&format!("n{number}"), node), Ok(number));
        }
        assert!(bytes_with(&sheet, &[4], &[3]).is_ok());
    }
}

#[test]
fn a_node_with_nine_threads() {
    // Node 1 tells, 2 has two threads, 3 four, 4 eight, 5 three.
    let mut sheet = with_facts(0);
    for node in [Node::Tell(0), Node::Both(1, 1), Node::Both(2, 2), Node::Both(3, 3), Node::Both(2, 1)] {
        sheet.unnamed_node(node).unwrap();
    }
    assert!(bytes_with(&sheet, &[4], &[]).is_ok());
    let (mut eight, mut nine) = (sheet.clone(), sheet);
    eight.unnamed_node(Node::Both(3, 3)).unwrap();
    assert!(bytes_with(&eight, &[6], &[]).is_ok());
    nine.unnamed_node(Node::Both(4, 1)).unwrap();
    // The place is that of the kind of node 6.
    let refusal = Refusal::new(Reason::WideNode, 3 + 6 * 5);
    let error = bytes_with(&nine, &[], &[]).unwrap_err();
    assert_eq!(error, BuildError::Unread(Error::Refused(refusal)));
    assert_eq!(error.to_string(), refusal.to_string());
    assert_eq!(error.source().unwrap().to_string(), refusal.to_string());
    assert!(BuildError::AbsentNode(1).source().is_none());
}

#[test]
fn a_start_with_nine_threads() {
    let mut sheet = with_facts(0);
    for node in [Node::Tell(0), Node::Both(1, 1), Node::Both(2, 2), Node::Both(3, 3), Node::Either(4, 4)] {
        sheet.unnamed_node(node).unwrap();
    }
    // Stops are no threads, and an either is one.
    for eight in [&[4][..], &[3, 3], &[1; 8], &[4, 0, 0, 0, 0, 0, 0, 0], &[5; 8], &[3, 2, 5, 5]] {
        assert!(bytes_with(&sheet, eight, eight).is_ok(), "{eight:?}");
    }
    for nine in [&[4, 1][..], &[3, 3, 5], &[2, 1, 1, 1, 1, 1, 1, 1], &[4, 4]] {
        // The place is that of the thread count: of the first start, and of the second behind a thread of the first.
        let first = 3 + 6 * 5 + 1 + 2;
        for (old, new, place) in [(nine, &[1][..], first), (&[1][..], nine, first + 4), (nine, nine, first)] {
            let refusal = Refusal::new(Reason::TooManyThreads, place);
            assert_eq!(bytes_with(&sheet, old, new), Err(BuildError::Unread(refusal.into())), "{old:?} {new:?}");
        }
    }
}

#[test]
fn what_an_error_says() {
    let says = |error: BuildError| error.to_string();
    assert_eq!(says(BuildError::TooMany { part: Part::Rule, most: 32 }), "a sheet has at most 32 rules");
    assert_eq!(says(BuildError::TooMany { part: Part::Thread, most: 8 }), "a start has at most 8 threads");
    assert_eq!(says(BuildError::TooFew { part: Part::Node, least: 1 }), "a sheet has at least 1 node");
    assert_eq!(says(BuildError::TooFew { part: Part::Start, least: 2 }), "a sheet has at least 2 starts");
    let parts = [Part::Fact, Part::Rule, Part::Node, Part::Start, Part::Thread];
    assert_eq!(parts.map(|part| part.to_string()), ["fact", "rule", "node", "start", "thread"]);
}

// Random sheets

/// Sheets of every shape: drawn, alike pairs and variants, every fourth with facts that always stand.
fn drafts(count: usize, seed: u64) -> impl Iterator<Item = Draft> {
    let mut rng = Rng::new(seed);
    (0..count).map(move |i| {
        let shape = &SHAPES[i % SHAPES.len()];
        let draft = match i % 3 {
            0 => draw(shape, &mut rng),
            1 => alike_pair(shape, &mut rng),
            _ => variants(&shape.with_starts(2, 16), &mut rng),
        };
        if i % 4 == 0 {
            with_standing(draft, &mut rng)
        } else {
            draft
        }
    })
}

fn node_of((kind, first, second): (u8, u16, u16)) -> Node {
    match kind {
        STOP => Node::Stop,
        TELL => Node::Tell(first),
        ASK => Node::Ask(first, second.into()),
        BOTH => Node::Both(first.into(), second.into()),
        EITHER => Node::Either(first.into(), second.into()),
        _ => panic!("{kind}"),
    }
}

/// The draft's sheet by the builder. Its names are those that a sheet from bytes has, where nodes have one.
fn built(draft: &Draft, mut named: impl FnMut() -> bool) -> SheetBuilder {
    let mut sheet = SheetBuilder::new();
    for fact in 0..draft.facts {
        assert_eq!(sheet.fact_written(&format!("f{fact}"), &format!("fact  {fact:02}")), Ok(fact));
    }
    for &(premise, conclusion) in &draft.rules {
        sheet.rule(premise, conclusion).unwrap();
    }
    for (number, &node) in draft.nodes.iter().enumerate() {
        let node = node_of(node);
        let added = if named() { sheet.node(&format!("n{number}"), node) } else { sheet.unnamed_node(node) };
        assert_eq!(added, Ok(number));
    }
    for (number, (store, threads)) in draft.starts.iter().enumerate() {
        let nodes: Vec<usize> = threads.iter().map(|&thread| thread.into()).collect();
        assert_eq!(sheet.start(&format!("s{number}"), *store, &nodes), Ok(number));
    }
    sheet
}

#[test]
fn random_sheets_are_built_as_their_bytes_say() {
    let mut rng = Rng::new(810);
    for draft in drafts(6_000, 811) {
        let bytes = draft.bytes();
        let sheet = built(&draft, || true).build().unwrap();
        assert_eq!(sheet.to_bytes(), bytes);
        assert_eq!(Sheet::from_bytes(&bytes).as_ref(), Ok(&sheet));
        // Names for nodes change neither the bytes nor what the text says.
        let other = built(&draft, || rng.percent(40)).build().unwrap();
        assert_eq!(other.to_bytes(), bytes);
        assert_eq!(notation::read(&other.to_string()), Ok(other));
    }
}

#[test]
fn random_sheets_from_bytes() {
    let mut held = 0;
    for draft in drafts(6_000, 812) {
        let bytes = draft.bytes();
        let sheet = Sheet::from_bytes(&bytes).unwrap();
        assert_eq!(sheet.to_bytes(), bytes);
        let rules: Vec<(u16, u16)> = sheet.rules().iter().map(|rule| (rule.premise, rule.conclusion)).collect();
        assert_eq!((sheet.facts().len(), rules), (draft.facts, draft.rules.clone()));
        assert_eq!(sheet.nodes(), draft.nodes.iter().map(|&node| node_of(node)).collect::<Vec<_>>());
        for (own, &node) in sheet.nodes().iter().zip(&draft.nodes) {
            let named: Vec<usize> = Draft::named(node).into_iter().map(usize::from).collect();
            assert_eq!(own.named(), named);
        }
        for (number, (start, (store, threads))) in sheet.starts().iter().zip(&draft.starts).enumerate() {
            let nodes: Vec<usize> = threads.iter().map(|&thread| thread.into()).collect();
            assert_eq!((start.store, &start.nodes), (*store, &nodes));
            assert_eq!(sheet.start_number(&start.name), Some(number));
        }
        assert_eq!(sheet.starts().len(), draft.starts.len());
        assert_eq!(sheet.to_string().parse(), Ok(sheet));
        held += 1;
    }
    assert_eq!(held, 6_000);
}

#[test]
fn any_names_of_facts() {
    let mut rng = Rng::new(813);
    for draft in drafts(3_000, 814) {
        let mut bytes = draft.bytes();
        let high = rng.pick(&[3, 20, 95]);
        for byte in &mut bytes[1..1 + 8 * draft.facts] {
            *byte = match rng.below(3) {
                0 => b' ',
                1 => b"fact_0-1"[rng.below(8)],
                _ => 32 + rng.below(high) as u8,
            };
        }
        let sheet = Sheet::from_bytes(&bytes).unwrap();
        assert_eq!(sheet.to_bytes(), bytes);
        let names: Vec<&str> = sheet.facts().iter().map(|fact| fact.name.as_str()).collect();
        for (number, name) in names.iter().enumerate() {
            assert!(is_name(name) && !names[..number].contains(name), "{names:?}");
            assert_eq!(sheet.fact_names(1 << number), [*name]);
        }
        assert_eq!(sheet.to_string().parse(), Ok(sheet));
    }
}

#[test]
fn a_built_sheet_is_compared() {
    let draft = sheet_k(&[(0, &[2]), (0, &[4]), (0, &[3])]);
    let sheet = built(&draft, || false).build().unwrap();
    let report = compare(&sheet.to_bytes(), 0, 1).unwrap();
    assert_eq!((report.verdict, report.round), (Verdict::Same, 1));
    assert_eq!(compare(&sheet.to_bytes(), 0, 2).unwrap().verdict, Verdict::Diff);
}

// Fields

/// The field of each byte of the draft's sheet.
fn table(draft: &Draft) -> Vec<Field> {
    let mut fields = vec![Field::FactCount];
    let mut put = |bytes: usize, field: Field| fields.resize(fields.len() + bytes, field);
    for fact in 0..draft.facts {
        put(8, Field::FactName(fact));
    }
    put(1, Field::RuleCount);
    for rule in 0..draft.rules.len() {
        put(2, Field::Premise(rule));
        put(2, Field::Conclusion(rule));
    }
    put(1, Field::NodeCount);
    for node in 0..draft.nodes.len() {
        put(1, Field::Kind(node));
        put(2, Field::First(node));
        put(2, Field::Second(node));
    }
    put(1, Field::StartCount);
    for (start, (_, threads)) in draft.starts.iter().enumerate() {
        put(2, Field::Store(start));
        put(1, Field::ThreadCount(start));
        for thread in 0..threads.len() {
            put(1, Field::Thread(start, thread));
        }
    }
    fields
}

fn fields_are_in_their_places(draft: &Draft) {
    let (bytes, fields) = (draft.bytes(), table(draft));
    assert_eq!(bytes.len(), fields.len());
    for (place, &field) in fields.iter().enumerate() {
        assert_eq!(field_at(&bytes, place), field, "{place}: {draft:?}");
        // Where the sheet ends before it, what ought to be there.
        assert_eq!(field_at(&bytes[..place], place), field, "{place}: {draft:?}");
    }
    for beyond in [bytes.len(), bytes.len() + 1, 100_000, usize::MAX] {
        assert_eq!(field_at(&bytes, beyond), Field::Rest);
        assert_eq!(field_at(&[&bytes[..], &[1; 9]].concat(), beyond), Field::Rest);
    }
}

#[test]
fn the_field_of_every_byte() {
    for draft in drafts(600, 815) {
        fields_are_in_their_places(&draft);
    }
    // Counts that are too high are taken as they stand.
    fields_are_in_their_places(&Draft {
        facts: 99,
        rules: vec![(0, 0); 255],
        nodes: vec![(9, 9, 9); 255],
        starts: (0..255).map(|start| (0, vec![0; start])).collect(),
    });
    fields_are_in_their_places(&Draft::default());
    assert_eq!(
        (field_at(&[], 0), field_at(&[], 1), field_at(&[], 4)),
        (Field::FactCount, Field::RuleCount, Field::Rest)
    );
}

#[test]
fn fields_have_texts() {
    let texts = [
        (Field::FactCount, "the count of facts"),
        (Field::FactName(11), "the name of fact 11"),
        (Field::RuleCount, "the count of rules"),
        (Field::Premise(2), "the premise of rule 2"),
        (Field::Conclusion(0), "the conclusion of rule 0"),
        (Field::NodeCount, "the count of nodes"),
        (Field::Kind(63), "the kind of node 63"),
        (Field::First(1), "the first field of node 1"),
        (Field::Second(1), "the second field of node 1"),
        (Field::StartCount, "the count of starts"),
        (Field::Store(15), "the store of start 15"),
        (Field::ThreadCount(3), "the thread count of start 3"),
        (Field::Thread(3, 7), "thread 7 of start 3"),
        (Field::Rest, "what follows the last start"),
    ];
    for (field, text) in texts {
        assert_eq!(field.to_string(), text);
    }
}

/// Whether a refusal for this reason may be about this field.
fn may_be_wrong(reason: Reason, field: Field) -> bool {
    match reason {
        Reason::CutOff => field != Field::Rest,
        Reason::TooManyFacts => field == Field::FactCount,
        Reason::BadNameByte => matches!(field, Field::FactName(_)),
        Reason::TooManyRules => field == Field::RuleCount,
        Reason::AbsentFact => {
            matches!(field, Field::Premise(_) | Field::Conclusion(_) | Field::First(_) | Field::Store(_))
        }
        Reason::NodeCount => field == Field::NodeCount,
        Reason::BadKind | Reason::WideNode => matches!(field, Field::Kind(_)),
        Reason::BadNode => matches!(field, Field::First(_) | Field::Second(_) | Field::Thread(..)),
        Reason::UnusedField => matches!(field, Field::First(_) | Field::Second(_)),
        Reason::StartCount => field == Field::StartCount,
        Reason::TooManyThreads => matches!(field, Field::ThreadCount(_)),
        Reason::ExtraBytes => field == Field::Rest,
        _ => false,
    }
}

// Checking

#[test]
fn check_says_of_damaged_sheets_what_compare_says() {
    let mut rng = Rng::new(816);
    let mut seen = [0; 24];
    for mut draft in drafts(30_000, 817) {
        let mut bytes = draft.bytes();
        assert_eq!(check(&bytes), Ok(()));
        if rng.percent(20) {
            // With a both for each either, nodes and starts open to many threads.
            draft.nodes.iter_mut().filter(|node| node.0 == EITHER).for_each(|node| node.0 = BOTH);
            bytes = draft.bytes();
        } else {
            damage(&mut bytes, &mut rng);
        }
        let number = compare(&bytes, 0, 1).err().map_or(0, |error| error.refusal().unwrap().number());
        seen[number as usize] += 1;
        let read = Sheet::from_bytes(&bytes).map(|sheet| sheet.to_bytes());
        if !matches!(number, 1..=15) {
            assert_eq!(check(&bytes), Ok(()), "{bytes:?}");
            assert_eq!(read, Ok(bytes));
            continue;
        }
        let error = compare(&bytes, 0, 1).unwrap_err();
        assert_eq!((check(&bytes), read), (Err(error), Err(error)), "{bytes:?}");
        let Refusal { reason, place, .. } = error.refusal().unwrap();
        let field = field_at(&bytes, place);
        assert!(may_be_wrong(reason, field), "{error}: {field}");
        // The place is where the field begins, but for a byte of a name and for the end of a sheet.
        let inside = place > 0 && field_at(&bytes, place - 1) == field;
        assert!(
            !inside || matches!(reason, Reason::BadNameByte | Reason::CutOff | Reason::ExtraBytes),
            "{error}: {field}"
        );
    }
    println!("{seen:?}");
    for number in [0, 1, 2, 3, 4, 5, 7, 8, 9, 10, 11, 12, 13, 15, 21] {
        assert!(seen[number] > 0, "{number} was not seen");
    }
    assert_eq!((seen[6], seen[14], seen[22], seen[23]), (0, 0, 0, 0));
}

#[test]
fn check_takes_a_sheet_that_is_too_large_to_compare() {
    // Nodes tell, ask nothing then 2, both 0 and 1: the threads grow without end.
    let nodes = vec![(TELL, 0, 0), (ASK, 0, 2), (BOTH, 0, 1)];
    let bytes = Draft { nodes, starts: vec![(0, vec![1]), (0, vec![1])], ..Draft::default() }.bytes();
    assert_eq!(compare(&bytes, 0, 1), Err(Refusal::new(Reason::TooLarge, 0).into()));
    assert_eq!(check(&bytes), Ok(()));
    assert_eq!(Sheet::from_bytes(&bytes).unwrap().to_bytes(), bytes);
    assert_eq!(compare(&bytes, 2, 0), Err(Refusal::new(Reason::AbsentStart, 0).into()));
}
