//! The words of a comparison, read back and followed by the reference's moves: what they say is true.

use hofadiju::{compare, notation, Node, Report, Sheet, Side, Verdict};
use hofadiju_command::{words, Comparison};
use reference::plain::{follow, Follower, Stand};
use sheets::{alike_pair, draw, variants, with_standing, Rng, SHAPES};

/// The words of a comparison, taken apart by their names alone.
struct Reader<'a> {
    sheet: &'a Sheet,
    lines: std::iter::Peekable<std::str::Lines<'a>>,
}

/// A move as the words have it: thread, part and where it leads.
#[derive(Clone, Debug)]
struct Said {
    thread: usize,
    part: usize,
    to: Stand,
}

/// What the other side does.
#[derive(Debug)]
enum Answer {
    /// It can do nothing else.
    Only(Said),
    /// It can do nothing better; so many answers there are.
    Best(Said, usize),
    Nothing,
}

/// What stands between two parts of a line.
fn between<'a>(line: &'a str, before: &str, after: &str) -> &'a str {
    let rest = line.strip_prefix(before).unwrap_or_else(|| panic!("'{line}' begins with '{before}'"));
    rest.strip_suffix(after).unwrap_or_else(|| panic!("'{line}' ends with '{after}'"))
}

/// The parts of a list, commas inside parentheses and braces left alone.
fn parts(list: &str) -> Vec<&str> {
    let mut found = vec![];
    let (mut depth, mut from) = (0, 0);
    for (at, c) in list.char_indices() {
        match c {
            '(' | '{' => depth += 1,
            ')' | '}' => depth -= 1,
            ',' if depth == 0 => {
                found.push(&list[from..at]);
                from = at + 2;
            }
            _ => {}
        }
    }
    found.push(&list[from..]);
    found
}

impl<'a> Reader<'a> {
    fn line(&mut self) -> &'a str {
        self.lines.next().expect("another line")
    }

    fn set(&self, text: &str) -> u16 {
        let names = between(text, "{", "}");
        let number = |name: &str| self.sheet.facts().iter().position(|fact| fact.name == name).expect("a fact's name");
        names.split(", ").filter(|name| !name.is_empty()).fold(0, |set, name| set | 1 << number(name))
    }

    /// A node by its name, or by its text in parentheses, which has a number where another node has the same text.
    fn node(&self, text: &str) -> usize {
        let nodes = 0..self.sheet.nodes().len();
        let Some(inside) = text.strip_prefix('(').and_then(|text| text.strip_suffix(')')) else {
            let named = nodes.into_iter().find(|&node| self.sheet.node_name(node) == Some(text));
            return named.unwrap_or_else(|| panic!("a node: {text}"));
        };
        let numbered = inside.strip_prefix("node ").and_then(|inside| inside.split_once(": "));
        let text = numbered.map_or(inside, |(_, text)| text);
        let same: Vec<usize> =
            nodes.filter(|&node| self.sheet.node_name(node).is_none() && self.sheet.node_text(node) == text).collect();
        assert_eq!(same.len() > 1, numbered.is_some(), "{inside}");
        let node = numbered.map_or(same[0], |(number, _)| number.parse().unwrap());
        assert!(same.contains(&node), "{inside}");
        node
    }

    fn stand(&self, text: &str) -> Stand {
        let (store, threads) = text.split_once(" running ").expect("a configuration");
        let threads = if threads == "nothing" { vec![] } else { parts(threads) };
        (self.set(store), threads.iter().map(|thread| self.node(thread)).collect())
    }

    /// `by THREAD[, taking PART,] to CONFIGURATION`
    fn said(&self, text: &str) -> Said {
        let text = text.strip_prefix("by ").expect("by");
        let (how, to) = text.split_once(" to {").expect("to");
        let to = self.stand(&format!("{{{to}"));
        let (thread, part) = match how.strip_suffix(',').and_then(|how| how.split_once(", taking ")) {
            Some((thread, part)) => (thread, part),
            None => (how, how),
        };
        Said { thread: self.node(thread), part: self.node(part), to }
    }

    /// The next step's number, where it is one, its label, the side that moves, and how.
    fn step(&mut self, count: usize) -> Option<(Option<u16>, Side, Said)> {
        let number = format!("  {}. ", count + 1);
        let add = self.lines.next_if(|line| line.starts_with(&number))?.strip_prefix(&number)?;
        let label = match add {
            "Add nothing." => None,
            add => Some(self.set(between(add, "Add ", " to both."))),
        };
        let line = self.line();
        let side = if line.starts_with("     The left") { Side::Left } else { Side::Right };
        let by = self.said(between(line, &format!("     The {} moves ", sides(side).0), "."));
        Some((label, side, by))
    }

    /// The answer of a walk's step.
    fn answer(&mut self, side: Side) -> Answer {
        let line = between(self.line(), &format!("     The {} ", sides(side).1), ".");
        if line == "cannot move" {
            return Answer::Nothing;
        }
        let line = line.strip_prefix("answers ").expect("an answer");
        if let Some(said) = line.strip_suffix(", and can come nowhere else") {
            return Answer::Only(self.said(said));
        }
        let (said, most) = line.split_once(", the best of ").expect("one of several answers");
        Answer::Best(self.said(said), between(most, "", " places it can come to").parse().unwrap())
    }

    /// The reply of a trail's step.
    fn reply(&mut self, side: Side, label: Option<u16>) -> Option<Said> {
        let line = between(self.line(), &format!("     The {} ", sides(side).1), ".");
        if let Some(said) = line.strip_prefix("replies ") {
            return Some(self.said(said));
        }
        match label {
            None => assert_eq!(line, "has no such move"),
            label => assert_eq!(label, Some(self.set(between(line, "has no such move, none that needs exactly ", "")))),
        }
        None
    }
}

fn sides(mover: Side) -> (&'static str, &'static str) {
    if mover == Side::Left {
        ("left", "right")
    } else {
        ("right", "left")
    }
}

/// Whether a tell or ask is a node or a part of it that can move first.
fn part_of(sheet: &Sheet, part: usize, node: usize) -> bool {
    match sheet.nodes()[node] {
        Node::Tell(_) | Node::Ask(..) => part == node,
        Node::Both(first, second) | Node::Either(first, second) => {
            part_of(sheet, part, first) || part_of(sheet, part, second)
        }
        _ => false,
    }
}

/// How many of each kind of words were followed.
#[derive(Debug, Default)]
struct Seen {
    same: usize,
    diff: usize,
    moves: usize,
    only: usize,
    best: usize,
    stuck: usize,
    stores: usize,
    same_steps: usize,
    replies: usize,
    without_reply: usize,
    unfinished: usize,
}

/// The round in which two configurations of a sheet are apart, by the library.
fn apart(sheet: &Sheet, left: &Stand, right: &Stand) -> Option<usize> {
    let mut bytes = sheet.to_bytes();
    let starts: usize = sheet.starts().iter().map(|start| 3 + start.nodes.len()).sum();
    bytes.truncate(bytes.len() - starts - 1);
    bytes.push(2);
    for (store, threads) in [left, right] {
        bytes.extend(store.to_le_bytes());
        bytes.push(threads.len() as u8);
        bytes.extend(threads.iter().map(|&thread| thread as u8));
    }
    let report = compare(&bytes, 0, 1).expect("a pair of the walk");
    (report.verdict == Verdict::Diff).then_some(report.round)
}

/// Follows the words on two starts of a sheet.
fn followed(sheet: &Sheet, left: usize, right: usize, report: Report, seen: &mut Seen) {
    let bytes = sheet.to_bytes();
    let steps = report.steps.clone();
    let (verdict, round) = (report.verdict, report.round);
    let comparison = Comparison::new(sheet, left, right, report).expect("the words agree with the report");
    let text = words::comparison(&comparison);
    let mut reader = Reader { sheet, lines: text.lines().peekable() };
    follow(&bytes, |follower| {
        let heading = reader.line();
        assert!(heading.starts_with(if verdict == Verdict::Same { "SAME: " } else { "DIFF: " }), "{heading}");
        if verdict == Verdict::Diff && round > 0 {
            let plural = if round == 1 { "" } else { "s" };
            assert!(heading.ends_with(&format!("in {round} move{plural}, and not in fewer.")), "{heading}");
        }
        if verdict == Verdict::Diff && round == 0 {
            assert!(heading.ends_with(" behave differently. Their stores differ from the start."), "{heading}");
        }
        if verdict == Verdict::Same {
            assert!(heading.ends_with(" behave alike. Whatever is added to both, no watcher can ever tell them apart."));
            assert_eq!(reader.line(), format!("(It was settled in round {round}.)"));
        }
        assert_eq!(reader.line(), "");
        let names = [("left ", left), ("right", right)];
        let [at_left, at_right] = names.map(|(side, start)| {
            let stand =
                reader.line().strip_prefix(&format!("{side}  {}: ", sheet.starts()[start].name)).expect("a start");
            let stand = reader.stand(stand);
            assert_eq!(Some(&stand), follower.start(start).as_ref());
            stand
        });
        assert_eq!(reader.line(), "");
        match verdict {
            Verdict::Same => seen.same += 1,
            _ => {
                seen.diff += 1;
                assert_eq!(reader.line(), "How to tell them apart");
                let taken = walked(&mut reader, follower, (at_left.clone(), at_right.clone()), round, seen);
                let same =
                    reader.lines.next_if(|line| *line == "  These are the steps of the report's trail.").is_some();
                assert_eq!(same, !steps.is_empty() && taken == said_by(&comparison.report));
                seen.same_steps += usize::from(same);
                assert_eq!(reader.line(), "");
                if !steps.is_empty() && !same {
                    trailed(&mut reader, follower, (at_left, at_right), &steps, seen);
                    assert_eq!(reader.line(), "");
                }
            }
        }
        classes(&mut reader, &comparison);
    })
    .expect("the sheet is read");
}

/// The mover has this move, by this thread and this part of it.
fn moved(reader: &Reader, moves: &[(u16, Stand)], from: &Stand, said: &Said, label: u16) {
    assert!(moves.contains(&(label, said.to.clone())), "{said:?}");
    threaded(reader, from, said);
}

fn threaded(reader: &Reader, from: &Stand, said: &Said) {
    assert!(from.1.contains(&said.thread) && part_of(reader.sheet, said.part, said.thread), "{said:?}");
}

/// A move of a walk or a trail: side, label, where it leads, and where the answer leads.
type Taken = (Side, u16, Stand, Option<Stand>);

/// The moves of a report's trail.
fn said_by(report: &Report) -> Vec<Taken> {
    let stand = |position: usize| (report.members[position].store, report.members[position].threads.clone());
    report.steps.iter().map(|step| (step.side, step.label, stand(step.target), step.reply.map(stand))).collect()
}

/// Follows the walk: every move is one, the other side has the answers that the words say and no others, the one that
/// is taken is told apart last, and there are as many moves as the round says.
fn walked(
    reader: &mut Reader,
    follower: &mut Follower,
    (mut left, mut right): (Stand, Stand),
    round: usize,
    seen: &mut Seen,
) -> Vec<Taken> {
    let mut taken = vec![];
    let mut count = 0;
    while let Some((label, side, by)) = reader.step(count) {
        let label = label.unwrap_or(follower.least());
        let (mover, other) = if side == Side::Left { (&left, &right) } else { (&right, &left) };
        let moves = follower.moves(mover).expect("a member moves within the limits");
        moved(reader, &moves, mover, &by, label);
        let moves = follower.moves(other).expect("a member moves within the limits");
        let within = moves.iter().filter(|(a, _)| a & !label == 0);
        let answers: std::collections::BTreeSet<Stand> = within.map(|(_, to)| follower.added(to, label)).collect();
        count += 1;
        seen.moves += 1;
        let said = match reader.answer(side) {
            Answer::Only(said) => {
                assert_eq!(answers.len(), 1, "{said:?}");
                seen.only += 1;
                said
            }
            Answer::Best(said, most) => {
                assert!(answers.len() > 1 && answers.len() == most, "{said:?}");
                seen.best += 1;
                said
            }
            Answer::Nothing => {
                assert!(answers.is_empty() && count == round);
                seen.stuck += 1;
                taken.push((side, label, by.to, None));
                return taken;
            }
        };
        taken.push((side, label, by.to.clone(), Some(said.to.clone())));
        assert!(answers.contains(&said.to), "{said:?}");
        threaded(reader, other, &said);
        // Whatever the answer, the rest of the moves tells the two apart, and after this one no fewer do.
        assert_eq!(apart(reader.sheet, &by.to, &said.to), Some(round - count), "{said:?}");
        for answer in answers.iter().take(100) {
            assert!(apart(reader.sheet, &by.to, answer).is_some_and(|apart| apart <= round - count), "{answer:?}");
        }
        (left, right) = if side == Side::Left { (by.to, said.to) } else { (said.to, by.to) };
    }
    let line = reader.line();
    if line == "  From here on there is too much to follow." {
        seen.unfinished += 1;
        return taken;
    }
    let mut only = vec![];
    for (side, own, other) in [("left", &left, &right), ("right", &right, &left)] {
        let set = own.0 & !other.0;
        if set != 0 {
            only.push(format!("only the {side} has {{{}}}", reader.sheet.fact_names(set).join(", ")));
        }
    }
    assert!(!only.is_empty());
    assert_eq!(line, format!("  The stores differ: {}.", only.join(", and ")));
    assert_eq!(count, round);
    seen.stores += 1;
    taken
}

/// Follows the trail: the report's steps, by moves that there are, and without a reply where there is none.
fn trailed(
    reader: &mut Reader,
    follower: &mut Follower,
    (mut left, mut right): (Stand, Stand),
    trail: &[hofadiju::Step],
    seen: &mut Seen,
) {
    assert_eq!(reader.line(), "The trail of the report, in which a move counts by exactly what it needs");
    for (count, step) in trail.iter().enumerate() {
        let (said_label, side, by) = reader.step(count).expect("a step");
        let label = said_label.unwrap_or(follower.least());
        assert_eq!((step.side, step.label), (side, label));
        let (mover, other) = if side == Side::Left { (&left, &right) } else { (&right, &left) };
        let moves = follower.moves(mover).expect("a member moves within the limits");
        moved(reader, &moves, mover, &by, label);
        let moves = follower.moves(other).expect("a member moves within the limits");
        let reply = reader.reply(side, said_label);
        assert_eq!(reply.is_some(), step.reply.is_some());
        let Some(said) = reply else {
            assert!(moves.iter().all(|(a, _)| *a != label), "{by:?}");
            assert_eq!(count + 1, trail.len());
            seen.without_reply += 1;
            return;
        };
        moved(reader, &moves, other, &said, label);
        seen.replies += 1;
        (left, right) = if side == Side::Left { (by.to, said.to) } else { (said.to, by.to) };
    }
}

/// The classes have every member once.
fn classes(reader: &mut Reader, of: &Comparison) {
    let members = &of.report.members;
    let count = 1 + members.iter().map(|member| member.class).max().unwrap();
    assert!(reader.line().starts_with(&format!("{} configuration", members.len())));
    let mut found = vec![];
    for class in 0..count {
        assert_eq!(reader.line(), format!("  class {class}"));
        while let Some(line) = reader.lines.next_if(|line| line.starts_with("    ")) {
            let (position, stand) = line.trim_start().split_once("  ").unwrap();
            let (stand, mark) = stand.split_once("  (").map_or((stand, ""), |(stand, mark)| (stand, mark));
            let position: usize = position.parse().unwrap();
            let member = &members[position];
            assert_eq!((member.store, member.threads.clone()), reader.stand(stand));
            assert_eq!(member.class, class);
            let sides = (of.report.left == position, of.report.right == position);
            let marks = match sides {
                (true, true) => "left and right)",
                (true, false) => "left)",
                (false, true) => "right)",
                _ => "",
            };
            assert_eq!(mark, marks);
            found.push(position);
        }
    }
    found.sort();
    assert_eq!(found, (0..members.len()).collect::<Vec<_>>());
    assert_eq!(reader.lines.next(), None);
}

fn follow_bytes(bytes: &[u8], seen: &mut Seen) {
    let Ok(sheet) = Sheet::from_bytes(bytes) else { return };
    if let Ok(report) = compare(bytes, 0, 1) {
        followed(&sheet, 0, 1, report, seen);
    }
}

#[test]
fn the_words_are_true_on_random_sheets() {
    let mut rng = Rng::new(20);
    let mut seen = Seen::default();
    for i in 0..60_000 {
        let shape = &SHAPES[i % SHAPES.len()];
        let mut draft = match i % 3 {
            0 => alike_pair(shape, &mut rng),
            1 => variants(shape, &mut rng),
            _ => draw(shape, &mut rng),
        };
        if i % 7 == 0 {
            draft = with_standing(draft, &mut rng);
        }
        follow_bytes(&draft.bytes(), &mut seen);
    }
    println!("{seen:?}");
    assert!(seen.same > 2_000 && seen.diff > 10_000 && seen.only > 2_000 && seen.best > 1_000, "{seen:?}");
    assert!(
        seen.same_steps > 5_000
            && seen.stuck > 1_000
            && seen.stores > 1_000
            && seen.replies > 100
            && seen.without_reply > 500,
        "{seen:?}"
    );
    assert_eq!(seen.unfinished, 0, "{seen:?}");
}

#[test]
fn the_words_are_true_on_samples_and_heavy_sheets() {
    let mut seen = Seen::default();
    let here = std::path::Path::new(env!("CARGO_MANIFEST_DIR"));
    for folder in ["../../samples", "../benches/worst", "../benches/sixteen"] {
        for entry in std::fs::read_dir(here.join(folder)).unwrap() {
            let path = entry.unwrap().path();
            match path.extension().and_then(|ending| ending.to_str()) {
                Some("sheet") => follow_bytes(&std::fs::read(path).unwrap(), &mut seen),
                Some("ccp") => {
                    let sheet = notation::read(&std::fs::read_to_string(path).unwrap()).unwrap();
                    let report = compare(&sheet.to_bytes(), 0, 1).unwrap();
                    followed(&sheet, 0, 1, report, &mut seen);
                }
                _ => {}
            }
        }
    }
    assert!(seen.diff >= 5 && seen.same >= 3 && seen.unfinished == 0, "{seen:?}");
}

#[test]
fn the_words_name_nodes_that_stand_where_they_are_used() {
    let text = "
        fact door, lamp
        node wait = ask door then (either tell lamp or (ask lamp then stop))
        node open = ask door then both tell nothing and tell lamp
        start old at nothing run wait
        start new at nothing run open, (ask lamp then tell door)
    ";
    let sheet = notation::read(text).unwrap();
    let report = compare(&sheet.to_bytes(), 0, 1).unwrap();
    let mut seen = Seen::default();
    followed(&sheet, 0, 1, report, &mut seen);
    assert_eq!(seen.diff, 1);
}
