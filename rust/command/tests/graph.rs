//! The picture of a comparison has the members, their classes, the reference's moves and the report's trail.

mod common;

use common::run;
use hofadiju::{compare, Member, Report, Sheet, Side};
use reference::plain::{follow, Stand};
use sheets::{alike_pair, variants, with_standing, Rng, SHAPES};
use std::collections::{BTreeMap, BTreeSet, HashMap};
use std::process::{Command, Stdio};

/// What stands in quotes behind a name.
fn attribute(line: &str, name: &str) -> Option<String> {
    let from = line.find(&format!("{name}=\""))? + name.len() + 2;
    let mut text = String::new();
    let mut chars = line[from..].chars();
    loop {
        match chars.next()? {
            '"' => return Some(text),
            '\\' => match chars.next()? {
                'n' => text.push('\n'),
                c => text.push(c),
            },
            c => text.push(c),
        }
    }
}

/// A move by where it begins, the set that it needs as the picture has it, and where it leads.
type Key = (usize, String, usize);

/// What the picture says of a move: the steps that take it, those that it answers, and how it is drawn.
#[derive(Debug, Default, PartialEq, Eq)]
struct Drawn {
    taken: Vec<usize>,
    answered: Vec<usize>,
    red: bool,
    dashed: bool,
    dotted: bool,
}

/// A line of the picture that has a move.
fn drawn(line: &str) -> (String, Drawn) {
    let label = attribute(line, "label").unwrap();
    // The set that a move needs stands at the end of its label, behind its steps in the trail.
    let (steps, set) = label.split_at(label.find('{').unwrap_or(label.len()));
    assert_eq!(steps.ends_with(": "), !steps.is_empty() && !set.is_empty(), "{line}");
    let mut of = Drawn::default();
    let mut answers = None;
    for part in steps.trim_end_matches(": ").split(", ").filter(|part| !part.is_empty()) {
        let number = match part.split_once(' ') {
            Some(("step", number)) => {
                assert_eq!(answers.replace(false), None, "{line}");
                number
            }
            Some(("answer", number)) => {
                assert_ne!(answers.replace(true), Some(true), "{line}");
                number
            }
            _ => part,
        };
        let list = if answers.expect("step or answer") { &mut of.answered } else { &mut of.taken };
        list.push(number.parse().unwrap());
    }
    let style = line.rsplit_once('"').unwrap().1;
    of.red = style.contains(", color=red, fontcolor=red");
    of.dashed = style.contains("style=dashed");
    of.dotted = style.contains("style=dotted");
    assert_eq!(of.red, style.contains("red"), "{line}");
    (set.to_string(), of)
}

/// How many of each kind were held.
#[derive(Debug, Default)]
struct Held {
    moves: usize,
    trails: usize,
    replies: usize,
    right_steps: usize,
    dashed: usize,
    both: usize,
    dotted: usize,
    redundant_in_trail: usize,
    one_member: usize,
}

/// The moves of a report's members by the reference, drawn as its trail and its classes have it; and whether some of
/// them is redundant.
fn expected(bytes: &[u8], report: &Report, sheet: &Sheet, held: &mut Held) -> (BTreeMap<Key, Drawn>, bool) {
    let position = |(store, threads): &Stand| {
        let same = |member: &Member| (member.store, &member.threads) == (*store, threads);
        report.members.iter().position(same).unwrap()
    };
    let set = |label: u16| format!("{{{}}}", sheet.fact_names(label).join(", "));
    let mut moves: BTreeMap<Key, Drawn> = BTreeMap::new();
    let mut redundant = BTreeSet::new();
    let least = follow(bytes, |follower| {
        for (from, member) in report.members.iter().enumerate() {
            let own = follower.moves(&(member.store, member.threads.clone())).unwrap();
            for (label, target) in &own {
                let to = position(target);
                let key = (from, if *label == follower.least() { String::new() } else { set(*label) }, to);
                let below = own.iter().filter(|(a, _)| a & !label == 0 && a != label);
                let class = |stand: &Stand| report.members[position(stand)].class;
                if below.map(|(_, u)| class(&follower.added(u, *label))).any(|class| class == report.members[to].class)
                {
                    redundant.insert(key.clone());
                }
                assert!(moves.insert(key, Drawn::default()).is_none());
            }
        }
        follower.least()
    })
    .unwrap();
    let (mut left, mut right) = (report.left, report.right);
    for (place, step) in report.steps.iter().enumerate() {
        let set = if step.label == least { String::new() } else { set(step.label) };
        let (mover, other) = if step.side == Side::Left { (left, right) } else { (right, left) };
        moves.get_mut(&(mover, set.clone(), step.target)).expect("a step is a move").taken.push(place + 1);
        held.right_steps += usize::from(step.side == Side::Right);
        let Some(reply) = step.reply else {
            assert_eq!(place + 1, report.steps.len());
            break;
        };
        moves.get_mut(&(other, set, reply)).expect("a reply is a move").answered.push(place + 1);
        held.replies += 1;
        (left, right) = if step.side == Side::Left { (step.target, reply) } else { (reply, step.target) };
    }
    for (key, of) in &mut moves {
        of.red = !of.taken.is_empty() || !of.answered.is_empty();
        of.dashed = of.red && of.taken.is_empty();
        of.dotted = !of.red && redundant.contains(key);
        held.both += usize::from(of.red && !of.dashed && !of.answered.is_empty());
        held.redundant_in_trail += usize::from(of.red && redundant.contains(key));
    }
    (moves, !redundant.is_empty())
}

#[test]
fn graphs_have_members_classes_moves_and_the_trail() {
    let mut rng = Rng::new(61);
    let mut held = Held::default();
    for i in 0..6_000 {
        let shape = &SHAPES[i % SHAPES.len()];
        let mut draft = if i % 2 == 0 { alike_pair(shape, &mut rng) } else { variants(shape, &mut rng) };
        if i % 5 == 0 {
            draft = with_standing(draft, &mut rng);
        }
        let bytes = draft.bytes();
        let Ok(report) = compare(&bytes, 0, 1) else { continue };
        let sheet = Sheet::from_bytes(&bytes).unwrap();
        let graph = run(&["graph", "-"], &bytes);
        assert_eq!((graph.status, graph.errors.as_str()), (0, ""));
        let text = graph.text();
        assert!(text.starts_with("digraph hofadiju {\n") && text.ends_with("}\n"));
        let (mut colours, mut members) = (HashMap::new(), 0);
        let mut edges = BTreeMap::new();
        for line in text.lines().filter(|line| line.starts_with("  m")) {
            let (head, _) = line.trim_start().split_once(" [").unwrap();
            let numbers: Vec<usize> = head.split(" -> ").map(|name| name[1..].parse().unwrap()).collect();
            if let [from, to] = numbers[..] {
                let (set, of) = drawn(line);
                assert!(edges.insert((from, set, to), of).is_none(), "{line}");
                continue;
            }
            let label = attribute(line, "label").unwrap();
            let position = numbers[0];
            let member = &report.members[position];
            assert_eq!(position, members);
            members += 1;
            assert!(label.ends_with(&format!("\nclass {}", member.class)), "{line}");
            let colour = attribute(line, "fillcolor").unwrap();
            assert_eq!(*colours.entry(colour).or_insert(member.class), member.class, "{line}");
            let role = match (report.left == position, report.right == position) {
                (true, true) => "left and right\n",
                (true, false) => "left\n",
                (false, true) => "right\n",
                (false, false) => "",
            };
            assert!(label.starts_with(&format!("{role}{position}: {{")), "{line}");
        }
        assert_eq!(members, report.members.len());
        let (expected, redundant) = expected(&bytes, &report, &sheet, &mut held);
        assert_eq!(edges, expected);
        let line = text.lines().find(|line| line.starts_with("  graph [")).unwrap();
        let title = attribute(line, "label").unwrap();
        assert!(title.starts_with(&format!("s0 and s1: {} {}\n", report.verdict, report.round)), "{title}");
        assert_eq!(title.contains("red: the trail"), !report.steps.is_empty(), "{title}");
        assert_eq!(title.contains("dashed: its answers"), text.contains("style=dashed"), "{title}");
        assert_eq!(title.contains("dotted: redundant moves"), text.contains("style=dotted"), "{title}");
        assert!(redundant || !text.contains("style=dotted"), "{title}");
        held.moves += edges.len();
        held.trails += usize::from(!report.steps.is_empty());
        held.dashed += edges.values().filter(|of| of.dashed).count();
        held.dotted += edges.values().filter(|of| of.dotted).count();
        held.one_member += usize::from(report.left == report.right);
    }
    println!("{held:?}");
    assert!(held.moves > 40_000 && held.trails > 500 && held.replies > 100 && held.right_steps > 50, "{held:?}");
    assert!(held.dashed > 100 && held.both > 20 && held.dotted > 1_000 && held.one_member > 50, "{held:?}");
}

/// The picture beside the sample has every line of its labels, and no other.
#[test]
fn the_stored_picture_is_that_of_its_sample() {
    let samples = std::path::Path::new(env!("CARGO_MANIFEST_DIR")).join("../../samples");
    let graph = run(&["graph", samples.join("cabinet.ccp").to_str().unwrap()], &[]);
    assert_eq!(graph.status, 0);
    let labels = graph.text().lines().filter_map(|line| attribute(line, "label"));
    let mut lines: Vec<String> =
        labels.flat_map(|label| label.lines().map(str::to_string).collect::<Vec<_>>()).collect();
    let picture = std::fs::read_to_string(samples.join("cabinet.svg")).unwrap();
    let mut texts = vec![];
    for part in picture.split("<text ").skip(1) {
        let (_, text) = part.split_once('>').unwrap();
        let (text, _) = text.split_once("</text>").unwrap();
        let text = text.replace("&#45;", "-").replace("&#39;", "'").replace("&quot;", "\"");
        texts.push(text.replace("&lt;", "<").replace("&gt;", ">").replace("&amp;", "&"));
    }
    lines.sort();
    texts.sort();
    assert!(lines.len() > 50, "{}", lines.len());
    assert_eq!(texts, lines);
}

/// Where Graphviz is installed, it draws every sample.
#[test]
fn graphviz_draws_the_samples() {
    if Command::new("dot").arg("-V").stderr(Stdio::null()).status().is_err() {
        return;
    }
    let samples = std::path::Path::new(env!("CARGO_MANIFEST_DIR")).join("../../samples");
    for entry in std::fs::read_dir(samples).unwrap() {
        let path = entry.unwrap().path();
        let graph = run(&["graph", path.to_str().unwrap()], &[]);
        if graph.status != 0 {
            continue;
        }
        let file = std::path::Path::new(env!("CARGO_TARGET_TMPDIR")).join("sample.dot");
        std::fs::write(&file, &graph.output).unwrap();
        let drawn = Command::new("dot").arg("-Tsvg").arg(&file).output().unwrap();
        assert!(drawn.status.success() && drawn.stderr.is_empty(), "{}", String::from_utf8_lossy(&drawn.stderr));
    }
}
