//! A comparison as a Graphviz text.

use crate::{words, Comparison};
use hofadiju::{Set, Side, Verdict};
use std::collections::HashMap;
use std::fmt::Write;

/// How a move is marked: the steps of the trail that take it, and those that it answers.
#[derive(Default)]
struct Marks {
    taken: Vec<usize>,
    answered: Vec<usize>,
}

/// The configurations and moves: a colour for each class, the trail's moves in red, dashed where they are answers, and
/// redundant moves dotted.
pub fn graph(of: &Comparison) -> String {
    let mut text = String::from("digraph hofadiju {\n");
    text.push_str("  graph [rankdir=LR, labelloc=t, fontname=\"Helvetica\", label=");
    let marks = marks(of);
    let _ = writeln!(text, "{}];", quoted(&title(of, &marks)));
    text.push_str("  node [shape=box, style=\"rounded,filled\", fontname=\"Helvetica\"];\n");
    text.push_str("  edge [fontname=\"Helvetica\"];\n");
    for (position, member) in of.report.members.iter().enumerate() {
        let at = words::configuration(of.sheet, &of.behaviour.members[position]).replacen(" running ", "\n", 1);
        let (role, pen) = role(of, position);
        let label = format!("{role}{position}: {at}\nclass {}", member.class);
        let colour = colour(member.class);
        let _ = writeln!(text, "  m{position} [label={}, fillcolor=\"{colour}\"{pen}];", quoted(&label));
    }
    for (from, moves) in of.behaviour.moves.iter().enumerate() {
        for (place, edge) in moves.iter().enumerate() {
            let mut label = words::set(of.sheet, edge.label);
            if edge.label == of.least {
                label = String::new();
            }
            let mut style = String::new();
            if let Some(marks) = marks.get(&(from, edge.label, edge.target)) {
                style.push_str(", color=red, fontcolor=red, penwidth=2");
                if marks.taken.is_empty() {
                    style.push_str(", style=dashed");
                }
                label = marked(marks, &label);
            } else if of.behaviour.redundant(from, place) {
                style.push_str(", color=gray50, fontcolor=gray50, style=dotted");
            }
            let _ = writeln!(text, "  m{from} -> m{} [label={}{style}];", edge.target, quoted(&label));
        }
    }
    text.push_str("}\n");
    text
}

/// The starts, the verdict, and what the colours and lines that are drawn mean.
fn title(of: &Comparison, marks: &HashMap<(usize, Set, usize), Marks>) -> String {
    let starts = of.sheet.starts();
    let verdict = format!("{} {}", of.report.verdict, of.report.round);
    let mut title =
        format!("{} and {}: {verdict}\none colour for each class", starts[of.left].name, starts[of.right].name);
    if !marks.is_empty() {
        title.push_str(", red: the trail");
    }
    if marks.values().any(|marks| marks.taken.is_empty()) {
        title.push_str(", dashed: its answers");
    }
    let dotted = |from: usize, place: usize| {
        let edge = &of.behaviour.moves[from][place];
        of.behaviour.redundant(from, place) && !marks.contains_key(&(from, edge.label, edge.target))
    };
    let mut members = 0..of.behaviour.moves.len();
    if members.any(|from| (0..of.behaviour.moves[from].len()).any(|place| dotted(from, place))) {
        title.push_str(", dotted: redundant moves");
    }
    title
}

/// The sides whose start a member is, and its border.
fn role(of: &Comparison, position: usize) -> (&'static str, &'static str) {
    match (of.report.left == position, of.report.right == position) {
        (true, true) => ("left and right\n", ", penwidth=3"),
        (true, false) => ("left\n", ", penwidth=3"),
        (false, true) => ("right\n", ", penwidth=3"),
        (false, false) => ("", ""),
    }
}

/// The moves of the trail, by where they begin, label and target.
fn marks(of: &Comparison) -> HashMap<(usize, Set, usize), Marks> {
    let mut marks: HashMap<(usize, Set, usize), Marks> = HashMap::new();
    if of.report.verdict != Verdict::Diff {
        return marks;
    }
    let (mut left, mut right) = (of.report.left, of.report.right);
    for (place, step) in of.report.steps.iter().enumerate() {
        let (mover, other) = if step.side == Side::Left { (left, right) } else { (right, left) };
        marks.entry((mover, step.label, step.target)).or_default().taken.push(place + 1);
        let Some(reply) = step.reply else { break };
        marks.entry((other, step.label, reply)).or_default().answered.push(place + 1);
        (left, right) = if step.side == Side::Left { (step.target, reply) } else { (reply, step.target) };
    }
    marks
}

/// The label of a marked move: the steps, and what it needs.
fn marked(marks: &Marks, label: &str) -> String {
    let mut parts = vec![];
    for (what, steps) in [("step", &marks.taken), ("answer", &marks.answered)] {
        if !steps.is_empty() {
            let steps: Vec<String> = steps.iter().map(usize::to_string).collect();
            parts.push(format!("{what} {}", steps.join(", ")));
        }
    }
    if label.is_empty() {
        return parts.join(", ");
    }
    format!("{}: {label}", parts.join(", "))
}

/// A light colour for a class: hues that are far apart for classes that follow one another, and a stronger colour where
/// the hues come again.
fn colour(class: usize) -> String {
    let hue = class * 618 % 1000;
    let strength = 25 + 20 * (class / 500).min(3);
    format!("0.{hue:03} 0.{strength} 1.000")
}

fn quoted(text: &str) -> String {
    format!("\"{}\"", text.replace('\\', "\\\\").replace('"', "\\\"").replace('\n', "\\n"))
}
