//! Reports in words.

use crate::behaviour::{Configuration, Edge};
use crate::walk::{Ending, Taken, Walk};
use crate::Comparison;
use hofadiju::{Set, Sheet, Side, Verdict};
use std::fmt::Write;

/// A set in words: its facts in braces.
pub fn set(sheet: &Sheet, set: Set) -> String {
    format!("{{{}}}", sheet.fact_names(set).join(", "))
}

/// A node by its name; one that has none as its text in parentheses, with its number where another has the same text.
pub fn node(sheet: &Sheet, node: usize) -> String {
    if let Some(name) = sheet.node_name(node) {
        return name.to_string();
    }
    let text = sheet.node_text(node);
    let same = |&other: &usize| sheet.node_name(other).is_none() && sheet.node_text(other) == text;
    match (0..sheet.nodes().len()).filter(same).count() {
        0 | 1 => format!("({text})"),
        _ => format!("(node {node}: {text})"),
    }
}

/// A configuration: `{door, lamp} running wait, light`.
pub fn configuration(sheet: &Sheet, of: &Configuration) -> String {
    let threads: Vec<String> = of.threads.iter().map(|&thread| node(sheet, thread)).collect();
    let threads = if threads.is_empty() { "nothing".to_string() } else { threads.join(", ") };
    format!("{} running {threads}", set(sheet, of.store))
}

fn counted(count: usize, what: &str) -> String {
    format!("{count} {what}{}", if count == 1 { "" } else { "s" })
}

fn side_words(side: Side) -> (&'static str, &'static str) {
    match side {
        Side::Left => ("left", "right"),
        Side::Right => ("right", "left"),
    }
}

/// The whole answer in words.
pub fn comparison(of: &Comparison) -> String {
    let mut text = verdict(of);
    text.push('\n');
    for (side, start, member) in [("left", of.left, of.report.left), ("right", of.right, of.report.right)] {
        let at = configuration(of.sheet, &of.behaviour.members[member]);
        let _ = writeln!(text, "{side:<5}  {}: {at}", of.sheet.starts()[start].name);
    }
    if let Some(walk) = &of.walk {
        text.push_str("\nHow to tell them apart\n");
        text.push_str(&walk_words(of, walk));
        text.push_str(&trail(of, walk));
    }
    text.push('\n');
    text.push_str(&classes(of));
    text
}

/// The verdict, and what it means.
fn verdict(of: &Comparison) -> String {
    let starts = of.sheet.starts();
    let (left, right) = (&starts[of.left].name, &starts[of.right].name);
    let round = of.report.round;
    match of.report.verdict {
        Verdict::Same => format!(
            "SAME: {left} and {right} behave alike. Whatever is added to both, no watcher can ever tell them apart.\n\
             (It was settled in round {round}.)\n"
        ),
        _ if round == 0 => {
            format!("DIFF: {left} and {right} behave differently. Their stores differ from the start.\n")
        }
        _ => format!(
            "DIFF: {left} and {right} behave differently. A watcher can tell them apart in {}, and not in fewer.\n",
            counted(round, "move")
        ),
    }
}

/// By what a side moves, and where it leads: `by wait to {door} running light`.
fn moved(sheet: &Sheet, thread: usize, part: usize, to: &Configuration) -> String {
    let part = if thread == part { String::new() } else { format!(", taking {},", node(sheet, part)) };
    format!("by {}{part} to {}", node(sheet, thread), configuration(sheet, to))
}

fn taken(sheet: &Sheet, of: &Taken) -> String {
    moved(sheet, of.thread, of.part, &of.to)
}

/// What is added to both sides.
fn added(of: &Comparison, label: Set) -> String {
    match label == of.least {
        true => "Add nothing.".to_string(),
        false => format!("Add {} to both.", set(of.sheet, label)),
    }
}

/// The walk, a number for each move.
fn walk_words(of: &Comparison, walk: &Walk) -> String {
    let sheet = of.sheet;
    let mut text = String::new();
    for (place, step) in walk.moves.iter().enumerate() {
        let (mover, other) = side_words(step.side);
        let _ = writeln!(text, "  {}. {}", place + 1, added(of, step.label));
        let _ = writeln!(text, "     The {mover} moves {}.", taken(sheet, &step.by));
        let _ = match &step.answer {
            None => writeln!(text, "     The {other} cannot move."),
            Some(answer) => {
                let else_where = match step.answers {
                    1 => "and can come nowhere else".to_string(),
                    most => format!("the best of {most} places it can come to"),
                };
                writeln!(text, "     The {other} answers {}, {else_where}.", taken(sheet, answer))
            }
        };
    }
    let _ = match walk.ending {
        Ending::Stores => writeln!(text, "  The stores differ: {}.", store_difference(sheet, &walk.left, &walk.right)),
        Ending::Stuck => Ok(()),
        Ending::Unfinished => {
            writeln!(text, "  From here on there is too much to follow.")
        }
    };
    text
}

/// The report's trail, step by step, where the walk does not have the same steps.
fn trail(of: &Comparison, walk: &Walk) -> String {
    let steps = of.behaviour.trail(of.report.left, of.report.right);
    if steps.is_empty() {
        return String::new();
    }
    let members = &of.behaviour.members;
    let same = steps.iter().zip(&walk.moves).all(|((side, edge, reply), step)| {
        let reply = reply.map(|reply| &members[reply.target]);
        let answer = step.answer.as_ref().map(|answer| &answer.to);
        (*side, edge.label, &members[edge.target], reply) == (step.side, step.label, &step.by.to, answer)
    });
    if same && steps.len() == walk.moves.len() {
        return "  These are the steps of the report's trail.\n".to_string();
    }
    let mut text = "\nThe trail of the report, in which a move counts by exactly what it needs\n".to_string();
    let at = |edge: &Edge| moved(of.sheet, edge.thread, edge.part, &members[edge.target]);
    for (place, (side, edge, reply)) in steps.iter().enumerate() {
        let (mover, other) = side_words(*side);
        let _ = writeln!(text, "  {}. {}", place + 1, added(of, edge.label));
        let _ = writeln!(text, "     The {mover} moves {}.", at(edge));
        let _ = match reply {
            Some(reply) => writeln!(text, "     The {other} replies {}.", at(reply)),
            None if edge.label == of.least => writeln!(text, "     The {other} has no such move."),
            None => {
                let label = set(of.sheet, edge.label);
                writeln!(text, "     The {other} has no such move, none that needs exactly {label}.")
            }
        };
    }
    text
}

/// What one side has and the other has not.
fn store_difference(sheet: &Sheet, left: &Configuration, right: &Configuration) -> String {
    let mut parts = vec![];
    for (side, own, other) in [("left", left, right), ("right", right, left)] {
        let only = own.store & !other.store;
        if only != 0 {
            parts.push(format!("only the {side} has {}", set(sheet, only)));
        }
    }
    parts.join(", and ")
}

/// Every class with its configurations, each with its position in the report.
fn classes(of: &Comparison) -> String {
    let members = &of.report.members;
    let count = members.iter().map(|member| member.class + 1).max().unwrap_or(0);
    let mut text = format!(
        "{} in {}; what is in one class behaves alike\n",
        counted(members.len(), "configuration"),
        if count == 1 { "1 class".to_string() } else { format!("{count} classes") }
    );
    let width = members.len().saturating_sub(1).to_string().len();
    for class in 0..count {
        let _ = writeln!(text, "  class {class}");
        for (position, member) in members.iter().enumerate().filter(|(_, member)| member.class == class) {
            let at = configuration(of.sheet, &Configuration::new(member.store, member.threads.clone()));
            let _ = writeln!(text, "    {position:>width$}  {at}{}", mark(of, position));
        }
    }
    text
}

/// Which starts a member is.
fn mark(of: &Comparison, position: usize) -> &'static str {
    match (of.report.left == position, of.report.right == position) {
        (true, true) => "  (left and right)",
        (true, false) => "  (left)",
        (false, true) => "  (right)",
        (false, false) => "",
    }
}
