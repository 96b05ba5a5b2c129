//! Sheets as texts.

use crate::sheet::{Fact, Node, Set, Sheet, Start};
use crate::NAME_BYTES;
use std::fmt::Write;

/// Names for the nodes of a text. A node without a name stays without one where it can stand at its only use, so that
/// reading numbers it as it is numbered here; every other gets n and its number.
pub(crate) fn names_for_texts(nodes: &[Node], mut names: Vec<Option<String>>, starts: &[Start]) -> Vec<Option<String>> {
    let mut uses = vec![0; nodes.len()];
    for node in nodes.iter().flat_map(|node| node.named()).chain(starts.iter().flat_map(|start| start.nodes.clone())) {
        uses[node] += 1;
    }
    // A node's text ends behind those of the nodes inside it, which therefore have the numbers right before its own.
    let mut inline = vec![false; nodes.len()];
    let mut first: Vec<usize> = vec![];
    let can_stand = |node: usize, end: usize| names[node].is_none() && uses[node] == 1 && node + 1 == end;
    for (number, node) in nodes.iter().enumerate() {
        let mut end = number;
        for named in node.named().into_iter().rev() {
            if can_stand(named, end) {
                inline[named] = true;
                end = first[named];
            }
        }
        first.push(end);
    }
    let mut end = nodes.len();
    for &node in starts.iter().rev().flat_map(|start| start.nodes.iter().rev()) {
        if can_stand(node, end) {
            inline[node] = true;
            end = first[node];
        }
    }
    for number in 0..nodes.len() {
        if names[number].is_none() && !inline[number] {
            let mut name = format!("n{number}");
            while names.contains(&Some(name.clone())) {
                name.push('_');
            }
            names[number] = Some(name);
        }
    }
    names
}

/// The sheet in the notation.
pub(crate) fn write(sheet: &Sheet) -> String {
    let facts: String = sheet.facts.iter().map(fact_line).collect();
    let mut rules = String::new();
    for rule in &sheet.rules {
        rules += &format!("rule {} gives {}\n", set_text(sheet, rule.premise), set_text(sheet, rule.conclusion));
    }
    let mut nodes = String::new();
    for (number, name) in sheet.node_names.iter().enumerate() {
        if let Some(name) = name {
            nodes += &format!("node {name} = {}\n", process_text(sheet, number));
        }
    }
    let mut starts = String::new();
    for start in &sheet.starts {
        starts += &format!("start {} at {}", start.name, set_text(sheet, start.store));
        for (place, &node) in start.nodes.iter().enumerate() {
            starts += if place == 0 { " run " } else { ", " };
            starts += &node_text(sheet, node);
        }
        starts += "\n";
    }
    let sections: Vec<String> = [facts, rules, nodes, starts].into_iter().filter(|part| !part.is_empty()).collect();
    sections.join("\n")
}

/// `fact NAME`, and its name on the sheet where that is another.
fn fact_line(fact: &Fact) -> String {
    let mut padded = [b' '; NAME_BYTES];
    padded.iter_mut().zip(fact.name.bytes()).for_each(|(to, byte)| *to = byte);
    if fact.name.len() <= NAME_BYTES && padded == fact.sheet_name {
        return format!("fact {}\n", fact.name);
    }
    let name = String::from_utf8_lossy(&fact.sheet_name).into_owned();
    let name = name.trim_end_matches(' ').replace('\\', "\\\\").replace('"', "\\\"");
    format!("fact {} \"{name}\"\n", fact.name)
}

pub(super) fn set_text(sheet: &Sheet, set: Set) -> String {
    match sheet.fact_names(set)[..] {
        [] => "nothing".to_string(),
        [fact] => fact.to_string(),
        ref facts => format!("{{{}}}", facts.join(", ")),
    }
}

pub(super) fn node_text(sheet: &Sheet, node: usize) -> String {
    match sheet.node_name(node) {
        Some(name) => name.to_string(),
        None => process_text(sheet, node),
    }
}

/// What a node is, whatever its name.
fn process_text(sheet: &Sheet, node: usize) -> String {
    match sheet.nodes.get(node) {
        None => format!("node {node}"),
        Some(Node::Stop) => "stop".to_string(),
        Some(&Node::Tell(set)) => format!("tell {}", set_text(sheet, set)),
        Some(&Node::Ask(set, next)) => format!("ask {} then {}", set_text(sheet, set), node_text(sheet, next)),
        Some(&Node::Both(first, second)) => two_text(sheet, "both", first, "and", second),
        Some(&Node::Either(first, second)) => two_text(sheet, "either", first, "or", second),
    }
}

fn two_text(sheet: &Sheet, kind: &str, first: usize, between: &str, second: usize) -> String {
    let mut text = kind.to_string();
    let _ = write!(text, " {} {between} {}", part_text(sheet, first), part_text(sheet, second));
    text
}

/// A part of a both or an either; what has parts itself stands in parentheses.
fn part_text(sheet: &Sheet, node: usize) -> String {
    let text = node_text(sheet, node);
    match sheet.nodes.get(node) {
        Some(Node::Ask(..) | Node::Both(..) | Node::Either(..)) if sheet.node_name(node).is_none() => {
            format!("({text})")
        }
        _ => text,
    }
}
