//! Texts as sheets: names become numbers, and every limit is checked.

use super::parser::{statements, Raw, RawFact, RawKind, RawNode, RawSet, RawStart, RawUse, Word};
use super::problem::{cut, named};
use super::Problem;
use crate::{
    field_at, BuildError, Error, Field, Node, Part, Reason, Set, Sheet, SheetBuilder, MAX_THREADS, NAME_BYTES,
};
use std::ops::Range;

/// The sheet that a text says.
///
/// Facts, rules and starts are numbered in the order of the text, nodes in the order in which their text ends, those that
/// stand in starts after all others. A both or an either names nodes with lower numbers; an ask may name any node.
///
/// # Errors
///
/// The first [`Problem`] of the text: of its words, then of its names, facts first, and its limits, and in the end what
/// the library refuses.
pub fn read(text: &str) -> Result<Sheet, Problem> {
    // Some editors put this mark before a text.
    let text = text.strip_prefix('\u{feff}').unwrap_or(text);
    Reader { text, raw: &statements(text)?, builder: SheetBuilder::new() }.sheet()
}

struct Reader<'a> {
    text: &'a str,
    raw: &'a Raw,
    builder: SheetBuilder,
}

/// The most names that a message lists.
const LISTED: usize = 12;

impl Reader<'_> {
    fn problem<T>(&self, range: &Range<usize>, message: String, expected: String) -> Result<T, Problem> {
        Err(Problem::new(self.text, range.clone(), message, expected))
    }

    fn sheet(mut self) -> Result<Sheet, Problem> {
        let raw = self.raw;
        for (number, fact) in raw.facts.iter().enumerate() {
            self.once("fact", &fact.name, raw.facts[..number].iter().map(|fact| &fact.name))?;
            self.fact(fact)?;
        }
        for rule in &raw.rules {
            let (premise, conclusion) = (self.set(&rule.premise)?, self.set(&rule.conclusion)?);
            let built = self.builder.rule(premise, conclusion);
            self.built(built, &rule.range)?;
        }
        for (number, node) in raw.nodes.iter().enumerate() {
            if let Some(name) = &node.name {
                self.once("node", name, raw.nodes[..number].iter().filter_map(|node| node.name.as_ref()))?;
            }
            self.node(number, node)?;
        }
        for (number, start) in raw.starts.iter().enumerate() {
            self.once("start", &start.name, raw.starts[..number].iter().map(|start| &start.name))?;
            self.start(start)?;
        }
        let builder = std::mem::take(&mut self.builder);
        let bytes = builder.bytes();
        match builder.build() {
            Ok(sheet) => Ok(sheet),
            Err(BuildError::Unread(error)) => Err(self.unread(error, &bytes)),
            Err(error) => {
                let end = self.text.trim_end().len();
                self.built(Err(error), &(end..end))
            }
        }
    }

    /// No earlier one has this name.
    fn once<'b>(&self, part: &str, name: &Word, mut before: impl Iterator<Item = &'b Word>) -> Result<(), Problem> {
        let Some(first) = before.find(|first| first.name == name.name) else { return Ok(()) };
        let line = self.text[..first.range.start].matches('\n').count() + 1;
        let message = format!("the name {} is given twice", named(&name.name));
        self.problem(&name.range, message, format!("a {part} of another name; line {line} has this one"))
    }

    /// What the builder gives, or why it gives nothing, as a problem with this range.
    fn built<T>(&self, built: Result<T, BuildError>, range: &Range<usize>) -> Result<T, Problem> {
        match built {
            Ok(built) => Ok(built),
            Err(BuildError::TooMany { part: Part::Thread, most }) => {
                self.problem(range, "the start runs too many nodes".to_string(), format!("at most {most} nodes"))
            }
            Err(BuildError::TooMany { part, most }) => {
                let message = format!("the sheet has too many {part}s: this is number {}", most + 1);
                self.problem(range, message, format!("at most {most} {part}s on a sheet"))
            }
            Err(BuildError::TooFew { part, least }) => {
                let count = match part {
                    Part::Start => self.raw.starts.len(),
                    _ => self.raw.nodes.len(),
                };
                let message = format!("the sheet ends with {count} {part}{}", if count == 1 { "" } else { "s" });
                self.problem(range, message, format!("at least {least} {part}{}", if least == 1 { "" } else { "s" }))
            }
            Err(error) => self.problem(range, error.to_string(), "a sheet that can be built".to_string()),
        }
    }

    fn fact(&mut self, fact: &RawFact) -> Result<(), Problem> {
        let written = fact.quoted.as_ref().unwrap_or(&fact.name);
        if written.name.chars().count() > NAME_BYTES {
            let message = format!("{} is too long for a fact's name on the sheet", named(&written.name));
            let expected = match fact.quoted {
                Some(_) => format!("at most {NAME_BYTES} characters"),
                None => format!(
                    "at most {NAME_BYTES} characters, or another name for the sheet in quotes: {} \"{}\"",
                    cut(&fact.name.name),
                    &fact.name.name[..NAME_BYTES]
                ),
            };
            return self.problem(&written.range, message, expected);
        }
        let built = self.builder.fact_written(&fact.name.name, &written.name);
        self.built(built, &fact.name.range).map(drop)
    }

    fn set(&self, set: &RawSet) -> Result<Set, Problem> {
        let mut sum = 0;
        for fact in &set.facts {
            let Ok(weight) = self.builder.set(&[&fact.name]) else {
                let names: Vec<&str> = self.raw.facts.iter().map(|fact| fact.name.name.as_str()).collect();
                return self.unknown("fact", fact, &names);
            };
            if sum & weight != 0 {
                let message = format!("{} stands twice in the set", named(&fact.name));
                return self.problem(&fact.range, message, "each fact once".to_string());
            }
            sum |= weight;
        }
        Ok(sum)
    }

    fn unknown<T>(&self, part: &str, word: &Word, names: &[&str]) -> Result<T, Problem> {
        let mut expected = match names.len() {
            0 => format!("a {part} of this sheet, which names none"),
            _ => format!("a {part} of this sheet: {}", names[..names.len().min(LISTED)].join(", ")),
        };
        if names.len() > LISTED {
            expected += &format!(" and {} more", names.len() - LISTED);
        }
        self.problem(&word.range, format!("no {part} is called {}", named(&word.name)), expected)
    }

    /// The number of a node that is used.
    fn used(&self, node: &RawUse) -> Result<usize, Problem> {
        let word = match node {
            RawUse::Inline(number) => return Ok(*number),
            RawUse::Named(word) => word,
        };
        let named = |node: &RawNode| node.name.as_ref().is_some_and(|name| name.name == word.name);
        if let Some(number) = self.raw.nodes.iter().position(named) {
            return Ok(number);
        }
        let names: Vec<&str> =
            self.raw.nodes.iter().filter_map(|node| node.name.as_ref()).map(|name| name.name.as_str()).collect();
        self.unknown("node", word, &names)
    }

    /// The number of a node that a both or an either uses, which must be written before it.
    fn used_before(&self, number: usize, kind: &str, node: &RawUse) -> Result<usize, Problem> {
        let used = self.used(node)?;
        match node {
            RawUse::Named(word) if used >= number => {
                let begun = self.raw.nodes[used].name.as_ref().is_some_and(|name| name.range.start < word.range.start);
                let which = match used == number {
                    true => "itself",
                    false if begun => "the node that it stands in",
                    false => "a later node",
                };
                let message = format!("the {kind} names {which}, {}", named(&word.name));
                self.problem(
                    &word.range,
                    message,
                    "a node that is written before; an ask may name any node".to_string(),
                )
            }
            _ => Ok(used),
        }
    }

    fn node(&mut self, number: usize, node: &RawNode) -> Result<(), Problem> {
        let built = match &node.kind {
            RawKind::Stop => Node::Stop,
            RawKind::Tell(set) => Node::Tell(self.set(set)?),
            RawKind::Ask(set, next) => Node::Ask(self.set(set)?, self.used(next)?),
            RawKind::Both(first, second) => {
                Node::Both(self.used_before(number, "both", first)?, self.used_before(number, "both", second)?)
            }
            RawKind::Either(first, second) => {
                Node::Either(self.used_before(number, "either", first)?, self.used_before(number, "either", second)?)
            }
        };
        let built = match &node.name {
            Some(name) => self.builder.node(&name.name, built),
            None => self.builder.unnamed_node(built),
        };
        self.built(built, &node.range).map(drop)
    }

    fn start(&mut self, start: &RawStart) -> Result<(), Problem> {
        let store = self.set(&start.store)?;
        let mut nodes = vec![];
        for (node, _) in &start.nodes {
            nodes.push(self.used(node)?);
        }
        let built = self.builder.start(&start.name.name, store, &nodes);
        let range = start.nodes.get(MAX_THREADS).map_or(&start.name.range, |(_, range)| range);
        self.built(built, range).map(drop)
    }

    /// What the library says of the bytes, with the line that the field comes from.
    fn unread(&self, error: Error, bytes: &[u8]) -> Problem {
        let place = match error {
            Error::Refused(refusal) => Some(refusal.place),
            Error::UnknownRefusal { place, .. } => Some(place),
            _ => None,
        };
        let field = place.map(|place| field_at(bytes, place));
        let end = self.text.trim_end().len();
        let range = field.and_then(|field| self.origin(field)).unwrap_or(end..end);
        let reason = error.refusal().map(|refusal| refusal.reason);
        let message = match (reason, field) {
            (Some(Reason::WideNode), _) => format!("the node opens to more than {MAX_THREADS} threads"),
            (Some(Reason::TooManyThreads), _) => format!("the start opens to more than {MAX_THREADS} threads"),
            (_, Some(field)) => format!("the library does not read {field}: {error}"),
            (_, None) => format!("the library does not read the sheet: {error}"),
        };
        let expected = match reason {
            Some(Reason::WideNode | Reason::TooManyThreads) => format!("at most {MAX_THREADS} threads"),
            _ => "a sheet that the library reads".to_string(),
        };
        let mut problem = Problem::new(self.text, range, message, expected);
        if let (Some(line), Some(place), Some(field)) = (error.line(), place, field) {
            problem.refused = Some(format!("{line}: byte {place} of the sheet, {field}").into());
        }
        problem.error = Some(error);
        problem
    }

    /// Where a field of the sheet stands in the text.
    fn origin(&self, field: Field) -> Option<Range<usize>> {
        let node_range = |node: &RawNode| node.name.as_ref().map_or(&node.range, |name| &name.range).clone();
        match field {
            Field::FactName(fact) => self.raw.facts.get(fact).map(|fact| fact.name.range.clone()),
            Field::Premise(rule) => self.raw.rules.get(rule).map(|rule| rule.premise.range.clone()),
            Field::Conclusion(rule) => self.raw.rules.get(rule).map(|rule| rule.conclusion.range.clone()),
            Field::Kind(node) | Field::First(node) | Field::Second(node) => self.raw.nodes.get(node).map(node_range),
            Field::Store(start) => self.raw.starts.get(start).map(|start| start.store.range.clone()),
            Field::ThreadCount(start) => self.raw.starts.get(start).map(|start| start.name.range.clone()),
            Field::Thread(start, thread) => {
                self.raw.starts.get(start)?.nodes.get(thread).map(|(_, range)| range.clone())
            }
            _ => None,
        }
    }
}
