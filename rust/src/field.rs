//! Which field of which record a byte of a sheet belongs to.

use crate::NAME_BYTES;
use std::fmt;

/// A field of a sheet, by its record. Facts, rules, nodes, starts and threads are numbered from 0.
///
/// Its text (`Display`) says it in words: `the premise of rule 2`.
#[non_exhaustive]
#[derive(Clone, Copy, Debug, PartialEq, Eq, Hash)]
pub enum Field {
    /// The count of facts.
    FactCount,
    /// The name of a fact.
    FactName(usize),
    /// The count of rules.
    RuleCount,
    /// The premise of a rule.
    Premise(usize),
    /// The conclusion of a rule.
    Conclusion(usize),
    /// The count of nodes.
    NodeCount,
    /// The kind of a node.
    Kind(usize),
    /// The first field of a node.
    First(usize),
    /// The second field of a node.
    Second(usize),
    /// The count of starts.
    StartCount,
    /// The store of a start.
    Store(usize),
    /// The count of a start's threads.
    ThreadCount(usize),
    /// A thread of a start: the start, and which of its threads.
    Thread(usize, usize),
    /// What follows the last start.
    Rest,
}

impl fmt::Display for Field {
    fn fmt(&self, f: &mut fmt::Formatter<'_>) -> fmt::Result {
        match self {
            Field::FactCount => write!(f, "the count of facts"),
            Field::FactName(fact) => write!(f, "the name of fact {fact}"),
            Field::RuleCount => write!(f, "the count of rules"),
            Field::Premise(rule) => write!(f, "the premise of rule {rule}"),
            Field::Conclusion(rule) => write!(f, "the conclusion of rule {rule}"),
            Field::NodeCount => write!(f, "the count of nodes"),
            Field::Kind(node) => write!(f, "the kind of node {node}"),
            Field::First(node) => write!(f, "the first field of node {node}"),
            Field::Second(node) => write!(f, "the second field of node {node}"),
            Field::StartCount => write!(f, "the count of starts"),
            Field::Store(start) => write!(f, "the store of start {start}"),
            Field::ThreadCount(start) => write!(f, "the thread count of start {start}"),
            Field::Thread(start, thread) => write!(f, "thread {thread} of start {start}"),
            Field::Rest => write!(f, "what follows the last start"),
        }
    }
}

/// The field that the byte at this place belongs to; where the sheet ends before, the field that ought to be there.
/// Counts are taken as they stand in the bytes, allowed or not.
///
/// ```
/// use hofadiju::{field_at, Field};
///
/// // One fact, one rule, one node, two starts without threads.
/// let sheet = b"\x01door    \x01\x00\x00\x01\x00\x01\x00\x00\x00\x00\x00\x02\x00\x00\x00\x00\x00\x00";
/// assert_eq!(field_at(sheet, 0), Field::FactCount);
/// assert_eq!(field_at(sheet, 12), Field::Conclusion(0));
/// assert_eq!(field_at(&sheet[..12], 12), Field::Conclusion(0)); // cut off there
/// assert_eq!(field_at(sheet, sheet.len()), Field::Rest);
/// assert_eq!(Field::Conclusion(0).to_string(), "the conclusion of rule 0");
/// ```
pub fn field_at(sheet: &[u8], place: usize) -> Field {
    Walk { sheet, place, at: 0 }.sections().err().unwrap_or(Field::Rest)
}

/// A walk from the front of the sheet to the place. What has the place ends it, as an error.
struct Walk<'a> {
    sheet: &'a [u8],
    place: usize,
    at: usize,
}

impl Walk<'_> {
    /// Passes a field of so many bytes.
    fn pass(&mut self, bytes: usize, field: Field) -> Result<(), Field> {
        self.at += bytes;
        if self.place < self.at {
            return Err(field);
        }
        Ok(())
    }

    /// Passes a count and gives it.
    fn count(&mut self, field: Field) -> Result<usize, Field> {
        let count = self.sheet.get(self.at).map_or(0, |&count| count.into());
        self.pass(1, field)?;
        Ok(count)
    }

    fn sections(&mut self) -> Result<(), Field> {
        for fact in 0..self.count(Field::FactCount)? {
            self.pass(NAME_BYTES, Field::FactName(fact))?;
        }
        for rule in 0..self.count(Field::RuleCount)? {
            self.pass(2, Field::Premise(rule))?;
            self.pass(2, Field::Conclusion(rule))?;
        }
        for node in 0..self.count(Field::NodeCount)? {
            self.pass(1, Field::Kind(node))?;
            self.pass(2, Field::First(node))?;
            self.pass(2, Field::Second(node))?;
        }
        for start in 0..self.count(Field::StartCount)? {
            self.pass(2, Field::Store(start))?;
            for thread in 0..self.count(Field::ThreadCount(start))? {
                self.pass(1, Field::Thread(start, thread))?;
            }
        }
        Ok(())
    }
}
