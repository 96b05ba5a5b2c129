//! Sheets as values, with names for their facts, nodes and starts.

use crate::{check, Error, NAME_BYTES};
use std::fmt;

/// A set of facts as a number: fact i has weight 2 to the power i.
pub type Set = u16;

/// The facts of a set, by their numbers, ascending.
pub fn facts_of(set: Set) -> impl Iterator<Item = usize> {
    (0..Set::BITS as usize).filter(move |&fact| set >> fact & 1 == 1)
}

/// A fact of a sheet.
#[non_exhaustive]
#[derive(Clone, Debug, PartialEq, Eq, Hash)]
pub struct Fact {
    /// Its name in texts.
    pub name: String,
    /// Its name on the sheet, filled up with spaces; every byte is 32 to 126.
    pub sheet_name: [u8; NAME_BYTES],
}

/// A rule of a sheet: a store with all facts of the premise has all facts of the conclusion.
#[derive(Clone, Copy, Debug, PartialEq, Eq, Hash)]
pub struct Rule {
    /// What is needed; the facts that always stand need nothing.
    pub premise: Set,
    /// What follows.
    pub conclusion: Set,
}

/// A node of a sheet. Nodes name one another by number.
#[non_exhaustive]
#[derive(Clone, Copy, Debug, PartialEq, Eq, Hash)]
pub enum Node {
    /// Does nothing.
    Stop,
    /// Posts a set.
    Tell(Set),
    /// Waits for a set and goes on as a node.
    Ask(Set, usize),
    /// Runs two nodes beside each other.
    Both(usize, usize),
    /// Runs one of two nodes, whichever moves first.
    Either(usize, usize),
}

impl Node {
    /// The nodes that this one names, in the order in which it does.
    pub fn named(self) -> Vec<usize> {
        match self {
            Node::Stop | Node::Tell(_) => vec![],
            Node::Ask(_, next) => vec![next],
            Node::Both(first, second) | Node::Either(first, second) => vec![first, second],
        }
    }
}

/// A start of a sheet.
#[non_exhaustive]
#[derive(Clone, Debug, PartialEq, Eq, Hash)]
pub struct Start {
    /// Its name in texts.
    pub name: String,
    /// The store it starts at, as it is written; the sheet's rules may add to it.
    pub store: Set,
    /// Its nodes in the order in which they are written.
    pub nodes: Vec<usize>,
}

/// A sheet that the library reads, with names for its facts, nodes and starts.
///
/// It comes from bytes ([`Sheet::from_bytes`]), from a text ([`notation::read`](crate::notation::read)) or from a
/// [`SheetBuilder`](crate::SheetBuilder). Bytes have no names for nodes and starts; those that come from bytes are called
/// n0, n1 and s0, s1 by their numbers.
///
/// Its text (`Display`) is the notation of docs/NOTATION.md. It reads to the same sheet.
#[derive(Clone, Debug, PartialEq, Eq, Hash)]
pub struct Sheet {
    pub(crate) facts: Vec<Fact>,
    pub(crate) rules: Vec<Rule>,
    pub(crate) nodes: Vec<Node>,
    /// The name of each node; none for a node that stands where it is used.
    pub(crate) node_names: Vec<Option<String>>,
    pub(crate) starts: Vec<Start>,
}

impl Sheet {
    /// The sheet with these bytes.
    ///
    /// A fact gets its name on the sheet where that can stand in a text and no fact before has it, and f with its
    /// number otherwise.
    ///
    /// ```
    /// use hofadiju::{Node, Sheet};
    ///
    /// // One fact, no rules, two nodes, two starts.
    /// let bytes = b"\x01door    \x00\x02\x00\x00\x00\x00\x00\x02\x01\x00\x00\x00\x02\x00\x00\x01\x01\x01\x00\x00";
    /// let sheet = Sheet::from_bytes(bytes)?;
    /// assert_eq!(sheet.nodes()[1], Node::Ask(1, 0));
    /// assert_eq!(
    ///     sheet.to_string(),
    ///     "fact door\n\nnode n0 = stop\nnode n1 = ask door then n0\n\nstart s0 at nothing run n1\nstart s1 at door\n"
    /// );
    /// assert_eq!(sheet.to_bytes(), bytes);
    /// # Ok::<(), hofadiju::Error>(())
    /// ```
    ///
    /// # Errors
    ///
    /// Those of [`check`], and, where the library reads a sheet that this crate does not know, [`Error::UnknownKind`]
    /// for the kind of a node and [`Error::UnknownAnswer`] otherwise.
    pub fn from_bytes(bytes: &[u8]) -> Result<Sheet, Error> {
        check(bytes)?;
        let sheet = Decoder { rest: bytes, length: bytes.len() }.sheet()?;
        // A library of another version may give a meaning to fields that are not used here.
        if sheet.to_bytes() != bytes {
            return Err(Error::UnknownAnswer { length: bytes.len() });
        }
        Ok(sheet)
    }

    /// The sheet's bytes, which the library reads.
    pub fn to_bytes(&self) -> Vec<u8> {
        sheet_bytes(&self.facts, &self.rules, &self.nodes, &self.starts)
    }

    /// The facts in their order.
    pub fn facts(&self) -> &[Fact] {
        &self.facts
    }

    /// The rules in their order.
    pub fn rules(&self) -> &[Rule] {
        &self.rules
    }

    /// The nodes in their order.
    pub fn nodes(&self) -> &[Node] {
        &self.nodes
    }

    /// The starts in their order.
    pub fn starts(&self) -> &[Start] {
        &self.starts
    }

    /// The name of a node; `None` for a node that stands, without a name, where it is used, and for a number that no
    /// node has.
    pub fn node_name(&self, node: usize) -> Option<&str> {
        self.node_names.get(node)?.as_deref()
    }

    /// The number of the fact with this name.
    pub fn fact_number(&self, name: &str) -> Option<usize> {
        self.facts.iter().position(|fact| fact.name == name)
    }

    /// The set of the facts with these names; `None` where one of them is none.
    pub fn set(&self, names: &[&str]) -> Option<Set> {
        names.iter().try_fold(0, |set, name| Some(set | 1 << self.fact_number(name)?))
    }

    /// The number of the node with this name.
    pub fn node_number(&self, name: &str) -> Option<usize> {
        self.node_names.iter().position(|own| own.as_deref() == Some(name))
    }

    /// The number of the start with this name.
    pub fn start_number(&self, name: &str) -> Option<usize> {
        self.starts.iter().position(|start| start.name == name)
    }

    /// The names of a set's facts, in their order. Facts that are not on the sheet are left out.
    pub fn fact_names(&self, set: Set) -> Vec<&str> {
        facts_of(set).filter_map(|fact| self.facts.get(fact)).map(|fact| fact.name.as_str()).collect()
    }
}

/// The bytes of a sheet with these parts, of which there are at most 255 each.
pub(crate) fn sheet_bytes(facts: &[Fact], rules: &[Rule], nodes: &[Node], starts: &[Start]) -> Vec<u8> {
    let mut bytes = vec![facts.len() as u8];
    for fact in facts {
        bytes.extend(fact.sheet_name);
    }
    bytes.push(rules.len() as u8);
    for rule in rules {
        bytes.extend(rule.premise.to_le_bytes());
        bytes.extend(rule.conclusion.to_le_bytes());
    }
    bytes.push(nodes.len() as u8);
    for node in nodes {
        let (kind, first, second) = match *node {
            Node::Stop => (0, 0, 0),
            Node::Tell(set) => (1, set, 0),
            Node::Ask(set, next) => (2, set, next as u16),
            Node::Both(first, second) => (3, first as u16, second as u16),
            Node::Either(first, second) => (4, first as u16, second as u16),
        };
        bytes.push(kind);
        bytes.extend(first.to_le_bytes());
        bytes.extend(second.to_le_bytes());
    }
    bytes.push(starts.len() as u8);
    for start in starts {
        bytes.extend(start.store.to_le_bytes());
        bytes.push(start.nodes.len() as u8);
        bytes.extend(start.nodes.iter().map(|&node| node as u8));
    }
    bytes
}

/// Reads bytes that the library has read.
struct Decoder<'a> {
    rest: &'a [u8],
    length: usize,
}

impl Decoder<'_> {
    /// The bytes are not laid out as this crate knows.
    fn unknown<T>(&self) -> Result<T, Error> {
        Err(Error::UnknownAnswer { length: self.length })
    }

    fn bytes<const N: usize>(&mut self) -> Result<[u8; N], Error> {
        match self.rest.split_first_chunk() {
            Some((&bytes, rest)) => {
                self.rest = rest;
                Ok(bytes)
            }
            None => self.unknown(),
        }
    }

    fn byte(&mut self) -> Result<usize, Error> {
        self.bytes().map(|[byte]| byte.into())
    }

    fn number(&mut self) -> Result<u16, Error> {
        self.bytes().map(u16::from_le_bytes)
    }

    fn list<T>(&mut self, mut item: impl FnMut(&mut Self) -> Result<T, Error>) -> Result<Vec<T>, Error> {
        let count = self.byte()?;
        (0..count).map(|_| item(self)).collect()
    }

    fn node(&mut self) -> Result<Node, Error> {
        let place = self.length - self.rest.len();
        let kind = self.byte()?;
        let (first, second) = (self.number()?, self.number()?);
        Ok(match kind {
            0 => Node::Stop,
            1 => Node::Tell(first),
            2 => Node::Ask(first, second.into()),
            3 => Node::Both(first.into(), second.into()),
            4 => Node::Either(first.into(), second.into()),
            number => return Err(Error::UnknownKind { number, place }),
        })
    }

    fn sheet(mut self) -> Result<Sheet, Error> {
        let names = self.list(Decoder::bytes)?;
        let rules = self.list(|from| Ok(Rule { premise: from.number()?, conclusion: from.number()? }))?;
        let nodes = self.list(Decoder::node)?;
        let mut starts = self.list(|from| {
            let store = from.number()?;
            Ok(Start { name: String::new(), store, nodes: from.list(Decoder::byte)? })
        })?;
        if !self.rest.is_empty() {
            return self.unknown();
        }
        for (number, start) in starts.iter_mut().enumerate() {
            start.name = format!("s{number}");
        }
        let node_names = (0..nodes.len()).map(|node| Some(format!("n{node}"))).collect();
        Ok(Sheet { facts: facts_named(&names), rules, nodes, node_names, starts })
    }
}

/// Facts with these names on the sheet, each with a name for texts that no other fact has.
fn facts_named(sheet_names: &[[u8; NAME_BYTES]]) -> Vec<Fact> {
    let mut own: Vec<Option<String>> = vec![];
    for sheet_name in sheet_names {
        let name = String::from_utf8_lossy(sheet_name).trim_end().to_string();
        let free = is_name(&name) && !own.contains(&Some(name.clone()));
        own.push(free.then_some(name));
    }
    let mut facts = vec![];
    for (number, sheet_name) in sheet_names.iter().enumerate() {
        let name = own[number].clone().unwrap_or_else(|| {
            let mut name = format!("f{number}");
            while own.contains(&Some(name.clone())) {
                name.push('_');
            }
            name
        });
        facts.push(Fact { name, sheet_name: *sheet_name });
    }
    facts
}

/// The words of the notation, which are no names.
pub(crate) const KEYWORDS: [&str; 17] = [
    "fact", "rule", "gives", "node", "stop", "tell", "ask", "then", "both", "and", "either", "or", "call", "start",
    "at", "run", "nothing",
];

/// Whether a name may stand in a text: a letter or `_`, then letters, digits, `_` and `-`, and no word of the notation.
pub fn is_name(name: &str) -> bool {
    let mut chars = name.chars();
    let first = chars.next().is_some_and(|c| c.is_ascii_alphabetic() || c == '_');
    first && chars.all(|c| c.is_ascii_alphanumeric() || c == '_' || c == '-') && !KEYWORDS.contains(&name)
}

impl fmt::Display for Sheet {
    fn fmt(&self, f: &mut fmt::Formatter<'_>) -> fmt::Result {
        f.write_str(&crate::notation::write(self))
    }
}
