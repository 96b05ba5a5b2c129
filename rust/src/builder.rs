//! Builds sheets.

use crate::sheet::{facts_of, is_name, sheet_bytes, Fact, Node, Rule, Set, Sheet, Start};
use crate::{check, Error, MAX_FACTS, MAX_NODES, MAX_RULES, MAX_STARTS, MAX_THREADS, MIN_STARTS, NAME_BYTES};
use std::fmt;

/// What a sheet has several of.
#[non_exhaustive]
#[derive(Clone, Copy, Debug, PartialEq, Eq, Hash)]
pub enum Part {
    /// A fact.
    Fact,
    /// A rule.
    Rule,
    /// A node.
    Node,
    /// A start.
    Start,
    /// A node that a start runs.
    Thread,
}

impl fmt::Display for Part {
    fn fmt(&self, f: &mut fmt::Formatter<'_>) -> fmt::Result {
        f.write_str(match self {
            Part::Fact => "fact",
            Part::Rule => "rule",
            Part::Node => "node",
            Part::Start => "start",
            Part::Thread => "thread",
        })
    }
}

/// Why a sheet cannot be built.
#[non_exhaustive]
#[derive(Clone, Debug, PartialEq, Eq, Hash)]
pub enum BuildError {
    /// This cannot be a name; see [`is_name`](crate::is_name).
    BadName(String),
    /// A fact's name on the sheet has more than [`NAME_BYTES`] characters, or one outside 32 to 126.
    BadSheetName(String),
    /// Two facts, nodes or starts have this name.
    NameTwice(Part, String),
    /// No fact, node or start has this name.
    UnknownName(Part, String),
    /// There is no room for one more.
    TooMany {
        /// Of what.
        part: Part,
        /// How many there may be.
        most: usize,
    },
    /// There are not enough.
    TooFew {
        /// Of what.
        part: Part,
        /// How many there must be.
        least: usize,
    },
    /// A set holds the fact with this number, which is not on the sheet.
    AbsentFact(usize),
    /// A node with this number is not on the sheet.
    AbsentNode(usize),
    /// A both or an either names a node that is not before it.
    LaterNode {
        /// The both or either.
        node: usize,
        /// The node that it names.
        named: usize,
    },
    /// The library does not read the sheet.
    Unread(Error),
}

impl fmt::Display for BuildError {
    fn fmt(&self, f: &mut fmt::Formatter<'_>) -> fmt::Result {
        match self {
            BuildError::BadName(name) => write!(f, "'{name}' cannot be a name"),
            BuildError::BadSheetName(name) => {
                write!(
                    f,
                    "'{name}' cannot be a fact's name on a sheet, which has {NAME_BYTES} characters from 32 to 126"
                )
            }
            BuildError::NameTwice(part, name) => write!(f, "there are two {part}s called {name}"),
            BuildError::UnknownName(part, name) => write!(f, "there is no {part} called {name}"),
            BuildError::TooMany { part: Part::Thread, most } => write!(f, "a start has at most {most} threads"),
            BuildError::TooMany { part, most } => write!(f, "a sheet has at most {most} {part}s"),
            BuildError::TooFew { part, least: 1 } => write!(f, "a sheet has at least 1 {part}"),
            BuildError::TooFew { part, least } => write!(f, "a sheet has at least {least} {part}s"),
            BuildError::AbsentFact(fact) => write!(f, "there is no fact {fact}"),
            BuildError::AbsentNode(node) => write!(f, "there is no node {node}"),
            BuildError::LaterNode { node, named } => {
                write!(f, "node {node} names node {named}, and both and either name lower nodes only")
            }
            BuildError::Unread(error) => error.fmt(f),
        }
    }
}

impl std::error::Error for BuildError {
    fn source(&self) -> Option<&(dyn std::error::Error + 'static)> {
        match self {
            BuildError::Unread(error) => Some(error),
            _ => None,
        }
    }
}

/// Builds a sheet from the front: facts, nodes and starts get the next number. Names, sets and limits are checked as they
/// come, and by [`SheetBuilder::build`] that named nodes are there and that no node or start opens to too many threads.
///
/// ```
/// use hofadiju::{compare, Node, SheetBuilder, Verdict};
///
/// let mut sheet = SheetBuilder::new();
/// sheet.fact("door")?;
/// sheet.fact("lamp")?;
/// let (door, lamp) = (sheet.set(&["door"])?, sheet.set(&["lamp"])?);
/// sheet.rule(lamp, door)?; // who has lamp has door too
/// let light = sheet.node("light", Node::Tell(lamp))?;
/// let wait = sheet.node("wait", Node::Ask(door, light))?;
/// sheet.start("old", 0, &[wait])?;
/// sheet.start("new", door, &[light])?;
/// let sheet = sheet.build()?;
///
/// assert_eq!(compare(&sheet.to_bytes(), 0, 1)?.verdict, Verdict::Diff);
/// # Ok::<(), Box<dyn std::error::Error>>(())
/// ```
///
/// An ask may name any node, itself and later ones too: [`SheetBuilder::next_node`] is the number of the node that comes
/// next. That such a node comes is checked in the end.
#[derive(Clone, Debug, Default)]
pub struct SheetBuilder {
    facts: Vec<Fact>,
    rules: Vec<Rule>,
    nodes: Vec<Node>,
    node_names: Vec<Option<String>>,
    starts: Vec<Start>,
}

/// There is room for one more, or not.
fn room(count: usize, part: Part, most: usize) -> Result<(), BuildError> {
    if count < most {
        return Ok(());
    }
    Err(BuildError::TooMany { part, most })
}

fn checked_name(part: Part, name: &str, taken: bool) -> Result<String, BuildError> {
    if !is_name(name) {
        return Err(BuildError::BadName(name.to_string()));
    }
    if taken {
        return Err(BuildError::NameTwice(part, name.to_string()));
    }
    Ok(name.to_string())
}

impl SheetBuilder {
    /// A sheet with nothing on it.
    pub fn new() -> SheetBuilder {
        SheetBuilder::default()
    }

    /// The next fact, called by this name on the sheet too, which must not be longer than [`NAME_BYTES`]. Gives its
    /// number.
    ///
    /// # Errors
    ///
    /// A name that is none, that another fact has or that is too long, and a fact too many.
    pub fn fact(&mut self, name: &str) -> Result<usize, BuildError> {
        self.fact_written(name, name)
    }

    /// The next fact, with another name on the sheet: at most [`NAME_BYTES`] characters from 32 to 126, which other
    /// facts may have too.
    ///
    /// # Errors
    ///
    /// As [`SheetBuilder::fact`].
    pub fn fact_written(&mut self, name: &str, sheet_name: &str) -> Result<usize, BuildError> {
        let name = checked_name(Part::Fact, name, self.facts.iter().any(|fact| fact.name == name))?;
        let printable = sheet_name.bytes().all(|byte| (32..=126).contains(&byte));
        if !printable || sheet_name.len() > NAME_BYTES {
            return Err(BuildError::BadSheetName(sheet_name.to_string()));
        }
        room(self.facts.len(), Part::Fact, MAX_FACTS)?;
        let mut bytes = [b' '; NAME_BYTES];
        bytes[..sheet_name.len()].copy_from_slice(sheet_name.as_bytes());
        self.facts.push(Fact { name, sheet_name: bytes });
        Ok(self.facts.len() - 1)
    }

    /// The set of the facts with these names.
    ///
    /// # Errors
    ///
    /// A name that no fact has.
    pub fn set(&self, names: &[&str]) -> Result<Set, BuildError> {
        let mut set = 0;
        for name in names {
            let fact = self.facts.iter().position(|fact| fact.name == *name);
            set |= 1 << fact.ok_or_else(|| BuildError::UnknownName(Part::Fact, name.to_string()))?;
        }
        Ok(set)
    }

    /// A rule: a store with all facts of `premise` has all facts of `conclusion`.
    ///
    /// # Errors
    ///
    /// A set with a fact that is not on the sheet, and a rule too many.
    pub fn rule(&mut self, premise: Set, conclusion: Set) -> Result<(), BuildError> {
        self.present(premise)?;
        self.present(conclusion)?;
        room(self.rules.len(), Part::Rule, MAX_RULES)?;
        self.rules.push(Rule { premise, conclusion });
        Ok(())
    }

    /// The number that the next node gets.
    pub fn next_node(&self) -> usize {
        self.nodes.len()
    }

    /// The number of the node with this name.
    ///
    /// # Errors
    ///
    /// A name that no node has yet.
    pub fn node_number(&self, name: &str) -> Result<usize, BuildError> {
        let number = self.node_names.iter().position(|own| own.as_deref() == Some(name));
        number.ok_or_else(|| BuildError::UnknownName(Part::Node, name.to_string()))
    }

    /// The next node. Gives its number.
    ///
    /// # Errors
    ///
    /// A name that is none or that another node has, a set with a fact that is not on the sheet, a both or either that
    /// names a node that is not before it, and a node too many.
    pub fn node(&mut self, name: &str, node: Node) -> Result<usize, BuildError> {
        let taken = self.node_names.iter().any(|own| own.as_deref() == Some(name));
        let name = checked_name(Part::Node, name, taken)?;
        self.push_node(Some(name), node)
    }

    /// The next node, without a name. Gives its number. In texts it stands where it is used, if it is used once and
    /// can stand there, and has n and its number for a name otherwise.
    ///
    /// # Errors
    ///
    /// As [`SheetBuilder::node`].
    pub fn unnamed_node(&mut self, node: Node) -> Result<usize, BuildError> {
        self.push_node(None, node)
    }

    fn push_node(&mut self, name: Option<String>, node: Node) -> Result<usize, BuildError> {
        let number = self.nodes.len();
        room(number, Part::Node, MAX_NODES)?;
        match node {
            Node::Stop => {}
            Node::Tell(set) | Node::Ask(set, _) => self.present(set)?,
            Node::Both(..) | Node::Either(..) => {
                if let Some(named) = node.named().into_iter().find(|&named| named >= number) {
                    return Err(BuildError::LaterNode { node: number, named });
                }
            }
        }
        self.nodes.push(node);
        self.node_names.push(name);
        Ok(number)
    }

    /// The next start: its store and the nodes it runs, in any order. Gives its number.
    ///
    /// # Errors
    ///
    /// A name that is none or that another start has, a store with a fact that is not on the sheet, a thread or a start
    /// too many.
    pub fn start(&mut self, name: &str, store: Set, nodes: &[usize]) -> Result<usize, BuildError> {
        let name = checked_name(Part::Start, name, self.starts.iter().any(|start| start.name == name))?;
        self.present(store)?;
        if nodes.len() > MAX_THREADS {
            return Err(BuildError::TooMany { part: Part::Thread, most: MAX_THREADS });
        }
        room(self.starts.len(), Part::Start, MAX_STARTS)?;
        self.starts.push(Start { name, store, nodes: nodes.to_vec() });
        Ok(self.starts.len() - 1)
    }

    /// Every fact of the set is on the sheet.
    fn present(&self, set: Set) -> Result<(), BuildError> {
        match facts_of(set).find(|&fact| fact >= self.facts.len()) {
            Some(fact) => Err(BuildError::AbsentFact(fact)),
            None => Ok(()),
        }
    }

    /// The sheet.
    ///
    /// # Errors
    ///
    /// Nodes or starts too few, a node that is not on the sheet, and what the library refuses: a node or a start with
    /// more than [`MAX_THREADS`] threads once opened.
    pub fn build(self) -> Result<Sheet, BuildError> {
        let bytes = self.bytes();
        let SheetBuilder { facts, rules, nodes, node_names, starts } = self;
        if nodes.is_empty() {
            return Err(BuildError::TooFew { part: Part::Node, least: 1 });
        }
        if starts.len() < MIN_STARTS {
            return Err(BuildError::TooFew { part: Part::Start, least: MIN_STARTS });
        }
        let named =
            nodes.iter().flat_map(|node| node.named()).chain(starts.iter().flat_map(|start| start.nodes.clone()));
        if let Some(absent) = named.into_iter().find(|&named| named >= nodes.len()) {
            return Err(BuildError::AbsentNode(absent));
        }
        let node_names = crate::notation::names_for_texts(&nodes, node_names, &starts);
        check(&bytes).map_err(BuildError::Unread)?;
        Ok(Sheet { facts, rules, nodes, node_names, starts })
    }

    /// The bytes of what there is so far.
    pub(crate) fn bytes(&self) -> Vec<u8> {
        sheet_bytes(&self.facts, &self.rules, &self.nodes, &self.starts)
    }
}
