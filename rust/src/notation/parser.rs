//! A text's statements, with names as they are written. Nodes are numbered in the order in which their text ends, those
//! that stand in starts after all others.

use super::lexer::{tokens, Placed, Token};
use super::problem::named;
use super::Problem;
use crate::sheet::{is_name, KEYWORDS};
use crate::MAX_NODES;
use std::ops::Range;

/// A name and where it stands.
#[derive(Clone, Debug)]
pub(super) struct Word {
    pub(super) name: String,
    pub(super) range: Range<usize>,
}

#[derive(Debug)]
pub(super) struct RawFact {
    pub(super) name: Word,
    /// Its name on the sheet, where that is another.
    pub(super) quoted: Option<Word>,
}

/// The facts of a set.
#[derive(Debug)]
pub(super) struct RawSet {
    pub(super) facts: Vec<Word>,
    pub(super) range: Range<usize>,
}

#[derive(Debug)]
pub(super) struct RawRule {
    pub(super) premise: RawSet,
    pub(super) conclusion: RawSet,
    pub(super) range: Range<usize>,
}

/// A node that is named, or that stands where it is used and has this number.
#[derive(Debug)]
pub(super) enum RawUse {
    Named(Word),
    Inline(usize),
}

#[derive(Debug)]
pub(super) enum RawKind {
    Stop,
    Tell(RawSet),
    Ask(RawSet, RawUse),
    Both(RawUse, RawUse),
    Either(RawUse, RawUse),
}

#[derive(Debug)]
pub(super) struct RawNode {
    pub(super) name: Option<Word>,
    pub(super) kind: RawKind,
    /// The word that says its kind.
    pub(super) range: Range<usize>,
}

#[derive(Debug)]
pub(super) struct RawStart {
    pub(super) name: Word,
    pub(super) store: RawSet,
    /// The nodes, and where each stands.
    pub(super) nodes: Vec<(RawUse, Range<usize>)>,
}

#[derive(Debug, Default)]
pub(super) struct Raw {
    pub(super) facts: Vec<RawFact>,
    pub(super) rules: Vec<RawRule>,
    pub(super) nodes: Vec<RawNode>,
    pub(super) starts: Vec<RawStart>,
}

/// The most processes and parentheses inside one another.
const DEEPEST: usize = 2 * MAX_NODES;

/// The words that begin a statement.
const STATEMENTS: [&str; 4] = ["fact", "rule", "node", "start"];

const A_STATEMENT: &str = "'fact', 'rule', 'node' or 'start'";
const A_SET: &str = "a set: 'nothing', a fact or {facts}";
const A_NODE: &str = "a node: a name, 'stop', 'tell', 'ask', 'both', 'either' or one of these in ( )";
const A_PROCESS: &str = "'stop', 'tell', 'ask', 'both' or 'either'";

pub(super) fn statements(text: &str) -> Result<Raw, Problem> {
    let mut parser = Parser {
        text,
        tokens: tokens(text)?,
        at: 0,
        depth: 0,
        set_end: None,
        more: "",
        in_start: false,
        of_starts: vec![],
        raw: Raw::default(),
    };
    while parser.token() != &Token::End {
        parser.statement()?;
    }
    Ok(parser.numbered())
}

struct Parser<'a> {
    text: &'a str,
    tokens: Vec<Placed>,
    at: usize,
    depth: usize,
    /// Which token stands behind the last set.
    set_end: Option<usize>,
    /// What else could stand behind the statement before.
    more: &'static str,
    /// The nodes that stand in starts, numbered by themselves, and whether the statement is a start.
    of_starts: Vec<RawNode>,
    in_start: bool,
    raw: Raw,
}

impl Parser<'_> {
    /// The statements, with the nodes of starts after all others.
    fn numbered(self) -> Raw {
        let Parser { mut raw, mut of_starts, .. } = self;
        let others = raw.nodes.len();
        let shift = |node: &mut RawUse| {
            if let RawUse::Inline(number) = node {
                *number += others;
            }
        };
        for node in &mut of_starts {
            match &mut node.kind {
                RawKind::Stop | RawKind::Tell(_) => {}
                RawKind::Ask(_, next) => shift(next),
                RawKind::Both(first, second) | RawKind::Either(first, second) => {
                    shift(first);
                    shift(second);
                }
            }
        }
        raw.starts.iter_mut().flat_map(|start| &mut start.nodes).for_each(|(node, _)| shift(node));
        raw.nodes.extend(of_starts);
        raw
    }

    fn token(&self) -> &Token {
        &self.tokens[self.at].token
    }

    fn range(&self) -> Range<usize> {
        self.tokens[self.at].range.clone()
    }

    /// Passes the token in hand, which is not the end.
    fn pass(&mut self) -> Range<usize> {
        self.at += 1;
        self.tokens[self.at - 1].range.clone()
    }

    fn is_word(&self, word: &str) -> bool {
        matches!(self.token(), Token::Word(own) if own == word)
    }

    fn is_mark(&self, mark: char) -> bool {
        self.token() == &Token::Mark(mark)
    }

    fn problem<T>(&self, range: Range<usize>, message: String, expected: &str) -> Result<T, Problem> {
        Err(Problem::new(self.text, range, message, expected.to_string()))
    }

    /// Something else is expected here. Where the statement is cut short, the place is behind its last token.
    fn unexpected<T>(&self, expected: &str) -> Result<T, Problem> {
        if let Some(end) = self.cut_short() {
            return self.problem(end..end, "the statement is not complete".to_string(), expected);
        }
        self.problem(self.range(), format!("{} cannot stand here", self.token().words()), expected)
    }

    /// Where the last token ended, if the text ends here or another statement begins on a later line.
    fn cut_short(&self) -> Option<usize> {
        let end = self.tokens[self.at.checked_sub(1)?].range.end;
        let later = self.text[end..self.range().start].contains('\n');
        match self.token() {
            Token::End => Some(end),
            Token::Word(word) if later && STATEMENTS.contains(&word.as_str()) => Some(end),
            _ => None,
        }
    }

    /// What is expected here. Where a comma stands behind a set, braces are missing.
    fn behind_set(&self, expected: &str) -> String {
        match self.is_mark(',') && self.set_end == Some(self.at) {
            true => format!("{expected}; several facts stand in {{ }}"),
            false => expected.to_string(),
        }
    }

    /// Passes this word of the notation.
    fn keyword(&mut self, word: &str, expected: &str) -> Result<Range<usize>, Problem> {
        if self.is_word(word) {
            return Ok(self.pass());
        }
        self.unexpected(expected)
    }

    fn mark(&mut self, mark: char, expected: &str) -> Result<(), Problem> {
        if self.is_mark(mark) {
            self.pass();
            return Ok(());
        }
        self.unexpected(expected)
    }

    /// Passes a name.
    fn name(&mut self, expected: &str) -> Result<Word, Problem> {
        let Token::Word(name) = self.token().clone() else { return self.unexpected(expected) };
        if KEYWORDS.contains(&name.as_str()) {
            return match self.cut_short() {
                Some(_) => self.unexpected(expected),
                None => self.unexpected(&format!("{expected}; '{name}' is a word of the notation")),
            };
        }
        if !is_name(&name) {
            let message = format!("{} cannot be a name", named(&name));
            return self.problem(self.range(), message, &format!("{expected}; a name begins with a letter or _"));
        }
        Ok(Word { name, range: self.pass() })
    }

    fn statement(&mut self) -> Result<(), Problem> {
        let expected = format!("{}{A_STATEMENT}", self.more);
        let Token::Word(word) = self.token() else { return self.unexpected(&self.behind_set(&expected)) };
        match word.as_str() {
            "fact" => self.facts(),
            "rule" => self.rule(),
            "node" => self.node(),
            "start" => self.start(),
            "and" | "or" => self.unexpected(&format!("{expected}; 'both' and 'either' join two nodes, more by ( )")),
            _ => self.unexpected(&expected),
        }
    }

    /// `fact NAME ["NAME ON THE SHEET"] {, NAME [..]}`
    fn facts(&mut self) -> Result<(), Problem> {
        self.pass();
        loop {
            let name = self.name("the name of a fact")?;
            let mut quoted = None;
            if let Token::Quoted(name) = self.token().clone() {
                quoted = Some(Word { name, range: self.pass() });
            }
            self.raw.facts.push(RawFact { name, quoted });
            if !self.is_mark(',') {
                self.more = "',' and a fact, or ";
                return Ok(());
            }
            self.pass();
        }
    }

    /// `rule SET gives SET`
    fn rule(&mut self) -> Result<(), Problem> {
        let range = self.pass();
        let premise = self.set()?;
        self.keyword("gives", &self.behind_set("'gives' and a set"))?;
        let conclusion = self.set()?;
        self.raw.rules.push(RawRule { premise, conclusion, range });
        self.more = "";
        Ok(())
    }

    /// `nothing`, a fact, or facts in braces
    fn set(&mut self) -> Result<RawSet, Problem> {
        let set = self.set_within()?;
        self.set_end = Some(self.at);
        Ok(set)
    }

    fn set_within(&mut self) -> Result<RawSet, Problem> {
        if self.is_word("nothing") {
            return Ok(RawSet { facts: vec![], range: self.pass() });
        }
        if !self.is_mark('{') {
            let fact = self.name(A_SET)?;
            return Ok(RawSet { range: fact.range.clone(), facts: vec![fact] });
        }
        let range = self.pass();
        let mut facts = vec![];
        let mut expected = "a fact or '}'";
        while !self.is_mark('}') {
            if !facts.is_empty() {
                self.mark(',', "',' and a fact, or '}'")?;
                expected = "a fact";
            }
            facts.push(self.name(expected)?);
        }
        self.pass();
        Ok(RawSet { facts, range })
    }

    /// `node NAME = PROCESS`
    fn node(&mut self) -> Result<(), Problem> {
        self.pass();
        let name = self.name("the name of a node")?;
        self.mark('=', &format!("'=' and {A_PROCESS}"))?;
        let number = match self.process(A_PROCESS)? {
            RawUse::Inline(number) => number,
            RawUse::Named(word) => {
                let alone = match self.token() {
                    Token::End => true,
                    Token::Word(next) => STATEMENTS.contains(&next.as_str()),
                    _ => false,
                };
                let message = match alone {
                    true => format!("a name alone, {}, makes no node", named(&word.name)),
                    false => format!("{} cannot stand here", named(&word.name)),
                };
                return self.problem(word.range, message, A_PROCESS);
            }
        };
        self.raw.nodes[number].name = Some(name);
        self.more = "";
        Ok(())
    }

    /// A name, or a process, which gets the next number when its text has ended.
    fn process(&mut self, expected: &str) -> Result<RawUse, Problem> {
        if self.depth == DEEPEST {
            let message = "too much stands inside one another here".to_string();
            return self.problem(self.range(), message, &format!("at most {DEEPEST} levels, or a named node"));
        }
        self.depth += 1;
        let found = self.process_within(expected);
        self.depth -= 1;
        found
    }

    fn process_within(&mut self, expected: &str) -> Result<RawUse, Problem> {
        if self.is_mark('(') {
            self.pass();
            let inside = self.process(expected)?;
            self.mark(')', "')'")?;
            return Ok(inside);
        }
        let word = match self.token() {
            Token::Word(word) => word.clone(),
            _ => return self.unexpected(expected),
        };
        let range = self.range();
        let kind = match word.as_str() {
            "stop" => {
                self.pass();
                RawKind::Stop
            }
            "tell" => {
                self.pass();
                RawKind::Tell(self.set()?)
            }
            "ask" => {
                self.pass();
                let set = self.set()?;
                self.keyword("then", &self.behind_set("'then' and a node"))?;
                RawKind::Ask(set, self.process(A_NODE)?)
            }
            "both" => {
                let (first, second) = self.two("and")?;
                RawKind::Both(first, second)
            }
            "either" => {
                let (first, second) = self.two("or")?;
                RawKind::Either(first, second)
            }
            "call" => {
                let message = "'call' is kept for named routines, which sheets do not have yet".to_string();
                return self.problem(range, message, expected);
            }
            _ => return self.name(expected).map(RawUse::Named),
        };
        let nodes = if self.in_start { &mut self.of_starts } else { &mut self.raw.nodes };
        nodes.push(RawNode { name: None, kind, range });
        Ok(RawUse::Inline(nodes.len() - 1))
    }

    /// Two nodes with a word between them.
    fn two(&mut self, word: &str) -> Result<(RawUse, RawUse), Problem> {
        self.pass();
        let first = self.process(A_NODE)?;
        self.keyword(word, &format!("'{word}' and a node"))?;
        let second = self.process(A_NODE)?;
        Ok((first, second))
    }

    /// `start NAME at SET [run NODE {, NODE}]`
    fn start(&mut self) -> Result<(), Problem> {
        self.pass();
        let name = self.name("the name of a start")?;
        self.keyword("at", "'at' and a set")?;
        let store = self.set()?;
        let mut nodes = vec![];
        self.more = "'run' and a node, or ";
        if self.is_word("run") {
            self.in_start = true;
            loop {
                self.pass();
                let range = self.range();
                nodes.push((self.process(A_NODE)?, range));
                if !self.is_mark(',') {
                    break;
                }
            }
            self.in_start = false;
            self.more = "',' and a node, or ";
        }
        self.raw.starts.push(RawStart { name, store, nodes });
        Ok(())
    }
}
