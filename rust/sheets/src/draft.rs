use crate::{ASK, BOTH, EITHER, STOP};

/// A sheet before it is written down. It may hold anything, right or wrong.
#[derive(Clone, Debug, Default, PartialEq, Eq)]
pub struct Draft {
    pub facts: usize,
    pub rules: Vec<(u16, u16)>,
    pub nodes: Vec<(u8, u16, u16)>,
    pub starts: Vec<(u16, Vec<u8>)>,
}

impl Draft {
    /// The sheet's bytes. Facts are named `fact  00` and so on.
    pub fn bytes(&self) -> Vec<u8> {
        let mut bytes = vec![self.facts as u8];
        for fact in 0..self.facts {
            bytes.extend(format!("fact  {fact:02}").as_bytes());
        }
        bytes.push(self.rules.len() as u8);
        for (premise, conclusion) in &self.rules {
            bytes.extend(premise.to_le_bytes());
            bytes.extend(conclusion.to_le_bytes());
        }
        bytes.push(self.nodes.len() as u8);
        for (kind, first, second) in &self.nodes {
            bytes.push(*kind);
            bytes.extend(first.to_le_bytes());
            bytes.extend(second.to_le_bytes());
        }
        bytes.push(self.starts.len() as u8);
        for (store, threads) in &self.starts {
            bytes.extend(store.to_le_bytes());
            bytes.push(threads.len() as u8);
            bytes.extend(threads);
        }
        bytes
    }

    /// The draft of a well formed sheet's bytes; `None` where they do not fill four sections.
    pub fn read(bytes: &[u8]) -> Option<Draft> {
        let mut rest = bytes.iter().copied();
        let number = |rest: &mut dyn Iterator<Item = u8>| Some(u16::from_le_bytes([rest.next()?, rest.next()?]));
        let facts = rest.next()? as usize;
        for _ in 0..8 * facts {
            rest.next()?;
        }
        let mut draft = Draft { facts, ..Draft::default() };
        for _ in 0..rest.next()? {
            draft.rules.push((number(&mut rest)?, number(&mut rest)?));
        }
        for _ in 0..rest.next()? {
            draft.nodes.push((rest.next()?, number(&mut rest)?, number(&mut rest)?));
        }
        for _ in 0..rest.next()? {
            let store = number(&mut rest)?;
            let count = rest.next()?;
            draft.starts.push((store, (0..count).map(|_| rest.next()).collect::<Option<_>>()?));
        }
        rest.next().is_none().then_some(draft)
    }

    pub fn push(&mut self, kind: u8, first: u16, second: u16) -> u16 {
        self.nodes.push((kind, first, second));
        self.nodes.len() as u16 - 1
    }

    /// So many asks of a set, one after the other, that end at a node; gives the first.
    pub fn chain(&mut self, length: usize, set: u16, end: u16) -> u8 {
        (0..length).fold(end, |next, _| self.push(ASK, set, next)) as u8
    }

    /// How many threads each node opens to. Both and either must name lower nodes.
    pub fn opened(&self) -> Vec<usize> {
        let mut opened: Vec<usize> = vec![];
        for &(kind, first, second) in &self.nodes {
            opened.push(match kind {
                STOP => 0,
                BOTH => opened[first as usize].saturating_add(opened[second as usize]),
                _ => 1,
            });
        }
        opened
    }

    /// The closure of nothing: the facts that always stand.
    pub fn least(&self) -> u16 {
        let mut least = 0;
        loop {
            let fired = self.rules.iter().filter(|(premise, _)| premise & !least == 0);
            let more = fired.fold(least, |sofar, (_, conclusion)| sofar | conclusion);
            if more == least {
                return least;
            }
            least = more;
        }
    }

    /// The node numbers that a node names.
    pub fn named(node: (u8, u16, u16)) -> Vec<u16> {
        match node {
            (ASK, _, next) => vec![next],
            (BOTH | EITHER, p, q) => vec![p, q],
            _ => vec![],
        }
    }
}
