//! What the configurations of a comparison do: their moves and their rounds.
//!
//! A report has no moves, so what the words and the picture of a comparison need is worked out here once more. What comes
//! out is held to the report each time ([`Behaviour::explains`]): members, classes, verdict, round and trail.

use hofadiju::{facts_of, Node, Report, Set, Sheet, Side, Step, Verdict, MAX_THREADS};
use std::collections::{BTreeMap, BTreeSet, HashMap};

/// A store and its threads in ascending order. The derived order is that of a report's members.
#[derive(Clone, Debug, PartialEq, Eq, PartialOrd, Ord, Hash)]
pub struct Configuration {
    /// The store.
    pub store: Set,
    count: usize,
    /// The threads as node numbers, ascending.
    pub threads: Vec<usize>,
}

impl Configuration {
    /// The configuration with this store and these threads in any order.
    pub fn new(store: Set, mut threads: Vec<usize>) -> Configuration {
        threads.sort_unstable();
        Configuration { store, count: threads.len(), threads }
    }
}

/// A set is below another that has all its facts and is not the same.
fn strictly_below(a: Set, b: Set) -> bool {
    a & !b == 0 && a != b
}

/// A move of a configuration.
#[derive(Clone, Debug, PartialEq, Eq)]
pub struct Move {
    /// The constraint that it needs.
    pub label: Set,
    /// Where it leads.
    pub target: Configuration,
    /// The thread that moves.
    pub thread: usize,
    /// The tell or ask that moves: the thread itself, or a part of it.
    pub part: usize,
}

/// There are more configurations or moves than the limits allow.
#[derive(Clone, Copy, Debug, PartialEq, Eq)]
pub struct TooLarge;

/// How many configurations and moves are worked out at most. A report never has as many.
const MOST_MEMBERS: usize = 4 * hofadiju::MAX_MEMBERS;
const MOST_MOVES: usize = 4 * hofadiju::MAX_MOVES;

/// A move of a node alone: the store and the threads that it leads to, and the tell or ask that moves.
#[derive(Clone, Debug)]
struct NodeMove {
    label: Set,
    store: Set,
    threads: Vec<usize>,
    part: usize,
}

/// A sheet whose configurations move.
pub struct Machine<'a> {
    sheet: &'a Sheet,
    /// The closure of each set of the sheet's facts.
    closures: Vec<Set>,
    /// The threads that each node opens to.
    opened: Vec<Vec<usize>>,
    labels: HashMap<(Set, Set), Vec<Set>>,
    node_moves: HashMap<(usize, Set), Vec<NodeMove>>,
}

/// Whether a sheet keeps to what is known here: sets of at most sixteen facts that are on it, nodes that are on it, and
/// lower ones in both and either. A library of another version may read others.
fn known(sheet: &Sheet) -> bool {
    let (facts, nodes) = (sheet.facts().len(), sheet.nodes().len());
    let set = |set: Set| facts_of(set).all(|fact| fact < facts);
    let node = |(number, node): (usize, &Node)| match *node {
        Node::Stop => true,
        Node::Tell(told) => set(told),
        Node::Ask(asked, next) => set(asked) && next < nodes,
        Node::Both(first, second) | Node::Either(first, second) => first < number && second < number,
        _ => false,
    };
    facts <= Set::BITS as usize
        && sheet.rules().iter().all(|rule| set(rule.premise) && set(rule.conclusion))
        && sheet.nodes().iter().enumerate().all(node)
        && sheet.starts().iter().all(|start| set(start.store) && start.nodes.iter().all(|&node| node < nodes))
}

impl<'a> Machine<'a> {
    /// The machine of a sheet; none where the sheet has what is not known here.
    pub fn new(sheet: &'a Sheet) -> Option<Machine<'a>> {
        if !known(sheet) {
            return None;
        }
        let all = 1usize << sheet.facts().len();
        let closures = (0..all).map(|set| closure(sheet, set as Set)).collect();
        let mut opened: Vec<Vec<usize>> = vec![];
        for (number, node) in sheet.nodes().iter().enumerate() {
            opened.push(match *node {
                Node::Stop => vec![],
                Node::Both(first, second) => [&opened[first][..], &opened[second]].concat(),
                _ => vec![number],
            });
        }
        Some(Machine { sheet, closures, opened, labels: HashMap::new(), node_moves: HashMap::new() })
    }

    /// The constraint that always stands.
    pub fn least(&self) -> Set {
        self.closures[0]
    }

    fn join(&self, a: Set, b: Set) -> Set {
        self.closures[usize::from(a | b)]
    }

    /// The configuration that a start of the sheet is.
    pub fn start(&self, start: usize) -> Option<Configuration> {
        let start = self.sheet.starts().get(start)?;
        let threads = start.nodes.iter().flat_map(|&node| self.opened[node].clone()).collect();
        Some(Configuration::new(self.join(start.store, 0), threads))
    }

    /// A configuration with a constraint added.
    pub fn added(&self, to: &Configuration, constraint: Set) -> Configuration {
        Configuration { store: self.join(to.store, constraint), ..to.clone() }
    }

    /// The least constraints that make the store entail the asked set. Those below one come before it.
    fn labels(&mut self, store: Set, asked: Set) -> Vec<Set> {
        if let Some(known) = self.labels.get(&(store, asked)) {
            return known.clone();
        }
        let mut least: Vec<Set> = vec![];
        for set in 0..self.closures.len() {
            let set = set as Set;
            let constraint = self.closures[usize::from(set)] == set;
            if constraint && asked & !self.join(store, set) == 0 && !least.iter().any(|&a| strictly_below(a, set)) {
                least.push(set);
            }
        }
        self.labels.insert((store, asked), least.clone());
        least
    }

    /// The moves of a node at a store, each once.
    fn node_moves(&mut self, node: usize, store: Set) -> Result<Vec<NodeMove>, TooLarge> {
        if let Some(known) = self.node_moves.get(&(node, store)) {
            return Ok(known.clone());
        }
        let mut found = vec![];
        match self.sheet.nodes()[node] {
            Node::Tell(set) => {
                let store = self.join(store, set);
                found.push(NodeMove { label: self.least(), store, threads: vec![], part: node });
            }
            Node::Ask(set, next) => {
                let asked = self.join(set, 0);
                for label in self.labels(store, asked) {
                    let threads = self.opened[next].clone();
                    found.push(NodeMove { label, store: self.join(store, label), threads, part: node });
                }
            }
            Node::Both(first, second) => {
                for (mover, beside) in [(first, second), (second, first)] {
                    for mut by in self.node_moves(mover, store)? {
                        by.threads.extend(&self.opened[beside]);
                        by.threads.sort_unstable();
                        found.push(by);
                    }
                }
            }
            Node::Either(first, second) => {
                found.extend(self.node_moves(first, store)?);
                found.extend(self.node_moves(second, store)?);
            }
            _ => {}
        }
        let mut seen = BTreeSet::new();
        found.retain(|by| seen.insert((by.label, by.store, by.threads.clone())));
        if found.len() > MOST_MOVES || found.iter().any(|by| by.threads.len() > MAX_THREADS) {
            return Err(TooLarge);
        }
        self.node_moves.insert((node, store), found.clone());
        Ok(found)
    }

    /// The moves of a configuration, each once, in order of label and target.
    pub fn moves(&mut self, from: &Configuration) -> Result<Vec<Move>, TooLarge> {
        let mut found: BTreeMap<(Set, Configuration), (usize, usize)> = BTreeMap::new();
        for (place, &thread) in from.threads.iter().enumerate() {
            if place > 0 && from.threads[place - 1] == thread {
                continue;
            }
            let mut rest = from.threads.clone();
            rest.remove(place);
            for by in self.node_moves(thread, from.store)? {
                let target = Configuration::new(by.store, [by.threads, rest.clone()].concat());
                found.entry((by.label, target)).or_insert((thread, by.part));
            }
        }
        let moves = found.into_iter();
        Ok(moves.map(|((label, target), (thread, part))| Move { label, target, thread, part }).collect())
    }
}

fn closure(sheet: &Sheet, set: Set) -> Set {
    let mut closed = set;
    loop {
        let before = closed;
        for rule in sheet.rules() {
            if rule.premise & !closed == 0 {
                closed |= rule.conclusion;
            }
        }
        if closed == before {
            return closed;
        }
    }
}

/// A move of a member, by positions.
#[derive(Clone, Copy, Debug, PartialEq, Eq)]
pub struct Edge {
    /// The constraint that the move needs.
    pub label: Set,
    /// The position of the member it leads to.
    pub target: usize,
    /// The thread that moves.
    pub thread: usize,
    /// The tell or ask that moves.
    pub part: usize,
}

/// The set of a comparison with its moves and the classes of every round.
pub struct Behaviour {
    /// The members in order.
    pub members: Vec<Configuration>,
    /// The moves of each member in order.
    pub moves: Vec<Vec<Edge>>,
    /// The classes of each round from 0 to the result's, numbered by first member.
    pub rounds: Vec<Vec<usize>>,
    /// The round from which on each move of each member is irredundant; none where it never is.
    irredundant: Vec<Vec<Option<usize>>>,
    positions: HashMap<Configuration, usize>,
}

impl Behaviour {
    /// The behaviour of the least set that holds these configurations.
    pub fn new(machine: &mut Machine, seeds: &[Configuration]) -> Result<Behaviour, TooLarge> {
        let members = explore(machine, seeds)?;
        let positions: HashMap<Configuration, usize> = members.keys().cloned().zip(0..).collect();
        let mut moves = vec![];
        for own in members.values() {
            let edge = |m: &Move| Edge { label: m.label, target: positions[&m.target], thread: m.thread, part: m.part };
            moves.push(own.iter().map(edge).collect::<Vec<Edge>>());
        }
        let members: Vec<Configuration> = members.into_keys().collect();
        let (rounds, irredundant) = Refinement::new(machine, &members, &moves, &positions).rounds();
        Ok(Behaviour { members, moves, rounds, irredundant, positions })
    }

    /// The position of a configuration.
    pub fn position(&self, of: &Configuration) -> Option<usize> {
        self.positions.get(of).copied()
    }

    /// The classes of the result's round.
    pub fn classes(&self) -> &[usize] {
        &self.rounds[self.rounds.len() - 1]
    }

    /// The least round that has two members in different classes.
    pub fn apart(&self, i: usize, j: usize) -> Option<usize> {
        self.rounds.iter().position(|classes| classes[i] != classes[j])
    }

    /// Whether a member's move is redundant in the result's round.
    pub fn redundant(&self, member: usize, place: usize) -> bool {
        self.redundant_in(self.rounds.len() - 1, member, place)
    }

    fn redundant_in(&self, round: usize, member: usize, place: usize) -> bool {
        self.irredundant[member][place].is_none_or(|from| round < from)
    }

    /// The irredundant moves of a member in a round that the other does not answer by the same label, in order.
    pub fn unanswered(&self, round: usize, mover: usize, other: usize) -> impl Iterator<Item = Edge> + '_ {
        let classes = &self.rounds[round];
        let own = self.moves[mover].iter().enumerate();
        own.filter(move |&(place, edge)| {
            let same = |answer: &Edge| answer.label == edge.label && classes[answer.target] == classes[edge.target];
            !self.redundant_in(round, mover, place) && !self.moves[other].iter().any(same)
        })
        .map(|(_, edge)| *edge)
    }

    /// The step of a trail at two members that are first apart in a later round than 0: who moves, how, and the reply.
    pub fn step(&self, left: usize, right: usize) -> Option<(Side, Edge, Option<Edge>)> {
        let before = self.apart(left, right)?.checked_sub(1)?;
        let (side, edge, other) = match self.unanswered(before, left, right).next() {
            Some(edge) => (Side::Left, edge, right),
            None => (Side::Right, self.unanswered(before, right, left).next()?, left),
        };
        let mut reply: Option<(usize, Edge)> = None;
        for answer in self.moves[other].iter().filter(|answer| answer.label == edge.label) {
            let apart = self.apart(edge.target, answer.target)?;
            if reply.is_none_or(|(most, _)| apart > most) {
                reply = Some((apart, *answer));
            }
        }
        Some((side, edge, reply.map(|(_, answer)| answer)))
    }

    /// The trail from two members.
    pub fn trail(&self, mut left: usize, mut right: usize) -> Vec<(Side, Edge, Option<Edge>)> {
        let mut steps = vec![];
        while let Some((side, edge, reply)) = self.step(left, right) {
            steps.push((side, edge, reply));
            let Some(reply) = reply else { break };
            (left, right) = match side {
                Side::Left => (edge.target, reply.target),
                Side::Right => (reply.target, edge.target),
            };
        }
        steps
    }

    /// Whether this is the behaviour that a report is about: members, classes, verdict, round and trail.
    pub fn explains(&self, report: &Report) -> bool {
        let (left, right) = (report.left, report.right);
        let same_members = self.members.len() == report.members.len()
            && self.members.iter().zip(&report.members).zip(self.classes()).all(|((own, member), &class)| {
                own.store == member.store && own.threads == member.threads && class == member.class
            });
        let same_verdict = match self.apart(left, right) {
            None => report.verdict == Verdict::Same && report.round == self.rounds.len() - 1,
            Some(round) => report.verdict == Verdict::Diff && report.round == round,
        };
        let trail = self.trail(left, right);
        let same_step = |(&(side, edge, reply), step): (&(Side, Edge, Option<Edge>), &Step)| {
            let reply = reply.map(|reply| reply.target);
            (side, edge.label, edge.target, reply) == (step.side, step.label, step.target, step.reply)
        };
        same_members
            && same_verdict
            && trail.len() == report.steps.len()
            && trail.iter().zip(&report.steps).all(same_step)
    }
}

/// Every configuration that is in the set, with its moves.
fn explore(machine: &mut Machine, seeds: &[Configuration]) -> Result<BTreeMap<Configuration, Vec<Move>>, TooLarge> {
    let mut waiting = seeds.to_vec();
    let mut members = BTreeMap::new();
    let mut count = 0;
    while let Some(member) = waiting.pop() {
        if members.contains_key(&member) {
            continue;
        }
        if member.count > MAX_THREADS || members.len() == MOST_MEMBERS {
            return Err(TooLarge);
        }
        let moves = machine.moves(&member)?;
        count += moves.len();
        if count > MOST_MOVES {
            return Err(TooLarge);
        }
        let labels: BTreeSet<Set> = moves.iter().map(|m| m.label).collect();
        for m in &moves {
            waiting
                .extend(labels.iter().filter(|&&b| strictly_below(m.label, b)).map(|&b| machine.added(&m.target, b)));
            waiting.push(m.target.clone());
        }
        members.insert(member, moves);
    }
    Ok(members)
}

/// Whether a move is redundant: which of the member's moves is looked at as the one that makes it so, and where that
/// leads with the label added. Classes only become finer, so what once fails to make it redundant fails ever after.
struct Candidate {
    place: usize,
    with_label: Option<usize>,
}

struct Refinement<'a> {
    machine: &'a Machine<'a>,
    members: &'a [Configuration],
    moves: &'a [Vec<Edge>],
    positions: &'a HashMap<Configuration, usize>,
    candidates: Vec<Vec<Candidate>>,
    irredundant: Vec<Vec<Option<usize>>>,
}

type Rounds = Vec<Vec<usize>>;

impl<'a> Refinement<'a> {
    fn new(
        machine: &'a Machine<'a>,
        members: &'a [Configuration],
        moves: &'a [Vec<Edge>],
        positions: &'a HashMap<Configuration, usize>,
    ) -> Refinement<'a> {
        let none = |own: &Vec<Edge>| own.iter().map(|_| Candidate { place: 0, with_label: None }).collect();
        let candidates = moves.iter().map(none).collect();
        let irredundant = moves.iter().map(|own| vec![None; own.len()]).collect();
        Refinement { machine, members, moves, positions, candidates, irredundant }
    }

    /// Whether a move is redundant in the round with these classes.
    fn redundant(&mut self, classes: &[usize], member: usize, place: usize) -> bool {
        let own = &self.moves[member];
        let edge = own[place];
        let candidate = &mut self.candidates[member][place];
        while let Some(below) = own.get(candidate.place) {
            if strictly_below(below.label, edge.label) {
                let (machine, members, positions) = (self.machine, self.members, self.positions);
                let led = || positions[&machine.added(&members[below.target], edge.label)];
                if classes[*candidate.with_label.get_or_insert_with(led)] == classes[edge.target] {
                    return true;
                }
            }
            *candidate = Candidate { place: candidate.place + 1, with_label: None };
        }
        false
    }

    fn rounds(mut self) -> (Rounds, Vec<Vec<Option<usize>>>) {
        let mut rounds = vec![numbered(self.members.iter().map(|member| member.store))];
        loop {
            let classes = &rounds[rounds.len() - 1];
            let mut lines = vec![];
            for member in 0..self.members.len() {
                let mut own = vec![];
                for (place, edge) in self.moves[member].iter().enumerate() {
                    if self.irredundant[member][place].is_none() && !self.redundant(classes, member, place) {
                        self.irredundant[member][place] = Some(rounds.len() - 1);
                    }
                    if self.irredundant[member][place].is_some() {
                        own.push((edge.label, classes[edge.target]));
                    }
                }
                own.sort_unstable();
                own.dedup();
                lines.push((classes[member], own));
            }
            let next = numbered(lines.into_iter());
            if &next == classes {
                return (rounds, self.irredundant);
            }
            rounds.push(next);
        }
    }
}

/// Numbers for what is equal, from 0 by first place.
fn numbered<T: std::hash::Hash + Eq>(items: impl Iterator<Item = T>) -> Vec<usize> {
    let mut numbers = HashMap::new();
    items
        .map(|item| {
            let next = numbers.len();
            *numbers.entry(item).or_insert(next)
        })
        .collect()
}
