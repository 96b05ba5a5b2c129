//! Document 01, plainly: in its order and its words, with no thought of speed. Card 2 of document 02 changes
//! it in place: a premise may be empty, and the least store, which labels a tell and a reduction, is the
//! closure of nothing. At the end stand two other cards: card 1, all starts of a sheet compared together, and
//! card 13, two starts after so many rounds; and the moves of single configurations.

use crate::{Judgement, Limits};
use std::collections::{BTreeMap, BTreeSet, HashMap};

/// The most threads of a configuration.
const THREADS: usize = 8;

// Facts and stores

/// Every set of facts as a number.
type Set = u16;

/// Set `a` has every fact of set `b`.
fn includes(a: Set, b: Set) -> bool {
    a & b == b
}

/// Set `a` is strictly below set `b`.
fn strictly_below(a: Set, b: Set) -> bool {
    includes(b, a) && a != b
}

/// The smallest superset that obeys every rule.
fn closure(rules: &[(Set, Set)], set: Set) -> Set {
    let mut closed = set;
    loop {
        let before = closed;
        for &(premise, conclusion) in rules {
            if includes(closed, premise) {
                closed |= conclusion;
            }
        }
        if closed == before {
            return closed;
        }
    }
}

// The sheet

#[derive(Clone, Copy, Debug)]
enum Node {
    Stop,
    Tell(Set),
    Ask(Set, usize),
    Both(usize, usize),
    Either(usize, usize),
}

/// One store and its threads in ascending node number. The derived order is document 01's: lower
/// store, then fewer threads, then the lists from the left.
#[derive(Clone, Debug, PartialEq, Eq, PartialOrd, Ord, Hash)]
struct Configuration {
    store: Set,
    count: usize,
    threads: Vec<usize>,
}

fn configuration(store: Set, mut threads: Vec<usize>) -> Configuration {
    threads.sort();
    Configuration { store, count: threads.len(), threads }
}

#[derive(Debug)]
struct Sheet {
    facts: usize,
    rules: Vec<(Set, Set)>,
    nodes: Nodes,
    starts: Vec<Configuration>,
}

/// The nodes, and beside each the threads that it opens to.
#[derive(Debug, Default)]
struct Nodes {
    node: Vec<Node>,
    opened: Vec<Vec<usize>>,
}

impl Nodes {
    /// Takes the next node in. A both names lower nodes, which are in already.
    fn push(&mut self, node: Node) {
        let threads = match node {
            Node::Stop => vec![],
            Node::Both(p, q) => [self.opened[p].clone(), self.opened[q].clone()].concat(),
            Node::Tell(..) | Node::Ask(..) | Node::Either(..) => vec![self.node.len()],
        };
        self.node.push(node);
        self.opened.push(threads);
    }
}

// Reading

struct Refusal {
    number: u32,
    place: usize,
}

fn refuse<T>(number: u32, place: usize) -> Result<T, Refusal> {
    Err(Refusal { number, place })
}

struct Reader<'a> {
    bytes: &'a [u8],
    at: usize,
}

impl<'a> Reader<'a> {
    /// The next field of this many bytes, and its place.
    fn field(&mut self, length: usize) -> Result<(&'a [u8], usize), Refusal> {
        let place = self.at;
        if self.bytes.len() - place < length {
            return refuse(1, self.bytes.len());
        }
        self.at += length;
        Ok((&self.bytes[place..self.at], place))
    }

    fn byte(&mut self) -> Result<(usize, usize), Refusal> {
        let (field, place) = self.field(1)?;
        Ok((field[0] as usize, place))
    }

    fn number(&mut self) -> Result<(u16, usize), Refusal> {
        let (field, place) = self.field(2)?;
        Ok((field[0] as u16 + 256 * field[1] as u16, place))
    }

    fn set(&mut self, facts: usize) -> Result<(Set, usize), Refusal> {
        let (set, place) = self.number()?;
        if set as usize >= 1 << facts {
            return refuse(5, place);
        }
        Ok((set, place))
    }

    fn node_below(&mut self, limit: usize) -> Result<usize, Refusal> {
        let (node, place) = self.number()?;
        if node as usize >= limit {
            return refuse(9, place);
        }
        Ok(node as usize)
    }

    fn unused(&mut self) -> Result<(), Refusal> {
        let (value, place) = self.number()?;
        if value != 0 {
            return refuse(10, place);
        }
        Ok(())
    }

    fn facts(&mut self) -> Result<usize, Refusal> {
        let (count, place) = self.byte()?;
        if count > 12 {
            return refuse(2, place);
        }
        for _ in 0..count {
            let (name, place) = self.field(8)?;
            for (i, byte) in name.iter().enumerate() {
                if !(32..=126).contains(byte) {
                    return refuse(3, place + i);
                }
            }
        }
        Ok(count)
    }

    fn rules(&mut self, facts: usize) -> Result<Vec<(Set, Set)>, Refusal> {
        let (count, place) = self.byte()?;
        if count > 32 {
            return refuse(4, place);
        }
        let mut rules = vec![];
        for _ in 0..count {
            let (premise, _) = self.set(facts)?;
            let (conclusion, _) = self.set(facts)?;
            rules.push((premise, conclusion));
        }
        Ok(rules)
    }

    fn nodes(&mut self, facts: usize, rules: &[(Set, Set)]) -> Result<Nodes, Refusal> {
        let (count, place) = self.byte()?;
        if count == 0 || count > 64 {
            return refuse(7, place);
        }
        let mut nodes = Nodes::default();
        for own in 0..count {
            let (kind, place) = self.byte()?;
            let node = match kind {
                0 => {
                    self.unused()?;
                    self.unused()?;
                    Node::Stop
                }
                1 => {
                    let (set, _) = self.set(facts)?;
                    self.unused()?;
                    Node::Tell(closure(rules, set))
                }
                2 => {
                    let (set, _) = self.set(facts)?;
                    Node::Ask(closure(rules, set), self.node_below(count)?)
                }
                3 => Node::Both(self.node_below(own)?, self.node_below(own)?),
                4 => Node::Either(self.node_below(own)?, self.node_below(own)?),
                _ => return refuse(8, place),
            };
            nodes.push(node);
            if nodes.opened[own].len() > THREADS {
                return refuse(15, place);
            }
        }
        Ok(nodes)
    }

    fn starts(&mut self, facts: usize, rules: &[(Set, Set)], nodes: &Nodes) -> Result<Vec<Configuration>, Refusal> {
        let (count, place) = self.byte()?;
        if !(2..=16).contains(&count) {
            return refuse(11, place);
        }
        let mut starts = vec![];
        for _ in 0..count {
            let (store, _) = self.set(facts)?;
            let (count, count_place) = self.byte()?;
            if count > THREADS {
                return refuse(12, count_place);
            }
            let mut threads = vec![];
            for _ in 0..count {
                let (node, place) = self.byte()?;
                if node >= nodes.node.len() {
                    return refuse(9, place);
                }
                threads.extend(&nodes.opened[node]);
            }
            if threads.len() > THREADS {
                return refuse(12, count_place);
            }
            starts.push(configuration(closure(rules, store), threads));
        }
        Ok(starts)
    }
}

fn read(bytes: &[u8]) -> Result<Sheet, Refusal> {
    let mut reader = Reader { bytes, at: 0 };
    let facts = reader.facts()?;
    let rules = reader.rules(facts)?;
    let nodes = reader.nodes(facts, &rules)?;
    let starts = reader.starts(facts, &rules, &nodes)?;
    if reader.at < bytes.len() {
        return refuse(13, reader.at);
    }
    Ok(Sheet { facts, rules, nodes, starts })
}

// Configurations and moves

/// The comparison passes a limit.
struct TooLarge;

/// A move of one node alone: label, the store afterwards, the threads in the node's place.
type NodeMoves = BTreeSet<(Set, Set, Vec<usize>)>;

/// A sheet, with what was worked out of it before.
struct Moving<'a> {
    sheet: &'a Sheet,
    limits: Limits,
    constraints: Vec<Set>,
    labels: HashMap<(Set, Set), Vec<Set>>,
    node_moves: HashMap<(usize, Set), NodeMoves>,
}

impl Moving<'_> {
    fn new(sheet: &Sheet, limits: Limits) -> Moving<'_> {
        let mut constraints: Vec<Set> = (0..1 << sheet.facts).collect();
        constraints.retain(|&set| closure(&sheet.rules, set) == set);
        Moving { sheet, limits, constraints, labels: HashMap::new(), node_moves: HashMap::new() }
    }

    /// The least store: the facts that always stand.
    fn least(&self) -> Set {
        closure(&self.sheet.rules, 0)
    }

    fn join(&self, a: Set, b: Set) -> Set {
        closure(&self.sheet.rules, a | b)
    }

    /// Adding a constraint to a configuration.
    fn added(&self, to: &Configuration, constraint: Set) -> Configuration {
        Configuration { store: self.join(to.store, constraint), ..to.clone() }
    }

    /// Every minimal constraint that makes `store` entail `asked`. The constraints are tried in
    /// ascending number, so those below one are tried before it.
    fn labels(&mut self, store: Set, asked: Set) -> Vec<Set> {
        if let Some(known) = self.labels.get(&(store, asked)) {
            return known.clone();
        }
        let mut minimal: Vec<Set> = vec![];
        for &a in &self.constraints {
            if includes(self.join(store, a), asked) && !minimal.iter().any(|&b| strictly_below(b, a)) {
                minimal.push(a);
            }
        }
        self.labels.insert((store, asked), minimal.clone());
        minimal
    }

    /// The moves of one node. Each becomes a move of every member that has the node among its threads,
    /// with at least as many threads, so a limit that is passed here is passed there.
    fn node_moves(&mut self, node: usize, store: Set) -> Result<NodeMoves, TooLarge> {
        if let Some(known) = self.node_moves.get(&(node, store)) {
            return Ok(known.clone());
        }
        let nodes = &self.sheet.nodes;
        let mut found = NodeMoves::new();
        match nodes.node[node] {
            Node::Stop => {}
            Node::Tell(set) => {
                found.insert((self.least(), self.join(store, set), vec![]));
            }
            Node::Ask(set, next) => {
                for label in self.labels(store, set) {
                    found.insert((label, self.join(store, label), nodes.opened[next].clone()));
                }
            }
            Node::Both(p, q) => {
                for (mover, other) in [(p, q), (q, p)] {
                    for (label, store, threads) in self.node_moves(mover, store)? {
                        let mut threads = [threads, nodes.opened[other].clone()].concat();
                        threads.sort();
                        found.insert((label, store, threads));
                    }
                }
            }
            Node::Either(p, q) => {
                found.extend(self.node_moves(p, store)?);
                found.extend(self.node_moves(q, store)?);
            }
        }
        if found.len() > self.limits.moves || found.iter().any(|(_, _, threads)| threads.len() > THREADS) {
            return Err(TooLarge);
        }
        self.node_moves.insert((node, store), found.clone());
        Ok(found)
    }

    /// The labelled moves of a configuration.
    fn moves(&mut self, from: &Configuration) -> Result<BTreeSet<(Set, Configuration)>, TooLarge> {
        let mut found = BTreeSet::new();
        for i in 0..from.count {
            let mut rest = from.threads.clone();
            let mover = rest.remove(i);
            for (label, store, threads) in self.node_moves(mover, from.store)? {
                found.insert((label, configuration(store, [threads, rest.clone()].concat())));
            }
        }
        Ok(found)
    }
}

/// The set of a comparison: its members in order, and the moves of each in order.
type Members = BTreeMap<Configuration, BTreeSet<(Set, Configuration)>>;

/// What must be in the set because this member is: its targets, and each target with a label added
/// that is strictly above its own.
fn implied(moving: &Moving, moves: &BTreeSet<(Set, Configuration)>) -> Vec<Configuration> {
    let labels: BTreeSet<Set> = moves.iter().map(|(label, _)| *label).collect();
    let mut found = vec![];
    for (a, target) in moves {
        found.push(target.clone());
        for &b in &labels {
            if strictly_below(*a, b) {
                found.push(moving.added(target, b));
            }
        }
    }
    found
}

/// The set that begins with these configurations.
fn explore(moving: &mut Moving, seeds: &[Configuration]) -> Result<Members, TooLarge> {
    let mut waiting = seeds.to_vec();
    let mut members = Members::new();
    let mut count = 0;
    while let Some(member) = waiting.pop() {
        if members.contains_key(&member) {
            continue;
        }
        if member.count > THREADS || members.len() == moving.limits.members {
            return Err(TooLarge);
        }
        let moves = moving.moves(&member)?;
        count += moves.len();
        if count > moving.limits.moves {
            return Err(TooLarge);
        }
        waiting.extend(implied(moving, &moves));
        members.insert(member, moves);
    }
    Ok(members)
}

// Rounds

/// A move by its label and its target's position; beside it the positions of the targets of the same
/// member's moves with a label strictly below, this label added.
struct Move {
    label: Set,
    target: usize,
    below: Vec<usize>,
}

struct Comparison {
    stores: Vec<Set>,
    moves: Vec<Vec<Move>>,
}

/// The class of each member, numbered by first member.
type Classes = Vec<usize>;

impl Comparison {
    fn new(moving: &Moving, members: &Members) -> Comparison {
        let position: BTreeMap<&Configuration, usize> = members.keys().zip(0..).collect();
        let stores = members.keys().map(|member| member.store).collect();
        let mut all = vec![];
        for moves in members.values() {
            let mut own = vec![];
            for (label, target) in moves {
                let below = moves.iter().filter(|(a, _)| strictly_below(*a, *label));
                let below = below.map(|(_, u)| position[&moving.added(u, *label)]).collect();
                own.push(Move { label: *label, target: position[target], below });
            }
            all.push(own);
        }
        Comparison { stores, moves: all }
    }

    fn redundant(&self, classes: &Classes, a_move: &Move) -> bool {
        a_move.below.iter().any(|&u| classes[u] == classes[a_move.target])
    }

    fn answered(&self, classes: &Classes, a_move: &Move, by: usize) -> bool {
        self.moves[by].iter().any(|m| m.label == a_move.label && classes[m.target] == classes[a_move.target])
    }

    /// The first irredundant move of one member that the other does not answer.
    fn unanswered(&self, classes: &Classes, mover: usize, other: usize) -> Option<&Move> {
        self.moves[mover].iter().find(|m| !self.redundant(classes, m) && !self.answered(classes, m, other))
    }

    /// Two members share a class in the round after this one.
    fn share_next(&self, classes: &Classes, i: usize, j: usize) -> bool {
        classes[i] == classes[j] && self.unanswered(classes, i, j).is_none() && self.unanswered(classes, j, i).is_none()
    }

    fn classes_by(&self, share: impl Fn(usize, usize) -> bool) -> Classes {
        let mut firsts: Vec<usize> = vec![];
        let mut classes = vec![];
        for i in 0..self.stores.len() {
            let class = firsts.iter().position(|&first| share(first, i)).unwrap_or(firsts.len());
            if class == firsts.len() {
                firsts.push(i);
            }
            classes.push(class);
        }
        // Sharing a class is an equivalence; on small sets every pair is tried.
        if classes.len() <= 24 {
            for i in 0..classes.len() {
                for j in 0..classes.len() {
                    assert_eq!(classes[i] == classes[j], share(i, j), "not an equivalence");
                }
            }
        }
        classes
    }

    fn round_0(&self) -> Classes {
        self.classes_by(|i, j| self.stores[i] == self.stores[j])
    }

    /// The round after this one.
    fn successor(&self, classes: &Classes) -> Classes {
        self.classes_by(|i, j| self.share_next(classes, i, j))
    }

    /// The rounds from 0 to the first that is equal to its successor.
    fn rounds(&self) -> Vec<Classes> {
        let mut rounds = vec![self.round_0()];
        loop {
            let last = &rounds[rounds.len() - 1];
            let next = self.successor(last);
            if next == *last {
                return rounds;
            }
            rounds.push(next);
        }
    }

    /// Round k and its successor. Once two rounds in a row are equal, all later ones are equal to them.
    fn round_and_successor(&self, k: u64) -> (Classes, Classes) {
        let mut round = self.round_0();
        let mut next = self.successor(&round);
        for _ in 0..k {
            if next == round {
                break;
            }
            round = next;
            next = self.successor(&round);
        }
        (round, next)
    }

    /// The trail from a pair, as answer bytes of each step.
    fn trail(&self, rounds: &[Classes], mut left: usize, mut right: usize) -> Vec<[u8; 7]> {
        let mut steps = vec![];
        while let Some(n) = first_apart(rounds, left, right) {
            if n == 0 {
                break;
            }
            let before = &rounds[n - 1];
            let by_left = self.unanswered(before, left, right);
            let (side, other) = if by_left.is_some() { (0, right) } else { (1, left) };
            let by_right = || self.unanswered(before, right, left);
            let mover = by_left.or_else(by_right).expect("a separated pair has a move without an answer");
            let replies = self.moves[other].iter().filter(|m| m.label == mover.label);
            let mut best: Option<(usize, usize)> = None;
            for reply in replies {
                let apart = first_apart(rounds, mover.target, reply.target).expect("no reply is an answer");
                if best.is_none_or(|(most, _)| apart > most) {
                    best = Some((apart, reply.target));
                }
            }
            let reply = best.map(|(_, target)| target);
            let label = mover.label.to_le_bytes();
            let target = (mover.target as u16).to_le_bytes();
            let written = reply.map_or(65535, |place| place as u16).to_le_bytes();
            steps.push([side, label[0], label[1], target[0], target[1], written[0], written[1]]);
            let Some(reply) = reply else { break };
            (left, right) = if side == 0 { (mover.target, reply) } else { (reply, mover.target) };
        }
        steps
    }
}

/// The least round that has two members in different classes.
fn first_apart(rounds: &[Classes], i: usize, j: usize) -> Option<usize> {
    rounds.iter().position(|classes| classes[i] != classes[j])
}

/// A set, in order and with its moves by position.
struct Explored {
    members: Members,
    comparison: Comparison,
}

impl Explored {
    fn new(limits: Limits, sheet: &Sheet, seeds: &[Configuration]) -> Result<Explored, TooLarge> {
        let mut moving = Moving::new(sheet, limits);
        let members = explore(&mut moving, seeds)?;
        let comparison = Comparison::new(&moving, &members);
        Ok(Explored { members, comparison })
    }

    fn place(&self, start: &Configuration) -> usize {
        self.members.keys().position(|member| member == start).expect("a start is a member")
    }

    /// The members with these classes as answer bytes, after their count.
    fn member_bytes(&self, classes: &Classes) -> Vec<u8> {
        let mut bytes = vec![];
        bytes.extend((self.members.len() as u16).to_le_bytes());
        for (member, class) in self.members.keys().zip(classes) {
            bytes.extend(member.store.to_le_bytes());
            bytes.push(member.count as u8);
            bytes.extend(member.threads.iter().map(|&thread| thread as u8));
            bytes.extend((*class as u16).to_le_bytes());
        }
        bytes
    }
}

/// A set with its rounds, from 0 to the result.
struct Refined {
    set: Explored,
    rounds: Vec<Classes>,
}

impl Refined {
    fn new(set: Explored) -> Refined {
        let rounds = set.comparison.rounds();
        Refined { set, rounds }
    }

    /// The number of the result's round.
    fn last(&self) -> usize {
        self.rounds.len() - 1
    }

    /// The classes of the result's round.
    fn classes(&self) -> &Classes {
        &self.rounds[self.last()]
    }
}

// The report

fn report(set: Explored, left: usize, right: usize) -> Judgement {
    let refined = Refined::new(set);
    let (verdict, round) = match first_apart(&refined.rounds, left, right) {
        None => (0, refined.last()),
        Some(round) => (1, round),
    };
    let steps = refined.set.comparison.trail(&refined.rounds, left, right);
    let mut bytes = refined.set.member_bytes(refined.classes());
    bytes.extend((steps.len() as u16).to_le_bytes());
    bytes.extend(steps.concat());
    Judgement::Answer { numbers: [verdict, round, left, right, bytes.len(), 0], bytes }
}

/// What is said of the set of two starts and of their places in it, or the refusal before that.
fn judge_two<const N: usize>(
    limits: Limits,
    bytes: &[u8],
    (left, right): (usize, usize),
    say: impl FnOnce(Explored, usize, usize) -> Judgement<N>,
) -> Judgement<N> {
    let refused = |number, place| Judgement::Refused { number, place };
    let sheet = match read(bytes) {
        Ok(sheet) => sheet,
        Err(refusal) => return refused(refusal.number, refusal.place),
    };
    let Some(left) = sheet.starts.get(left) else { return refused(14, 0) };
    let Some(right) = sheet.starts.get(right) else { return refused(14, 1) };
    let Ok(set) = Explored::new(limits, &sheet, &[left.clone(), right.clone()]) else { return Judgement::TooLarge };
    let (left, right) = (set.place(left), set.place(right));
    say(set, left, right)
}

/// What document 01 says, within these limits, about these bytes and these two starts.
pub fn judge(limits: Limits, bytes: &[u8], left: usize, right: usize) -> Judgement {
    judge_two(limits, bytes, (left, right), report)
}

// All starts: document 02, card 1

fn grouping(set: Explored, starts: &[Configuration]) -> Judgement<3> {
    let refined = Refined::new(set);
    let mut bytes = refined.set.member_bytes(refined.classes());
    for start in starts {
        let class = refined.classes()[refined.set.place(start)];
        bytes.extend((class as u16).to_le_bytes());
    }
    Judgement::Answer { numbers: [refined.last(), bytes.len(), 0], bytes }
}

/// What document 02 says, within these limits, about all starts of these bytes.
pub fn judge_all(limits: Limits, bytes: &[u8]) -> Judgement<3> {
    let sheet = match read(bytes) {
        Ok(sheet) => sheet,
        Err(Refusal { number, place }) => return Judgement::Refused { number, place },
    };
    match Explored::new(limits, &sheet, &sheet.starts) {
        Ok(set) => grouping(set, &sheet.starts),
        Err(TooLarge) => Judgement::TooLarge,
    }
}

// Two starts after so many rounds: document 02, card 13

/// DIFF if round k has the starts in different classes, SAME if it is equal to its successor and they are
/// together, OPEN otherwise; with the classes of round k.
fn after_rounds(set: Explored, left: usize, right: usize, k: u64) -> Judgement<5> {
    let (round, next) = set.comparison.round_and_successor(k);
    let verdict = match round[left] == round[right] {
        false => 1,
        true if round == next => 0,
        true => 2,
    };
    let classes: BTreeSet<&usize> = round.iter().collect();
    let bytes = set.member_bytes(&round);
    Judgement::Answer { numbers: [verdict, classes.len(), set.members.len(), bytes.len(), 0], bytes }
}

/// What document 02 says, within these limits, about these bytes and these two starts after k rounds.
pub fn judge_rounds(limits: Limits, bytes: &[u8], left: usize, right: usize, k: u64) -> Judgement<5> {
    judge_two(limits, bytes, (left, right), |set, left, right| after_rounds(set, left, right, k))
}

// Single moves, for those who follow a trail

/// A configuration by its store and its threads in ascending order.
pub type Stand = (u16, Vec<usize>);

fn stand(of: &Configuration) -> Stand {
    (of.store, of.threads.clone())
}

/// A sheet whose configurations can be moved one by one.
pub struct Follower<'a>(Moving<'a>);

impl Follower<'_> {
    /// The least store.
    pub fn least(&self) -> u16 {
        self.0.least()
    }

    /// A start of the sheet.
    pub fn start(&self, start: usize) -> Option<Stand> {
        self.0.sheet.starts.get(start).map(stand)
    }

    /// A configuration with a constraint added.
    pub fn added(&self, (store, threads): &Stand, constraint: u16) -> Stand {
        (self.0.join(*store, constraint), threads.clone())
    }

    /// The labelled moves of a configuration; `None` where a limit is passed.
    pub fn moves(&mut self, (store, threads): &Stand) -> Option<Vec<(u16, Stand)>> {
        let moves = self.0.moves(&configuration(*store, threads.clone())).ok()?;
        Some(moves.iter().map(|(label, target)| (*label, stand(target))).collect())
    }
}

/// What is found by following the moves of a sheet, where it is read.
pub fn follow<T>(bytes: &[u8], by: impl FnOnce(&mut Follower) -> T) -> Option<T> {
    let sheet = read(bytes).ok()?;
    Some(by(&mut Follower(Moving::new(&sheet, Limits::DOCUMENT))))
}

// Sizes

/// How many members and moves the set has, where there are not far more than document 01's limits allow.
fn size_from(sheet: &Sheet, seeds: &[Configuration]) -> Option<(usize, usize)> {
    let Limits { members, moves } = Limits::DOCUMENT;
    let limits = Limits { members: 2 * members, moves: 2 * moves };
    let mut moving = Moving::new(sheet, limits);
    let members = explore(&mut moving, seeds).ok()?;
    Some((members.len(), members.values().map(|moves| moves.len()).sum()))
}

/// How many members and moves the comparison's set has, where the sheet is read, the starts are on it
/// and there are not far more than document 01's limits allow.
pub fn size(bytes: &[u8], left: usize, right: usize) -> Option<(usize, usize)> {
    let sheet = read(bytes).ok()?;
    size_from(&sheet, &[sheet.starts.get(left)?.clone(), sheet.starts.get(right)?.clone()])
}

/// The same of the set that begins with every start.
pub fn size_all(bytes: &[u8]) -> Option<(usize, usize)> {
    let sheet = read(bytes).ok()?;
    size_from(&sheet, &sheet.starts)
}
