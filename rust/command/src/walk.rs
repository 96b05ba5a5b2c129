//! A walk that tells two configurations apart, as a watcher can follow it: before each move he has a constraint added to
//! both sides, one side moves, the other answers as well as it can, and in the end the stores differ or one side cannot
//! move. It has as many moves as the round of the DIFF.
//!
//! A trail counts a move by exactly what it needs. The other side may have a move that needs less, and with the
//! constraint added that is an answer too; so a walk may take other moves than the trail.

use crate::behaviour::{Behaviour, Configuration, Edge, Machine};
use hofadiju::{Set, Side};

/// A move that one side takes in a walk.
#[derive(Clone, Debug, PartialEq, Eq)]
pub struct Taken {
    /// The thread that moves.
    pub thread: usize,
    /// The tell or ask that moves: the thread itself, or a part of it.
    pub part: usize,
    /// Where it leads, what is added included.
    pub to: Configuration,
}

/// One move of a walk with its answer.
#[derive(Clone, Debug, PartialEq, Eq)]
pub struct WalkMove {
    /// What is added to both sides before the move: the move's label.
    pub label: Set,
    /// The side that moves.
    pub side: Side,
    /// How it moves.
    pub by: Taken,
    /// How many configurations the other side can answer with.
    pub answers: usize,
    /// The answer that can be told apart last; none where the other side cannot move.
    pub answer: Option<Taken>,
}

/// How a walk ends.
#[derive(Clone, Copy, Debug, PartialEq, Eq)]
pub enum Ending {
    /// The stores of the two sides differ.
    Stores,
    /// One side moved, and the other cannot.
    Stuck,
    /// The walk leads to configurations that are too many to be worked out here.
    Unfinished,
}

/// A walk from two configurations that behave differently.
#[derive(Clone, Debug, PartialEq, Eq)]
pub struct Walk {
    /// The moves in turn.
    pub moves: Vec<WalkMove>,
    /// Where the left side is in the end.
    pub left: Configuration,
    /// Where the right side is in the end.
    pub right: Configuration,
    /// What tells the two apart there.
    pub ending: Ending,
}

/// How often configurations outside a comparison's set are worked out at most.
const MOST_SETS: usize = 64;

/// The walk from two members; none where they behave alike.
pub fn walk(machine: &mut Machine, behaviour: &Behaviour, left: usize, right: usize) -> Option<Walk> {
    behaviour.apart(left, right)?;
    let (left, right) = (behaviour.members[left].clone(), behaviour.members[right].clone());
    let mut walker = Walker { machine, sets: 0, left, right };
    let mut moves: Vec<WalkMove> = vec![];
    let mut wider: Option<Behaviour> = None;
    while walker.left.store == walker.right.store {
        let Some((next, set)) = walker.telling(wider.as_ref().unwrap_or(behaviour)) else {
            return Some(walker.end(moves, Ending::Unfinished));
        };
        walker.go(&next);
        let stuck = next.answer.is_none();
        moves.push(next);
        if stuck {
            return Some(walker.end(moves, Ending::Stuck));
        }
        if set.is_some() {
            wider = set;
        }
    }
    Some(walker.end(moves, Ending::Stores))
}

struct Walker<'a, 'b> {
    machine: &'a mut Machine<'b>,
    sets: usize,
    left: Configuration,
    right: Configuration,
}

impl Walker<'_, '_> {
    fn end(&self, moves: Vec<WalkMove>, ending: Ending) -> Walk {
        Walk { moves, left: self.left.clone(), right: self.right.clone(), ending }
    }

    /// Both sides after a move and its answer. A side that cannot move has the label added and stays.
    fn go(&mut self, next: &WalkMove) {
        let (mover, other) = match next.side {
            Side::Left => (&mut self.left, &mut self.right),
            Side::Right => (&mut self.right, &mut self.left),
        };
        *mover = next.by.to.clone();
        *other = match &next.answer {
            Some(answer) => answer.to.clone(),
            None => self.machine.added(other, next.label),
        };
    }

    /// The first move, the left side's before the right's, after which every answer is told apart sooner than the two
    /// sides are now; with the set that the answer is in, where it is another. None where that is too large.
    fn telling(&mut self, set: &Behaviour) -> Option<(WalkMove, Option<Behaviour>)> {
        let (left, right) = (set.position(&self.left)?, set.position(&self.right)?);
        let before = set.apart(left, right)?.checked_sub(1)?;
        for (side, mover, other) in [(Side::Left, left, right), (Side::Right, right, left)] {
            for edge in set.unanswered(before, mover, other) {
                let by = Taken { thread: edge.thread, part: edge.part, to: set.members[edge.target].clone() };
                let answers = self.answers(set, other, edge.label);
                let Some((last, wider)) = self.last(set, &by.to, &answers) else { continue };
                let answer = match last {
                    Last::Never => continue,
                    Last::In(_, round) if round > before => continue,
                    Last::In(place, _) => Some(answers[place].clone()),
                    Last::Nothing => None,
                };
                return Some((WalkMove { label: edge.label, side, by, answers: answers.len(), answer }, wider));
            }
        }
        None
    }

    /// What a member can do where this constraint is added: by moves with this label, then by those that need less.
    fn answers(&self, set: &Behaviour, member: usize, label: Set) -> Vec<Taken> {
        let mut found: Vec<Taken> = vec![];
        let own = |edge: &&Edge| edge.label == label;
        let less = |edge: &&Edge| edge.label & !label == 0 && edge.label != label;
        let moves = &set.moves[member];
        for edge in moves.iter().filter(own).chain(moves.iter().filter(less)) {
            let to = self.machine.added(&set.members[edge.target], label);
            if !found.iter().any(|known| known.to == to) {
                found.push(Taken { thread: edge.thread, part: edge.part, to });
            }
        }
        found
    }

    /// Which answer is told apart from the target last, with the set in which that is seen, where it is another. None
    /// where it is too large.
    fn last(
        &mut self,
        set: &Behaviour,
        target: &Configuration,
        answers: &[Taken],
    ) -> Option<(Last, Option<Behaviour>)> {
        if let Some(last) = last_apart(set, target, answers) {
            return Some((last, None));
        }
        if self.sets == MOST_SETS {
            return None;
        }
        self.sets += 1;
        let mut seeds: Vec<Configuration> = answers.iter().map(|answer| answer.to.clone()).collect();
        seeds.push(target.clone());
        let wider = Behaviour::new(self.machine, &seeds).ok()?;
        last_apart(&wider, target, answers).map(|last| (last, Some(wider)))
    }
}

/// Which of some answers is told apart last.
enum Last {
    /// There is no answer.
    Nothing,
    /// The answer at this place, the first of several, in this round.
    In(usize, usize),
    /// Some answer is never told apart.
    Never,
}

/// Which answer is told apart from the target last; none where one of them is not in the set.
fn last_apart(set: &Behaviour, target: &Configuration, answers: &[Taken]) -> Option<Last> {
    let target = set.position(target)?;
    let mut last = Last::Nothing;
    for (place, answer) in answers.iter().enumerate() {
        let round = set.apart(target, set.position(&answer.to)?);
        last = match (round, last) {
            (None, _) | (_, Last::Never) => Last::Never,
            (Some(round), Last::In(first, most)) if most >= round => Last::In(first, most),
            (Some(round), _) => Last::In(place, round),
        };
    }
    Some(last)
}
