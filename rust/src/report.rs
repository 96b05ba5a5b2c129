//! Reports: their values, their bytes and their text.

use crate::{Error, Outcome, Set};
use std::fmt;

/// Whether two starts behave alike. Further verdicts may come with other calls, so a `match` has a case for the rest.
#[non_exhaustive]
#[derive(Clone, Copy, Debug, PartialEq, Eq, Hash)]
pub enum Verdict {
    /// No watcher can tell them apart, whatever is added to the store.
    Same,
    /// A watcher can tell them apart.
    Diff,
}

/// The side that moves in a step of a trail.
#[derive(Clone, Copy, Debug, PartialEq, Eq, Hash)]
pub enum Side {
    /// The left start, or what it has become.
    Left,
    /// The right start, or what it has become.
    Right,
}

/// A configuration of a comparison's set, with its class.
#[non_exhaustive]
#[derive(Clone, Debug, PartialEq, Eq, Hash)]
pub struct Member {
    /// The store: fact i has weight 2 to the power i. The facts that always stand are in every store.
    pub store: Set,
    /// The threads as node numbers, ascending, repeats kept; at most eight.
    pub threads: Vec<usize>,
    /// In a report and a grouping members behave alike exactly when they have the same class. In a
    /// [`Partition`](crate::Partition) it is the class of that round.
    pub class: usize,
}

/// A step of a trail.
#[non_exhaustive]
#[derive(Clone, Copy, Debug, PartialEq, Eq, Hash)]
pub struct Step {
    /// The side that moves.
    pub side: Side,
    /// The label of the move: what is added to the store first. Where nothing need be added it is the set
    /// of the facts that always stand, 0 on a sheet without such facts.
    pub label: Set,
    /// Where the move leads: a position in [`Report::members`].
    pub target: usize,
    /// Where the other side's best reply leads; `None` where it has no move with this label.
    pub reply: Option<usize>,
}

/// The report on two starts.
///
/// Its text (`Display`) is what the program prints, every line ended by a line feed.
#[non_exhaustive]
#[derive(Clone, Debug, PartialEq, Eq, Hash)]
pub struct Report {
    /// Whether the two starts behave alike.
    pub verdict: Verdict,
    /// `Same`: the number of the round in which the refinement came to rest.
    /// `Diff`: the least round that has the two starts in different classes, which is the least number
    /// of moves in which a watcher can tell them apart.
    pub round: usize,
    /// The position of the left start in `members`.
    pub left: usize,
    /// The position of the right start in `members`.
    pub right: usize,
    /// Every configuration of the comparison's set, in order of store, number of threads and threads.
    pub members: Vec<Member>,
    /// How to tell the two starts apart; empty for `Same` and for `Diff` in round 0.
    pub steps: Vec<Step>,
}

/// Reads an answer's bytes from the front.
pub(crate) struct Bytes<'a> {
    pub(crate) rest: &'a [u8],
}

impl Bytes<'_> {
    fn byte(&mut self) -> Option<u8> {
        let (&first, rest) = self.rest.split_first()?;
        self.rest = rest;
        Some(first)
    }

    pub(crate) fn number(&mut self) -> Option<u16> {
        Some(u16::from_le_bytes([self.byte()?, self.byte()?]))
    }

    /// A count, a class or a position.
    pub(crate) fn place(&mut self) -> Option<usize> {
        self.number().map(usize::from)
    }

    /// The members, after their count.
    pub(crate) fn members(&mut self) -> Option<Vec<Member>> {
        let count = self.number()?;
        (0..count).map(|_| self.member()).collect()
    }

    fn member(&mut self) -> Option<Member> {
        let store = self.number()?;
        let count = self.byte()?;
        let threads = (0..count).map(|_| self.byte().map(usize::from)).collect::<Option<_>>()?;
        let class = self.place()?;
        Some(Member { store, threads, class })
    }

    fn step(&mut self) -> Option<Step> {
        let side = match self.byte()? {
            0 => Side::Left,
            1 => Side::Right,
            _ => return None,
        };
        let label = self.number()?;
        let target = self.place()?;
        let reply = match self.number()? {
            u16::MAX => None,
            place => Some(place.into()),
        };
        Some(Step { side, label, target, reply })
    }
}

/// The report with these bytes, where they are one, nothing is left over and every position is that of a member.
pub(crate) fn from_bytes(outcome: &Outcome, bytes: &[u8]) -> Option<Report> {
    let mut bytes = Bytes { rest: bytes };
    let members = bytes.members()?;
    let count = bytes.number()?;
    let steps = (0..count).map(|_| bytes.step()).collect::<Option<Vec<Step>>>()?;
    let Outcome { verdict, round, left, right, length: _ } = *outcome;
    let within = |place: usize| place < members.len();
    let steps_within = steps.iter().all(|step| within(step.target) && step.reply.is_none_or(within));
    let whole = bytes.rest.is_empty() && within(left) && within(right) && steps_within;
    whole.then_some(Report { verdict, round, left, right, members, steps })
}

impl Verdict {
    /// The verdict with this number in what the library returns.
    pub(crate) fn from_number(number: usize) -> Result<Verdict, Error> {
        match number {
            0 => Ok(Verdict::Same),
            1 => Ok(Verdict::Diff),
            number => Err(Error::UnknownVerdict { number }),
        }
    }
}

impl fmt::Display for Verdict {
    fn fmt(&self, f: &mut fmt::Formatter<'_>) -> fmt::Result {
        f.write_str(match self {
            Verdict::Same => "SAME",
            Verdict::Diff => "DIFF",
        })
    }
}

impl fmt::Display for Side {
    fn fmt(&self, f: &mut fmt::Formatter<'_>) -> fmt::Result {
        f.write_str(match self {
            Side::Left => "L",
            Side::Right => "R",
        })
    }
}

/// Store, class and threads, without the position.
impl fmt::Display for Member {
    fn fmt(&self, f: &mut fmt::Formatter<'_>) -> fmt::Result {
        write!(f, "{} {} ", self.store, self.class)?;
        for (i, thread) in self.threads.iter().enumerate() {
            let before = if i == 0 { "" } else { "+" };
            write!(f, "{before}{thread}")?;
        }
        if self.threads.is_empty() {
            f.write_str("-")?;
        }
        Ok(())
    }
}

impl fmt::Display for Step {
    fn fmt(&self, f: &mut fmt::Formatter<'_>) -> fmt::Result {
        write!(f, "{} {} {} ", self.side, self.label, self.target)?;
        match self.reply {
            Some(reply) => write!(f, "{reply}"),
            None => f.write_str("-"),
        }
    }
}

impl fmt::Display for Report {
    fn fmt(&self, f: &mut fmt::Formatter<'_>) -> fmt::Result {
        writeln!(f, "{} {}", self.verdict, self.round)?;
        writeln!(f, "CONFIGURATIONS {}", self.members.len())?;
        for (position, member) in self.members.iter().enumerate() {
            writeln!(f, "{position} {member}")?;
        }
        writeln!(f, "TRAIL {}", self.steps.len())?;
        self.steps.iter().try_for_each(|step| writeln!(f, "{step}"))
    }
}
