//! Partitions: two starts compared after so many rounds, their values, bytes and text.

use crate::report::{Bytes, Member, Verdict};
use crate::{Error, RoundsOutcome};
use std::fmt;

/// What is known of two starts after so many rounds. Further cases may come, so a `match` has one for the rest.
#[non_exhaustive]
#[derive(Clone, Copy, Debug, PartialEq, Eq, Hash)]
pub enum RoundsVerdict {
    /// The starts are in one class and no later round splits any: no watcher can tell them apart.
    Same,
    /// The starts are in different classes: a watcher can tell them apart.
    Diff,
    /// The starts are in one class, and the next round splits some class of the whole set. They may prove
    /// to behave alike or not.
    Open,
}

impl RoundsVerdict {
    /// The verdict with this number in what the library returns.
    pub(crate) fn from_number(number: usize) -> Result<RoundsVerdict, Error> {
        match number {
            0 => Ok(RoundsVerdict::Same),
            1 => Ok(RoundsVerdict::Diff),
            2 => Ok(RoundsVerdict::Open),
            number => Err(Error::UnknownVerdict { number }),
        }
    }

    /// The verdict of [`compare`](crate::compare), and of every larger number of rounds; `None` where it is
    /// open.
    pub fn settled(self) -> Option<Verdict> {
        match self {
            RoundsVerdict::Same => Some(Verdict::Same),
            RoundsVerdict::Diff => Some(Verdict::Diff),
            RoundsVerdict::Open => None,
        }
    }
}

/// Two starts after so many rounds: the classes of that round.
///
/// Its text (`Display`) is the verdict, the number of classes and the number of members, and then a line for
/// each member as in a report's text, every line ended by a line feed.
#[non_exhaustive]
#[derive(Clone, Debug, PartialEq, Eq, Hash)]
pub struct Partition {
    /// What is known of the two starts.
    pub verdict: RoundsVerdict,
    /// The number of classes. A report on the two starts has at least as many, and at most one for each
    /// member.
    pub classes: usize,
    /// Every configuration of the comparison's set, in order of store, number of threads and threads, with
    /// its class in that round. Where the verdict is not [`RoundsVerdict::Same`], members of one class may
    /// still be told apart by a later round.
    pub members: Vec<Member>,
}

/// The partition with these bytes, where they are one and nothing is left over.
pub(crate) fn from_bytes(outcome: &RoundsOutcome, bytes: &[u8]) -> Option<Partition> {
    let mut bytes = Bytes { rest: bytes };
    let members = bytes.members()?;
    let RoundsOutcome { verdict, classes, members: count, length: _ } = *outcome;
    (bytes.rest.is_empty() && members.len() == count).then_some(Partition { verdict, classes, members })
}

impl fmt::Display for RoundsVerdict {
    fn fmt(&self, f: &mut fmt::Formatter<'_>) -> fmt::Result {
        match self.settled() {
            Some(verdict) => verdict.fmt(f),
            None => f.write_str("OPEN"),
        }
    }
}

impl fmt::Display for Partition {
    fn fmt(&self, f: &mut fmt::Formatter<'_>) -> fmt::Result {
        writeln!(f, "{} {} {}", self.verdict, self.classes, self.members.len())?;
        self.members.iter().enumerate().try_for_each(|(position, member)| writeln!(f, "{position} {member}"))
    }
}
