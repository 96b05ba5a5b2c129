//! Groupings: all starts of a sheet compared together, their values, bytes and text.

use crate::report::{Bytes, Member};
use crate::{AllOutcome, MAX_STARTS, MIN_STARTS};
use std::fmt;

/// All starts of a sheet, compared together.
///
/// Its text (`Display`) is `CLASSES`, the number of classes among the starts and the round, and then a
/// line for each group of [`Grouping::groups`], every line ended by a line feed.
#[non_exhaustive]
#[derive(Clone, Debug, PartialEq, Eq, Hash)]
pub struct Grouping {
    /// The number of the round in which the refinement came to rest.
    pub round: usize,
    /// Every configuration of the set that begins with all starts, in order of store, number of threads
    /// and threads.
    pub members: Vec<Member>,
    /// The class of each start, in the sheet's order, as members have it. Starts behave alike exactly
    /// when they have the same class.
    pub classes: Vec<usize>,
}

impl Grouping {
    /// The starts, by their numbers, that behave alike: each group ascending, the groups in the order of
    /// their first starts.
    pub fn groups(&self) -> Vec<Vec<usize>> {
        let mut groups: Vec<Vec<usize>> = Vec::new();
        for (start, class) in self.classes.iter().enumerate() {
            match groups.iter_mut().find(|group| self.classes[group[0]] == *class) {
                Some(group) => group.push(start),
                None => groups.push(vec![start]),
            }
        }
        groups
    }
}

/// The grouping with these bytes, where they are one and nothing is left over.
pub(crate) fn from_bytes(outcome: &AllOutcome, bytes: &[u8]) -> Option<Grouping> {
    let mut bytes = Bytes { rest: bytes };
    let members = bytes.members()?;
    let mut classes = Vec::new();
    while !bytes.rest.is_empty() {
        classes.push(bytes.place()?);
    }
    (MIN_STARTS..=MAX_STARTS).contains(&classes.len()).then_some(Grouping { round: outcome.round, members, classes })
}

impl fmt::Display for Grouping {
    fn fmt(&self, f: &mut fmt::Formatter<'_>) -> fmt::Result {
        let groups = self.groups();
        writeln!(f, "CLASSES {} {}", groups.len(), self.round)?;
        for group in groups {
            let starts: Vec<String> = group.iter().map(usize::to_string).collect();
            writeln!(f, "{}", starts.join(" "))?;
        }
        Ok(())
    }
}
