//! Refusals: their numbers, reasons and texts.

use crate::{
    DESK_MEMBERS, DESK_MOVES, MAX_FACTS, MAX_MEMBERS, MAX_MOVES, MAX_NODES, MAX_RULES, MAX_STARTS, MAX_THREADS,
};
use crate::{MIN_STARTS, WORK_NUMBERS};
use std::fmt;

/// Why a sheet, a choice of starts or a comparison is refused.
///
/// The discriminants are document 01's numbers. 6, which document 01 gave for an empty premise, is not given
/// any more: such a rule says which facts always stand. Further numbers may come, so a `match` has a case for the rest.
#[non_exhaustive]
#[derive(Clone, Copy, Debug, PartialEq, Eq, Hash, PartialOrd, Ord)]
#[repr(u32)]
pub enum Reason {
    /// A field is cut off by the end of the sheet.
    CutOff = 1,
    /// More than 12 facts.
    TooManyFacts = 2,
    /// A byte of a fact's name is outside 32 to 126.
    BadNameByte = 3,
    /// More than 32 rules.
    TooManyRules = 4,
    /// A set holds a fact that is not on the sheet.
    AbsentFact = 5,
    /// No node, or more than 64.
    NodeCount = 7,
    /// A kind byte above 4.
    BadKind = 8,
    /// A node number that is not allowed there.
    BadNode = 9,
    /// An unused field of a node is not 0.
    UnusedField = 10,
    /// Fewer than 2 starts, or more than 16.
    StartCount = 11,
    /// A start has more than eight threads, as written or once opened.
    TooManyThreads = 12,
    /// Bytes after the last start.
    ExtraBytes = 13,
    /// A chosen start is not on the sheet. Where all starts are compared this does not occur.
    AbsentStart = 14,
    /// A node opens to more than eight threads.
    WideNode = 15,
    /// More than 512 configurations (64 for the desk), a configuration of more than eight threads, or
    /// more than 4,096 moves (512 for the desk).
    TooLarge = 21,
    /// The answer slice is shorter than the answer.
    AnswerShort = 22,
    /// The work slice is shorter than 16,384 numbers.
    WorkShort = 23,
}

impl Reason {
    /// All reasons, by number.
    pub const ALL: &'static [Reason] = &[
        Reason::CutOff,
        Reason::TooManyFacts,
        Reason::BadNameByte,
        Reason::TooManyRules,
        Reason::AbsentFact,
        Reason::NodeCount,
        Reason::BadKind,
        Reason::BadNode,
        Reason::UnusedField,
        Reason::StartCount,
        Reason::TooManyThreads,
        Reason::ExtraBytes,
        Reason::AbsentStart,
        Reason::WideNode,
        Reason::TooLarge,
        Reason::AnswerShort,
        Reason::WorkShort,
    ];

    /// The reason's number.
    pub fn number(self) -> u32 {
        self as u32
    }

    /// The reason with this number.
    pub fn from_number(number: u32) -> Option<Reason> {
        Reason::ALL.iter().copied().find(|reason| reason.number() == number)
    }
}

impl fmt::Display for Reason {
    fn fmt(&self, f: &mut fmt::Formatter<'_>) -> fmt::Result {
        match self {
            Reason::CutOff => write!(f, "a field is cut off by the end of the sheet"),
            Reason::TooManyFacts => write!(f, "more than {MAX_FACTS} facts"),
            Reason::BadNameByte => write!(f, "a byte of a fact's name is outside 32 to 126"),
            Reason::TooManyRules => write!(f, "more than {MAX_RULES} rules"),
            Reason::AbsentFact => write!(f, "a set holds a fact that is not on the sheet"),
            Reason::NodeCount => write!(f, "no node, or more than {MAX_NODES}"),
            Reason::BadKind => write!(f, "a kind above 4"),
            Reason::BadNode => write!(f, "a node number that is not allowed there"),
            Reason::UnusedField => write!(f, "an unused field of a node is not 0"),
            Reason::StartCount => write!(f, "fewer than {MIN_STARTS} starts, or more than {MAX_STARTS}"),
            Reason::TooManyThreads => write!(f, "a start has more than {MAX_THREADS} threads"),
            Reason::ExtraBytes => write!(f, "bytes after the last start"),
            Reason::AbsentStart => write!(f, "a chosen start is not on the sheet"),
            Reason::WideNode => write!(f, "a node opens to more than {MAX_THREADS} threads"),
            Reason::TooLarge => write!(f, "the comparison is too large"),
            Reason::AnswerShort => write!(f, "the answer slice is too short"),
            Reason::WorkShort => write!(f, "the work slice is too short"),
        }
    }
}

/// A refusal: why, and where.
#[non_exhaustive]
#[derive(Clone, Copy, Debug, PartialEq, Eq, Hash)]
pub struct Refusal {
    /// What is wrong.
    pub reason: Reason,
    /// Where it is wrong: for 1 to 13 and 15 the byte of the sheet; for 14 0 for the left start and 1
    /// for the right one; for 22 the length that the answer needs; for 21 and 23 0.
    pub place: usize,
}

impl Refusal {
    /// The refusal for this reason at this place.
    pub fn new(reason: Reason, place: usize) -> Refusal {
        Refusal { reason, place }
    }

    /// The refusal's number in document 01.
    pub fn number(&self) -> u32 {
        self.reason.number()
    }

    /// The line that the program prints, without its line feed: `REFUSED number place`.
    pub fn line(&self) -> String {
        format!("REFUSED {} {}", self.number(), self.place)
    }
}

impl fmt::Display for Refusal {
    fn fmt(&self, f: &mut fmt::Formatter<'_>) -> fmt::Result {
        let place = self.place;
        match self.reason {
            Reason::CutOff => write!(f, "the sheet ends inside a field or before one: it has only {place} bytes"),
            Reason::TooManyFacts => write!(f, "byte {place}: the count of facts is above {MAX_FACTS}"),
            Reason::BadNameByte => write!(f, "byte {place}: a fact's name has a byte outside 32 to 126"),
            Reason::TooManyRules => write!(f, "byte {place}: the count of rules is above {MAX_RULES}"),
            Reason::AbsentFact => write!(f, "byte {place}: the set holds a fact that is not on the sheet"),
            Reason::NodeCount => write!(f, "byte {place}: the count of nodes is not 1 to {MAX_NODES}"),
            Reason::BadKind => write!(f, "byte {place}: the node's kind is above 4"),
            Reason::BadNode => write!(f, "byte {place}: the node number is not allowed here"),
            Reason::UnusedField => write!(f, "byte {place}: the node's kind does not use this field, and it is not 0"),
            Reason::StartCount => write!(f, "byte {place}: the count of starts is not {MIN_STARTS} to {MAX_STARTS}"),
            Reason::TooManyThreads => {
                write!(f, "byte {place}: the start has more than {MAX_THREADS} threads, as written or once opened")
            }
            Reason::ExtraBytes => write!(f, "byte {place}: the sheet goes on after its last start"),
            Reason::AbsentStart if place == 0 => write!(f, "the start chosen for the left is not on the sheet"),
            Reason::AbsentStart => write!(f, "the start chosen for the right is not on the sheet"),
            Reason::WideNode => write!(f, "byte {place}: the node opens to more than {MAX_THREADS} threads"),
            Reason::TooLarge => write!(
                f,
                "the comparison is too large: more than {MAX_MEMBERS} configurations ({DESK_MEMBERS} for the desk), \
                 more than {MAX_THREADS} threads in one of them, or more than {MAX_MOVES} moves in all ({DESK_MOVES} \
                 for the desk)"
            ),
            Reason::AnswerShort => write!(f, "the answer slice is too short: the answer has {place} bytes"),
            Reason::WorkShort => write!(f, "the work slice is shorter than {WORK_NUMBERS} numbers"),
        }
    }
}

impl std::error::Error for Refusal {}
