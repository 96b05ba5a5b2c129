//! What a call gives in the place of an answer.

use crate::{library_version, Refusal, VERSION};
use std::fmt;

/// Why a call gives no answer.
///
/// With the archive that this crate was written for a call is either answered or [`Error::Refused`]. The other cases
/// are for an archive of another version: they name the number that came from it.
#[non_exhaustive]
#[derive(Clone, Copy, Debug, PartialEq, Eq, Hash)]
pub enum Error {
    /// The sheet, the choice of starts or the comparison is refused.
    Refused(Refusal),
    /// The library refuses, by a number that this crate does not know.
    UnknownRefusal {
        /// The refusal's number.
        number: u32,
        /// The refusal's place.
        place: usize,
    },
    /// The library gives a verdict that this crate does not know.
    UnknownVerdict {
        /// The verdict's number.
        number: usize,
    },
    /// The library reads a node of a kind that this crate does not know.
    UnknownKind {
        /// The kind's number.
        number: usize,
        /// The byte of the sheet that has it.
        place: usize,
    },
    /// The bytes that the library wrote or read are not laid out as this crate knows.
    UnknownAnswer {
        /// How many bytes there are.
        length: usize,
    },
}

impl Error {
    /// The refusal, where it is one that this crate knows.
    pub fn refusal(&self) -> Option<Refusal> {
        match *self {
            Error::Refused(refusal) => Some(refusal),
            _ => None,
        }
    }

    /// The line that the program prints for a refusal, without its line feed: `REFUSED number place`. `None` where the
    /// library did not refuse.
    pub fn line(&self) -> Option<String> {
        match *self {
            Error::Refused(refusal) => Some(refusal.line()),
            Error::UnknownRefusal { number, place } => Some(format!("REFUSED {number} {place}")),
            _ => None,
        }
    }
}

impl From<Refusal> for Error {
    fn from(refusal: Refusal) -> Error {
        Error::Refused(refusal)
    }
}

impl fmt::Display for Error {
    fn fmt(&self, f: &mut fmt::Formatter<'_>) -> fmt::Result {
        match self {
            Error::Refused(refusal) => return refusal.fmt(f),
            Error::UnknownRefusal { number, place } => {
                write!(f, "the library refuses with {number} at place {place}, a refusal that is not known here")?
            }
            Error::UnknownVerdict { number } => {
                write!(f, "the library gives verdict {number}, a verdict that is not known here")?
            }
            Error::UnknownKind { number, place } => {
                write!(f, "the library reads kind {number} at byte {place}, a kind of node that is not known here")?
            }
            Error::UnknownAnswer { length } => {
                write!(f, "the library takes {length} bytes for right that are not laid out as is known here")?
            }
        }
        write!(f, " (its version is {}, and {VERSION} was expected)", library_version())
    }
}

impl std::error::Error for Error {}
