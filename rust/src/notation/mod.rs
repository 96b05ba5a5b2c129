//! The notation for sheets: one text that a person can type. docs/NOTATION.md has the grammar and worked sheets.
//!
//! ```
//! use hofadiju::{compare, notation, Verdict};
//!
//! let sheet = notation::read(
//!     "
//!     fact door, lamp
//!     node light = tell lamp
//!     node wait  = ask door then light    # goes on when the door is shut
//!     start old at nothing run wait
//!     start new at nothing run light
//!     ",
//! )?;
//! let report = compare(&sheet.to_bytes(), 0, 1)?;
//! assert_eq!((report.verdict, report.round), (Verdict::Diff, 1));
//!
//! let problem = notation::read("fact door\nnode wait = ask dor then wait").unwrap_err();
//! assert_eq!((problem.line, problem.column), (2, 17));
//! assert_eq!(
//!     problem.to_string(),
//!     "line 2, column 17: no fact is called 'dor'
//!   node wait = ask dor then wait
//!                   ^^^
//!   expected: a fact of this sheet: door"
//! );
//! # Ok::<(), Box<dyn std::error::Error>>(())
//! ```

mod lexer;
mod parser;
mod problem;
mod reader;
mod writer;

pub use problem::Problem;
pub use reader::read;
pub(crate) use writer::{names_for_texts, write};

impl std::str::FromStr for crate::Sheet {
    type Err = Problem;

    fn from_str(text: &str) -> Result<crate::Sheet, Problem> {
        read(text)
    }
}

impl crate::Sheet {
    /// A set in the notation: `nothing`, a fact's name, or names in braces. Facts that are not on the sheet are left out.
    pub fn set_text(&self, set: crate::Set) -> String {
        writer::set_text(self, set)
    }

    /// A node as it stands in the notation where it is used: its name, or its text where it has none. A number that no node
    /// has gives `node` and the number.
    pub fn node_text(&self, node: usize) -> String {
        writer::node_text(self, node)
    }
}
