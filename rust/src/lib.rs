//! Hofadiju compares control sheets.
//!
//! A sheet holds small concurrent constraint processes (ccp) that post facts on a common store and
//! wait for facts there. [`compare`] reads a sheet, takes two of its starts and reports whether they
//! behave alike ([`Verdict::Same`]) or not ([`Verdict::Diff`]), with the classes of all configurations
//! that matter and, for `Diff`, a trail that tells the two apart.
//!
//! [`compare_desk`] does the same within smaller limits, those of the quotation desk: 64 configurations
//! and 512 moves in place of 512 and 4,096. Where both report, the reports are the same.
//!
//! [`compare_all`] compares all starts of a sheet together and groups those that behave alike.
//!
//! [`compare_rounds`] and [`compare_rounds_desk`] stop after so many rounds and say what is known of two
//! starts by then; it may still be open.
//!
//! This crate is a thin safe wrapper around a static library that is written and proved in Rattle. It
//! has no dependencies. Calls share no state, so any number of threads may call at the same time.
//!
//! A sheet is a byte string. It comes from a text in the [`notation`], from a [`SheetBuilder`], or from elsewhere;
//! [`Sheet`] is a sheet as a value.
//!
//! # Example
//!
//! Two starts on one sheet: "when the door is shut, switch the lamp on" and "switch the lamp on".
//!
//! ```
//! use hofadiju::{compare, notation, Reason, Side, Verdict};
//!
//! let sheet = notation::read(
//!     "
//!     fact door, lamp
//!     node light = tell lamp
//!     node wait  = ask door then light
//!     start old at nothing run wait
//!     start new at nothing run light
//!     ",
//! )?;
//! let bytes = sheet.to_bytes();
//! let report = compare(&bytes, 0, 1)?;
//! assert_eq!(report.verdict, Verdict::Diff);
//! assert_eq!(report.round, 1);
//! assert_eq!(report.steps[0].side, Side::Left); // the left start moves where {door} is added,
//! assert_eq!(sheet.fact_names(report.steps[0].label), ["door"]);
//! assert_eq!(report.steps[0].reply, None); // and the right start has no such move
//!
//! let refusal = compare(&bytes[..20], 0, 1).unwrap_err().refusal().unwrap();
//! assert_eq!((refusal.reason, refusal.line()), (Reason::CutOff, "REFUSED 1 20".to_string()));
//! # Ok::<(), Box<dyn std::error::Error>>(())
//! ```
//!
//! # Facts that always stand
//!
//! A rule with an empty premise says which facts always stand. They are in every store, also in that of a
//! start that is written with the empty store, and in every label. With a rule that {door} always stands, the
//! first start of the sheet above need not wait, but it takes a step more than the second.
//!
//! ```
//! use hofadiju::{compare, notation, Side, Verdict};
//!
//! let sheet = notation::read(
//!     "
//!     fact door, lamp
//!     rule nothing gives door
//!     node light = tell lamp
//!     node wait  = ask door then light
//!     start old at nothing run wait
//!     start new at nothing run light
//!     ",
//! )?;
//! let report = compare(&sheet.to_bytes(), 0, 1)?;
//! assert_eq!(report.verdict, Verdict::Diff);
//! assert_eq!(report.members[report.left].store, 1); // {door}
//! assert_eq!((report.steps[0].side, report.steps[0].label), (Side::Left, 1)); // nothing more is added
//! assert_eq!(report.members[2].store, 3); // {door, lamp}, where the right start's step leads at once
//! assert_eq!(report.steps[0].reply, Some(2));
//! # Ok::<(), Box<dyn std::error::Error>>(())
//! ```
//!
//! # Versions
//!
//! [`VERSION`] is the version of the library that this crate was written for, and [`library_version`] that of the
//! library it is linked with. With another one a call may end in an [`Error`] that names what is not known here; it does
//! not panic. Enums and structs that later versions extend are `#[non_exhaustive]`.

#![deny(missing_docs)]

mod builder;
mod calls;
mod error;
mod ffi;
mod field;
mod grouping;
mod limits;
pub mod notation;
mod partition;
mod refusal;
mod report;
mod sheet;

pub use builder::{BuildError, Part, SheetBuilder};
pub use calls::{
    check, compare, compare_all, compare_all_into, compare_desk, compare_desk_into, compare_into, compare_rounds,
    compare_rounds_desk, compare_rounds_desk_into, compare_rounds_into, library_version, AllOutcome, Outcome,
    RoundsOutcome,
};
pub use error::Error;
pub use field::{field_at, Field};
pub use grouping::Grouping;
pub use limits::{
    DESK_MEMBERS, DESK_MOVES, LONGEST_SHEET, MAX_FACTS, MAX_MEMBERS, MAX_MOVES, MAX_NODES, MAX_RULES, MAX_STARTS,
    MAX_THREADS, MIN_STARTS, NAME_BYTES,
};
pub use partition::{Partition, RoundsVerdict};
pub use refusal::{Reason, Refusal};
pub use report::{Member, Report, Side, Step, Verdict};
pub use sheet::{facts_of, is_name, Fact, Node, Rule, Set, Sheet, Start};

/// The version of the library that this crate was written for: 10,000 times the major number, 100 times the minor one,
/// and the patch. [`library_version`] is that of the library it is linked with.
pub const VERSION: u32 = 200;

/// An answer slice of this many bytes always suffices for [`compare_into`].
pub const ANSWER_BYTES: usize = 10_237;

/// An answer slice of this many bytes always suffices for [`compare_desk_into`].
pub const DESK_ANSWER_BYTES: usize = 1_277;

/// An answer slice of this many bytes always suffices for [`compare_all_into`].
pub const ALL_ANSWER_BYTES: usize = 6_690;

/// An answer slice of this many bytes always suffices for [`compare_rounds_into`].
pub const ROUNDS_ANSWER_BYTES: usize = 6_658;

/// An answer slice of this many bytes always suffices for [`compare_rounds_desk_into`].
pub const DESK_ROUNDS_ANSWER_BYTES: usize = 834;

/// The work slice must have at least this many numbers.
pub const WORK_NUMBERS: usize = 16_384;
