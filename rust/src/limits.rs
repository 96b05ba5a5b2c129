//! The numbers of document 01, "The sheet" and "Refused by the state", each named once.

/// The most facts of a sheet.
pub const MAX_FACTS: usize = 12;

/// The bytes of a fact's name on the sheet.
pub const NAME_BYTES: usize = 8;

/// The most rules of a sheet.
pub const MAX_RULES: usize = 32;

/// The most nodes of a sheet, which has at least one.
pub const MAX_NODES: usize = 64;

/// The fewest starts of a sheet.
pub const MIN_STARTS: usize = 2;

/// The most starts of a sheet.
pub const MAX_STARTS: usize = 16;

/// The most threads of a configuration.
pub const MAX_THREADS: usize = 8;

/// The most configurations of a comparison.
pub const MAX_MEMBERS: usize = 512;

/// The most moves of a comparison, all configurations together.
pub const MAX_MOVES: usize = 4_096;

/// The most configurations of a comparison at the desk.
pub const DESK_MEMBERS: usize = 64;

/// The most moves of a comparison at the desk.
pub const DESK_MOVES: usize = 512;

/// The longest sheet that is read has this many bytes; every longer one is refused.
pub const LONGEST_SHEET: usize = (1 + MAX_FACTS * NAME_BYTES)
    + (1 + MAX_RULES * RULE_BYTES)
    + (1 + MAX_NODES * NODE_BYTES)
    + (1 + MAX_STARTS * (START_BYTES + MAX_THREADS));

/// The bytes of a rule.
pub(crate) const RULE_BYTES: usize = 4;

/// The bytes of a node.
pub(crate) const NODE_BYTES: usize = 5;

/// The bytes of a start without its threads.
pub(crate) const START_BYTES: usize = 3;
