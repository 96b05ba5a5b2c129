//! Sheets for tests and measurements, made from a seed: random sheets of many shapes, pairs of starts
//! that are alike or nearly so, variants of a start, the same with facts that always stand, and damaged
//! bytes; and some that are known, document 01's sheet K and sheets at the desk's limits.

mod alike;
mod damage;
mod draft;
mod known;
mod random;
mod shapes;
mod standing;

pub use alike::{alike_pair, variants};
pub use damage::damage;
pub use draft::Draft;
pub use known::{deepest_chain, ladder_and_chain, sheet_k, six_tells};
pub use random::Rng;
pub use shapes::{draw, Shape, SHAPES};
pub use standing::{with_standing, without_standing};

/// Kinds of nodes by their bytes.
pub const STOP: u8 = 0;
pub const TELL: u8 = 1;
pub const ASK: u8 = 2;
pub const BOTH: u8 = 3;
pub const EITHER: u8 = 4;
