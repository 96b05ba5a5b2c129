//! Document 01 and cards 1, 2, 3 and 13 of document 02 written again in Rust, twice, from their text and the
//! readings in docs/DECISIONS.md and without the library's code: [`plain`], to be read beside the documents,
//! and [`fast`], written for speed. The library is held to both, and they to each other. Both take the
//! limits as a given value.

pub mod fast;
pub mod plain;

/// The least length of a work slice.
pub const WORK_NUMBERS: usize = 16_384;

/// The most members and moves that a comparison may have.
#[derive(Clone, Copy, Debug, PartialEq, Eq)]
pub struct Limits {
    pub members: usize,
    pub moves: usize,
}

impl Limits {
    /// Document 01's limits.
    pub const DOCUMENT: Limits = Limits { members: 512, moves: 4_096 };
    /// The quotation desk's limits: document 02, card 3.
    pub const DESK: Limits = Limits { members: 64, moves: 512 };
}

impl Default for Limits {
    fn default() -> Limits {
        Limits::DOCUMENT
    }
}

/// What a call returns: its number (0 for an answer) and some numbers beside it. Of two chosen starts
/// these are verdict, round, left, right, length and place; of all starts round, length and place; of two
/// starts after so many rounds verdict, classes, members, length and place.
pub type Returned<const N: usize = 6> = (u32, [usize; N]);

/// A refusal as it is returned: the place is the last number, all others are 0.
fn refused<const N: usize>(number: u32, place: usize) -> Returned<N> {
    let mut numbers = [0; N];
    numbers[N - 1] = place;
    (number, numbers)
}

/// What the documents say, within some limits, about a sheet and a choice of two starts, in the end or
/// after so many rounds, or about all starts of a sheet, whatever slices are lent.
#[derive(Clone, Debug, PartialEq, Eq)]
pub enum Judgement<const N: usize = 6> {
    /// Refusals 1 to 15; by card 2 none of them is 6.
    Refused { number: u32, place: usize },
    /// Refusal 21.
    TooLarge,
    /// An answer: the numbers that are returned, and its bytes.
    Answer { numbers: [usize; N], bytes: Vec<u8> },
}

impl<const N: usize> Judgement<N> {
    /// What the call returns where slices of these lengths are lent.
    pub fn returned(&self, answer_len: usize, work_len: usize) -> Returned<N> {
        match self {
            Judgement::Refused { number, place } => refused(*number, *place),
            _ if work_len < WORK_NUMBERS => refused(23, 0),
            Judgement::TooLarge => refused(21, 0),
            Judgement::Answer { bytes, .. } if answer_len < bytes.len() => refused(22, bytes.len()),
            Judgement::Answer { numbers, .. } => (0, *numbers),
        }
    }

    /// The whole call: what it returns, and what it leaves in both slices.
    pub fn call(&self, answer: &mut [u8], work: &mut [u32]) -> Returned<N> {
        let returned = self.returned(answer.len(), work.len());
        if let (0, Judgement::Answer { bytes, .. }) = (returned.0, self) {
            answer[..bytes.len()].copy_from_slice(bytes);
        }
        if matches!(returned.0, 0 | 21 | 22) {
            work[..WORK_NUMBERS].fill(0);
        }
        returned
    }
}
