//! The library's calls, as values and within lent slices.

use crate::{ffi, grouping, partition, report, Error, Grouping, Partition, Reason, Refusal, Report, RoundsVerdict};
use crate::{Verdict, ALL_ANSWER_BYTES, ANSWER_BYTES, DESK_ANSWER_BYTES, DESK_ROUNDS_ANSWER_BYTES};
use crate::{ROUNDS_ANSWER_BYTES, WORK_NUMBERS};

/// The version of the library that this crate is linked with, to be compared with [`VERSION`](crate::VERSION).
pub fn library_version() -> u32 {
    // SAFETY: the function takes nothing and returns a number.
    unsafe { ffi::hofadiju_version() }
}

/// Reads a sheet and compares nothing.
///
/// ```
/// use hofadiju::{check, Reason};
///
/// // No facts, no rules, one node, a stop; two starts without threads.
/// let sheet = [0, 0, 1, 0, 0, 0, 0, 0, 2, 0, 0, 0, 0, 0, 0];
/// assert_eq!(check(&sheet), Ok(()));
/// let refusal = check(&sheet[..14]).unwrap_err().refusal().unwrap();
/// assert_eq!((refusal.reason, refusal.place), (Reason::CutOff, 14));
/// ```
///
/// # Errors
///
/// A sheet that is not well formed is refused; see [`Reason`].
pub fn check(sheet: &[u8]) -> Result<(), Error> {
    // The work slice is looked at when the sheet has been read and starts 0 and 1 have been found on it.
    match compare_into(sheet, 0, 1, &mut [], &mut []) {
        Err(Error::Refused(Refusal { reason: Reason::WorkShort, .. })) | Ok(_) => Ok(()),
        Err(error) => Err(error),
    }
}

/// What [`compare_into`] and [`compare_desk_into`] give beside the bytes in the answer slice.
#[non_exhaustive]
#[derive(Clone, Copy, Debug, PartialEq, Eq, Hash)]
pub struct Outcome {
    /// Whether the two starts behave alike.
    pub verdict: Verdict,
    /// `Same`: the number of the round in which the refinement came to rest.
    /// `Diff`: the least round that has the two starts in different classes.
    pub round: usize,
    /// The place of the left start among the members.
    pub left: usize,
    /// The place of the right start among the members.
    pub right: usize,
    /// How many bytes of the answer slice the report takes.
    pub length: usize,
}

/// Compares the starts `left` and `right` of a sheet. The comparison may have 512 configurations and
/// 4,096 moves.
///
/// # Errors
///
/// A sheet that is not well formed, a start that is not on it, or a comparison that passes the limits
/// is refused; see [`Reason`]. The refusals [`Reason::AnswerShort`] and [`Reason::WorkShort`] do not
/// occur here.
pub fn compare(sheet: &[u8], left: usize, right: usize) -> Result<Report, Error> {
    report_by(ffi::hofadiju_compare, ANSWER_BYTES, sheet, left, right)
}

/// Compares as [`compare`] does, within the limits of the quotation desk: the comparison may have 64
/// configurations and 512 moves. Where both functions report, the reports are the same.
///
/// # Example
///
/// Six threads, each of which posts a fact of its own, have 64 configurations; five of the same threads
/// beside them have 32 more.
///
/// ```
/// use hofadiju::{compare, compare_desk, Reason};
///
/// let mut sheet: Vec<u8> = Vec::new();
/// sheet.push(6); // six facts, without a name
/// sheet.extend_from_slice(&[b' '; 6 * 8]);
/// sheet.push(0); // no rules
/// sheet.push(6); // node i: tell the set {fact i}
/// for fact in 0..6 {
///     sheet.extend_from_slice(&[1, 1 << fact, 0, 0, 0]);
/// }
/// sheet.push(3); // three starts at the empty store
/// sheet.extend_from_slice(&[0, 0, 6, 0, 1, 2, 3, 4, 5]);
/// sheet.extend_from_slice(&[0, 0, 6, 5, 4, 3, 2, 1, 0]);
/// sheet.extend_from_slice(&[0, 0, 5, 0, 1, 2, 3, 4]);
///
/// let report = compare_desk(&sheet, 0, 1)?;
/// assert_eq!(report.members.len(), 64);
/// assert_eq!(report, compare(&sheet, 0, 1)?);
///
/// assert_eq!(compare_desk(&sheet, 0, 2).unwrap_err().refusal().unwrap().reason, Reason::TooLarge);
/// assert_eq!(compare(&sheet, 0, 2)?.members.len(), 96);
/// # Ok::<(), hofadiju::Error>(())
/// ```
///
/// # Errors
///
/// As [`compare`], but [`Reason::TooLarge`] by the desk's limits.
pub fn compare_desk(sheet: &[u8], left: usize, right: usize) -> Result<Report, Error> {
    report_by(ffi::hofadiju_compare_desk, DESK_ANSWER_BYTES, sheet, left, right)
}

/// The report of a call for which an answer slice of so many bytes suffices.
fn report_by(call: ffi::Call, room: usize, sheet: &[u8], left: usize, right: usize) -> Result<Report, Error> {
    let mut answer = vec![0; room];
    let mut work = vec![0; WORK_NUMBERS];
    let outcome = outcome_by(call, sheet, left, right, &mut answer, &mut work)?;
    outcome.report(&answer).ok_or(Error::UnknownAnswer { length: outcome.length })
}

/// Compares as [`compare`] does, and allocates nothing.
///
/// The report is written into the front of `answer`; bytes beyond [`Outcome::length`] stay as they
/// are. [`ANSWER_BYTES`] bytes always suffice. [`Outcome::report`] takes the bytes apart.
///
/// `work` is room to work in, of at least [`WORK_NUMBERS`] numbers. Its contents matter to nothing.
/// After a report and after the refusals 21 and 22 its first [`WORK_NUMBERS`] numbers are 0; later
/// ones are never touched.
///
/// # Errors
///
/// As [`compare`], and also [`Reason::WorkShort`] and [`Reason::AnswerShort`]. A refusal leaves
/// `answer` untouched.
pub fn compare_into(
    sheet: &[u8],
    left: usize,
    right: usize,
    answer: &mut [u8],
    work: &mut [u32],
) -> Result<Outcome, Error> {
    outcome_by(ffi::hofadiju_compare, sheet, left, right, answer, work)
}

/// Compares as [`compare_desk`] does, and allocates nothing.
///
/// `answer` and `work` are used as by [`compare_into`], and `work` must be as long as there.
/// [`DESK_ANSWER_BYTES`] bytes of `answer` always suffice.
///
/// # Errors
///
/// As [`compare_desk`], and also [`Reason::WorkShort`] and [`Reason::AnswerShort`]. A refusal leaves
/// `answer` untouched. Where the desk's limits are passed the refusal is [`Reason::TooLarge`], also
/// where `answer` is too short.
pub fn compare_desk_into(
    sheet: &[u8],
    left: usize,
    right: usize,
    answer: &mut [u8],
    work: &mut [u32],
) -> Result<Outcome, Error> {
    outcome_by(ffi::hofadiju_compare_desk, sheet, left, right, answer, work)
}

/// What one of the library's functions gives on these slices.
fn outcome_by(
    call: ffi::Call,
    sheet: &[u8],
    left: usize,
    right: usize,
    answer: &mut [u8],
    work: &mut [u32],
) -> Result<Outcome, Error> {
    let mut result = [0; 6];
    // SAFETY: each pointer comes with its length from a reference, so it is not null, is aligned and
    // valid for that length, and the exclusive references overlap nothing. Both of the functions read
    // `sheet`, write within `answer`, `work` and `result`, and keep no pointer.
    let number = unsafe {
        call(
            sheet.as_ptr(),
            sheet.len(),
            left,
            right,
            answer.as_mut_ptr(),
            answer.len(),
            work.as_mut_ptr(),
            work.len(),
            &mut result,
        )
    };
    let [verdict, round, left, right, length, place] = result;
    answered(number, place)?;
    let verdict = Verdict::from_number(verdict)?;
    Ok(Outcome { verdict, round, left, right, length })
}

/// The refusal that a function has returned, where it is one.
fn answered(number: u32, place: usize) -> Result<(), Error> {
    if number == 0 {
        return Ok(());
    }
    Err(match Reason::from_number(number) {
        Some(reason) => Error::Refused(Refusal::new(reason, place)),
        None => Error::UnknownRefusal { number, place },
    })
}

impl Outcome {
    /// The report that stands in the first [`Outcome::length`] bytes of `answer`, or `None` where
    /// those bytes are not a report.
    pub fn report(&self, answer: &[u8]) -> Option<Report> {
        report::from_bytes(self, answer.get(..self.length)?)
    }
}

/// What [`compare_all_into`] gives beside the bytes in the answer slice.
#[non_exhaustive]
#[derive(Clone, Copy, Debug, PartialEq, Eq, Hash)]
pub struct AllOutcome {
    /// The number of the round in which the refinement came to rest.
    pub round: usize,
    /// How many bytes of the answer slice the answer takes.
    pub length: usize,
}

/// Compares all starts of a sheet together. The set of configurations begins with every start, and it
/// may have 512 configurations and 4,096 moves.
///
/// Two starts share a class here exactly when [`compare`] of the two says [`Verdict::Same`], where
/// neither call is refused. The round is that of the whole set, and may be larger than that of two
/// starts.
///
/// # Example
///
/// Four starts: a tell, an ask before it, the tell beside a stop, nothing.
///
/// ```
/// use hofadiju::{compare, compare_all, Verdict};
///
/// let mut sheet: Vec<u8> = Vec::new();
/// sheet.push(1); // one fact
/// sheet.extend_from_slice(b"lamp    ");
/// sheet.push(0); // no rules
/// sheet.push(4); // four nodes
/// sheet.extend_from_slice(&[0, 0, 0, 0, 0]); // node 0: stop
/// sheet.extend_from_slice(&[1, 1, 0, 0, 0]); // node 1: tell the set {lamp}
/// sheet.extend_from_slice(&[2, 0, 0, 1, 0]); // node 2: ask nothing, then node 1
/// sheet.extend_from_slice(&[3, 1, 0, 0, 0]); // node 3: both 1 and 0
/// sheet.push(4); // four starts at the empty store
/// sheet.extend_from_slice(&[0, 0, 1, 1]); // start 0: node 1
/// sheet.extend_from_slice(&[0, 0, 1, 2]); // start 1: node 2
/// sheet.extend_from_slice(&[0, 0, 1, 3]); // start 2: node 3
/// sheet.extend_from_slice(&[0, 0, 0]); // start 3: no threads
///
/// let grouping = compare_all(&sheet)?;
/// assert_eq!(grouping.groups(), [vec![0, 2], vec![1], vec![3]]);
/// assert_eq!(grouping.classes[0], grouping.classes[2]);
/// assert_eq!(compare(&sheet, 0, 2)?.verdict, Verdict::Same);
/// assert_eq!(compare(&sheet, 0, 1)?.verdict, Verdict::Diff);
/// assert_eq!(grouping.to_string(), "CLASSES 3 1\n0 2\n1\n3\n");
/// # Ok::<(), hofadiju::Error>(())
/// ```
///
/// # Errors
///
/// A sheet that is not well formed, or one whose set passes the limits, is refused; see [`Reason`]. The
/// set may be too large although the set of any two starts is not. The refusals
/// [`Reason::AbsentStart`], [`Reason::AnswerShort`] and [`Reason::WorkShort`] do not occur here.
pub fn compare_all(sheet: &[u8]) -> Result<Grouping, Error> {
    let mut answer = vec![0; ALL_ANSWER_BYTES];
    let mut work = vec![0; WORK_NUMBERS];
    let outcome = compare_all_into(sheet, &mut answer, &mut work)?;
    outcome.grouping(&answer).ok_or(Error::UnknownAnswer { length: outcome.length })
}

/// Compares as [`compare_all`] does, and allocates nothing.
///
/// `answer` and `work` are used as by [`compare_into`], and `work` must be as long as there.
/// [`ALL_ANSWER_BYTES`] bytes of `answer` always suffice. [`AllOutcome::grouping`] takes the bytes apart.
///
/// # Example
///
/// ```
/// use hofadiju::{compare_all, compare_all_into, ALL_ANSWER_BYTES, WORK_NUMBERS};
///
/// // No facts, no rules, one node, a stop; two starts without threads.
/// let sheet = [0, 0, 1, 0, 0, 0, 0, 0, 2, 0, 0, 0, 0, 0, 0];
/// let mut answer = [0; ALL_ANSWER_BYTES];
/// let mut work = [0; WORK_NUMBERS];
/// let outcome = compare_all_into(&sheet, &mut answer, &mut work)?;
/// // One member: its count, store, number of threads and class. Then the class of each start.
/// assert_eq!(answer[..outcome.length], [1, 0, 0, 0, 0, 0, 0, 0, 0, 0, 0]);
/// assert_eq!(outcome.grouping(&answer), Some(compare_all(&sheet)?));
/// # Ok::<(), hofadiju::Error>(())
/// ```
///
/// # Errors
///
/// As [`compare_all`], and also [`Reason::WorkShort`] and [`Reason::AnswerShort`]. A refusal leaves
/// `answer` untouched.
pub fn compare_all_into(sheet: &[u8], answer: &mut [u8], work: &mut [u32]) -> Result<AllOutcome, Error> {
    let mut result = [0; 3];
    // SAFETY: as in `outcome_by`; this function too reads `sheet`, writes within `answer`, `work` and
    // `result`, and keeps no pointer.
    let number = unsafe {
        ffi::hofadiju_compare_all(
            sheet.as_ptr(),
            sheet.len(),
            answer.as_mut_ptr(),
            answer.len(),
            work.as_mut_ptr(),
            work.len(),
            &mut result,
        )
    };
    let [round, length, place] = result;
    answered(number, place)?;
    Ok(AllOutcome { round, length })
}

impl AllOutcome {
    /// The grouping that stands in the first [`AllOutcome::length`] bytes of `answer`, or `None` where
    /// those bytes are not one.
    pub fn grouping(&self, answer: &[u8]) -> Option<Grouping> {
        grouping::from_bytes(self, answer.get(..self.length)?)
    }
}

/// What [`compare_rounds_into`] and [`compare_rounds_desk_into`] give beside the bytes in the answer slice.
#[non_exhaustive]
#[derive(Clone, Copy, Debug, PartialEq, Eq, Hash)]
pub struct RoundsOutcome {
    /// What is known of the two starts.
    pub verdict: RoundsVerdict,
    /// The number of classes in that round.
    pub classes: usize,
    /// The number of members.
    pub members: usize,
    /// How many bytes of the answer slice the answer takes.
    pub length: usize,
}

/// Compares the starts `left` and `right` of a sheet after so many rounds, from 0; any number is allowed.
/// The set of configurations is that of [`compare`], with its limits.
///
/// The verdict is [`RoundsVerdict::Diff`] if that round has the starts in different classes,
/// [`RoundsVerdict::Same`] if they are together and the next round splits no class of the whole set, and
/// [`RoundsVerdict::Open`] otherwise. A larger number of rounds never turns `Same` or `Diff` into another
/// verdict, and [`compare`] says the same. From the round on in which the refinement comes to rest, the
/// classes are those of [`compare`].
///
/// # Example
///
/// A process of three steps and one of two are told apart by the third round.
///
/// ```
/// use hofadiju::{compare_rounds, RoundsVerdict};
///
/// let mut sheet: Vec<u8> = Vec::new();
/// sheet.push(0); // no facts
/// sheet.push(0); // no rules
/// sheet.push(4); // four nodes
/// sheet.extend_from_slice(&[0, 0, 0, 0, 0]); // node 0: stop
/// sheet.extend_from_slice(&[2, 0, 0, 0, 0]); // node 1: ask nothing, then node 0
/// sheet.extend_from_slice(&[2, 0, 0, 1, 0]); // node 2: ask nothing, then node 1
/// sheet.extend_from_slice(&[2, 0, 0, 2, 0]); // node 3: ask nothing, then node 2
/// sheet.push(2); // two starts at the empty store
/// sheet.extend_from_slice(&[0, 0, 1, 3]); // start 0: node 3
/// sheet.extend_from_slice(&[0, 0, 1, 2]); // start 1: node 2
///
/// let partition = compare_rounds(&sheet, 0, 1, 1)?;
/// assert_eq!(partition.verdict, RoundsVerdict::Open);
/// assert_eq!(partition.classes, 2); // what has stopped, and what has not
/// assert_eq!(partition.to_string(), "OPEN 2 4\n0 0 0 -\n1 0 1 1\n2 0 1 2\n3 0 1 3\n");
///
/// assert_eq!(compare_rounds(&sheet, 0, 1, 2)?.verdict, RoundsVerdict::Open);
/// assert_eq!(compare_rounds(&sheet, 0, 1, 3)?.verdict, RoundsVerdict::Diff);
/// assert_eq!(compare_rounds(&sheet, 0, 1, u64::MAX)?.classes, 4);
/// # Ok::<(), hofadiju::Error>(())
/// ```
///
/// # Errors
///
/// As [`compare`].
pub fn compare_rounds(sheet: &[u8], left: usize, right: usize, rounds: u64) -> Result<Partition, Error> {
    partition_by(ffi::hofadiju_compare_rounds, ROUNDS_ANSWER_BYTES, sheet, (left, right), rounds)
}

/// Compares as [`compare_rounds`] does, within the limits of the quotation desk, which are those of
/// [`compare_desk`]. Where both functions answer, the answers are the same.
///
/// # Errors
///
/// As [`compare_desk`].
pub fn compare_rounds_desk(sheet: &[u8], left: usize, right: usize, rounds: u64) -> Result<Partition, Error> {
    partition_by(ffi::hofadiju_compare_rounds_desk, DESK_ROUNDS_ANSWER_BYTES, sheet, (left, right), rounds)
}

/// The partition of a call for which an answer slice of so many bytes suffices.
fn partition_by(
    call: ffi::RoundsCall,
    room: usize,
    sheet: &[u8],
    starts: (usize, usize),
    rounds: u64,
) -> Result<Partition, Error> {
    let mut answer = vec![0; room];
    let mut work = vec![0; WORK_NUMBERS];
    let outcome = rounds_outcome_by(call, sheet, starts, rounds, &mut answer, &mut work)?;
    outcome.partition(&answer).ok_or(Error::UnknownAnswer { length: outcome.length })
}

/// Compares as [`compare_rounds`] does, and allocates nothing.
///
/// `answer` and `work` are used as by [`compare_into`], and `work` must be as long as there.
/// [`ROUNDS_ANSWER_BYTES`] bytes of `answer` always suffice. [`RoundsOutcome::partition`] takes the bytes
/// apart.
///
/// # Example
///
/// ```
/// use hofadiju::{compare_rounds, compare_rounds_into, ROUNDS_ANSWER_BYTES, WORK_NUMBERS};
///
/// // No facts, no rules, one node, a stop; two starts without threads.
/// let sheet = [0, 0, 1, 0, 0, 0, 0, 0, 2, 0, 0, 0, 0, 0, 0];
/// let mut answer = [0; ROUNDS_ANSWER_BYTES];
/// let mut work = [0; WORK_NUMBERS];
/// let outcome = compare_rounds_into(&sheet, 0, 1, 0, &mut answer, &mut work)?;
/// // One member: its count, store, number of threads and class.
/// assert_eq!(answer[..outcome.length], [1, 0, 0, 0, 0, 0, 0]);
/// assert_eq!(outcome.partition(&answer), Some(compare_rounds(&sheet, 0, 1, 0)?));
/// # Ok::<(), hofadiju::Error>(())
/// ```
///
/// # Errors
///
/// As [`compare_into`]. The place of [`Reason::AnswerShort`] is the length of this answer, which has no
/// trail.
pub fn compare_rounds_into(
    sheet: &[u8],
    left: usize,
    right: usize,
    rounds: u64,
    answer: &mut [u8],
    work: &mut [u32],
) -> Result<RoundsOutcome, Error> {
    rounds_outcome_by(ffi::hofadiju_compare_rounds, sheet, (left, right), rounds, answer, work)
}

/// Compares as [`compare_rounds_desk`] does, and allocates nothing.
///
/// `answer` and `work` are used as by [`compare_into`], and `work` must be as long as there.
/// [`DESK_ROUNDS_ANSWER_BYTES`] bytes of `answer` always suffice.
///
/// # Errors
///
/// As [`compare_desk_into`]. The place of [`Reason::AnswerShort`] is the length of this answer, which has no
/// trail.
pub fn compare_rounds_desk_into(
    sheet: &[u8],
    left: usize,
    right: usize,
    rounds: u64,
    answer: &mut [u8],
    work: &mut [u32],
) -> Result<RoundsOutcome, Error> {
    rounds_outcome_by(ffi::hofadiju_compare_rounds_desk, sheet, (left, right), rounds, answer, work)
}

/// What one of the library's functions gives on these slices.
fn rounds_outcome_by(
    call: ffi::RoundsCall,
    sheet: &[u8],
    (left, right): (usize, usize),
    rounds: u64,
    answer: &mut [u8],
    work: &mut [u32],
) -> Result<RoundsOutcome, Error> {
    let mut result = [0; 5];
    // SAFETY: as in `outcome_by`; these functions too read `sheet`, write within `answer`, `work` and
    // `result`, and keep no pointer.
    let number = unsafe {
        call(
            sheet.as_ptr(),
            sheet.len(),
            left,
            right,
            rounds,
            answer.as_mut_ptr(),
            answer.len(),
            work.as_mut_ptr(),
            work.len(),
            &mut result,
        )
    };
    let [verdict, classes, members, length, place] = result;
    answered(number, place)?;
    let verdict = RoundsVerdict::from_number(verdict)?;
    Ok(RoundsOutcome { verdict, classes, members, length })
}

impl RoundsOutcome {
    /// The partition that stands in the first [`RoundsOutcome::length`] bytes of `answer`, or `None` where
    /// those bytes are not one.
    pub fn partition(&self, answer: &[u8]) -> Option<Partition> {
        partition::from_bytes(self, answer.get(..self.length)?)
    }
}
