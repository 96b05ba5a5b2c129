//! Holds the library's five calls to the reference, whole: what they return, every byte of the answer
//! slice, every number of the work slice, and guards around all that is lent.

#![allow(dead_code)]

pub mod pair;

use hofadiju as _;
use reference::{fast, plain, Judgement, Limits, Returned};
use sheets::Rng;
use std::fmt::Debug;

extern "C" {
    fn hofadiju_compare(
        sheet: *const u8,
        sheet_len: usize,
        left: usize,
        right: usize,
        answer: *mut u8,
        answer_len: usize,
        work: *mut u32,
        work_len: usize,
        result: *mut usize,
    ) -> u32;

    fn hofadiju_compare_desk(
        sheet: *const u8,
        sheet_len: usize,
        left: usize,
        right: usize,
        answer: *mut u8,
        answer_len: usize,
        work: *mut u32,
        work_len: usize,
        result: *mut usize,
    ) -> u32;

    fn hofadiju_compare_all(
        sheet: *const u8,
        sheet_len: usize,
        answer: *mut u8,
        answer_len: usize,
        work: *mut u32,
        work_len: usize,
        result: *mut usize,
    ) -> u32;

    fn hofadiju_compare_rounds(
        sheet: *const u8,
        sheet_len: usize,
        left: usize,
        right: usize,
        rounds: u64,
        answer: *mut u8,
        answer_len: usize,
        work: *mut u32,
        work_len: usize,
        result: *mut usize,
    ) -> u32;

    fn hofadiju_compare_rounds_desk(
        sheet: *const u8,
        sheet_len: usize,
        left: usize,
        right: usize,
        rounds: u64,
        answer: *mut u8,
        answer_len: usize,
        work: *mut u32,
        work_len: usize,
        result: *mut usize,
    ) -> u32;
}

/// The lengths that document 01 names, the desk's answer, the answer of all starts, and the answers after
/// so many rounds.
pub const ANSWER: usize = 10_237;
pub const DESK_ANSWER: usize = 1_277;
pub const ALL_ANSWER: usize = 6_690;
pub const ROUNDS_ANSWER: usize = 6_658;
pub const DESK_ROUNDS_ANSWER: usize = 834;
pub const WORK: usize = 16_384;

/// What is lent to a call of the library.
pub struct Lent {
    sheet: (*const u8, usize),
    answer: (*mut u8, usize),
    work: (*mut u32, usize),
    result: *mut usize,
}

/// One of the library's calls, which returns `N` numbers, beside the two implementations of it.
pub trait Call<const N: usize> {
    /// The starts that are chosen, and after how many rounds.
    type Choice: Copy + Debug;

    /// The length of an answer slice that always suffices.
    fn answer(&self) -> usize;

    fn plain(&self, sheet: &[u8], choice: Self::Choice) -> Judgement<N>;

    fn fast(
        &self,
        comparer: &mut fast::Comparer,
        sheet: &[u8],
        choice: Self::Choice,
        answer: &mut [u8],
        work: &mut [u32],
    ) -> Returned<N>;

    /// # Safety
    ///
    /// What is lent is valid for its lengths and does not overlap, and `result` has room for `N` numbers.
    unsafe fn library(&self, choice: Self::Choice, lent: Lent) -> u32;
}

/// A call that compares two starts in the end, and its limits.
#[derive(Clone, Copy)]
pub struct CompareTwo {
    function: unsafe extern "C" fn(*const u8, usize, usize, usize, *mut u8, usize, *mut u32, usize, *mut usize) -> u32,
    limits: Limits,
    answer: usize,
}

const DOCUMENT: CompareTwo = CompareTwo { function: hofadiju_compare, limits: Limits::DOCUMENT, answer: ANSWER };
const DESK: CompareTwo = CompareTwo { function: hofadiju_compare_desk, limits: Limits::DESK, answer: DESK_ANSWER };

impl Call<6> for CompareTwo {
    /// The left and the right start.
    type Choice = (usize, usize);

    fn answer(&self) -> usize {
        self.answer
    }

    fn plain(&self, sheet: &[u8], (left, right): (usize, usize)) -> Judgement {
        plain::judge(self.limits, sheet, left, right)
    }

    fn fast(
        &self,
        comparer: &mut fast::Comparer,
        sheet: &[u8],
        (left, right): (usize, usize),
        answer: &mut [u8],
        work: &mut [u32],
    ) -> Returned {
        comparer.compare(self.limits, sheet, left, right, answer, work)
    }

    unsafe fn library(&self, (left, right): (usize, usize), lent: Lent) -> u32 {
        let Lent { sheet, answer, work, result } = lent;
        (self.function)(sheet.0, sheet.1, left, right, answer.0, answer.1, work.0, work.1, result)
    }
}

/// The call that compares all starts.
#[derive(Clone, Copy)]
pub struct CompareAll;

/// The only choice where all starts are compared.
#[derive(Clone, Copy, Debug)]
pub struct EveryStart;

impl Call<3> for CompareAll {
    type Choice = EveryStart;

    fn answer(&self) -> usize {
        ALL_ANSWER
    }

    fn plain(&self, sheet: &[u8], _: EveryStart) -> Judgement<3> {
        plain::judge_all(Limits::DOCUMENT, sheet)
    }

    fn fast(
        &self,
        comparer: &mut fast::Comparer,
        sheet: &[u8],
        _: EveryStart,
        answer: &mut [u8],
        work: &mut [u32],
    ) -> Returned<3> {
        comparer.compare_all(Limits::DOCUMENT, sheet, answer, work)
    }

    unsafe fn library(&self, _: EveryStart, lent: Lent) -> u32 {
        let Lent { sheet, answer, work, result } = lent;
        hofadiju_compare_all(sheet.0, sheet.1, answer.0, answer.1, work.0, work.1, result)
    }
}

/// A call that compares two starts after so many rounds, and its limits.
#[derive(Clone, Copy)]
pub struct CompareRounds {
    function:
        unsafe extern "C" fn(*const u8, usize, usize, usize, u64, *mut u8, usize, *mut u32, usize, *mut usize) -> u32,
    limits: Limits,
    answer: usize,
}

const ROUNDS: CompareRounds =
    CompareRounds { function: hofadiju_compare_rounds, limits: Limits::DOCUMENT, answer: ROUNDS_ANSWER };
const ROUNDS_DESK: CompareRounds =
    CompareRounds { function: hofadiju_compare_rounds_desk, limits: Limits::DESK, answer: DESK_ROUNDS_ANSWER };

impl Call<5> for CompareRounds {
    /// The left and the right start, and the number of rounds.
    type Choice = (usize, usize, u64);

    fn answer(&self) -> usize {
        self.answer
    }

    fn plain(&self, sheet: &[u8], (left, right, rounds): (usize, usize, u64)) -> Judgement<5> {
        plain::judge_rounds(self.limits, sheet, left, right, rounds)
    }

    fn fast(
        &self,
        comparer: &mut fast::Comparer,
        sheet: &[u8],
        (left, right, rounds): (usize, usize, u64),
        answer: &mut [u8],
        work: &mut [u32],
    ) -> Returned<5> {
        comparer.compare_rounds(self.limits, sheet, (left, right), rounds, answer, work)
    }

    unsafe fn library(&self, (left, right, rounds): (usize, usize, u64), lent: Lent) -> u32 {
        let Lent { sheet, answer, work, result } = lent;
        (self.function)(sheet.0, sheet.1, left, right, rounds, answer.0, answer.1, work.0, work.1, result)
    }
}

/// Bytes or numbers before and after each lent slice.
const GUARD: usize = 64;

/// What stands before and after the result's numbers.
const RESULT_GUARD: usize = usize::MAX - 7;

/// The slices of one call inside their guards, and what must stand in them afterwards.
pub struct Harness<C = CompareTwo, const N: usize = 6> {
    call: C,
    comparer: fast::Comparer,
    sheet: Vec<u8>,
    answer: Vec<u8>,
    expected_answer: Vec<u8>,
    work: Vec<u32>,
    expected_work: Vec<u32>,
    dirt: Vec<u32>,
    rng: Rng,
    /// How many comparisons gave each number.
    pub seen: [usize; 24],
    /// How many calls of the library were held.
    pub calls: usize,
    /// The longest answer in bytes.
    pub longest: usize,
}

impl Harness {
    /// For document 01's call.
    pub fn new(seed: u64) -> Harness {
        Harness::of(DOCUMENT, seed)
    }

    /// For the desk's call.
    pub fn desk(seed: u64) -> Harness {
        Harness::of(DESK, seed)
    }

    /// The number and the place that a sheet's starts 0 and 1 give, held to the reference.
    pub fn number(&mut self, sheet: &[u8]) -> (u32, usize) {
        let (number, result) = self.compare_with_all_lengths(sheet, (0, 1));
        (number, result[5])
    }
}

impl Harness<CompareAll, 3> {
    /// For the call that compares all starts.
    pub fn all(seed: u64) -> Harness<CompareAll, 3> {
        Harness::of(CompareAll, seed)
    }

    /// The number and the place that all starts of a sheet give, held to the reference.
    pub fn number(&mut self, sheet: &[u8]) -> (u32, usize) {
        let (number, result) = self.compare_with_all_lengths(sheet, EveryStart);
        (number, result[2])
    }
}

impl Harness<CompareRounds, 5> {
    /// For the call that compares after so many rounds.
    pub fn rounds(seed: u64) -> Harness<CompareRounds, 5> {
        Harness::of(ROUNDS, seed)
    }

    /// For the desk's call that does so.
    pub fn rounds_desk(seed: u64) -> Harness<CompareRounds, 5> {
        Harness::of(ROUNDS_DESK, seed)
    }

    /// The number and the place that a sheet's starts 0 and 1 give, held to the reference.
    pub fn number(&mut self, sheet: &[u8], rounds: u64) -> (u32, usize) {
        let (number, result) = self.compare_with_all_lengths(sheet, (0, 1, rounds));
        (number, result[4])
    }
}

impl<C: Call<N>, const N: usize> Harness<C, N> {
    fn of(call: C, seed: u64) -> Harness<C, N> {
        let mut rng = Rng::new(seed);
        let dirt = (0..WORK + 4_096).map(|_| rng.number() as u32).collect();
        Harness {
            call,
            comparer: fast::Comparer::new(),
            sheet: vec![],
            answer: vec![],
            expected_answer: vec![],
            work: vec![],
            expected_work: vec![],
            dirt,
            rng,
            seen: [0; 24],
            calls: 0,
            longest: 0,
        }
    }

    /// The length of an answer slice that always suffices.
    pub fn room(&self) -> usize {
        self.call.answer()
    }

    /// What the two implementations say, where they agree. No answer is longer than the answer slice
    /// that always suffices.
    pub fn judge(&mut self, sheet: &[u8], choice: C::Choice) -> Judgement<N> {
        let answer = self.call.answer();
        let judgement = self.call.plain(sheet, choice);
        self.answer.clear();
        self.answer.resize(answer, 0x5A);
        self.work.clear();
        self.work.resize(WORK, 1);
        let returned = self.call.fast(&mut self.comparer, sheet, choice, &mut self.answer, &mut self.work);
        assert_eq!(returned, judgement.returned(answer, WORK), "the implementations: {choice:?} {sheet:?}");
        if let Judgement::Answer { bytes, .. } = &judgement {
            assert!(bytes.len() <= answer, "an answer of {} bytes: {choice:?} {sheet:?}", bytes.len());
            assert_eq!(&self.answer[..bytes.len()], bytes, "the implementations: {choice:?} {sheet:?}");
            self.longest = self.longest.max(bytes.len());
        }
        judgement
    }

    /// One call of the library with slices of these lengths, held to the judgement.
    pub fn hold(
        &mut self,
        judgement: &Judgement<N>,
        sheet: &[u8],
        choice: C::Choice,
        answer_len: usize,
        work_len: usize,
    ) -> Returned<N> {
        self.fill(sheet, answer_len, work_len);
        let answer = &mut self.expected_answer[GUARD..GUARD + answer_len];
        let expected = judgement.call(answer, &mut self.expected_work[GUARD..GUARD + work_len]);
        let (number, result) = self.invoke(sheet.len(), choice, answer_len, work_len);
        let returned = (number, result[1..=N].try_into().unwrap());
        let context = || format!("starts {choice:?}, lengths {answer_len} {work_len}, sheet {sheet:?}");
        assert_eq!(returned, expected, "returned: {}", context());
        assert!(result[0] == RESULT_GUARD && result[N + 1] == RESULT_GUARD, "result's guards: {}", context());
        assert!(self.answer == self.expected_answer, "answer slice: {}", context());
        assert!(self.work == self.expected_work, "work slice: {}", context());
        assert_eq!(&self.sheet[GUARD..GUARD + sheet.len()], sheet, "sheet: {}", context());
        self.calls += 1;
        returned
    }

    /// One call of the library on the filled buffers, with slices of these lengths: its number, and the
    /// result inside its guards.
    fn invoke(&mut self, sheet_len: usize, choice: C::Choice, answer_len: usize, work_len: usize) -> (u32, Vec<usize>) {
        let mut result = vec![RESULT_GUARD; N + 2];
        let lent = Lent {
            sheet: (self.sheet[GUARD..].as_ptr(), sheet_len),
            answer: (self.answer[GUARD..].as_mut_ptr(), answer_len),
            work: (self.work[GUARD..].as_mut_ptr(), work_len),
            result: result[1..].as_mut_ptr(),
        };
        // SAFETY: the pointers and lengths are those of parts of four vectors, which do not overlap.
        let number = unsafe { self.call.library(choice, lent) };
        (number, result)
    }

    /// One call of the library that is held to nothing, with an answer slice of this length: what it returns,
    /// and the answer's bytes where there is one.
    pub fn alone(&mut self, sheet: &[u8], choice: C::Choice, answer_len: usize) -> (Returned<N>, &[u8]) {
        self.fill(sheet, answer_len, WORK);
        let (number, result) = self.invoke(sheet.len(), choice, answer_len, WORK);
        let numbers: [usize; N] = result[1..=N].try_into().unwrap();
        // The last number but one is the length.
        let length = if number == 0 { numbers[N - 2] } else { 0 };
        ((number, numbers), &self.answer[GUARD..GUARD + length])
    }

    /// Guards and dirt in every buffer, the sheet in its own.
    fn fill(&mut self, sheet: &[u8], answer_len: usize, work_len: usize) {
        let salt = self.rng.number();
        self.sheet.clear();
        self.sheet.resize(GUARD, salt as u8);
        self.sheet.extend_from_slice(sheet);
        self.sheet.resize(2 * GUARD + sheet.len(), (salt >> 8) as u8);
        self.answer.clear();
        self.answer.resize(2 * GUARD + answer_len, (salt >> 16) as u8);
        self.expected_answer.clone_from(&self.answer);
        let from = (salt >> 24) as usize % 1_024;
        self.work.clear();
        self.work.extend_from_slice(&self.dirt[from..from + 2 * GUARD + work_len]);
        self.expected_work.clone_from(&self.work);
    }

    /// What the last call left in the answer slice and in the work slice, guards and all.
    pub fn left_behind(&self) -> (&[u8], &[u32]) {
        (&self.answer, &self.work)
    }

    /// The library on a sheet and a choice, with slices as long as they ever need to be.
    pub fn compare(&mut self, sheet: &[u8], choice: C::Choice) -> Returned<N> {
        let judgement = self.judge(sheet, choice);
        let returned = self.hold(&judgement, sheet, choice, self.call.answer(), WORK);
        self.seen[returned.0 as usize] += 1;
        returned
    }

    /// As `compare`, and with slices of lengths around those that the call needs.
    pub fn compare_with_all_lengths(&mut self, sheet: &[u8], choice: C::Choice) -> Returned<N> {
        let judgement = self.judge(sheet, choice);
        let needed = match &judgement {
            Judgement::Answer { bytes, .. } => bytes.len(),
            _ => 100,
        };
        for answer_len in [0, needed - 1, needed, needed + 1, self.call.answer()] {
            self.hold(&judgement, sheet, choice, answer_len, WORK);
        }
        for work_len in [0, WORK - 1, WORK + 1, WORK + 777] {
            self.hold(&judgement, sheet, choice, needed, work_len);
            self.hold(&judgement, sheet, choice, needed - 1, work_len);
        }
        let returned = judgement.returned(self.call.answer(), WORK);
        self.seen[returned.0 as usize] += 1;
        returned
    }

    pub fn total(&self) -> usize {
        self.seen.iter().sum()
    }
}
