//! A call at document 01's limits beside the same call at the desk's.

use super::{Call, CompareRounds, CompareTwo, Harness, WORK};
use reference::{Judgement, Returned};

/// How often each case occurred.
#[derive(Debug, Default)]
pub struct Cases {
    pub both_answer: usize,
    /// The desk gives 21, the other call answers.
    pub desk_21_beside_answer: usize,
    /// The desk gives 21, the other call 22.
    pub desk_21_beside_22: usize,
    pub both_21: usize,
    pub both_22: usize,
    /// Any other refusal, of both alike.
    pub other_refusals: usize,
}

/// Both calls, with the same dirt in what they are lent.
pub struct Pair<C = CompareTwo, const N: usize = 6> {
    pub document: Harness<C, N>,
    pub desk: Harness<C, N>,
    pub cases: Cases,
}

/// What the reference says of a sheet and a choice, at document 01's limits and at the desk's.
pub struct Judged<'a, T, const N: usize> {
    sheet: &'a [u8],
    choice: T,
    pub document: Judgement<N>,
    pub desk: Judgement<N>,
}

impl<T, const N: usize> Judged<'_, T, N> {
    /// The length of the longer answer, or some length where there is none.
    fn needed(&self) -> usize {
        match &self.document {
            Judgement::Answer { bytes, .. } => bytes.len(),
            _ => 100,
        }
    }
}

impl Pair {
    /// The calls that compare two starts in the end.
    pub fn new(seed: u64) -> Pair {
        Pair { document: Harness::new(seed), desk: Harness::desk(seed), cases: Cases::default() }
    }
}

impl Pair<CompareRounds, 5> {
    /// The calls that compare two starts after so many rounds.
    pub fn rounds(seed: u64) -> Pair<CompareRounds, 5> {
        Pair { document: Harness::rounds(seed), desk: Harness::rounds_desk(seed), cases: Cases::default() }
    }
}

impl<C: Call<N>, const N: usize> Pair<C, N> {
    pub fn judge<'a>(&mut self, sheet: &'a [u8], choice: C::Choice) -> Judged<'a, C::Choice, N> {
        let document = self.document.judge(sheet, choice);
        let desk = self.desk.judge(sheet, choice);
        Judged { sheet, choice, document, desk }
    }

    /// Both calls with slices of these lengths, each held to its judgement and the one to the other;
    /// gives what the desk and what the other call returned.
    pub fn hold(
        &mut self,
        judged: &Judged<C::Choice, N>,
        answer_len: usize,
        work_len: usize,
    ) -> (Returned<N>, Returned<N>) {
        let Judged { sheet, choice, .. } = *judged;
        let other = self.document.hold(&judged.document, sheet, choice, answer_len, work_len);
        let desk = self.desk.hold(&judged.desk, sheet, choice, answer_len, work_len);
        let context = || format!("{choice:?}, lengths {answer_len} {work_len}, sheet {sheet:?}");
        // The desk may give 21 beside an answer and beside 22. All else is the same.
        let numbers = (desk.0, other.0);
        assert!(desk == other || matches!(numbers, (21, 0 | 22)), "{desk:?} {other:?}: {}", context());
        let (desk_answer, desk_work) = self.desk.left_behind();
        let (other_answer, other_work) = self.document.left_behind();
        assert!(desk_answer == other_answer || numbers == (21, 0), "answer slices: {}", context());
        assert!(desk_work == other_work, "work slices: {}", context());
        let case = match numbers {
            (0, 0) => &mut self.cases.both_answer,
            (21, 0) => &mut self.cases.desk_21_beside_answer,
            (21, 22) => &mut self.cases.desk_21_beside_22,
            (21, _) => &mut self.cases.both_21,
            (22, _) => &mut self.cases.both_22,
            _ => &mut self.cases.other_refusals,
        };
        *case += 1;
        (desk, other)
    }

    /// Both calls with answer slices that suffice for the other call and for the desk.
    pub fn compare(&mut self, sheet: &[u8], choice: C::Choice) -> (Returned<N>, Returned<N>) {
        let judged = self.judge(sheet, choice);
        self.hold(&judged, self.desk.room(), WORK);
        self.hold(&judged, self.document.room(), WORK)
    }

    /// As `compare`, and with slices of lengths around those that either call needs.
    pub fn compare_with_all_lengths(&mut self, sheet: &[u8], choice: C::Choice) -> (Returned<N>, Returned<N>) {
        self.desk.compare_with_all_lengths(sheet, choice);
        self.document.compare_with_all_lengths(sheet, choice);
        let judged = self.judge(sheet, choice);
        let needed = judged.needed();
        for answer_len in [0, needed - 1, needed] {
            self.hold(&judged, answer_len, WORK);
            self.hold(&judged, answer_len, WORK - 1);
        }
        self.compare(sheet, choice)
    }
}
