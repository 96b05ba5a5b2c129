//! The library's functions as include/hofadiju.h declares them.

/// One of the library's two functions that compare two starts in the end.
pub(crate) type Call =
    unsafe extern "C" fn(*const u8, usize, usize, usize, *mut u8, usize, *mut u32, usize, *mut [usize; 6]) -> u32;

/// One of the library's two functions that compare two starts after so many rounds.
pub(crate) type RoundsCall =
    unsafe extern "C" fn(*const u8, usize, usize, usize, u64, *mut u8, usize, *mut u32, usize, *mut [usize; 5]) -> u32;

extern "C" {
    pub(crate) fn hofadiju_version() -> u32;

    pub(crate) fn hofadiju_compare(
        sheet: *const u8,
        sheet_len: usize,
        left: usize,
        right: usize,
        answer: *mut u8,
        answer_len: usize,
        work: *mut u32,
        work_len: usize,
        result: *mut [usize; 6],
    ) -> u32;

    pub(crate) fn hofadiju_compare_desk(
        sheet: *const u8,
        sheet_len: usize,
        left: usize,
        right: usize,
        answer: *mut u8,
        answer_len: usize,
        work: *mut u32,
        work_len: usize,
        result: *mut [usize; 6],
    ) -> u32;

    pub(crate) fn hofadiju_compare_all(
        sheet: *const u8,
        sheet_len: usize,
        answer: *mut u8,
        answer_len: usize,
        work: *mut u32,
        work_len: usize,
        result: *mut [usize; 3],
    ) -> u32;

    pub(crate) fn hofadiju_compare_rounds(
        sheet: *const u8,
        sheet_len: usize,
        left: usize,
        right: usize,
        rounds: u64,
        answer: *mut u8,
        answer_len: usize,
        work: *mut u32,
        work_len: usize,
        result: *mut [usize; 5],
    ) -> u32;

    pub(crate) fn hofadiju_compare_rounds_desk(
        sheet: *const u8,
        sheet_len: usize,
        left: usize,
        right: usize,
        rounds: u64,
        answer: *mut u8,
        answer_len: usize,
        work: *mut u32,
        work_len: usize,
        result: *mut [usize; 5],
    ) -> u32;
}
