//! The C interface, `include/bopkheul.h`. A slice is a pointer and a count.

use crate::refusal::Refusal;
use crate::Answer;

type Words = *const u32;
type Out = *mut u32;

extern "C" {
    pub fn bk_sum(p: u32, value: u32, other: u32) -> u64;
    pub fn bk_difference(p: u32, value: u32, other: u32) -> u64;
    pub fn bk_product(p: u32, value: u32, other: u32) -> u64;
    pub fn bk_inverse(p: u32, value: u32) -> u64;

    pub fn bk_series_sum(
        p: u32,
        n: u32,
        g: Words,
        g_count: usize,
        g_known: u32,
        h: Words,
        h_count: usize,
        h_known: u32,
        out: Out,
        out_count: usize,
    ) -> u64;
    pub fn bk_series_difference(p: u32, n: u32, g: Words, g_count: usize, h: Words, h_count: usize, out: Out, out_count: usize) -> u64;
    pub fn bk_series_product(
        p: u32,
        n: u32,
        g: Words,
        g_count: usize,
        g_known: u32,
        h: Words,
        h_count: usize,
        h_known: u32,
        out: Out,
        out_count: usize,
    ) -> u64;
    pub fn bk_series_quotient(p: u32, n: u32, g: Words, g_count: usize, h: Words, h_count: usize, out: Out, out_count: usize) -> u64;
    pub fn bk_series_inverse(p: u32, n: u32, g: Words, g_count: usize, out: Out, out_count: usize) -> u64;

    pub fn bk_rows_sum(p: u32, d: u32, n: u32, f: Words, f_count: usize, g: Words, g_count: usize, out: Out, out_count: usize) -> u64;
    pub fn bk_rows_difference(p: u32, d: u32, n: u32, f: Words, f_count: usize, g: Words, g_count: usize, out: Out, out_count: usize) -> u64;
    pub fn bk_rows_product(p: u32, d1: u32, d2: u32, n: u32, f: Words, f_count: usize, g: Words, g_count: usize, out: Out, out_count: usize) -> u64;
    pub fn bk_rows_shift(p: u32, d: u32, n: u32, f: Words, f_count: usize, c: u32, out: Out, out_count: usize) -> u64;

    pub fn bk_read(p: u32, n: u32, text: *const u8, text_count: usize, out: Out, out_count: usize) -> u64;

    pub fn bk_pair(p: u32, d: u32, n: u32, f: Words, f_count: usize, h: u32, w: u32, out: Out, out_count: usize) -> u64;

    pub fn bk_sheet_open(
        p: u32,
        d: u32,
        n: u32,
        f: Words,
        f_count: usize,
        lengths: Words,
        lengths_count: usize,
        roots: Words,
        roots_count: usize,
        out: Out,
        out_count: usize,
    ) -> u64;
    pub fn bk_sheet_find(p: u32, d: u32, n: u32, f: Words, f_count: usize, lengths: Words, lengths_count: usize, out: Out, out_count: usize) -> u64;
    pub fn bk_sheet_extend(sheet: Out, sheet_count: usize, w: u32) -> u64;
    pub fn bk_sheet_correct(sheet: Out, sheet_count: usize, j: u32, t: u32, entry: u32) -> u64;
    pub fn bk_sheet_test(sheet: Words, sheet_count: usize) -> u64;
    pub fn bk_sheet_factor(sheet: Words, sheet_count: usize, i: u32, out: Out, out_count: usize) -> u64;
    pub fn bk_sheet_factor_times(sheet: Words, sheet_count: usize, i: u32, e: u32, g: Words, g_count: usize, out: Out, out_count: usize) -> u64;
    pub fn bk_sheet_factor_shift(sheet: Words, sheet_count: usize, i: u32, c: u32, out: Out, out_count: usize) -> u64;
    pub fn bk_sheet_roots(sheet: Words, sheet_count: usize, out: Out, out_count: usize) -> u64;
    pub fn bk_sheet_replay(sheet: Out, sheet_count: usize, calls: Words, calls_count: usize, answers: Out, answers_count: usize) -> u64;

    pub fn bk_counts(p: u32, d: u32, out: Out, out_count: usize) -> u64;

    pub fn bk_list(job: *const u8, job_count: usize, out: *mut u8, out_count: usize) -> u64;
    pub fn bk_list_roots(job: *const u8, job_count: usize, out: *mut u8, out_count: usize) -> u64;
    pub fn bk_key(input: *const u8, input_count: usize, out: *mut u8, out_count: usize) -> u64;
}

/// High half 0 and the answer, or the refusal's number and its detail.
pub fn answer(result: u64) -> Answer {
    let low = result as u32;
    match (result >> 32) as u32 {
        0 => Ok(low),
        number => Err(Refusal { number, detail: low }),
    }
}
