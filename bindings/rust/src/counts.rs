//! How often polynomials split whose coefficients are drawn by lot.

use crate::raw::{answer, bk_counts};
use crate::Answer;

/// Of the p^d monic polynomials in Y of degree `d` over F_p, word 0 counts those that do not split into lines Y − c, and word r, from 1 to `d`, those that do and have
/// exactly r distinct roots. All words together are p^d; the answer is their number, `d + 1`.
///
/// So where coefficients at X = 0 are drawn by lot, a share of 1 − `out[0]` / p^d of the polynomials splits, and a share of `out[d]` / p^d has `d` distinct roots, all
/// simple.
///
/// ```
/// use bopkheul::counts::counts;
///
/// // of the nine quadratics modulo 3 three do not split, three have one root twice, and three have two roots
/// let mut out = [0; 3];
/// assert_eq!(counts(3, 2, &mut out), Ok(3));
/// assert_eq!(out, [3, 3, 3]);
///
/// // of the 343 cubics modulo 7 one in four splits, and one in ten has three distinct roots
/// let mut out = [0; 4];
/// assert_eq!(counts(7, 3, &mut out), Ok(4));
/// assert_eq!(out, [259, 7, 42, 35]);
/// ```
///
/// # Errors
///
/// Refused by 1, 2, 3, 24 or 10, in this order; by 3 where `d` is 0 or above 32, and by 24 where p^d is above 65,536.
pub fn counts(p: u32, d: u32, out: &mut [u32]) -> Answer {
    // SAFETY: pointer and count are those of one slice.
    answer(unsafe { bk_counts(p, d, out.as_mut_ptr(), out.len()) })
}
