//! Series of `n` words. Every call that is accepted writes `n` words to the front of `out`. The answer is `n`; but for a quotient by a series that begins with 0 it
//! is how many of them are known.
//!
//! Sum and product are told how many terms of each operand are known, from 1 to `n`; the operand's words past these are 0. As many terms as the lesser of the two
//! counts are known in both: these are those of the sum or product, and 0 stands after them.

use crate::raw::{answer, bk_series_difference, bk_series_inverse, bk_series_product, bk_series_quotient, bk_series_sum};
use crate::Answer;

/// g + h, of which `g_known` and `h_known` terms are known.
///
/// # Errors
///
/// Refused by 1, 2, 4, 5, 6, 21 or 10, in this order.
pub fn sum(p: u32, n: u32, g: &[u32], g_known: u32, h: &[u32], h_known: u32, out: &mut [u32]) -> Answer {
    // SAFETY: each pointer goes with the count of its slice, and `out` overlaps neither input.
    answer(unsafe { bk_series_sum(p, n, g.as_ptr(), g.len(), g_known, h.as_ptr(), h.len(), h_known, out.as_mut_ptr(), out.len()) })
}

/// g − h.
///
/// # Errors
///
/// Refused by 1, 2, 4, 5, 6 or 10.
pub fn difference(p: u32, n: u32, g: &[u32], h: &[u32], out: &mut [u32]) -> Answer {
    // SAFETY: each pointer goes with the count of its slice, and `out` overlaps neither input.
    answer(unsafe { bk_series_difference(p, n, g.as_ptr(), g.len(), h.as_ptr(), h.len(), out.as_mut_ptr(), out.len()) })
}

/// g · h, of which `g_known` and `h_known` terms are known.
///
/// ```
/// use bopkheul::series::product;
///
/// // (3 + 5X + ..) (1 + X + 6X²) modulo 7: of the third term nothing is known
/// let mut out = [9; 3];
/// assert_eq!(product(7, 3, &[3, 5, 0], 2, &[1, 1, 6], 3, &mut out), Ok(3));
/// assert_eq!(out, [3, 1, 0]);
/// // where 3 + 5X is all of it
/// assert_eq!(product(7, 3, &[3, 5, 0], 3, &[1, 1, 6], 3, &mut out), Ok(3));
/// assert_eq!(out, [3, 1, 2]);
/// ```
///
/// # Errors
///
/// Refused by 1, 2, 4, 5, 6, 21 or 10, in this order.
pub fn product(p: u32, n: u32, g: &[u32], g_known: u32, h: &[u32], h_known: u32, out: &mut [u32]) -> Answer {
    // SAFETY: each pointer goes with the count of its slice, and `out` overlaps neither input.
    answer(unsafe { bk_series_product(p, n, g.as_ptr(), g.len(), g_known, h.as_ptr(), h.len(), h_known, out.as_mut_ptr(), out.len()) })
}

/// g / h. The divisor may begin with zeros, e of them, if it is not 0 and g begins with as many.
///
/// The answer is the number of terms that are known, `n − e`; 0 stands after them. Their product with h is g.
///
/// ```
/// // X + X² by X, modulo 7, to 3 terms: 1 + X, and of the third term nothing is known
/// let mut out = [0; 3];
/// assert_eq!(bopkheul::series::quotient(7, 3, &[0, 1, 1], &[0, 1, 0], &mut out), Ok(2));
/// assert_eq!(out, [1, 1, 0]);
/// ```
///
/// # Errors
///
/// Refused by 1, 2, 4, 5, 6, 10 or 12.
pub fn quotient(p: u32, n: u32, g: &[u32], h: &[u32], out: &mut [u32]) -> Answer {
    // SAFETY: each pointer goes with the count of its slice, and `out` overlaps neither input.
    answer(unsafe { bk_series_quotient(p, n, g.as_ptr(), g.len(), h.as_ptr(), h.len(), out.as_mut_ptr(), out.len()) })
}

/// 1 / g, where g is not 0 at X = 0.
///
/// # Errors
///
/// Refused by 1, 2, 4, 5, 6, 10 or 12.
pub fn inverse(p: u32, n: u32, g: &[u32], out: &mut [u32]) -> Answer {
    // SAFETY: each pointer goes with the count of its slice, and `out` does not overlap the input.
    answer(unsafe { bk_series_inverse(p, n, g.as_ptr(), g.len(), out.as_mut_ptr(), out.len()) })
}
