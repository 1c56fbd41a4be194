//! Row polynomials of degree bound `d`: `d + 1` rows of `n` words. The answer is the number of words written to the front of `out`.

use crate::raw::{answer, bk_rows_difference, bk_rows_product, bk_rows_shift, bk_rows_sum};
use crate::Answer;

/// f + g.
///
/// # Errors
///
/// Refused by 1, 2, 3, 4, 5, 6 or 10.
pub fn sum(p: u32, d: u32, n: u32, f: &[u32], g: &[u32], out: &mut [u32]) -> Answer {
    // SAFETY: each pointer goes with the count of its slice, and `out` overlaps neither input.
    answer(unsafe { bk_rows_sum(p, d, n, f.as_ptr(), f.len(), g.as_ptr(), g.len(), out.as_mut_ptr(), out.len()) })
}

/// f − g.
///
/// # Errors
///
/// Refused by 1, 2, 3, 4, 5, 6 or 10.
pub fn difference(p: u32, d: u32, n: u32, f: &[u32], g: &[u32], out: &mut [u32]) -> Answer {
    // SAFETY: each pointer goes with the count of its slice, and `out` overlaps neither input.
    answer(unsafe { bk_rows_difference(p, d, n, f.as_ptr(), f.len(), g.as_ptr(), g.len(), out.as_mut_ptr(), out.len()) })
}

/// f · g, f of degree bound `d1` and g of degree bound `d2`.
///
/// # Errors
///
/// Refused by 1, 2, 3, 4, 5, 6 or 10; by 3 also where `d1 + d2` is above 32.
pub fn product(p: u32, d1: u32, d2: u32, n: u32, f: &[u32], g: &[u32], out: &mut [u32]) -> Answer {
    // SAFETY: each pointer goes with the count of its slice, and `out` overlaps neither input.
    answer(unsafe { bk_rows_product(p, d1, d2, n, f.as_ptr(), f.len(), g.as_ptr(), g.len(), out.as_mut_ptr(), out.len()) })
}

/// f(Y + c).
///
/// So a variant of an exercise is made, with Y + c for Y: its roots are those of f less c, and its factors those of f, each shifted with its leading 1.
///
/// ```
/// use bopkheul::{rows, Sheet};
///
/// // Y² − 1 − X modulo 7, whose roots are 1 and 6, with Y + 2 for Y: Y² + 4Y + 3 − X
/// let f = [6, 6, 0, /* Y */ 0, 0, 0, /* Y² */ 1, 0, 0];
/// let mut moved = [0; 9];
/// rows::shift(7, 2, 3, &f, 2, &mut moved)?;
/// assert_eq!(moved, [3, 6, 0, /* Y */ 4, 0, 0, /* Y² */ 1, 0, 0]);
///
/// // the roots less 2, in rising order
/// let mut variant = Sheet::open_known(7, 2, 3, &moved, &[4, 6])?;
/// variant.extend(3)?;
///
/// // the factor of root 6 was Y + 1 + 4X + 6X²
/// assert_eq!(variant.factor(0)?.row(0), [3, 4, 6]);
/// # Ok::<(), bopkheul::Refusal>(())
/// ```
///
/// # Errors
///
/// Refused by 1, 2, 3, 4, 5, 6 or 10.
pub fn shift(p: u32, d: u32, n: u32, f: &[u32], c: u32, out: &mut [u32]) -> Answer {
    // SAFETY: each pointer goes with the count of its slice, and `out` does not overlap the input.
    answer(unsafe { bk_rows_shift(p, d, n, f.as_ptr(), f.len(), c, out.as_mut_ptr(), out.len()) })
}
