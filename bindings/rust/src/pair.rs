//! The Weierstrass pair f = P · A: P monic, its degree the order of f, and A a unit at X = 0, Y = 0. The answer is the order. `out` has `d + 1` rows: P's
//! below its leading 1, then A's.

use crate::raw::{answer, bk_pair};
use crate::Answer;

/// The pair to `w` terms. With `h = 0` it starts: whatever `out` holds is ignored, all rows are written, and columns from `w` up are 0. With `h ≥ 1` it goes on
/// from the pair to `h` terms, which `out` holds: only columns `h` to `w − 1` change.
///
/// ```
/// use bopkheul::pair::pair;
///
/// // X + Y + Y² modulo 5, of order 1: two terms, and then two more.
/// let f = [0, 1, 0, 0, /* Y */ 1, 0, 0, 0, /* Y² */ 1, 0, 0, 0];
/// let mut out = [9; 12];
/// assert_eq!(pair(5, 2, 4, &f, 0, 2, &mut out), Ok(1));
/// assert_eq!(out, [0, 1, 0, 0, 1, 4, 0, 0, 1, 0, 0, 0]);
/// assert_eq!(pair(5, 2, 4, &f, 2, 4, &mut out), Ok(1));
/// assert_eq!(out, [0, 1, 1, 2, /* A */ 1, 4, 4, 3, 1, 0, 0, 0]);
/// ```
///
/// # Errors
///
/// Refused by 1, 2, 3, 4, 5, 6, 10, 11, 13, 14 or 15; by 13 where `h` is above `n`, or is 1 or more and `out` does not hold the pair to `h` terms.
pub fn pair(p: u32, d: u32, n: u32, f: &[u32], h: u32, w: u32, out: &mut [u32]) -> Answer {
    // SAFETY: each pointer goes with the count of its slice, and `out` does not overlap the input.
    answer(unsafe { bk_pair(p, d, n, f.as_ptr(), f.len(), h, w, out.as_mut_ptr(), out.len()) })
}
