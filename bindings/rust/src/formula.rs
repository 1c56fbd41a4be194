//! Polynomials as they are typed, and answer keys of them.

use crate::listing::whole;
use crate::raw::{answer, bk_key, bk_read};
use crate::Answer;

/// Reads a formula, and writes the rows of what it comes to modulo p and X^n: rows 0 to its degree in Y, each of `n` words. The answer is that degree, which is 0 for
/// the polynomial 0. As no degree is above 32, `33 * n` words are always enough.
///
/// A sum is terms with `+` or `-` between them, and perhaps one sign before the first; a term is powers with `*` between them; a power is an element, or an element, `^`
/// and a number up to 255; an element is a number of 1 to 9 decimal digits, `X`, `Y`, or a sum in brackets. Blanks may stand anywhere but inside a number. So `-Y^2`
/// is −(Y²), and neither `2Y` nor `Y^2^3` nor `2*-3` can be read. Anything to the power 0 is 1.
///
/// ```
/// use bopkheul::{formula, Sheet};
///
/// // Y³ + 3Y² − 3XY − 3X modulo 7, three terms
/// let mut out = [0; 33 * 3];
/// let degree = formula::read(7, 3, "(Y^2-X)*(Y+3) - 2*X*Y", &mut out)?;
/// let rows = &out[..(degree as usize + 1) * 3];
/// assert_eq!(rows, [0, 4, 0, /* Y */ 0, 4, 0, /* Y² */ 3, 0, 0, /* Y³ */ 1, 0, 0]);
///
/// let sheet = Sheet::find_known(7, degree, 3, rows)?;
/// assert_eq!((sheet.factor(0)?.root, sheet.factor(0)?.power), (0, 2)); // at X = 0 it is Y² (Y + 3)
/// # Ok::<(), bopkheul::Refusal>(())
/// ```
///
/// # Errors
///
/// Refused by 1, 2, 4, 17, 18, 19 or 10, in this order. 17 is for a text that is no such sum, or has more than 4,096 bytes; 18 for brackets that are more than 32 deep;
/// 19 for a formula some part of which has a degree above 32 in Y. The parts are: each element; where it is raised to a power, that power and all lower ones from 1 up;
/// the product of each term's first factors, and the sum of each sum's first terms, however many. Each counts by its value modulo p and X^n, also where it cancels later.
pub fn read(p: u32, n: u32, text: impl AsRef<[u8]>, out: &mut [u32]) -> Answer {
    let text = text.as_ref();
    // SAFETY: each pointer goes with the count of its slice, and `out` does not overlap the text.
    answer(unsafe { bk_read(p, n, text.as_ptr(), text.len(), out.as_mut_ptr(), out.len()) })
}

/// Writes the answer key of typed lines, which for lines that are refused is one line, `refused NUMBER DETAIL`. The answer is the number of bytes; 9,216 are always enough.
/// What the lines are, and what they are refused by, is said at [`key_text`].
///
/// # Errors
///
/// Refused by 10 alone, where `out` is too short for the key.
pub fn key(input: impl AsRef<[u8]>, out: &mut [u8]) -> Answer {
    let input = input.as_ref();
    // SAFETY: each pointer goes with the count of its slice, and `out` does not overlap the input.
    answer(unsafe { bk_key(input.as_ptr(), input.len(), out.as_mut_ptr(), out.len()) })
}

/// The answer key of typed lines. The first is `MODULUS TERMS`, two numbers of 1 to 9 decimal digits with blanks between them and perhaps around them; what comes after its
/// line feed is a polynomial as [`read`] takes it, at whose very end one line feed may stand. The key is the listing, as [`crate::listing`] has it, of the job with the
/// rows of this polynomial and without roots, which are found.
///
/// ```
/// let text = bopkheul::formula::key_text("7 1\nY^2 - 1 - X\n");
/// assert_eq!(text, b"mod 7 terms 1 degree 2 factors 2\nroot 1 power 1\nY^0: 6\nroot 6 power 1\nY^0: 1\n");
///
/// assert_eq!(bopkheul::formula::key_text("7 1\nY^2 + 1 - X\n"), b"refused 9 0\n");
/// ```
///
/// The refusals are 17 where there are more than 4,160 bytes or the first line is another; then 1, 2, 4 where the terms are outside 1..64, 17, 18, 19, 3 where the degree
/// is outside 1..12, 7 or 9, in this order.
pub fn key_text(input: impl AsRef<[u8]>) -> Vec<u8> {
    whole(|out| key(input.as_ref(), out))
}
