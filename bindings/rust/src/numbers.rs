//! Numbers modulo `p`. The answer is the number.

use crate::raw::{answer, bk_difference, bk_inverse, bk_product, bk_sum};
use crate::Answer;

/// value + other.
///
/// # Errors
///
/// Refused by 1, 2 or 6.
pub fn sum(p: u32, value: u32, other: u32) -> Answer {
    // SAFETY: it takes numbers only, and any numbers.
    answer(unsafe { bk_sum(p, value, other) })
}

/// value − other.
///
/// # Errors
///
/// Refused by 1, 2 or 6.
pub fn difference(p: u32, value: u32, other: u32) -> Answer {
    // SAFETY: it takes numbers only, and any numbers.
    answer(unsafe { bk_difference(p, value, other) })
}

/// value · other.
///
/// # Errors
///
/// Refused by 1, 2 or 6.
pub fn product(p: u32, value: u32, other: u32) -> Answer {
    // SAFETY: it takes numbers only, and any numbers.
    answer(unsafe { bk_product(p, value, other) })
}

/// 1 / value, where value is not 0.
///
/// # Errors
///
/// Refused by 1, 2, 6 or 12.
pub fn inverse(p: u32, value: u32) -> Answer {
    // SAFETY: it takes numbers only, and any numbers.
    answer(unsafe { bk_inverse(p, value) })
}
