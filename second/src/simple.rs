//! Roots as series. A simple root of f at X = 0 is where one root of f itself begins, and Newton's iteration works it out from f and the number alone: no factor of f
//! is looked at.

use crate::field::{add, mul, sub};
use crate::polynomial::{entrywise, series_inverse, series_product, truncated, Polynomial, Series};

/// f at Y = s, by Horner.
pub fn value(p: u64, f: &[Series], s: &[u64]) -> Series {
    f.iter().rev().fold(vec![0; s.len()], |sum, row| entrywise(add, p, &series_product(p, &sum, s), row))
}

/// By Y.
fn derivative(p: u64, f: &[Series]) -> Polynomial {
    let times = |j: u64, row: &Series| row.iter().map(|&a| mul(p, j, a)).collect();
    (1..).zip(&f[1..]).map(|(j, row)| times(j, row)).collect()
}

/// The series that begins with c, a simple root of f at X = 0, and is a root of f: where s is it to some terms, s − f(s) / f′(s) is it to twice as many. There f′(s)
/// begins with f′(c), which is not 0.
pub fn root_series(p: u64, f: &[Series], c: u64) -> Series {
    let n = f[0].len();
    let mut s = vec![c];
    while s.len() < n {
        s.resize(n.min(2 * s.len()), 0);
        let f = truncated(f, s.len());
        let slope = value(p, &derivative(p, &f), &s);
        let step = series_product(p, &value(p, &f, &s), &series_inverse(p, &slope));
        s = entrywise(sub, p, &s, &step);
    }
    s
}

/// The number nearest to 0 that is congruent to a word below p; 1 for p = 2, where −1 is as near.
pub fn signed(p: u32, word: u32) -> i64 {
    let below_0 = (p as i64 - 1) / 2;
    (word as i64 + below_0).rem_euclid(p as i64) - below_0
}
