//! The Weierstrass pair: f = P·A modulo X^k, P monic of degree d and Y^d at X = 0, A of m + 1 rows with a unit for row 0.
//!
//! By Newton: if P is right to k terms, then f divided by it is f = P·A + R with R = 0 to k terms; and if V·A = 1 modulo P to k terms, then P + (V·R modulo P)
//! is right to 2k terms. V goes from k to 2k terms as 2V − V²·A modulo P.

use crate::field::{add, sub};
use crate::polynomial::{constant, entrywise, polynomial, product, series_inverse, series_product, truncated, words, Polynomial, Series};
use crate::refusal::{beyond, composite, degree, judge, length, modulus_range, short, terms, unreduced, when, Answer};

/// The least row that is not 0 at X = 0.
fn order(f: &[u32], n: usize) -> Option<usize> {
    f.chunks(n).position(|row| row[0] != 0)
}

/// Quotient and remainder by a monic polynomial.
fn divide(p: u64, f: &[Series], monic: &[Series]) -> (Polynomial, Polynomial) {
    let degree = monic.len() - 1;
    let (mut quotient, mut rest) = (Vec::new(), f.to_vec());
    while rest.len() > degree {
        let top = rest.pop().expect("a row more than the degree");
        let from = rest.len() - degree;
        for (row, lower) in rest[from..].iter_mut().zip(monic) {
            *row = entrywise(sub, p, row, &series_product(p, &top, lower));
        }
        quotient.insert(0, top);
    }
    (quotient, rest)
}

/// P of f, to as many terms as f has.
fn monic_part(p: u64, f: &[Series], order: usize) -> Polynomial {
    if order == 0 {
        return vec![constant(1, f[0].len())];
    }
    // at X = 0 P is Y^d, and V the inverse of A as a series in Y
    let unit: Series = (0..order).map(|j| f.get(order + j).map_or(0, |row| row[0])).collect();
    let mut inverse: Polynomial = series_inverse(p, &unit).into_iter().map(|c| vec![c]).collect();
    let mut monic: Polynomial = (0..=order).map(|j| vec![(j == order) as u64]).collect();
    while monic[0].len() < f[0].len() {
        let k = monic[0].len();
        let (unit, _) = divide(p, &truncated(f, k), &monic);
        let (_, less) = divide(p, &product(p, &product(p, &inverse, &inverse), &unit), &monic);
        for (row, less) in inverse.iter_mut().zip(&less) {
            *row = entrywise(sub, p, &entrywise(add, p, row, row), less);
        }
        let k = f[0].len().min(2 * k);
        monic.iter_mut().chain(&mut inverse).for_each(|row| row.resize(k, 0));
        let (_, rest) = divide(p, &truncated(f, k), &monic);
        let (_, more) = divide(p, &product(p, &inverse, &rest), &monic);
        for (row, more) in monic.iter_mut().zip(&more) {
            *row = entrywise(add, p, row, more);
        }
    }
    monic
}

/// The words of the pair to k terms: P's rows below its leading 1, then A's, and 0 from column k on.
fn pair_words(p: u32, n: usize, f: &[u32], k: usize) -> Vec<u32> {
    let (p, order) = (p as u64, order(f, n).expect("not flat"));
    let f = truncated(&polynomial(f, n), k);
    let mut rows = monic_part(p, &f, order);
    let (unit, _) = divide(p, &f, &rows);
    rows.pop();
    rows.extend(unit);
    rows.iter_mut().for_each(|row| row.resize(n, 0));
    words(&rows)
}

/// The pair to w terms, of which the first h stand in `out`; for h = 0 `out` has anything. The answer is the order.
pub fn pair(p: u32, d: u32, n: u32, f: &[u32], h: u32, w: u32, out: &mut [u32]) -> Answer {
    let width = n as usize;
    judge(&[
        (1, &|| modulus_range(p)),
        (2, &|| composite(p)),
        (3, &|| degree(d as u64)),
        (4, &|| terms(n)),
        (5, &|| length(f, d as u64 + 1, n)),
        (6, &|| unreduced(p, &[f])),
        (10, &|| short(out, f.len())),
        (11, &|| when(order(f, width).is_none())),
        (13, &|| when(h > n || h > 0 && out[..f.len()] != pair_words(p, width, f, h as usize))),
        (14, &|| beyond(w, n)),
        (15, &|| when(w < h)),
    ])?;
    out[..f.len()].copy_from_slice(&pair_words(p, width, f, w as usize));
    Ok(order(f, width).expect("not flat") as u32)
}
