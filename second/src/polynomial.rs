//! Polynomials in Y over F_p[[X]] modulo X^N, as rows of series: row j is the coefficient of Y^j. Nothing is judged here.

use crate::field::{add, inverse, sub};

pub type Series = Vec<u64>;
pub type Polynomial = Vec<Series>;

pub fn series(words: &[u32]) -> Series {
    words.iter().map(|&w| w as u64).collect()
}

pub fn series_words(s: &[u64]) -> Vec<u32> {
    s.iter().map(|&c| c as u32).collect()
}

pub fn polynomial(words: &[u32], n: usize) -> Polynomial {
    words.chunks(n).map(series).collect()
}

pub fn words(f: &[Series]) -> Vec<u32> {
    f.iter().flat_map(|row| series_words(row)).collect()
}

/// A number as a series of n columns.
pub fn constant(c: u64, n: usize) -> Series {
    let mut s = vec![0; n];
    s[0] = c;
    s
}

pub fn entrywise(op: fn(u64, u64, u64) -> u64, p: u64, g: &[u64], h: &[u64]) -> Series {
    g.iter().zip(h).map(|(&a, &b)| op(p, a, b)).collect()
}

/// g·h modulo X^N, by adding every product of two coefficients to the column where it belongs: at most 256 products below 2^48.
pub fn series_product(p: u64, g: &[u64], h: &[u64]) -> Series {
    let mut out = vec![0; g.len()];
    for (i, &a) in g.iter().enumerate().filter(|(_, &a)| a != 0) {
        for (column, &b) in out[i..].iter_mut().zip(h) {
            *column += a * b;
        }
    }
    out.iter().map(|sum| sum % p).collect()
}

/// 1/g by Newton: if g·h is 1 to k terms, then g·h·(2 − g·h) is 1 to 2k terms.
pub fn series_inverse(p: u64, g: &[u64]) -> Series {
    let n = g.len();
    let mut h = constant(inverse(p, g[0]), n);
    let mut right = 1;
    while right < n {
        let two = constant(2 % p, n);
        let rest = entrywise(sub, p, &two, &series_product(p, g, &h));
        h = series_product(p, &h, &rest);
        right *= 2;
    }
    h
}

pub fn product(p: u64, f: &[Series], g: &[Series]) -> Polynomial {
    let n = f[0].len();
    let mut out = vec![vec![0; n]; f.len() + g.len() - 1];
    for (i, a) in f.iter().enumerate() {
        for (j, b) in g.iter().enumerate() {
            out[i + j] = entrywise(add, p, &out[i + j], &series_product(p, a, b));
        }
    }
    out
}

pub fn product_of_all(p: u64, n: usize, factors: &[Polynomial]) -> Polynomial {
    factors.iter().fold(vec![constant(1, n)], |all, f| product(p, &all, f))
}

/// f(Y + c), by Horner: from the top row down, times Y + c and plus the next row.
pub fn shift(p: u64, f: &[Series], c: u64) -> Polynomial {
    let n = f[0].len();
    let line = vec![constant(c, n), constant(1 % p, n)];
    let (top, below) = f.split_last().expect("a polynomial has rows");
    let mut out = vec![top.clone()];
    for row in below.iter().rev() {
        out = product(p, &out, &line);
        out[0] = entrywise(add, p, &out[0], row);
    }
    out
}

/// (Y − c)^m with n columns.
pub fn line_power(p: u64, n: usize, c: u64, m: usize) -> Polynomial {
    let line = vec![constant(sub(p, 0, c), n), constant(1, n)];
    product_of_all(p, n, &vec![line; m])
}

pub fn column(f: &[Series], t: usize) -> Vec<u64> {
    f.iter().map(|row| row[t]).collect()
}

pub fn set_column(f: &mut [Series], t: usize, values: &[u64]) {
    for (row, &value) in f.iter_mut().zip(values) {
        row[t] = value;
    }
}

/// f at X = 0, with one column.
pub fn at_zero(f: &[Series]) -> Polynomial {
    f.iter().map(|row| vec![row[0]]).collect()
}

/// Columns 0 to k − 1.
pub fn truncated(f: &[Series], k: usize) -> Polynomial {
    f.iter().map(|row| row[..k].to_vec()).collect()
}

/// Columns 0 to k − 1 of a series, and then 0.
pub fn cut_series(s: &[u64], k: usize) -> Series {
    s.iter().enumerate().map(|(t, &c)| if t < k { c } else { 0 }).collect()
}

/// Columns 0 to k − 1, and then 0.
pub fn cut(f: &[Series], k: usize) -> Polynomial {
    f.iter().map(|row| cut_series(row, k)).collect()
}

/// Column t of f·g, from columns 0 to t of both.
pub fn product_column(p: u64, f: &[Series], g: &[Series], t: usize) -> Vec<u64> {
    let mut out = vec![0; f.len() + g.len() - 1];
    for (i, a) in f.iter().enumerate() {
        for (j, b) in g.iter().enumerate() {
            let sum = a[..=t].iter().zip(b[..=t].iter().rev()).fold(0, |sum, (x, y)| sum + x * y);
            out[i + j] = add(p, out[i + j], sum % p);
        }
    }
    out
}

/// The words below the leading 1 of a monic polynomial.
pub fn lower_words(f: &[Series]) -> Vec<u32> {
    words(&f[..f.len() - 1])
}
