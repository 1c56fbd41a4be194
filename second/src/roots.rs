//! All roots of a polynomial over F_p. Of a small p every number is tried. A large p is above the degree, and there it is Berlekamp's method: repeated roots are
//! taken out by the derivative; the polynomials that are their own p-th powers modulo what is left, g, are a space that has a dimension for each irreducible
//! factor of g; and where these are lines, any h has a power that is 1 at about half of the roots and not at the others, which takes g apart.
//!
//! A polynomial is the list of its coefficients, the lowest first and the highest other than 0; 0 is the empty list.

use crate::field::{add, inverse, mul, sub};
use crate::linear::{rank, Matrix};

type Plain = Vec<u64>;

/// From here on there are too many numbers to try.
const LARGE: u64 = 4096;

/// In rising order: all roots of f where it is a product of lines Y − c. Where it isn't, some of them or none, and so none whose powers give f.
pub fn roots(p: u64, f: &[u64]) -> Vec<u64> {
    if p < LARGE {
        return (0..p).filter(|&c| value(p, f, c) == 0).collect();
    }
    let simple = quotient(p, f, &common(p, f, &derivative(p, f)));
    let mut roots = Vec::new();
    if count_of_factors(p, &simple) == simple.len() - 1 {
        part(p, &simple, &mut Draw(1), &mut roots);
    }
    roots.sort();
    roots
}

/// f at c, by Horner.
fn value(p: u64, f: &[u64], c: u64) -> u64 {
    f.iter().rev().fold(0, |sum, &a| add(p, mul(p, sum, c), a))
}

fn without_zeros(mut f: Plain) -> Plain {
    while f.last() == Some(&0) {
        f.pop();
    }
    f
}

fn derivative(p: u64, f: &[u64]) -> Plain {
    without_zeros((1..f.len()).map(|j| mul(p, j as u64, f[j])).collect())
}

/// Quotient and remainder.
fn divided(p: u64, f: &[u64], by: &[u64]) -> (Plain, Plain) {
    let (top, lower) = by.split_last().expect("a divisor is not 0");
    let scale = inverse(p, *top);
    let (mut quotient, mut rest) = (Vec::new(), f.to_vec());
    while rest.len() > lower.len() {
        let times = mul(p, rest.pop().expect("there are more"), scale);
        let from = rest.len() - lower.len();
        for (a, &b) in rest[from..].iter_mut().zip(lower) {
            *a = sub(p, *a, mul(p, times, b));
        }
        quotient.push(times);
    }
    quotient.reverse();
    (without_zeros(quotient), without_zeros(rest))
}

fn quotient(p: u64, f: &[u64], by: &[u64]) -> Plain {
    divided(p, f, by).0
}

fn remainder(p: u64, f: &[u64], by: &[u64]) -> Plain {
    divided(p, f, by).1
}

/// The greatest common divisor, by Euclid.
fn common(p: u64, f: &[u64], g: &[u64]) -> Plain {
    match g {
        [] => f.to_vec(),
        _ => common(p, g, &remainder(p, f, g)),
    }
}

/// f·h modulo g. At most 32 products below 2^48 come together.
fn product(p: u64, g: &[u64], f: &[u64], h: &[u64]) -> Plain {
    let mut all = vec![0; f.len() + h.len()];
    for (i, a) in f.iter().enumerate() {
        for (j, b) in h.iter().enumerate() {
            all[i + j] += a * b;
        }
    }
    remainder(p, &without_zeros(all.iter().map(|sum| sum % p).collect()), g)
}

/// f^exponent modulo g.
fn power(p: u64, g: &[u64], f: &[u64], exponent: u64) -> Plain {
    match exponent {
        0 => remainder(p, &[1], g),
        e if e % 2 == 0 => power(p, g, &product(p, g, f, f), e / 2),
        e => product(p, g, f, &power(p, g, f, e - 1)),
    }
}

/// How many irreducible factors g has, which has none twice: the dimension of the space of all h with h^p = h modulo g. Since h ↦ h^p is linear, it is the matrix
/// of the Y^(ip), less the identity, that takes this space to 0.
fn count_of_factors(p: u64, g: &[u64]) -> usize {
    let size = g.len() - 1;
    let step = power(p, g, &[0, 1], p);
    let mut image = remainder(p, &[1], g);
    let mut matrix: Matrix = Vec::new();
    for i in 0..size {
        let mut row = image.clone();
        row.resize(size, 0);
        row[i] = sub(p, row[i], 1);
        matrix.push(row);
        image = product(p, g, &image, &step);
    }
    size - rank(p, matrix)
}

/// Numbers that look drawn by lot.
struct Draw(u64);

impl Draw {
    fn polynomial(&mut self, p: u64, size: usize) -> Plain {
        let mut number = || {
            self.0 = self.0.wrapping_mul(6364136223846793005).wrapping_add(1442695040888963407);
            (self.0 >> 33) % p
        };
        without_zeros((0..size).map(|_| number()).collect())
    }
}

/// The roots of a product of unlike lines.
fn part(p: u64, g: &[u64], draw: &mut Draw, roots: &mut Vec<u64>) {
    match g {
        [] | [_] => {}
        [a, b] => roots.push(mul(p, sub(p, 0, *a), inverse(p, *b))),
        _ => {
            let h = draw.polynomial(p, g.len() - 1);
            let less_1 = sums(p, &power(p, g, &h, (p - 1) / 2), &[p - 1]);
            let some = common(p, g, &less_1);
            part(p, &quotient(p, g, &some), draw, roots);
            part(p, &some, draw, roots);
        }
    }
}

fn sums(p: u64, f: &[u64], g: &[u64]) -> Plain {
    let at = |f: &[u64], j: usize| f.get(j).copied().unwrap_or(0);
    without_zeros((0..f.len().max(g.len())).map(|j| add(p, at(f, j), at(g, j))).collect())
}
