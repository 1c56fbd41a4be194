//! Row polynomials of degree bound d: d + 1 rows of n words.

use crate::field;
use crate::polynomial::{self, entrywise, polynomial, series, words};
use crate::refusal::{composite, degree, judge, length, modulus_range, short, terms, unreduced, Answer, Refusal};

/// An operation that takes inputs of these degree bounds, and gives one of degree bound `result`; `number` is the shift.
fn judged(p: u32, n: u32, inputs: &[(u32, &[u32])], number: &[u32], result: u64, out: &[u32]) -> Result<(), Refusal> {
    let coefficients: Vec<u32> = inputs.iter().flat_map(|(_, f)| f.iter().copied()).collect();
    judge(&[
        (1, &|| modulus_range(p)),
        (2, &|| composite(p)),
        (3, &|| inputs.iter().find_map(|(d, _)| degree(*d as u64)).or(degree(result))),
        (4, &|| terms(n)),
        (5, &|| inputs.iter().find_map(|(d, f)| length(f, *d as u64 + 1, n))),
        (6, &|| unreduced(p, &[&coefficients, number])),
        (10, &|| short(out, (result as usize + 1) * n as usize)),
    ])
}

fn write(answer: &[u32], out: &mut [u32]) -> Answer {
    out[..answer.len()].copy_from_slice(answer);
    Ok(answer.len() as u32)
}

fn termwise(op: fn(u64, u64, u64) -> u64, p: u32, d: u32, n: u32, f: &[u32], g: &[u32], out: &mut [u32]) -> Answer {
    judged(p, n, &[(d, f), (d, g)], &[], d as u64, out)?;
    let all = entrywise(op, p as u64, &series(f), &series(g));
    write(&polynomial::series_words(&all), out)
}

pub fn sum(p: u32, d: u32, n: u32, f: &[u32], g: &[u32], out: &mut [u32]) -> Answer {
    termwise(field::add, p, d, n, f, g, out)
}

pub fn difference(p: u32, d: u32, n: u32, f: &[u32], g: &[u32], out: &mut [u32]) -> Answer {
    termwise(field::sub, p, d, n, f, g, out)
}

#[allow(clippy::too_many_arguments)] // document 01's own list
pub fn product(p: u32, d1: u32, d2: u32, n: u32, f: &[u32], g: &[u32], out: &mut [u32]) -> Answer {
    judged(p, n, &[(d1, f), (d2, g)], &[], d1 as u64 + d2 as u64, out)?;
    let n = n as usize;
    write(&words(&polynomial::product(p as u64, &polynomial(f, n), &polynomial(g, n))), out)
}

/// f(Y + c).
pub fn shift(p: u32, d: u32, n: u32, f: &[u32], c: u32, out: &mut [u32]) -> Answer {
    judged(p, n, &[(d, f)], &[c], d as u64, out)?;
    write(&words(&polynomial::shift(p as u64, &polynomial(f, n as usize), c as u64)), out)
}
