//! Series of n words; sums and products are given how many terms of each operand are known.

use crate::field;
use crate::polynomial::{cut_series, entrywise, series, series_inverse, series_product, series_words, Series};
use crate::refusal::{composite, judge, length, modulus_range, short, terms, unknown, unreduced, when, Answer, Refusal};

/// `known` has a count for each input, or none.
fn judged(p: u32, n: u32, inputs: &[&[u32]], known: &[u32], out: &[u32]) -> Result<(), Refusal> {
    judge(&[
        (1, &|| modulus_range(p)),
        (2, &|| composite(p)),
        (4, &|| terms(n)),
        (5, &|| inputs.iter().find_map(|s| length(s, 1, n))),
        (6, &|| unreduced(p, inputs)),
        (21, &|| unknown(&inputs.iter().map(|s| series(s)).collect::<Vec<_>>(), known)),
        (10, &|| short(out, n as usize)),
    ])
}

fn write(answer: &[u64], out: &mut [u32]) -> Answer {
    out[..answer.len()].copy_from_slice(&series_words(answer));
    Ok(answer.len() as u32)
}

/// The result of the whole series, cut where one operand is known no further, and once more where the other isn't.
fn write_known(answer: &Series, known: [u32; 2], out: &mut [u32]) -> Answer {
    let [g_known, h_known] = known.map(|terms| terms as usize);
    write(&cut_series(&cut_series(answer, g_known), h_known), out)
}

pub fn sum(p: u32, n: u32, g: &[u32], g_known: u32, h: &[u32], h_known: u32, out: &mut [u32]) -> Answer {
    judged(p, n, &[g, h], &[g_known, h_known], out)?;
    write_known(&entrywise(field::add, p as u64, &series(g), &series(h)), [g_known, h_known], out)
}

pub fn difference(p: u32, n: u32, g: &[u32], h: &[u32], out: &mut [u32]) -> Answer {
    judged(p, n, &[g, h], &[], out)?;
    write(&entrywise(field::sub, p as u64, &series(g), &series(h)), out)
}

pub fn product(p: u32, n: u32, g: &[u32], g_known: u32, h: &[u32], h_known: u32, out: &mut [u32]) -> Answer {
    judged(p, n, &[g, h], &[g_known, h_known], out)?;
    write_known(&series_product(p as u64, &series(g), &series(h)), [g_known, h_known], out)
}

/// What is left of f and g when X is taken out of both until g begins with another number; nothing where X is not in f, or g is 0.
fn without_x<'a>(f: &'a [u32], g: &'a [u32]) -> Option<(&'a [u32], &'a [u32])> {
    match (f, g) {
        ([0, f @ ..], [0, g @ ..]) => without_x(f, g),
        (_, [] | [0, ..]) => None,
        _ => Some((f, g)),
    }
}

/// f / g, to as many terms as are left when what both have of X is taken out.
pub fn quotient(p: u32, n: u32, f: &[u32], g: &[u32], out: &mut [u32]) -> Answer {
    judged(p, n, &[f, g], &[], out)?;
    let left = without_x(f, g);
    judge(&[(12, &|| when(left.is_none()))])?;
    let (f, g) = left.expect("row 12 has been judged");
    let p = p as u64;
    let mut h = series_product(p, &series(f), &series_inverse(p, &series(g)));
    h.resize(n as usize, 0);
    write(&h, out)?;
    Ok(g.len() as u32)
}

pub fn inverse(p: u32, n: u32, g: &[u32], out: &mut [u32]) -> Answer {
    judged(p, n, &[g], &[], out)?;
    judge(&[(12, &|| when(g[0] == 0))])?;
    write(&series_inverse(p as u64, &series(g)), out)
}
