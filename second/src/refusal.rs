//! The table of refusals: an operation lists its rows in the order in which they are judged.

use crate::field::{least_divisor, LARGEST_MODULUS};
use crate::polynomial::{cut_series, Series};

/// A row of the table of document 01, or of those that document 02 adds, by its number, and the detail word.
#[derive(Clone, Copy, Debug, PartialEq, Eq)]
pub struct Refusal {
    pub number: u32,
    pub detail: u32,
}

pub type Answer = Result<u32, Refusal>;

/// A row's number, and its judgement: the detail where the row applies. It is asked only where no row before it applies.
pub type Row<'a> = (u32, &'a dyn Fn() -> Option<usize>);

/// The first row that applies.
pub fn judge(rows: &[Row]) -> Result<(), Refusal> {
    for (number, applies) in rows {
        if let Some(detail) = applies() {
            return Err(Refusal { number: *number, detail: detail as u32 });
        }
    }
    Ok(())
}

/// A row with detail 0.
pub fn when(condition: bool) -> Option<usize> {
    condition.then_some(0)
}

/// Row 1.
pub fn modulus_range(p: u32) -> Option<usize> {
    when(!(2..=LARGEST_MODULUS).contains(&p))
}

/// Row 2.
pub fn composite(p: u32) -> Option<usize> {
    let divisor = least_divisor(p);
    (divisor != p).then_some(divisor as usize)
}

/// Row 3 for operations that take a degree bound of 0 too.
pub fn degree(bound: u64) -> Option<usize> {
    when(bound > 32)
}

/// Row 4.
pub fn terms(n: u32) -> Option<usize> {
    when(!(1..=256).contains(&n))
}

/// Row 5: an input of so many rows of n words.
pub fn length(input: &[u32], rows: u64, n: u32) -> Option<usize> {
    when(input.len() as u64 != rows * n as u64)
}

/// Row 6: the inputs are counted on in the order given.
pub fn unreduced(p: u32, inputs: &[&[u32]]) -> Option<usize> {
    inputs.concat().iter().position(|&word| word >= p)
}

/// Row 10.
pub fn short<T>(out: &[T], needed: usize) -> Option<usize> {
    (out.len() < needed).then_some(needed)
}

/// Row 14: terms past the most that there can be.
pub fn beyond(w: u32, most: u32) -> Option<usize> {
    when(w == 0 || w > most)
}

/// Row 20: a row below the top one has entries to correct in the columns past the first, as far as it is known.
pub fn no_entry(lengths: &[u32], j: u32, t: u32) -> Option<usize> {
    let known = lengths.get(j as usize).copied().unwrap_or(0);
    when(!(1..known).contains(&t))
}

/// Row 21: each series has a count of known terms beside it, from 1 to its width, and is what it is when cut there. Series without a count are known.
pub fn unknown(series: &[Series], known: &[u32]) -> Option<usize> {
    let fits = |(s, &k): (&Series, &u32)| (1..=s.len()).contains(&(k as usize)) && cut_series(s, k as usize) == *s;
    when(!series.iter().zip(known).all(fits))
}
