//! Monic polynomials that split at X = 0 as wanted, with the lengths to which their rows are known.

use crate::random::Random;
use crate::report::Report;
use second::polynomial::{constant, product_of_all, words};

#[derive(Clone, Debug)]
pub struct Given {
    pub p: u32,
    pub d: u32,
    pub n: u32,
    pub f: Vec<u32>,
    /// Of the rows below the top one.
    pub lengths: Vec<u32>,
    pub roots: Vec<u32>,
}

impl Given {
    /// The least length.
    pub fn reach(&self) -> u32 {
        *self.lengths.iter().min().expect("there is a row below the top one")
    }

    /// The same, known to these lengths only: with 0 past them.
    pub fn cut(&self, lengths: Vec<u32>) -> Given {
        let mut cut = Given { lengths, ..self.clone() };
        let rows = cut.f.chunks_mut(cut.n as usize).zip(&cut.lengths);
        rows.for_each(|(row, &length)| row[length as usize..].fill(0));
        cut
    }

    /// Column t of row j.
    pub fn word(&self, j: u32, t: u32) -> u32 {
        self.f[(j * self.n + t) as usize]
    }

    /// With this word in column t of row j.
    pub fn with_word(&self, j: u32, t: u32, word: u32) -> Given {
        let mut changed = self.clone();
        changed.f[(j * self.n + t) as usize] = word;
        changed
    }

    /// The same words, all of them known.
    pub fn all_known(&self) -> Given {
        Given { lengths: vec![self.n; self.d as usize], ..self.clone() }
    }
}

/// The product of two polynomials over F_p, lowest coefficient first.
pub fn times(p: u32, f: &[u32], g: &[u32]) -> Vec<u32> {
    let mut all = vec![0; f.len() + g.len() - 1];
    for (i, &a) in f.iter().enumerate() {
        for (j, &b) in g.iter().enumerate() {
            all[i + j] = ((all[i + j] as u64 + a as u64 * b as u64) % p as u64) as u32;
        }
    }
    all
}

/// Π (Y − c_i)^(m_i), lowest coefficient first.
pub fn lines(p: u32, roots: &[u32], powers: &[u32]) -> Vec<u32> {
    let line = |&c: &u32| [(p - c) % p, 1];
    let taken = roots.iter().zip(powers).flat_map(|(c, &m)| (0..m).map(move |_| c));
    taken.fold(vec![1], |f, c| times(p, &f, &line(c)))
}

/// So many roots, in rising order.
pub fn roots(random: &mut Random, p: u32, count: u32) -> Vec<u32> {
    let mut roots = Vec::new();
    while roots.len() < count as usize {
        let c = random.below(p);
        if !roots.contains(&c) {
            roots.push(c);
        }
    }
    roots.sort();
    roots
}

/// Powers, all 1 or more, that come to d.
fn powers(random: &mut Random, d: u32, count: u32) -> Vec<u32> {
    let mut powers = vec![1; count as usize];
    for _ in count..d {
        let i = random.below(count) as usize;
        powers[i] += 1;
    }
    powers
}

/// This length in one row, and greater ones in the others, where there are any.
fn least_in(random: &mut Random, d: u32, n: u32, least: u32, row: u32) -> Vec<u32> {
    let more = (least + 1).min(n);
    (0..d).map(|j| if j == row { least } else { random.within(more, n) }).collect()
}

/// Lengths from 1 to n, no two alike as long as there are others.
fn unlike(random: &mut Random, d: u32, n: u32) -> Vec<u32> {
    let mut left: Vec<u32> = Vec::new();
    let mut draw = || {
        if left.is_empty() {
            left.extend(1..=n);
        }
        left.swap_remove(random.below(left.len() as u32) as usize)
    };
    (0..d).map(|_| draw()).collect()
}

/// Lengths of every kind for d rows of n columns.
fn lengths(random: &mut Random, d: u32, n: u32) -> Vec<u32> {
    let least = random.known(n);
    match random.below(6) {
        0 | 1 => vec![n; d as usize],
        2 => vec![least; d as usize],
        3 => least_in(random, d, n, least, 0),
        4 => least_in(random, d, n, least, d - 1),
        _ => unlike(random, d, n),
    }
}

fn note_lengths(report: &mut Report, given: &Given) {
    let Given { n, lengths, .. } = given;
    let least = given.reach();
    let first = lengths.iter().position(|&length| length == least);
    let last = lengths.iter().rposition(|&length| length == least);
    let several = lengths.len() > 1;
    let kinds = [
        (least == *n, "lengths: all N"),
        (least < *n && lengths.iter().all(|&length| length == least), "lengths: all alike, below N"),
        (several && (1..lengths.len()).all(|j| !lengths[..j].contains(&lengths[j])), "lengths: all unlike"),
        (least == 1 && *n > 1, "lengths: the least is 1"),
        (least + 1 == *n, "lengths: the least is N − 1"),
        (several && last == Some(0), "lengths: the least in the first row alone"),
        (several && first == Some(lengths.len() - 1), "lengths: the least in the last row alone"),
    ];
    kinds.iter().filter(|(holds, _)| *holds).for_each(|(_, kind)| report.kind(kind));
}

/// The same polynomial, its rows known to lengths of any kind.
pub fn with_lengths(random: &mut Random, report: &mut Report, given: &Given) -> Given {
    let cut = given.cut(lengths(random, given.d, given.n));
    note_lengths(report, &cut);
    cut
}

/// The same, with lengths from `least` up, `least` among them.
pub fn with_reach(random: &mut Random, given: &Given, least: u32) -> Given {
    let row = random.below(given.d);
    given.cut(least_in(random, given.d, given.n, least, row))
}

/// f of degree d with n columns and this many roots: at X = 0 as they say, elsewhere at random, and all of it known.
pub fn with_roots(random: &mut Random, report: &mut Report, p: u32, d: u32, n: u32, count: u32) -> Given {
    let roots = roots(random, p, count);
    let powers = powers(random, d, count);
    if powers.iter().any(|&m| m >= p) {
        report.kind("a power of p or more");
    }
    if d == 32 || n == 256 {
        report.kind("32 rows or 256 columns");
    }
    with_start(random, p, n, &lines(p, &roots, &powers), &roots)
}

/// Monic with n columns: at X = 0 with these coefficients, elsewhere at random, and all of it known.
pub fn with_start(random: &mut Random, p: u32, n: u32, start: &[u32], roots: &[u32]) -> Given {
    let (d, width) = (start.len() - 1, n as usize);
    let mut f = random.words(p, d * width);
    f.extend(vec![0; width]);
    for (j, &a) in start.iter().enumerate() {
        f[j * width] = a;
    }
    Given { p, d: d as u32, n, f, lengths: vec![n; d], roots: roots.to_vec() }
}

/// The product of the Y − s, all of it known. The numbers with which the s begin rise.
pub fn with_root_series(p: u32, series: &[Vec<u32>]) -> Given {
    let (d, n) = (series.len(), series[0].len());
    let line = |s: &Vec<u32>| vec![s.iter().map(|&a| ((p - a) % p) as u64).collect(), constant(1, n)];
    let factors: Vec<_> = series.iter().map(line).collect();
    let roots = series.iter().map(|s| s[0]).collect();
    Given { p, d: d as u32, n: n as u32, f: words(&product_of_all(p as u64, n, &factors)), lengths: vec![n as u32; d], roots }
}

/// With any number of roots, and all of it known.
pub fn known(random: &mut Random, report: &mut Report, p: u32, d: u32, n: u32) -> Given {
    let most = d.min(p);
    let count = if random.once_in(4) { most } else { random.within(1, most.min(5)) };
    with_roots(random, report, p, d, n, count)
}

/// With any number of roots, and any lengths.
pub fn any(random: &mut Random, report: &mut Report, p: u32, d: u32, n: u32) -> Given {
    let known = known(random, report, p, d, n);
    with_lengths(random, report, &known)
}
