//! Demand 3 on pairs of sheets over one p: a list of calls on each is answered as the plain count says, and then the two factor lists agree below X^j exactly
//! when the two polynomials do that the sheets now hold.

use crate::calls::several_goes;
use crate::corrections::any_entry;
use crate::finding::opened_or_found;
use crate::polynomials::{self, Given};
use crate::random::Random;
use crate::report::Report;
use crate::sheets::{correct, extend};
use bopkheul::{Factor, Sheet};

/// Rows, one after the other, and their number of columns.
type Rows<'a> = (&'a [u32], u32);

/// Whether there are as many rows, and the same columns below j in each.
fn same_below(j: usize, (f, n): Rows, (g, m): Rows) -> bool {
    let (f, g) = (f.chunks(n as usize), g.chunks(m as usize));
    f.len() == g.len() && f.zip(g).all(|(a, b)| a[..j] == b[..j])
}

fn polynomials_agree(j: usize, f: &Given, g: &Given) -> bool {
    same_below(j, (&f.f, f.n), (&g.f, g.n))
}

/// A sheet's factors, and their number of columns.
fn factors(sheet: &Sheet) -> (Vec<Factor<'_>>, u32) {
    let factors = (0..sheet.count()).map(|i| sheet.factor(i).expect("a sheet has its factors"));
    (factors.collect(), sheet.columns())
}

fn factors_agree(j: usize, (f, n): &(Vec<Factor>, u32), (g, m): &(Vec<Factor>, u32)) -> bool {
    let agree = |(a, b): (&Factor, &Factor)| (a.root, a.power) == (b.root, b.power) && same_below(j, (a.rows, *n), (b.rows, *m));
    f.len() == g.len() && f.iter().zip(g).all(agree)
}

/// The kind of a pair of monic polynomials that agree below this column, of so many that both sheets have worked.
fn kind(f: &Given, g: &Given, agreeing: usize, worked: usize) -> &'static str {
    match agreeing {
        _ if agreeing == worked => "demand 3: alike in every column that both have worked",
        0 if f.d != g.d => "demand 3: unlike degrees",
        0 => "demand 3: one degree, unlike at X = 0",
        _ => "demand 3: alike below some column, and unlike in it",
    }
}

/// For every j from 1 to the smaller K.
fn expect_agreement(report: &mut Report, given: [&Given; 2], words: [&[u32]; 2]) {
    let [f, g] = given;
    let [a, b] = words.map(|words| Sheet::from_words(words.to_vec()).expect("the calls leave a sound sheet"));
    let worked = a.terms().min(b.terms()) as usize;
    let (a, b) = (factors(&a), factors(&b)); // once, since reading a factor tests the whole sheet
    let mut agreeing = 0;
    for j in 1..=worked {
        let (polynomials, factors) = (polynomials_agree(j, f, g), factors_agree(j, &a, &b));
        if polynomials != factors {
            report.expect(false, &format!("below X^{j} the polynomials agree: {polynomials}, and the factors: {factors}, of {words:?}"));
        }
        agreeing += polynomials as usize;
    }
    report.kind(kind(f, g, agreeing, worked));
}

/// A sheet after a list of calls, and what it holds.
fn after_calls(random: &mut Random, report: &mut Report, given: &Given) -> (Vec<u32>, Given) {
    let fresh = opened_or_found(random, report, given, "demand 3: a sheet whose roots were found");
    let (sheet, held) = several_goes(random, report, given, &fresh);
    if held.f != given.f {
        report.kind("demand 3: a sheet that was corrected");
    }
    (sheet, held)
}

fn extended(report: &mut Report, sheet: &[u32], given: &Given) -> Vec<u32> {
    let called = extend(report, sheet, given.reach());
    report.expect(called.outcome == Ok(given.reach()), &format!("{sheet:?} extends to all terms that are known"));
    called.words
}

/// Once after lists of calls, so that the sheets have any terms, and once with all that there can be.
fn compare(random: &mut Random, report: &mut Report, f: &Given, g: &Given) {
    let [(a, f), (b, g)] = [f, g].map(|given| after_calls(random, report, given));
    expect_agreement(report, [&f, &g], [&a, &b]);
    let [a, b] = [(&a, &f), (&b, &g)].map(|(sheet, given)| extended(report, sheet, given));
    expect_agreement(report, [&f, &g], [&a, &b]);
    if f.lengths != g.lengths {
        report.kind("demand 3: rows known to other lengths");
    }
}

/// Two polynomials that part in one entry: where it is corrected in the second sheet, both hold the first polynomial, and where it is corrected in the first too,
/// they have changed places.
fn corrected(random: &mut Random, report: &mut Report) {
    let (p, d, n) = (random.prime(), random.degree().clamp(1, 12), random.columns().clamp(2, 24));
    let f = polynomials::any(random, report, p, d, n);
    let Some((j, t)) = any_entry(random, &f) else { return };
    let one = f.word(j, t);
    let other = random.other(p, one);
    let g = f.with_word(j, t, other);
    let [a, b] = [&f, &g].map(|given| {
        let fresh = opened_or_found(random, report, given, "demand 3: a sheet whose roots were found");
        extend(report, &fresh, random.within(1, given.reach())).words
    });
    expect_agreement(report, [&f, &g], [&a, &b]);
    let b = correct(report, &b, j, t, one).words;
    expect_agreement(report, [&f, &f], [&a, &b]);
    let a = correct(report, &a, j, t, other).words;
    expect_agreement(report, [&g, &f], [&a, &b]);
    report.kind("demand 3: parted by one entry, and brought together by its correction");
}

/// The same polynomial with another number of columns: those that both have are the same.
fn with_columns(random: &mut Random, given: &Given, n: u32) -> Given {
    let mut f = Vec::new();
    for (j, row) in given.f.chunks(given.n as usize).enumerate() {
        let bound = if j < given.d as usize { given.p } else { 1 }; // the top row is 1, 0, 0, ..
        f.extend((0..n as usize).map(|t| row.get(t).copied().unwrap_or_else(|| random.below(bound))));
    }
    Given { n, f, lengths: vec![n; given.d as usize], ..given.clone() }
}

/// The same below column t, and another number in one row of column t; past it the same, or anything.
fn parting(random: &mut Random, given: &Given, t: u32) -> Given {
    let (p, d, n) = (given.p, given.d, given.n);
    let mut other = given.clone();
    if random.once_in(2) {
        let lower = other.f.chunks_mut(n as usize).take(d as usize);
        lower.for_each(|row| row[t as usize + 1..].fill_with(|| random.below(p)));
    }
    let word = &mut other.f[(random.below(d) * n + t) as usize];
    *word = random.other(p, *word);
    other
}

fn other_degree(random: &mut Random, d: u32) -> u32 {
    let other = random.within(1, 11);
    if other < d {
        other
    } else {
        other + 1
    }
}

/// Two polynomials that are alike as far as wanted, and then known to any lengths.
fn small(random: &mut Random, report: &mut Report, i: u32) {
    let (p, d, n) = (random.prime(), random.degree().clamp(1, 12), random.columns().clamp(2, 24));
    let f = polynomials::known(random, report, p, d, n);
    let m = if random.once_in(2) { n } else { random.within(1, 24) };
    let g = match i % 4 {
        0 => with_columns(random, &f, m),
        1 => {
            let t = random.within(1, n - 1);
            let parted = parting(random, &f, t);
            with_columns(random, &parted, m)
        }
        2 => polynomials::known(random, report, p, d, m),
        _ => {
            let d = other_degree(random, d);
            polynomials::known(random, report, p, d, m)
        }
    };
    let [f, g] = [f, g].map(|known| polynomials::with_lengths(random, report, &known));
    compare(random, report, &f, &g);
}

/// The largest sheets, which part in the last column or before.
fn large(random: &mut Random, report: &mut Report) {
    for (p, count, t) in [(16_777_213, 32, 255), (251, 3, 128), (2, 2, 1)] {
        let f = polynomials::with_roots(random, report, p, 32, 256, count);
        let g = parting(random, &f, t);
        compare(random, report, &f, &g);
    }
}

pub fn run(random: &mut Random, report: &mut Report) {
    (0..1_600).for_each(|i| small(random, report, i));
    (0..400).for_each(|_| corrected(random, report));
    large(random, report);
}
