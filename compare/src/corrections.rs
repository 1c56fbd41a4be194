//! An entry of the polynomial corrected: which entries there are to correct, what is refused and in which order, and that the sheet is then that of the corrected
//! polynomial.

use crate::calls::end_alike;
use crate::finding::opened_or_found;
use crate::lengths::same_column;
use crate::polynomials::{self, Given};
use crate::random::Random;
use crate::report::{every_set, Fault, Outcome, Report};
use crate::sheets::{correct, extend, opened};

/// Row and column.
type Place = (u32, u32);

/// Any entry that can be corrected, where there is one.
pub fn any_entry(random: &mut Random, given: &Given) -> Option<Place> {
    let rows: Vec<u32> = (0..given.d).filter(|&j| given.lengths[j as usize] > 1).collect();
    if rows.is_empty() {
        return None;
    }
    let j = random.pick(&rows);
    Some((j, random.within(1, given.lengths[j as usize] - 1)))
}

/// Where there is no entry that can be corrected, nearest to where there are, each with its kind.
fn no_entries(given: &Given) -> Vec<(Place, &'static str)> {
    let (d, n) = (given.d, given.n);
    let mut places = Vec::new();
    for (j, &length) in (0..).zip(&given.lengths) {
        places.push(((j, 0), "correction: refused, column 0"));
        places.extend([n, n + 1, u32::MAX].map(|t| ((j, t), "correction: refused, column N or more")));
        if length < n {
            places.push(((j, length), "correction: refused, at the row's length, which is below N"));
            places.push(((j, n - 1), "correction: refused, the last column of a row that is not known to it"));
        }
    }
    for t in [0, 1, n - 1, u32::MAX] {
        places.extend([d, d + 1, u32::MAX].map(|j| ((j, t), "correction: refused, row D or more")));
        if n > 1 {
            places.push(((u32::MAX / n + 1, t), "correction: refused, a row that would begin past 2^32 words"));
        }
    }
    places
}

/// One of these.
pub fn no_entry(random: &mut Random, given: &Given) -> Place {
    random.pick(&no_entries(given)).0
}

/// A sheet worked to some terms, and what it holds.
struct Worked {
    given: Given,
    sheet: Vec<u32>,
}

impl Worked {
    fn terms(&self) -> u32 {
        self.sheet[3]
    }

    /// The words of the factors' rows.
    fn factors(&self) -> &[u32] {
        &self.sheet[self.sheet[7] as usize..self.sheet[9] as usize]
    }
}

fn expect(report: &mut Report, sheet: &[u32], (j, t): Place, entry: u32, expected: Outcome, kind: &'static str) -> Vec<u32> {
    let called = correct(report, sheet, j, t, entry);
    let outcome = called.outcome;
    report.expect(outcome == expected, &format!("{kind}: {entry} in row {j}, column {t} comes to {outcome:?} and not {expected:?}, of {sheet:?}"));
    report.kind(kind);
    called.words
}

/// Kinds of an entry that is corrected.
fn kinds(worked: &Worked, (j, t): Place, old: u32, entry: u32) -> [(bool, &'static str); 12] {
    let Given { p, d, n, ref lengths, .. } = worked.given;
    let (k, length) = (worked.terms(), lengths[j as usize]);
    [
        (t == 1, "correction: column 1"),
        (t + 1 == k, "correction: column k − 1"),
        (t == k, "correction: column k"),
        (t > k, "correction: above column k"),
        (t + 1 == n, "correction: column N − 1"),
        (t + 1 == length && length < n, "correction: the last known column, below N − 1"),
        (entry == old, "correction: the entry that is there"),
        (entry + 1 == p, "correction: p − 1"),
        (p < d, "correction: p is below D"),
        (p > 65_535, "correction: p is above 65,535"),
        (d == 32 && n == 256, "correction: 32 rows and 256 columns"),
        (worked.sheet.len() > worked.sheet[9] as usize, "correction: words past the end"),
    ]
}

/// The factors' columns below t stay. Column t changes where the entry does and the column is worked; else all of them stay.
fn expect_columns(report: &mut Report, worked: &Worked, corrected: &Worked, t: u32, same: bool) {
    let (n, before, after) = (worked.given.n, worked.factors(), corrected.factors());
    let stays = if same || t >= worked.terms() { before == after } else { !same_column(n, t, before, after) };
    let below = (0..t).all(|t| same_column(n, t, before, after));
    report.expect(stays && below, &format!("the factors change from column {t} up, where it is worked: {before:?} and {after:?}"));
}

/// The sheet is that of the corrected polynomial, opened and worked to as many terms, and to all that are known.
fn expect_fresh(random: &mut Random, report: &mut Report, corrected: &Worked) {
    let Worked { given, sheet } = corrected;
    let total = sheet[9] as usize;
    let mut fresh = opened(random, report, given)[..total].to_vec();
    fresh.extend(&sheet[total..]);
    for (w, words) in [(sheet[3], sheet.clone()), (given.reach(), extend(report, sheet, given.reach()).words)] {
        fresh = extend(report, &fresh, w).words;
        report.expect(words == fresh, &format!("the corrected sheet is that of {given:?} to {w} terms: {words:?}"));
    }
}

/// An entry put in place of another, and the other put back.
fn accepted(random: &mut Random, report: &mut Report, worked: &Worked, place: Place, entry: u32) {
    let (k, old) = (worked.terms(), worked.given.word(place.0, place.1));
    let given = worked.given.with_word(place.0, place.1, entry);
    let sheet = expect(report, &worked.sheet, place, entry, Ok(k), "correction: accepted");
    let corrected = Worked { given, sheet };
    expect_columns(report, worked, &corrected, place.1, entry == old);
    expect_fresh(random, report, &corrected);
    let undone = expect(report, &corrected.sheet, place, old, Ok(k), "correction: undone");
    report.expect(undone == worked.sheet, &format!("a correction undone leaves the words of before: {:?}", worked.sheet));
    kinds(worked, place, old, entry).iter().filter(|(holds, _)| *holds).for_each(|(_, kind)| report.kind(kind));
}

/// Any row's entry in a column, where some row is known to it.
fn in_column(random: &mut Random, report: &mut Report, worked: &Worked, t: u32) {
    let Given { p, d, ref lengths, .. } = worked.given;
    let row = random.below(d);
    let Some(j) = (0..d).map(|i| (row + i) % d).find(|&j| t < lengths[j as usize]) else { return };
    let old = worked.given.word(j, t);
    let other = random.other(p, old);
    let entry = random.pick(&[other, other, other, p - 1, old]);
    accepted(random, report, worked, (j, t), entry);
}

/// Columns on both sides of k, the first and the last, the last known one of some row, and any.
fn around_k(random: &mut Random, report: &mut Report, worked: &Worked) {
    let Given { d, n, ref lengths, .. } = worked.given;
    let k = worked.terms();
    let known = lengths[random.below(d) as usize];
    let mut columns = vec![1, k - 1, k, k + 1, random.below(n), known - 1, n - 1];
    columns.sort();
    columns.dedup();
    columns.into_iter().filter(|&t| t > 0).for_each(|t| in_column(random, report, worked, t));
}

/// Where there is no entry, and where there is one, but the number is not below p.
fn refused(random: &mut Random, report: &mut Report, worked: &Worked) {
    let Worked { given, sheet } = worked;
    let p = given.p;
    for (place, kind) in no_entries(given) {
        let entry = random.pick(&[0, p - 1, p, u32::MAX]);
        expect(report, sheet, place, entry, Err((20, 0)), kind);
        if given.n == 1 {
            report.kind("correction: refused, N is 1");
        }
    }
    let Some(place) = any_entry(random, given) else { return };
    for entry in [p, p + 1, u32::MAX] {
        expect(report, sheet, place, entry, Err((6, 0)), "correction: refused, p or more");
    }
    for length in [sheet[9] - 1, sheet[9] / 2, 11, 10, 0] {
        let entry = random.pick(&[0, p]);
        expect(report, &sheet[..length as usize], place, entry, Err((13, 0)), "correction: refused, fewer words than T");
    }
}

/// A wrong entry below k, and the right one to correct it by: the sheet is not sound, and so it is too late.
fn too_late(random: &mut Random, report: &mut Report, worked: &Worked) {
    let Worked { given, sheet } = worked;
    let Some((j, t)) = any_entry(random, given).filter(|&(_, t)| t < worked.terms()) else { return };
    let old = given.word(j, t);
    let mut changed = sheet.clone();
    changed[(sheet[6] + j * given.n + t) as usize] = random.other(given.p, old);
    expect(report, &changed, (j, t), old, Err((13, 0)), "correction: refused, it would mend the sheet");
}

#[derive(Clone, Debug)]
struct Case {
    sheet: Vec<u32>,
    place: Place,
    entry: u32,
}

/// All refusals, in the order in which they are judged.
fn refusals(random: &mut Random, report: &mut Report, worked: &Worked) {
    let Worked { given, sheet } = worked;
    let Some(place) = any_entry(random, given) else { return };
    let (p, total) = (given.p, sheet[9] as usize);
    let (cut, outside) = (random.once_in(2), no_entry(random, given));
    let wrong = random.pick(&[3, 8, 9, 10, sheet[5], sheet[7]]) as usize; // k, T, T, the least length, a root, and what the first root fixes
    let number = random.pick(&[p, p, p + 1, u32::MAX]);
    let faults: [Fault<Case>; 3] = [
        ((13, 0), &|case| if cut { case.sheet.truncate(total - 1) } else { case.sheet[wrong] = u32::MAX }),
        ((20, 0), &|case| case.place = outside),
        ((6, 0), &|case| case.entry = number),
    ];
    let call = |report: &mut Report, case: &Case| correct(report, &case.sheet, case.place.0, case.place.1, case.entry).outcome;
    let good = Case { sheet: sheet.clone(), place, entry: random.below(p) };
    every_set(report, "correction: every set of refusals at once", call, &good, worked.terms(), &faults);
}

/// A small sheet, worked to any terms; and lists of calls on it.
fn small(random: &mut Random, report: &mut Report) {
    let (p, d, n) = (random.prime(), random.degree().clamp(1, 12), random.columns().min(24));
    let given = polynomials::any(random, report, p, d, n);
    let fresh = opened_or_found(random, report, &given, "correction: a sheet whose roots were found");
    end_alike(random, report, &given, &fresh);
    let k = random.within(1, given.reach());
    let worked = Worked { sheet: extend(report, &fresh, k).words, given };
    around_k(random, report, &worked);
    refused(random, report, &worked);
    too_late(random, report, &worked);
    refusals(random, report, &worked);
}

/// The largest sheets, known to all columns or fewer, with an entry in this column.
fn large(random: &mut Random, report: &mut Report) {
    for (p, count, k, reach, t) in [(16_777_213, 32, 200, 256, 100), (251, 3, 256, 256, 255), (7, 7, 256, 256, 1), (2, 2, 100, 101, 100)] {
        let known = polynomials::with_roots(random, report, p, 32, 256, count);
        let given = polynomials::with_reach(random, &known, reach);
        let fresh = opened(random, report, &given);
        let worked = Worked { sheet: extend(report, &fresh, k).words, given };
        in_column(random, report, &worked, t);
    }
}

pub fn run(random: &mut Random, report: &mut Report) {
    (0..600).for_each(|_| small(random, report));
    large(random, report);
}
