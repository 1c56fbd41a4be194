//! Sheets in the layouts of before F-9, in which the roots came after ten header words; none of them is sound. In document 01's, the lower rows of cofactors 1 to
//! r − 2 came after the factors, word 8 was where they began, and word 9 where they ended. F-8 took these out. So the two are the same for one or two roots.

use crate::polynomials::Given;
use crate::random::Random;
use crate::report::Report;
use crate::sheets::{extend, opened, test};
use second::polynomial::{constant, cut, lower_words, polynomial, product_of_all, Polynomial};

/// A stored sheet: its file in `old_sheets`, its number of roots, and its text.
type Stored = (&'static str, usize, &'static str);

macro_rules! stored {
    ($($roots:literal $name:literal),*) => {
        [$(($name, $roots, include_str!(concat!("../old_sheets/", $name, ".sheet")))),*]
    };
}

const STORED: [Stored; 15] = stored![
    1 "one_root_mod_2",
    1 "one_root_mod_3",
    1 "one_root_mod_65521",
    2 "two_roots_mod_2",
    2 "two_roots_mod_3",
    2 "document_01",
    2 "two_roots_mod_65521",
    3 "three_roots_mod_3",
    3 "three_roots_mod_7",
    3 "three_roots_mod_65521",
    4 "four_roots_mod_7",
    4 "four_roots_mod_65521",
    7 "seven_roots_mod_7",
    8 "eight_roots_mod_65521",
    8 "eight_roots_with_powers"
];

/// Whether document 01's layout of a sheet with so many roots is another one than F-8's.
fn has_cofactors(roots: usize) -> bool {
    roots > 2
}

fn words(text: &str) -> Vec<u32> {
    text.split_whitespace().map(|word| word.parse().expect("a stored sheet is made of numbers")).collect()
}

/// The factors of a sheet in F-8's layout, with their leading 1.
fn factors(sheet: &[u32]) -> Vec<Polynomial> {
    let n = sheet[2] as usize;
    let mut rows = polynomial(&sheet[sheet[7] as usize..sheet[8] as usize], n).into_iter();
    let powers = sheet[10..sheet[6] as usize].chunks(2).map(|entry| entry[1] as usize);
    powers.map(|m| rows.by_ref().take(m).chain([constant(1, n)]).collect()).collect()
}

/// A sheet in F-8's layout as document 01 lays it out: cofactor i is the product of the factors after the i-th.
fn with_cofactors(sheet: &[u32]) -> Vec<u32> {
    let (p, n, k, total) = (sheet[0] as u64, sheet[2] as usize, sheet[3] as usize, sheet[9] as usize);
    let factors = factors(sheet);
    let mut old = sheet[..total].to_vec();
    for i in 1..factors.len().saturating_sub(1) {
        old.extend(lower_words(&cut(&product_of_all(p, n, &factors[i..]), k)));
    }
    old[9] = old.len() as u32;
    old
}

fn without_cofactors(old: &[u32]) -> Vec<u32> {
    let mut sheet = old[..old[8] as usize].to_vec();
    sheet[9] = old[8];
    sheet
}

/// Today's sheet of one in F-8's layout, all of whose rows are known: the least length and the lengths come before the roots.
fn with_lengths(old: &[u32]) -> Vec<u32> {
    let (d, n) = (old[1], old[2]);
    let mut sheet = [&old[..10], &vec![n; 1 + d as usize], &old[10..]].concat();
    sheet[5..10].iter_mut().for_each(|place| *place += 1 + d);
    sheet
}

fn without_lengths(sheet: &[u32]) -> Vec<u32> {
    let (d, roots, total) = (sheet[1], sheet[5] as usize, sheet[9] as usize);
    let mut old = [&sheet[..10], &sheet[roots..total]].concat();
    old[5..10].iter_mut().for_each(|place| *place -= 1 + d);
    old
}

/// What today's sheet was opened with.
fn given(sheet: &[u32]) -> Given {
    let [p, d, n, _, _, roots, rows, factors, ..] = *sheet else { unreachable!("eleven words") };
    let [roots, rows, factors] = [roots, rows, factors].map(|place| place as usize);
    let entries = sheet[roots..rows].chunks(2).map(|entry| entry[0]);
    Given { p, d, n, f: sheet[rows..factors].to_vec(), lengths: sheet[11..roots].to_vec(), roots: entries.collect() }
}

/// Extended to N it is what a fresh sheet of its polynomial is, extended to N.
fn expect_kept(random: &mut Random, report: &mut Report, name: &str, sheet: &[u32]) {
    let (n, total) = (sheet[2], sheet[9] as usize);
    let fresh = opened(random, report, &given(sheet));
    let expected = extend(report, &fresh[..total], n);
    let extended = extend(report, sheet, n);
    let sound = test(report, sheet);
    report.expect(sound, &format!("{name} is sound"));
    report.expect(extended.outcome == Ok(n) && extended.words == expected.words, &format!("{name} extends to a fresh sheet's words"));
}

/// Also where more words follow, as many as today's layout has more.
fn expect_spoiled(report: &mut Report, name: &str, sheet: &[u32]) {
    let (d, n, k) = (sheet[1] as usize, sheet[2], sheet[3]);
    let longer = [sheet, &vec![n; 1 + d]].concat();
    for sheet in [sheet, &longer] {
        let sound = test(report, sheet);
        report.expect(!sound, &format!("{name} is not sound: {sheet:?}"));
    }
    for w in [k, n, 0, n + 1] {
        let outcome = extend(report, sheet, w).outcome;
        report.expect(outcome == Err((13, 0)), &format!("{name} is refused by 13 for {w} terms: {sheet:?}"));
    }
}

fn stored(random: &mut Random, report: &mut Report, (name, roots, text): Stored) {
    let old = words(text);
    let without = without_cofactors(&old);
    report.expect(old[4] as usize == roots, &format!("{name} is a sheet of {roots} roots"));
    report.expect(with_cofactors(&without) == old, &format!("{name} is laid out as in document 01"));
    expect_spoiled(report, name, &old);
    expect_spoiled(report, &format!("{name} without its cofactors"), &without);
    expect_kept(random, report, &format!("{name} with lengths"), &with_lengths(&without));
    report.kind(if has_cofactors(roots) {
        "old layout: a stored sheet of three roots or more"
    } else {
        "old layout: a stored sheet of one or two roots"
    });
}

/// A sound sheet of today, laid out as by F-8 and as in document 01.
pub fn fresh(report: &mut Report, sheet: &[u32]) {
    let old = without_lengths(sheet);
    expect_spoiled(report, "F-8's layout", &old);
    if has_cofactors(sheet[4] as usize) {
        report.kind("old layout: a sheet without lengths, of three roots or more");
        expect_spoiled(report, "document 01's layout", &with_cofactors(&old));
        report.kind("old layout: a sheet without lengths and with cofactors");
    } else {
        report.kind("old layout: a sheet without lengths, of one or two roots");
    }
}

pub fn run(random: &mut Random, report: &mut Report) {
    STORED.into_iter().for_each(|sheet| stored(random, report, sheet));
}
