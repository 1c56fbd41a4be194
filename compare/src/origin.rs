//! The origin moved: a polynomial that is cut to its least known length has, with Y + c for Y, the roots less c, and for factors the factors at Y + c. What comes near to
//! this is told from it: roots in another order or moved the other way, a polynomial that is not cut, and factors without their leading 1.

use crate::polynomials::{self, Given};
use crate::random::Random;
use crate::reading::{factor, factor_shift};
use crate::report::{Outcome, Report};
use crate::rows::shift;
use crate::sheets::{extend, open, opened, total};
use bopkheul::Factor;

/// A polynomial, the new origin, and the terms that it and its variant are worked to.
#[derive(Debug)]
struct Case {
    given: Given,
    c: u32,
    k: u32,
}

fn all_alike(lengths: &[u32]) -> bool {
    lengths.iter().all(|&length| length == lengths[0])
}

/// Kinds of a case with these moved roots, which stand in f's own order.
fn kinds(case: &Case, moved: &[u32]) -> [(bool, &'static str); 17] {
    let Case { given: Given { p, d, n, ref lengths, ref roots, .. }, c, k } = *case;
    let (reach, alike, several) = (case.given.reach(), all_alike(lengths), roots.len() > 1);
    [
        (alike && reach == n, "origin: all lengths N"),
        (alike && reach < n, "origin: equal lengths below N"),
        (!alike, "origin: lengths that differ, cut to the least"),
        (c == 0, "origin: c is 0"),
        (c > 0 && roots.contains(&c), "origin: c is a root of f"),
        (c + 1 == p, "origin: c is p − 1"),
        (!moved.is_sorted(), "origin: the moved list is turned"),
        (c > 0 && several && moved.is_sorted(), "origin: the moved list keeps its order"),
        (roots.len() < d as usize, "origin: a factor of power above 1"),
        (p < d, "origin: p is below the degree"),
        (d > 1 && !several, "origin: one root of power D"),
        (roots.len() == 32, "origin: 32 simple roots"),
        (d == 32, "origin: D is 32"),
        (n == 256, "origin: N is 256"),
        (p == 16_777_213, "origin: p is 16,777,213"),
        (k == 1 && reach > 1, "origin: worked to one term only"),
        (k == reach && reach > 1, "origin: worked to the least length"),
    ]
}

/// The same, known to the least length in all rows.
fn cut(given: &Given) -> Given {
    given.cut(vec![given.reach(); given.d as usize])
}

/// Rows of degree bound d, f's own or a factor's, at Y + c.
fn moved_rows(random: &mut Random, report: &mut Report, given: &Given, d: u32, rows: &[u32], c: u32) -> Vec<u32> {
    let called = shift(report, given.p, d, given.n, rows, c, &random.junk(rows.len()));
    let outcome = called.outcome;
    report.expect(outcome == Ok(rows.len() as u32), &format!("{rows:?}, of degree bound {d}, shifted by {c} comes to {outcome:?}, for {given:?}"));
    called.words
}

/// The roots, in their own order, when the origin is moved to c.
fn moved_roots(given: &Given, c: u32) -> Vec<u32> {
    given.roots.iter().map(|root| (root + given.p - c) % given.p).collect()
}

/// With Y + c for Y, and the moved roots in rising order.
fn variant(random: &mut Random, report: &mut Report, given: &Given, c: u32) -> Given {
    let mut roots = moved_roots(given, c);
    roots.sort();
    Given { f: moved_rows(random, report, given, given.d, &given.f, c), roots, ..given.clone() }
}

/// Works a fresh sheet to k terms, in one go or in several.
fn worked(random: &mut Random, report: &mut Report, fresh: &[u32], k: u32) -> Vec<u32> {
    let mut goes: Vec<u32> = (0..random.below(3)).map(|_| random.within(1, k)).filter(|&w| w > 1).collect();
    goes.push(k);
    goes.sort();
    goes.dedup();
    if goes.len() > 1 {
        report.kind("origin: worked in several goes");
    }
    let mut sheet = fresh.to_vec();
    for w in goes {
        let called = extend(report, &sheet, w);
        report.expect(called.outcome == Ok(w), &format!("{sheet:?} is worked to {w} terms: {:?}", called.outcome));
        sheet = called.words;
    }
    sheet
}

/// A sheet in this room, which is just enough, worked to k terms.
fn in_room(random: &mut Random, report: &mut Report, given: &Given, room: u32, k: u32) -> Vec<u32> {
    let called = open(report, given, &random.junk(room as usize));
    report.expect(called.outcome == Ok(room), &format!("open into {room} words comes to {:?}, of {given:?}", called.outcome));
    worked(random, report, &called.words, k)
}

/// No more is known than to f's least length, in any row, and so no term more can be worked.
fn expect_reach(report: &mut Report, case: &Case, sheet: &[u32]) {
    let reach = case.given.reach();
    let alike = sheet[10..sheet[5] as usize].iter().all(|&length| length == reach);
    let beyond = extend(report, sheet, reach + 1).outcome;
    let right = alike && beyond == Err((14, 0));
    report.expect(right, &format!("all lengths are {reach}, and a term more is refused: {beyond:?}, of {sheet:?}, for {case:?}"));
}

/// The factors of a sheet, as they are read.
fn factors<'a>(report: &mut Report, sheet: &'a [u32]) -> Vec<Factor<'a>> {
    let mut read = |i: u32| {
        let found = factor(report, sheet, i, &[9; 4]);
        report.expect(found.outcome == Ok(4), &format!("factor {i} is read: {:?}, of {sheet:?}", found.outcome));
        let [root, power, start, length] = found.words[..] else { unreachable!("four words") };
        Factor { root, power, rows: &sheet[start as usize..(start + length) as usize] }
    };
    (0..sheet[4]).map(&mut read).collect()
}

/// The rows of a factor, its leading 1 among them.
fn with_leading_1(n: u32, rows: &[u32]) -> Vec<u32> {
    let mut all = rows.to_vec();
    all.push(1);
    all.resize(rows.len() + n as usize, 0);
    all
}

/// The part of factor i that the sheet keeps, shifted as it is: the variant's for c = 0 only, since the leading 1 adds a power of c to row 0.
fn without_leading_1(random: &mut Random, report: &mut Report, case: &Case, sheet: &[u32], i: u32, right: &[u32]) {
    let called = factor_shift(report, sheet, i, case.c, &random.junk(right.len()));
    let told = called.outcome == Ok(right.len() as u32) && (called.words == right) == (case.c == 0);
    report.expect(told, &format!("the part of factor {i} becomes {:?}, the factor {right:?}, of {case:?}", called.words));
    if case.c > 0 {
        report.kind("origin: a factor's part shifted without its leading 1 is another");
    }
}

/// Each factor at Y + c, its leading 1 among its rows, is the variant's factor by the moved root, and the variant has no others.
fn expect_moved(random: &mut Random, report: &mut Report, case: &Case, sheet: &[u32], of_cut: &[Factor], of_variant: &[Factor]) {
    let Case { given, c, .. } = case;
    report.expect(of_cut.len() == of_variant.len(), &format!("the variant has the factors {of_variant:?}, of {case:?}"));
    for ((i, factor), root) in (0..).zip(of_cut).zip(moved_roots(given, *c)) {
        let moved = moved_rows(random, report, given, factor.power, &with_leading_1(given.n, factor.rows), *c);
        let found = of_variant.iter().find(|other| other.root == root && other.power == factor.power);
        let right = found.is_some_and(|other| with_leading_1(given.n, other.rows) == moved);
        report.expect(right, &format!("{factor:?} becomes {moved:?}, by the root {root}, and the variant has {of_variant:?}, of {case:?}"));
        without_leading_1(random, report, case, sheet, i, &moved[..factor.rows.len()]);
    }
}

fn expect(report: &mut Report, given: &Given, expected: Outcome, kind: &'static str) {
    let outcome = open(report, given, &vec![9; total(given) as usize]).outcome;
    report.expect(outcome == expected, &format!("{kind}: open comes to {outcome:?} and not {expected:?}, of {given:?}"));
    report.kind(kind);
}

/// The variant with roots that are not those moved, or are not in order, where there are such.
fn wrong_roots(report: &mut Report, case: &Case, variant: &Given) {
    let Case { given, c, .. } = case;
    let moved = moved_roots(given, *c);
    if !moved.is_sorted() {
        expect(report, &Given { roots: moved, ..variant.clone() }, Err((8, 0)), "origin: refused by 8, the moved list in f's own order");
    }
    let mut other_way = moved_roots(given, (given.p - c) % given.p);
    other_way.sort();
    if other_way != variant.roots {
        expect(report, &Given { roots: other_way, ..variant.clone() }, Err((9, 0)), "origin: refused by 9, the roots moved the other way");
    }
}

/// A polynomial with lengths that differ, moved as it is: 21, where this brings a word past the length of a row, and only there.
fn not_cut(random: &mut Random, report: &mut Report, case: &Case) {
    let moved = variant(random, report, &case.given, case.c);
    if moved.f == moved.cut(moved.lengths.clone()).f {
        expect(report, &moved, Ok(total(&moved)), "origin: not cut, and no word past a length");
    } else {
        expect(report, &moved, Err((21, 0)), "origin: refused by 21, not cut");
    }
}

/// Where all lengths are alike there is nothing to cut; else f is moved as it is, too.
fn expect_cut(random: &mut Random, report: &mut Report, case: &Case, cut: &Given) {
    let given = &case.given;
    if all_alike(&given.lengths) {
        report.expect(cut.f == given.f && cut.lengths == given.lengths, &format!("there is nothing to cut in {given:?}"));
    } else {
        not_cut(random, report, case);
    }
}

/// The sheets of f, of the cut polynomial and of its variant, all in f's own room.
fn sheets(random: &mut Random, report: &mut Report, case: &Case, cut: &Given, variant: &Given) -> [Vec<u32>; 3] {
    let Case { given, k, .. } = case;
    let fresh = opened(random, report, given);
    let own = worked(random, report, &fresh, *k);
    let [cut, variant] = [cut, variant].map(|other| in_room(random, report, other, total(given), *k));
    expect_reach(report, case, &cut);
    expect_reach(report, case, &variant);
    [own, cut, variant]
}

/// From f to the variant's factors, and back.
fn compare(random: &mut Random, report: &mut Report, case: &Case) {
    let Case { given, c, .. } = case;
    let cut = cut(given);
    expect_cut(random, report, case, &cut);
    let variant = variant(random, report, &cut, *c);
    let all = sheets(random, report, case, &cut, &variant);
    let [of_f, of_cut, of_variant] = all.each_ref().map(|sheet| factors(report, sheet));
    report.expect(of_f == of_cut, &format!("the cut polynomial has the factors {of_cut:?} and not {of_f:?}, of {case:?}"));
    expect_moved(random, report, case, &all[1], &of_cut, &of_variant);
    let back = moved_rows(random, report, &variant, variant.d, &variant.f, (given.p - c) % given.p);
    report.expect(back == cut.f, &format!("moved back the variant is {back:?} and not the cut polynomial, of {case:?}"));
    wrong_roots(report, case, &variant);
    kinds(case, &moved_roots(given, *c)).iter().filter(|(holds, _)| *holds).for_each(|(_, kind)| report.kind(kind));
}

/// Any number below p; now and then a root, or one at a limit.
fn any_origin(random: &mut Random, given: &Given) -> u32 {
    let (root, any) = (random.pick(&given.roots), random.below(given.p));
    random.pick(&[0, root, given.p - 1, any, any, any])
}

/// One term, as many as are known, or any number.
fn any_terms(random: &mut Random, given: &Given) -> u32 {
    let any = random.within(1, given.reach());
    random.pick(&[1, given.reach(), given.reach(), any, any])
}

fn small(random: &mut Random, report: &mut Report) {
    let (p, d, n) = (random.prime(), random.degree().clamp(1, 12), random.columns().min(24));
    let given = polynomials::any(random, report, p, d, n);
    let case = Case { c: any_origin(random, &given), k: any_terms(random, &given), given };
    compare(random, report, &case);
}

fn every_origin(random: &mut Random, report: &mut Report, p: u32) {
    let (d, n) = (random.within(1, 8), random.within(1, 6));
    let given = polynomials::any(random, report, p, d, n);
    for c in 0..p {
        let case = Case { c, k: any_terms(random, &given), given: given.clone() };
        compare(random, report, &case);
    }
    report.kind("origin: every c below p");
}

/// One row is known further than all others, with a word there that is not 0: c takes it down into row 0.
fn carried(random: &mut Random, report: &mut Report) {
    let (p, d, n) = (random.prime(), random.within(2, 8), random.within(2, 12));
    let known = polynomials::known(random, report, p, d, n);
    let (row, least) = (random.within(1, d - 1), random.within(1, n - 1));
    let mut lengths = vec![least; d as usize];
    lengths[row as usize] = n;
    let given = known.cut(lengths).with_word(row, random.within(least, n - 1), random.within(1, p - 1));
    let case = Case { c: random.within(1, p - 1), k: any_terms(random, &given), given };
    compare(random, report, &case);
    let moved = variant(random, report, &case.given, case.c);
    expect(report, &moved, Err((21, 0)), "origin: refused by 21, not cut, one row known further than the others");
}

/// The most rows or columns, so many roots, and known to so many terms, all of which are worked.
fn large(random: &mut Random, report: &mut Report) {
    let all = [
        (16_777_213, 32, 256, 32, 256),
        (16_777_213, 32, 256, 2, 256),
        (16_777_213, 32, 24, 32, 24),
        (16_777_213, 3, 256, 3, 255),
        (65_537, 32, 256, 8, 200),
        (251, 32, 40, 32, 33),
        (31, 32, 64, 31, 64),
        (7, 32, 256, 7, 256),
        (3, 32, 256, 1, 255),
        (2, 32, 256, 2, 254),
        (2, 2, 256, 2, 256),
    ];
    for (p, d, n, count, reach) in all {
        let known = polynomials::with_roots(random, report, p, d, n, count);
        let given = polynomials::with_reach(random, &known, reach);
        let case = Case { c: random.within(1, p - 1), k: reach, given };
        compare(random, report, &case);
    }
}

pub fn run(random: &mut Random, report: &mut Report) {
    (0..3_000).for_each(|_| small(random, report));
    for p in [2, 3, 5, 7] {
        (0..100).for_each(|_| every_origin(random, report, p));
    }
    (0..600).for_each(|_| carried(random, report));
    large(random, report);
}
