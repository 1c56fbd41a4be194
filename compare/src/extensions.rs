//! What extend refuses, and in which order: 13 for the words of the sheet, before 14 and 15 for w.

use crate::polynomials;
use crate::random::Random;
use crate::report::{Outcome, Report};
use crate::sheets::{extend, opened};

/// The w that rows 14 and 15 refuse, nearest to those that they pass, each with its number: of a right sheet.
fn refused_w(sheet: &[u32]) -> Vec<(u32, u32)> {
    let (n, k, reach) = (sheet[2], sheet[3], sheet[10]);
    let beyond = [0, reach + 1, n, n + 1, u32::MAX].into_iter().filter(|&w| w == 0 || w > reach);
    let behind = (k > 1).then_some((k - 1, 15));
    beyond.map(|w| (w, 14)).chain(behind).collect()
}

fn kind_of(sheet: &[u32], w: u32, number: u32) -> &'static str {
    let (n, reach) = (sheet[2], sheet[10]);
    match number {
        15 => "extend: a right sheet, w is k − 1",
        _ if w == 0 || w > n => "extend: a right sheet, w is 0 or above N",
        _ if w == reach + 1 => "extend: a right sheet, w is word 10 and one more, and at most N",
        _ => "extend: a right sheet, w is N and well above word 10",
    }
}

fn expect(report: &mut Report, sheet: &[u32], w: u32, expected: Outcome) {
    let outcome = extend(report, sheet, w).outcome;
    report.expect(outcome == expected, &format!("extend to {w} comes to {outcome:?} and not {expected:?}, of {sheet:?}"));
}

fn right(report: &mut Report, sheet: &[u32]) {
    let (k, reach) = (sheet[3], sheet[10]);
    for (w, number) in refused_w(sheet) {
        expect(report, sheet, w, Err((number, 0)));
        report.kind(kind_of(sheet, w, number));
    }
    let same = extend(report, sheet, k);
    report.expect(same.outcome == Ok(k) && same.words == sheet, &format!("extend to the terms there changes nothing in {sheet:?}"));
    expect(report, sheet, reach, Ok(reach));
    report.kind("extend: a right sheet, w is word 10");
}

fn one_word_less(report: &mut Report, sheet: &[u32]) {
    let (n, k, total, reach) = (sheet[2], sheet[3], sheet[9] as usize, sheet[10]);
    for w in [0, k - 1, k, reach, reach + 1, n, n + 1] {
        expect(report, &sheet[..total - 1], w, Err((13, 0)));
    }
    report.kind("extend: T − 1 words, any w");
}

/// Another number in column t of some factor's row: mostly a reduced one, now and then one that is the same modulo p.
fn change_factor(random: &mut Random, sheet: &[u32], t: u32) -> Vec<u32> {
    let [p, d, n, ..] = *sheet else { unreachable!("eleven words") };
    let mut changed = sheet.to_vec();
    let word = &mut changed[(sheet[7] + random.below(d) * n + t) as usize];
    *word = if random.once_in(4) { *word + p } else { random.other(p, *word) };
    changed
}

/// Wrong in column t, whatever w is: 13.
fn wrong(random: &mut Random, report: &mut Report, sheet: &[u32], t: u32) {
    let (k, reach) = (sheet[3], sheet[10]);
    let changed = change_factor(random, sheet, t);
    expect(report, &changed, k, Err((13, 0)));
    report.kind(if t < k { "extend: a factor wrong below k, w = k" } else { "extend: a factor wrong from k up, w = k" });
    for w in [k + 1, reach].into_iter().filter(|&w| k < w && w <= reach) {
        expect(report, &changed, w, Err((13, 0)));
        report.kind(if t < k { "extend: a factor wrong below k, w > k" } else { "extend: a factor wrong from k up, w > k" });
    }
    for (w, _) in refused_w(sheet) {
        expect(report, &changed, w, Err((13, 0)));
        if t == k - 1 {
            report.kind("extend: a factor wrong in column k − 1, w is refused too");
        }
    }
}

fn boundaries(random: &mut Random, report: &mut Report, sheet: &[u32], columns: &[u32]) {
    right(report, sheet);
    one_word_less(report, sheet);
    columns.iter().for_each(|&t| wrong(random, report, sheet, t));
}

/// Every column of a small sheet.
fn small(random: &mut Random, report: &mut Report) {
    let (p, d, n) = (random.prime(), random.degree().clamp(1, 12), random.columns().min(24));
    let given = polynomials::any(random, report, p, d, n);
    let fresh = opened(random, report, &given);
    let k = random.within(1, given.reach());
    let sheet = extend(report, &fresh, k).words;
    boundaries(random, report, &sheet, &(0..n).collect::<Vec<_>>());
}

/// Columns around k, and the first and last, of the largest sheets, known to all columns or fewer.
fn large(random: &mut Random, report: &mut Report) {
    for (p, count, k, reach) in [(65_521, 32, 1, 256), (16_777_213, 8, 128, 128), (251, 3, 255, 255), (7, 7, 256, 256), (2, 2, 100, 101)] {
        let known = polynomials::with_roots(random, report, p, 32, 256, count);
        let given = polynomials::with_reach(random, &known, reach);
        let fresh = opened(random, report, &given);
        let sheet = extend(report, &fresh, k).words;
        let columns: Vec<u32> = [0, k - 1, k, 255].into_iter().filter(|&t| t < 256).collect();
        boundaries(random, report, &sheet, &columns);
    }
}

pub fn run(random: &mut Random, report: &mut Report) {
    (0..600).for_each(|_| small(random, report));
    large(random, report);
}
