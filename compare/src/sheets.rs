//! Factor sheets: opened, worked on by lists of calls, and damaged word by word.

use crate::calls::several_goes;
use crate::finding::find;
use crate::lengths;
use crate::old_layout;
use crate::polynomials::{self, Given};
use crate::random::Random;
use crate::reading;
use crate::report::{engine, second, Called, Report};
use crate::simple::roots;
use bopkheul::sheet as e;
use second::sheet as s;

#[derive(Clone, Copy)]
enum Fault {
    Modulus,
    Degree,
    Terms,
    Rows,
    Lengths,
    Word,
    Root,
    Length,
    PastLength,
    Monic,
    Roots,
    Split,
}

const FAULTS: [Fault; 12] = [
    Fault::Modulus,
    Fault::Degree,
    Fault::Terms,
    Fault::Rows,
    Fault::Lengths,
    Fault::Word,
    Fault::Root,
    Fault::Length,
    Fault::PastLength,
    Fault::Monic,
    Fault::Roots,
    Fault::Split,
];

fn spoil_roots(random: &mut Random, roots: &mut Vec<u32>, d: u32) {
    match random.below(4) {
        0 => roots.clear(),
        1 => roots.reverse(),
        2 => roots.extend_from_within(..1.min(roots.len())),
        _ => *roots = (0..=d.min(99)).collect(),
    }
}

/// A list of lengths that is too short, too long, or empty.
fn spoil_lengths(random: &mut Random, lengths: &mut Vec<u32>) {
    match random.below(3) {
        0 => drop(lengths.pop()),
        1 => lengths.push(1),
        _ => lengths.clear(),
    }
}

/// A word past the length of a row, where it has one.
fn spoil_past_length(random: &mut Random, given: &mut Given) {
    let rows = given.f.chunks_mut(given.n.clamp(1, 256) as usize).zip(&given.lengths);
    let mut past: Vec<&mut u32> = rows.flat_map(|(row, &length)| row.iter_mut().skip(length as usize)).collect();
    if !past.is_empty() {
        let at = random.below(past.len() as u32) as usize;
        *past[at] = 1;
    }
}

fn spoil(random: &mut Random, given: &mut Given, fault: Fault) {
    let any = random.next() as usize;
    match fault {
        Fault::Modulus => given.p = random.bad_modulus(),
        Fault::Degree => given.d = random.pick(&[0, 33, u32::MAX, 1 << 31]),
        Fault::Terms => given.n = random.pick(&[0, 257, u32::MAX]),
        Fault::Rows if random.once_in(2) => given.f.push(0),
        Fault::Rows => drop(given.f.pop()),
        Fault::Lengths => spoil_lengths(random, &mut given.lengths),
        Fault::Word if !given.f.is_empty() => {
            let at = any % given.f.len();
            given.f[at] = random.edge_word(given.p);
        }
        Fault::Root if !given.roots.is_empty() => {
            let at = any % given.roots.len();
            given.roots[at] = random.edge_word(given.p);
        }
        Fault::Length if !given.lengths.is_empty() => {
            let at = any % given.lengths.len();
            given.lengths[at] = random.bad_known(given.n);
        }
        Fault::PastLength => spoil_past_length(random, given),
        Fault::Monic if !given.f.is_empty() => {
            let top = given.f.len().saturating_sub(given.n.clamp(1, 256) as usize);
            let at = top + any % (given.f.len() - top);
            given.f[at] = random.below(given.p.clamp(1, 4));
        }
        Fault::Roots => spoil_roots(random, &mut given.roots, given.d),
        Fault::Split if random.once_in(2) => drop(given.roots.pop()),
        Fault::Split if !given.f.is_empty() => given.f[0] = random.below(given.p.max(1)),
        _ => {}
    }
}

/// T of the sheet: eleven header words, the lengths, roots with powers, D + 1 rows of the polynomial and D of the factors.
pub fn total(given: &Given) -> u32 {
    11 + given.d + 2 * given.roots.len() as u32 + (2 * given.d + 1) * given.n
}

pub fn open(report: &mut Report, given: &Given, out: &[u32]) -> Called<u32> {
    let Given { p, d, n, f, lengths, roots } = given;
    let (p, d, n) = (*p, *d, *n);
    let input = || format!("p {p} d {d} n {n} f {f:?} lengths {lengths:?} roots {roots:?}");
    let mine = |o: &mut [u32]| engine(e::open(p, d, n, f, lengths, roots, o));
    report.call("sheet open", input, &[f, lengths, roots], out, mine, |o| second(s::open(p, d, n, f, lengths, roots, o)))
}

pub fn extend(report: &mut Report, sheet: &[u32], w: u32) -> Called<u32> {
    report.call("sheet extend", || format!("w {w}"), &[], sheet, |o| engine(e::extend(o, w)), |o| second(s::extend(o, w)))
}

pub fn correct(report: &mut Report, sheet: &[u32], j: u32, t: u32, entry: u32) -> Called<u32> {
    let input = || format!("j {j} t {t} entry {entry}");
    report.call("sheet correct", input, &[], sheet, |o| engine(e::correct(o, j, t, entry)), |o| second(s::correct(o, j, t, entry)))
}

pub fn test(report: &mut Report, sheet: &[u32]) -> bool {
    let called = report.call("sheet test", String::new, &[], sheet, |o| Ok(e::test(o) as u32), |o| Ok(s::test(o) as u32));
    called.outcome == Ok(1)
}

/// A fresh sheet and perhaps some words more; T words are enough for it, and T − 1 are not.
pub fn opened(random: &mut Random, report: &mut Report, given: &Given) -> Vec<u32> {
    let total = total(given);
    let more = random.below(4);
    let out = random.junk((total + more) as usize);
    let short = open(report, given, &out[..total as usize - 1]).outcome;
    let exact = open(report, given, &out[..total as usize]).outcome;
    let sheet = open(report, given, &out).words;
    report.expect(short == Err((10, total)) && exact == Ok(total), &format!("a sheet takes {total} words: {sheet:?}"));
    report.expect(sheet[8..11] == [total, total, given.reach()], &format!("header words 8 to 10 are T, T and the least length: {sheet:?}"));
    report.expect(sheet[11..].starts_with(&given.lengths), &format!("the lengths come after the header: {sheet:?}"));
    report.kind("sheet: opened into T − 1 words and into T");
    sheet
}

fn opening(random: &mut Random, report: &mut Report) {
    let (p, d, n) = (random.prime(), random.degree().max(1), random.columns());
    let mut given = polynomials::any(random, report, p, d, n);
    let faults = random.faults(&FAULTS);
    faults.iter().for_each(|&fault| spoil(random, &mut given, fault));
    if faults.len() > 1 {
        report.kind("several faults at once");
    }
    let needed = match open(report, &given, &[]).outcome {
        Err((10, words)) => words as usize,
        _ => 64,
    };
    let room = random.room(needed);
    open(report, &given, &random.junk(room));
    find(report, &given, &random.junk(room));
}

/// Where a word of a sheet stands.
fn region(sheet: &[u32], at: usize) -> &'static str {
    let [_, d, n, k, _, roots, polynomial, factors, _, total, _] = sheet[..11] else { unreachable!("eleven words") };
    let at = at as u32;
    let worked = |from: u32| (at - from) % n < k;
    match at {
        0 | 3 => "sheet: p or k changed",
        8 => "sheet: header word 8 changed",
        9 => "sheet: header word 9 changed",
        10 => "sheet: header word 10 changed",
        _ if at < 10 => "sheet: D, N, r or an offset changed",
        _ if at < roots => "sheet: a length changed",
        _ if at < polynomial => ["sheet: root changed", "sheet: power changed"][(at - roots) as usize % 2],
        _ if at < polynomial + d * n && worked(polynomial) => "sheet: polynomial changed below k",
        _ if at < polynomial + d * n && past_length(sheet, at - polynomial) => "sheet: polynomial changed past a row's length",
        _ if at < polynomial + d * n => "sheet: polynomial changed from k up",
        _ if at < factors => "sheet: top row changed",
        _ if at < total => ["sheet: factor changed from k up", "sheet: factor changed below k"][worked(factors) as usize],
        _ => "sheet: a word past the end changed",
    }
}

/// Whether a word of the polynomial, counted from its first, is past its row's length.
fn past_length(sheet: &[u32], word: u32) -> bool {
    let n = sheet[2];
    word % n >= sheet[11 + (word / n) as usize]
}

/// Whether a sound sheet is still sound with another word in this region, where that does not depend on the factors.
fn verdict(region: &str, changed: &[u32], word: u32) -> Option<bool> {
    match region {
        "sheet: p or k changed" => None,
        "sheet: a length changed" => Some(lengths::fit(changed)),
        "sheet: polynomial changed from k up" => Some(word < changed[0]),
        "sheet: a word past the end changed" => Some(true),
        _ => Some(false),
    }
}

/// A place in a region chosen first, so that small regions come up as often as large ones.
fn place(random: &mut Random, sheet: &[u32]) -> usize {
    let edges = [0, 10, sheet[5], sheet[6], sheet[7], sheet[9], sheet.len() as u32];
    loop {
        let i = random.below(6) as usize;
        if edges[i] < edges[i + 1] {
            return random.within(edges[i], edges[i + 1] - 1) as usize;
        }
    }
}

fn judge_changed(random: &mut Random, report: &mut Report, changed: &[u32]) -> bool {
    let sound = test(report, changed);
    let w = random.below(changed.get(2).map_or(4, |n| n.wrapping_add(2)).max(1));
    let extended = extend(report, changed, w).outcome;
    let corrected = correct(report, changed, random.below(3), random.below(w.max(3)), random.below(4)).outcome;
    let rooted = roots(report, changed, &[]).outcome;
    let as_test_says = [extended, corrected, rooted].map(|outcome| sound != (outcome == Err((13, 0))));
    report.expect(as_test_says == [true; 3], &format!("extend, correct and roots refuse 13 where test says no, and only there: {changed:?}"));
    report.kind(if sound { "correction: a sheet changed by hand, still sound" } else { "correction: a sheet changed by hand, not sound" });
    reading::any(random, report, changed);
    sound
}

/// A changed sheet, of which it may be known whether it is sound.
pub fn judge_as(random: &mut Random, report: &mut Report, changed: &[u32], expected: Option<bool>, kind: &'static str) -> bool {
    let sound = judge_changed(random, report, changed);
    report.expect(sound == expected.unwrap_or(sound), &format!("{kind}, so {sound} is the wrong verdict: {changed:?}"));
    report.kind(kind);
    sound
}

fn change_a_word(random: &mut Random, report: &mut Report, sheet: &[u32]) {
    let mut changed = sheet.to_vec();
    let at = place(random, sheet);
    let (p, reduced) = (sheet[0], random.below(sheet[0]));
    let (old, n) = (changed[at], sheet[2]);
    changed[at] = random.pick(&[reduced, reduced, old.wrapping_add(1), old.wrapping_sub(1), 0, 1, n, p, old.wrapping_add(p), u32::MAX]);
    if changed[at] == old {
        return;
    }
    let region = region(sheet, at);
    match (region, judge_as(random, report, &changed, verdict(region, &changed, changed[at]), region)) {
        ("sheet: p or k changed", true) => report.kind("sheet: p or k changed, still sound"),
        ("sheet: a length changed", true) => report.kind("sheet: a length changed, still sound"),
        ("sheet: polynomial changed from k up", true) => report.kind("sheet: polynomial changed from k up, still sound"),
        _ => {}
    }
}

/// Header words 8 and 9 are both T: another number in one of them, or the same one in both.
fn change_total(random: &mut Random, report: &mut Report, sheet: &[u32]) {
    let (n, total, length) = (sheet[2], sheet[9], sheet.len() as u32);
    let other = random.pick(&[total - 1, total + 1, total - n, total + n, length + 1, 0, u32::MAX]);
    let (places, kind): (&[usize], _) = random.pick(&[
        (&[8][..], "sheet: header word 8 changed"),
        (&[9][..], "sheet: header word 9 changed"),
        (&[8, 9][..], "sheet: header words 8 and 9 changed alike"),
    ]);
    let mut changed = sheet.to_vec();
    places.iter().for_each(|&at| changed[at] = other);
    judge_as(random, report, &changed, Some(false), kind);
}

/// Two factors of one power exchanged, with their roots or without: the product is still f, but roots do not rise or factors stand by other roots.
fn exchange_factors(random: &mut Random, report: &mut Report, sheet: &[u32]) {
    let (n, r, roots, factors) = (sheet[2], sheet[4] as usize, sheet[5] as usize, sheet[7]);
    let power = |i: usize| sheet[roots + 2 * i + 1];
    let rows = |i: usize| (0..i).map(power).sum::<u32>() * n + factors;
    let Some(i) = (1..r).find(|&i| power(i) == power(0)) else { return };
    let mut changed = sheet.to_vec();
    (0..power(0) * n).for_each(|at| changed.swap((rows(0) + at) as usize, (rows(i) + at) as usize));
    if random.once_in(2) {
        changed.swap(roots, roots + 2 * i);
    }
    judge_as(random, report, &changed, Some(false), "sheet: two factors of one power exchanged");
}

fn cut_short(random: &mut Random, report: &mut Report, sheet: &[u32]) {
    let [roots, polynomial, factors, total] = [sheet[5], sheet[6], sheet[7], sheet[9]];
    let length = random.pick(&[0, 9, 10, 11, roots - 1, roots, polynomial, factors, total - 1, total / 2, total]);
    judge_as(random, report, &sheet[..length as usize], Some(length == total), "sheet: cut short");
}

/// A sheet with fewer terms, its later columns cleared, is sound; without clearing, as a rule not.
fn shorten(random: &mut Random, report: &mut Report, sheet: &[u32]) {
    let (n, k, from, to) = (sheet[2] as usize, sheet[3], sheet[7] as usize, sheet[9] as usize);
    let mut changed = sheet.to_vec();
    let terms = random.within(1, k);
    changed[3] = terms;
    if !random.once_in(4) {
        let rows = changed[from..to].chunks_mut(n);
        rows.for_each(|row| row[terms as usize..].fill(0));
    }
    judge_changed(random, report, &changed);
    report.kind("sheet: shortened to fewer terms");
}

/// Of Y^D every column past the first is 0, so that k may be raised by hand.
fn raise(random: &mut Random, report: &mut Report) {
    let (p, d, n) = (random.prime(), random.within(1, 5), random.within(2, 8));
    let mut given = polynomials::with_roots(random, report, p, d, n, 1);
    let width = n as usize;
    for (j, row) in given.f.chunks_mut(width).enumerate() {
        let spoiled = j == 0 && random.once_in(2);
        row[1..].fill(0);
        row[width - 1] = if spoiled { 1 } else { row[width - 1] };
    }
    let mut sheet = opened(random, report, &given);
    sheet[3] = random.within(2, n);
    judge_changed(random, report, &sheet);
    report.kind("sheet: k raised over columns of zeros");
}

fn life_of_a_sheet(random: &mut Random, report: &mut Report, given: &Given, changes: usize) {
    let fresh = opened(random, report, given);
    let sound = test(report, &fresh);
    report.expect(sound, &format!("an opened sheet is sound: {fresh:?}"));
    let (sheet, _) = several_goes(random, report, given, &fresh);
    reading::factors(random, report, &sheet);
    for _ in 0..changes {
        change_a_word(random, report, &sheet);
    }
    change_total(random, report, &sheet);
    exchange_factors(random, report, &sheet);
    lengths::damaged(random, report, &sheet);
    old_layout::fresh(report, &sheet);
    cut_short(random, report, &sheet);
    shorten(random, report, &sheet);
}

/// The largest sheets: simple roots as many as there can be, and few roots of high powers.
fn large(random: &mut Random, report: &mut Report) {
    for (p, count) in [(16_777_213, 32), (16_777_213, 2), (65_521, 32), (251, 32), (251, 7), (13, 13), (7, 3), (3, 3), (2, 2), (2, 1)] {
        let given = polynomials::with_roots(random, report, p, 32, 256, count);
        life_of_a_sheet(random, report, &given, 8);
        let short = polynomials::with_lengths(random, report, &given);
        for given in [given, short] {
            let at_once = opened(random, report, &given);
            extend(report, &at_once, given.reach());
        }
    }
}

/// Y³ splits alike modulo every prime, so its sheet stays sound under every modulus that is allowed, and under no other. 2^24 + 43 is a prime.
fn every_modulus_for_one_sheet(random: &mut Random, report: &mut Report) {
    let given = Given { p: 7, d: 3, n: 2, f: vec![0, 0, 0, 0, 0, 0, 1, 0], lengths: vec![2; 3], roots: vec![0] };
    let mut sheet = opened(random, report, &given);
    let allowed = [65_521, 65_537, 16_777_213].map(|p| (p, true));
    let refused = [65_535, 65_536, 16_777_215, 16_777_216, 16_777_259].map(|p| (p, false));
    for (p, sound) in allowed.into_iter().chain(refused) {
        sheet[0] = p;
        let is_sound = test(report, &sheet);
        report.expect(is_sound == sound, &format!("a sheet of Y³ modulo {p}, sound: {is_sound}"));
        extend(report, &sheet, 2);
        report.kind("sheet: moduli around 2^16 and 2^24");
    }
}

pub fn run(random: &mut Random, report: &mut Report) {
    every_modulus_for_one_sheet(random, report);
    (0..12_000).for_each(|_| opening(random, report));
    for _ in 0..3_000 {
        let (p, d, n) = (random.prime(), random.degree().clamp(1, 12), random.columns().min(24));
        let given = polynomials::any(random, report, p, d, n);
        life_of_a_sheet(random, report, &given, 12);
    }
    (0..500).for_each(|_| raise(random, report));
    large(random, report);
}
