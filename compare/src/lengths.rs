//! Rows known to different lengths: what open and find refuse of them, what a sound sheet has of them, and that the factors depend on no unknown entry below the least
//! length, but do in the next column.

use crate::finding::find;
use crate::polynomials::{self, Given};
use crate::random::Random;
use crate::report::{every_set, Fault, Outcome, Report};
use crate::sheets::{extend, judge_as, open, opened, total};

/// Whether the lengths of a sheet that is sound in all else are those of a sound one: each from 1 to N with 0 past it in its row, their least in word 10, and no
/// more terms worked.
pub fn fit(sheet: &[u32]) -> bool {
    let (n, k, reach, polynomial) = (sheet[2] as usize, sheet[3], sheet[10], sheet[6] as usize);
    let lengths = &sheet[11..sheet[5] as usize];
    let known = |(row, &length): (&[u32], &u32)| (least_length(row)..=n as u32).contains(&length);
    sheet[polynomial..].chunks(n).zip(lengths).all(known) && lengths.iter().min() == Some(&reach) && k <= reach
}

/// The least length of a row that leaves nothing but 0 past it.
fn least_length(row: &[u32]) -> u32 {
    row.iter().rposition(|&word| word != 0).map_or(1, |t| t as u32 + 1)
}

/// Other lengths, and their least in word 10.
fn with_lengths(sheet: &[u32], lengths: &[u32]) -> Vec<u32> {
    let mut changed = sheet.to_vec();
    changed[10] = *lengths.iter().min().expect("a sheet has lengths");
    changed[11..11 + lengths.len()].copy_from_slice(lengths);
    changed
}

/// Another number in word 10 alone.
fn change_reach(random: &mut Random, report: &mut Report, sheet: &[u32]) {
    let (n, k, reach) = (sheet[2], sheet[3], sheet[10]);
    let mut changed = sheet.to_vec();
    changed[10] = random.pick(&[0, reach - 1, reach + 1, k, n, n + 1, u32::MAX]);
    let kind = match changed[10] {
        same if same == reach => return,
        0 => "lengths: word 10 is 0",
        less if less < reach => "lengths: word 10 is too low",
        _ => "lengths: word 10 is too high",
    };
    judge_as(random, report, &changed, Some(false), kind);
}

/// Other lengths with their least in word 10. The sheet may be sound with them, since nothing else in it says what they were.
fn change_lengths(random: &mut Random, report: &mut Report, sheet: &[u32]) {
    let (n, k, old) = (sheet[2], sheet[3], &sheet[11..sheet[5] as usize]);
    let at = random.below(old.len() as u32) as usize;
    let mut lengths = old.to_vec();
    match random.below(5) {
        0 => lengths.fill(n),
        1 => lengths.iter_mut().for_each(|length| *length = random.within(*length, n)),
        2 => lengths.iter_mut().for_each(|length| *length = random.within(k, *length)),
        3 => lengths[at] = random.pick(&[lengths[at] - 1, k, k - 1]),
        _ => lengths[at] = random.bad_known(n),
    }
    if lengths == old {
        return;
    }
    let changed = with_lengths(sheet, &lengths);
    let sound = fit(&changed);
    let kind = if sound { "lengths: changed with word 10, still sound" } else { "lengths: changed with word 10, no longer sound" };
    judge_as(random, report, &changed, Some(sound), kind);
}

/// A sound sheet with a word or more of its lengths changed.
pub fn damaged(random: &mut Random, report: &mut Report, sheet: &[u32]) {
    change_reach(random, report, sheet);
    change_lengths(random, report, sheet);
}

/// Rows that end with zeros: each length down to the last word that is not 0 is as good as N, as long as no more terms are worked; the next one is not.
fn lowered(random: &mut Random, report: &mut Report) {
    let (p, d, n) = (random.prime(), random.degree().clamp(1, 12), random.columns().clamp(2, 24));
    let given = polynomials::any(random, report, p, d, n).all_known();
    let fresh = opened(random, report, &given);
    let k = random.within(1, n);
    let sheet = extend(report, &fresh, k).words;
    let rows = given.f.chunks(n as usize).take(d as usize);
    for (j, least) in rows.map(least_length).enumerate() {
        let mut judge = |length: u32, sound: bool, kind: &'static str| {
            let mut lengths = given.lengths.clone();
            lengths[j] = length;
            judge_as(random, report, &with_lengths(&sheet, &lengths), Some(sound), kind);
        };
        judge(least.max(k), true, "lengths: lowered as far as the row and the terms worked allow");
        match least.max(k) - 1 {
            0 => judge(0, false, "lengths: lowered to 0"),
            lower if least > k => judge(lower, false, "lengths: lowered below a word that is not 0"),
            lower => judge(lower, false, "lengths: lowered below the terms worked"),
        }
    }
}

/// A polynomial whose least length is below N.
fn short(random: &mut Random, report: &mut Report) -> Given {
    let (p, d, n) = (random.prime(), random.degree().clamp(1, 12), random.columns().clamp(2, 24));
    let known = polynomials::known(random, report, p, d, n);
    let least = random.known(n - 1);
    polynomials::with_reach(random, &known, least)
}

/// A sheet that was worked a term too far, as if its unknown entries were known to be 0: all that is wrong is that k is above word 10.
fn worked_too_far(random: &mut Random, report: &mut Report) {
    let given = short(random, report);
    let fresh = opened(random, report, &given.all_known());
    for (k, sound, kind) in [
        (given.reach(), true, "lengths: k is word 10"),
        (given.reach() + 1, false, "lengths: k is above word 10, and all else is right"),
        (given.n, false, "lengths: k is N, above word 10, and all else is right"),
    ] {
        let sheet = extend(report, &fresh, k).words;
        judge_as(random, report, &with_lengths(&sheet, &given.lengths), Some(sound), kind);
    }
}

/// Open, and find, which is judged alike.
fn expect(report: &mut Report, given: &Given, expected: Outcome, kind: &'static str) {
    let out = vec![9; total(given) as usize + 1];
    for outcome in [open(report, given, &out).outcome, find(report, given, &out).outcome] {
        report.expect(outcome == expected, &format!("{kind}: the outcome is {outcome:?} and not {expected:?}, of {given:?}"));
    }
    report.kind(kind);
}

/// Every row's length, and the words on both sides of it.
fn boundaries(random: &mut Random, report: &mut Report, given: &Given) {
    let (n, all) = (given.n, Ok(total(given)));
    for (j, &length) in (0..).zip(&given.lengths) {
        for outside in [0, n + 1, u32::MAX] {
            let mut changed = given.clone();
            changed.lengths[j as usize] = outside;
            expect(report, &changed, Err((21, 0)), "open and find: a length outside 1..N");
        }
        if length < n {
            expect(report, &given.with_word(j, length, 1), Err((21, 0)), "open and find: a word at its row's length is not 0");
            expect(report, &given.with_word(j, n - 1, 1), Err((21, 0)), "open and find: a row's last word is past its length and not 0");
            expect(report, &given.with_word(j, length, given.p), Err((6, j * n + length)), "open and find: a word past its row's length is p");
        }
        if length > 1 {
            let word = random.below(given.p);
            expect(report, &given.with_word(j, length - 1, word), all, "open and find: any word before its row's length");
        }
    }
    expect(report, &given.with_word(given.d, n - 1, 1), Err((7, 0)), "open and find: the top row has no length");
}

/// As many lengths as there are rows below the top one, and neither more nor fewer.
fn counted(report: &mut Report, given: &Given) {
    let d = given.d as usize;
    for count in [0, d - 1, d + 1, 40] {
        let mut changed = given.clone();
        changed.lengths.resize(count, given.n);
        expect(report, &changed, Err((5, 0)), "open and find: more or fewer lengths than D");
    }
}

/// The roots are counted on after the rows in the detail of 6, and the lengths are not counted. Find has no roots.
fn positions(random: &mut Random, report: &mut Report, given: &Given) {
    let at = random.below(given.roots.len() as u32);
    let mut changed = given.clone();
    changed.roots[at as usize] = given.p;
    changed.lengths[0] = u32::MAX;
    let outcomes = [open(report, &changed, &[]).outcome, find(report, &changed, &[]).outcome];
    let expected = [Err((6, (given.d + 1) * given.n + at)), Err((21, 0))];
    report.expect(outcomes == expected, &format!("open and find come to {outcomes:?} and not {expected:?}, of {changed:?}"));
    report.kind("open: a root is p, and a length is wrong");
}

#[derive(Clone, Debug)]
struct Case {
    given: Given,
    out: Vec<u32>,
}

/// All refusals of open, in the order in which they are judged.
fn refusals(random: &mut Random, report: &mut Report) {
    let given = short(random, report);
    let (p, d, n, needed) = (given.p, given.d, given.n, total(&given));
    let (rows, top) = (given.f.len(), (d * n) as usize);
    let reach = given.reach();
    let shortest = given.lengths.iter().position(|&length| length == reach).expect("the least is one of them") as u32;
    let modulus = random.pick(&[0, 1, 1 << 24, u32::MAX]);
    let (composite, divisor) = random.pick(&[(4, 2), (91, 7), (4093 * 4093, 4093), (16_777_215, 3)]);
    let degree = random.pick(&[0, 33, 1 << 31, u32::MAX]);
    let columns = random.pick(&[0, 257, 1 << 31, u32::MAX]);
    let (of_lengths, fewer) = (random.once_in(2), random.once_in(2));
    let at = random.below((rows + given.roots.len()) as u32) as usize;
    let number = random.pick(&[p, p, p + 1, u32::MAX]);
    let (outside, length) = (random.once_in(2), random.bad_known(n));
    let past = (shortest * n + random.within(reach, n - 1)) as usize;
    let later = random.below(n) as usize;
    let roots = random.pick(&[0, d as usize + 1]);
    let room = random.pick(&[needed - 1, needed - 1, needed / 2, 0]) as usize;
    let resize = |list: &mut Vec<u32>| list.resize(if fewer { list.len() - 1 } else { list.len() + 1 }, 1);

    let faults: [Fault<Case>; 11] = [
        ((1, 0), &|case| case.given.p = modulus),
        ((2, divisor), &|case| case.given.p = composite),
        ((3, 0), &|case| case.given.d = degree),
        ((4, 0), &|case| case.given.n = columns),
        ((5, 0), &|case| resize(if of_lengths { &mut case.given.lengths } else { &mut case.given.f })),
        ((6, at as u32), &|case| {
            if at < rows {
                case.given.f[at] = number;
            } else {
                case.given.roots.resize(at - rows + 1, 0);
                case.given.roots[at - rows] = number;
            }
        }),
        ((21, 0), &|case| if outside { case.given.lengths[shortest as usize] = length } else { case.given.f[past] = 1 }),
        ((7, 0), &|case| case.given.f[top + later] = (later != 0) as u32),
        ((8, 0), &|case| case.given.roots.resize(roots, 0)),
        ((9, 0), &|case| case.given.f[0] = (case.given.f[0] + 1) % p),
        ((10, needed), &|case| case.out.truncate(room)),
    ];
    let call = |report: &mut Report, case: &Case| open(report, &case.given, &case.out).outcome;
    let good = Case { given, out: random.junk(needed as usize) };
    every_set(report, "open: every set of refusals at once", call, &good, needed, &faults);
}

/// Anything in place of the unknown entries, and all of them said to be known.
fn filled(random: &mut Random, given: &Given) -> Given {
    let mut filled = given.all_known();
    for (row, &length) in filled.f.chunks_mut(given.n as usize).zip(&given.lengths) {
        row[length as usize..].fill_with(|| random.below(given.p));
    }
    filled
}

/// The factors' rows to w terms.
fn factors(random: &mut Random, report: &mut Report, given: &Given, w: u32) -> Vec<u32> {
    let fresh = opened(random, report, given);
    let called = extend(report, &fresh, w);
    report.expect(called.outcome == Ok(w), &format!("a sheet of {given:?} is worked to {w} terms"));
    called.words[fresh[7] as usize..fresh[9] as usize].to_vec()
}

/// Whether column t of all rows is the same.
pub fn same_column(n: u32, t: u32, f: &[u32], g: &[u32]) -> bool {
    let column = |f: &[u32]| -> Vec<u32> { f.chunks(n as usize).map(|row| row[t as usize]).collect() };
    column(f) == column(g)
}

/// Below the least length the factors do not depend on what stands for the unknown entries.
fn fillings_agree(random: &mut Random, report: &mut Report, given: &Given) {
    let (n, reach) = (given.n, given.reach());
    let known = factors(random, report, given, reach);
    for _ in 0..2 {
        let filled = filled(random, given);
        let all = factors(random, report, &filled, n);
        let same = (0..reach).all(|t| same_column(n, t, &known, &all));
        report.expect(same, &format!("the factors of {given:?} and of {filled:?} agree below the least length"));
        report.kind("lengths: two ways of filling in agree below the least length");
    }
}

/// In the column after these they do: where one entry is changed there, in a row that is known no further, the factors change there too.
fn fillings_differ(random: &mut Random, report: &mut Report, given: &Given) {
    let (n, reach) = (given.n, given.reach());
    let shortest = given.lengths.iter().position(|&length| length == reach).expect("the least is one of them");
    let filled = filled(random, given);
    let [zero, one] = [0, 1].map(|word| factors(random, report, &filled.with_word(shortest as u32, reach, word), n));
    let same = (0..reach).all(|t| same_column(n, t, &zero, &one));
    let differ = !same_column(n, reach, &zero, &one);
    report.expect(same && differ, &format!("two ways of filling in {given:?} differ in column {reach} and in none before"));
    report.kind("lengths: two ways of filling in differ at the least length");
}

/// The largest sheets, known to lengths around the limits.
fn large(random: &mut Random, report: &mut Report) {
    for (p, count, least) in [(16_777_213, 32, 255), (65_521, 8, 1), (7, 7, 128), (2, 2, 254)] {
        let known = polynomials::with_roots(random, report, p, 32, 256, count);
        let given = polynomials::with_reach(random, &known, least);
        fillings_agree(random, report, &given);
        fillings_differ(random, report, &given);
    }
}

pub fn run(random: &mut Random, report: &mut Report) {
    (0..400).for_each(|_| lowered(random, report));
    (0..400).for_each(|_| worked_too_far(random, report));
    for _ in 0..200 {
        let given = short(random, report);
        boundaries(random, report, &given);
        counted(report, &given);
        positions(random, report, &given);
    }
    (0..30).for_each(|_| refusals(random, report));
    for _ in 0..400 {
        let given = short(random, report);
        fillings_agree(random, report, &given);
        fillings_differ(random, report, &given);
    }
    large(random, report);
}
