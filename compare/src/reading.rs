//! A factor: read, and its rows passed on to the product and the shift where they stand in the sheet.

use crate::polynomials;
use crate::random::Random;
use crate::report::{engine, every_set, second, Called, Fault, Outcome, Report};
use crate::sheets::{extend, opened};
use bopkheul::{sheet as e, Sheet};
use second::sheet as s;
use std::ptr;

/// What reading a factor and passing it on are given; each call takes what it needs.
#[derive(Clone, Debug)]
struct Case {
    sheet: Vec<u32>,
    i: u32,
    /// The bound of g.
    e: u32,
    g: Vec<u32>,
    /// The shift.
    c: u32,
    out: Vec<u32>,
}

type Call = fn(&mut Report, &Case) -> Outcome;

pub fn factor(report: &mut Report, sheet: &[u32], i: u32, out: &[u32]) -> Called<u32> {
    let input = || format!("i {i} sheet {sheet:?}");
    report.call("sheet factor", input, &[sheet], out, |o| engine(e::factor(sheet, i, o)), |o| second(s::factor(sheet, i, o)))
}

pub fn factor_shift(report: &mut Report, sheet: &[u32], i: u32, c: u32, out: &[u32]) -> Called<u32> {
    let input = || format!("i {i} c {c} sheet {sheet:?}");
    let mine = |o: &mut [u32]| engine(e::factor_shift(sheet, i, c, o));
    report.call("sheet factor shift", input, &[sheet], out, mine, |o| second(s::factor_shift(sheet, i, c, o)))
}

fn read(report: &mut Report, case: &Case) -> Outcome {
    factor(report, &case.sheet, case.i, &case.out).outcome
}

fn times(report: &mut Report, case: &Case) -> Outcome {
    let Case { sheet, i, e: bound, g, out, .. } = case;
    let (i, bound) = (*i, *bound);
    let input = || format!("i {i} e {bound} g {g:?} sheet {sheet:?}");
    let mine = |o: &mut [u32]| engine(e::factor_times(sheet, i, bound, g, o));
    report.call("sheet factor times", input, &[sheet, g], out, mine, |o| second(s::factor_times(sheet, i, bound, g, o))).outcome
}

fn shift(report: &mut Report, case: &Case) -> Outcome {
    factor_shift(report, &case.sheet, case.i, case.c, &case.out).outcome
}

fn power(sheet: &[u32], i: u32) -> u32 {
    sheet[sheet[5] as usize + 2 * i as usize + 1]
}

/// A case with a factor that is there, and with nothing to refuse but perhaps the output, which has no words yet. Once in four times the bounds of the
/// product come to 32.
fn good_case(random: &mut Random, report: &mut Report, sheet: &[u32]) -> Case {
    let (p, n, i) = (sheet[0], sheet[2], random.below(sheet[4]));
    let most = 33 - power(sheet, i);
    let e = if random.once_in(4) { most } else { random.below(4).min(most) };
    if e == most {
        report.kind("reading: the product's degree bound is 32");
    }
    let g = random.words(p, ((e + 1) * n) as usize);
    Case { sheet: sheet.to_vec(), i, e, g, c: random.below(p), out: Vec::new() }
}

/// The words that the product and the shift of a good case write.
fn sizes(case: &Case) -> [usize; 2] {
    let (m, n) = (power(&case.sheet, case.i), case.sheet[2]);
    [((m + case.e) * n) as usize, (m * n) as usize]
}

fn with_room(random: &mut Random, case: &Case, room: usize) -> Case {
    Case { out: random.junk(room), ..case.clone() }
}

/// Any words, sound or not, and any index: all three calls, by any room.
pub fn any(random: &mut Random, report: &mut Report, sheet: &[u32]) {
    let i = random.below(4);
    let room = random.pick(&[0, 3, 4, 4, 5]);
    let case = Case { sheet: sheet.to_vec(), i, e: 0, g: Vec::new(), c: 0, out: random.junk(room) };
    for call in [read as Call, times, shift] {
        call(report, &case).ok();
    }
}

/// The part stands where it is said to stand, and is no copy.
fn expect_place(report: &mut Report, sheet: &Sheet, i: u32) {
    let mut found = [0; 4];
    s::factor(sheet.words(), i, &mut found).expect("a sound sheet has its factors");
    let [_, _, start, length] = found.map(|word| word as usize);
    let rows = sheet.factor(i).expect("a sound sheet has its factors").rows;
    report.expect(ptr::eq(rows, &sheet.words()[start..start + length]), &format!("the rows of factor {i} begin at word {start} of {sheet:?}"));
    report.kind("reading: a factor's rows stand in the sheet where the second implementation says");
}

/// Every factor of a sound sheet and the index past them, read; and one of the factors passed on.
pub fn factors(random: &mut Random, report: &mut Report, sheet: &[u32]) {
    let good = good_case(random, report, sheet);
    for i in 0..=sheet[4] {
        let room = random.pick(&[0, 3, 4, 4, 5]);
        read(report, &Case { i, ..with_room(random, &good, room) }).ok();
    }
    let owned = Sheet::from_words(sheet.to_vec()).expect("it is sound");
    expect_place(report, &owned, good.i);
    for (call, size) in [times as Call, shift].into_iter().zip(sizes(&good)) {
        let room = random.room(size);
        call(report, &with_room(random, &good, room)).ok();
    }
    report.kind("reading: a factor's part as a row polynomial");
}

const EVERY_SET: &str = "reading: every set of refusals at once";

/// Each refusal by what is nearest to a case that passes: a word too few or too many, an index, a bound or a number one too large.
fn boundaries(random: &mut Random, report: &mut Report, sheet: &[u32]) {
    let (p, total, r) = (sheet[0], sheet[9] as usize, sheet[4]);
    let good = good_case(random, report, sheet);
    let [product, part] = sizes(&good);
    let (m, n) = (power(sheet, good.i), sheet[2]);
    let (cut, longer) = (random.once_in(2), random.once_in(2));
    let index = random.pick(&[r, r, r + 1, u32::MAX]);
    let bound = random.pick(&[34 - m, 34 - m, 33, u32::MAX]);
    let at = random.below((good.e + 1) * n - 1) as usize; // not the last word, which may be taken off
    let number = random.pick(&[p, p, p + 1, u32::MAX]);

    let spoiled = |case: &mut Case| {
        if cut {
            case.sheet.truncate(total - 1);
        } else {
            let word = &mut case.sheet[sheet[7] as usize]; // which the roots fix
            *word = (*word + 1) % p;
        }
    };
    let no_factor = |case: &mut Case| case.i = index;
    let degree = |case: &mut Case| case.e = bound;
    let other = if longer { good.g.len() + 1 } else { good.g.len() - 1 };
    let length = |case: &mut Case| case.g.resize(other, 0);
    let unreduced = |case: &mut Case| case.g[at] = number;
    let shifted = |case: &mut Case| case.c = number;
    let short = |case: &mut Case| case.out.truncate(case.out.len() - 1);

    let (position, last) = ((part + at) as u32, part as u32);
    let reads: [Fault<Case>; 3] = [((10, 4), &short), ((13, 0), &spoiled), ((16, 0), &no_factor)];
    every_set(report, EVERY_SET, read, &with_room(random, &good, 4), 4, &reads);
    let products: [Fault<Case>; 6] = [
        ((13, 0), &spoiled),
        ((16, 0), &no_factor),
        ((3, 0), &degree),
        ((5, 0), &length),
        ((6, position), &unreduced),
        ((10, product as u32), &short),
    ];
    every_set(report, EVERY_SET, times, &with_room(random, &good, product), product as u32, &products);
    let shifts: [Fault<Case>; 4] = [((13, 0), &spoiled), ((16, 0), &no_factor), ((6, last), &shifted), ((10, last), &short)];
    every_set(report, EVERY_SET, shift, &with_room(random, &good, part), last, &shifts);
}

pub fn run(random: &mut Random, report: &mut Report) {
    for _ in 0..600 {
        let (p, d, n) = (random.prime(), random.degree().clamp(1, 12), random.columns().clamp(2, 24));
        let given = polynomials::any(random, report, p, d, n);
        let fresh = opened(random, report, &given);
        let k = random.within(1, given.reach());
        let sheet = extend(report, &fresh, k).words;
        boundaries(random, report, &sheet);
    }
}
