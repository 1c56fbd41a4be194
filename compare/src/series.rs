//! Series, and the terms that are known of the operands of sums and products.

use crate::random::Random;
use crate::report::{engine, every_set, second, Called, Fault as Refused, Outcome, Report};
use bopkheul::series as e;
use second::series as s;

#[derive(Clone, Copy)]
enum Fault {
    Modulus,
    Terms,
    Length,
    Word,
    Count,
    PastCount,
    NoUnit,
}

const FAULTS: [Fault; 7] = [Fault::Modulus, Fault::Terms, Fault::Length, Fault::Word, Fault::Count, Fault::PastCount, Fault::NoUnit];

#[derive(Clone, Debug)]
struct Case {
    p: u32,
    n: u32,
    inputs: [Vec<u32>; 2],
    /// How many terms of each input are known; sum and product are told.
    known: [u32; 2],
    out: Vec<u32>,
}

type Call = fn(&mut Report, &Case) -> Called<u32>;

/// Two series of which so many terms are known, with 0 past them.
fn case(random: &mut Random, n: u32, known: [u32; 2], room: usize) -> Case {
    let p = random.prime();
    let inputs = known.map(|known| {
        let mut input = random.words(p, n as usize);
        input[0] = random.within(1, p - 1);
        input[known as usize..].fill(0);
        input
    });
    Case { p, n, inputs, known, out: random.junk(room) }
}

/// Half the time all is known, so that the calls that are told of no counts are not given zeros alone.
fn good_case(random: &mut Random) -> Case {
    let n = random.columns();
    let known = if random.once_in(2) { [n; 2] } else { [random.known(n), random.known(n)] };
    let room = random.room(n as usize);
    case(random, n, known, room)
}

fn spoil(random: &mut Random, case: &mut Case, fault: Fault) {
    let which = random.below(2) as usize;
    let input = &mut case.inputs[which];
    match fault {
        Fault::Modulus => case.p = random.bad_modulus(),
        Fault::Terms => case.n = random.pick(&[0, 257, u32::MAX, 1 << 31]),
        Fault::Length if random.once_in(2) => input.push(0),
        Fault::Length => drop(input.pop()),
        Fault::Word if !input.is_empty() => {
            let at = random.below(input.len() as u32) as usize;
            input[at] = random.edge_word(case.p);
        }
        Fault::Count => case.known[which] = random.bad_known(case.n),
        Fault::PastCount => {
            let past = input.iter_mut().skip(case.known[which] as usize);
            past.for_each(|word| *word = random.below(case.p.clamp(1, 2)));
        }
        Fault::NoUnit if !input.is_empty() => input[0] = 0,
        _ => {}
    }
}

fn sum(report: &mut Report, case: &Case) -> Called<u32> {
    let Case { p, n, inputs: [g, h], known: [i, j], out } = case;
    let (p, n, i, j) = (*p, *n, *i, *j);
    let input = || format!("p {p} n {n} g {g:?} known to {i} h {h:?} known to {j}");
    report.call("series sum", input, &[g, h], out, |o| engine(e::sum(p, n, g, i, h, j, o)), |o| second(s::sum(p, n, g, i, h, j, o)))
}

fn product(report: &mut Report, case: &Case) -> Called<u32> {
    let Case { p, n, inputs: [g, h], known: [i, j], out } = case;
    let (p, n, i, j) = (*p, *n, *i, *j);
    let input = || format!("p {p} n {n} g {g:?} known to {i} h {h:?} known to {j}");
    report.call("series product", input, &[g, h], out, |o| engine(e::product(p, n, g, i, h, j, o)), |o| second(s::product(p, n, g, i, h, j, o)))
}

fn compare(report: &mut Report, case: &Case) {
    sum(report, case);
    product(report, case);
    let Case { p, n, inputs: [g, h], out, .. } = case;
    let (p, n) = (*p, *n);
    let input = || format!("p {p} n {n} g {g:?} h {h:?}");
    report.call("series difference", input, &[g, h], out, |o| engine(e::difference(p, n, g, h, o)), |o| second(s::difference(p, n, g, h, o)));
    report.call("series quotient", input, &[g, h], out, |o| engine(e::quotient(p, n, g, h, o)), |o| second(s::quotient(p, n, g, h, o)));
    report.call("series inverse", input, &[g], out, |o| engine(e::inverse(p, n, g, o)), |o| second(s::inverse(p, n, g, o)));
}

/// The same operands with anything in place of what is not known, and all of it said to be known.
fn filled(random: &mut Random, case: &Case) -> Case {
    let mut filled = Case { known: [case.n; 2], ..case.clone() };
    for (input, &known) in filled.inputs.iter_mut().zip(&case.known) {
        input[known as usize..].fill_with(|| random.below(case.p));
    }
    filled
}

/// The terms known in both are the same whatever is put in place of the others, and 0 stands after them.
fn expect_known(random: &mut Random, report: &mut Report, case: &Case) {
    let (n, [i, j]) = (case.n as usize, case.known);
    let both = i.min(j) as usize;
    let filled = filled(random, case);
    for call in [sum as Call, product] {
        let Called { outcome, words } = call(report, case);
        let whole = call(report, &filled).words;
        let right = words[..both] == whole[..both] && words[both..n].iter().all(|&word| word == 0);
        report.expect(outcome == Ok(case.n) && right, &format!("{both} terms, as of {whole:?}, and then 0, not {words:?}: {case:?}"));
    }
    report.kind(match (i, j) {
        _ if both == n => "series: both operands known to N",
        _ if i == j => "series: both operands known to one count below N",
        _ if i < j => "series: the lesser count is the first",
        _ => "series: the lesser count is the second",
    });
}

fn expect_refused(report: &mut Report, case: &Case, kind: &'static str) {
    for call in [sum as Call, product] {
        let outcome = call(report, case).outcome;
        report.expect(outcome == Err((21, 0)), &format!("{kind}, so {outcome:?} is wrong: {case:?}"));
    }
    report.kind(kind);
}

/// A word other than 0 at the count and in the last column, where the operand has words past its count.
fn past_the_count(report: &mut Report, good: &Case, which: usize) {
    let (known, last) = (good.known[which] as usize, good.n as usize - 1);
    let places = [(known, "series: a word at the count is not 0"), (last, "series: the last word is past the count and not 0")];
    for (at, kind) in places.into_iter().filter(|&(at, _)| known <= at && at <= last) {
        let mut case = good.clone();
        case.inputs[which][at] = 1;
        expect_refused(report, &case, kind);
    }
}

/// Two counts, with what row 21 passes and what it refuses nearest to that.
fn counts(random: &mut Random, report: &mut Report, n: u32, known: [u32; 2]) {
    let good = case(random, n, known, n as usize);
    expect_known(random, report, &good);
    for which in 0..2 {
        past_the_count(report, &good, which);
        for count in [0, n + 1, u32::MAX] {
            let mut case = good.clone();
            case.known[which] = count;
            expect_refused(report, &case, "series: a count outside 1..N");
        }
    }
}

/// All refusals of sum and product, in the order in which they are judged.
fn refusals(random: &mut Random, report: &mut Report) {
    let n = random.columns().clamp(2, 256);
    let width = n as usize;
    let known = [random.within(1, n - 1), random.within(1, n - 1)];
    let good = case(random, n, known, width);
    let p = good.p;
    let modulus = random.pick(&[0, 1, 1 << 24, u32::MAX]);
    let (composite, divisor) = random.pick(&[(4, 2), (91, 7), (4093 * 4093, 4093), (16_777_215, 3)]);
    let columns = random.pick(&[0, 257, 1 << 31, u32::MAX]);
    let length = random.pick(&[width - 1, width + 1, 0]);
    let at = random.below(2 * n) as usize;
    let number = random.pick(&[p, p, p + 1, u32::MAX]);
    let (which, outside) = (random.below(2) as usize, random.once_in(2));
    let (count, past) = (random.bad_known(n), random.within(known[which], n - 1) as usize);
    let room = random.pick(&[width - 1, width - 1, width / 2, 0]);

    let faults: [Refused<Case>; 7] = [
        ((1, 0), &|case| case.p = modulus),
        ((2, divisor), &|case| case.p = composite),
        ((4, 0), &|case| case.n = columns),
        ((5, 0), &|case| case.inputs[at / width].resize(length, 0)),
        ((6, at as u32), &|case| case.inputs[at / width][at % width] = number),
        ((21, 0), &|case| if outside { case.known[which] = count } else { case.inputs[which][past] = 1 }),
        ((10, n), &|case| case.out.truncate(room)),
    ];
    let calls: [fn(&mut Report, &Case) -> Outcome; 2] = [|report, case| sum(report, case).outcome, |report, case| product(report, case).outcome];
    for call in calls {
        every_set(report, "series: every set of refusals at once", call, &good, n, &faults);
    }
}

pub fn run(random: &mut Random, report: &mut Report) {
    for n in 1..=8 {
        for first in 1..=n {
            (1..=n).for_each(|second| counts(random, report, n, [first, second]));
        }
    }
    for known in [[256, 256], [1, 256], [256, 255], [255, 1], [128, 128]] {
        counts(random, report, 256, known);
    }
    (0..60).for_each(|_| refusals(random, report));
    for _ in 0..20_000 {
        let mut case = good_case(random);
        let faults = random.faults(&FAULTS);
        faults.iter().for_each(|&fault| spoil(random, &mut case, fault));
        if faults.len() > 1 {
            report.kind("several faults at once");
        }
        compare(report, &case);
    }
}
