//! Quotients with X in common: every least power of X in divisor and dividend.

use crate::random::Random;
use crate::report::{engine, every_set, second, Called, Fault, Report};
use bopkheul::series as e;
use second::series as s;

#[derive(Clone, Debug)]
struct Case {
    p: u32,
    n: u32,
    f: Vec<u32>,
    g: Vec<u32>,
    out: Vec<u32>,
}

/// A series of n words with this least power of X; zeros where it is n.
fn series(random: &mut Random, p: u32, n: usize, least: usize) -> Vec<u32> {
    let mut words = random.words(p, n);
    words[..least].fill(0);
    if let Some(first) = words.get_mut(least) {
        *first = random.within(1, p - 1);
    }
    words
}

/// Divisor and dividend with these least powers of X.
fn case(random: &mut Random, n: usize, divisor: usize, dividend: usize) -> Case {
    let p = random.prime();
    let (f, g) = (series(random, p, n, dividend), series(random, p, n, divisor));
    let room = n + random.below(3) as usize;
    Case { p, n: n as u32, f, g, out: random.junk(room) }
}

fn quotient(report: &mut Report, case: &Case) -> Called<u32> {
    let Case { p, n, f, g, out } = case;
    report.call(
        "series quotient",
        || format!("p {p} n {n} f {f:?} g {g:?}"),
        &[f, g],
        out,
        |o| engine(e::quotient(*p, *n, f, g, o)),
        |o| second(s::quotient(*p, *n, f, g, o)),
    )
}

fn product(p: u32, g: &[u32], h: &[u32]) -> Vec<u32> {
    let (mut out, n) = (vec![0; g.len()], g.len() as u32);
    s::product(p, n, g, n, h, n, &mut out).expect("series of one length");
    out
}

fn kind(n: usize, divisor: usize, dividend: usize) -> &'static str {
    match (divisor, dividend) {
        _ if divisor == n && dividend == n => "quotient: zeros by zeros",
        _ if divisor == n => "quotient: a divisor of zeros",
        _ if dividend == n => "quotient: zeros by a divisor that is not 0",
        (0, 0) => "quotient: no power of X in either",
        _ if dividend < divisor => "quotient: the dividend's least power is lower",
        _ if dividend == divisor => "quotient: equal least powers, 1 or more",
        _ => "quotient: the dividend's least power is higher",
    }
}

/// The least powers alone say what is answered; and what is given has zeros after the terms known, and multiplied back it is the dividend.
fn by_powers(random: &mut Random, report: &mut Report, n: usize, divisor: usize, dividend: usize) {
    let case = case(random, n, divisor, dividend);
    let Called { outcome, words } = quotient(report, &case);
    let given = divisor < n && divisor <= dividend;
    let expected = if given { Ok((n - divisor) as u32) } else { Err((12, 0)) };
    report.expect(outcome == expected, &format!("the quotient's outcome is {outcome:?} and not {expected:?} of {case:?}"));
    if given {
        let h = &words[..n];
        let right = h[n - divisor..].iter().all(|&word| word == 0) && product(case.p, h, &case.g) == case.f;
        report.expect(right, &format!("{h:?} is the quotient of {case:?}"));
    }
    report.kind(kind(n, divisor, dividend));
}

/// A product by one of its factors is the other one, up to the terms that the product does not depend on.
fn of_a_product(random: &mut Random, report: &mut Report) {
    let n = random.columns().min(256) as usize;
    let e = random.below(n as u32) as usize;
    let mut case = case(random, n, e, e);
    let mut h = random.words(case.p, n);
    case.f = product(case.p, &h, &case.g);
    h[n - e..].fill(0);
    let Called { outcome, words } = quotient(report, &case);
    report.expect(outcome == Ok((n - e) as u32) && words[..n] == h, &format!("{words:?} is not {h:?}, the quotient of {case:?}"));
    report.kind("quotient: a product by one of its factors");
}

fn refusals(random: &mut Random, report: &mut Report) {
    let n = random.columns().clamp(2, 256) as usize;
    let (lower, e) = (random.below(n as u32 - 1) as usize, n - 1);
    let good = case(random, n, e, e);
    let p = good.p;
    let modulus = random.pick(&[0, 1, 1 << 24, u32::MAX]);
    let (composite, divisor) = random.pick(&[(4, 2), (91, 7), (4093 * 4093, 4093), (16_777_215, 3)]);
    let columns = random.pick(&[0, 257, 1 << 31, u32::MAX]);
    let length = random.pick(&[n - 1, n + 1, 0]);
    let at = random.below(2 * n as u32) as usize;
    let number = random.pick(&[p, p, p + 1, u32::MAX]);
    let room = random.pick(&[n - 1, n - 1, n / 2, 0]);
    let zeros = random.below(3);

    let faults: [Fault<Case>; 7] = [
        ((1, 0), &|case| case.p = modulus),
        ((2, divisor), &|case| case.p = composite),
        ((4, 0), &|case| case.n = columns),
        ((5, 0), &|case| if at < n { case.f.resize(length, 0) } else { case.g.resize(length, 0) }),
        ((6, at as u32), &|case| if at < n { case.f[at] = number } else { case.g[at - n] = number }),
        ((10, n as u32), &|case| case.out.truncate(room)),
        ((12, 0), &|case| match zeros {
            0 => case.f[lower] = 1,
            1 => case.g.fill(0),
            _ => [&mut case.f, &mut case.g].into_iter().for_each(|words| words.fill(0)),
        }),
    ];
    let call = |report: &mut Report, case: &Case| quotient(report, case).outcome;
    every_set(report, "quotient: every set of refusals at once", call, &good, (n - e) as u32, &faults);
}

pub fn run(random: &mut Random, report: &mut Report) {
    for n in 1..=16 {
        for divisor in 0..=n {
            (0..=n).for_each(|dividend| by_powers(random, report, n, divisor, dividend));
        }
    }
    for divisor in 0..=256 {
        let higher = random.within(divisor, 256) as usize;
        let divisor = divisor as usize;
        for dividend in [divisor.saturating_sub(1), divisor, higher, 256] {
            by_powers(random, report, 256, divisor, dividend);
        }
    }
    report.kind("quotient: 256 terms, every least power of the divisor");
    (0..5_000).for_each(|_| of_a_product(random, report));
    (0..100).for_each(|_| refusals(random, report));
}
