//! Sheets whose roots are found: they are open's with the list of all roots, and 9 is given exactly where no such list gives the polynomial at X = 0. Which it is
//! is known here from how the polynomials are made, and not from the second implementation alone.

use crate::calls::several_goes;
use crate::polynomials::{self, lines, times, Given};
use crate::random::Random;
use crate::report::{engine, every_set, second, Called, Fault, Outcome, Report};
use crate::sheets::{open, opened, total};
use ::second::field::{least_divisor, pow};
use std::collections::BTreeMap;

pub fn find(report: &mut Report, given: &Given, out: &[u32]) -> Called<u32> {
    let Given { p, d, n, f, lengths, .. } = given;
    let (p, d, n) = (*p, *d, *n);
    let input = || format!("p {p} d {d} n {n} f {f:?} lengths {lengths:?}");
    let mine = |o: &mut [u32]| engine(bopkheul::sheet::find(p, d, n, f, lengths, o));
    report.call("sheet find", input, &[f, lengths], out, mine, |o| second(::second::sheet::find(p, d, n, f, lengths, o)))
}

/// A fresh sheet and perhaps some words more, of a polynomial that splits: what open writes with the list of its roots. T words are enough for it, and T − 1
/// are not.
pub fn found(random: &mut Random, report: &mut Report, given: &Given) -> Vec<u32> {
    let total = total(given);
    let more = random.below(4);
    let out = random.junk((total + more) as usize);
    let short = find(report, given, &out[..total as usize - 1]).outcome;
    let exact = find(report, given, &out[..total as usize]).outcome;
    let sheet = find(report, given, &out).words;
    report.expect(short == Err((10, total)) && exact == Ok(total), &format!("a sheet takes {total} words, of {given:?}"));
    let opened = open(report, given, &out).words;
    report.expect(opened == sheet, &format!("find writes what open writes with the roots of {given:?}"));
    report.kind("finding: what open writes with the list of roots, into T − 1 words and into T");
    sheet
}

/// A fresh sheet, with the list of its roots or, which is of this kind, without.
pub fn opened_or_found(random: &mut Random, report: &mut Report, given: &Given, kind: &'static str) -> Vec<u32> {
    if random.once_in(2) {
        return opened(random, report, given);
    }
    report.kind(kind);
    found(random, report, given)
}

/// 9, and so before any room is asked for.
fn unsplit(random: &mut Random, report: &mut Report, given: &Given, kind: &'static str) {
    let room = random.pick(&[0, 10, 11, total(given) as usize, 20_000]);
    let outcome = find(report, given, &random.junk(room)).outcome;
    report.expect(outcome == Err((9, 0)), &format!("{kind}: find comes to {outcome:?}, of {given:?}"));
    report.kind(kind);
}

/// At X = 0 with these coefficients, elsewhere at random, and known to any lengths.
fn around(random: &mut Random, report: &mut Report, p: u32, start: &[u32], roots: &[u32]) -> Given {
    let n = random.within(1, 3);
    let known = polynomials::with_start(random, p, n, start, roots);
    polynomials::with_lengths(random, report, &known)
}

/// Roots with powers, in rising order.
fn around_powers(random: &mut Random, report: &mut Report, p: u32, of: &[(u32, u32)]) -> Given {
    let (roots, powers): (Vec<u32>, Vec<u32>) = of.iter().copied().unzip();
    around(random, report, p, &lines(p, &roots, &powers), &roots)
}

/// All products of d lines over F_p, each with its roots.
fn every_product(p: u32, d: u32) -> BTreeMap<Vec<u32>, Vec<u32>> {
    let mut products = BTreeMap::from([(vec![1], vec![])]);
    for _ in 0..d {
        let mut next = BTreeMap::new();
        for (f, roots) in &products {
            for c in roots.last().copied().unwrap_or(0)..p {
                let mut more: Vec<u32> = roots.clone();
                more.push(c);
                more.dedup();
                next.insert(times(p, f, &lines(p, &[c], &[1])), more);
            }
        }
        products = next;
    }
    products
}

/// All monic polynomials of degree d over F_p: those that are products of lines, and all others.
fn every_polynomial(random: &mut Random, report: &mut Report, p: u32, d: u32) {
    let split = every_product(p, d);
    for number in 0..p.pow(d) {
        let mut start: Vec<u32> = (0..d).map(|j| number / p.pow(j) % p).collect();
        start.push(1);
        match split.get(&start) {
            Some(roots) => {
                let given = around(random, report, p, &start, roots);
                found(random, report, &given);
                report.kind("finding: every polynomial of a small degree, split");
            }
            None => {
                let value = |c: u32| start.iter().rev().fold(0, |sum, a| (sum * c + a) % p);
                let rootless = (0..p).all(|c| value(c) != 0);
                let kind = ["finding: every polynomial of a small degree, some roots", "finding: every polynomial of a small degree, no root"];
                let given = around(random, report, p, &start, &[]);
                unsplit(random, report, &given, kind[rootless as usize]);
            }
        }
    }
}

/// Any two roots: they are parted whatever they are.
fn every_two_roots(report: &mut Report) {
    for p in (2..100).filter(|&p| least_divisor(p) == p) {
        for c in 0..p {
            for e in c + 1..p {
                let given = Given { p, d: 2, n: 1, f: lines(p, &[c, e], &[1, 1]), lengths: vec![1, 1], roots: vec![c, e] };
                let words = find(report, &given, &[9; 22]).words;
                report.expect(words[13..17] == [c, 1, e, 1], &format!("the roots {c} and {e} are found modulo {p}: {words:?}"));
                report.kind("finding: every two roots modulo the primes below 100");
            }
        }
    }
}

/// For each number c of a list, whether c, c + 1, .. are squares other than 0, as the bits from the highest down. The list has those c whose first bits are 1, as
/// many bits as leave some thousands.
fn squares_from(p: u32) -> Vec<(u64, u32)> {
    let mut square = vec![false; p as usize];
    (1..=p as u64 / 2).for_each(|c| square[(c * c % p as u64) as usize] = true);
    let first = p.ilog2().saturating_sub(12);
    let wanted = !(u64::MAX >> first);
    let mut bits = (0..64).fold(0, |bits, a| bits | (square[a % p as usize] as u64) << (63 - a));
    let mut list = Vec::new();
    for c in (0..p).rev() {
        bits = bits >> 1 | (square[c as usize] as u64) << 63;
        if bits & wanted == wanted {
            list.push((bits, c));
        }
    }
    list.sort();
    list
}

/// Roots that (Y + a)^((p−1)/2) − 1 does not part before a is large: c + a and e + a are both squares or both not, for a = 0, 1, ..
fn alike_under_shifts(random: &mut Random, report: &mut Report) {
    for p in [101, 4_093, 4_099, 65_521, 65_537, 16_777_213] {
        let list = squares_from(p);
        let mut pairs: Vec<(u32, usize)> = (1..list.len()).map(|i| ((list[i - 1].0 ^ list[i].0).leading_zeros(), i)).collect();
        pairs.sort();
        for &(alike, i) in pairs.iter().rev().take(12) {
            let mut roots = [list[i - 1].1, list[i].1];
            roots.sort();
            let powers = roots.map(|c| (c, random.within(1, 3)));
            let given = around_powers(random, report, p, &powers);
            found(random, report, &given);
            report.kind(if alike >= 30 { "finding: two roots alike under 30 shifts or more" } else { "finding: two roots alike under many shifts" });
        }
        if list.len() >= 32 {
            let from = random.below(list.len() as u32 - 31) as usize;
            let mut roots: Vec<(u32, u32)> = list[from..from + 32].iter().map(|&(_, c)| (c, 1)).collect();
            roots.sort();
            let given = around_powers(random, report, p, &roots);
            found(random, report, &given);
            report.kind("finding: 32 roots alike under the first shifts");
        }
    }
}

/// A quadratic without roots: Y² + Y + 1 modulo 2, and else (Y + a)² − c where c is no square.
fn rootless(random: &mut Random, p: u32) -> Vec<u32> {
    if p == 2 {
        return vec![1, 1, 1];
    }
    let wide = p as u64;
    let c = loop {
        let c = random.below(p) as u64;
        if pow(wide, c, (wide - 1) / 2) == wide - 1 {
            break c;
        }
    };
    let a = random.below(p) as u64;
    vec![((a * a + wide - c) % wide) as u32, (2 * a % wide) as u32, 1]
}

/// Products of lines and of quadratics without roots.
fn beside_quadratics(random: &mut Random, report: &mut Report, p: u32, of_lines: u32, quadratics: u32) {
    let mut start = vec![1];
    for _ in 0..of_lines {
        start = times(p, &start, &lines(p, &[random.below(p)], &[1]));
    }
    let one = rootless(random, p);
    let alike = random.once_in(2);
    for _ in 0..quadratics {
        start = times(p, &start, &if alike { one.clone() } else { rootless(random, p) });
    }
    let kind = match (of_lines, quadratics) {
        (0, 1) => "finding: a quadratic without roots",
        (30, 1) => "finding: 30 lines and a quadratic without roots",
        (_, 1) => "finding: lines and a quadratic without roots",
        _ if alike => "finding: a power of a quadratic without roots, lines or none",
        _ => "finding: several quadratics without roots, lines or none",
    };
    let given = around(random, report, p, &start, &[]);
    unsplit(random, report, &given, kind);
}

/// Degree 32: roots of one power, as many as wanted where there are so many; as many as there are; and too few.
fn degree_32(random: &mut Random, report: &mut Report, p: u32) {
    let alike = |random: &mut Random, report: &mut Report, count: u32, kind: &'static str| {
        if count <= p {
            let roots = polynomials::roots(random, p, count);
            let given = around_powers(random, report, p, &roots.iter().map(|&c| (c, 32 / count)).collect::<Vec<_>>());
            found(random, report, &given);
            report.kind(kind);
        }
    };
    alike(random, report, 32, "finding: degree 32, 32 simple roots");
    alike(random, report, 8, "finding: degree 32, 8 roots of power 4");
    alike(random, report, 2, "finding: degree 32, two roots of power 16");
    alike(random, report, 1, "finding: degree 32, one root of power 32");
    for c in [0, p - 1] {
        let given = around_powers(random, report, p, &[(c, 32)]);
        found(random, report, &given);
    }
    let given = around_powers(random, report, p, &[(0, 31), (p - 1, 1)]);
    found(random, report, &given);
    let most = p.min(32);
    let given = polynomials::with_roots(random, report, p, 32, 2, most);
    found(random, report, &given);
    for (first, kind) in [(0, "finding: the numbers from 0 up"), (p - most, "finding: the numbers up to p − 1")] {
        let roots: Vec<(u32, u32)> = (0..most).map(|i| (first + i, if i == 0 { 33 - most } else { 1 })).collect();
        let given = around_powers(random, report, p, &roots);
        found(random, report, &given);
        report.kind(kind);
    }
    beside_quadratics(random, report, p, 30, 1);
    beside_quadratics(random, report, p, 28, 2);
    beside_quadratics(random, report, p, 0, 16);
}

/// Powers on both sides of p, and of its multiples and powers: there a derivative is 0.
fn powers_around_p(random: &mut Random, report: &mut Report) {
    for p in [2, 3, 5, 7, 11, 13, 31] {
        for power in (1..=32).filter(|power| [0, 1, p - 1].contains(&(power % p))) {
            let root = random.below(p);
            let given = around_powers(random, report, p, &[(root, power)]);
            found(random, report, &given);
            let given = around_powers(random, report, p, &[(0, 32 - power.min(31)), (1, power.min(31))]);
            found(random, report, &given);
            report.kind("finding: powers around the multiples of p");
        }
    }
}

fn largest_primes() -> Vec<u32> {
    (2..1 << 24).rev().filter(|&p| least_divisor(p) == p).take(6).collect()
}

/// Any polynomial: as a rule it does not split.
fn drawn(random: &mut Random, report: &mut Report) {
    let (p, d) = (random.prime(), random.within(1, 32));
    let mut start = random.words(p, d as usize);
    start.push(1);
    let given = around(random, report, p, &start, &[]);
    find(report, &given, &random.junk(400));
    report.kind("finding: any polynomial");
}

/// Of all that open takes: the same sheet, which is then worked in several goes.
fn taken_on(random: &mut Random, report: &mut Report) {
    let (p, d, n) = (random.prime(), random.degree().clamp(1, 12), random.columns().min(24));
    let given = polynomials::any(random, report, p, d, n);
    let fresh = found(random, report, &given);
    several_goes(random, report, &given, &fresh);
    report.kind("finding: worked in several goes");
}

fn expect(report: &mut Report, given: &Given, room: usize, expected: Outcome, kind: &'static str) {
    let outcome = find(report, given, &vec![9; room]).outcome;
    report.expect(outcome == expected, &format!("{kind}: find comes to {outcome:?} and not {expected:?}, of {given:?}"));
    report.kind(kind);
}

/// Y^d modulo p, in as many words as d and n say, where these are few.
fn power_of_y(p: u32, d: u32, n: u32) -> Given {
    let (rows, width) = (d.min(40) as usize, n.min(300) as usize);
    let mut f = vec![0; (rows + 1) * width];
    f.iter_mut().skip(rows * width).take(1).for_each(|word| *word = 1);
    Given { p, d, n, f, lengths: vec![n; rows], roots: vec![0] }
}

/// Modulus, degree and columns on both sides of their limits.
fn limits(report: &mut Report) {
    let kind = "finding: modulus, degree or columns at a limit";
    for (d, n) in [(1, 1), (1, 256), (32, 1), (32, 256)] {
        let given = power_of_y(7, d, n);
        let needed = total(&given);
        expect(report, &given, needed as usize, Ok(needed), kind);
        expect(report, &given, needed as usize - 1, Err((10, needed)), kind);
    }
    for (d, n, number) in [(0, 1, 3), (33, 1, 3), (33, 257, 3), (0, 0, 3), (u32::MAX, 1, 3), (1, 0, 4), (32, 257, 4), (32, 0, 4), (1, u32::MAX, 4)] {
        expect(report, &power_of_y(7, d, n), 20_000, Err((number, 0)), kind);
    }
    for p in [2, 3, 65_521, 65_537, 16_777_213] {
        expect(report, &power_of_y(p, 2, 1), 20, Ok(20), kind);
    }
    for p in [0, 1, 1 << 24, 16_777_259, u32::MAX] {
        expect(report, &power_of_y(p, 2, 1), 20, Err((1, 0)), kind); // 16,777,259 is a prime
    }
    for (p, divisor) in [(4, 2), (91, 7), (65_535, 3), (65_536, 2), (4093 * 4093, 4093), (4091 * 4093, 4091), (16_777_214, 2), (16_777_215, 3)] {
        expect(report, &power_of_y(p, 2, 1), 20, Err((2, divisor)), kind);
    }
}

/// A word too large, at every place of the rows; the first of two is named.
fn unreduced(random: &mut Random, report: &mut Report) {
    let p = random.prime();
    let of_lines = random.within(1, 4);
    let roots: Vec<u32> = polynomials::roots(random, p, of_lines.min(p));
    let given = around_powers(random, report, p, &roots.iter().map(|&c| (c, 1)).collect::<Vec<_>>());
    for at in 0..given.f.len() {
        let mut changed = given.clone();
        changed.f[at] = random.pick(&[p, p + 1, u32::MAX]);
        changed.lengths[0] = 0;
        expect(report, &changed, 0, Err((6, at as u32)), "finding: a word is p or more");
        let last = changed.f.len() - 1;
        changed.f[last] = p;
        expect(report, &changed, 0, Err((6, at as u32)), "finding: a word is p or more");
    }
}

#[derive(Clone, Debug)]
struct Case {
    given: Given,
    out: Vec<u32>,
}

/// All refusals, in the order in which they are judged.
fn refusals(random: &mut Random, report: &mut Report) {
    let (p, d, n) = (random.prime(), random.within(2, 8), random.within(2, 6));
    let known = polynomials::known(random, report, p, d, n);
    let reach = random.within(1, n - 1);
    let given = polynomials::with_reach(random, &known, reach);
    let needed = total(&given);
    let (rows, top) = (given.f.len(), (d * n) as usize);
    let shortest = given.lengths.iter().position(|&length| length == reach).expect("the least is one of them") as u32;
    let mut start = rootless(random, p);
    for _ in 2..d {
        start = times(p, &start, &lines(p, &[random.below(p)], &[1]));
    }
    let modulus = random.pick(&[0, 1, 1 << 24, u32::MAX]);
    let (composite, divisor) = random.pick(&[(4, 2), (91, 7), (4093 * 4093, 4093), (16_777_215, 3)]);
    let degree = random.pick(&[0, 33, 1 << 31, u32::MAX]);
    let columns = random.pick(&[0, 257, 1 << 31, u32::MAX]);
    let (of_lengths, fewer) = (random.once_in(2), random.once_in(2));
    let at = random.below(rows as u32) as usize;
    let number = random.pick(&[p, p, p + 1, u32::MAX]);
    let (outside, length) = (random.once_in(2), random.bad_known(n));
    let past = (shortest * n + random.within(reach, n - 1)) as usize;
    let later = random.below(n) as usize;
    let room = random.pick(&[needed - 1, needed - 1, needed / 2, 0]) as usize;
    let resize = |list: &mut Vec<u32>| list.resize(if fewer { list.len() - 1 } else { list.len() + 1 }, 1);

    let faults: [Fault<Case>; 10] = [
        ((1, 0), &|case| case.given.p = modulus),
        ((2, divisor), &|case| case.given.p = composite),
        ((3, 0), &|case| case.given.d = degree),
        ((4, 0), &|case| case.given.n = columns),
        ((5, 0), &|case| resize(if of_lengths { &mut case.given.lengths } else { &mut case.given.f })),
        ((6, at as u32), &|case| case.given.f[at] = number),
        ((21, 0), &|case| if outside { case.given.lengths[shortest as usize] = length } else { case.given.f[past] = 1 }),
        ((7, 0), &|case| case.given.f[top + later] = (later != 0) as u32),
        ((9, 0), &|case| start.iter().enumerate().for_each(|(j, &a)| case.given.f[j * n as usize] = a)),
        ((10, needed), &|case| case.out.truncate(room)),
    ];
    let call = |report: &mut Report, case: &Case| find(report, &case.given, &case.out).outcome;
    let good = Case { given, out: random.junk(needed as usize) };
    every_set(report, "finding: every set of refusals at once", call, &good, needed, &faults);
}

pub fn run(random: &mut Random, report: &mut Report) {
    for (p, most) in [(2, 11), (3, 7), (5, 5), (7, 4), (11, 3), (13, 3), (31, 2), (53, 2)] {
        (1..=most).for_each(|d| every_polynomial(random, report, p, d));
    }
    every_two_roots(report);
    alike_under_shifts(random, report);
    // the moduli are small, near 4,096 and 2^16, one more than a multiple of 2^20, and the largest
    for p in [2, 3, 5, 7, 13, 31, 37, 251, 4_093, 4_099, 65_521, 65_537, 7_340_033, 13_631_489].into_iter().chain(largest_primes()) {
        degree_32(random, report, p);
    }
    powers_around_p(random, report);
    for _ in 0..1_000 {
        let (p, of_lines, quadratics) = (random.prime(), random.below(7), random.pick(&[1, 1, 2, 3]));
        beside_quadratics(random, report, p, of_lines, quadratics);
        drawn(random, report);
        taken_on(random, report);
    }
    limits(report);
    (0..100).for_each(|_| unreduced(random, report));
    (0..20).for_each(|_| refusals(random, report));
}
