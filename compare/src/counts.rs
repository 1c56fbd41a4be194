//! How often it splits: every p and D that is counted, what is refused and in which order, and that the counts are of what find splits.

use crate::finding::find;
use crate::polynomials::Given;
use crate::random::Random;
use crate::report::{engine, every_set, second, Called, Fault, Outcome, Report};
use ::second::field::{least_divisor, LARGEST_MODULUS};

/// The most polynomials that are counted.
const MOST: u32 = 65_536;

fn primes(from: u32, to: u32) -> impl Iterator<Item = u32> {
    (from..=to).filter(|&p| least_divisor(p) == p)
}

/// Whether p^D is at most 65,536.
fn few(p: u32, d: u32) -> bool {
    p.checked_pow(d).is_some_and(|all| all <= MOST)
}

fn counts(report: &mut Report, p: u32, d: u32, out: &[u32]) -> Called<u32> {
    let input = || format!("p {p} d {d}");
    report.call("counts", input, &[], out, |o| engine(bopkheul::counts::counts(p, d, o)), |o| second(::second::counts::counts(p, d, o)))
}

fn expect(report: &mut Report, p: u32, d: u32, out: &[u32], expected: Outcome, kind: &'static str) -> Vec<u32> {
    let Called { outcome, words } = counts(report, p, d, out);
    let given = format!("p {p} and D {d}, into {} words", out.len());
    report.expect(outcome == expected, &format!("{kind}: counts comes to {outcome:?} and not {expected:?}, of {given}"));
    report.kind(kind);
    words
}

/// The counts are p^D together, and p of them are powers of one line.
fn accepted(random: &mut Random, report: &mut Report, p: u32, d: u32, kind: &'static str) -> Vec<u32> {
    let (needed, more) = (d as usize + 1, random.pick(&[0, 0, 1, 3]));
    let out = random.junk(needed + more);
    let words = expect(report, p, d, &out, Ok(d + 1), kind);
    let (counted, past) = words.split_at(needed);
    report.expect(counted.iter().sum::<u32>() == p.pow(d) && counted[1] == p, &format!("p {p} D {d}: {counted:?} are the counts"));
    report.expect(past == &out[needed..], &format!("p {p} D {d}: the words past the counts stay"));
    let kinds = [
        (d == 1, "counts: D is 1"),
        (d > p, "counts: D is above p"),
        (p.pow(d) == MOST, "counts: p^D is 65,536"),
        (more > 0, "counts: words past the end"),
    ];
    kinds.iter().filter(|(holds, _)| *holds).for_each(|(_, kind)| report.kind(kind));
    counted.to_vec()
}

fn refused(random: &mut Random, report: &mut Report, p: u32, d: u32, refusal: (u32, u32), kind: &'static str) {
    let needed = d.min(40) as usize + 1;
    let room = random.pick(&[0, needed - 1, needed, needed + 3]);
    expect(report, p, d, &random.junk(room), Err(refusal), kind);
}

fn all(random: &mut Random, report: &mut Report) {
    for p in primes(2, MOST) {
        for d in (1..).take_while(|&d| few(p, d)) {
            accepted(random, report, p, d, "counts: every p and D with p^D at most 65,536");
        }
    }
}

/// Every monic polynomial of degree d over F_p goes to find: those refused by 9 by themselves, and the others by the number of their roots.
fn by_find(report: &mut Report, p: u32, d: u32) -> Vec<u32> {
    let mut counted = vec![0; d as usize + 1];
    let room = vec![9; (11 + 3 * d + 2 * d + 1) as usize];
    for number in 0..p.pow(d) {
        let mut f: Vec<u32> = (0..d).map(|j| number / p.pow(j) % p).collect();
        f.push(1);
        let given = Given { p, d, n: 1, f, lengths: vec![1; d as usize], roots: vec![] };
        let Called { outcome, words } = find(report, &given, &room);
        report.expect(outcome.is_ok() || outcome == Err((9, 0)), &format!("find comes to {outcome:?}, of {given:?}"));
        counted[outcome.map_or(0, |_| words[4]) as usize] += 1;
    }
    counted
}

fn as_find_splits(random: &mut Random, report: &mut Report) {
    let kind = "counts: the polynomials of a small degree, as find splits them";
    for p in primes(2, 50) {
        for d in (1..).take_while(|&d| p.pow(d) <= 2_000) {
            let (counted, found) = (accepted(random, report, p, d, kind), by_find(report, p, d));
            report.expect(counted == found, &format!("p {p} D {d}: the counts are {counted:?}, and find's {found:?}"));
        }
    }
}

/// From D = 17 on not even 2 is counted.
fn around_the_limit(random: &mut Random, report: &mut Report) {
    let kind = "counts: the largest p and the next, for each D";
    for d in 1..=32 {
        let next = primes(2, LARGEST_MODULUS).find(|&p| !few(p, d)).expect("65,537 is a prime");
        if let Some(p) = primes(2, next - 1).last() {
            accepted(random, report, p, d, kind);
        }
        for p in [next, 65_537, 16_777_213] {
            refused(random, report, p, d, (24, 0), kind);
        }
    }
}

/// 2^32 polynomials, and powers that would look small in 32 bits.
fn past_a_word(random: &mut Random, report: &mut Report) {
    for p in primes(2, LARGEST_MODULUS) {
        for d in (1..=32).filter(|&d| p.wrapping_pow(d) <= MOST && !few(p, d)) {
            refused(random, report, p, d, (24, 0), "counts: refused, p^D modulo 2^32 is at most 65,536");
        }
    }
}

fn out_of_range(random: &mut Random, report: &mut Report) {
    for d in [0, 1, 2, 16, 17, 32, 33, u32::MAX] {
        // 16,777,259 is a prime
        for p in [0, 1, 1 << 24, 16_777_259, u32::MAX] {
            refused(random, report, p, d, (1, 0), "counts: refused, p is outside 2..16,777,215");
        }
        for (p, divisor) in [(4, 2), (91, 7), (65_535, 3), (65_536, 2), (4093 * 4093, 4093), (4091 * 4093, 4091), (16_777_214, 2), (16_777_215, 3)] {
            refused(random, report, p, d, (2, divisor), "counts: refused, p is composite");
        }
    }
    for d in [0, 33, 34, 1 << 31, u32::MAX] {
        for p in [2, 3, 251, 257, 65_521, 65_537, 16_777_213] {
            refused(random, report, p, d, (3, 0), "counts: refused, D is 0 or above 32");
        }
    }
}

fn too_short(random: &mut Random, report: &mut Report) {
    for p in [2, 3, 5, 7, 13, 37, 251, 65_521] {
        for d in (1..).take_while(|&d| few(p, d)) {
            for room in 0..=d {
                expect(report, p, d, &random.junk(room as usize), Err((10, d + 1)), "counts: refused, into D words or fewer");
            }
        }
    }
}

fn drawn(random: &mut Random, report: &mut Report) {
    let p = if random.once_in(8) { random.bad_modulus() } else { random.prime() };
    let d = if random.once_in(16) { random.huge() } else { random.degree() };
    let room = random.room(d.min(40) as usize + 1);
    counts(report, p, d, &random.junk(room));
    report.kind("counts: any p and D");
}

#[derive(Clone, Debug)]
struct Case {
    p: u32,
    d: u32,
    out: Vec<u32>,
}

/// All refusals, in the order in which they are judged.
fn refusals(random: &mut Random, report: &mut Report) {
    let (p, d) = random.pick(&[(2, 1), (2, 16), (3, 2), (3, 10), (13, 4), (251, 2), (65_521, 1)]);
    let modulus = random.pick(&[0, 1, 1 << 24, u32::MAX]);
    let (composite, divisor) = random.pick(&[(4, 2), (91, 7), (4093 * 4093, 4093), (16_777_215, 3)]);
    let degree = random.pick(&[0, 33, 1 << 31, u32::MAX]);
    let many = random.pick(&[(2, 17), (2, 32), (3, 11), (257, 2), (65_537, 1), (16_777_213, 1), (16_777_213, 32)]);
    let room = random.pick(&[d, d, d / 2, 0]) as usize;
    let faults: [Fault<Case>; 5] = [
        ((1, 0), &|case| case.p = modulus),
        ((2, divisor), &|case| case.p = composite),
        ((3, 0), &|case| case.d = degree),
        ((24, 0), &|case| (case.p, case.d) = many),
        ((10, d + 1), &|case| case.out.truncate(room)),
    ];
    let call = |report: &mut Report, case: &Case| counts(report, case.p, case.d, &case.out).outcome;
    let good = Case { p, d, out: random.junk(d as usize + 1) };
    every_set(report, "counts: every set of refusals at once", call, &good, d + 1, &faults);
}

pub fn run(random: &mut Random, report: &mut Report) {
    all(random, report);
    as_find_splits(random, report);
    around_the_limit(random, report);
    past_a_word(random, report);
    out_of_range(random, report);
    too_short(random, report);
    (0..5_000).for_each(|_| drawn(random, report));
    (0..100).for_each(|_| refusals(random, report));
}
