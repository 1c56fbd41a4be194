//! The pair: h = 0 starts it, whatever the output holds, and h ≥ 1 continues the one that is there.

use crate::random::Random;
use crate::report::{engine, every_set, second, Called, Fault, Outcome, Report};
use bopkheul::pair as e;
use second::pair as s;

#[derive(Clone, Debug)]
struct Case {
    p: u32,
    d: u32,
    n: u32,
    f: Vec<u32>,
    h: u32,
    w: u32,
    out: Vec<u32>,
}

impl Case {
    /// The least row that is not 0 at X = 0.
    fn order(&self) -> u32 {
        self.f.chunks(self.n as usize).position(|row| row[0] != 0).expect("f is not flat") as u32
    }

    /// To be continued from the first h columns of what the output holds, with 0 in the others.
    fn cut(&self, h: u32) -> Case {
        let mut case = Case { h, ..self.clone() };
        case.out[..self.f.len()].chunks_mut(self.n as usize).for_each(|row| row[h as usize..].fill(0));
        case
    }

    /// With these words at the front of the output.
    fn over(&self, words: &[u32]) -> Case {
        let mut case = self.clone();
        case.out[..words.len()].copy_from_slice(words);
        case
    }
}

fn pair(report: &mut Report, case: &Case) -> Called<u32> {
    let Case { p, d, n, f, h, w, out } = case;
    let (p, d, n, h, w) = (*p, *d, *n, *h, *w);
    let input = || format!("p {p} d {d} n {n} f {f:?} h {h} w {w}");
    report.call("pair", input, &[f], out, |o| engine(e::pair(p, d, n, f, h, w, o)), |o| second(s::pair(p, d, n, f, h, w, o)))
}

/// A polynomial of this order, and an output of any words in which its pair is to be started.
fn of_order(random: &mut Random, report: &mut Report, (p, d, n): (u32, u32, u32), order: u32) -> Case {
    let width = n as usize;
    let mut f = random.words(p, (d as usize + 1) * width);
    (0..order as usize).for_each(|j| f[j * width] = 0);
    f[order as usize * width] = random.within(1, p - 1);
    report.kind(match order {
        0 => "pair: order 0",
        _ if order == d => "pair: order D",
        _ => "pair: order between",
    });
    if d > p {
        report.kind("pair: D is above p");
    }
    let room = f.len() + random.below(6) as usize;
    Case { p, d, n, f, h: 0, w: n, out: random.junk(room) }
}

fn any(random: &mut Random, report: &mut Report, d: u32, n: u32) -> Case {
    let (p, between) = (random.prime(), random.below(d + 1));
    let order = random.pick(&[0, d, between]);
    of_order(random, report, (p, d, n), order)
}

/// The words after a call that must come to this.
fn expect(report: &mut Report, case: &Case, expected: Outcome) -> Vec<u32> {
    let called = pair(report, case);
    report.expect(called.outcome == expected, &format!("the outcome is {:?} and not {expected:?} of {case:?}", called.outcome));
    called.words
}

/// The case with the pair to N terms in the output.
fn full(report: &mut Report, case: &Case) -> Case {
    Case { out: expect(report, case, Ok(case.order())), ..case.clone() }
}

/// The w nearest to those that rows 14 and 15 pass, and the largest.
fn around(h: u32, n: u32) -> [u32; 8] {
    [0, h.saturating_sub(1), h, h.wrapping_add(1), n, n + 1, u32::MAX - 1, u32::MAX]
}

/// Nothing but w can be refused, and accepted calls leave the pair to w terms, which is that to N terms cut short. So w = h ≥ 1 changes nothing.
fn right(report: &mut Report, full: &Case, case: &Case, wanted: &[u32]) {
    for &w in wanted {
        let expected = match w {
            _ if w == 0 || w > case.n => Err((14, 0)),
            _ if w < case.h => Err((15, 0)),
            _ => Ok(case.order()),
        };
        let words = expect(report, &Case { w, ..case.clone() }, expected);
        if expected.is_ok() {
            report.expect(words == full.cut(w).out, &format!("the pair to {w} terms is that to N terms cut short, of {case:?}"));
        }
    }
}

/// 13, whatever w is.
fn wrong(report: &mut Report, case: &Case) {
    for w in around(case.h, case.n) {
        expect(report, &Case { w, ..case.clone() }, Err((13, 0)));
    }
}

/// Starting takes no notice of what the output holds.
fn starts(random: &mut Random, report: &mut Report, full: &Case) {
    let (p, d, n) = (full.p, full.d, full.n);
    let size = full.f.len();
    let order = random.below(d + 1);
    let other = of_order(random, report, (p, d, n), order);
    let outputs = [
        ("pair: started over any words", random.junk(size)),
        ("pair: started over words below p", random.words(p, size)),
        ("pair: started over the pair of another polynomial", pair(report, &other).words[..size].to_vec()),
        ("pair: started over its own terms", full.out[..size].to_vec()),
    ];
    for (kind, words) in outputs {
        let wanted = [&around(0, n)[..], &[random.within(1, n)]].concat();
        right(report, full, &full.over(&words), &wanted);
        report.kind(kind);
    }
}

/// Another number in column t of some row: mostly a reduced one, now and then one that is the same modulo p.
fn change_column(random: &mut Random, case: &Case, t: u32) -> Case {
    let mut changed = case.clone();
    let word = &mut changed.out[(random.below(case.d + 1) * case.n + t) as usize];
    *word = if random.once_in(4) { *word + case.p } else { (*word + random.within(1, case.p - 1)) % case.p };
    changed
}

fn boundaries(random: &mut Random, report: &mut Report) {
    let (d, n) = (random.degree().min(12), random.columns().min(24));
    let fresh = any(random, report, d, n);
    let full = full(report, &fresh);
    starts(random, report, &full);
    (1..=n).for_each(|h| right(report, &full, &full.cut(h), &around(h, n)));
    for h in [n + 1, u32::MAX - 1, u32::MAX] {
        wrong(report, &Case { h, ..full.clone() });
        report.kind("pair: h above N");
    }
    let h = random.within(1, n);
    for t in 0..n {
        let changed = change_column(random, &full.cut(h), t);
        wrong(report, &changed);
        right(report, &full, &Case { h: 0, ..changed }, &[n]);
        report.kind(if t < h { "pair: a word below h changed" } else { "pair: a word from h up changed" });
    }
}

/// Each w from each h, around 16 terms and four rows of P and of A, where the engine changes its method.
fn methods(random: &mut Random, report: &mut Report) {
    let most = random.pick(&[4, 6, 16]);
    let mut rows = || if random.once_in(2) { random.within(4, most) } else { random.pick(&[3, 4, 5]) };
    let (low, high) = (rows(), rows());
    let n = if random.once_in(40) { 256 } else { random.within(16, 40) };
    let p = random.prime();
    let fresh = of_order(random, report, (p, low + high - 1, n), low);
    several_goes(random, report, &fresh);
    let full = full(report, &fresh);
    for h in [0, 1, 15, 16, 17, n - 1, n].into_iter().filter(|&h| h <= n) {
        let case = if h == 0 { fresh.clone() } else { full.cut(h) };
        right(report, &full, &case, &[h, h + 1, 15, 16, 17, 18, n]);
        if low >= 4 && high >= 4 && n > 16 {
            report.kind(match h {
                0 => "pair: above 16 terms, four rows or more on either side, started",
                1..16 => "pair: above 16 terms, four rows or more on either side, h below 16",
                16 => "pair: above 16 terms, four rows or more on either side, h = 16",
                _ => "pair: above 16 terms, four rows or more on either side, h above 16",
            });
        }
    }
}

/// Started to the first of these terms, and continued to each of the others.
fn worked(report: &mut Report, fresh: &Case, stops: &[u32]) -> Vec<u32> {
    let mut step = fresh.clone();
    for &w in stops {
        step.w = w;
        step.out = pair(report, &step).words;
        step.h = w;
    }
    step.out
}

fn several_goes(random: &mut Random, report: &mut Report, fresh: &Case) {
    let w = random.within(1, fresh.n);
    let at_once = worked(report, fresh, &[w]);
    for goes in 1..=3 {
        let mut stops: Vec<u32> = (0..goes).map(|_| random.within(1, w)).collect();
        stops.sort();
        stops.push(w);
        let words = worked(report, fresh, &stops);
        report.expect(words == at_once, &format!("a pair in several goes, {stops:?}, is the pair at once, of {fresh:?}"));
    }
    report.kind("pair: worked in several goes");
}

/// The pair to h terms with h or f other than it was made for: columns of f from h up have no part in it.
fn other_calls(random: &mut Random, report: &mut Report, fresh: &Case) {
    let full = full(report, fresh);
    let (p, n) = (full.p, full.n);
    let (h, w, t) = (random.within(1, n), random.within(1, n), random.below(n));
    let there = Case { w, ..full.cut(h) };
    for h in [h - 1, h + 1] {
        pair(report, &Case { h, ..there.clone() });
    }
    let mut other = there;
    let word = &mut other.f[(random.below(full.d + 1) * n + t) as usize];
    *word = (*word + random.within(1, p - 1)) % p;
    if t >= h {
        let started = self::full(report, &Case { h: 0, w: n, ..other.clone() });
        right(report, &started, &other, &around(h, n));
        report.kind("pair: f changed from column h up only");
    } else if t > 0 {
        wrong(report, &other);
        report.kind("pair: f changed in a column below h");
    }
}

/// Each refusal by what is nearest to a case that passes. For h = 0 there is nothing that 13 and 15 could refuse.
fn refusals(random: &mut Random, report: &mut Report) {
    let (d, n) = (random.degree().min(32), random.columns().clamp(2, 256));
    let fresh = any(random, report, d, n);
    let (p, size) = (fresh.p, fresh.f.len());
    let (h, t) = (random.within(2, n), random.below(n));
    let there = Case { w: random.within(h, n), ..full(report, &fresh).cut(h) };
    let modulus = random.pick(&[0, 1, 1 << 24, u32::MAX]);
    let (composite, divisor) = random.pick(&[(4, 2), (91, 7), (4093 * 4093, 4093), (16_777_215, 3)]);
    let bound = random.pick(&[33, 33, 1 << 31, u32::MAX]);
    let columns = random.pick(&[0, 257, 1 << 31, u32::MAX]);
    let length = random.pick(&[size - 1, size + 1, 0]);
    let at = random.below(size as u32) as usize;
    let number = random.pick(&[p, p, p + 1, u32::MAX]);
    let spoiled = if random.once_in(3) { Case { h: n + 1, ..there.clone() } } else { change_column(random, &there, t) };
    let room = random.pick(&[size - 1, size - 1, size / 2, 0]);
    let wanted = random.pick(&[0, n + 1, u32::MAX]);

    let faults: [Fault<Case>; 11] = [
        ((1, 0), &|case| case.p = modulus),
        ((2, divisor), &|case| case.p = composite),
        ((3, 0), &|case| case.d = bound),
        ((4, 0), &|case| case.n = columns),
        ((5, 0), &|case| case.f.resize(length, 0)),
        ((6, at as u32), &|case| case.f[at] = number),
        ((10, size as u32), &|case| case.out.truncate(room)),
        ((11, 0), &|case| case.f.iter_mut().step_by(n as usize).for_each(|word| *word = 0)),
        ((13, 0), &|case| (case.h, case.out) = (spoiled.h, spoiled.out.clone())),
        ((14, 0), &|case| case.w = wanted),
        ((15, 0), &|case| case.w = h - 1),
    ];
    let call = |report: &mut Report, case: &Case| pair(report, case).outcome;
    every_set(report, "pair: every set of refusals at once, continued", call, &there, there.order(), &faults);
    let starting: Vec<Fault<Case>> = faults.into_iter().filter(|((number, _), _)| ![13, 15].contains(number)).collect();
    every_set(report, "pair: every set of refusals at once, started", call, &fresh, there.order(), &starting);
}

pub fn run(random: &mut Random, report: &mut Report) {
    for _ in 0..4_000 {
        let (d, n) = (random.degree().min(32), random.columns().min(256));
        let fresh = any(random, report, d, n);
        several_goes(random, report, &fresh);
        other_calls(random, report, &fresh);
    }
    (0..600).for_each(|_| boundaries(random, report));
    (0..200).for_each(|_| methods(random, report));
    (0..30).for_each(|_| refusals(random, report));
}
