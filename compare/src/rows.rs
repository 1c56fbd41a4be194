//! Row polynomials.

use crate::random::Random;
use crate::report::{engine, second, Called, Report};
use bopkheul::rows as e;
use second::rows as s;

#[derive(Clone, Copy)]
enum Fault {
    Modulus,
    Degree,
    Terms,
    Length,
    Word,
    Shift,
}

const FAULTS: [Fault; 6] = [Fault::Modulus, Fault::Degree, Fault::Terms, Fault::Length, Fault::Word, Fault::Shift];

/// Two polynomials of one bound for sums, and of two for the product.
struct Case {
    p: u32,
    d: [u32; 2],
    n: u32,
    inputs: [Vec<u32>; 2],
    c: u32,
    out: Vec<u32>,
}

fn good_case(random: &mut Random, same_bound: bool) -> Case {
    let (p, n, first) = (random.prime(), random.columns(), random.degree());
    let other = if same_bound { first } else { random.degree() };
    let mut polynomial = |d: u32| random.words(p, (d as usize + 1) * n as usize);
    let inputs = [polynomial(first), polynomial(other)];
    let result = if same_bound { first } else { first + other };
    let room = random.room((result as usize + 1) * n as usize);
    Case { p, d: [first, other], n, inputs, c: random.below(p), out: random.junk(room) }
}

fn spoil(random: &mut Random, case: &mut Case, fault: Fault) {
    let which = random.below(2) as usize;
    let input = &mut case.inputs[which];
    match fault {
        Fault::Modulus => case.p = random.bad_modulus(),
        Fault::Degree => case.d[which] = if random.once_in(2) { 33 } else { random.huge() },
        Fault::Terms => case.n = random.pick(&[0, 257, u32::MAX, 1 << 31]),
        Fault::Length if random.once_in(2) => input.push(0),
        Fault::Length => drop(input.pop()),
        Fault::Word if !input.is_empty() => {
            let at = random.below(input.len() as u32) as usize;
            input[at] = random.edge_word(case.p);
        }
        Fault::Word => {}
        Fault::Shift => case.c = random.edge_word(case.p),
    }
}

/// f(Y + c), for f of degree bound d.
pub fn shift(report: &mut Report, p: u32, d: u32, n: u32, f: &[u32], c: u32, out: &[u32]) -> Called<u32> {
    let input = || format!("p {p} d {d} n {n} f {f:?} c {c}");
    report.call("rows shift", input, &[f], out, |o| engine(e::shift(p, d, n, f, c, o)), |o| second(s::shift(p, d, n, f, c, o)))
}

fn compare_same_bound(report: &mut Report, case: &Case) {
    let Case { p, d: [d, _], n, inputs: [f, g], c, out } = case;
    let (p, d, n, c) = (*p, *d, *n, *c);
    let input = || format!("p {p} d {d} n {n} f {f:?} g {g:?}");
    report.call("rows sum", input, &[f, g], out, |o| engine(e::sum(p, d, n, f, g, o)), |o| second(s::sum(p, d, n, f, g, o)));
    report.call("rows difference", input, &[f, g], out, |o| engine(e::difference(p, d, n, f, g, o)), |o| second(s::difference(p, d, n, f, g, o)));
    shift(report, p, d, n, f, c, out);
}

fn compare_product(report: &mut Report, case: &Case) {
    let Case { p, d: [d1, d2], n, inputs: [f, g], out, .. } = case;
    let (p, d1, d2, n) = (*p, *d1, *d2, *n);
    let input = || format!("p {p} d1 {d1} d2 {d2} n {n} f {f:?} g {g:?}");
    report.call("rows product", input, &[f, g], out, |o| engine(e::product(p, d1, d2, n, f, g, o)), |o| second(s::product(p, d1, d2, n, f, g, o)));
}

pub fn run(random: &mut Random, report: &mut Report) {
    for i in 0..16_000 {
        let mut case = good_case(random, i % 2 == 0);
        let faults = random.faults(&FAULTS);
        faults.iter().for_each(|&fault| spoil(random, &mut case, fault));
        if faults.len() > 1 {
            report.kind("several faults at once");
        }
        if i % 2 == 0 {
            compare_same_bound(report, &case);
        } else {
            compare_product(report, &case);
        }
    }
}
