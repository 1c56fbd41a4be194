//! Numbers: every small case, every modulus, and words at the edges.

use crate::random::Random;
use crate::report::{engine, second, Report};
use bopkheul::numbers as e;
use second::field::least_divisor;
use second::numbers as s;

fn all_four(report: &mut Report, p: u32, value: u32, other: u32) {
    let input = || format!("p {p} value {value} other {other}");
    report.call::<u32>("sum", input, &[], &[], |_| engine(e::sum(p, value, other)), |_| second(s::sum(p, value, other)));
    report.call::<u32>("difference", input, &[], &[], |_| engine(e::difference(p, value, other)), |_| second(s::difference(p, value, other)));
    report.call::<u32>("product", input, &[], &[], |_| engine(e::product(p, value, other)), |_| second(s::product(p, value, other)));
    report.call::<u32>("inverse", input, &[], &[], |_| engine(e::inverse(p, value)), |_| second(s::inverse(p, value)));
}

/// Each modulus with random numbers, some of them too large.
fn moduli(random: &mut Random, report: &mut Report, kind: &'static str, moduli: impl IntoIterator<Item = u32>) {
    for p in moduli {
        report.kind(kind);
        let (value, other) = (random.below(p + 1), random.below(p + 1));
        all_four(report, p, value, other);
    }
}

/// Each of the primes below 4,096, which the engine holds in a table, is the only one that gives its square away.
fn products_of_primes(random: &mut Random, report: &mut Report) {
    let primes: Vec<u32> = (2..4096).filter(|&q| least_divisor(q) == q).collect();
    assert_eq!((primes.len(), primes.last()), (564, Some(&4093)));
    moduli(random, report, "a prime below 4,096, squared", primes.iter().map(|q| q * q));
    moduli(random, report, "two neighbours among these primes", primes.windows(2).map(|pair| pair[0] * pair[1]));
}

pub fn run(random: &mut Random, report: &mut Report) {
    moduli(random, report, "every modulus from 0 to 66,000", 0..=66_000);
    moduli(random, report, "every modulus from 16,776,000 to 16,778,000", 16_776_000..=16_778_000);
    products_of_primes(random, report);
    let drawn: Vec<u32> = (0..40_000).map(|_| random.below(1 << 24)).collect();
    moduli(random, report, "a modulus drawn below 2^24", drawn);
    for p in 0..=24 {
        for value in 0..=p + 1 {
            (0..=p + 1).for_each(|other| all_four(report, p, value, other));
        }
    }
    for _ in 0..20_000 {
        let p = if random.once_in(4) { random.bad_modulus() } else { random.prime() };
        let mut word = || if random.once_in(2) { random.edge_word(p) } else { random.below(p.max(1)) };
        let (value, other) = (word(), word());
        all_four(report, p, value, other);
    }
}
