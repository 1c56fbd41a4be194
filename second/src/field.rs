//! F_p: least divisors by a sieve, powers, inverses by Fermat's theorem.

use std::sync::OnceLock;

pub const LARGEST_MODULUS: u32 = 16_777_215;

/// The least divisor above 1 of every composite number up to the largest modulus, and 0 for all others. Those divisors are below 4,096.
fn sieve() -> &'static [u16] {
    static LEAST: OnceLock<Vec<u16>> = OnceLock::new();
    LEAST.get_or_init(|| {
        let mut least = vec![0; LARGEST_MODULUS as usize + 1];
        for q in 2..4096usize {
            if least[q] == 0 {
                for multiple in (q * q..least.len()).step_by(q) {
                    if least[multiple] == 0 {
                        least[multiple] = q as u16;
                    }
                }
            }
        }
        least
    })
}

/// The least divisor above 1 of a number from 2 to the largest modulus: a prime's is the prime.
pub fn least_divisor(p: u32) -> u32 {
    match sieve()[p as usize] {
        0 => p,
        divisor => divisor as u32,
    }
}

pub fn add(p: u64, a: u64, b: u64) -> u64 {
    (a + b) % p
}

pub fn sub(p: u64, a: u64, b: u64) -> u64 {
    (a + p - b) % p
}

pub fn mul(p: u64, a: u64, b: u64) -> u64 {
    a * b % p
}

pub fn pow(p: u64, a: u64, exponent: u64) -> u64 {
    match exponent {
        0 => 1,
        e if e % 2 == 0 => pow(p, mul(p, a, a), e / 2),
        e => mul(p, a, pow(p, a, e - 1)),
    }
}

/// The inverse of a ≠ 0, as a^(p−2).
pub fn inverse(p: u64, a: u64) -> u64 {
    pow(p, a, p - 2)
}
