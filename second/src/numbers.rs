//! Numbers modulo p: a value that travels with its p, and a plain word.

use crate::field;
use crate::refusal::{composite, judge, modulus_range, unreduced, when, Answer, Refusal};

fn judged(p: u32, operands: &[u32]) -> Result<(), Refusal> {
    judge(&[(1, &|| modulus_range(p)), (2, &|| composite(p)), (6, &|| unreduced(p, &[operands]))])
}

fn binary(op: fn(u64, u64, u64) -> u64, p: u32, value: u32, other: u32) -> Answer {
    judged(p, &[value, other])?;
    Ok(op(p as u64, value as u64, other as u64) as u32)
}

pub fn sum(p: u32, value: u32, other: u32) -> Answer {
    binary(field::add, p, value, other)
}

pub fn difference(p: u32, value: u32, other: u32) -> Answer {
    binary(field::sub, p, value, other)
}

pub fn product(p: u32, value: u32, other: u32) -> Answer {
    binary(field::mul, p, value, other)
}

pub fn inverse(p: u32, value: u32) -> Answer {
    judged(p, &[value])?;
    judge(&[(12, &|| when(value == 0))])?;
    Ok(field::inverse(p as u64, value as u64) as u32)
}
