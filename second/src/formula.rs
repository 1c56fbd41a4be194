//! Typed polynomials. The text is cut into tokens. Where brackets close, the sum between them has no brackets any more: it goes to a list of sums, and its place in the
//! list takes the place of the brackets. A sum without brackets is cut at its signs, a term at `*`, and what is left must be elements and their powers. So each sum of
//! the list speaks only of those before it, the last is the whole text, and the values are worked out from the first to the last.

use crate::field::{add, sub};
use crate::polynomial::{constant, entrywise, product, words, Polynomial};
use crate::refusal::{composite, judge, modulus_range, short, terms, when, Answer, Refusal};

/// The most bytes of a text.
const LONGEST: usize = 4096;
/// The most brackets in one another.
const DEEPEST: usize = 32;
/// The most rows that a part's value may have: its Y-degree is at most 32.
const ROWS: usize = 33;

#[derive(Clone, Copy)]
enum Token {
    Number(u64),
    X,
    Y,
    Plus,
    Minus,
    Times,
    Raised,
    Open,
    Close,
    /// What stands for a sum in brackets: its place in the list.
    Sum(usize),
}

use Token::*;

/// A run of digits, or one byte that is no digit.
fn token(bytes: &[u8]) -> Option<Token> {
    match bytes {
        b"X" => Some(X),
        b"Y" => Some(Y),
        b"+" => Some(Plus),
        b"-" => Some(Minus),
        b"*" => Some(Times),
        b"^" => Some(Raised),
        b"(" => Some(Open),
        b")" => Some(Close),
        [b'0'..=b'9', ..] if bytes.len() <= 9 => Some(Number(bytes.iter().fold(0, |number, digit| 10 * number + (digit - b'0') as u64))),
        _ => None,
    }
}

fn tokens(text: &[u8]) -> Option<Vec<Token>> {
    let parts = text.chunk_by(|one, next| one.is_ascii_digit() && next.is_ascii_digit());
    parts.filter(|&part| part != b" ").map(token).collect()
}

/// An element and its power.
struct Factor {
    element: Token,
    power: Option<u64>,
}

struct Term {
    minus: bool,
    factors: Vec<Factor>,
}

/// A sum.
type Terms = Vec<Term>;

fn factor(items: &[Token]) -> Option<Factor> {
    match *items {
        [element @ (Number(_) | X | Y | Sum(_))] => Some(Factor { element, power: None }),
        [element @ (Number(_) | X | Y | Sum(_)), Raised, Number(k @ 0..=255)] => Some(Factor { element, power: Some(k) }),
        _ => None,
    }
}

/// With a sign before it, or, as a sum's first term, perhaps without.
fn term(items: &[Token]) -> Option<Term> {
    let (minus, unsigned) = match items {
        [Minus, unsigned @ ..] => (true, unsigned),
        [Plus, unsigned @ ..] | unsigned => (false, unsigned),
    };
    let factors = unsigned.split(|item| matches!(item, Times)).map(factor).collect::<Option<_>>()?;
    Some(Term { minus, factors })
}

/// A sum without brackets.
fn sum(items: &[Token]) -> Option<Terms> {
    let terms: Terms = items.chunk_by(|_, next| !matches!(next, Plus | Minus)).map(term).collect::<Option<_>>()?;
    (!terms.is_empty()).then_some(terms)
}

/// All sums of a text that the grammar derives.
fn sums(text: &[u8]) -> Option<Vec<Terms>> {
    let (mut sums, mut open) = (Vec::new(), vec![Vec::new()]);
    for token in tokens(text)? {
        match token {
            Open => open.push(Vec::new()),
            Close => {
                sums.push(sum(&open.pop()?)?);
                open.last_mut()?.push(Sum(sums.len() - 1));
            }
            _ => open.last_mut()?.push(token),
        }
    }
    let [whole] = &open[..] else { return None };
    sums.push(sum(whole)?);
    Some(sums)
}

fn readable(text: &[u8]) -> Option<Vec<Terms>> {
    if text.len() <= LONGEST {
        sums(text)
    } else {
        None
    }
}

/// How many brackets are in one another in the last of the sums.
fn depth(sums: &[Terms]) -> usize {
    let mut depths: Vec<usize> = Vec::new();
    for sum in sums {
        let within = |factor: &Factor| if let Sum(place) = factor.element { depths[place] + 1 } else { 0 };
        let depth = sum.iter().flat_map(|term| &term.factors).map(within).max();
        depths.push(depth.expect("a sum has elements"));
    }
    depths[sums.len() - 1]
}

/// A part's value without rows of 0 at the top, where it is not too high.
fn low(mut value: Polynomial) -> Option<Polynomial> {
    while value.len() > 1 && value[value.len() - 1].iter().all(|&c| c == 0) {
        value.pop();
    }
    (value.len() <= ROWS).then_some(value)
}

fn element_value(p: u64, n: usize, element: Token, values: &[Polynomial]) -> Polynomial {
    match element {
        Number(number) => vec![constant(number % p, n)],
        X => vec![(0..n).map(|t| (t == 1) as u64).collect()],
        Y => vec![constant(0, n), constant(1, n)],
        Sum(place) => values[place].clone(),
        _ => unreachable!("no element"),
    }
}

/// A power by way of all lower ones.
fn factor_value(p: u64, n: usize, factor: &Factor, values: &[Polynomial]) -> Option<Polynomial> {
    let element = element_value(p, n, factor.element, values);
    match factor.power {
        None => Some(element),
        Some(k) => (0..k).try_fold(vec![constant(1, n)], |run, _| low(product(p, &element, &run))),
    }
}

fn term_value(p: u64, n: usize, term: &Term, values: &[Polynomial]) -> Option<Polynomial> {
    let times = |run: Polynomial, factor| low(product(p, &factor_value(p, n, factor, values)?, &run));
    term.factors.iter().try_fold(vec![constant(1, n)], times)
}

fn with_rows(n: usize, rows: usize, mut f: Polynomial) -> Polynomial {
    f.resize(rows, constant(0, n));
    f
}

fn sum_value(p: u64, n: usize, sum: &[Term], values: &[Polynomial]) -> Option<Polynomial> {
    sum.iter().try_fold(vec![constant(0, n)], |run, term| {
        let value = term_value(p, n, term, values)?;
        let rows = run.len().max(value.len());
        let [run, value] = [run, value].map(|f| with_rows(n, rows, f));
        let op = if term.minus { sub } else { add };
        low(run.iter().zip(&value).map(|(a, b)| entrywise(op, p, a, b)).collect())
    })
}

/// The value of the last of the sums, where no part is too high.
fn value(p: u64, n: usize, sums: &[Terms]) -> Option<Polynomial> {
    let mut values = Vec::new();
    for sum in sums {
        values.push(sum_value(p, n, sum, &values)?);
    }
    values.pop()
}

/// Writes the rows of the value of a typed polynomial; the answer is its Y-degree.
pub fn read(p: u32, n: u32, text: &[u8], out: &mut [u32]) -> Answer {
    let refused = |number| Refusal { number, detail: 0 };
    judge(&[(1, &|| modulus_range(p)), (2, &|| composite(p)), (4, &|| terms(n))])?;
    let sums = readable(text).ok_or(refused(17))?;
    judge(&[(18, &|| when(depth(&sums) > DEEPEST))])?;
    let value = value(p as u64, n as usize, &sums).ok_or(refused(19))?;
    let rows = words(&value);
    judge(&[(10, &|| short(out, rows.len()))])?;
    out[..rows.len()].copy_from_slice(&rows);
    Ok(value.len() as u32 - 1)
}
