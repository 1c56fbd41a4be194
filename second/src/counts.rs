//! How often it splits. A table has an entry for each of the p^D monic polynomials of degree D. Every product of D lines Y − c is multiplied out, and its entry marked
//! with the number of its distinct roots; what has no mark then does not split.

use crate::field::{mul, sub};
use crate::refusal::{composite, judge, modulus_range, short, when, Answer};

/// The most polynomials that are counted.
const MOST: u64 = 65_536;

/// p^D, where it is not too many. Nothing on the way is above 2^40.
fn polynomials(p: u64, d: u32) -> Option<usize> {
    let all = (0..d).try_fold(1, |all, _| Some(all * p).filter(|&all| all <= MOST));
    all.map(|all| all as usize)
}

/// The product of the Y − c, the leading 1 first.
fn multiply_out(p: u64, roots: &[u64], product: &mut Vec<u64>) {
    product.clear();
    product.push(1);
    for &c in roots {
        product.push(0);
        for j in (1..product.len()).rev() {
            product[j] = sub(p, product[j], mul(p, c, product[j - 1]));
        }
    }
}

/// A polynomial's place in the table: the coefficients after its leading 1 are the digits of a number in base p.
fn place(p: u64, polynomial: &[u64]) -> usize {
    polynomial[1..].iter().fold(0, |number, digit| number * p + digit) as usize
}

/// How many different numbers there are in a list that falls nowhere.
fn count_of_distinct(roots: &[u64]) -> u8 {
    1 + roots.windows(2).filter(|pair| pair[0] != pair[1]).count() as u8
}

/// The next of the lists of numbers below p that fall nowhere, in the order of a dictionary, where there is one.
fn next_list(p: u64, list: &mut [u64]) -> bool {
    let last = list.iter().rposition(|&c| c + 1 < p);
    if let Some(i) = last {
        let c = list[i] + 1;
        list[i..].fill(c);
    }
    last.is_some()
}

/// The table.
fn marks(p: u64, d: usize, polynomials: usize) -> Vec<u8> {
    let mut marks = vec![0; polynomials];
    let (mut roots, mut product) = (vec![0; d], Vec::new());
    loop {
        multiply_out(p, &roots, &mut product);
        let mark = &mut marks[place(p, &product)];
        assert_eq!(*mark, 0, "a polynomial splits in one way only");
        *mark = count_of_distinct(&roots);
        if !next_list(p, &mut roots) {
            return marks;
        }
    }
}

/// Word 0 is the number of polynomials that do not split, and word r of those that split with r distinct roots; the answer is the number of words, D + 1.
pub fn counts(p: u32, d: u32, out: &mut [u32]) -> Answer {
    judge(&[
        (1, &|| modulus_range(p)),
        (2, &|| composite(p)),
        (3, &|| when(!(1..=32).contains(&d))),
        (24, &|| when(polynomials(p as u64, d).is_none())),
        (10, &|| short(out, d as usize + 1)),
    ])?;
    let all = polynomials(p as u64, d).expect("row 24 has been judged");
    let marks = marks(p as u64, d as usize, all);
    for r in 0..=d {
        out[r as usize] = marks.iter().filter(|&&mark| mark as u32 == r).count() as u32;
    }
    Ok(d + 1)
}
