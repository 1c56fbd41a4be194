//! What the crate adds to the engine: a sheet that owns its words, its getters, and a factor's rows.

use bopkheul::{series, sheet, Call, Factor, FromWordsError, Kind, Refusal, Sheet};
use std::panic::catch_unwind;
use std::ptr;

/// Y³ + Y² + XY + X = (Y² + X) (Y + 1) modulo 2, with three columns, two of them worked: 11 + 3 + 2 · 2 + 7 · 3 words.
const F: [u32; 12] = [0, 1, 0, 0, 1, 0, 1, 0, 0, 1, 0, 0];
const WORDS: [u32; 39] = [
    2, 3, 3, 2, 2, 14, 18, 30, 39, 39, 3, // p, d, n, terms, r, offsets, total, the least length
    3, 3, 3, // lengths
    0, 2, 1, 1, // roots and powers
    0, 1, 0, 0, 1, 0, 1, 0, 0, 1, 0, 0, // f
    0, 1, 0, 0, 0, 0, // Y² + X
    1, 0, 0, // Y + 1
];

fn worked() -> Sheet {
    let mut sheet = Sheet::open_known(2, 3, 3, &F, &[0, 1]).expect("f splits so");
    assert_eq!(sheet.extend(2), Ok(2));
    sheet
}

/// The square roots of 1 + X modulo the largest prime: ±(1 + X/2 − X²/8).
#[test]
fn a_modulus_of_three_bytes() {
    let p = 16_777_213;
    let f = [p - 1, p - 1, 0, 0, 0, 0, 1, 0, 0];
    let mut sheet = Sheet::open_known(p, 2, 3, &f, &[1, p - 1]).expect("f splits so");
    assert_eq!(sheet.extend(3), Ok(3));
    assert_eq!(sheet.factor(0).map(|factor| factor.row(0).to_vec()), Ok(vec![p - 1, 8_388_606, 6_291_455]));
    assert_eq!(Sheet::open_known(1 << 24, 2, 3, &f, &[1, p - 1]).map(drop), Err(Refusal { number: 1, detail: 0 }));
    assert_eq!(Sheet::open_known(65_536, 2, 3, &f, &[1, p - 1]).map(drop), Err(Refusal { number: 2, detail: 2 }));
}

/// Row 1, which is X, is known to two terms only.
const SHORT: [u32; 3] = [3, 2, 3];

#[test]
fn rows_known_to_different_lengths() {
    let mut sheet = Sheet::open(2, 3, 3, &F, &SHORT, &[0, 1]).expect("f splits so");
    assert_eq!((sheet.reach(), sheet.lengths()), (2, &SHORT[..]));
    assert_eq!(sheet.extend(3), Err(Refusal { number: 14, detail: 0 }));
    assert_eq!(sheet.extend(2), Ok(2));
    assert_eq!(sheet.words()[14..], WORDS[14..]);
    assert_ne!(sheet, worked());
    assert_eq!(Sheet::from_words(sheet.words().to_vec()), Ok(sheet));
}

#[test]
fn what_lengths_are_refused_by() {
    let opened = |lengths: &[u32]| Sheet::open(2, 3, 3, &F, lengths, &[0, 1]).map(drop).map_err(|refusal| (refusal.kind(), refusal.detail));
    for lengths in [&[][..], &[3, 3], &[3; 4]] {
        assert_eq!(opened(lengths), Err((Kind::Rows, 0)), "{lengths:?}");
    }
    // outside 1 to 3, or X in row 0 or 1 past the length
    for lengths in [[0, 3, 3], [3, 3, 0], [3, 4, 3], [3, 3, u32::MAX], [1, 3, 3], [3, 1, 3]] {
        assert_eq!(opened(&lengths), Err((Kind::KnownTerms, 0)), "{lengths:?}");
    }
    assert_eq!(opened(&[2, 2, 1]), Ok(()));
}

/// As opening with the lengths written out is refused, whatever the degree; no list of that many lengths is made.
#[test]
fn all_known_is_refused_as_lengths_are() {
    for (d, n) in [(0, 3), (33, 3), (1 << 31, 3), (u32::MAX, 3), (u32::MAX, 0), (3, 0), (3, 257), (3, u32::MAX), (2, 3), (32, 3)] {
        let expected = sheet::open(2, d, n, &F, &[], &[0, 1], &mut []);
        assert_eq!(Sheet::open_known(2, d, n, &F, &[0, 1]).map(drop), expected.map(drop), "{d} {n}");
    }
    let equal = Sheet::open(2, 3, 3, &F, &[3; 3], &[0, 1]);
    assert_eq!(Sheet::open_known(2, 3, 3, &F, &[0, 1]), equal);
}

/// Room is made for as many roots as the degree, and what is not used of it is given up.
#[test]
fn roots_are_found() {
    let mut sheet = Sheet::find_known(2, 3, 3, &F).expect("f splits");
    assert_eq!(sheet, Sheet::open_known(2, 3, 3, &F, &[0, 1]).expect("f splits so"));
    assert_eq!(sheet.words().len(), WORDS.len());
    assert_eq!(sheet.extend(2), Ok(2));
    assert_eq!(sheet.words(), WORDS);

    let short = Sheet::find(2, 3, 3, &F, &SHORT).expect("f splits");
    assert_eq!(short, Sheet::open(2, 3, 3, &F, &SHORT, &[0, 1]).expect("f splits so"));
    assert_ne!(short.words()[10..14], sheet.words()[10..14]);
}

/// The sheets that take most words: degree 32 with 256 columns, of one root, of as many as there are, and of 32.
#[test]
fn the_largest_sheets_are_found() {
    for (p, roots) in [(7, vec![0]), (31, (0..31).collect()), (16_777_213, (0..32).map(|i| 524_287 * i).collect::<Vec<u32>>())] {
        let mut f = vec![0; 33 * 256];
        let mut at_zero = vec![0; 32 - roots.len()]; // 0 as often as there are roots too few
        at_zero.push(1);
        for &c in &roots {
            at_zero.insert(0, 0);
            for j in 0..at_zero.len() - 1 {
                at_zero[j] = (at_zero[j] + at_zero[j + 1] * (p - c) as u64) % p as u64;
            }
        }
        at_zero.iter().enumerate().for_each(|(j, &a)| f[256 * j] = a as u32);
        let found = Sheet::find_known(p, 32, 256, &f).expect("f splits");
        assert_eq!(found.words().len(), 11 + 32 + 2 * roots.len() + 65 * 256);
        assert_eq!(found, Sheet::open_known(p, 32, 256, &f, &roots).expect("f splits so"));
    }
}

#[test]
fn what_finding_is_refused_by() {
    let refused = |number, detail| Err(Refusal { number, detail });
    let found = |f: &[u32], lengths: &[u32]| Sheet::find(2, 3, 3, f, lengths).map(drop);
    assert_eq!(Sheet::find(1 << 24, 3, 3, &F, &SHORT).map(drop), refused(1, 0));
    assert_eq!(Sheet::find(91, 3, 3, &F, &SHORT).map(drop), refused(2, 7));
    assert_eq!(found(&F[1..], &SHORT), refused(5, 0));
    assert_eq!(found(&F, &SHORT[1..]), refused(5, 0));
    let with = |at: usize, word: u32| {
        let mut f = F;
        f[at] = word;
        f
    };
    assert_eq!(found(&with(11, 2), &[0; 3]), refused(6, 11));
    assert_eq!(found(&with(11, 1), &[3, 1, 3]), refused(21, 0));
    assert_eq!(found(&with(11, 1), &SHORT), refused(7, 0));
    assert_eq!(found(&with(0, 1), &SHORT), refused(9, 0)); // Y³ + Y² + 1 has no root modulo 2
    assert_eq!(found(&with(3, 1), &SHORT), refused(9, 0)); // Y (Y² + Y + 1)
    let mut out = [9; 38];
    assert_eq!(sheet::find(2, 3, 3, &with(0, 1), &SHORT, &mut out).map(drop), refused(9, 0));
    assert_eq!(sheet::find(2, 3, 3, &F, &SHORT, &mut out).map(drop), refused(10, 39));
    assert_eq!(out, [9; 38]);
}

/// As finding with the lengths written out is refused, whatever the degree and the columns; no room for that many words is made.
#[test]
fn finding_is_refused_as_opening_is() {
    for (d, n) in [(0, 3), (33, 3), (u32::MAX, 3), (u32::MAX, 0), (3, 0), (3, 257), (3, u32::MAX), (2, 3), (32, 3), (u32::MAX, u32::MAX)] {
        let expected = Sheet::open_known(2, d, n, &F, &[0, 1]).map(drop).expect_err("not the words of f");
        assert_eq!(Sheet::find_known(2, d, n, &F).map(drop), Err(expected), "{d} {n}");
        assert_eq!(Sheet::find(2, d, n, &F, &[]).map(drop), Err(expected), "{d} {n}");
    }
}

/// 1 + X and 1 + X² modulo 2.
#[test]
fn sums_and_products_to_the_lesser_count() {
    let (g, h) = ([1, 1, 0], [1, 0, 1]);
    let mut out = [9; 4];
    assert_eq!(series::sum(2, 3, &g, 2, &h, 3, &mut out), Ok(3));
    assert_eq!(out, [0, 1, 0, 9]);
    assert_eq!(series::product(2, 3, &h, 3, &g, 2, &mut out), Ok(3));
    assert_eq!(out, [1, 1, 0, 9]);
    for call in [series::sum, series::product] {
        for (g_known, h_known) in [(0, 3), (4, 3), (1, 3), (3, 2), (3, u32::MAX)] {
            assert_eq!(call(2, 3, &g, g_known, &h, h_known, &mut []).map_err(Refusal::kind), Err(Kind::KnownTerms), "{g_known} {h_known}");
        }
    }
    assert_eq!(out, [1, 1, 0, 9]);
}

/// Each number's name is its own, and every other number has none.
#[test]
fn refusals_by_name() {
    let kind = |number| Refusal { number, detail: 0 }.kind();
    for number in (1..=22).chain([24]) {
        assert_eq!(kind(number) as u32, number);
    }
    for number in [0, 23, 25, u32::MAX] {
        assert_eq!(kind(number), Kind::Unknown, "{number}");
    }
}

#[test]
fn getters() {
    let sheet = worked();
    assert_eq!(sheet.modulus(), 2);
    assert_eq!(sheet.degree(), 3);
    assert_eq!(sheet.columns(), 3);
    assert_eq!(sheet.terms(), 2);
    assert_eq!(sheet.count(), 2);
    assert_eq!(sheet.reach(), 3);
    assert_eq!(sheet.lengths(), [3, 3, 3]);
    assert_eq!(sheet.words(), WORDS);
    assert!(sheet.test());
}

#[test]
fn terms_follow_extend() {
    let mut sheet = Sheet::open_known(2, 3, 3, &F, &[0, 1]).expect("f splits so");
    assert_eq!(sheet.terms(), 1);
    assert_eq!(sheet.extend(3), Ok(3));
    assert_eq!(sheet.terms(), 3);
    assert_eq!(sheet.extend(2), Err(Refusal { number: 15, detail: 0 }));
    assert_eq!(sheet.extend(4), Err(Refusal { number: 14, detail: 0 }));
    assert_eq!(sheet.terms(), 3);
    assert!(sheet.test());
}

/// X² in rows 0 and 1 makes it (Y² + X + X²) (Y + 1).
#[test]
fn an_entry_is_corrected() {
    let mut sheet = worked();
    assert_eq!(sheet.correct(0, 2, 1), Ok(2)); // past the terms worked
    assert_eq!(sheet.words()[18..30], [0, 1, 1, 0, 1, 0, 1, 0, 0, 1, 0, 0]);
    assert_eq!(sheet.words()[30..], WORDS[30..]);
    assert_eq!(sheet.extend(3), Ok(3));
    assert_eq!(sheet.correct(1, 2, 1), Ok(3));
    assert_eq!(sheet.words()[30..], [0, 1, 1, 0, 0, 0, 1, 0, 0]);
    assert!(sheet.test());
    assert_eq!(sheet.correct(0, 2, 0), Ok(3));
    assert_eq!(sheet.correct(1, 2, 0), Ok(3));
    assert_eq!(sheet.words()[18..], WORDS[18..]);
}

#[test]
fn what_a_correction_is_refused_by() {
    let mut sheet = Sheet::open(2, 3, 3, &F, &SHORT, &[0, 1]).expect("f splits so");
    let fresh = sheet.clone();
    let refused = |number| Err(Refusal { number, detail: 0 });
    let mut words = sheet.words().to_vec();
    assert_eq!(sheet::correct(&mut words[..38], 3, 0, 2), refused(13));
    // row 1 is known to two terms only, and of row 3 nothing can be corrected
    for (j, t) in [(0, 0), (1, 2), (0, 3), (2, u32::MAX), (3, 1), (u32::MAX, 1)] {
        assert_eq!(sheet.correct(j, t, 2), refused(20), "{j} {t}");
        assert_eq!(sheet.correct(j, t, 0), refused(20), "{j} {t}");
    }
    assert_eq!(sheet.correct(1, 1, 2), refused(6));
    assert_eq!(sheet.correct(1, 1, u32::MAX), refused(6));
    assert_eq!(sheet.words(), fresh.words());
    assert_eq!(sheet.correct(1, 1, 0), Ok(1));
    assert_ne!(sheet, fresh);
}

#[test]
fn a_call_in_words() {
    assert_eq!(Call::Extend { lent: 39, w: 3 }.words(), [39, 0, 3, 0, 0]);
    assert_eq!(Call::Correct { lent: 38, j: 2, t: 1, entry: 5 }.words(), [38, 1, 2, 1, 5]);
}

/// Each list is refused as a whole: the good call before the bad words is not made.
#[test]
fn what_a_list_of_calls_is_refused_by() {
    let good = Call::Extend { lent: 39, w: 3 }.words();
    let replayed = |more: &[u32], room: usize| {
        let mut words = WORDS;
        let outcome = sheet::replay(&mut words, &[&good[..], more].concat(), &mut [9; 4][..room]);
        (outcome.map_err(|refusal| (refusal.kind(), refusal.detail)), words == WORDS)
    };
    for more in [&[39][..], &[39, 0, 3, 0], &[39, 2, 3, 0, 0], &[39, 0, 3, 1, 0], &[39, 0, 3, 0, 1], &[40, 0, 3, 0, 0], &[40, 1, 0, 1, 0]] {
        assert_eq!(replayed(more, 4), (Err((Kind::Rows, 0)), true), "{more:?}");
    }
    assert_eq!(replayed(&good, 3), (Err((Kind::Short, 4)), true));
    assert_eq!(replayed(&good, 4), (Ok(4), false));
}

#[test]
fn factors_and_their_rows() {
    let sheet = worked();
    let first = sheet.factor(0).expect("there are two");
    assert_eq!(first, Factor { root: 0, power: 2, rows: &[0, 1, 0, 0, 0, 0] });
    assert_eq!(first.row(0), [0, 1, 0]);
    assert_eq!(first.row(1), [0, 0, 0]);
    assert_eq!(sheet.factor(1), Ok(Factor { root: 1, power: 1, rows: &[1, 0, 0] }));
    assert_eq!(sheet.factor(2).map_err(Refusal::kind), Err(Kind::NoFactor));
}

/// A factor's rows are words of the sheet itself, not a copy: they stand where the engine says.
#[test]
fn rows_stand_in_the_sheet() {
    let sheet = worked();
    for (i, from, to) in [(0, 30, 36), (1, 36, 39)] {
        let mut found = [0; 4];
        assert_eq!(sheet::factor(sheet.words(), i, &mut found), Ok(4));
        assert_eq!(found[2..], [from, to - from]);
        assert!(ptr::eq(sheet.factor(i).expect("there are two").rows, &sheet.words()[from as usize..to as usize]));
    }
}

#[test]
fn a_factor_is_read_in_the_order_of_the_numbers() {
    let sheet = worked();
    let (mut short, mut out) = ([9; 3], [9; 4]);
    let spoiled = &sheet.words()[..38];
    assert_eq!(sheet::factor(spoiled, 2, &mut short), Err(Refusal { number: 10, detail: 4 }));
    assert_eq!(sheet::factor(spoiled, 2, &mut out), Err(Refusal { number: 13, detail: 0 }));
    assert_eq!(sheet::factor(sheet.words(), 2, &mut out), Err(Refusal { number: 16, detail: 0 }));
    assert_eq!((short, out), ([9; 3], [9; 4]));
}

/// The rows of Y² + X below the leading 1 are X and 0.
#[test]
fn a_factor_passed_on() {
    let sheet = worked();
    let mut out = [9; 10];
    // X · (Y + 1 + X)
    assert_eq!(sheet.factor_times(0, 1, &[1, 1, 0, 1, 0, 0], &mut out), Ok(9));
    assert_eq!(out, [0, 1, 1, 0, 1, 0, 0, 0, 0, 9]);
    assert_eq!(sheet.factor_shift(0, 1, &mut out), Ok(6));
    assert_eq!(out, [0, 1, 0, 0, 0, 0, 0, 0, 0, 9]);
}

#[test]
fn what_a_factor_passed_on_is_refused_by() {
    let sheet = worked();
    let spoiled = &sheet.words()[..38];
    let refused = |number, detail| Err(Refusal { number, detail });
    let mut out = [9; 5];
    let g = [1, 1, 0, 2]; // a word too many for degree bound 0, and the last is not below 2
    assert_eq!(sheet::factor_times(spoiled, 2, 33, &g, &mut out), refused(13, 0));
    assert_eq!(sheet.factor_times(2, 33, &g, &mut out), refused(16, 0));
    assert_eq!(sheet.factor_times(0, 32, &g, &mut out), refused(3, 0));
    assert_eq!(sheet.factor_times(0, 0, &g, &mut out), refused(5, 0));
    assert_eq!(sheet.factor_times(0, 0, &g[1..], &mut out), refused(6, 8));
    assert_eq!(sheet.factor_times(0, 0, &g[..3], &mut out), refused(10, 6));
    assert_eq!(sheet::factor_shift(spoiled, 2, 2, &mut out), refused(13, 0));
    assert_eq!(sheet.factor_shift(2, 2, &mut out), refused(16, 0));
    assert_eq!(sheet.factor_shift(0, 2, &mut out), refused(6, 6));
    assert_eq!(sheet.factor_shift(0, 1, &mut out), refused(10, 6));
    assert_eq!(out, [9; 5]);
}

/// Also where an index times the columns would wrap round to a row that is there: 2^63 times 2 is 0.
#[test]
fn a_row_that_is_not_there_panics() {
    let rows = [1, 2, 3, 4];
    let factor = Factor { root: 0, power: 2, rows: &rows };
    assert_eq!(factor.row(1), [3, 4]);
    for j in [2, 3, usize::MAX, usize::MAX / 2 + 1] {
        assert!(catch_unwind(|| factor.row(j).len()).is_err(), "row {j}");
    }
    let empty = Factor { root: 0, power: 0, rows: &[] };
    assert!(catch_unwind(|| empty.row(0).len()).is_err());
}

#[test]
fn words_go_out_and_come_back() {
    let sheet = worked();
    let words = sheet.clone().into_words();
    assert_eq!(words, WORDS);
    assert!(sheet::test(&words));
    assert_eq!(Sheet::from_words(words), Ok(sheet));
}

#[test]
fn refused_words_are_given_back() {
    let mut words = WORDS.to_vec();
    words[31] = 0; // Y² is no factor to two terms
    assert!(!sheet::test(&words));
    let error = Sheet::from_words(words.clone()).expect_err("the factors' product is not f");
    assert_eq!(error, FromWordsError { refusal: Refusal { number: 13, detail: 0 }, words });
    assert_eq!(error.to_string(), error.refusal.to_string());
    assert_eq!(Refusal::from(error).kind(), Kind::Spoiled);

    let short = WORDS[..38].to_vec();
    assert_eq!(Sheet::from_words(short.clone()).map_err(|error| error.words), Err(short));
    assert_eq!(Sheet::from_words(Vec::new()).map_err(|error| error.words), Err(Vec::new()));
}

#[test]
fn words_past_the_end_are_kept_but_not_compared() {
    let mut longer = WORDS.to_vec();
    longer.extend([7, 8, 9]);
    let mut sheet = Sheet::from_words(longer.clone()).expect("words past the end are free");
    assert_eq!(sheet.words(), longer);
    assert_eq!(sheet, worked());

    assert_eq!(sheet.extend(3), Ok(3));
    assert_ne!(sheet, worked());
    assert_eq!(sheet.into_words()[39..], [7, 8, 9]);
}
