//! The examples of document 01, the sheet of F-8, F-2's moduli and job files, F-4's one call for the pair, F-5's quotients, F-9's known lengths, F-3's roots, F-6's
//! corrections, F-13's counts, F-1's typed polynomials, and F-10's simple roots.

use second::calls::{replay, PlainCount};
use second::counts::counts;
use second::formula::read;
use second::roots::roots;
use second::simple::{root_series, signed, value};
use second::{listing, numbers, pair, series, sheet, Refusal};

fn refused(number: u32, detail: u32) -> Result<u32, Refusal> {
    Err(Refusal { number, detail })
}

fn job(fields: &[u16]) -> Vec<u8> {
    fields.iter().flat_map(|f| f.to_le_bytes()).collect()
}

/// Y² − 1 − X modulo 7, document 01's job.
const SQUARE: [u32; 9] = [6, 6, 0, 0, 0, 0, 1, 0, 0];

#[test]
fn the_job() {
    let file = job(&[7, 2, 3, 2, 12, 16, 1, 6, 6, 6, 0, 0, 0, 0, 1, 0, 0]);
    let expected = "mod 7 terms 3 degree 2 factors 2\nroot 1 power 1\nY^0: 6 3 1\nroot 6 power 1\nY^0: 1 4 6\n";
    assert_eq!(listing::text(&file), expected);
    let mut out = [9; 32];
    assert_eq!(sheet::open(7, 2, 3, &SQUARE, &[3, 3], &[1, 6], &mut out[..31]), refused(10, 32));
    assert_eq!(sheet::open(7, 2, 3, &SQUARE, &[3, 3], &[1, 6], &mut out), Ok(32));
    assert_eq!(out[..17], [7, 2, 3, 1, 2, 13, 17, 26, 32, 32, 3, 3, 3, 1, 1, 6, 1]);
    assert_eq!(out[17..], [6, 6, 0, 0, 0, 0, 1, 0, 0, 6, 0, 0, 1, 0, 0]);
    assert_eq!(sheet::extend(&mut out[..31], 3), refused(13, 0));
    assert_eq!(sheet::extend(&mut out, 4), refused(14, 0));
    assert_eq!(sheet::extend(&mut out, 0), refused(14, 0));
    assert_eq!(sheet::extend(&mut out, 3), Ok(3));
    assert_eq!((out[3], &out[26..]), (3, &[6, 3, 1, 1, 4, 6][..]));
}

#[test]
fn a_double_root_modulo_2() {
    let mut out = [0; 64];
    let f = [0, 1, 0, 1, 1, 0, 1, 0];
    let total = sheet::open(2, 3, 2, &f, &[2; 3], &[0, 1], &mut out).unwrap() as usize;
    assert_eq!(sheet::extend(&mut out[..total], 2), Ok(2));
    assert_eq!(&out[14..18], &[0, 2, 1, 1]);
    assert_eq!(&out[26..32], &[0, 1, 0, 0, 1, 0]);
}

/// X + Y + Y².
const QUADRATIC: [u32; 12] = [0, 1, 0, 0, 1, 0, 0, 0, 1, 0, 0, 0];

#[test]
fn pairs() {
    let mut out = [9; 12];
    assert_eq!(pair::pair(5, 2, 4, &QUADRATIC, 0, 4, &mut out), Ok(1));
    assert_eq!(out, [0, 1, 1, 2, 1, 4, 4, 3, 1, 0, 0, 0]);
    let mut out = [9; 4];
    assert_eq!(pair::pair(5, 1, 2, &[0, 1, 2, 0], 0, 2, &mut out), Ok(1));
    assert_eq!(out, [0, 3, 2, 0]);
    let mut out = [9; 2];
    assert_eq!(pair::pair(5, 1, 1, &[1, 1], 0, 1, &mut out), Ok(0));
    assert_eq!(out, [1, 1]);
}

#[test]
fn quotients_with_x_in_common() {
    let mut out = [9; 4];
    let mut call = |f: [u32; 3], g: [u32; 3]| (series::quotient(7, 3, &f, &g, &mut out), out);
    assert_eq!(call([0, 1, 1], [0, 1, 0]), (Ok(2), [1, 1, 0, 9]));
    assert_eq!(call([0, 0, 0], [0, 0, 3]), (Ok(1), [0, 0, 0, 9]));
    assert_eq!(call([1, 2, 3], [1, 1, 0]), (Ok(3), [1, 1, 2, 9]));
    for (f, g) in [([0, 0, 0], [0, 0, 0]), ([0, 0, 1], [0, 0, 0]), ([1, 0, 0], [0, 1, 0])] {
        assert_eq!(call(f, g), (refused(12, 0), [1, 1, 2, 9]));
    }
}

/// A pair to two terms, which h = 0 starts and only h = 2 can continue.
#[test]
fn a_pair_is_started_and_continued() {
    let mut out = [9; 13];
    let mut call = |h, w| pair::pair(5, 2, 4, &QUADRATIC, h, w, &mut out);
    assert_eq!(call(0, 5), refused(14, 0));
    assert_eq!(call(0, 2), Ok(1));
    assert_eq!(call(1, 4), refused(13, 0));
    assert_eq!(call(3, 4), refused(13, 0));
    assert_eq!(call(5, 0), refused(13, 0));
    assert_eq!(call(2, 0), refused(14, 0));
    assert_eq!(call(2, 1), refused(15, 0));
    assert_eq!(call(2, 2), Ok(1));
    assert_eq!(out, [0, 1, 0, 0, 1, 4, 0, 0, 1, 0, 0, 0, 9]);
    assert_eq!(pair::pair(5, 2, 4, &QUADRATIC, 2, 4, &mut out), Ok(1));
    assert_eq!(out, [0, 1, 1, 2, 1, 4, 4, 3, 1, 0, 0, 0, 9]);
}

#[test]
fn refusals() {
    assert_eq!(sheet::open(7, 2, 1, &[6, 0, 1], &[1, 1], &[1], &mut [0; 99]), refused(9, 0));
    assert_eq!(numbers::sum(91, 0, 0), refused(2, 7));
    assert_eq!(numbers::sum(65521, 65520, 2), Ok(1));
    assert_eq!(numbers::sum(65535, 0, 0), refused(2, 3));
    assert_eq!(numbers::sum(65536, 0, 0), refused(2, 2));
    assert_eq!(numbers::sum(16777213, 16777212, 2), Ok(1));
    assert_eq!(numbers::sum(16777215, 0, 0), refused(2, 3));
    assert_eq!(numbers::sum(16777216, 0, 0), refused(1, 0));
    assert_eq!(numbers::sum(4093 * 4093, 0, 0), refused(2, 4093));
}

fn wide_job(fields: &[u32]) -> Vec<u8> {
    [0; 2].into_iter().chain(fields.iter().flat_map(|f| f.to_le_bytes())).collect()
}

/// Y² − 1 − X modulo 16,777,213: its roots are ±(1 + X/2 − X²/8).
#[test]
fn a_wide_job() {
    let fields = [16777213, 2, 3, 2, 26, 34, 1, 16777212, 16777212, 16777212, 0, 0, 0, 0, 1, 0, 0];
    let expected =
        "mod 16777213 terms 3 degree 2 factors 2\nroot 1 power 1\nY^0: 16777212 8388606 6291455\nroot 16777212 power 1\nY^0: 1 8388607 10485758\n";
    assert_eq!(listing::text(&wide_job(&fields)), expected);
    let with = |at: usize, value: u32| {
        let mut changed = fields;
        changed[at] = value;
        listing::text(&wide_job(&changed))
    };
    assert_eq!(with(0, 0), "refused 1 0\n");
    assert_eq!(with(1, u32::MAX), "refused 3 0\n");
    assert_eq!(with(2, u32::MAX), "refused 4 0\n");
    assert_eq!(with(3, u32::MAX), "refused 5 0\n");
    assert_eq!(with(4, 24), "refused 5 0\n");
    assert_eq!(with(5, 32), "refused 5 0\n");
    assert_eq!(listing::text(&wide_job(&fields)[..25]), "refused 5 0\n");
    assert_eq!(listing::text(&[&wide_job(&fields)[..], &[0]].concat()), "refused 5 0\n");
}

/// Document 01's sheet with rows known to these lengths, and the plain count of it.
fn opened_square(lengths: [u32; 2]) -> ([u32; 32], PlainCount) {
    let mut words = [9; 32];
    assert_eq!(sheet::open(7, 2, 3, &SQUARE, &lengths, &[1, 6], &mut words), Ok(32));
    (words, PlainCount::new(32, 7, 3, &SQUARE, &lengths))
}

#[test]
fn a_list_of_calls_is_the_plain_count() {
    let (mut words, mut count) = opened_square([3, 3]);
    let list = [32, 0, 2, 0, 0, 31, 0, 3, 0, 0, 32, 0, 1, 0, 0, 32, 0, 4, 0, 0, 32, 0, 3, 0, 0];
    let mut answers = [9; 11];
    assert_eq!(replay(&mut words, &list, &mut answers), Ok(10));
    assert_eq!(answers, [0, 2, 13, 0, 15, 0, 14, 0, 0, 3, 9]);
    assert_eq!(count.answers(&list), answers[..10]);
    assert_eq!((count.terms, &count.f[..]), (3, &SQUARE[..]));
}

/// Of both kinds; the sheet is that of what the count then holds.
#[test]
fn corrections_are_counted() {
    let (mut words, mut count) = opened_square([2, 3]);
    let list = [
        [32, 1, 0, 1, 0], // k = 1: nothing but the entry
        [31, 1, 0, 1, 5], // a word too few
        [32, 0, 2, 0, 0],
        [32, 1, 1, 1, 1],
        [32, 1, 0, 2, 7], // past the length, and not below 7
        [32, 1, 1, 2, 7],
        [32, 0, 3, 0, 0],
        [32, 1, 1, 2, 4],
        [32, 1, 1, 1, 0],
    ];
    let mut answers = [9; 18];
    assert_eq!(replay(&mut words, list.as_flattened(), &mut answers), Ok(18));
    assert_eq!(answers, [0, 1, 13, 0, 0, 2, 0, 2, 20, 0, 6, 0, 14, 0, 0, 2, 0, 2]);
    assert_eq!(count.answers(list.as_flattened()), answers);
    assert_eq!((count.terms, &count.f[..]), (2, &[6, 0, 0, 0, 0, 4, 1, 0, 0][..]));
    assert_eq!((words[3], &words[17..26]), (2, &count.f[..]));
    assert_eq!(words[26..], [6, 0, 0, 1, 0, 0]);
}

#[test]
fn what_is_no_list_of_calls_is_5() {
    let (fresh, _) = opened_square([3, 3]);
    let good = [32, 0, 2, 0, 0, 32, 1, 0, 1, 5];
    let mut spoiled: Vec<Vec<u32>> = [1, 4, 6, 9].map(|length| good[..length].to_vec()).to_vec();
    for (at, word) in [(0, 33), (5, 33), (5, u32::MAX), (1, 2), (1, 1 << 31), (6, u32::MAX), (3, 1), (4, 1), (4, u32::MAX)] {
        let mut changed = good;
        changed[at] = word;
        spoiled.push(changed.to_vec());
    }
    spoiled.push(vec![32, 0, 2, 0, 0, 32, 0, 0, 1, 0]);
    let mut words = fresh;
    for list in spoiled {
        assert_eq!(replay(&mut words, &list, &mut []), refused(5, 0), "{list:?}");
    }
    assert_eq!(replay(&mut words, &good, &mut [9; 3]), refused(10, 4));
    assert_eq!(words, fresh);
    assert_eq!(replay(&mut words, &[], &mut []), Ok(0));
    assert_eq!(replay(&mut words, &good, &mut [9; 4]), Ok(4));
    // Y² − 1 + 5X is (Y − 1 + 6X) (Y + 1 + X) to two terms
    assert_eq!(words[17..], [6, 5, 0, 0, 0, 0, 1, 0, 0, 6, 6, 0, 1, 1, 0]);
}

/// Y² − 1 − X becomes another polynomial, and then what it was.
#[test]
fn an_entry_is_corrected() {
    let (mut words, _) = opened_square([3, 3]);
    sheet::extend(&mut words, 3).unwrap();
    let first = words;
    let cases = [
        (&[(0, 1, 0)][..], [6, 0, 0, 1, 0, 0]),        // Y² − 1
        (&[(0, 1, 0), (0, 2, 6)], [6, 0, 3, 1, 0, 4]), // Y² − 1 − X²
        (&[(1, 1, 2)], [6, 4, 4, 1, 5, 3]),            // Y² + 2XY − 1 − X, with the roots −X ± (1 + X/2 + 3X²/8)
    ];
    for (corrections, factors) in cases {
        let mut f = SQUARE;
        for &(j, t, entry) in corrections {
            f[(3 * j + t) as usize] = entry;
            assert_eq!(sheet::correct(&mut words, j, t, entry), Ok(3));
        }
        assert_eq!((&words[..17], &words[17..26]), (&first[..17], &f[..]));
        assert_eq!(words[26..], factors);
        let mut fresh = [9; 32];
        sheet::open(7, 2, 3, &f, &[3, 3], &[1, 6], &mut fresh).unwrap();
        sheet::extend(&mut fresh, 3).unwrap();
        assert_eq!(words, fresh);
        for &(j, t, _) in corrections {
            assert_eq!(sheet::correct(&mut words, j, t, SQUARE[(3 * j + t) as usize]), Ok(3));
        }
        assert_eq!(words, first);
    }
}

/// Worked to two terms: column 1 is among them, and column 2 is not.
#[test]
fn from_k_up_only_the_entry_moves() {
    let mut words = [&opened_square([3, 3]).0[..], &[8, 9]].concat();
    sheet::extend(&mut words, 2).unwrap();
    let first = words.clone();
    assert_eq!(sheet::correct(&mut words, 0, 2, 5), Ok(2));
    assert_eq!(words[19], 5);
    words[19] = 0;
    assert_eq!(words, first);
    assert_eq!(sheet::correct(&mut words, 0, 1, 5), Ok(2));
    assert_eq!(words[17..], [6, 5, 0, 0, 0, 0, 1, 0, 0, 6, 6, 0, 1, 1, 0, 8, 9]);
}

#[test]
fn which_entries_can_be_corrected() {
    let (mut words, _) = opened_square([2, 3]);
    let fresh = words;
    let call = |words: &mut [u32], j, t, entry| sheet::correct(words, j, t, entry).map_err(|refusal| (refusal.number, refusal.detail));
    assert_eq!(call(&mut words[..31], 2, 0, 7), Err((13, 0)));
    assert_eq!(call(&mut [], 0, 1, 0), Err((13, 0)));
    // the top row and those past it; column 0; the known length, and what it leaves out; an entry of the next row
    for (j, t) in [(2, 1), (3, 1), (u32::MAX, 1), (0, 0), (1, 0), (0, 2), (0, 3), (0, 4), (1, 3), (1, u32::MAX)] {
        for entry in [0, 6, 7, u32::MAX] {
            assert_eq!(call(&mut words, j, t, entry), Err((20, 0)), "{j} {t} {entry}");
        }
    }
    for (j, t) in [(0, 1), (1, 1), (1, 2)] {
        for entry in [7, 8, u32::MAX] {
            assert_eq!(call(&mut words, j, t, entry), Err((6, 0)), "{j} {t} {entry}");
        }
        assert_eq!(words, fresh);
        assert_eq!(call(&mut words, j, t, 6), Ok(1));
        assert_eq!(call(&mut words, j, t, SQUARE[(3 * j + t) as usize]), Ok(1));
        assert_eq!(words, fresh);
    }
}

/// With one column there is no entry past the first.
#[test]
fn one_column_has_no_entry() {
    let mut words = [9; 22];
    assert_eq!(sheet::open(7, 2, 1, &[6, 0, 1], &[1, 1], &[1, 6], &mut words), Ok(22));
    for (j, t) in [(0, 0), (0, 1), (1, 1), (0, 2), (2, 0)] {
        assert_eq!(sheet::correct(&mut words, j, t, 7), refused(20, 0), "{j} {t}");
    }
}

/// A wrong entry below k makes the sheet unsound, and then it is too late to correct it.
#[test]
fn a_spoiled_sheet_is_not_mended() {
    let (mut words, _) = opened_square([3, 3]);
    sheet::extend(&mut words, 2).unwrap();
    words[18] = 5;
    for (j, t, entry) in [(0, 1, 6), (0, 1, 7), (2, 0, 6), (2, 0, 7)] {
        assert_eq!(sheet::correct(&mut words, j, t, entry), refused(13, 0));
    }
}

/// Y³ − 1 − X modulo 7: at X = 0 its roots are 1, 2 and 4.
const CUBIC: [u32; 8] = [6, 6, 0, 0, 0, 0, 1, 0];

fn opened_cubic() -> [u32; 34] {
    let mut words = [9; 34];
    assert_eq!(sheet::open(7, 3, 2, &CUBIC, &[2; 3], &[1, 2, 4], &mut words), Ok(34));
    words
}

#[test]
fn a_sheet_of_three_roots() {
    let mut words = opened_cubic();
    assert_eq!(words[..14], [7, 3, 2, 1, 3, 14, 20, 28, 34, 34, 2, 2, 2, 2]);
    assert_eq!(sheet::extend(&mut words, 2), Ok(2));
    // a root c moves by X / 3c²: by 5X, 3X and 6X
    assert_eq!(words[28..], [6, 2, 5, 4, 3, 1]);
    let mut part = [0; 4];
    assert_eq!(sheet::factor(&words, 2, &mut part), Ok(4));
    assert_eq!(part, [4, 1, 32, 2]);
}

#[test]
fn a_factor_is_read_in_the_order_of_the_numbers() {
    let words = opened_cubic();
    assert_eq!(sheet::factor(&words[..33], 3, &mut [0; 3]), refused(10, 4));
    assert_eq!(sheet::factor(&words[..33], 3, &mut [0; 4]), refused(13, 0));
    assert_eq!(sheet::factor(&words, 3, &mut [0; 4]), refused(16, 0));
}

/// Root 2's factor is Y + 5 + 4X.
#[test]
fn a_factor_passed_on() {
    let mut words = opened_cubic();
    sheet::extend(&mut words, 2).unwrap();
    let mut out = [9; 5];
    assert_eq!(sheet::factor_times(&words, 1, 1, &[0, 1, 1, 0], &mut out), Ok(4));
    assert_eq!(out, [0, 5, 5, 4, 9]); // (5 + 4X) (Y + X)
    assert_eq!(sheet::factor_shift(&words, 1, 6, &mut out[..3]), Ok(2));
    assert_eq!(out, [5, 4, 5, 4, 9]);
    assert_eq!(sheet::factor_times(&words[..33], 3, 33, &[7], &mut []), refused(13, 0));
    assert_eq!(sheet::factor_times(&words, 3, 33, &[7], &mut []), refused(16, 0));
    assert_eq!(sheet::factor_shift(&words, 3, 7, &mut []), refused(16, 0));
    assert_eq!(sheet::factor_shift(&words, 1, 7, &mut []), refused(6, 2));
    assert_eq!(sheet::factor_shift(&words, 1, 6, &mut []), refused(10, 2));
}

#[test]
fn one_word_less() {
    let mut words = opened_cubic();
    assert_eq!(sheet::open(7, 3, 2, &CUBIC, &[2; 3], &[1, 2, 4], &mut words[..33]), refused(10, 34));
    assert_eq!(sheet::extend(&mut words[..33], 2), refused(13, 0));
}

#[test]
fn words_8_and_9_are_the_total() {
    let longer = [&opened_cubic()[..], &[0; 4]].concat();
    assert!(sheet::test(&longer));
    for (word_8, word_9) in [(33, 34), (35, 34), (34, 33), (34, 35), (33, 33), (38, 38), (0, 0)] {
        let mut changed = longer.clone();
        (changed[8], changed[9]) = (word_8, word_9);
        assert!(!sheet::test(&changed), "{word_8} {word_9}");
    }
}

/// Without lengths, as F-8 laid it out; and with a cofactor too, as document 01 did.
#[test]
fn older_sheets_are_spoiled() {
    let words = opened_cubic();
    let mut old = [&[7, 3, 2, 1, 3, 10, 16, 24, 30, 30], &words[14..]].concat();
    assert!(!sheet::test(&old));
    assert_eq!(sheet::extend(&mut old, 2), refused(13, 0));
    old.extend([1, 0, 1, 0]); // (Y − 2)(Y − 4) is Y² + Y + 1
    assert!(!sheet::test(&old));
    old[9] = 34;
    assert!(!sheet::test(&old));
    assert_eq!(sheet::extend(&mut old, 2), refused(13, 0));
}

#[test]
fn a_wrong_column_comes_before_w() {
    let mut words = opened_cubic();
    sheet::extend(&mut words, 2).unwrap();
    words[29] += 1;
    for w in [0, 1, 2, 3] {
        assert_eq!(sheet::extend(&mut words, w), refused(13, 0));
    }
}

/// 3 + 5X + .. and 1 + X + 6X² modulo 7.
#[test]
fn sums_and_products_to_the_lesser_count() {
    let (g, h) = ([3, 5, 0], [1, 1, 6]);
    let mut out = [9; 4];
    assert_eq!(series::sum(7, 3, &g, 2, &h, 3, &mut out), Ok(3));
    assert_eq!(out, [4, 6, 0, 9]);
    assert_eq!(series::product(7, 3, &g, 2, &h, 3, &mut out), Ok(3));
    assert_eq!(out, [3, 1, 0, 9]);
    assert_eq!(series::product(7, 3, &h, 3, &g, 2, &mut out), Ok(3));
    assert_eq!(out, [3, 1, 0, 9]);
    assert_eq!(series::product(7, 3, &g, 3, &h, 3, &mut out), Ok(3));
    assert_eq!(out, [3, 1, 2, 9]);
}

#[test]
fn counts_are_judged_after_6_and_before_10() {
    for call in [series::sum, series::product] {
        for (g_known, h_known) in [(0, 3), (4, 3), (u32::MAX, 3), (2, 0), (2, 4), (1, 3), (2, 2)] {
            assert_eq!(call(7, 3, &[3, 5, 0], g_known, &[1, 1, 6], h_known, &mut []), refused(21, 0), "{g_known} {h_known}");
        }
        assert_eq!(call(7, 3, &[3, 5, 0], 0, &[1, 1, 7], 0, &mut []), refused(6, 5));
        assert_eq!(call(7, 3, &[3, 5, 0], 2, &[1, 1, 6], 3, &mut [9; 2]), refused(10, 3));
    }
}

/// Row 0, −1 − X, is known to two terms only.
#[test]
fn a_sheet_is_worked_to_its_least_length() {
    let (mut words, mut count) = opened_square([2, 3]);
    assert_eq!(words[..17], [7, 2, 3, 1, 2, 13, 17, 26, 32, 32, 2, 2, 3, 1, 1, 6, 1]);
    assert_eq!(sheet::extend(&mut words, 3), refused(14, 0));
    assert_eq!(sheet::extend(&mut words, 2), Ok(2));
    assert_eq!(words[26..], [6, 3, 0, 1, 4, 0]);
    let list = [32, 0, 3, 0, 0, 32, 0, 1, 0, 0, 31, 0, 2, 0, 0, 32, 0, 2, 0, 0];
    let mut answers = [9; 8];
    assert_eq!(replay(&mut words, &list, &mut answers), Ok(8));
    assert_eq!(answers, [14, 0, 15, 0, 13, 0, 0, 2]);
    assert_eq!(count.answers(&[32, 0, 2, 0, 0]), [0, 2]);
    assert_eq!(count.answers(&list), answers);
    assert_eq!(count.terms, 2);
}

#[test]
fn lengths_are_judged_after_6_and_before_7() {
    let call = |lengths: &[u32]| sheet::open(7, 2, 3, &SQUARE, lengths, &[1, 6], &mut [9; 31]);
    for lengths in [&[][..], &[3], &[3, 3, 3]] {
        assert_eq!(call(lengths), refused(5, 0));
    }
    for lengths in [[0, 3], [3, 0], [4, 3], [3, 4], [u32::MAX, 3], [1, 3]] {
        assert_eq!(call(&lengths), refused(21, 0));
    }
    for lengths in [[2, 1], [2, 3], [3, 1]] {
        assert_eq!(call(&lengths), refused(10, 32));
    }
    // a coefficient, a root, the top row, the root list, a root of f
    assert_eq!(sheet::open(7, 2, 3, &[6, 6, 7, 0, 0, 0, 1, 0, 0], &[2, 3], &[1, 6], &mut []), refused(6, 2));
    assert_eq!(sheet::open(7, 2, 3, &SQUARE, &[0, 0], &[1, 7], &mut []), refused(6, 10));
    assert_eq!(sheet::open(7, 2, 3, &[6, 6, 1, 0, 0, 0, 1, 0, 1], &[2, 3], &[], &mut []), refused(21, 0));
    assert_eq!(sheet::open(7, 2, 3, &[6, 6, 0, 0, 0, 0, 1, 0, 1], &[2, 3], &[], &mut []), refused(7, 0));
    assert_eq!(sheet::open(7, 2, 3, &SQUARE, &[1, 3], &[6, 1], &mut []), refused(21, 0));
    assert_eq!(sheet::open(7, 2, 3, &SQUARE, &[1, 3], &[1], &mut []), refused(21, 0));
}

/// The lengths may be any that leave nothing but 0 past them, with the least of them in word 10 and no more terms worked.
#[test]
fn what_lengths_a_sound_sheet_has() {
    let (mut words, _) = opened_square([2, 3]);
    sheet::extend(&mut words, 2).unwrap();
    let with = |reach: u32, lengths: [u32; 2]| {
        let mut changed = words;
        changed[10] = reach;
        changed[11..13].copy_from_slice(&lengths);
        sheet::test(&changed)
    };
    for (reach, lengths) in [(2, [2, 3]), (2, [2, 2]), (2, [3, 2]), (3, [3, 3])] {
        assert!(with(reach, lengths), "{reach} {lengths:?}");
    }
    for (reach, lengths) in [(1, [2, 3]), (3, [2, 3]), (0, [2, 3]), (1, [2, 1]), (1, [1, 3]), (0, [2, 0]), (2, [2, 4]), (4, [4, 4])] {
        assert!(!with(reach, lengths), "{reach} {lengths:?}");
    }
    words[19] = 1; // in row 0, past its length
    assert!(!sheet::test(&words));
}

/// Coefficients of the product of the Y − c, the lowest first.
fn lines(p: u64, roots: &[u64]) -> Vec<u64> {
    let mut f = vec![1];
    for &c in roots {
        f.insert(0, 0);
        for j in 0..f.len() - 1 {
            f[j] = (f[j] + f[j + 1] * (p - c)) % p;
        }
    }
    f
}

/// On both sides of 4,096, from where numbers are not tried one by one.
#[test]
fn all_roots_are_found() {
    for p in [2, 3, 5, 31, 4093, 4099, 65_521, 65_537, 16_777_183, 16_777_199, 16_777_213] {
        let several: Vec<u64> = (0..32).map(|i| i * i * 524_287 % p).collect();
        for of in [&several[..], &several[..5], &[0; 32], &[p - 1; 32], &[1; 7], &[0, 1], &[0, 0, p - 1, p - 1, p - 1]] {
            let mut expected = of.to_vec();
            expected.sort();
            expected.dedup();
            assert_eq!(roots(p, &lines(p, of)), expected, "{p} {of:?}");
        }
    }
}

/// Y² − c where c is no square, alone and with lines: none of the roots that are found, if any, give it.
#[test]
fn what_does_not_split_is_9() {
    for (p, c) in [(3, 2), (7, 3), (4093, 2), (4099, 2), (65_521, 17), (16_777_213, 2)] {
        let open = |f: &[u64]| {
            let words: Vec<u32> = f.iter().map(|&a| a as u32).collect();
            let d = words.len() - 1;
            sheet::find(p as u32, d as u32, 1, &words, &vec![1; d], &mut [])
        };
        let square = [p - c, 0, 1];
        assert_eq!(open(&square), refused(9, 0), "{p}");
        for of in [&[0][..], &[1, 1, 2], &[0, 1, 2, 2, 2]] {
            let line = lines(p, of);
            let mut f = vec![0; line.len() + 2];
            for (i, a) in line.iter().enumerate() {
                square.iter().enumerate().for_each(|(j, b)| f[i + j] = (f[i + j] + a * b) % p);
            }
            assert_eq!(open(&f), refused(9, 0), "{p} {of:?}");
        }
    }
    assert_eq!(sheet::find(2, 2, 1, &[1, 1, 1], &[1, 1], &mut []), refused(9, 0));
}

/// The sheet is that of the list of roots, and T has their number in it.
#[test]
fn a_sheet_without_a_list_of_roots() {
    for (p, d, n, f, roots) in [(7, 2, 3, &SQUARE[..], &[1, 6][..]), (7, 3, 2, &CUBIC, &[1, 2, 4]), (2, 3, 2, &[0, 1, 0, 1, 1, 0, 1, 0], &[0, 1])] {
        let lengths = vec![2; d];
        let (mut found, mut opened) = ([9; 40], [9; 40]);
        let total = sheet::open(p, d as u32, n, f, &lengths, roots, &mut opened).unwrap();
        assert_eq!(sheet::find(p, d as u32, n, f, &lengths, &mut found[..total as usize - 1]), refused(10, total));
        assert_eq!(found, [9; 40]);
        assert_eq!(sheet::find(p, d as u32, n, f, &lengths, &mut found), Ok(total));
        assert_eq!(found, opened);
    }
}

/// As opening is judged, but that there are no roots to be counted and no list to be 8.
#[test]
fn finding_is_judged_in_open_s_order() {
    let call = |f: &[u32], lengths: &[u32]| sheet::find(7, 2, 3, f, lengths, &mut []);
    assert_eq!(sheet::find(1, 33, 257, &[9], &[], &mut []), refused(1, 0));
    assert_eq!(sheet::find(91, 33, 257, &[9], &[], &mut []), refused(2, 7));
    assert_eq!(sheet::find(7, 33, 257, &[9], &[], &mut []), refused(3, 0));
    assert_eq!(sheet::find(7, 0, 257, &[9], &[], &mut []), refused(3, 0));
    assert_eq!(sheet::find(7, 2, 257, &[9], &[], &mut []), refused(4, 0));
    assert_eq!(call(&[9; 8], &[0, 0]), refused(5, 0));
    assert_eq!(call(&[9; 9], &[0]), refused(5, 0));
    assert_eq!(call(&[1, 1, 1, 1, 1, 1, 1, 1, 7], &[0, 0]), refused(6, 8));
    assert_eq!(call(&[1, 1, 1, 1, 1, 1, 1, 1, 6], &[3, 4]), refused(21, 0));
    assert_eq!(call(&[1, 1, 1, 1, 1, 1, 1, 1, 6], &[3, 2]), refused(21, 0));
    assert_eq!(call(&[1, 1, 1, 1, 1, 1, 1, 1, 6], &[3, 3]), refused(7, 0));
    assert_eq!(call(&[3, 1, 1, 1, 1, 1, 1, 0, 0], &[3, 3]), refused(9, 0)); // (Y + 4)² + 1
    assert_eq!(call(&[1, 1, 1, 1, 1, 1, 1, 0, 0], &[3, 3]), refused(10, 32)); // (Y − 2) (Y − 4)
}

/// Both kinds of job file with r = 0: the rows begin where the roots would.
#[test]
fn jobs_without_roots() {
    let found = "mod 7 terms 3 degree 2 factors 2\nroot 1 power 1\nY^0: 6 3 1\nroot 6 power 1\nY^0: 1 4 6\n";
    let fields = [7, 2, 3, 0, 12, 12, 6, 6, 0, 0, 0, 0, 1, 0, 0];
    assert_eq!(listing::text(&job(&fields)), found);
    let mut wide = fields.map(u32::from);
    wide[4..6].copy_from_slice(&[26, 26]);
    assert_eq!(listing::text(&wide_job(&wide)), found);
    let with = |at: usize, value: u16| {
        let mut changed = fields;
        changed[at] = value;
        listing::text(&job(&changed))
    };
    assert_eq!(with(3, 1), "refused 5 0\n");
    assert_eq!(with(5, 14), "refused 5 0\n");
    assert_eq!(with(14, 7), "refused 6 8\n");
    assert_eq!(with(13, 1), "refused 7 0\n");
    assert_eq!(with(6, 1), "refused 9 0\n");
}

/// Also by hand: the 17 products of 16 lines modulo 2, and the squares and products of two lines modulo 251.
#[test]
fn how_often_it_splits() {
    for (p, d, expected) in [(3, 2, &[3, 3, 3][..]), (2, 3, &[4, 2, 2, 0]), (65_521, 1, &[0, 65_521]), (251, 2, &[31_375, 251, 31_375])] {
        let mut out = [9; 5];
        let words = expected.len();
        assert_eq!(counts(p, d, &mut out), Ok(words as u32), "{p} {d}");
        assert_eq!((&out[..words], &out[words..]), (expected, &[9; 5][words..]), "{p} {d}");
    }
    let mut out = [9; 17];
    assert_eq!(counts(2, 16, &mut out), Ok(17));
    assert_eq!((&out[..3], &out[3..]), (&[65_519, 2, 15][..], &[0; 14][..]));
}

#[test]
fn too_many_polynomials_come_after_3_and_before_10() {
    let mut out = [9; 40];
    assert_eq!(counts(1, 33, &mut []), refused(1, 0));
    assert_eq!(counts(1 << 24, 33, &mut []), refused(1, 0));
    assert_eq!(counts(16_777_215, 33, &mut []), refused(2, 3));
    for d in [0, 33, u32::MAX] {
        assert_eq!(counts(16_777_213, d, &mut []), refused(3, 0), "{d}");
    }
    for (p, d) in [(2, 17), (2, 32), (3, 11), (257, 2), (65_537, 1), (16_777_213, 32)] {
        assert_eq!(counts(p, d, &mut []), refused(24, 0), "{p} {d}");
        assert_eq!(counts(p, d, &mut out), refused(24, 0), "{p} {d}");
    }
    assert_eq!(counts(2, 16, &mut out[..16]), refused(10, 17));
    assert_eq!(counts(65_521, 1, &mut []), refused(10, 2));
    assert_eq!(out, [9; 40]);
}

/// The rows of what is typed, each of n words; or the refusal, which leaves the output as it was.
fn typed(p: u32, n: u32, text: &str) -> Result<Vec<Vec<u32>>, (u32, u32)> {
    let mut out = vec![9; 34 * n as usize];
    let answer = read(p, n, text.as_bytes(), &mut out);
    let (rows, past) = out.split_at(answer.map_or(0, |degree| (degree as usize + 1) * n as usize));
    assert!(past.iter().all(|&word| word == 9), "{text}");
    answer.map(|_| rows.chunks(n as usize).map(<[u32]>::to_vec).collect()).map_err(|refusal| (refusal.number, refusal.detail))
}

/// Y^3 + 3Y^2 − 3XY − 3X.
#[test]
fn a_typed_polynomial() {
    let rows = vec![vec![0, 4, 0], vec![0, 4, 0], vec![3, 0, 0], vec![1, 0, 0]];
    for text in ["(Y^2-X)*(Y+3) - 2*X*Y", "  ( Y ^ 2-X)*(Y+03)-2 *X *Y ", "+Y^003-(0-3)*Y^2-(3*X)*Y^1-3*X*Y^0", "-(3*X*(Y+1)-Y^3-3*(-Y)^2)"] {
        assert_eq!(typed(7, 3, text), Ok(rows.clone()), "{text}");
    }
    assert_eq!(typed(7, 1, "(Y^2-X)*(Y+3) - 2*X*Y"), Ok(vec![vec![0], vec![0], vec![3], vec![1]]));
}

#[test]
fn what_typed_signs_and_powers_mean() {
    for (text, value) in [
        ("-Y^2", vec![vec![0, 0], vec![0, 0], vec![6, 0]]),
        ("(-Y)^2", vec![vec![0, 0], vec![0, 0], vec![1, 0]]),
        ("1-2-3", vec![vec![3, 0]]),
        ("1-(2-3)", vec![vec![2, 0]]),
        ("2+3*4^2", vec![vec![1, 0]]),
        ("2^3", vec![vec![1, 0]]),
        ("999999999", vec![vec![999_999_999 % 7, 0]]),
        ("0^0", vec![vec![1, 0]]),
        ("X^2", vec![vec![0, 0]]),
        ("(X^2)^0+Y*0", vec![vec![1, 0]]),
        ("7*Y^32", vec![vec![0, 0]]),
        ("X*Y", vec![vec![0, 0], vec![0, 1]]),
    ] {
        assert_eq!(typed(7, 2, text), Ok(value), "{text}");
    }
    assert_eq!(typed(7, 1, "Y^000000032").map(|rows| rows.len()), Ok(33));
}

#[test]
fn what_is_unreadable() {
    let nothing = ["", " ", "()", "+", "(+)"];
    let bytes = ["x", "y", "Y\t", "Y\n", "\0", "Y\0", "Y.", "Y−1"];
    let brackets = ["(", ")", "(Y", "Y)", ")Y(", "(Y+)", "(*Y)"];
    let neighbours = ["Y Y", "2Y", "Y2", "1 2", "1+-2", "2*-3", "--Y", "Y+", "Y*", "*Y", "Y**2"];
    let powers = ["Y^", "^2", "Y^X", "Y^(2)", "Y^-1", "Y^2^3", "(Y^2)^3^1", "Y^2 2", "Y^256", "Y^000000256", "2^999999999"];
    let digits = ["1234567890", "0000000001", "Y^0000000001"];
    for text in [&nothing[..], &bytes, &brackets, &neighbours, &powers, &digits].concat() {
        assert_eq!(typed(7, 2, text), Err((17, 0)), "{text}");
    }
    let padded = |bytes: usize| format!("{:>bytes$}", "Y ");
    assert_eq!(typed(7, 1, &padded(4096)), Ok(vec![vec![0], vec![1]]));
    assert_eq!(typed(7, 1, &padded(4097)), Err((17, 0)));
}

/// 2,047 brackets on either side of Y are 4,095 bytes.
#[test]
fn how_deep_brackets_may_be() {
    let nested = |depth: usize| "(".repeat(depth) + "Y" + &")".repeat(depth);
    assert_eq!(typed(7, 1, &nested(32)), Ok(vec![vec![0], vec![1]]));
    for depth in [33, 34, 2047] {
        assert_eq!(typed(7, 1, &nested(depth)), Err((18, 0)), "{depth}");
        assert_eq!(typed(7, 1, &(nested(depth) + ")")), Err((17, 0)), "{depth}");
    }
    assert_eq!(typed(7, 1, &("(Y)*".repeat(32) + "1")).map(|rows| rows.len()), Ok(33));
    // deep comes before high, and unreadable before deep
    assert_eq!(typed(7, 1, &("Y^33+".to_string() + &nested(33))), Err((18, 0)));
    assert_eq!(typed(7, 1, &("Y^33+".to_string() + &nested(33) + "+")), Err((17, 0)));
}

#[test]
fn how_high_parts_may_be() {
    let powers = ["Y^33", "Y^255", "(Y^17)^2", "(Y^11+1)^3", "(X*Y^20)^3"];
    let later_gone = ["Y^33-Y^33", "(Y^33)^0", "0*(Y^33)", "Y^20*Y^20*0", "-Y^16*Y^17+Y^16*Y^17", "1-(1+0*Y^33)"];
    for text in [&powers[..], &later_gone].concat() {
        assert_eq!(typed(7, 3, text), Err((19, 0)), "{text}");
    }
    for text in ["(7*Y)^255", "(X*Y)^255", "0*Y^20*Y^20", "Y^32-Y^32", "(X*Y^16)^3", "(X^3*Y^20)^255"] {
        assert_eq!(typed(7, 3, text), Ok(vec![vec![0; 3]]), "{text}");
    }
    for text in ["Y^32", "Y^16*Y^16", "(Y^16)^2", "(X+Y)^32", "(Y^32)^1", "(Y^32+1)^0*Y^32"] {
        assert_eq!(typed(7, 3, text).map(|rows| rows.len()), Ok(33), "{text}");
    }
}

#[test]
fn refusals_of_typed_polynomials_in_their_order() {
    let text = b"Y^33+(";
    assert_eq!(read(1, 0, text, &mut []), refused(1, 0));
    assert_eq!(read(1 << 24, 0, text, &mut []), refused(1, 0));
    assert_eq!(read(16_777_215, 0, text, &mut []), refused(2, 3));
    for n in [0, 257, u32::MAX] {
        assert_eq!(read(16_777_213, n, text, &mut []), refused(4, 0), "{n}");
    }
    assert_eq!(read(16_777_213, 256, text, &mut []), refused(17, 0));
    assert_eq!(read(16_777_213, 256, b"Y^33", &mut []), refused(19, 0));
    assert_eq!(read(16_777_213, 256, b"Y^32", &mut [9; 33 * 256 - 1]), refused(10, 33 * 256));
    assert_eq!(read(16_777_213, 256, b"Y^32", &mut [9; 33 * 256]), Ok(32));
    assert_eq!(read(2, 3, b"1+1", &mut []), refused(10, 3));
}

/// Y² − 1 − X modulo 7 as the job has it; what a first line may be, and where each refusal stands among the others.
#[test]
fn answer_keys() {
    let square = "mod 7 terms 3 degree 2 factors 2\nroot 1 power 1\nY^0: 6 3 1\nroot 6 power 1\nY^0: 1 4 6\n";
    let key = |input: &str| listing::key_text(input.as_bytes());
    for input in ["7 3\nY^2-1-X\n", "7 3\nY^2-1-X", "  000000007   03 \n Y^2 - 1 - X \n", "7 3\n(Y-1)*(Y+1)-X+(Y+X)^20-(Y+X)^20"] {
        assert_eq!(key(input), square, "{input}");
    }
    let brackets = "mod 7 terms 3 degree 3 factors 2\nroot 0 power 2\nY^0: 0 6 1\nY^1: 0 4 5\nroot 4 power 1\nY^0: 3 3 2\n";
    assert_eq!(key("7 3\n(Y^2-X)*(Y+3) - 2*X*Y\n"), brackets);
    for first in
        ["", " ", "7", "7 ", "73", "7,3", "7, 3", "7\t3", "7 3 1", "7 3.", "+7 3", "7 -3", "x7 3", "7 3\r", "1234567890 3", "7 0000000003", "7 3\n"]
    {
        assert_eq!(key(&format!("{first}\nY")), "refused 17 0\n", "{first:?}");
    }
    for input in ["", "\n", "7 3", "7 3 Y", "\n7 3\nY", "7 3\n", "7 3\n\n", "7 3\nY\n\n", "7 3\nY^2\n-1"] {
        assert_eq!(key(input), "refused 17 0\n", "{input:?}");
    }
    for (input, refusal) in [
        ("1 0\n(", "1 0"),
        ("16777216 0\n(", "1 0"),
        ("16777215 0\n(", "2 3"),
        ("16777213 0\n(", "4 0"),
        ("16777213 65\n(", "4 0"),
        ("16777213 64\nY^33+(", "17 0"),
        ("16777213 64\nY^33", "19 0"),
        ("16777213 64\n2*Y^13", "3 0"),
        ("16777213 64\n2", "3 0"),
        ("7 64\n2*Y^2+2", "7 0"),
        ("7 64\nX*Y^2+Y", "7 0"),
        ("7 64\nY^2+1", "9 0"),
    ] {
        assert_eq!(key(input), format!("refused {refusal}\n"), "{input}");
    }
    let longest = format!("{:<63}\n{:<4095}\n", "7 3", "Y^2-1-X");
    assert_eq!((longest.len(), key(&longest)), (4160, square.to_string()));
    assert_eq!(key(&(longest + "\n")), "refused 17 0\n");
    assert_eq!(key(&format!("1 0\n{:<4156}", "Y")), "refused 1 0\n");
    assert_eq!(key(&format!("1 0\n{:<4157}", "Y")), "refused 17 0\n");
    assert_eq!(key(&format!("7 3\n{:<4097}", "Y")), "refused 17 0\n");

    let mut out = [9; 99];
    assert_eq!(listing::key(b"7 3\nY^2-1-X", &mut out[..square.len() - 1]), refused(10, square.len() as u32));
    assert_eq!(out, [9; 99]);
    assert_eq!(listing::key(b"7 3\nY^2-1-X", &mut out), Ok(square.len() as u32));
    assert_eq!((&out[..square.len()], &out[square.len()..]), (square.as_bytes(), &[9; 99][square.len()..]));
}

/// Document 01's square roots, ±(1 + X/2 − X²/8), to one, two and three terms.
#[test]
fn simple_roots_as_series() {
    let (mut words, _) = opened_square([3, 3]);
    for (k, expected) in [(1, [1, 0, 0, 6, 0, 0, 9]), (2, [1, 4, 0, 6, 3, 0, 9]), (3, [1, 4, 6, 6, 3, 1, 9])] {
        assert_eq!(sheet::extend(&mut words, k), Ok(k));
        let (before, mut out) = (words, [9; 7]);
        assert_eq!(sheet::roots(&words, &mut out), Ok(6), "{k}");
        assert_eq!((out, words), (expected, before), "{k}");
        assert_eq!(sheet::roots(&words, &mut out[..6]), Ok(6), "{k}");
    }
}

/// As many roots as there can be modulo a small p, and 20 terms, which is no power of 2.
#[test]
fn a_series_is_a_root() {
    for p in [2, 3, 13, 65_521, 16_777_213] {
        let of: Vec<u64> = (0..p.min(13)).map(|i| i * (p / 13).max(1)).collect();
        let mut f: Vec<Vec<u64>> = (1..).zip(lines(p, &of)).map(|(j, a)| (0..20).map(|t| (a + j * t * t + t * t * t) % p).collect()).collect();
        f.last_mut().expect("there is a top row")[1..].fill(0);
        for c in of {
            let s = root_series(p, &f, c);
            assert_eq!((s[0], value(p, &f, &s)), (c, vec![0; 20]), "{p} {c}");
        }
    }
}

/// Modulo 5: Y² (Y − 1), Y (Y − 1)² and (Y − 1) (Y − 3)², and powers on both sides.
#[test]
fn a_multiple_root_comes_after_13_and_before_10() {
    for (of, least) in [(&[0, 0, 1][..], 0), (&[0, 1, 1], 1), (&[1, 3, 3], 3), (&[0, 2, 2, 3, 4, 4, 4], 2)] {
        let (d, f) = (of.len() as u32, lines(5, of).iter().map(|&a| a as u32).collect::<Vec<_>>());
        let mut words = [9; 99];
        let total = sheet::find(5, d, 1, &f, &vec![1; of.len()], &mut words).unwrap() as usize;
        let mut out = [9; 9];
        assert_eq!(sheet::roots(&words[..total - 1], &mut []), refused(13, 0), "{of:?}");
        assert_eq!(sheet::roots(&words, &mut []), refused(22, least), "{of:?}");
        assert_eq!(sheet::roots(&words, &mut out), refused(22, least), "{of:?}");
        assert_eq!(out, [9; 9]);
    }
    let cubic = opened_cubic();
    let mut out = [9; 5];
    assert_eq!(sheet::roots(&cubic[..33], &mut out), refused(13, 0));
    assert_eq!(sheet::roots(&cubic, &mut out), refused(10, 6));
    assert_eq!(out, [9; 5]);
}

#[test]
fn signed_numbers() {
    assert_eq!([0, 1].map(|word| signed(2, word)), [0, 1]);
    assert_eq!([0, 1, 2].map(|word| signed(3, word)), [0, 1, -1]);
    assert_eq!([0, 1, 2, 3, 4, 5, 6].map(|word| signed(7, word)), [0, 1, 2, 3, -3, -2, -1]);
    assert_eq!([8_388_606, 8_388_607, 16_777_212].map(|word| signed(16_777_213, word)), [8_388_606, -8_388_606, -1]);
}

/// Document 01's job with its roots and without, a wide one, one with a double root, and what is refused by both listings alike.
#[test]
fn listings_of_roots() {
    let square = "mod 7 terms 3 degree 2 factors 2\nY = 1 -3 -1\nY = -1 3 1\n";
    let file = job(&[7, 2, 3, 2, 12, 16, 1, 6, 6, 6, 0, 0, 0, 0, 1, 0, 0]);
    assert_eq!(listing::roots_text(&file), square);
    assert_eq!(listing::roots_text(&job(&[7, 2, 3, 0, 12, 12, 6, 6, 0, 0, 0, 0, 1, 0, 0])), square);
    let wide = wide_job(&[16777213, 2, 3, 0, 26, 26, 16777212, 16777212, 0, 0, 0, 0, 1, 0, 0]);
    let expected = "mod 16777213 terms 3 degree 2 factors 2\nY = 1 -8388606 -6291455\nY = -1 8388606 6291455\n";
    assert_eq!(listing::roots_text(&wide), expected);
    assert_eq!(listing::roots_text(&job(&[2, 2, 2, 0, 12, 12, 0, 1, 1, 0, 1, 0])), "mod 2 terms 2 degree 2 factors 2\nY = 0 1\nY = 1 1\n");
    assert_eq!(listing::roots_text(&job(&[7, 2, 1, 0, 12, 12, 4, 4, 1])), "refused 22 5\n"); // (Y + 2)², and 5 is −2, but no entry
    for refused in [&[][..], &job(&[7, 2, 1, 0, 12, 12, 1, 0, 1]), &job(&[9, 2, 1, 0, 12, 12, 4, 4, 1]), &file[1..], &file[..33]] {
        assert_eq!(listing::roots_text(refused), listing::text(refused));
    }

    let mut out = [9; 99];
    assert_eq!(listing::list_roots(&file, &mut out[..square.len() - 1]), refused(10, square.len() as u32));
    assert_eq!(out, [9; 99]);
    assert_eq!(listing::list_roots(&file, &mut out), Ok(square.len() as u32));
    assert_eq!((&out[..square.len()], &out[square.len()..]), (square.as_bytes(), &[9; 99][square.len()..]));
}
