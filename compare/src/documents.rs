//! Document 01's examples, by the words that it prints, and what document 02 changes in them: the sheet that F-8 makes smaller, the moduli of F-2, the one call for
//! the pair of F-4, the quotient of F-5, the known lengths of F-9, the roots that F-3 finds, the entry that F-6 corrects, what F-13 counts,
//! what F-1 reads, the simple roots of F-10, and the variant of F-11.

use crate::random::Random;
use crate::report::{engine, Outcome, Report};
use bopkheul::{counts, formula, listing, numbers, pair, rows, series, sheet};

fn example<T: PartialEq + std::fmt::Debug>(report: &mut Report, what: &str, is: T, expected: T) {
    report.expect(is == expected, &format!("document 01, {what}: {is:?} is not {expected:?}"));
    report.kind("document 01's examples");
}

/// Document 01's job: Y² − 1 − X modulo 7, three terms.
const JOB: [u16; 17] = [7, 2, 3, 2, 12, 16, 1, 6, 6, 6, 0, 0, 0, 0, 1, 0, 0];

fn file(fields: &[u16]) -> Vec<u8> {
    fields.iter().flat_map(|field| field.to_le_bytes()).collect()
}

fn the_job(report: &mut Report) {
    let text = "mod 7 terms 3 degree 2 factors 2\nroot 1 power 1\nY^0: 6 3 1\nroot 6 power 1\nY^0: 1 4 6\n";
    example(report, "the job", String::from_utf8(listing::text(&file(&JOB))), Ok(text.to_string()));

    let f = [6, 6, 0, 0, 0, 0, 1, 0, 0];
    let mut words = [0; 32];
    example(report, "into T − 1 words", engine(sheet::open(7, 2, 3, &f, &[3, 3], &[1, 6], &mut words[..31])), Err((10, 32)));
    example(report, "its sheet", engine(sheet::open(7, 2, 3, &f, &[3, 3], &[1, 6], &mut words)), Ok(32));
    example(report, "T − 1 words extended", engine(sheet::extend(&mut words[..31], 2)), Err((13, 0)));
    example(report, "w = N + 1", engine(sheet::extend(&mut words, 4)), Err((14, 0)));
    example(report, "w = 0", engine(sheet::extend(&mut words, 0)), Err((14, 0)));
    example(report, "w = N", engine(sheet::extend(&mut words, 3)), Ok(3));
    example(report, "its factors", &words[26..32], &[6, 3, 1, 1, 4, 6]);
}

/// The same polynomial, of whose row 0 two terms are known.
fn known_lengths(report: &mut Report) {
    let mut words = [0; 32];
    let opened = engine(sheet::open(7, 2, 3, &[6, 6, 0, 0, 0, 0, 1, 0, 0], &[2, 3], &[1, 6], &mut words));
    let what = "document 02, F-9: a sheet that is worked to its least length";
    report.expect(opened == Ok(32) && words[..17] == [7, 2, 3, 1, 2, 13, 17, 26, 32, 32, 2, 2, 3, 1, 1, 6, 1], what);
    report.expect(engine(sheet::extend(&mut words, 3)) == Err((14, 0)) && engine(sheet::extend(&mut words, 2)) == Ok(2), what);
    report.expect(words[26..] == [6, 3, 0, 1, 4, 0], what);
    let what = "document 02, F-9: a sum and a product to the terms known in both";
    let mut out = [9; 4];
    report.expect(engine(series::sum(7, 3, &[3, 5, 0], 2, &[1, 1, 6], 3, &mut out)) == Ok(3) && out == [4, 6, 0, 9], what);
    report.expect(engine(series::product(7, 3, &[3, 5, 0], 2, &[1, 1, 6], 3, &mut out)) == Ok(3) && out == [3, 1, 0, 9], what);
    report.kind("the known lengths of document 02's F-9");
}

/// The same job and the same polynomial with no roots given; and Y² + 1, which has none modulo 7.
fn roots_found(report: &mut Report) {
    let what = "document 02, F-3: document 01's job without its roots";
    let job = file(&[7, 2, 3, 0, 12, 12, 6, 6, 0, 0, 0, 0, 1, 0, 0]);
    let text = "mod 7 terms 3 degree 2 factors 2\nroot 1 power 1\nY^0: 6 3 1\nroot 6 power 1\nY^0: 1 4 6\n";
    report.expect(listing::text(&job) == text.as_bytes(), what);
    let mut words = [0; 32];
    let mut find = |f: [u32; 9], room: usize| engine(sheet::find(7, 2, 3, &f, &[2, 3], &mut words[..room]));
    report.expect(find([1, 0, 0, 0, 0, 0, 1, 0, 0], 0) == Err((9, 0)), "document 02, F-3: Y² + 1 does not split modulo 7");
    report.expect(find([6, 6, 0, 0, 0, 0, 1, 0, 0], 31) == Err((10, 32)) && find([6, 6, 0, 0, 0, 0, 1, 0, 0], 32) == Ok(32), what);
    report.expect(words[..17] == [7, 2, 3, 1, 2, 13, 17, 26, 32, 32, 2, 2, 3, 1, 1, 6, 1], what);
    report.kind("the roots of document 02's F-3");
}

/// The same polynomial, mistyped as Y² − 1: corrected where column 1 is worked, and before it is.
fn a_correction(report: &mut Report) {
    let what = "document 02, F-6: document 01's sheet, corrected";
    let mut words = [0; 33];
    let opened = engine(sheet::open(7, 2, 3, &[6, 0, 0, 0, 0, 0, 1, 0, 0], &[3, 3], &[1, 6], &mut words));
    let mut early = words;
    report.expect(opened == Ok(32) && engine(sheet::extend(&mut words, 3)) == Ok(3) && words[26..] == [6, 0, 0, 1, 0, 0, 0], what);
    report.expect(engine(sheet::correct(&mut words[..31], 2, 0, 7)) == Err((13, 0)), what);
    for place in [(2, 1), (0, 0), (0, 3), (1, 3)] {
        report.expect(engine(sheet::correct(&mut words, place.0, place.1, 7)) == Err((20, 0)), what);
    }
    report.expect(engine(sheet::correct(&mut words, 0, 1, 7)) == Err((6, 0)), what);
    report.expect(engine(sheet::correct(&mut words, 0, 1, 6)) == Ok(3) && words[17..] == [6, 6, 0, 0, 0, 0, 1, 0, 0, 6, 3, 1, 1, 4, 6, 0], what);
    report.expect(engine(sheet::correct(&mut early, 0, 1, 6)) == Ok(1) && early[17..] == [6, 6, 0, 0, 0, 0, 1, 0, 0, 6, 0, 0, 1, 0, 0, 0], what);
    report.expect(engine(sheet::extend(&mut early, 3)) == Ok(3) && early == words, what);
    report.kind("the correction of document 02's F-6");
}

fn modulo_2(report: &mut Report) {
    let mut words = [0; 32];
    example(report, "Y³ + Y² + XY + X modulo 2", engine(sheet::open(2, 3, 2, &[0, 1, 0, 1, 1, 0, 1, 0], &[2; 3], &[0, 1], &mut words)), Ok(32));
    example(report, "its two terms", engine(sheet::extend(&mut words, 2)), Ok(2));
    example(report, "its powers", &words[14..18], &[0, 2, 1, 1]);
    example(report, "its factors", &words[26..32], &[0, 1, 0, 0, 1, 0]);
}

/// Y³ − 1 − X modulo 7: at X = 0 its roots are 1, 2 and 4, and each root c moves by X / 3c².
fn three_roots(report: &mut Report) {
    let f = [6, 6, 0, 0, 0, 0, 1, 0];
    let mut words = [0; 34];
    let opened = |out: &mut [u32]| engine(sheet::open(7, 3, 2, &f, &[2; 3], &[1, 2, 4], out));
    let what = "document 02, F-8: a sheet of three roots";
    report.expect(opened(&mut words[..33]) == Err((10, 34)) && opened(&mut words) == Ok(34), what);
    report.expect(words[..14] == [7, 3, 2, 1, 3, 14, 20, 28, 34, 34, 2, 2, 2, 2], what);
    report.expect(engine(sheet::extend(&mut words[..33], 2)) == Err((13, 0)) && engine(sheet::extend(&mut words, 2)) == Ok(2), what);
    report.expect(words[28..] == [6, 2, 5, 4, 3, 1], what);
    report.kind("the sheet of document 02's F-8");
}

fn one_pair(report: &mut Report, what: &str, d: u32, n: u32, f: &[u32], order: u32, expected: &[u32]) {
    let mut out = vec![9; f.len()];
    example(report, what, engine(pair::pair(5, d, n, f, 0, n, &mut out)), Ok(order));
    example(report, what, &out[..], expected);
}

fn pairs(report: &mut Report) {
    one_pair(report, "X + Y + Y²", 2, 4, &[0, 1, 0, 0, 1, 0, 0, 0, 1, 0, 0, 0], 1, &[0, 1, 1, 2, 1, 4, 4, 3, 1, 0, 0, 0]);
    one_pair(report, "2Y + X", 1, 2, &[0, 1, 2, 0], 1, &[0, 3, 2, 0]);
    one_pair(report, "1 + Y", 1, 1, &[1, 1], 0, &[1, 1]);
}

fn moduli(report: &mut Report) {
    let judged = |p: u32| -> Outcome { engine(numbers::sum(p, 0, 0)) };
    example(report, "p = 91", judged(91), Err((2, 7)));
    example(report, "p = 65,521", judged(65521), Ok(0));
    example(report, "p = 65,535", judged(65535), Err((2, 3)));
    example(report, "Y² − 1 with root 1 alone", engine(sheet::open(7, 2, 1, &[6, 0, 1], &[1, 1], &[1], &mut [0; 64])), Err((9, 0)));
}

fn larger_moduli(report: &mut Report) {
    for (p, expected) in [(65_536, Err((2, 2))), (65_537, Ok(0)), (16_777_213, Ok(0)), (16_777_215, Err((2, 3))), (16_777_216, Err((1, 0)))] {
        let judged = engine(numbers::sum(p, 0, 0));
        report.expect(judged == expected, &format!("document 02, F-2: the modulus {p} is judged {judged:?}, not {expected:?}"));
        report.kind("the moduli of document 02's F-2");
    }
}

/// X + X² by X, over 7.
fn the_quotient(report: &mut Report) {
    let mut out = [9; 4];
    let divided = engine(series::quotient(7, 3, &[0, 1, 1], &[0, 1, 0], &mut out));
    report.expect(divided == Ok(2) && out == [1, 1, 0, 9], "document 02, F-5: X + X² by X is 1 + X, to two terms");
    report.kind("the quotient of document 02's F-5");
}

/// Quadratics modulo 3, and cubics modulo 2.
fn the_counts(report: &mut Report) {
    let mut out = [9; 5];
    let counted = engine(counts::counts(3, 2, &mut out));
    report.expect(counted == Ok(3) && out == [3, 3, 3, 9, 9], "document 02, F-13: of 9 quadratics modulo 3 there are 3 of each kind");
    let counted = engine(counts::counts(2, 3, &mut out));
    report.expect(counted == Ok(4) && out == [4, 2, 2, 0, 9], "document 02, F-13: of 8 cubics modulo 2 half do not split");
    report.kind("the counts of document 02's F-13");
}

/// Y³ + 3Y² − 3XY − 3X modulo 7, −(Y²), and texts that are not to be read.
fn the_formula(report: &mut Report) {
    let what = "document 02, F-1: what a lecturer types";
    let mut out = [9; 13];
    let read = |text: &str, out: &mut [u32]| engine(formula::read(7, 3, text, out));
    report.expect(read("(Y^2-X)*(Y+3) - 2*X*Y", &mut out[..11]) == Err((10, 12)) && out == [9; 13], what);
    report.expect(read("(Y^2-X)*(Y+3) - 2*X*Y", &mut out) == Ok(3) && out == [0, 4, 0, 0, 4, 0, 3, 0, 0, 1, 0, 0, 9], what);
    report.expect(read("-Y^2", &mut out) == Ok(2) && out == [0, 0, 0, 0, 0, 0, 6, 0, 0, 1, 0, 0, 9], what);
    report.expect(read("X^3*Y^9+0^0", &mut out) == Ok(0) && out[..4] == [1, 0, 0, 0], what);
    for (text, number) in [("Y^2^3", 17), ("1+-2", 17), ("Y^256", 17), (&("(".repeat(33) + "Y" + &")".repeat(33)), 18), ("Y^33-Y^33", 19)] {
        report.expect(read(text, &mut out) == Err((number, 0)), what);
    }
    let key = "mod 7 terms 3 degree 3 factors 2\nroot 0 power 2\nY^0: 0 6 1\nY^1: 0 4 5\nroot 4 power 1\nY^0: 3 3 2\n";
    report.expect(formula::key_text("7 3\n(Y^2-X)*(Y+3) - 2*X*Y\n") == key.as_bytes(), what);
    report.kind("the typed polynomial of document 02's F-1");
}

/// Document 01's two sheets: one has simple roots, and the other a root of power 2.
fn simple_roots(report: &mut Report) {
    let what = "document 02, F-10: the roots of document 01's job";
    report.expect(listing::roots_text(&file(&JOB)) == b"mod 7 terms 3 degree 2 factors 2\nY = 1 -3 -1\nY = -1 3 1\n", what);
    let mut words = [0; 32];
    let opened = engine(sheet::open(7, 2, 3, &[6, 6, 0, 0, 0, 0, 1, 0, 0], &[3, 3], &[1, 6], &mut words));
    report.expect(opened == Ok(32) && engine(sheet::roots(&words[..31], &mut [])) == Err((13, 0)), what);
    for (k, expected) in [(1, [1, 0, 0, 6, 0, 0, 9]), (2, [1, 4, 0, 6, 3, 0, 9]), (3, [1, 4, 6, 6, 3, 1, 9])] {
        let mut out = [9; 7];
        report.expect(engine(sheet::extend(&mut words, k)) == Ok(k) && engine(sheet::roots(&words, &mut out[..5])) == Err((10, 6)), what);
        report.expect(out == [9; 7] && engine(sheet::roots(&words, &mut out)) == Ok(6) && out == expected, what);
    }
    let opened = engine(sheet::open(2, 3, 2, &[0, 1, 0, 1, 1, 0, 1, 0], &[2; 3], &[0, 1], &mut words));
    report.expect(opened == Ok(32) && engine(sheet::roots(&words, &mut [])) == Err((22, 0)), what);
    report.kind("the simple roots of document 02's F-10");
}

/// The factors' rows of a polynomial with two simple roots modulo 7, to three terms.
fn three_terms(f: &[u32], roots: &[u32]) -> Result<[u32; 6], (u32, u32)> {
    let mut words = [0; 32];
    engine(sheet::open(7, 2, 3, f, &[3, 3], roots, &mut words))?;
    engine(sheet::extend(&mut words, 3))?;
    Ok([26, 27, 28, 29, 30, 31].map(|at| words[at]))
}

/// Document 01's polynomial with Y + 2 for Y: its factors at Y + 2, each with its leading 1, in the other order.
fn the_variant(report: &mut Report) {
    let what = "document 02, F-11: document 01's polynomial with Y + 2 for Y";
    let (f, variant) = ([6, 6, 0, 0, 0, 0, 1, 0, 0], [3, 6, 0, 4, 0, 0, 1, 0, 0]);
    for (rows, c, moved) in [(f, 2, variant), (variant, 5, f)] {
        let mut out = [9; 9];
        report.expect(engine(rows::shift(7, 2, 3, &rows, c, &mut out)) == Ok(9) && out == moved, what);
    }
    report.expect(three_terms(&f, &[1, 6]) == Ok([6, 3, 1, 1, 4, 6]) && three_terms(&variant, &[4, 6]) == Ok([3, 4, 6, 1, 3, 1]), what);
    report.expect(three_terms(&variant, &[6, 4]) == Err((8, 0)) && three_terms(&variant, &[1, 3]) == Err((9, 0)), what);
    for (factor, moved) in [([6, 3, 1, 1, 0, 0], [1, 3, 1, 1, 0, 0]), ([1, 4, 6, 1, 0, 0], [3, 4, 6, 1, 0, 0])] {
        let mut out = [9; 6];
        report.expect(engine(rows::shift(7, 1, 3, &factor, 2, &mut out)) == Ok(6) && out == moved, what);
    }
    report.kind("the variant of document 02's F-11");
}

/// Y^d with n columns, opened with the root 0.
fn power_of_y(d: u32, n: u32, room: usize) -> Outcome {
    let width = n as usize;
    let mut f = vec![0; (d as usize + 1) * width];
    f[d as usize * width] = 1;
    engine(sheet::open(7, d, n, &f, &vec![n; d as usize], &[0], &mut vec![0; room]))
}

fn limits(report: &mut Report) {
    let total = 11 + 32 + 2 + 65 * 256;
    example(report, "D = 32 and N = 256", power_of_y(32, 256, 20_000), Ok(total));
    example(report, "D = 33", power_of_y(33, 256, 20_000), Err((3, 0)));
    example(report, "N = 257", power_of_y(32, 257, 20_000), Err((4, 0)));
    example(report, "both, and too short", power_of_y(33, 257, 0), Err((3, 0)));
    example(report, "too short", power_of_y(32, 256, total as usize - 1), Err((10, total)));
}

pub fn run(_: &mut Random, report: &mut Report) {
    the_job(report);
    modulo_2(report);
    pairs(report);
    moduli(report);
    larger_moduli(report);
    limits(report);
    three_roots(report);
    the_quotient(report);
    known_lengths(report);
    roots_found(report);
    a_correction(report);
    the_counts(report);
    the_formula(report);
    simple_roots(report);
    the_variant(report);
}
