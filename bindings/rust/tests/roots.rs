//! Roots as series: document 02's examples, the limits, and every refusal.

use bopkheul::listing::{list_roots, roots_text, text};
use bopkheul::{sheet, Kind, Refusal, Sheet};

fn refused(number: u32, detail: u32) -> Result<u32, Refusal> {
    Err(Refusal { number, detail })
}

/// Y² − 1 − X modulo 7, with three columns.
const SQUARE: [u32; 9] = [6, 6, 0, 0, 0, 0, 1, 0, 0];

/// As many terms as are worked, and then 0.
#[test]
fn square_roots() {
    let mut sheet = Sheet::find_known(7, 2, 3, &SQUARE).expect("f splits");
    for (k, expected) in [(1, [1, 0, 0, 6, 0, 0]), (2, [1, 4, 0, 6, 3, 0]), (3, [1, 4, 6, 6, 3, 1])] {
        assert_eq!(sheet.extend(k), Ok(k));
        let before = sheet.clone();
        assert_eq!(sheet.roots(), Ok(expected.to_vec()));
        let mut out = [9; 8];
        assert_eq!(sheet::roots(sheet.words(), &mut out), Ok(6));
        assert_eq!((&out[..6], &out[6..]), (&expected[..], &[9; 2][..]));
        assert_eq!(sheet, before);
    }
}

/// Of row 0 two terms are known.
#[test]
fn roots_to_the_least_length() {
    let mut sheet = Sheet::find(7, 2, 3, &SQUARE, &[2, 3]).expect("f splits");
    assert_eq!(sheet.extend(2), Ok(2));
    assert_eq!(sheet.roots(), Ok(vec![1, 4, 0, 6, 3, 0]));
}

/// Y² + Y + X modulo 2: each root s is s² + X, so its entries other than 0 are at the powers of 2, and at 0 for one of them.
#[test]
fn every_number_modulo_2() {
    let mut f = vec![0; 3 * 256];
    (f[1], f[256], f[512]) = (1, 1, 1);
    let mut sheet = Sheet::find_known(2, 2, 256, &f).expect("f splits");
    assert_eq!(sheet.extend(256), Ok(256));
    let expected = |first: u32| (0..256u32).map(move |t| if t == 0 { first } else { t.is_power_of_two() as u32 });
    assert_eq!(sheet.roots(), Ok(expected(0).chain(expected(1)).collect()));
}

/// 32 roots and 256 columns: of Y^32 − 1 modulo 97, moved by X, which are the roots moved by X.
#[test]
fn the_most_roots() {
    let (p, n) = (97u32, 256);
    let power = |c: u32, e: u32| (0..e).fold(1, |product, _| product * c % p);
    let numbers: Vec<u32> = (1..p).filter(|&c| power(c, 32) == 1).collect();
    let mut f = vec![0; 33 * n];
    let mut binomial = vec![1u32]; // (Y − X)^32, by Pascal's rule
    for _ in 0..32 {
        let longer = [&[0], &binomial[..], &[0]].concat();
        binomial = longer.windows(2).map(|pair| (pair[0] + pair[1]) % p).collect();
    }
    for (j, &c) in binomial.iter().enumerate() {
        let t = 32 - j;
        f[j * n + t] = if t % 2 == 0 { c } else { (p - c) % p };
    }
    f[0] = p - 1;
    let mut sheet = Sheet::find_known(p, 32, n as u32, &f).expect("f splits");
    assert_eq!(sheet.extend(256), Ok(256));
    let rows = sheet.roots().expect("all roots are simple");
    assert_eq!(numbers.len(), 32);
    for (row, c) in rows.chunks(n).zip(numbers) {
        assert_eq!((&row[..2], row[2..].iter().max()), (&[c, 1][..], Some(&0)), "{c}");
    }
}

/// (Y − 1) (Y − 2)² (Y − 3)³ modulo 5, with one column.
const MULTIPLE: [u32; 7] = [3, 1, 2, 2, 0, 1, 1];

#[test]
fn refusals_in_their_order() {
    let mut out = [9; 5];
    let multiple = Sheet::find_known(5, 6, 1, &MULTIPLE).expect("f splits");
    let (words, last) = (multiple.words(), multiple.words().len() - 1);
    assert_eq!(sheet::roots(&[], &mut []), refused(13, 0));
    assert_eq!(sheet::roots(&words[..last], &mut []), refused(13, 0));
    for room in [0, 2, 3, 5] {
        assert_eq!(sheet::roots(words, &mut out[..room]), refused(22, 2), "{room}");
    }
    let refusal = multiple.roots().expect_err("2 and 3 are not simple");
    assert_eq!((refusal.kind(), refusal.detail), (Kind::MultipleRoot, 2));
    assert_eq!(refusal.to_string(), "refused 22: the root 2 at X = 0 has a power above 1");

    let square = Sheet::find_known(7, 2, 3, &SQUARE).expect("f splits");
    let mut changed = square.words().to_vec();
    changed[14] = 2; // a power
    assert_eq!(sheet::roots(&changed, &mut out), refused(13, 0));
    for room in [0, 4, 5] {
        assert_eq!(sheet::roots(square.words(), &mut out[..room]), refused(10, 6), "{room}");
    }
    assert_eq!(out, [9; 5]);
}

fn narrow(fields: &[u32]) -> Vec<u8> {
    fields.iter().flat_map(|&field| (field as u16).to_le_bytes()).collect()
}

fn wide(fields: &[u32]) -> Vec<u8> {
    [0; 2].into_iter().chain(fields.iter().flat_map(|field| field.to_le_bytes())).collect()
}

/// The job of Y² − 1 − X with its roots and without, wide too; signed numbers on both sides of p / 2; and p = 2.
#[test]
fn listings() {
    let square = "mod 7 terms 3 degree 2 factors 2\nY = 1 -3 -1\nY = -1 3 1\n";
    let listed = |job: &[u8]| String::from_utf8(roots_text(job)).expect("a listing is ASCII");
    assert_eq!(listed(&narrow(&[&[7, 2, 3, 2, 12, 16, 1, 6], &SQUARE[..]].concat())), square);
    assert_eq!(listed(&narrow(&[&[7, 2, 3, 0, 12, 12], &SQUARE[..]].concat())), square);
    assert_eq!(listed(&wide(&[&[7, 2, 3, 2, 26, 34, 1, 6], &SQUARE[..]].concat())), square);
    let p = 16_777_213;
    let job = wide(&[p, 2, 3, 0, 26, 26, p - 1, p - 1, 0, 0, 0, 0, 1, 0, 0]);
    assert_eq!(listed(&job), "mod 16777213 terms 3 degree 2 factors 2\nY = 1 -8388606 -6291455\nY = -1 8388606 6291455\n");
    assert_eq!(listed(&narrow(&[2, 2, 2, 0, 12, 12, 0, 1, 1, 0, 1, 0])), "mod 2 terms 2 degree 2 factors 2\nY = 0 1\nY = 1 1\n");

    let mut out = [9; 99];
    let (job, needed) = (narrow(&[&[7, 2, 3, 0, 12, 12], &SQUARE[..]].concat()), square.len());
    assert_eq!(list_roots(&job, &mut out[..needed - 1]), refused(10, needed as u32));
    assert_eq!(out, [9; 99]);
    assert_eq!(list_roots(&job, &mut out), Ok(needed as u32));
    assert_eq!((&out[..needed], &out[needed..]), (square.as_bytes(), &[9; 99][needed..]));
}

/// The root in the detail of 22 is not signed; what is refused in the listing of factors is refused alike.
#[test]
fn refused_jobs() {
    assert_eq!(roots_text(&narrow(&[&[5, 6, 1, 3, 12, 18, 1, 2, 3], &MULTIPLE[..]].concat())), b"refused 22 2\n");
    assert_eq!(roots_text(&narrow(&[7, 2, 1, 0, 12, 12, 1, 2, 1])), b"refused 22 6\n"); // (Y + 1)²
    for job in [&[][..], &narrow(&[7, 2, 1, 0, 12, 12, 1, 0, 1]), &narrow(&[7, 2, 1, 1, 12, 14, 6, 1, 0, 1]), &narrow(&[9, 2, 1, 0, 12, 12, 1, 2, 1])]
    {
        let text = text(job);
        assert!(text.starts_with(b"refused "));
        assert_eq!(roots_text(job), text, "{job:?}");
    }
}
