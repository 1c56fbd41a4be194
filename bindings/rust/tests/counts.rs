//! How often polynomials split: document 02's examples, the limits, and every refusal.

use bopkheul::counts::counts;
use bopkheul::{sheet, Kind, Refusal};

fn refused(number: u32, detail: u32) -> Result<u32, Refusal> {
    Err(Refusal { number, detail })
}

#[test]
fn examples() {
    for (p, d, expected) in [(3, 2, &[3, 3, 3][..]), (2, 3, &[4, 2, 2, 0]), (65_521, 1, &[0, 65_521]), (251, 2, &[31_375, 251, 31_375])] {
        let mut out = [9; 6];
        let words = expected.len();
        assert_eq!(counts(p, d, &mut out), Ok(words as u32), "{p} {d}");
        assert_eq!((&out[..words], &out[words..]), (expected, &[9; 6][words..]), "{p} {d}");
        assert_eq!(expected.iter().sum::<u32>(), p.pow(d), "{p} {d}");
        assert_eq!(counts(p, d, &mut out[..words]), Ok(words as u32), "{p} {d}");
    }
}

/// Modulo 2 there are two lines: two powers of one of them, and 15 products of powers of both.
#[test]
fn the_highest_degree() {
    let mut out = [9; 17];
    assert_eq!(counts(2, 16, &mut out), Ok(17));
    let mut expected = [0; 17];
    expected[..3].copy_from_slice(&[65_519, 2, 15]);
    assert_eq!(out, expected);
}

#[test]
fn refusals_in_their_order() {
    let mut out = [9; 40];
    for p in [0, 1, 1 << 24, u32::MAX] {
        assert_eq!(counts(p, 0, &mut out), refused(1, 0), "{p}");
    }
    for (p, divisor) in [(4, 2), (91, 7), (65_536, 2), (4093 * 4093, 4093), (16_777_215, 3)] {
        assert_eq!(counts(p, 0, &mut out), refused(2, divisor), "{p}");
    }
    for d in [0, 33, u32::MAX] {
        assert_eq!(counts(2, d, &mut []), refused(3, 0), "{d}");
        assert_eq!(counts(16_777_213, d, &mut out), refused(3, 0), "{d}");
    }
    for (p, d) in [(2, 17), (2, 32), (257, 2), (65_537, 1), (16_777_213, 1), (16_777_213, 32)] {
        assert_eq!(counts(p, d, &mut []), refused(24, 0), "{p} {d}");
        assert_eq!(counts(p, d, &mut out), refused(24, 0), "{p} {d}");
    }
    for (p, d) in [(2, 16), (3, 2), (65_521, 1)] {
        assert_eq!(counts(p, d, &mut []), refused(10, d + 1), "{p} {d}");
        assert_eq!(counts(p, d, &mut out[..d as usize]), refused(10, d + 1), "{p} {d}");
    }
    assert_eq!(out, [9; 40]);
    assert_eq!(counts(2, 17, &mut out).map_err(Refusal::kind), Err(Kind::Many));
}

/// The counts are of the polynomials as they are split here: all quadratics modulo 5.
#[test]
fn what_find_splits() {
    let mut expected = [0; 3];
    for number in 0..25 {
        let mut words = [0; 22];
        match sheet::find(5, 2, 1, &[number % 5, number / 5, 1], &[1, 1], &mut words) {
            Ok(_) => expected[words[4] as usize] += 1,
            Err(refusal) => {
                assert_eq!(refusal.kind(), Kind::Unsplit);
                expected[0] += 1;
            }
        }
    }
    let mut out = [9; 3];
    assert_eq!(counts(5, 2, &mut out), Ok(3));
    assert_eq!(out, expected);
}
