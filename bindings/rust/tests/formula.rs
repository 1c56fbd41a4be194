//! Typed polynomials and their answer keys: document 02's example, every refusal at its limit, what is left as it was, and the stack that the deepest formulas take.

use bopkheul::formula::{key, key_text, read};
use bopkheul::{Kind, Refusal, Sheet};
use std::thread;

/// Y³ + 3Y² − 3XY − 3X modulo 7, to three terms.
const TYPED: &str = "(Y^2-X)*(Y+3) - 2*X*Y";
const ROWS: [u32; 12] = [0, 4, 0, 0, 4, 0, 3, 0, 0, 1, 0, 0];

fn refused(number: u32, detail: u32) -> Result<u32, Refusal> {
    Err(Refusal { number, detail })
}

/// The answer, and the words that are not as they were: modulo 7, three terms.
fn typed(text: &str) -> (Result<u32, Refusal>, Vec<u32>) {
    let mut out = [9; 34 * 3];
    let answer = read(7, 3, text, &mut out);
    let written = answer.map_or(0, |degree| (degree as usize + 1) * 3);
    assert!(out[written..].iter().all(|&word| word == 9), "{text}");
    (answer, out[..written].to_vec())
}

fn nested(depth: usize) -> String {
    "(".repeat(depth) + "Y" + &")".repeat(depth)
}

#[test]
fn example() {
    assert_eq!(typed(TYPED), (Ok(3), ROWS.to_vec()));
    assert_eq!(typed("  ( Y ^ 0002-X)*(Y+03)-2 *X *Y "), (Ok(3), ROWS.to_vec()));
    let mut out = [9; 12];
    assert_eq!(read(7, 3, TYPED.as_bytes(), &mut out), Ok(3));
    assert_eq!(out, ROWS);
    assert_eq!(Sheet::find_known(7, 3, 3, &out).map(|sheet| sheet.count()), Ok(2));
}

#[test]
fn values() {
    for (text, degree, rows) in [
        ("0", 0, &[0, 0, 0][..]),
        ("Y-Y", 0, &[0, 0, 0]),
        ("7*Y^32", 0, &[0, 0, 0]),
        ("X^3", 0, &[0, 0, 0]),
        ("0^0", 0, &[1, 0, 0]),
        ("1-2-3", 0, &[3, 0, 0]),
        ("2^3*X", 0, &[0, 1, 0]),
        ("-999999999", 0, &[2, 0, 0]),
        ("-Y^2", 2, &[0, 0, 0, 0, 0, 0, 6, 0, 0]),
        ("+(-Y)^2", 2, &[0, 0, 0, 0, 0, 0, 1, 0, 0]),
        ("(X+Y)^2", 2, &[0, 0, 1, 0, 2, 0, 1, 0, 0]),
    ] {
        assert_eq!(typed(text), (Ok(degree), rows.to_vec()), "{text}");
    }
}

#[test]
fn refusals_in_their_order() {
    let (unreadable, mut out) = ("Y^33+(", [9; 34]);
    for p in [0, 1, 1 << 24, u32::MAX] {
        assert_eq!(read(p, 0, unreadable, &mut out), refused(1, 0), "{p}");
    }
    for (p, divisor) in [(4, 2), (91, 7), (4093 * 4093, 4093), (16_777_215, 3)] {
        assert_eq!(read(p, 0, unreadable, &mut out), refused(2, divisor), "{p}");
    }
    for n in [0, 257, u32::MAX] {
        assert_eq!(read(2, n, unreadable, &mut out), refused(4, 0), "{n}");
        assert_eq!(read(16_777_213, n, "Y", &mut []), refused(4, 0), "{n}");
    }
    let (deep, high) = ("Y^33+".to_string() + &nested(33), "Y^33");
    assert_eq!(read(2, 1, deep.clone() + "+", &mut out), refused(17, 0));
    assert_eq!(read(2, 1, deep, &mut out), refused(18, 0));
    assert_eq!(read(2, 1, high, &mut []), refused(19, 0));
    assert_eq!(read(2, 1, "Y^32", &mut out[..32]), refused(10, 33));
    assert_eq!(read(16_777_213, 256, "Y^32", &mut out), refused(10, 33 * 256));
    assert_eq!(read(16_777_213, 1, "0", &mut []), refused(10, 1));
    assert_eq!(out, [9; 34]);
    let kind = |text: &str| read(2, 1, text, &mut []).map_err(Refusal::kind);
    assert_eq!([kind(""), kind(&nested(33)), kind("Y^33")], [Kind::Unreadable, Kind::Deep, Kind::High].map(Err));
}

#[test]
fn unreadable() {
    let nothing = ["", " ", "()", "+", "(+)"];
    let bytes = ["x", "y", "Y\t", "Y\n", "\0", "Y\0", "Y.", "Y−1"];
    let brackets = ["(", ")", "(Y", "Y)", ")Y(", "(Y+)", "(*Y)"];
    let neighbours = ["Y Y", "2Y", "Y2", "1 2", "1+-2", "2*-3", "--Y", "Y+", "Y*", "*Y", "Y**2"];
    let powers = ["Y^", "^2", "Y^X", "Y^(2)", "Y^-1", "Y^2^3", "(Y^2)^3^1", "Y^2 2", "Y^256", "Y^000000256", "2^999999999"];
    let digits = ["1234567890", "0000000001", "Y^0000000001"];
    for text in [&nothing[..], &bytes, &brackets, &neighbours, &powers, &digits].concat() {
        assert_eq!(typed(text), (refused(17, 0), vec![]), "{text:?}");
    }
    for text in ["999999999", "000000000", "2^255", "2^000000255", " 1 ", "( Y )"] {
        assert!(typed(text).0.is_ok(), "{text:?}");
    }
}

/// By blanks on either side, and by terms.
#[test]
fn the_longest_text() {
    for text in ["Y".to_string() + &" ".repeat(4095), " ".repeat(4095) + "Y", "Y".to_string() + &"+0".repeat(2047) + " "] {
        assert_eq!(text.len(), 4096);
        assert_eq!(typed(&text), (Ok(1), vec![0, 0, 0, 1, 0, 0]));
        assert_eq!(typed(&(text + " ")).0, refused(17, 0));
    }
}

/// With 2,047 brackets on either side there are 4,095 bytes.
#[test]
fn the_deepest_brackets() {
    assert_eq!(typed(&nested(32)), (Ok(1), vec![0, 0, 0, 1, 0, 0]));
    for depth in [33, 34, 2047] {
        assert_eq!(typed(&nested(depth)).0, refused(18, 0), "{depth}");
        assert_eq!(typed(&(nested(depth) + ")")).0, refused(17, 0), "{depth}");
        assert_eq!(typed(&("Y".to_string() + &nested(depth))).0, refused(17, 0), "{depth}");
    }
    // one after the other they are not deep
    assert_eq!(typed(&("(1)*".repeat(1023) + "(Y)")).0, Ok(1));
}

#[test]
fn the_highest_parts() {
    for text in ["Y^32", "Y^16*Y^16", "(Y^16)^2", "(X+Y)^32", "(Y^32)^1", "-Y^32", "Y^32+X*Y^32"] {
        assert_eq!(typed(text).0, Ok(32), "{text}");
    }
    for text in ["(7*Y)^255", "(X*Y)^255", "0*Y^20*Y^20", "Y^32-Y^32", "(X*Y^16)^3", "(X^3*Y^20)^255"] {
        assert_eq!(typed(text), (Ok(0), vec![0; 3]), "{text}");
    }
    let powers = ["Y^33", "Y^255", "(Y^17)^2", "(Y^11+1)^3", "(X*Y^20)^3"];
    let later_gone = ["Y^33-Y^33", "(Y^33)^0", "0*(Y^33)", "Y^20*Y^20*0", "-Y^16*Y^17+Y^16*Y^17", "1-(1+0*Y^33)"];
    for text in [&powers[..], &later_gone].concat() {
        assert_eq!(typed(text), (refused(19, 0), vec![]), "{text}");
    }
}

/// A formula in brackets, 32 times over, with something before it and something after.
fn wrapped(before: &str, innermost: &str, after: &str) -> String {
    before.repeat(32) + innermost + &after.repeat(32)
}

/// Where the innermost brackets are reached, each pair around them has a sum or a product that waits for them, or both, of all 33 rows of 256 words. The value stays 1
/// from one pair to the next.
#[test]
fn the_deepest_formulas_on_a_thread_s_stack() {
    let texts = [
        wrapped("(", "1", ")"),
        wrapped("(", "1", ")^255*Y^32-Y^32+1"),
        wrapped("1+Y^32-Y^32*(", "1", ")"),
        wrapped("-Y^32+1+Y^32*(", "1", ")^2"),
        wrapped("1+Y^32-Y^32*(", "1", ")^3*1+Y^32-Y^32"),
        wrapped("+(Y^32+1)^0*(1+X)^0*(", "1", ")^001*(1+X-Y^32-X)^0"),
    ];
    for text in texts {
        let read = thread::spawn(move || {
            let mut out = vec![9; 33 * 256];
            let answers = [2, 16_777_213].map(|p| read(p, 256, &text, &mut out));
            (answers, out, text)
        });
        let (answers, out, text) = read.join().expect("the stack suffices");
        assert_eq!(answers, [Ok(0); 2], "{text}");
        assert_eq!((out[0], &out[1..256], &out[256..]), (1, &[0; 255][..], &[9; 32 * 256][..]), "{text}");
    }
}

const KEY: &str = "mod 7 terms 3 degree 3 factors 2\nroot 0 power 2\nY^0: 0 6 1\nY^1: 0 4 5\nroot 4 power 1\nY^0: 3 3 2\n";

fn keyed(input: &str) -> String {
    String::from_utf8(key_text(input)).expect("a key is ASCII")
}

#[test]
fn key_of_the_example() {
    for (first, last) in [("7 3", "\n"), ("7 3", ""), ("  007   3 ", "\n"), ("000000007 000000003", "")] {
        assert_eq!(keyed(&format!("{first}\n{TYPED}{last}")), KEY, "{first}");
    }
    let mut out = [9; 99];
    let (input, needed) = (format!("7 3\n{TYPED}\n"), KEY.len());
    for room in [0, 1, needed - 1] {
        assert_eq!(key(&input, &mut out[..room]), refused(10, needed as u32));
        assert_eq!(out, [9; 99]);
    }
    assert_eq!(key(&input, &mut out), Ok(needed as u32));
    assert_eq!((&out[..needed], &out[needed..]), (KEY.as_bytes(), &[9; 99][needed..]));
    assert_eq!(key("", &mut out[..12]), refused(10, 13));
}

#[test]
fn other_lines_than_a_key_s() {
    let numbers = ["", " ", "7", "7 ", "73", "7 3 1", "1234567890 3", "7 1234567890", "0000000007 3", "7 0000000003"];
    let bytes = ["7,3", "7, 3", "7\t3", "7 3.", "+7 3", "7 -3", "x7 3", "7 3\r", "7\0 3", "7 3\0", "7 3\n"];
    for first in [&numbers[..], &bytes].concat() {
        assert_eq!(keyed(&format!("{first}\nY")), "refused 17 0\n", "{first:?}");
    }
    for input in ["", "\n", "7 3", "7 3 Y", "\n7 3\nY", "7 3\n", "7 3\n\n", "7 3\nY\n\n", "7 3\nY^2\n-1"] {
        assert_eq!(keyed(input), "refused 17 0\n", "{input:?}");
    }
}

#[test]
fn refusals_of_keys_in_their_order() {
    let deep = nested(33);
    for (first, text, refusal) in [
        ("1 0", "(", "1 0"),
        ("16777216 0", "(", "1 0"),
        ("999999999 0", "(", "1 0"),
        ("91 0", "(", "2 7"),
        ("16777215 0", "(", "2 3"),
        ("16777213 0", "(", "4 0"),
        ("16777213 65", "(", "4 0"),
        ("16777213 999999999", "(", "4 0"),
        ("16777213 64", "2*Y^33+(", "17 0"),
        ("16777213 64", &format!("2*Y^33+{deep}"), "18 0"),
        ("16777213 64", "2*Y^33", "19 0"),
        ("16777213 64", "2*Y^13", "3 0"),
        ("16777213 64", "2", "3 0"),
        ("7 64", "2*Y^2+2", "7 0"),
        ("7 64", "Y^12+X*Y^12", "7 0"),
        ("7 64", "Y^2+1", "9 0"),
    ] {
        assert_eq!(keyed(&format!("{first}\n{text}")), format!("refused {refusal}\n"), "{first} {text}");
    }
    for (first, text, begins) in [("2 64", "Y", "mod 2 terms 64 degree 1 factors 1\n"), ("2 1", "Y^12", "mod 2 terms 1 degree 12 factors 1\n")] {
        assert!(keyed(&format!("{first}\n{text}")).starts_with(begins), "{first} {text}");
    }
}

/// A first line of 64 bytes and a polynomial of 4,096, or as many in all; a line feed at the end counts.
#[test]
fn the_longest_lines() {
    for (first, rest) in [(63, 4096), (63, 4095), (4160 - 1 - TYPED.len(), TYPED.len()), (3, 4096)] {
        let input = format!("{:>first$}\n{TYPED:<rest$}", "7 3");
        assert_eq!(keyed(&input), KEY, "{first} {rest}");
        assert_eq!(keyed(&(input + "\n")) == KEY, first + 1 + rest < 4160, "{first} {rest}");
    }
    assert_eq!(keyed(&format!("7 3\n{TYPED:<4097}")), "refused 17 0\n");
    assert_eq!(keyed(&format!("1 3\n{TYPED:<4156}")), "refused 1 0\n");
    assert_eq!(keyed(&format!("1 3\n{TYPED:<4157}")), "refused 17 0\n");
}

/// Y^12, with all columns that a key has.
#[test]
fn the_deepest_key_on_a_thread_s_stack() {
    let input = format!("16777213 64\n{}-1+Y^12\n", wrapped("1+Y^32-Y^32*(", "1", ")^3*1+Y^32-Y^32"));
    let key = thread::spawn(move || keyed(&input)).join().expect("the stack suffices");
    let head = "mod 16777213 terms 64 degree 12 factors 1\nroot 0 power 12\n";
    let row = |j: u32| format!("Y^{j}:{}\n", " 0".repeat(64));
    assert_eq!(key, head.to_string() + &(0..12).map(row).collect::<String>());
}
