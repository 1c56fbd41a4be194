//! Typed polynomials: formulas that are drawn, damaged ones, any bytes, and every limit: bytes, digits, powers, brackets, degrees. Of many texts it is known
//! here from how they are made what they come to, and not from the second implementation alone.

use crate::formulas::{self, byte, congruent, few_entries, number, term_by_term, Pieces, ALPHABET, DAMAGES};
use crate::random::Random;
use crate::report::{engine, every_set, second, Called, Fault, Report};
use bopkheul::rows;
use std::hint::black_box;

/// Document 02's own.
const FORMULA: &[u8] = b"(Y^2-X)*(Y+3) - 2*X*Y";

/// The rows that a text comes to, or its refusal.
type Value = Result<Vec<u32>, (u32, u32)>;

#[derive(Clone, Debug)]
struct Case {
    p: u32,
    n: u32,
    text: Vec<u8>,
    out: Vec<u32>,
}

/// The engine is lent the text out of a longer one, so that it shows where a byte too many is read.
fn read(report: &mut Report, case: &Case) -> Called<u32> {
    let Case { p, n, text, out } = case;
    let (p, n) = (*p, *n);
    let longer = || [b"1", &text[..], b"1"].concat();
    let within = longer();
    let lent = &within[1..=text.len()];
    let input = || format!("p {p} n {n} text {}", text.escape_ascii());
    let mine = |o: &mut [u32]| engine(bopkheul::formula::read(p, n, lent, o));
    let called = report.call("read", input, &[], out, mine, |o| second(::second::formula::read(p, n, text, o)));
    report.expect(*black_box(&within) == longer(), &format!("the engine leaves the text as it was, {}", input()));
    called
}

/// What a text comes to. It is read into no words, by which it is known how many it takes; and then into one too few, as many, or some more.
fn value(random: &mut Random, report: &mut Report, p: u32, n: u32, text: &[u8]) -> Value {
    let case = |out: Vec<u32>| Case { p, n, text: text.to_vec(), out };
    let refusal = read(report, &case(vec![])).outcome.expect_err("every text takes some words");
    let (10, needed) = refusal else {
        let room = random.below(40) as usize;
        read(report, &case(random.junk(room)));
        return Err(refusal);
    };
    if random.once_in(4) {
        let out = random.junk(needed as usize - 1);
        let short = read(report, &case(out)).outcome;
        report.expect(short == Err(refusal), &format!("{} takes {needed} words: {short:?}", text.escape_ascii()));
        report.kind("typed: refused, into a word too few");
    }
    let (degree, more) = (needed / n - 1, random.pick(&[0, 0, 1, 5]));
    let out = random.junk(needed as usize + more);
    let Called { outcome, words } = read(report, &case(out.clone()));
    let (rows, past) = words.split_at(needed as usize);
    let right = outcome == Ok(degree) && needed == (degree + 1) * n && past == &out[needed as usize..];
    report.expect(right, &format!("{} takes {needed} words, and no word past them: {outcome:?}", text.escape_ascii()));
    let zero = rows.iter().all(|&word| word == 0);
    let kinds = [
        (more > 0, "typed: words past the end"),
        (zero, "typed: 0"),
        (degree == 0 && !zero, "typed: degree 0"),
        (degree == 32, "typed: degree 32"),
        (n == 1, "typed: N is 1"),
        (n == 256, "typed: N is 256"),
        (p == 2, "typed: p is 2"),
        (p > 65_535, "typed: p is above 65,535"),
    ];
    kinds.iter().filter(|(holds, _)| *holds).for_each(|(_, kind)| report.kind(kind));
    Ok(rows.to_vec())
}

fn expect(random: &mut Random, report: &mut Report, p: u32, n: u32, text: &[u8], expected: Value, kind: &'static str) {
    let value = value(random, report, p, n, text);
    report.expect(value == expected, &format!("{kind}: {} is {value:?} and not {expected:?}, p {p} n {n}", text.escape_ascii()));
    report.kind(kind);
}

/// A prime and a number of columns.
fn limits(random: &mut Random) -> (u32, u32) {
    (random.prime(), random.columns().min(256))
}

/// Blanks change nothing: both texts have one value, or one refusal.
fn drawn(random: &mut Random, report: &mut Report) {
    let (p, n) = limits(random);
    let pieces = formulas::drawn(random, p);
    let plain = value(random, report, p, n, &pieces.plain());
    let text = pieces.typed(random);
    expect(random, report, p, n, &text, plain.clone(), "typed: a formula, with blanks and without");
    let kind = match plain {
        Ok(_) => "typed: a formula, read",
        Err(refusal) => {
            report.expect(refusal == (19, 0), &format!("{} is no formula: {refusal:?}", text.escape_ascii()));
            "typed: a formula, some part too high"
        }
    };
    report.kind(kind);
}

/// Without the rows of 0 at the top, but with row 0.
fn cut_at_degree(n: u32, mut rows: Vec<u32>) -> Vec<u32> {
    let n = n as usize;
    while rows.len() > n && rows[rows.len() - n..].iter().all(|&word| word == 0) {
        rows.truncate(rows.len() - n);
    }
    rows
}

fn row_polynomial(random: &mut Random, report: &mut Report) {
    let ((p, n), d) = (limits(random), random.degree().min(32));
    let rows = few_entries(random, p, d, n);
    let text = term_by_term(random, p, n, &rows);
    expect(random, report, p, n, &text, Ok(cut_at_degree(n, rows)), "typed: a row polynomial, term by term");
}

/// What the calls for row polynomials answer is what is read of both in brackets.
fn operations(random: &mut Random, report: &mut Report) {
    let ((p, n), d) = (limits(random), random.pick(&[0, 1, 2, 3, 5, 8, 16]));
    let [f, g] = [0; 2].map(|_| few_entries(random, p, d, n));
    let [first, other] = [&f, &g].map(|rows| term_by_term(random, p, n, rows));
    let typed = |sign: &str| [b"(", &first[..], b")", sign.as_bytes(), b"(", &other, b")"].concat();
    let words = |rows: u32| vec![0; (rows * n) as usize];
    let (mut sum, mut difference, mut product) = (words(d + 1), words(d + 1), words(2 * d + 1));
    rows::sum(p, d, n, &f, &g, &mut sum).expect("a sum of two of one bound");
    rows::difference(p, d, n, &f, &g, &mut difference).expect("a difference of two of one bound");
    rows::product(p, d, d, n, &f, &g, &mut product).expect("both bounds come to 32 at most");
    for (sign, rows) in [("+", sum), ("-", difference), ("*", product)] {
        expect(random, report, p, n, &typed(sign), Ok(cut_at_degree(n, rows)), "typed: sum, difference and product of two, as rows has them");
    }

    let k = random.below(32u32.checked_div(d).map_or(6, |most| most + 1).min(6));
    let (mut power, mut bound) = (words(1), 0);
    power[0] = 1;
    for _ in 0..k {
        let mut next = words(bound + d + 1);
        rows::product(p, bound, d, n, &power, &f, &mut next).expect("both bounds come to 32 at most");
        (power, bound) = (next, bound + d);
    }
    let text = [b"(", &first[..], b")^", number(random, k).as_bytes()].concat();
    expect(random, report, p, n, &text, Ok(cut_at_degree(n, power)), "typed: a power, as rows multiplies it out");
}

/// Of two that have all rows from one on in common, what is left is lower.
fn cancelled(random: &mut Random, report: &mut Report) {
    let ((p, n), d) = (limits(random), random.pick(&[1, 2, 5, 31, 32]));
    let [mut f, mut g] = [0; 2].map(|_| few_entries(random, p, d, n));
    f[(d * n) as usize] = 1;
    let from = (random.pick(&[0, d / 2, d - 1, d]) * n) as usize;
    g[from..].copy_from_slice(&f[from..]);
    let mut rows = vec![0; f.len()];
    rows::difference(p, d, n, &f, &g, &mut rows).expect("a difference of two of one bound");
    let [first, other] = [&f, &g].map(|rows| term_by_term(random, p, n, rows));
    let text = [&first[..], b"-(", &other, b")"].concat();
    expect(random, report, p, n, &text, Ok(cut_at_degree(n, rows)), "typed: a difference whose highest rows are 0");
}

/// c · X^t · Y^j, where t is below n; where c is 0, so is j.
fn monomial(n: u32, c: u32, t: u32, j: u32) -> Vec<u32> {
    let mut rows = vec![0; ((j + 1) * n) as usize];
    rows[(j * n + t) as usize] = c;
    rows
}

fn zero(n: u32) -> Vec<u32> {
    vec![0; n as usize]
}

/// The numbers of subsets of k things, modulo p, by Pascal's rule.
fn binomials(p: u32, k: u32) -> Vec<u32> {
    let next = |row: Vec<u32>| [0].iter().chain(&row).zip(row.iter().chain(&[0])).map(|(a, b)| (a + b) % p).collect();
    (0..k).fold(vec![1], |row, _| next(row))
}

fn powers_of_two_terms(random: &mut Random, report: &mut Report, p: u32, n: u32) {
    let kind = "typed: powers of 1 + X and X + Y, by Pascal's rule";
    let any = random.within(0, 255);
    let k = random.pick(&[0, 1, 2, any, 254, 255]);
    let mut row = binomials(p, k);
    row.resize(n as usize, 0);
    expect(random, report, p, n, format!("(1+X)^{k}").as_bytes(), Ok(row), kind);

    let k = random.pick(&[k % 33, 31, 32]);
    let mut rows = vec![0; ((k + 1) * n) as usize];
    for (j, c) in (0..).zip(binomials(p, k)).filter(|(j, _)| k - j < n) {
        rows[(j * n + k - j) as usize] = c;
    }
    expect(random, report, p, n, format!("(X+Y)^{k}").as_bytes(), Ok(rows), kind);
    let k = random.within(33, 255);
    expect(random, report, p, n, format!("(X+Y)^{k}").as_bytes(), Err((19, 0)), kind);
}

/// (X^a · Y^b)^k: the lower powers are X^(aj) · Y^(bj), and from aj = N on they are 0.
fn powers_that_vanish(random: &mut Random, report: &mut Report) {
    let (p, n) = (random.prime(), random.pick(&[1, 2, 3, 4, 8, 16]));
    let (a, b, k) = (random.below(5), random.below(33), random.pick(&[0, 1, 2, 3, 4, 8, 32, 255]));
    let high = (1..=k).any(|j| a * j < n && b * j > 32);
    let vanishes = a * k >= n;
    let (expected, kind) = match (high, vanishes) {
        (true, true) => (Err((19, 0)), "typed: a power that is 0 modulo X^N, a lower one too high"),
        (true, false) => (Err((19, 0)), "typed: a power of a monomial, too high"),
        (false, true) => (Ok(zero(n)), "typed: a power that is 0 modulo X^N, and the lower ones are low"),
        (false, false) => (Ok(monomial(n, 1, a * k, b * k)), "typed: a power of a monomial"),
    };
    expect(random, report, p, n, format!("(X^{a}*Y^{b})^{k}").as_bytes(), expected, kind);
    let c = congruent(random, p, 0);
    let expected = if k == 0 { monomial(n, 1, 0, 0) } else { zero(n) };
    expect(random, report, p, n, format!("({c}*Y^{b})^{k}").as_bytes(), Ok(expected), "typed: a power that is 0 modulo p");
}

/// A and B are numbers up to 32. All of these have a part Y^A · Y^B.
const WITH_PART: [&str; 14] = [
    "Y^A*Y^B",
    "-Y^A*Y^B",
    "Y^A*1*Y^B",
    "Y^A*(1+Y^B)",
    "(Y^A)*(Y^B-1)",
    "X-X+Y^A*Y^B",
    "Y^A*Y^B*0",
    "0*(Y^A*Y^B)",
    "(Y^A*Y^B)^0",
    "(Y^A*Y^B)^1*0",
    "Y^A*Y^B-Y^A*Y^B",
    "1-(Y^A*Y^B-Y^A*Y^B)",
    "((1+Y^A*Y^B)*0)^255",
    "0*((X+Y^A)*(X-Y^B))",
];

/// None of these has one; P is 0 modulo p, and X^N modulo X^N.
const WITHOUT_PART: [&str; 7] = ["0*Y^A*Y^B", "P*Y^A*Y^B", "X^N*Y^A*Y^B", "Y^A*0*Y^B", "Y^A+Y^B", "(Y^A-Y^A)*Y^B", "(Y^A)^0*Y^B"];

/// The degree of a part is 32, or 33.
fn heights(random: &mut Random, report: &mut Report) {
    let (p, n) = (random.prime(), random.within(1, 8));
    for degree in [32, 33] {
        let a = random.within(1, 32);
        let multiple = congruent(random, p, 0);
        let [one, other] = [a, degree - a].map(|k| number(random, k));
        let typed = |text: &str| text.replace('A', &one).replace('B', &other).replace('P', &multiple).replace('N', &n.to_string());
        for text in WITH_PART.map(typed) {
            let read = value(random, report, p, n, text.as_bytes());
            let right = if degree == 32 { read.is_ok() } else { read == Err((19, 0)) };
            report.expect(right, &format!("a part of degree {degree}: {text} is {read:?}, p {p} n {n}"));
            report.kind(if degree == 32 { "typed: a part of degree 32" } else { "typed: a part of degree 33" });
        }
        for text in WITHOUT_PART.map(typed) {
            let read = value(random, report, p, n, text.as_bytes());
            report.expect(read.is_ok(), &format!("no part is too high: {text} is {read:?}, p {p} n {n}"));
            report.kind("typed: the same factors, and no such part");
        }
    }
}

fn damaged(random: &mut Random, report: &mut Report) {
    let (p, n) = limits(random);
    let mut text = formulas::text(random, p);
    for _ in 0..random.pick(&[1, 1, 1, 2, 3]) {
        let (kind, damage) = random.pick(&DAMAGES);
        let at = random.below(text.len().max(1) as u32) as usize;
        if at < text.len() {
            damage(random, &mut text, at);
            report.kind(kind);
        }
    }
    let read = value(random, report, p, n, &text);
    report.kind(if read == Err((17, 0)) { "typed: damaged, unreadable" } else { "typed: damaged, and readable" });
}

fn any_byte_in_any_place(random: &mut Random, report: &mut Report) {
    for at in 0..FORMULA.len() {
        for byte in 0..=255 {
            let mut text = FORMULA.to_vec();
            text[at] = byte;
            read(report, &Case { p: 7, n: 3, text, out: random.junk(12) });
            report.kind("typed: a formula with any byte in any place");
        }
    }
}

fn every_string(random: &mut Random, report: &mut Report, bytes: &[u8], length: u32, kind: &'static str) {
    let base = bytes.len();
    for number in 0..base.pow(length) {
        let text = (0..length).map(|i| bytes[number / base.pow(i) % base]).collect();
        read(report, &Case { p: 5, n: 2, text, out: random.junk(12) });
        report.kind(kind);
    }
}

fn any_strings(random: &mut Random, report: &mut Report) {
    let (p, n) = limits(random);
    let length = random.below(14) as usize;
    let text: Vec<u8> = (0..length).map(|_| random.pick(ALPHABET)).collect();
    value(random, report, p, n, &text).ok();
    report.kind("typed: any string of a formula's bytes");
    let text: Vec<u8> = (0..random.below(40)).map(|_| random.next() as u8).collect();
    value(random, report, p, n, &text).ok();
    report.kind("typed: any bytes");
}

/// The limit is the text's, and not the formula's: blanks count.
fn lengths(random: &mut Random, report: &mut Report) {
    let (p, n) = limits(random);
    let pieces = formulas::drawn(random, p);
    let plain = pieces.plain();
    let read = value(random, report, p, n, &plain);
    for bytes in [4095, 4096, 4097, 4098, 70_000] {
        let (before, after) = pieces.0.split_at(random.below(pieces.0.len() as u32 + 1) as usize);
        let blanks = b" ".repeat(bytes - plain.len());
        let around = [before.concat().as_bytes(), &blanks, after.concat().as_bytes()].concat();
        let more = random.pick(&["+0", "-0", "*1"]);
        let longer = [&plain[..], more.repeat(blanks.len() / 2).as_bytes(), &b" "[..blanks.len() % 2]].concat();
        for (text, kind) in
            [(around, "typed: as long as can be, or longer, by blanks"), (longer, "typed: as long as can be, or longer, by terms or factors")]
        {
            assert_eq!(text.len(), bytes);
            let expected = if bytes <= 4096 { read.clone() } else { Err((17, 0)) };
            expect(random, report, p, n, &text, expected, kind);
        }
    }
}

/// What may stand before and after a formula that changes neither its value nor whether it can be read: one pair of brackets each.
const WRAPS: [(&str, &str); 8] =
    [("(", ")"), (" ( ", " ) "), ("+(", ")"), ("0+(", ")"), ("1*(", ")"), ("(", ")*1-0"), ("(", ")^1"), ("(1)*(", ")*(1)")];

/// Brackets without their match are unreadable, however deep they are.
fn depths(random: &mut Random, report: &mut Report, (before, after): (&str, &str), inner: &[u8]) {
    let (p, n) = limits(random);
    let read = value(random, report, p, n, inner);
    let most = (4096 - inner.len()) / (before.len() + after.len());
    for depth in [1, 31, 32, 33, 34, most] {
        let text = [before.repeat(depth).as_bytes(), inner, after.repeat(depth).as_bytes()].concat();
        let (expected, kind) = match depth {
            1 | 31 => (read.clone(), "typed: brackets less than 32 deep"),
            32 => (read.clone(), "typed: brackets 32 deep"),
            33 => (Err((18, 0)), "typed: brackets 33 deep"),
            2047 => (Err((18, 0)), "typed: brackets 2,047 deep"),
            _ => (Err((18, 0)), "typed: brackets more than 33 deep"),
        };
        expect(random, report, p, n, &text, expected, kind);

        let mut unpaired = text;
        let at = random.below(unpaired.len() as u32) as usize;
        if b"()".contains(&unpaired[at]) {
            unpaired.remove(at);
        } else {
            unpaired.insert(at, random.pick(b"()"));
        }
        let kind = if depth <= 32 { "typed: a bracket without its match" } else { "typed: unreadable, and brackets more than 32 deep" };
        expect(random, report, p, n, &unpaired, Err((17, 0)), kind);
    }
}

/// Each pair of brackets has a sum and a product that wait for it, of all the rows and columns there can be; the value stays 1.
fn deepest(random: &mut Random, report: &mut Report) {
    let waiting = [("1+Y^32-Y^32*(", ")"), ("(", ")^2*Y^32-Y^32+1"), ("1+Y^32-Y^32*(", ")^3*1+Y^32-Y^32"), ("1-X*Y^32+X*Y^32*(", ")")];
    for (before, after) in waiting {
        let p = random.prime();
        let text = before.repeat(32) + "1" + &after.repeat(32);
        expect(random, report, p, 256, text.as_bytes(), Ok(monomial(256, 1, 0, 0)), "typed: brackets 32 deep around all rows and columns");
    }
}

/// Products of the most rows and columns, with few words of 0.
fn largest(random: &mut Random, report: &mut Report) {
    let p = random.pick(&[2, 3, 65_521, 16_777_213]);
    powers_of_two_terms(random, report, p, 256);
    let mut series = || format!("({}+{}*X)^{}", random.within(1, p - 1), random.within(1, p - 1), random.within(200, 255));
    let [f, g] = [0; 2].map(|_| format!("({}+{}*Y)", series(), series()));
    for text in [format!("{f}^16*{g}^16"), format!("{f}^32-{g}^31"), format!("{f}^33"), format!("{f}^16*{g}^17")] {
        value(random, report, p, 256, text.as_bytes()).ok();
        report.kind("typed: products of the most rows and columns");
    }
}

/// From 1 to 9 digits, and powers from 0 to 255.
fn digits(random: &mut Random, report: &mut Report) {
    let (p, n) = limits(random);
    for digits in 1..=12 {
        for k in [0, 1, 9, 10, 32, 99, 100, 254, 255, 256, 257, 511, 512, 999, 65_536, 99_999_999, 999_999_999] {
            let text = format!("{k:0digits$}");
            let fits = text.len() <= 9;
            let expected = if fits { Ok(monomial(n, k % p, 0, 0)) } else { Err((17, 0)) };
            expect(random, report, p, n, text.as_bytes(), expected, if fits { "typed: 9 digits or fewer" } else { "typed: 10 digits or more" });

            let (expected, kind) = match k {
                0..=255 if fits && k < n => (Ok(monomial(n, 1, k, 0)), "typed: a power up to 255"),
                0..=255 if fits => (Ok(zero(n)), "typed: a power up to 255"),
                0..=255 => (Err((17, 0)), "typed: a power up to 255, of 10 digits or more"),
                _ => (Err((17, 0)), "typed: a power above 255"),
            };
            expect(random, report, p, n, format!("X^{text}").as_bytes(), expected, kind);
        }
    }
}

/// Any modulus, columns and room too.
fn any(random: &mut Random, report: &mut Report) {
    let p = if random.once_in(8) { random.bad_modulus() } else { random.prime() };
    let n = if random.once_in(8) { random.pick(&[0, 257, 1 << 31, u32::MAX]) } else { random.columns() };
    let mut text = formulas::text(random, p.clamp(2, 999_999_998));
    if random.once_in(4) {
        text.push(byte(random));
    }
    let room = random.below(34 * n.clamp(1, 8)) as usize;
    read(report, &Case { p, n, text, out: random.junk(room) });
    report.kind("typed: any p, N and room");
}

/// All refusals, in the order in which they are judged.
fn refusals(random: &mut Random, report: &mut Report) {
    let (p, n) = (random.pick(&[2, 3, 5, 7, 65_521, 16_777_213]), random.pick(&[1, 2, 3, 8, 256]));
    let (text, degree) = random.pick(&[("0", 0), ("Y", 1), ("(X+Y)^2-1", 2), (" Y^31 * Y", 32)]);
    let needed = (degree + 1) * n;
    let modulus = random.pick(&[0, 1, 1 << 24, u32::MAX]);
    let (composite, divisor) = random.pick(&[(4, 2), (91, 7), (4093 * 4093, 4093), (16_777_215, 3)]);
    let columns = random.pick(&[0, 257, 1 << 31, u32::MAX]);
    let (before, after) = random.pick(&[("", "+"), ("*", ""), ("(", ""), ("", ")"), ("x+", ""), ("", "^256"), ("", "\t"), ("1234567890*", "")]);
    let blanks = random.once_in(4);
    let high = random.pick(&["Y^33+", "-Y^20*Y^20*0+", "(Y^17)^2-Y^34+", "0*(Y^33)+", "(Y^33)^0+"]);
    let room = random.pick(&[needed - 1, needed - 1, needed / 2, 0]) as usize;

    let put = |case: &mut Case, before: &str, after: &str| case.text = [before.as_bytes(), &case.text, after.as_bytes()].concat();
    let unreadable = |case: &mut Case| {
        if blanks {
            case.text.resize(4097, b' ');
        } else {
            put(case, before, after);
        }
    };
    let faults: [Fault<Case>; 7] = [
        ((1, 0), &|case| case.p = modulus),
        ((2, divisor), &|case| case.p = composite),
        ((4, 0), &|case| case.n = columns),
        ((17, 0), &unreadable),
        ((18, 0), &|case| put(case, &"(".repeat(33), &")".repeat(33))),
        ((19, 0), &|case| put(case, high, "")),
        ((10, needed), &|case| case.out.truncate(room)),
    ];
    let good = Case { p, n, text: text.into(), out: random.junk(needed as usize) };
    every_set(report, "typed: every set of refusals at once", |report, case| read(report, case).outcome, &good, degree, &faults);
}

pub fn run(random: &mut Random, report: &mut Report) {
    (0..4_000).for_each(|_| drawn(random, report));
    (0..1_500).for_each(|_| row_polynomial(random, report));
    (0..300).for_each(|_| operations(random, report));
    (0..300).for_each(|_| cancelled(random, report));
    for _ in 0..300 {
        let (p, n) = limits(random);
        powers_of_two_terms(random, report, p, n);
    }
    (0..1_500).for_each(|_| powers_that_vanish(random, report));
    (0..100).for_each(|_| heights(random, report));
    (0..8_000).for_each(|_| damaged(random, report));
    any_byte_in_any_place(random, report);
    for length in 0..=4 {
        every_string(random, report, b"2XY+-*^() ", length, "typed: every string of at most four of ten bytes");
    }
    every_string(random, report, b"1Y-*^()", 5, "typed: every string of five of seven bytes");
    (0..4_000).for_each(|_| any_strings(random, report));
    (0..40).for_each(|_| lengths(random, report));
    for _ in 0..10 {
        for around in WRAPS {
            let mut pieces = Pieces::default();
            pieces.sum(random, 7, 0);
            depths(random, report, around, &pieces.plain());
            depths(random, report, around, b"Y");
        }
    }
    deepest(random, report);
    (0..3).for_each(|_| largest(random, report));
    (0..10).for_each(|_| digits(random, report));
    (0..4_000).for_each(|_| any(random, report));
    (0..40).for_each(|_| refusals(random, report));
}
