//! Answer keys of typed lines: first lines of all sorts, polynomials that split, any formulas, damaged lines, and every limit: bytes, digits, terms, degrees.
//! Where the first line is one, the key is what the engine's own calls for a typed polynomial and for a job come to.

use crate::formulas::{self, few_entries, number, term_by_term, DAMAGES};
use crate::polynomials;
use crate::random::Random;
use crate::report::{engine, every_set, said, second, Called, Fault, Outcome, Report, KEY_LINE};
use bopkheul::{formula, listing};

/// Y² − 1 − X modulo 7.
const LINES: &[u8] = b"7 3\nY^2-1-X\n";

fn refused(number: u32, detail: u32) -> Vec<u8> {
    format!("refused {number} {detail}\n").into_bytes()
}

/// The engine is lent the lines out of longer ones, so that it shows where a byte too many is read.
fn call(random: &mut Random, report: &mut Report, lines: &[u8], room: usize) -> Called<u8> {
    let within = [&[random.pick(b"1 \n")], lines, &[random.pick(b"1 \n")]].concat();
    let input = || format!("lines {}", lines.escape_ascii());
    let out = random.junk_bytes(room);
    let mine = |o: &mut [u8]| engine(formula::key(&within[1..=lines.len()], o));
    report.call("key", input, &[&within], &out, mine, |o| second(::second::listing::key(lines, o)))
}

/// The key of these lines. It is written into as many bytes as it takes, or some more; and now and then into too few.
fn key(random: &mut Random, report: &mut Report, lines: &[u8]) -> Vec<u8> {
    let needed = ::second::listing::key_text(lines).len();
    let (more, any) = (random.pick(&[0, 0, 1, 5]), random.below(needed as u32) as usize);
    let Called { outcome, words } = call(random, report, lines, needed + more);
    report.expect(outcome == Ok(needed as u32), &format!("the key of {} takes {needed} bytes: {outcome:?}", lines.escape_ascii()));
    if more > 0 {
        report.kind("key: bytes past the end");
    }
    if random.once_in(4) {
        let room = random.pick(&[needed - 1, needed - 1, any, 0]);
        let short = call(random, report, lines, room).outcome;
        report.expect(short == Err((10, needed as u32)), &format!("the key of {} takes {needed} bytes: {short:?}", lines.escape_ascii()));
        report.kind(if room == needed - 1 { "key: refused, into a byte too few" } else { "key: refused, into fewer bytes" });
    }
    let text = &words[..needed];
    report.line(KEY_LINE, text);
    text.to_vec()
}

fn expect(random: &mut Random, report: &mut Report, lines: &[u8], expected: &[u8], kind: &'static str) {
    let text = key(random, report, lines);
    let [is, not] = [&text[..], expected].map(|text| text.escape_ascii());
    report.expect(text == expected, &format!("{kind}: the key of {} is {is} and not {not}", lines.escape_ascii()));
    report.kind(kind);
}

/// By the engine's own calls. `read` lets in more than 64 terms; it is asked for 0, which it refuses as a key refuses these.
fn composed(p: u32, n: u32, text: &[u8]) -> Vec<u8> {
    let columns = if n <= 64 { n } else { 0 };
    let mut rows = vec![0; 33 * 64];
    match engine(formula::read(p, columns, text, &mut rows)) {
        Err((number, detail)) => refused(number, detail),
        Ok(d @ 1..=12) => {
            let fields = [&[p, d, n, 0, 26, 26], &rows[..((d + 1) * n) as usize]].concat();
            let job: Vec<u8> = [0; 2].into_iter().chain(fields.iter().flat_map(|field| field.to_le_bytes())).collect();
            listing::text(&job)
        }
        Ok(_) => refused(3, 0),
    }
}

/// Numbers with zeros before them, or without; blanks between them, and perhaps around them.
fn first_line(random: &mut Random, p: u32, n: u32) -> String {
    let blanks = [0; 3].map(|_| " ".repeat(random.pick(&[0, 0, 0, 1, 2, 5])));
    let [before, between, after] = blanks;
    format!("{before}{} {between}{}{after}", number(random, p), number(random, n))
}

/// The first line is as it should be.
fn asked(random: &mut Random, report: &mut Report, p: u32, n: u32, text: &[u8], kind: &'static str) -> Vec<u8> {
    let expected = composed(p, n, text);
    let last = random.pick(&["", "\n"]);
    let lines = [first_line(random, p, n).as_bytes(), b"\n", text, last.as_bytes()].concat();
    expect(random, report, &lines, &expected, kind);
    report.kind(if last.is_empty() { "key: no line feed at the end" } else { "key: a line feed at the end" });
    expected
}

/// It splits at X = 0, and has few entries elsewhere, so that its terms are a text that is not too long.
fn splitting(random: &mut Random, report: &mut Report) {
    let (p, n) = (random.prime(), random.columns().min(64));
    let any = random.within(1, 12);
    let d = random.pick(&[1, 2, 3, 12, any]);
    let mut f = polynomials::known(random, report, p, d, n).f;
    let few = few_entries(random, p, d - 1, n);
    (0..few.len()).filter(|at| at % n as usize > 0).for_each(|at| f[at] = few[at]);
    let text = term_by_term(random, p, n, &f);
    let listed = asked(random, report, p, n, &text, "key: a polynomial that splits, term by term");
    let head = format!("mod {p} terms {n} degree {d} factors ");
    report.expect(listed.starts_with(head.as_bytes()), &format!("{} is listed, p {p} n {n}", text.escape_ascii()));
    let kinds = [
        (d == 1, "key: listed, degree 1"),
        (d == 12, "key: listed, degree 12"),
        (n == 1, "key: listed, 1 term"),
        (n == 64, "key: listed, 64 terms"),
        (p == 2, "key: listed, p is 2"),
        (p > 65_535, "key: listed, p above 65,535"),
    ];
    kinds.iter().filter(|(holds, _)| *holds).for_each(|(_, kind)| report.kind(kind));
}

/// Of any p and N, and mostly not to be listed.
fn drawn(random: &mut Random, report: &mut Report) {
    let p = if random.once_in(8) { random.bad_modulus().min(999_999_999) } else { random.prime() };
    let n = if random.once_in(8) { random.pick(&[0, 65, 256, 257, 999_999_999]) } else { random.columns().min(64) };
    let text = formulas::text(random, p.clamp(2, 16_777_215));
    asked(random, report, p, n, &text, "key: any formula");
}

/// Bytes at any place are changed, dropped, doubled, swapped or put in; and line feeds are put in.
fn damaged(random: &mut Random, report: &mut Report) {
    let (p, n) = (random.prime(), random.within(1, 4));
    let text = if random.once_in(2) { b"Y^2-X-1".to_vec() } else { formulas::text(random, p) };
    let mut lines = [first_line(random, p, n).as_bytes(), b"\n", &text, b"\n"].concat();
    let first = lines.len() - text.len() - 1;
    for _ in 0..random.pick(&[1, 1, 1, 2]) {
        let bound = if random.once_in(2) { first } else { lines.len() };
        let at = random.below(bound.min(lines.len()) as u32) as usize;
        if random.once_in(6) {
            lines.insert(at, b'\n');
        } else {
            random.pick(&DAMAGES).1(random, &mut lines, at);
        }
    }
    let text = key(random, report, &lines);
    report.kind(if said(&text) == Err((17, 0)) { "key: damaged, refused by 17" } else { "key: damaged, and not refused by 17" });
}

fn any_byte_in_any_place(random: &mut Random, report: &mut Report) {
    for at in 0..LINES.len() {
        for byte in 0..=255 {
            let mut lines = LINES.to_vec();
            lines[at] = byte;
            key(random, report, &lines);
            report.kind("key: lines with any byte in any place");
        }
    }
}

/// Before a line feed and Y: those with two numbers are first lines, and those with line feeds leave more than Y.
fn every_beginning(random: &mut Random, report: &mut Report) {
    let bytes = b"7 \n+";
    for length in 0..=5 {
        for number in 0..bytes.len().pow(length) {
            let beginning: Vec<u8> = (0..length).map(|i| bytes[number / bytes.len().pow(i) % bytes.len()]).collect();
            key(random, report, &[&beginning, &b"\nY"[..]].concat());
            report.kind("key: every string of at most five of four bytes, before a line feed and Y");
        }
    }
}

const OTHER_FIRST_LINES: [&str; 24] = [
    "",
    " ",
    "7",
    " 7 ",
    "73",
    "7,3",
    "7, 3",
    "7\t3",
    "7 3\t",
    "7 3\r",
    "7 3.",
    "7 3 1",
    "7 3 x",
    "x7 3",
    "+7 3",
    "-7 3",
    "7 -3",
    "0x7 3",
    "7.0 3",
    "7\0 3",
    "7\u{a0}3",
    "\u{0667} 3",
    "7 3\0",
    "seven 3",
];

fn first_lines(random: &mut Random, report: &mut Report) {
    for first in OTHER_FIRST_LINES {
        let lines = format!("{first}\nY^2-1-X\n");
        expect(random, report, lines.as_bytes(), &refused(17, 0), "key: another first line");
    }
    for digits in 1..=12 {
        let (p, n) = (format!("{:0digits$}", 7), format!("{:0digits$}", 3));
        for first in [format!("{p} 3"), format!("7 {n}"), format!("{p}  {n}")] {
            let (expected, kind) = match digits {
                0..=9 => (composed(7, 3, b"Y^2-1-X"), "key: a number of 9 digits or fewer"),
                _ => (refused(17, 0), "key: a number of 10 digits or more"),
            };
            expect(random, report, format!("{first}\nY^2-1-X").as_bytes(), &expected, kind);
        }
    }
    for lines in ["", "7 3", "7 3 Y", "7 3Y^2-1-X"] {
        expect(random, report, lines.as_bytes(), &refused(17, 0), "key: no line feed at all");
    }
    for lines in ["\n7 3\nY", "7\n3\nY", "7 3\n\nY", "7 3\nY^2\n-1-X", "7 3\nY\n\n", "7 3\n\n", "7 3\n"] {
        expect(random, report, lines.as_bytes(), &refused(17, 0), "key: a line feed too many, or no polynomial");
    }
}

/// In all, by the first line or by the polynomial. What is too long is refused before any modulus.
fn lengths(random: &mut Random, report: &mut Report) {
    let (p, n) = (random.pick(&[7, 16_777_213, 1, 91]), random.pick(&[3, 64, 65]));
    let (first, text) = (first_line(random, p, n), random.pick(&["Y^2-1-X", "Y", "(Y-X)*(Y+1)", "Y^33", "2Y"]));
    let known = composed(p, n, text.as_bytes());
    let blanks = |bytes| " ".repeat(bytes);
    for bytes in [4159, 4160, 4161, 4162, 70_000] {
        for last in ["", "\n"] {
            let both = bytes - 1 - last.len();
            let more = both - first.len() - text.len();
            let (expected, kind) = match bytes {
                0..=4160 => (known.clone(), "key: as long as can be, or a byte shorter"),
                _ => (refused(17, 0), "key: longer than can be"),
            };
            let around = [
                format!("{first}{}\n{text}{last}", blanks(more)),
                format!("{}{first}\n{text}{}{last}", blanks(both - 4096 - first.len()), blanks(4096 - text.len())),
            ];
            for lines in around {
                assert_eq!(lines.len(), bytes);
                expect(random, report, lines.as_bytes(), &expected, kind);
            }
            if bytes <= 4160 {
                let longer = format!("{text}{}", blanks(more));
                let lines = format!("{first}\n{longer}{last}");
                expect(random, report, lines.as_bytes(), &composed(p, n, longer.as_bytes()), "key: not too long, but its polynomial is");
            }
        }
    }
}

/// Every number of terms up to 66, and every degree up to 33.
fn terms_and_degrees(random: &mut Random, report: &mut Report) {
    let p = random.pick(&[2, 3, 7, 65_521, 16_777_213]);
    for n in (0..=66).chain([255, 256, 257, 65_537, 999_999_999]) {
        let text = asked(random, report, p, n, b"Y^2-X", "key: every number of terms");
        report.expect((said(&text) == Err((4, 0))) != (1..=64).contains(&n), &format!("terms outside 1..64 are refused by 4: {n}"));
    }
    for d in 0..=33 {
        let text = asked(random, report, p, 3, format!("Y^{d}+X").as_bytes(), "key: every degree");
        let expected = match d {
            1..=12 => Ok(0),
            33 => Err((19, 0)),
            _ => Err((3, 0)),
        };
        report.expect(said(&text) == expected, &format!("a degree outside 1..12 is refused by 3: {d}"));
    }
}

/// Twelve factors of 64 terms modulo the largest prime.
fn longest(random: &mut Random, report: &mut Report) {
    let factor =
        |random: &mut Random, i: u32| format!("(Y-{}-X*({}+{}*X)^255)", 1_000_000 * i + 1, random.within(1, 1 << 23), random.within(1, 1 << 23));
    let text = (1..=12).map(|i| factor(random, i)).collect::<Vec<_>>().join("*");
    let listed = asked(random, report, 16_777_213, 64, text.as_bytes(), "key: twelve roots, 64 terms, the largest modulus");
    report.expect((6_500..=7_267).contains(&listed.len()), &format!("the listing of {text} has {} bytes", listed.len()));
}

#[derive(Clone, Debug)]
struct Case {
    p: u32,
    n: u32,
    /// Another first line.
    other: Option<&'static str>,
    text: String,
    /// With the number of bytes typed, of the bytes lent.
    seed: u64,
}

fn said_of(report: &mut Report, case: &Case) -> Outcome {
    let Case { p, n, other, text, seed } = case;
    let first = other.map_or(format!(" {p}  {n}"), str::to_string);
    let lines = format!("{first}\n{text}\n");
    said(&key(&mut Random::new(seed ^ lines.len() as u64), report, lines.as_bytes()))
}

/// All refusals of the lines, in the order in which they are judged. Y² + 1 has no root modulo these primes.
fn refusals(random: &mut Random, report: &mut Report) {
    let (p, n) = (random.pick(&[3, 7, 11, 65_519, 16_777_199]), random.within(2, 5));
    let modulus = random.pick(&[0, 1, 1 << 24, 999_999_999]);
    let (composite, divisor) = random.pick(&[(4, 2), (91, 7), (4093 * 4093, 4093), (16_777_215, 3)]);
    let terms = random.pick(&[0, 65, 256, 999_999_999]);
    let line = random.pick(&OTHER_FIRST_LINES);
    let long = random.once_in(4);
    let (before, after) = random.pick(&[("", "+"), ("*", ""), ("(", ""), ("", ")"), ("x+", ""), ("", "^256"), ("", "\n"), ("1234567890*", "")]);
    let high = random.pick(&["Y^33+", "-Y^20*Y^20*0+", "(Y^17)^2-Y^34+", "0*(Y^33)+", "(Y^33)^0+"]);
    let (low, close) = random.pick(&[("Y^13+", ""), ("Y^32-", ""), ("0*(", ")"), ("1+X^5*(", ")")]);
    let (unmonic, end) = random.pick(&[("2*(", ")"), ("0-(", ")"), ("(1+X)*(", ")")]);

    let put = |case: &mut Case, before: &str, after: &str| case.text = [before, &case.text, after].concat();
    let another = |case: &mut Case| {
        if long {
            put(case, "", &" ".repeat(4160));
        } else {
            case.other = Some(line);
        }
    };
    let faults: [Fault<Case>; 10] = [
        ((17, 0), &another),
        ((1, 0), &|case| case.p = modulus),
        ((2, divisor), &|case| case.p = composite),
        ((4, 0), &|case| case.n = terms),
        ((17, 0), &|case| put(case, before, after)),
        ((18, 0), &|case| put(case, &"(".repeat(33), &")".repeat(33))),
        ((19, 0), &|case| put(case, high, "")),
        ((3, 0), &|case| put(case, low, close)),
        ((7, 0), &|case| put(case, unmonic, end)),
        ((9, 0), &|case| case.text = "Y^2+1".to_string()),
    ];
    let good = Case { p, n, other: None, text: "(Y-1)*(Y+X)".to_string(), seed: random.next() };
    every_set(report, "key: every set of refusals at once", said_of, &good, 0, &faults);
}

pub fn run(random: &mut Random, report: &mut Report) {
    (0..1_200).for_each(|_| splitting(random, report));
    (0..3_000).for_each(|_| drawn(random, report));
    (0..4_000).for_each(|_| damaged(random, report));
    any_byte_in_any_place(random, report);
    every_beginning(random, report);
    first_lines(random, report);
    (0..20).for_each(|_| lengths(random, report));
    (0..5).for_each(|_| terms_and_degrees(random, report));
    (0..2).for_each(|_| longest(random, report));
    (0..4).for_each(|_| refusals(random, report));
}
