//! Roots as series, where all of them are simple: of sheets that have such roots only, and of sheets that have others too, sound and damaged, with every refusal; and the
//! listing of roots beside that of factors.

use crate::finding::opened_or_found;
use crate::listings::{self, names_no_roots, Kind};
use crate::polynomials::{self, lines, times, Given};
use crate::random::Random;
use crate::report::{engine, every_set, second, Called, Fault, Outcome, Report, ROOTS_LINE};
use crate::sheets::extend;
use bopkheul::{listing, sheet as e};
use second::sheet as s;

pub fn roots(report: &mut Report, sheet: &[u32], out: &[u32]) -> Called<u32> {
    report.call("sheet roots", || format!("sheet {sheet:?}"), &[sheet], out, |o| engine(e::roots(sheet, o)), |o| second(s::roots(sheet, o)))
}

fn expect(random: &mut Random, report: &mut Report, sheet: &[u32], room: usize, expected: Outcome, kind: &'static str) {
    let outcome = roots(report, sheet, &random.junk(room)).outcome;
    report.expect(outcome == expected, &format!("{kind}: roots comes to {outcome:?} and not {expected:?}, into {room} words, of {sheet:?}"));
    report.kind(kind);
}

/// The words that the roots of a sheet take.
fn needed(sheet: &[u32]) -> usize {
    (sheet[4] * sheet[2]) as usize
}

/// f at Y = s, by Horner; of f's rows, which have n words, as many as s has.
fn value(p: u32, n: usize, f: &[u32], s: &[u32]) -> Vec<u32> {
    let add = |product: &[u32], row: &[u32]| product.iter().zip(row).map(|(a, b)| (a + b) % p).collect();
    f.chunks(n).rev().fold(vec![0; s.len()], |sum, row| add(&times(p, &sum, s)[..s.len()], row))
}

/// A row for each root begins with it, is a root of the polynomial to as many terms as are worked, and is 0 after them.
fn are_roots(sheet: &[u32], rows: &[u32]) -> bool {
    let [p, _, n, k, _, roots, polynomial, factors, ..] = *sheet else { unreachable!("eleven words") };
    let [n, k, roots, polynomial, factors] = [n, k, roots, polynomial, factors].map(|word| word as usize);
    let is_root = |row: &[u32], root: u32| {
        let (s, rest) = row.split_at(k);
        s[0] == root && value(p, n, &sheet[polynomial..factors], s) == vec![0; k] && rest.iter().all(|&word| word == 0)
    };
    rows.chunks(n).zip(sheet[roots..].chunks(2)).all(|(row, entry)| is_root(row, entry[0]))
}

/// Kinds of a sheet whose roots are all simple.
fn kinds(sheet: &[u32]) -> [(bool, &'static str); 12] {
    let [p, d, n, k, _, _, _, _, _, total, reach] = sheet[..11] else { unreachable!("eleven words") };
    [
        (p == 2 && d == 1, "simple roots: p is 2, one root"),
        (p == 2 && d == 2, "simple roots: p is 2, two roots"),
        (p == d && p > 2, "simple roots: every number below p, above 2"),
        (p > 65_535, "simple roots: p is above 65,535"),
        (d == 1, "simple roots: one root"),
        (d == 32 && n == 256, "simple roots: 32 roots and 256 columns"),
        (n == 1, "simple roots: N is 1"),
        (k == 1 && n > 1, "simple roots: k is 1, below N"),
        (1 < k && k < n, "simple roots: k between 1 and N"),
        (k == n && n > 1, "simple roots: k is N, above 1"),
        (k == reach && reach < n, "simple roots: k is the least length, below N"),
        (sheet.len() > total as usize, "simple roots: words past the sheet's end"),
    ]
}

/// The roots of a sheet that has simple ones only: into too few words, and into enough.
fn accepted(random: &mut Random, report: &mut Report, sheet: &[u32]) {
    let needed = needed(sheet);
    let short = Err((10, needed as u32));
    expect(random, report, sheet, needed - 1, short, "simple roots: refused, into a word too few");
    let room = random.below(needed as u32) as usize;
    expect(random, report, sheet, room, short, "simple roots: refused, into fewer words");
    let more = random.pick(&[0, 0, 1, 5]);
    let out = random.junk(needed + more);
    let Called { outcome, words } = roots(report, sheet, &out);
    let (rows, past) = words.split_at(needed);
    let right = outcome == Ok(needed as u32) && are_roots(sheet, rows) && *past == out[needed..];
    report.expect(right, &format!("roots comes to {outcome:?} and leaves {words:?}, into {out:?}, of {sheet:?}"));
    report.kind(if more > 0 { "simple roots: words past the roots" } else { "simple roots: into as many words as they take" });
    kinds(sheet).iter().filter(|(holds, _)| *holds).for_each(|(_, kind)| report.kind(kind));
}

/// A sheet, worked to k terms.
fn worked_to(random: &mut Random, report: &mut Report, given: &Given, k: u32) -> Vec<u32> {
    let fresh = opened_or_found(random, report, given, "simple roots: a sheet whose roots were found");
    extend(report, &fresh, k).words
}

/// A sheet, worked to any terms.
fn worked(random: &mut Random, report: &mut Report, given: &Given) -> Vec<u32> {
    let (reach, any) = (given.reach(), random.within(1, given.reach()));
    let k = random.pick(&[1, reach, any, any]);
    worked_to(random, report, given, k)
}

/// With d simple roots, and any lengths.
fn with_simple_roots(random: &mut Random, report: &mut Report, p: u32, d: u32, n: u32) -> Given {
    let known = polynomials::with_roots(random, report, p, d, n, d);
    polynomials::with_lengths(random, report, &known)
}

/// With so many roots, those of them of power above 1 that are listed here, counted from 0.
fn with_multiple_roots(random: &mut Random, report: &mut Report, p: u32, n: u32, count: u32, multiple: &[u32]) -> Given {
    let roots = polynomials::roots(random, p, count);
    let powers: Vec<u32> = (0..count).map(|i| if multiple.contains(&i) { random.within(2, 4) } else { 1 }).collect();
    let known = polynomials::with_start(random, p, n, &lines(p, &roots, &powers), &roots);
    polynomials::with_lengths(random, report, &known)
}

/// Some root is not simple, whatever the others are, and whatever room there is.
fn multiple(random: &mut Random, report: &mut Report, p: u32, n: u32) -> Vec<u32> {
    let last = random.below(p.min(6));
    let from = random.within(0, last);
    let (of, kind) = match random.below(4) {
        0 => (vec![0], "simple roots: refused, the first root alone is multiple"),
        1 if last > 0 => (vec![last], "simple roots: refused, the last root alone is multiple"),
        2 if last > 1 => (vec![last / 2], "simple roots: refused, a root between alone is multiple"),
        _ => ((from..=last).collect(), "simple roots: refused, all roots from one on are multiple"),
    };
    let given = with_multiple_roots(random, report, p, n, last + 1, &of);
    let sheet = worked(random, report, &given);
    let needed = needed(&sheet);
    for room in [0, needed - 1, needed, (given.d * n) as usize] {
        expect(random, report, &sheet, room, Err((22, given.roots[of[0] as usize])), kind);
    }
    sheet
}

/// A sheet that is not sound any more: 13, whatever its roots are, and whatever room there is.
fn damaged(random: &mut Random, report: &mut Report, sheet: &[u32], kind: &'static str) {
    let [p, n, roots, factors, total] = [0, 2, 5, 7, 9].map(|at| sheet[at]);
    let power = (roots + 2 * random.below(sheet[4]) + 1) as usize;
    let first = (factors + n * random.below(sheet[1])) as usize; // which the roots fix
    let mut changed = sheet.to_vec();
    match random.below(5) {
        0 => changed.truncate(random.pick(&[total - 1, total - n, factors, roots, 11, 10, 0]) as usize),
        1 => changed[random.pick(&[3, 8, 9, 10])] = random.pick(&[0, u32::MAX]),
        2 => changed[power] = if changed[power] > 1 { 1 } else { 2 },
        3 => changed[roots as usize] = p,
        _ => changed[first] = random.other(p, changed[first]),
    }
    let room = random.room(needed(sheet));
    expect(random, report, &changed, room, Err((13, 0)), kind);
}

#[derive(Clone, Debug)]
struct Case {
    sheet: Vec<u32>,
    out: Vec<u32>,
}

/// All refusals, in the order in which they are judged. What is too short is so for either sheet.
fn refusals(random: &mut Random, report: &mut Report, sheet: &[u32], multiple: &[u32]) {
    let exact = |sheet: &[u32]| sheet[..sheet[9] as usize].to_vec();
    let (simple, multiple) = (exact(sheet), exact(multiple));
    let cut = random.once_in(2);
    let (least, room) = (least_multiple(&multiple), random.below(needed(&simple).min(needed(&multiple)) as u32) as usize);
    let spoiled = |case: &mut Case| {
        if cut {
            case.sheet.pop();
        } else {
            case.sheet[3] = 0;
        }
    };
    let words = needed(&simple) as u32;
    let faults: [Fault<Case>; 3] =
        [((13, 0), &spoiled), ((22, least), &|case| case.sheet = multiple.clone()), ((10, words), &|case| case.out.truncate(room))];
    let call = |report: &mut Report, case: &Case| roots(report, &case.sheet, &case.out).outcome;
    let good = Case { out: random.junk(words as usize), sheet: simple };
    every_set(report, "simple roots: every set of refusals at once", call, &good, words, &faults);
}

fn least_multiple(sheet: &[u32]) -> u32 {
    let entries = &sheet[sheet[5] as usize..sheet[6] as usize];
    entries.chunks(2).find(|entry| entry[1] > 1).expect("a root is multiple")[0]
}

fn small(random: &mut Random, report: &mut Report) {
    let (p, n) = (random.prime(), random.columns().min(24));
    let d = random.degree().clamp(1, 12).min(p);
    let given = with_simple_roots(random, report, p, d, n);
    let sheet = worked(random, report, &given);
    accepted(random, report, &sheet);
    damaged(random, report, &sheet, "simple roots: refused, a damaged sheet of simple roots");
    let others = multiple(random, report, p, n);
    damaged(random, report, &others, "simple roots: refused, a damaged sheet of multiple roots");
    refusals(random, report, &sheet, &others);
}

/// As many roots as there are numbers below p.
fn every_number(random: &mut Random, report: &mut Report) {
    for p in [2, 3, 5, 7, 11, 13, 17, 19, 23, 29, 31] {
        let n = random.within(1, 24);
        let given = with_simple_roots(random, report, p, p, n);
        let sheet = worked(random, report, &given);
        accepted(random, report, &sheet);
    }
}

/// The most columns, worked to k terms, and the most rows; known to all columns or fewer.
fn large(random: &mut Random, report: &mut Report) {
    let all = [
        (2, 1, 256, 256),
        (2, 2, 255, 256),
        (31, 31, 129, 130),
        (65_521, 7, 128, 128),
        (16_777_213, 1, 256, 256),
        (16_777_213, 32, 1, 1),
        (16_777_213, 32, 256, 256),
    ];
    for (p, d, k, reach) in all {
        let known = polynomials::with_roots(random, report, p, d, 256, d);
        let given = polynomials::with_reach(random, &known, reach);
        let sheet = worked_to(random, report, &given, k);
        accepted(random, report, &sheet);
    }
}

/// The number above −p/2 and at most p/2 that is congruent to −a.
fn minus(p: i64, a: i64) -> i64 {
    if -2 * a > -p {
        -a
    } else {
        p - a
    }
}

/// The listing of roots that goes with one of factors: Y + a has the root −a.
fn of_factors(listing: &str) -> String {
    let mut lines = listing.lines();
    let head = lines.next().expect("a listing has a line");
    let ["mod", p, ..] = head.split(' ').collect::<Vec<_>>()[..] else { return listing.to_string() };
    let p = p.parse().expect("the modulus is a number");
    let mut text = format!("{head}\n");
    for line in lines {
        match line.split(' ').collect::<Vec<_>>()[..] {
            ["root", _, "power", "1"] => {}
            ["root", c, "power", _] => return format!("refused 22 {c}\n"),
            ["Y^0:", ref row @ ..] => {
                let numbers = row.iter().map(|a| minus(p, a.parse().expect("an entry is a number")));
                text += &format!("Y ={}\n", numbers.map(|number| format!(" {number}")).collect::<String>());
            }
            _ => unreachable!("a factor of power 1 has one row"),
        }
    }
    text
}

/// Kinds of a job by its listing of roots.
fn note_listing(report: &mut Report, job: &[u8], text: &str) {
    let listed = text.starts_with("mod ");
    let wide = job.starts_with(&[0, 0]);
    let kinds = [
        (listed && !wide, "roots' listing: of 16-bit fields"),
        (listed && wide, "roots' listing: wide"),
        (listed && names_no_roots(job), "roots' listing: no roots named"),
        (text.starts_with("mod 2 "), "roots' listing: p is 2"),
        (text.starts_with("refused 22 ") && names_no_roots(job), "roots' listing: refused by 22, no roots named"),
        (text.starts_with("refused 22 ") && !names_no_roots(job), "roots' listing: refused by 22, roots named"),
    ];
    kinds.iter().filter(|(holds, _)| *holds).for_each(|(_, kind)| report.kind(kind));
}

fn list_roots(random: &mut Random, report: &mut Report, job: &[u8], room: usize) -> Called<u8> {
    let out = random.junk_bytes(room);
    let mine = |o: &mut [u8]| engine(listing::list_roots(job, o));
    report.call("list roots", || format!("job {job:?}"), &[job], &out, mine, |o| second(::second::listing::list_roots(job, o)))
}

/// The listing of a job's roots, beside that of its factors: into as many bytes as it takes, or some more; and now and then into too few.
pub fn listed(random: &mut Random, report: &mut Report, job: &[u8], factors: &str) {
    let expected = of_factors(factors);
    let needed = expected.len();
    let more = random.pick(&[0, 0, 1, 5]);
    let Called { outcome, words } = list_roots(random, report, job, needed + more);
    let right = outcome == Ok(needed as u32) && words.starts_with(expected.as_bytes());
    report.expect(right, &format!("the roots of job {job:?} are listed as {} and not as {expected}", words.escape_ascii()));
    report.line(ROOTS_LINE, expected.as_bytes());
    note_listing(report, job, &expected);
    if more > 0 {
        report.kind("roots' listing: bytes past the end");
    }
    if random.once_in(4) {
        let any = random.below(needed as u32) as usize;
        let room = random.pick(&[needed - 1, needed - 1, any, 0]);
        let short = list_roots(random, report, job, room).outcome;
        report.expect(short == Err((10, needed as u32)), &format!("the roots' listing of job {job:?} takes {needed} bytes: {short:?}"));
        report.kind(if room == needed - 1 { "roots' listing: refused, into a byte too few" } else { "roots' listing: refused, into fewer bytes" });
    }
}

/// A number below p, and how it is printed.
type Entry = (u32, String);

/// Those next to 0, to p / 2 and to p.
fn ends(p: u32) -> Vec<Entry> {
    let half = p / 2;
    let printed = match p {
        2 => vec![(0, 0), (1, 1)],
        _ => vec![(0, 0), (1, 1), (half, half as i32), (half + 1, -(half as i32)), (p - 1, -1)],
    };
    printed.into_iter().map(|(number, signed)| (number, signed.to_string())).collect()
}

/// Series of such numbers, each beginning with another one, in rising order.
fn series_of_ends(random: &mut Random, p: u32) -> Vec<Vec<Entry>> {
    let (ends, n) = (ends(p), random.within(1, 8));
    let mut firsts = ends.clone();
    firsts.sort();
    firsts.dedup();
    random.shuffle(&mut firsts);
    firsts.truncate(random.within(1, firsts.len() as u32) as usize);
    firsts.sort();
    let mut entry = || ends[random.below(ends.len() as u32) as usize].clone();
    firsts.into_iter().map(|first| [first].into_iter().chain((1..n).map(|_| entry())).collect()).collect()
}

fn note_entries(report: &mut Report, p: u32, rows: &[Vec<Entry>]) {
    let half = p / 2;
    let has = |number: u32| rows.iter().flatten().any(|entry| entry.0 == number);
    let kinds = [
        (has(0), "roots' listing: an entry is 0"),
        (p > 2 && has(half), "roots' listing: an entry is (p − 1) / 2"),
        (p > 2 && has(half + 1), "roots' listing: an entry is (p + 1) / 2"),
        (p > 3 && has(p - 1), "roots' listing: an entry is p − 1"),
        (p == 2 && has(1), "roots' listing: p is 2, and an entry 1"),
    ];
    kinds.iter().filter(|(holds, _)| *holds).for_each(|(_, kind)| report.kind(kind));
}

/// A polynomial with such roots, whose listing is known by them.
fn printed(random: &mut Random, report: &mut Report, p: u32) {
    let rows = series_of_ends(random, p);
    let series: Vec<Vec<u32>> = rows.iter().map(|row| row.iter().map(|entry| entry.0).collect()).collect();
    let mut given = polynomials::with_root_series(p, &series);
    let line = |row: &Vec<Entry>| format!("Y = {}\n", row.iter().map(|entry| &entry.1[..]).collect::<Vec<_>>().join(" "));
    let expected = format!("mod {p} terms {} degree {1} factors {1}\n", given.n, given.d) + &rows.iter().map(line).collect::<String>();
    if random.once_in(2) {
        given.roots.clear();
    }
    let job = Kind::either(random, p).file(&given);
    let text = listing::roots_text(&job);
    report.expect(text == expected.as_bytes(), &format!("the roots of job {job:?} are {expected}, and listed as {}", text.escape_ascii()));
    note_entries(report, p, &rows);
    listings::compare(random, report, &job);
}

/// Twelve roots, 64 columns, modulo the largest prime: every number is negative and has seven digits.
fn longest(random: &mut Random, report: &mut Report) {
    let (p, half) = (16_777_213, 8_388_606);
    let series = |i: u32| {
        let root = half + 1 + 600_000 * i + random.below(600_000);
        [root].into_iter().chain((1..64).map(|_| p - random.within(1_000_000, half))).collect()
    };
    let given = polynomials::with_root_series(p, &(0..12).map(series).collect::<Vec<_>>());
    let job = Kind::Wide.file(&given);
    let length = listing::roots_text(&job).len();
    report.expect(length == 7003, &format!("the longest listing of roots has {length} bytes"));
    report.kind("roots' listing: the longest, 7,003 bytes");
    listings::compare(random, report, &job);
}

pub fn run(random: &mut Random, report: &mut Report) {
    (0..800).for_each(|_| small(random, report));
    every_number(random, report);
    large(random, report);
    for p in [2, 3, 5, 7, 251, 65_521, 65_537, 16_777_213] {
        (0..40).for_each(|_| printed(random, report, p));
    }
    longest(random, report);
}
