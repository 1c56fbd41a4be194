//! Counts what was compared, and stops the program at the first difference.

use std::collections::BTreeMap;
use std::fmt::Debug;
use std::hint::black_box;
use std::process::exit;

/// An answer, or a refusal's number and detail.
pub type Outcome = Result<u32, (u32, u32)>;

pub fn engine(answer: bopkheul::Answer) -> Outcome {
    answer.map_err(|r| (r.number, r.detail))
}

pub fn second(answer: second::Answer) -> Outcome {
    answer.map_err(|r| (r.number, r.detail))
}

/// What a text says that a job or typed lines come to: that it is a listing, or a refusal.
pub fn said(text: &[u8]) -> Outcome {
    let line = std::str::from_utf8(text).expect("such a text is ASCII");
    let Some(words) = line.strip_prefix("refused ") else { return Ok(0) };
    let mut numbers = words.trim_end().split(' ').map(|word| word.parse().expect("two numbers follow"));
    Err((numbers.next().expect("a number"), numbers.next().expect("a detail")))
}

/// What a call of both came to.
pub struct Called<W> {
    pub outcome: Outcome,
    /// The words lent, after the call.
    pub words: Vec<W>,
}

/// An operation, and the refusals that it can give: each must have come up.
pub struct Operation {
    pub name: &'static str,
    refusals: &'static [u32],
}

const fn operation(name: &'static str, refusals: &'static [u32]) -> Operation {
    Operation { name, refusals }
}

const NUMBER: &[u32] = &[1, 2, 6];
const SERIES: &[u32] = &[1, 2, 4, 5, 6, 10];
const KNOWN: &[u32] = &[1, 2, 4, 5, 6, 10, 21];
const DIVIDE: &[u32] = &[1, 2, 4, 5, 6, 10, 12];
const ROWS: &[u32] = &[1, 2, 3, 4, 5, 6, 10];

/// Not a call of its own: what the lines say that `list` writes, which is a refusal's number or a listing.
pub const LINE: &str = "list's line";
/// The same of those that `list_roots` writes.
pub const ROOTS_LINE: &str = "list roots' line";
/// And of those that `key` writes.
pub const KEY_LINE: &str = "key's line";

pub const OPERATIONS: [Operation; 32] = [
    operation("sum", NUMBER),
    operation("difference", NUMBER),
    operation("product", NUMBER),
    operation("inverse", &[1, 2, 6, 12]),
    operation("series sum", KNOWN),
    operation("series difference", SERIES),
    operation("series product", KNOWN),
    operation("series quotient", DIVIDE),
    operation("series inverse", DIVIDE),
    operation("rows sum", ROWS),
    operation("rows difference", ROWS),
    operation("rows product", ROWS),
    operation("rows shift", ROWS),
    operation("read", &[1, 2, 4, 10, 17, 18, 19]),
    operation("pair", &[1, 2, 3, 4, 5, 6, 10, 11, 13, 14, 15]),
    operation("sheet open", &[1, 2, 3, 4, 5, 6, 7, 8, 9, 10, 21]),
    operation("sheet find", &[1, 2, 3, 4, 5, 6, 7, 9, 10, 21]),
    operation("sheet extend", &[13, 14, 15]),
    operation("sheet correct", &[6, 13, 20]),
    operation("sheet test", &[]),
    operation("sheet factor", &[10, 13, 16]),
    operation("sheet factor times", &[3, 5, 6, 10, 13, 16]),
    operation("sheet factor shift", &[6, 10, 13, 16]),
    operation("sheet roots", &[10, 13, 22]),
    operation("sheet replay", &[5, 10]),
    operation("counts", &[1, 2, 3, 10, 24]),
    operation("list", &[10]),
    operation(LINE, &[1, 2, 3, 4, 5, 6, 7, 8, 9]),
    operation("list roots", &[10]),
    operation(ROOTS_LINE, &[1, 2, 3, 4, 5, 6, 7, 8, 9, 22]),
    operation("key", &[10]),
    operation(KEY_LINE, &[1, 2, 3, 4, 7, 9, 17, 18, 19]),
];

/// Kinds of inputs: each must have come up.
pub const KINDS: [&str; 387] = [
    "document 01's examples",
    "the sheet of document 02's F-8",
    "the moduli of document 02's F-2",
    "the quotient of document 02's F-5",
    "the known lengths of document 02's F-9",
    "the roots of document 02's F-3",
    "the correction of document 02's F-6",
    "the counts of document 02's F-13",
    "the typed polynomial of document 02's F-1",
    "the simple roots of document 02's F-10",
    "the variant of document 02's F-11",
    "every modulus from 0 to 66,000",
    "every modulus from 16,776,000 to 16,778,000",
    "a prime below 4,096, squared",
    "two neighbours among these primes",
    "a modulus drawn below 2^24",
    "a power of p or more",
    "32 rows or 256 columns",
    "several faults at once",
    "series: both operands known to N",
    "series: both operands known to one count below N",
    "series: the lesser count is the first",
    "series: the lesser count is the second",
    "series: a count outside 1..N",
    "series: a word at the count is not 0",
    "series: the last word is past the count and not 0",
    "series: every set of refusals at once",
    "quotient: no power of X in either",
    "quotient: equal least powers, 1 or more",
    "quotient: the dividend's least power is higher",
    "quotient: the dividend's least power is lower",
    "quotient: zeros by a divisor that is not 0",
    "quotient: a divisor of zeros",
    "quotient: zeros by zeros",
    "quotient: 256 terms, every least power of the divisor",
    "quotient: a product by one of its factors",
    "quotient: every set of refusals at once",
    "pair: order 0",
    "pair: order between",
    "pair: order D",
    "pair: D is above p",
    "pair: worked in several goes",
    "pair: started over any words",
    "pair: started over words below p",
    "pair: started over the pair of another polynomial",
    "pair: started over its own terms",
    "pair: above 16 terms, four rows or more on either side, started",
    "pair: above 16 terms, four rows or more on either side, h below 16",
    "pair: above 16 terms, four rows or more on either side, h = 16",
    "pair: above 16 terms, four rows or more on either side, h above 16",
    "pair: h above N",
    "pair: f changed in a column below h",
    "pair: f changed from column h up only",
    "pair: a word below h changed",
    "pair: a word from h up changed",
    "pair: every set of refusals at once, started",
    "pair: every set of refusals at once, continued",
    "lengths: all N",
    "lengths: all alike, below N",
    "lengths: all unlike",
    "lengths: the least is 1",
    "lengths: the least is N − 1",
    "lengths: the least in the first row alone",
    "lengths: the least in the last row alone",
    "lengths: word 10 is 0",
    "lengths: word 10 is too low",
    "lengths: word 10 is too high",
    "lengths: changed with word 10, still sound",
    "lengths: changed with word 10, no longer sound",
    "lengths: lowered as far as the row and the terms worked allow",
    "lengths: lowered to 0",
    "lengths: lowered below a word that is not 0",
    "lengths: lowered below the terms worked",
    "lengths: k is word 10",
    "lengths: k is above word 10, and all else is right",
    "lengths: k is N, above word 10, and all else is right",
    "lengths: two ways of filling in agree below the least length",
    "lengths: two ways of filling in differ at the least length",
    "open and find: a length outside 1..N",
    "open and find: a word at its row's length is not 0",
    "open and find: a row's last word is past its length and not 0",
    "open and find: a word past its row's length is p",
    "open and find: any word before its row's length",
    "open and find: the top row has no length",
    "open and find: more or fewer lengths than D",
    "open: a root is p, and a length is wrong",
    "open: every set of refusals at once",
    "finding: what open writes with the list of roots, into T − 1 words and into T",
    "finding: every polynomial of a small degree, split",
    "finding: every polynomial of a small degree, some roots",
    "finding: every polynomial of a small degree, no root",
    "finding: every two roots modulo the primes below 100",
    "finding: two roots alike under 30 shifts or more",
    "finding: two roots alike under many shifts",
    "finding: 32 roots alike under the first shifts",
    "finding: a quadratic without roots",
    "finding: 30 lines and a quadratic without roots",
    "finding: lines and a quadratic without roots",
    "finding: a power of a quadratic without roots, lines or none",
    "finding: several quadratics without roots, lines or none",
    "finding: degree 32, 32 simple roots",
    "finding: degree 32, 8 roots of power 4",
    "finding: degree 32, two roots of power 16",
    "finding: degree 32, one root of power 32",
    "finding: the numbers from 0 up",
    "finding: the numbers up to p − 1",
    "finding: powers around the multiples of p",
    "finding: any polynomial",
    "finding: worked in several goes",
    "finding: modulus, degree or columns at a limit",
    "finding: a word is p or more",
    "finding: every set of refusals at once",
    "sheet: opened into T − 1 words and into T",
    "sheet: worked in several goes",
    "sheet: only its first words lent",
    "sheet: a list of calls",
    "sheet: a call of a list wants more than the least length, and at most N",
    "sheet: moduli around 2^16 and 2^24",
    "sheet: p or k changed",
    "sheet: p or k changed, still sound",
    "sheet: D, N, r or an offset changed",
    "sheet: header word 8 changed",
    "sheet: header word 9 changed",
    "sheet: header words 8 and 9 changed alike",
    "sheet: header word 10 changed",
    "sheet: a length changed",
    "sheet: a length changed, still sound",
    "sheet: root changed",
    "sheet: power changed",
    "sheet: polynomial changed below k",
    "sheet: polynomial changed from k up",
    "sheet: polynomial changed from k up, still sound",
    "sheet: polynomial changed past a row's length",
    "sheet: top row changed",
    "sheet: factor changed below k",
    "sheet: factor changed from k up",
    "sheet: two factors of one power exchanged",
    "sheet: a word past the end changed",
    "sheet: cut short",
    "sheet: shortened to fewer terms",
    "sheet: k raised over columns of zeros",
    "reading: a factor's rows stand in the sheet where the second implementation says",
    "reading: every set of refusals at once",
    "reading: the product's degree bound is 32",
    "reading: a factor's part as a row polynomial",
    "extend: a right sheet, w is word 10",
    "extend: a right sheet, w is word 10 and one more, and at most N",
    "extend: a right sheet, w is N and well above word 10",
    "extend: a right sheet, w is 0 or above N",
    "extend: a right sheet, w is k − 1",
    "extend: T − 1 words, any w",
    "extend: a factor wrong below k, w = k",
    "extend: a factor wrong below k, w > k",
    "extend: a factor wrong from k up, w = k",
    "extend: a factor wrong from k up, w > k",
    "extend: a factor wrong in column k − 1, w is refused too",
    "correction: accepted",
    "correction: undone",
    "correction: column 1",
    "correction: column k − 1",
    "correction: column k",
    "correction: above column k",
    "correction: column N − 1",
    "correction: the last known column, below N − 1",
    "correction: the entry that is there",
    "correction: p − 1",
    "correction: p is below D",
    "correction: p is above 65,535",
    "correction: 32 rows and 256 columns",
    "correction: words past the end",
    "correction: a sheet whose roots were found",
    "correction: a sheet changed by hand, still sound",
    "correction: a sheet changed by hand, not sound",
    "correction: refused, column 0",
    "correction: refused, column N or more",
    "correction: refused, at the row's length, which is below N",
    "correction: refused, the last column of a row that is not known to it",
    "correction: refused, row D or more",
    "correction: refused, a row that would begin past 2^32 words",
    "correction: refused, N is 1",
    "correction: refused, p or more",
    "correction: refused, fewer words than T",
    "correction: refused, it would mend the sheet",
    "correction: every set of refusals at once",
    "list: a correction below the terms worked",
    "list: a correction from the terms worked up",
    "list: a correction that is lent too few words",
    "list: a correction where there is no entry",
    "list: a correction to p or more",
    "list: refused, its words are no multiple of five",
    "list: refused, a call lends more words than there are",
    "list: refused, a call of neither kind",
    "list: refused, an extension with a word that is not 0 after w",
    "list: two lists that end alike, with what open was given",
    "list: two lists that end alike, with a corrected polynomial",
    "counts: every p and D with p^D at most 65,536",
    "counts: D is 1",
    "counts: D is above p",
    "counts: p^D is 65,536",
    "counts: words past the end",
    "counts: the polynomials of a small degree, as find splits them",
    "counts: the largest p and the next, for each D",
    "counts: any p and D",
    "counts: refused, p is outside 2..16,777,215",
    "counts: refused, p is composite",
    "counts: refused, D is 0 or above 32",
    "counts: refused, p^D modulo 2^32 is at most 65,536",
    "counts: refused, into D words or fewer",
    "counts: every set of refusals at once",
    "simple roots: p is 2, one root",
    "simple roots: p is 2, two roots",
    "simple roots: every number below p, above 2",
    "simple roots: p is above 65,535",
    "simple roots: one root",
    "simple roots: 32 roots and 256 columns",
    "simple roots: N is 1",
    "simple roots: k is 1, below N",
    "simple roots: k between 1 and N",
    "simple roots: k is N, above 1",
    "simple roots: k is the least length, below N",
    "simple roots: words past the sheet's end",
    "simple roots: words past the roots",
    "simple roots: into as many words as they take",
    "simple roots: a sheet whose roots were found",
    "simple roots: refused, into a word too few",
    "simple roots: refused, into fewer words",
    "simple roots: refused, the first root alone is multiple",
    "simple roots: refused, the last root alone is multiple",
    "simple roots: refused, a root between alone is multiple",
    "simple roots: refused, all roots from one on are multiple",
    "simple roots: refused, a damaged sheet of simple roots",
    "simple roots: refused, a damaged sheet of multiple roots",
    "simple roots: every set of refusals at once",
    "typed: refused, into a word too few",
    "typed: words past the end",
    "typed: 0",
    "typed: degree 0",
    "typed: degree 32",
    "typed: N is 1",
    "typed: N is 256",
    "typed: p is 2",
    "typed: p is above 65,535",
    "typed: a formula, with blanks and without",
    "typed: a formula, read",
    "typed: a formula, some part too high",
    "typed: a row polynomial, term by term",
    "typed: sum, difference and product of two, as rows has them",
    "typed: a power, as rows multiplies it out",
    "typed: a difference whose highest rows are 0",
    "typed: powers of 1 + X and X + Y, by Pascal's rule",
    "typed: a power that is 0 modulo X^N, a lower one too high",
    "typed: a power of a monomial, too high",
    "typed: a power that is 0 modulo X^N, and the lower ones are low",
    "typed: a power of a monomial",
    "typed: a power that is 0 modulo p",
    "typed: a part of degree 32",
    "typed: a part of degree 33",
    "typed: the same factors, and no such part",
    "typed: a byte changed",
    "typed: a byte dropped",
    "typed: a byte doubled",
    "typed: a byte inserted",
    "typed: two bytes swapped",
    "typed: damaged, unreadable",
    "typed: damaged, and readable",
    "typed: a formula with any byte in any place",
    "typed: any string of a formula's bytes",
    "typed: any bytes",
    "typed: as long as can be, or longer, by blanks",
    "typed: as long as can be, or longer, by terms or factors",
    "typed: brackets less than 32 deep",
    "typed: brackets 32 deep",
    "typed: brackets 33 deep",
    "typed: brackets 2,047 deep",
    "typed: brackets more than 33 deep",
    "typed: a bracket without its match",
    "typed: unreadable, and brackets more than 32 deep",
    "typed: brackets 32 deep around all rows and columns",
    "typed: products of the most rows and columns",
    "typed: 9 digits or fewer",
    "typed: 10 digits or more",
    "typed: a power up to 255",
    "typed: a power up to 255, of 10 digits or more",
    "typed: a power above 255",
    "typed: any p, N and room",
    "typed: every set of refusals at once",
    "typed: every string of at most four of ten bytes",
    "typed: every string of five of seven bytes",
    "key: bytes past the end",
    "key: refused, into a byte too few",
    "key: refused, into fewer bytes",
    "key: no line feed at the end",
    "key: a line feed at the end",
    "key: a polynomial that splits, term by term",
    "key: listed, degree 1",
    "key: listed, degree 12",
    "key: listed, 1 term",
    "key: listed, 64 terms",
    "key: listed, p is 2",
    "key: listed, p above 65,535",
    "key: any formula",
    "key: damaged, refused by 17",
    "key: damaged, and not refused by 17",
    "key: lines with any byte in any place",
    "key: every string of at most five of four bytes, before a line feed and Y",
    "key: another first line",
    "key: a number of 9 digits or fewer",
    "key: a number of 10 digits or more",
    "key: no line feed at all",
    "key: a line feed too many, or no polynomial",
    "key: as long as can be, or a byte shorter",
    "key: longer than can be",
    "key: not too long, but its polynomial is",
    "key: every number of terms",
    "key: every degree",
    "key: twelve roots, 64 terms, the largest modulus",
    "key: every set of refusals at once",
    "job: of 16-bit fields, listed",
    "job: wide, listed",
    "job: wide, listed, p above 65,535",
    "job: wide, under 26 bytes",
    "job: wide, a field 65,536 too large",
    "job: a first word of 0 put in, or overwritten",
    "job: no roots, of 16-bit fields, listed",
    "job: no roots, wide, listed",
    "job: no roots, wide, listed, p above 65,535",
    "job: no roots, refused by 9",
    "job: no roots, the listing is that with the list of roots",
    "job: roots stand there, and r is 0",
    "job: no roots stand there, and r is not 0",
    "job: every set of refusals at once",
    "job: no roots, every set of refusals at once",
    "job: every length of a file",
    "job: the longest file and the longest listing, 3,402 and 7,267 bytes",
    "roots' listing: of 16-bit fields",
    "roots' listing: wide",
    "roots' listing: no roots named",
    "roots' listing: p is 2",
    "roots' listing: bytes past the end",
    "roots' listing: an entry is 0",
    "roots' listing: an entry is (p − 1) / 2",
    "roots' listing: an entry is (p + 1) / 2",
    "roots' listing: an entry is p − 1",
    "roots' listing: p is 2, and an entry 1",
    "roots' listing: the longest, 7,003 bytes",
    "roots' listing: refused by 22, no roots named",
    "roots' listing: refused by 22, roots named",
    "roots' listing: refused, into a byte too few",
    "roots' listing: refused, into fewer bytes",
    "old layout: a stored sheet of one or two roots",
    "old layout: a stored sheet of three roots or more",
    "old layout: a sheet without lengths, of one or two roots",
    "old layout: a sheet without lengths, of three roots or more",
    "old layout: a sheet without lengths and with cofactors",
    "demand 3: alike in every column that both have worked",
    "demand 3: alike below some column, and unlike in it",
    "demand 3: one degree, unlike at X = 0",
    "demand 3: unlike degrees",
    "demand 3: rows known to other lengths",
    "demand 3: a sheet whose roots were found",
    "demand 3: a sheet that was corrected",
    "demand 3: parted by one entry, and brought together by its correction",
    "origin: all lengths N",
    "origin: equal lengths below N",
    "origin: lengths that differ, cut to the least",
    "origin: c is 0",
    "origin: c is a root of f",
    "origin: c is p − 1",
    "origin: every c below p",
    "origin: the moved list is turned",
    "origin: the moved list keeps its order",
    "origin: a factor of power above 1",
    "origin: p is below the degree",
    "origin: one root of power D",
    "origin: 32 simple roots",
    "origin: D is 32",
    "origin: N is 256",
    "origin: p is 16,777,213",
    "origin: worked in several goes",
    "origin: worked to one term only",
    "origin: worked to the least length",
    "origin: refused by 8, the moved list in f's own order",
    "origin: refused by 9, the roots moved the other way",
    "origin: refused by 21, not cut",
    "origin: refused by 21, not cut, one row known further than the others",
    "origin: not cut, and no word past a length",
    "origin: a factor's part shifted without its leading 1 is another",
];

#[derive(Default)]
pub struct Report {
    outcomes: BTreeMap<(&'static str, u32), u64>,
    kinds: BTreeMap<&'static str, u64>,
}

impl Report {
    pub fn kind(&mut self, kind: &'static str) {
        assert!(KINDS.contains(&kind), "{kind} is not listed");
        *self.kinds.entry(kind).or_default() += 1;
    }

    fn outcome(&mut self, operation: &'static str, outcome: Outcome) {
        let number = outcome.err().map_or(0, |refusal| refusal.0);
        *self.outcomes.entry((operation, number)).or_default() += 1;
    }

    /// The counts of both.
    pub fn with(mut self, other: Report) -> Report {
        for (key, count) in other.outcomes {
            *self.outcomes.entry(key).or_default() += count;
        }
        for (kind, count) in other.kinds {
            *self.kinds.entry(kind).or_default() += count;
        }
        self
    }

    /// A text that was written.
    pub fn line(&mut self, operation: &'static str, text: &[u8]) {
        self.outcome(operation, said(text));
    }

    /// One call of both: the outcome and every word lent must be the same, a refusal must leave the words as they were, and the engine must leave its
    /// inputs as they were.
    pub fn call<W: Copy + Eq + Debug>(
        &mut self,
        operation: &'static str,
        input: impl Fn() -> String,
        inputs: &[&[W]],
        lent: &[W],
        engine: impl FnOnce(&mut [W]) -> Outcome,
        second: impl FnOnce(&mut [W]) -> Outcome,
    ) -> Called<W> {
        let (mut mine, mut other) = (lent.to_vec(), lent.to_vec());
        let before = inputs.concat();
        let answer = engine(&mut mine);
        // the compiler may take a slice that is only read for unchanged; the engine is what is doubted here
        if black_box(inputs).concat() != before {
            differ(operation, &input(), lent, &format!("the engine wrote to its inputs, which were {before:?}"));
        }
        let expected = second(&mut other);
        self.outcome(operation, answer);
        if answer != expected {
            differ(operation, &input(), lent, &format!("the engine answers {answer:?}, the second implementation {expected:?}"));
        }
        if let Some(i) = (0..lent.len()).find(|&i| mine[i] != other[i]) {
            differ(
                operation,
                &input(),
                lent,
                &format!("word {i} after the call: the engine has {:?}, the second implementation {:?}", mine[i], other[i]),
            );
        }
        if answer.is_err() && mine != lent {
            differ(operation, &input(), lent, "a refused call wrote");
        }
        Called { outcome: answer, words: mine }
    }

    /// A fact that must hold besides.
    pub fn expect(&self, holds: bool, what: &str) {
        if !holds {
            println!("NOT SO: {what}");
            exit(1);
        }
    }

    /// Prints the tables; false where a cell that has to be there is empty.
    pub fn print(&self) -> bool {
        println!("Cases compared, by operation: accepted, then by refusal number.\n");
        let mut complete = true;
        for Operation { name, refusals } in &OPERATIONS {
            let count = |number: u32| self.outcomes.get(&(*name, number)).copied().unwrap_or(0);
            let cells: Vec<String> = refusals.iter().map(|&n| format!("{n}: {}", count(n))).collect();
            println!("  {name:<18} {:>8}   {}", count(0), cells.join("  "));
            complete &= count(0) > 0 && refusals.iter().all(|&n| count(n) > 0);
        }
        println!("\nCases of each kind among them:\n");
        for kind in KINDS {
            let count = self.kinds.get(kind).copied().unwrap_or(0);
            println!("  {kind:<80} {count:>8}");
            complete &= count > 0;
        }
        let calls = self.outcomes.iter().filter(|((name, _), _)| ![LINE, ROOTS_LINE, KEY_LINE].contains(name));
        println!("\n{} calls compared, no difference.", calls.map(|(_, count)| count).sum::<u64>());
        complete
    }
}

/// A refusal, by number and detail, and what brings it about in a good case.
pub type Fault<'a, C> = ((u32, u32), &'a dyn Fn(&mut C));

/// Every set of the faults, which stand in the order in which they are judged: the first of a set is given. None is accepted.
pub fn every_set<C: Clone + Debug>(
    report: &mut Report,
    kind: &'static str,
    call: fn(&mut Report, &C) -> Outcome,
    good: &C,
    accepted: u32,
    faults: &[Fault<C>],
) {
    for set in 0..1 << faults.len() {
        let chosen = || faults.iter().enumerate().filter(|(l, _)| set >> l & 1 == 1).map(|(_, fault)| fault);
        let mut case = good.clone();
        chosen().rev().for_each(|(_, put)| put(&mut case)); // the first comes last, and so holds
        let expected = chosen().next().map_or(Ok(accepted), |(refusal, _)| Err(*refusal));
        let outcome = call(report, &case);
        report.expect(outcome == expected, &format!("the outcome is {outcome:?} and not {expected:?} of {case:?}"));
    }
    report.kind(kind);
}

fn differ<W: Debug>(operation: &str, input: &str, lent: &[W], how: &str) -> ! {
    println!("DIFFERENCE in {operation}: {how}\n  given: {input}\n  lent: {lent:?}");
    exit(1)
}
