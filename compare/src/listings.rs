//! Job files of both kinds, with roots and without: good ones, and ones with faults in every field.

use crate::polynomials::{self, Given};
use crate::random::Random;
use crate::report::{engine, second, Report, LINE};
use crate::simple;
use second::field::pow;

/// How a file writes its fields: in 16 bits, or, after a first word of 0, in 32.
#[derive(Clone, Copy, PartialEq)]
pub enum Kind {
    Narrow,
    Wide,
}

impl Kind {
    /// Either of the two that p fits.
    pub fn either(random: &mut Random, p: u32) -> Kind {
        if p > 65535 || random.once_in(2) {
            Kind::Wide
        } else {
            Kind::Narrow
        }
    }

    /// The bytes of the head.
    fn head(self) -> u32 {
        match self {
            Kind::Narrow => 12,
            Kind::Wide => 26,
        }
    }

    /// The bytes of a field.
    fn size(self) -> u32 {
        match self {
            Kind::Narrow => 2,
            Kind::Wide => 4,
        }
    }

    fn bytes(self, fields: &[u32]) -> Vec<u8> {
        match self {
            Kind::Narrow => fields.iter().flat_map(|&field| (field as u16).to_le_bytes()).collect(),
            Kind::Wide => [0; 2].into_iter().chain(fields.iter().flat_map(|field| field.to_le_bytes())).collect(),
        }
    }

    pub fn file(self, given: &Given) -> Vec<u8> {
        self.bytes(&self.fields(given))
    }

    /// The file's fields: p, D, N, r, two byte offsets, roots, rows, all of them known.
    fn fields(self, given: &Given) -> Vec<u32> {
        let r = given.roots.len() as u32;
        let mut all = vec![given.p, given.d, given.n, r, self.head(), self.head() + self.size() * r];
        all.extend(&given.roots);
        all.extend(&given.f);
        all
    }
}

fn spoil_field(random: &mut Random, report: &mut Report, kind: Kind, fields: &mut [u32]) {
    let p = fields[0];
    let coefficient = random.within(6, fields.len() as u32 - 1) as usize;
    let at = random.pick(&[0, 1, 2, 3, 4, 5, coefficient]);
    if kind == Kind::Wide && random.once_in(6) {
        report.kind("job: wide, a field 65,536 too large");
        fields[at] = fields[at].wrapping_add(1 << 16);
        return;
    }
    fields[at] = match at {
        0 => random.bad_modulus(),
        1 => random.pick(&[0, 12, 13, 65535, 1 << 30, u32::MAX]),
        2 => random.pick(&[0, 64, 65, 65535, 1 << 30, u32::MAX]),
        3 => random.pick(&[0, 1, 12, 13, 65535, 1 << 30, u32::MAX]),
        // counted from the head's end, from the end of the first word, the other kind's, or any
        4 | 5 => random.pick(&[fields[at] - kind.head(), fields[at] - 2, 12, 26, 12 + 2 * fields[3].min(12), 26 + 4 * fields[3].min(12), u32::MAX]),
        _ => random.edge_word(p),
    };
}

fn spoil_length(random: &mut Random, file: &mut Vec<u8>) {
    match random.below(5) {
        0 => file.push(0),
        1 => file.truncate(file.len() - 1),
        2 => file.truncate(random.below(14) as usize),
        3 => file.truncate(random.below(28) as usize),
        _ => file.extend([0; 4000]),
    }
}

/// The first word is what tells the kinds apart.
fn spoil_first_word(random: &mut Random, report: &mut Report, kind: Kind, file: &mut Vec<u8>) {
    report.kind("job: a first word of 0 put in, or overwritten");
    match kind {
        Kind::Wide if random.once_in(2) => drop(file.drain(..2)),
        Kind::Wide => file[random.below(2) as usize] = random.within(1, 255) as u8,
        Kind::Narrow if random.once_in(2) => file[..2].fill(0),
        Kind::Narrow => drop(file.splice(..0, [0, 0])),
    }
}

fn job(random: &mut Random, report: &mut Report) -> Vec<u8> {
    let (p, d, n) = (random.prime(), random.degree().clamp(1, 13), random.columns().min(65));
    let kind = Kind::either(random, p);
    let mut given = polynomials::known(random, report, p, d, n);
    if random.once_in(3) {
        given.roots.clear();
    }
    let mut fields = kind.fields(&given);
    let mut faults = random.pick(&[0, 0, 0, 1, 1, 2, 3]);
    while faults > 0 && fields[4] >= kind.head() && fields[5] >= kind.head() {
        spoil_field(random, report, kind, &mut fields);
        faults -= 1;
    }
    if random.once_in(8) {
        // a root or the polynomial at X = 0 that does not fit the rest
        let at = random.within(6, 8.min(fields.len() as u32 - 1)) as usize;
        fields[at] = random.below(p);
    }
    let mut file = kind.bytes(&fields);
    if random.once_in(12) {
        spoil_first_word(random, report, kind, &mut file);
    }
    if random.once_in(6) {
        spoil_length(random, &mut file);
    }
    file
}

/// Whether the file has a head that says r = 0.
pub fn names_no_roots(job: &[u8]) -> bool {
    match job {
        [0, 0, ..] => job.get(14..18) == Some(&[0; 4]),
        _ => job.get(6..8) == Some(&[0; 2]),
    }
}

/// What the listing says of the file's kind.
fn note_kind(report: &mut Report, job: &[u8], text: &str) {
    let wide = job.starts_with(&[0, 0]);
    let pick = |kinds: [&'static str; 2]| kinds[names_no_roots(job) as usize];
    match text.strip_prefix("mod ") {
        Some(rest) if wide => {
            let p: u32 = rest.split(' ').next().and_then(|p| p.parse().ok()).expect("the modulus follows");
            report.kind(match p {
                0..=65535 => pick(["job: wide, listed", "job: no roots, wide, listed"]),
                _ => pick(["job: wide, listed, p above 65,535", "job: no roots, wide, listed, p above 65,535"]),
            });
        }
        Some(_) => report.kind(pick(["job: of 16-bit fields, listed", "job: no roots, of 16-bit fields, listed"])),
        None if wide && (12..26).contains(&job.len()) => report.kind("job: wide, under 26 bytes"),
        None if text == "refused 9 0\n" && names_no_roots(job) => report.kind("job: no roots, refused by 9"),
        None => {}
    }
}

/// Both listings of a job, that of its factors and that of its roots.
pub fn compare(random: &mut Random, report: &mut Report, job: &[u8]) {
    let text = second::listing::text(job);
    report.line(LINE, text.as_bytes());
    note_kind(report, job, &text);
    let room = random.room(text.len());
    let out = random.junk_bytes(room);
    let input = || format!("job {job:?}");
    report.call("list", input, &[job], &out, |o| engine(bopkheul::listing::list(job, o)), |o| second(second::listing::list(job, o)));
    simple::listed(random, report, job, &text);
}

/// Y² − 1 − X modulo p, three terms.
fn square_root(p: u32) -> Given {
    Given { p, d: 2, n: 3, f: vec![p - 1, p - 1, 0, 0, 0, 0, 1, 0, 0], lengths: vec![3; 2], roots: vec![1, p - 1] }
}

/// What can be wrong with the fields of a job, in the order of refusals.
type Faults = &'static [fn(&mut Vec<u32>)];

/// Those of the head, and a field too many, which give 1 to 5. (The length is the last of those that give 5.)
const HEAD: [fn(&mut Vec<u32>); 8] = [
    |fields| fields[0] = 1,
    |fields| fields[0] = 65_535,
    |fields| fields[1] = u32::MAX,
    |fields| fields[2] = u32::MAX,
    |fields| fields[3] = u32::MAX,
    |fields| fields[4] -= 2,
    |fields| fields[5] -= 2,
    |fields| fields.push(0),
];

/// Of that job: a word of row 1 is p, the top row, the root list, a root.
const OPENED: Faults = &[|fields| fields[11] = fields[0], |fields| fields[15] = 1, |fields| fields[7] = 1, |fields| fields[6] = 0];

/// Of that job without its roots: a word of row 1 is p, the top row, no root at all.
const FOUND: Faults = &[|fields| fields[9] = fields[0], |fields| fields[13] = 1, |fields| fields[6] = unsplit_constant(fields[0])];

/// The least c for which Y² + c has no root modulo p, where p is a prime; else 0.
fn unsplit_constant(p: u32) -> u32 {
    let p = p as u64;
    let rootless = |c: &u64| pow(p, p - c, (p - 1) / 2) == p - 1;
    (1..p.min(100)).find(rootless).unwrap_or(0) as u32
}

fn every_set_of_faults(random: &mut Random, report: &mut Report, kind: Kind, given: &Given) {
    let (of_open, case) = match given.roots.len() {
        0 => (FOUND, "job: no roots, every set of refusals at once"),
        _ => (OPENED, "job: every set of refusals at once"),
    };
    let faults: Vec<_> = HEAD.iter().chain(of_open).collect();
    for set in 0..1 << faults.len() {
        let mut fields = kind.fields(given);
        for (i, fault) in faults.iter().enumerate() {
            if set >> i & 1 == 1 {
                fault(&mut fields);
            }
        }
        report.kind(case);
        compare(random, report, &kind.bytes(&fields));
    }
}

/// The file from its first 0 bytes to a few more than it has, with p right, composite and 0.
fn every_length(random: &mut Random, report: &mut Report, kind: Kind, given: &Given) {
    for p in [given.p, 65_535, 0] {
        let mut fields = kind.fields(given);
        fields[0] = p;
        let file = [&kind.bytes(&fields)[..], &[0; 5]].concat();
        for length in 0..=file.len() {
            report.kind("job: every length of a file");
            compare(random, report, &file[..length]);
        }
    }
}

/// Twelve factors Y − s, 64 columns, modulo the largest prime. A root and its −s at X = 0 come to p, so one of them has seven digits; all else has eight.
fn longest(random: &mut Random, report: &mut Report) {
    let p = 16_777_213;
    let series = |i: u32| {
        let root = 10_000_000 + 480_000 * i + random.below(480_000);
        [root].into_iter().chain((1..64).map(|_| p - random.within(10_000_000, p - 1))).collect()
    };
    let given = polynomials::with_root_series(p, &(0..12).map(series).collect::<Vec<_>>());
    let mut file = Kind::Wide.file(&given);
    let text = second::listing::text(&file);
    report.expect(file.len() == 3402 && text.len() == 7267, &format!("the longest file has {} bytes, and its listing {}", file.len(), text.len()));
    report.kind("job: the longest file and the longest listing, 3,402 and 7,267 bytes");
    compare(random, report, &file);
    file.push(0);
    compare(random, report, &file);
    compare(random, report, &Kind::Wide.file(&Given { roots: vec![], ..given }));
}

/// With the list of its roots and without it a polynomial has the same listing; and what stands in the file is what r says, or the file is refused.
fn without_roots(random: &mut Random, report: &mut Report) {
    let (p, d, n) = (random.prime(), random.within(1, 12), random.within(1, 16));
    let kind = Kind::either(random, p);
    let given = polynomials::known(random, report, p, d, n);
    let (listed, found) = (kind.fields(&given), kind.fields(&Given { roots: vec![], ..given.clone() }));
    let text = |fields: &[u32]| bopkheul::listing::text(&kind.bytes(fields));
    let [with, without] = [&listed, &found].map(|fields| text(fields));
    report.expect(with == without && with.starts_with(b"mod "), &format!("the roots of {given:?} are found, and the listing is the same"));
    report.kind("job: no roots, the listing is that with the list of roots");
    compare(random, report, &kind.bytes(&found));
    let r = listed[3];
    for (fields, other, case) in [(&listed, 0, "job: roots stand there, and r is 0"), (&found, r, "job: no roots stand there, and r is not 0")] {
        for offset in [kind.head(), kind.head() + kind.size() * r] {
            let mut changed = fields.clone();
            (changed[3], changed[5]) = (other, offset);
            report.expect(text(&changed) == b"refused 5 0\n", &format!("{case}: {changed:?}"));
            report.kind(case);
            compare(random, report, &kind.bytes(&changed));
        }
    }
}

pub fn run(random: &mut Random, report: &mut Report) {
    for _ in 0..12_000 {
        let file = job(random, report);
        compare(random, report, &file);
    }
    for (kind, p) in [(Kind::Narrow, 65_521), (Kind::Wide, 65_521), (Kind::Wide, 16_777_213)] {
        let listed = square_root(p);
        let found = Given { roots: vec![], ..listed.clone() };
        for given in [listed, found] {
            every_set_of_faults(random, report, kind, &given);
            every_length(random, report, kind, &given);
        }
    }
    (0..500).for_each(|_| without_roots(random, report));
    longest(random, report);
}
