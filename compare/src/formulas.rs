//! Formulas to be read: drawn from the grammar, the terms of a row polynomial, and damaged ones.

use crate::random::Random;

/// The bytes that formulas are made of.
pub const ALPHABET: &[u8] = b"0123456789XY+-*^() ";

/// A number with leading zeros or without, of at most nine digits.
pub fn number(random: &mut Random, number: u32) -> String {
    let any = random.within(1, 9);
    let width = random.pick(&[1, 1, 1, 1, 9, any]) as usize;
    format!("{number:0width$}")
}

/// One of the numbers of nine digits or fewer that are c modulo p.
pub fn congruent(random: &mut Random, p: u32, c: u32) -> String {
    let turns = (999_999_999 - c) / p;
    let any = random.below(turns + 1);
    let turn = random.pick(&[0, 0, 0, 1.min(turns), turns, any]);
    number(random, c + turn * p)
}

/// A formula in pieces, between which blanks may stand.
#[derive(Default)]
pub struct Pieces(pub Vec<String>);

impl Pieces {
    fn put(&mut self, piece: &str) {
        self.0.push(piece.to_string());
    }

    /// A sum with brackets no deeper than this.
    pub fn sum(&mut self, random: &mut Random, p: u32, depth: u32) {
        if random.once_in(4) {
            self.put(random.pick(&["+", "-"]));
        }
        for i in 0..random.pick(&[1, 1, 2, 2, 3, 4]) {
            if i > 0 {
                self.put(random.pick(&["+", "-"]));
            }
            self.term(random, p, depth);
        }
    }

    fn term(&mut self, random: &mut Random, p: u32, depth: u32) {
        for i in 0..random.pick(&[1, 1, 2, 2, 3]) {
            if i > 0 {
                self.put("*");
            }
            self.element(random, p, depth);
            if random.once_in(3) {
                self.put("^");
                let low = random.below(5);
                let power = if random.once_in(8) { random.pick(&[16, 17, 31, 32, 33, 255]) } else { low };
                self.put(&number(random, power));
            }
        }
    }

    fn element(&mut self, random: &mut Random, p: u32, depth: u32) {
        match random.below(8) {
            0..=1 => self.put("X"),
            2..=3 => self.put("Y"),
            4..=5 if depth > 0 => {
                self.put("(");
                self.sum(random, p, depth - 1);
                self.put(")");
            }
            _ => {
                let any = random.below(1_000_000_000);
                let c = random.pick(&[0, 1, 2, 3, p - 1, p, p + 1, any, 999_999_999]);
                self.put(&number(random, c));
            }
        }
    }

    pub fn plain(&self) -> Vec<u8> {
        self.0.concat().into_bytes()
    }

    /// With blanks before, between and after, many or few.
    pub fn typed(&self, random: &mut Random) -> Vec<u8> {
        let once_in = random.pick(&[2, 3, 8]);
        let mut text = Vec::new();
        for i in 0..=self.0.len() {
            while random.once_in(once_in) {
                text.push(b' ');
            }
            text.extend(self.0.get(i).map_or("", |piece| piece).bytes());
        }
        text
    }
}

/// A formula that leaves room for blanks.
pub fn drawn(random: &mut Random, p: u32) -> Pieces {
    loop {
        let (mut pieces, depth) = (Pieces::default(), random.within(0, 3));
        pieces.sum(random, p, depth);
        if pieces.plain().len() <= 1_000 {
            return pieces;
        }
    }
}

pub fn text(random: &mut Random, p: u32) -> Vec<u8> {
    let pieces = drawn(random, p);
    if random.once_in(2) {
        pieces.plain()
    } else {
        pieces.typed(random)
    }
}

/// A row polynomial of this bound with few entries.
pub fn few_entries(random: &mut Random, p: u32, d: u32, n: u32) -> Vec<u32> {
    let mut rows = vec![0; ((d + 1) * n) as usize];
    for _ in 0..random.within(0, 60) {
        let at = random.below((d + 1) * n) as usize;
        rows[at] = random.below(p);
    }
    rows
}

/// The terms of a row polynomial in any order: `+c*X^t*Y^j`, or `-` with the opposite number; 1 need not be written, nor a power 0 or 1.
pub fn term_by_term(random: &mut Random, p: u32, n: u32, rows: &[u32]) -> Vec<u8> {
    let mut places: Vec<usize> = (0..rows.len()).filter(|&at| rows[at] != 0).collect();
    random.shuffle(&mut places);
    let mut text = String::from(random.pick(&["", "0", "-0"]));
    for at in places {
        let (sign, c) = if random.once_in(2) { ("+", rows[at]) } else { ("-", p - rows[at]) };
        let unsigned = text.is_empty() && sign == "+" && random.once_in(2);
        text += if unsigned { "" } else { sign };
        let mut factors = Vec::new();
        for (letter, k) in [("X", at as u32 % n), ("Y", at as u32 / n)] {
            if k == 1 && random.once_in(2) {
                factors.push(letter.to_string());
            } else if k > 0 || random.once_in(8) {
                factors.push(format!("{letter}^{}", number(random, k)));
            }
        }
        if c != 1 || factors.is_empty() || random.once_in(2) {
            factors.push(congruent(random, p, c));
        }
        random.shuffle(&mut factors);
        text += &factors.join("*");
    }
    if text.is_empty() {
        text.push('0');
    }
    text.into_bytes()
}

/// A byte of a formula, or now and then any.
pub fn byte(random: &mut Random) -> u8 {
    if random.once_in(8) {
        random.below(256) as u8
    } else {
        random.pick(ALPHABET)
    }
}

/// What is done at one place of a text.
pub type Damage = (&'static str, fn(&mut Random, &mut Vec<u8>, usize));

pub const DAMAGES: [Damage; 5] = [
    ("typed: a byte changed", |random, text, at| text[at] = byte(random)),
    ("typed: a byte dropped", |_, text, at| _ = text.remove(at)),
    ("typed: a byte doubled", |_, text, at| text.insert(at, text[at])),
    ("typed: a byte inserted", |random, text, at| text.insert(at, byte(random))),
    ("typed: two bytes swapped", |_, text, at| text.swap(at, at.saturating_sub(1))),
];
