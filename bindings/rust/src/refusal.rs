use std::error::Error;
use std::fmt;

/// Why a call was refused: nothing was written.
#[derive(Clone, Copy, Debug, PartialEq, Eq, Hash)]
pub struct Refusal {
    /// The row of the table of refusals.
    pub number: u32,
    /// The least divisor for 2, the position of the first offender for 6 (0 for a corrected entry), the words or bytes needed for 10, the least multiple root for 22,
    /// otherwise 0.
    pub detail: u32,
}

/// The refusals by name, each with its number; 23 is not in use.
#[derive(Clone, Copy, Debug, PartialEq, Eq, Hash)]
#[non_exhaustive]
pub enum Kind {
    ModulusRange = 1,
    Composite,
    Degree,
    Terms,
    Rows,
    Unreduced,
    NotMonic,
    RootList,
    Unsplit,
    Short,
    Flat,
    NoUnit,
    Spoiled,
    Beyond,
    Behind,
    NoFactor,
    Unreadable,
    Deep,
    High,
    Entry,
    KnownTerms,
    MultipleRoot,
    Many = 24,
    /// A number that this crate has no name for.
    Unknown,
}

const KINDS: [Kind; 23] = [
    Kind::ModulusRange,
    Kind::Composite,
    Kind::Degree,
    Kind::Terms,
    Kind::Rows,
    Kind::Unreduced,
    Kind::NotMonic,
    Kind::RootList,
    Kind::Unsplit,
    Kind::Short,
    Kind::Flat,
    Kind::NoUnit,
    Kind::Spoiled,
    Kind::Beyond,
    Kind::Behind,
    Kind::NoFactor,
    Kind::Unreadable,
    Kind::Deep,
    Kind::High,
    Kind::Entry,
    Kind::KnownTerms,
    Kind::MultipleRoot,
    Kind::Many,
];

impl Refusal {
    /// The refusal's name.
    pub fn kind(self) -> Kind {
        KINDS.into_iter().find(|&kind| kind as u32 == self.number).unwrap_or(Kind::Unknown)
    }
}

impl fmt::Display for Refusal {
    fn fmt(&self, to: &mut fmt::Formatter) -> fmt::Result {
        let Refusal { number, detail } = *self;
        write!(to, "refused {number}: ")?;
        match self.kind() {
            Kind::ModulusRange => write!(to, "the modulus is below 2 or above 16777215"),
            Kind::Composite => write!(to, "the modulus is composite, {detail} divides it"),
            Kind::Degree => write!(to, "a degree bound is above 32 (or, opening a sheet or counting, it is 0)"),
            Kind::Terms => write!(to, "the number of columns is not from 1 to 256"),
            Kind::Rows => {
                write!(to, "an input has more or fewer words than the others give it, or a list has words of no call or lends more than there are")
            }
            Kind::Unreduced => write!(to, "word {detail} of the input, counted from 0, is not below the modulus"),
            Kind::NotMonic => write!(to, "the top row is not 1, 0, 0, .., so the polynomial is not monic"),
            Kind::RootList => write!(to, "the list of roots is empty, longer than the degree, or not strictly rising"),
            Kind::Unsplit => write!(to, "at X = 0 the polynomial does not split into lines Y - c, or not into those of the roots listed"),
            Kind::Short => write!(to, "the output is too short: {detail} words are needed, or bytes for a listing"),
            Kind::Flat => write!(to, "every row is 0 at X = 0, so there is no pair"),
            Kind::NoUnit => write!(to, "the divisor is 0 or has more of X than the dividend; or what is to be inverted begins with 0"),
            Kind::Spoiled => write!(to, "the words are not those of a sound sheet, or not the terms of the pair to go on from"),
            Kind::Beyond => write!(to, "the terms wanted are none, or more than there are columns, or than the least known length of a sheet"),
            Kind::Behind => write!(to, "the terms wanted are fewer than those there"),
            Kind::NoFactor => write!(to, "there is no factor of this index"),
            Kind::Unreadable => write!(to, "the text cannot be read as a formula, or has more than 4096 bytes"),
            Kind::Deep => write!(to, "the brackets of the formula are more than 32 deep"),
            Kind::High => write!(to, "some part of the formula has a degree above 32 in Y"),
            Kind::Entry => write!(to, "there is no such entry to correct: no such row, column 0, or a column past the row's known length"),
            Kind::KnownTerms => write!(to, "a count of known terms or a known length is not from 1 to the columns, or a word past it is not 0"),
            Kind::MultipleRoot => write!(to, "the root {detail} at X = 0 has a power above 1"),
            Kind::Many => write!(to, "there are more than 65536 polynomials of this degree to count"),
            Kind::Unknown => write!(to, "a refusal with no name here, detail {detail}"),
        }
    }
}

impl Error for Refusal {}
