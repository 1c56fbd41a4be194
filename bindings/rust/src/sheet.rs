//! Factor sheets: a polynomial, its roots at X = 0 with their powers, and its Hensel factors to so many terms, in words that may be stored and lent on.
//!
//! Each row of the polynomial below the top one has a known length: so many of its terms are known, from 1 to n, and 0 stands past them. The factors can be worked to
//! the least of these lengths and no further, since the next column depends on what is not known.
//!
//! A sheet with r factors takes exactly 11 + d + 2r + (2d + 1)n words:
//!
//! | From word | |
//! |---|---|
//! | 0 | p, d, n, the terms worked, r, the offsets of the last three parts, twice the total of words, and the least length |
//! | 11 | the known lengths of rows 0 to d − 1 |
//! | 11 + d | root and power of each factor |
//! | 11 + d + 2r | the d + 1 rows of the polynomial |
//! | 11 + d + 2r + (d + 1)n | the rows of the factors below their leading 1, d together; columns from the terms worked up are 0 |
//!
//! Words past the total are free.
//!
//! ```
//! // Y³ − 1 − X modulo 7 with two columns; its roots at X = 0, which are 1, 2 and 4, are found
//! let sheet = bopkheul::Sheet::find_known(7, 3, 2, &[6, 6, 0, 0, 0, 0, 1, 0])?;
//! assert_eq!(sheet.words().len(), 11 + 3 + 2 * 3 + 7 * 2);
//! assert_eq!(sheet.words()[..14], [7, 3, 2, 1, 3, 14, 20, 28, 34, 34, 2, /* lengths */ 2, 2, 2]);
//! assert_eq!(sheet.words()[14..20], [1, 1, 2, 1, 4, 1]); // roots and powers
//! # Ok::<(), bopkheul::Refusal>(())
//! ```

use crate::raw::{
    answer, bk_sheet_correct, bk_sheet_extend, bk_sheet_factor, bk_sheet_factor_shift, bk_sheet_factor_times, bk_sheet_find, bk_sheet_open,
    bk_sheet_replay, bk_sheet_roots, bk_sheet_test,
};
use crate::{Answer, Refusal};
use std::error::Error;
use std::fmt;

/// The largest degree of a polynomial that a sheet can have.
const LARGEST_DEGREE: usize = 32;

/// The most columns that a sheet can have.
const MOST_COLUMNS: usize = 256;

/// A length for each row below the top one, all of them `n`.
fn all_known(d: u32, n: u32) -> Vec<u32> {
    // a larger degree is refused before the lengths are counted
    vec![n; LARGEST_DEGREE.min(d as usize)]
}

/// Words that are enough for a sheet with any number of roots.
fn most_words(d: u32, n: u32) -> usize {
    // a larger degree or more columns are refused, and then no word is written
    let (d, n) = (LARGEST_DEGREE.min(d as usize), MOST_COLUMNS.min(n as usize));
    11 + d + 2 * d + (2 * d + 1) * n
}

/// Writes a sheet with one term to the front of `out`, from f, monic of degree `d`, the known lengths of its rows 0 to `d − 1`, and its roots at X = 0; the answer
/// is its number of words.
///
/// # Errors
///
/// Refused by 1, 2, 3, 4, 5, 6, 21, 7, 8, 9 or 10, in this order; by 5 also where there are not `d` lengths. Positions in the detail of 6 are counted along f and
/// then the roots.
pub fn open(p: u32, d: u32, n: u32, f: &[u32], lengths: &[u32], roots: &[u32], out: &mut [u32]) -> Answer {
    let (to, room) = (out.as_mut_ptr(), out.len());
    // SAFETY: each pointer goes with the count of its slice, and `out` overlaps no input.
    answer(unsafe { bk_sheet_open(p, d, n, f.as_ptr(), f.len(), lengths.as_ptr(), lengths.len(), roots.as_ptr(), roots.len(), to, room) })
}

/// Finds all roots of f at X = 0, and writes what [`open`] writes with the list of them; the answer is the number of words. That depends on the number of roots, and
/// 11 + 3d + (2d + 1)n words are always enough.
///
/// # Errors
///
/// Refused by 1, 2, 3, 4, 5, 6, 21, 7, 9 or 10, in this order; by 9 where f at X = 0 does not split into lines Y − c, and nowhere else. Positions in the detail of 6
/// are counted along f.
pub fn find(p: u32, d: u32, n: u32, f: &[u32], lengths: &[u32], out: &mut [u32]) -> Answer {
    let (to, room) = (out.as_mut_ptr(), out.len());
    // SAFETY: each pointer goes with the count of its slice, and `out` overlaps no input.
    answer(unsafe { bk_sheet_find(p, d, n, f.as_ptr(), f.len(), lengths.as_ptr(), lengths.len(), to, room) })
}

/// Works a sheet on to `w` terms; the answer is `w`.
///
/// # Errors
///
/// Refused by 13, 14 or 15; by 14 where `w` is 0 or above the least of the known lengths.
pub fn extend(sheet: &mut [u32], w: u32) -> Answer {
    // SAFETY: pointer and count are those of one slice.
    answer(unsafe { bk_sheet_extend(sheet.as_mut_ptr(), sheet.len(), w) })
}

/// Puts another entry into row `j`, column `t` of the polynomial. The factors are then those of the corrected polynomial, to as many terms as before, and their number is
/// the answer. Columns of factors that come before `t` do not depend on the entry, so only those from `t` on are changed, and none where `t` is not among the terms
/// worked.
///
/// # Errors
///
/// Refused by 13, 20 or 6, in this order; by 20 where `j` is not below the degree, or `t` is 0 or not below the row's known length.
pub fn correct(sheet: &mut [u32], j: u32, t: u32, entry: u32) -> Answer {
    // SAFETY: pointer and count are those of one slice.
    answer(unsafe { bk_sheet_correct(sheet.as_mut_ptr(), sheet.len(), j, t, entry) })
}

/// Whether the words begin with a sound sheet.
pub fn test(sheet: &[u32]) -> bool {
    // SAFETY: pointer and count are those of one slice, which is only read.
    unsafe { bk_sheet_test(sheet.as_ptr(), sheet.len()) == 1 }
}

/// Writes root, power, and start and length, in words of the sheet, of the part that holds the rows of factor `i`, counted from 0; the answer is 4.
///
/// # Errors
///
/// Refused by 10, 13 or 16.
pub fn factor(sheet: &[u32], i: u32, out: &mut [u32]) -> Answer {
    // SAFETY: each pointer goes with the count of its slice, and `out` does not overlap the sheet.
    answer(unsafe { bk_sheet_factor(sheet.as_ptr(), sheet.len(), i, out.as_mut_ptr(), out.len()) })
}

/// Writes the product of the rows of factor `i`, counted from 0, with g, of degree bound `e`. The rows go to the product where they stand in the sheet, as a
/// polynomial of degree bound one below the power: the leading 1 is not among them. The answer is the number of words written.
///
/// # Errors
///
/// Refused by 13 or 16, and then as [`rows::product`](crate::rows::product): by 3, 5, 6 or 10. Positions in the detail of 6 are counted from the first
/// word of the factor's rows.
pub fn factor_times(sheet: &[u32], i: u32, e: u32, g: &[u32], out: &mut [u32]) -> Answer {
    // SAFETY: each pointer goes with the count of its slice, and `out` overlaps neither input.
    answer(unsafe { bk_sheet_factor_times(sheet.as_ptr(), sheet.len(), i, e, g.as_ptr(), g.len(), out.as_mut_ptr(), out.len()) })
}

/// Writes the rows of factor `i`, counted from 0, at Y + c. They go to the shift as they go to the product in [`factor_times`], and as many words are
/// written; the answer is their number.
///
/// # Errors
///
/// Refused by 13 or 16, and then as [`rows::shift`](crate::rows::shift): by 6 or 10. The position of `c` in the detail of 6 is the number of words of the
/// factor's rows.
pub fn factor_shift(sheet: &[u32], i: u32, c: u32, out: &mut [u32]) -> Answer {
    // SAFETY: each pointer goes with the count of its slice, and `out` does not overlap the sheet.
    answer(unsafe { bk_sheet_factor_shift(sheet.as_ptr(), sheet.len(), i, c, out.as_mut_ptr(), out.len()) })
}

/// Writes the roots of the polynomial as series, where all of them are simple at X = 0, that is, of power 1. Then they are as many as the degree, and for each root c, in
/// rising order, a row of n words is written: the one series s that begins with c and has f(s) = 0 modulo X^k, k being the terms worked. Columns from k up are 0. The
/// answer is the number of words written.
///
/// # Errors
///
/// Refused by 13, 22 or 10, in this order; by 22 where some root has a power above 1, and then the detail is the least such root.
pub fn roots(sheet: &[u32], out: &mut [u32]) -> Answer {
    // SAFETY: each pointer goes with the count of its slice, and `out` does not overlap the sheet.
    answer(unsafe { bk_sheet_roots(sheet.as_ptr(), sheet.len(), out.as_mut_ptr(), out.len()) })
}

/// A call of a list that [`replay`] makes. It is lent the first `lent` words of the sheet.
#[derive(Clone, Copy, Debug, PartialEq, Eq)]
pub enum Call {
    /// [`extend`] to `w` terms.
    Extend { lent: u32, w: u32 },
    /// [`correct`] the entry in row `j`, column `t`.
    Correct { lent: u32, j: u32, t: u32, entry: u32 },
}

impl Call {
    /// The five words that stand for it in a list.
    pub fn words(self) -> [u32; 5] {
        match self {
            Call::Extend { lent, w } => [lent, 0, w, 0, 0],
            Call::Correct { lent, j, t, entry } => [lent, 1, j, t, entry],
        }
    }
}

/// Makes the calls of a list, each given by its five words ([`Call::words`]). Two words are written for each call: 0 and its answer, or the refusal's number and
/// detail. The answer is the number of words written.
///
/// ```
/// use bopkheul::{sheet, Call, Sheet};
///
/// // Y² − 1 − X modulo 7: the entry −X is corrected to 0, between two steps to three terms
/// let mut words = Sheet::find_known(7, 2, 3, &[6, 6, 0, 0, 0, 0, 1, 0, 0])?.into_words();
/// let lent = words.len() as u32;
/// let list = [
///     Call::Extend { lent, w: 2 },
///     Call::Correct { lent, j: 0, t: 1, entry: 0 },
///     Call::Correct { lent: lent - 1, j: 0, t: 1, entry: 5 }, // no whole sheet
///     Call::Correct { lent, j: 2, t: 1, entry: 5 },           // the leading 1 is no such entry
///     Call::Extend { lent, w: 3 },
/// ];
/// let mut answers = [9; 10];
/// assert_eq!(sheet::replay(&mut words, &list.map(Call::words).concat(), &mut answers)?, 10);
/// assert_eq!(answers, [0, 2, 0, 2, 13, 0, 20, 0, 0, 3]);
///
/// let mut fresh = Sheet::find_known(7, 2, 3, &[6, 0, 0, 0, 0, 0, 1, 0, 0])?;
/// fresh.extend(3)?;
/// assert_eq!(words, fresh.words());
/// # Ok::<(), bopkheul::Refusal>(())
/// ```
///
/// # Errors
///
/// Refused by 5 or 10; by 5 where the words are not five for each call, or are no call's, or a call lends more words than there are.
pub fn replay(sheet: &mut [u32], calls: &[u32], answers: &mut [u32]) -> Answer {
    let (to, room) = (answers.as_mut_ptr(), answers.len());
    // SAFETY: each pointer goes with the count of its slice; the sheet and `answers` overlap no other.
    answer(unsafe { bk_sheet_replay(sheet.as_mut_ptr(), sheet.len(), calls.as_ptr(), calls.len(), to, room) })
}

/// A sound sheet that owns its words. Two are equal where the sheets are: words past their ends have no part in it.
#[derive(Clone, Debug)]
pub struct Sheet {
    words: Vec<u32>,
}

/// Why words are no sheet, and the words, given back as they were.
#[derive(Clone, Debug, PartialEq, Eq)]
pub struct FromWordsError {
    /// Always 13.
    pub refusal: Refusal,
    pub words: Vec<u32>,
}

impl fmt::Display for FromWordsError {
    fn fmt(&self, to: &mut fmt::Formatter) -> fmt::Result {
        fmt::Display::fmt(&self.refusal, to)
    }
}

impl Error for FromWordsError {}

/// For `?` where only the refusal is of use.
impl From<FromWordsError> for Refusal {
    fn from(error: FromWordsError) -> Refusal {
        error.refusal
    }
}

/// A factor: monic of degree `power`, and (Y − `root`)^`power` at X = 0.
#[derive(Clone, Copy, Debug, PartialEq, Eq)]
pub struct Factor<'a> {
    pub root: u32,
    pub power: u32,
    /// The rows below the leading 1, one after the other; columns from [`Sheet::terms`] up are 0.
    pub rows: &'a [u32],
}

impl<'a> Factor<'a> {
    /// The coefficient of Y^j, for j below the power.
    ///
    /// # Panics
    ///
    /// Where `j` is not below the power.
    #[track_caller]
    pub fn row(&self, j: usize) -> &'a [u32] {
        // with this the product below cannot wrap, nor end past the rows
        assert!(j < self.power as usize, "a factor of power {} has no row {j}", self.power);
        let columns = self.rows.len() / self.power as usize;
        &self.rows[j * columns..(j + 1) * columns]
    }
}

impl Sheet {
    /// A sheet with one term, from f, monic of degree `d` with `n` columns, the known lengths of its rows 0 to `d − 1`, and its roots at X = 0 in rising order.
    ///
    /// ```
    /// // Y² − 1 − X + .. modulo 7: of the row at Y^0 the third term is not known
    /// let f = [6, 6, 0, /* Y */ 0, 0, 0, /* Y² */ 1, 0, 0];
    /// let mut sheet = bopkheul::Sheet::open(7, 2, 3, &f, &[2, 3], &[1, 6])?;
    /// assert_eq!(sheet.words().len(), 11 + 2 + 2 * 2 + 5 * 3);
    /// assert_eq!((sheet.reach(), sheet.lengths()), (2, &[2, 3][..]));
    ///
    /// assert_eq!(sheet.extend(3), Err(bopkheul::Refusal { number: 14, detail: 0 }));
    /// assert_eq!(sheet.extend(2), Ok(2));
    /// assert_eq!(sheet.factor(0)?.row(0), [6, 3, 0]); // Y + 6 + 3X + ..
    /// # Ok::<(), bopkheul::Refusal>(())
    /// ```
    ///
    /// # Errors
    ///
    /// Refused by 1, 2, 3, 4, 5, 6, 21, 7, 8 or 9, in this order, as [`open`] is.
    pub fn open(p: u32, d: u32, n: u32, f: &[u32], lengths: &[u32], roots: &[u32]) -> Result<Sheet, Refusal> {
        let needed = match open(p, d, n, f, lengths, roots, &mut []) {
            Err(Refusal { number: 10, detail }) => detail,
            other => other?,
        };
        let mut words = vec![0; needed as usize];
        open(p, d, n, f, lengths, roots, &mut words)?;
        Ok(Sheet { words })
    }

    /// A sheet with one term, as [`Sheet::open`] gives it, of a polynomial whose entries are all known: every length is `n`.
    ///
    /// # Errors
    ///
    /// Refused by one of 1 to 9.
    pub fn open_known(p: u32, d: u32, n: u32, f: &[u32], roots: &[u32]) -> Result<Sheet, Refusal> {
        Sheet::open(p, d, n, f, &all_known(d, n), roots)
    }

    /// A sheet with one term, from f and the known lengths of its rows as [`Sheet::open`] takes them. The roots at X = 0 are found, and the sheet is the one that
    /// [`Sheet::open`] gives with the list of them.
    ///
    /// ```
    /// // Y³ − Y² + XY + .. modulo 5: of the row at Y^1 the third term is not known. At X = 0 it is Y² (Y − 1)
    /// let f = [0, 0, 0, /* Y */ 0, 1, 0, /* Y² */ 4, 0, 0, /* Y³ */ 1, 0, 0];
    /// let sheet = bopkheul::Sheet::find(5, 3, 3, &f, &[3, 2, 3])?;
    /// assert_eq!(sheet, bopkheul::Sheet::open(5, 3, 3, &f, &[3, 2, 3], &[0, 1])?);
    /// assert_eq!((sheet.factor(0)?.root, sheet.factor(0)?.power), (0, 2));
    /// assert_eq!((sheet.factor(1)?.root, sheet.factor(1)?.power), (1, 1));
    /// # Ok::<(), bopkheul::Refusal>(())
    /// ```
    ///
    /// # Errors
    ///
    /// Refused by 1, 2, 3, 4, 5, 6, 21, 7 or 9, in this order, as [`find`] is: by 9 where f at X = 0 does not split into lines Y − c.
    pub fn find(p: u32, d: u32, n: u32, f: &[u32], lengths: &[u32]) -> Result<Sheet, Refusal> {
        let mut words = vec![0; most_words(d, n)]; // to ask for the words needed would be to find the roots twice
        let total = find(p, d, n, f, lengths, &mut words)?;
        words.truncate(total as usize);
        Ok(Sheet { words })
    }

    /// A sheet with one term, as [`Sheet::find`] gives it, of a polynomial whose entries are all known: every length is `n`. Nothing but the polynomial is
    /// needed.
    ///
    /// ```
    /// // Y⁴ − 5Y² + 4 + X modulo 101, with two columns
    /// let f = [4, 1, /* Y */ 0, 0, /* Y² */ 96, 0, /* Y³ */ 0, 0, /* Y⁴ */ 1, 0];
    /// let mut sheet = bopkheul::Sheet::find_known(101, 4, 2, &f)?;
    /// sheet.extend(2)?;
    /// let found: Vec<u32> = (0..sheet.count()).map(|i| sheet.factor(i).map(|factor| factor.root)).collect::<Result<_, _>>()?;
    /// assert_eq!(found, [1, 2, 99, 100]);
    /// assert_eq!(sheet.factor(1)?.row(0), [99, 59]); // Y − 2 + 59X, since 12 · 59 is 1 modulo 101
    ///
    /// // Y² − 2 has no root modulo 101
    /// let refusal = bopkheul::Sheet::find_known(101, 2, 1, &[99, 0, 1]).unwrap_err();
    /// assert_eq!(refusal.kind(), bopkheul::Kind::Unsplit);
    /// # Ok::<(), bopkheul::Refusal>(())
    /// ```
    ///
    /// # Errors
    ///
    /// Refused by one of 1 to 7, or by 9.
    pub fn find_known(p: u32, d: u32, n: u32, f: &[u32]) -> Result<Sheet, Refusal> {
        Sheet::find(p, d, n, f, &all_known(d, n))
    }

    /// A sheet from words that were stored. Words past the sheet's end are kept.
    ///
    /// # Errors
    ///
    /// Refused by 13 where the words are not sound; so are all sheets of earlier layouts, which had no lengths. The error gives the words back.
    pub fn from_words(words: Vec<u32>) -> Result<Sheet, FromWordsError> {
        if test(&words) {
            Ok(Sheet { words })
        } else {
            Err(FromWordsError { refusal: Refusal { number: 13, detail: 0 }, words })
        }
    }

    /// Works the factors out to `w` terms, from those there; the answer is `w`.
    ///
    /// # Errors
    ///
    /// Refused by 14, where `w` is 0 or above [`Sheet::reach`], or by 15.
    pub fn extend(&mut self, w: u32) -> Answer {
        extend(&mut self.words, w)
    }

    /// Replaces the entry in row `j`, column `t` of the polynomial, and with it what the factors owe to it, as [`correct`] does. The answer is the number of terms
    /// worked, which stays.
    ///
    /// ```
    /// // Y² − 1 + 5X modulo 7, but Y² − 1 − X is meant
    /// let mut sheet = bopkheul::Sheet::find_known(7, 2, 3, &[6, 5, 0, 0, 0, 0, 1, 0, 0])?;
    /// sheet.extend(3)?;
    /// let mistyped = sheet.clone();
    /// assert_eq!(sheet.factor(0)?.row(0), [6, 6, 4]);
    ///
    /// assert_eq!(sheet.correct(0, 1, 6)?, 3);
    /// assert_eq!(sheet.factor(0)?.row(0), [6, 3, 1]);
    /// assert_eq!(sheet.factor(1)?.row(0), [1, 4, 6]);
    ///
    /// sheet.correct(0, 1, 5)?;
    /// assert_eq!(sheet, mistyped);
    ///
    /// // column 0 is what the roots come from
    /// assert_eq!(sheet.correct(0, 0, 6).unwrap_err().kind(), bopkheul::Kind::Entry);
    /// # Ok::<(), bopkheul::Refusal>(())
    /// ```
    ///
    /// # Errors
    ///
    /// Refused by 20 or 6, in this order; by 20 where `j` is not below [`Sheet::degree`], or `t` is 0 or not below that row's length of [`Sheet::lengths`].
    pub fn correct(&mut self, j: u32, t: u32, entry: u32) -> Answer {
        correct(&mut self.words, j, t, entry)
    }

    /// Whether the words are sound. They are: this is the engine's own word for it.
    pub fn test(&self) -> bool {
        test(&self.words)
    }

    /// Factor `i`, counted from 0.
    ///
    /// # Errors
    ///
    /// Refused by 16 where there are no more than `i` factors.
    pub fn factor(&self, i: u32) -> Result<Factor<'_>, Refusal> {
        let mut found = [0; 4];
        factor(&self.words, i, &mut found)?;
        let [root, power, start, length] = found;
        let (start, length) = (start as usize, length as usize);
        Ok(Factor { root, power, rows: &self.words[start..start + length] })
    }

    /// Writes the product of factor `i`'s rows below the leading 1 with g, of degree bound `e`; the answer is the number of words written.
    ///
    /// ```
    /// let mut sheet = bopkheul::Sheet::open_known(7, 2, 3, &[6, 6, 0, 0, 0, 0, 1, 0, 0], &[1, 6])?;
    /// sheet.extend(3)?;
    /// let mut out = [0; 6];
    /// // (6 + 3X + X²) (Y + X)
    /// assert_eq!(sheet.factor_times(0, 1, &[0, 1, 0, 1, 0, 0], &mut out)?, 6);
    /// assert_eq!(out, [0, 6, 3, 6, 3, 1]);
    /// # Ok::<(), bopkheul::Refusal>(())
    /// ```
    ///
    /// # Errors
    ///
    /// Refused by 16, or as [`rows::product`](crate::rows::product) by 3, 5, 6 or 10.
    pub fn factor_times(&self, i: u32, e: u32, g: &[u32], out: &mut [u32]) -> Answer {
        factor_times(&self.words, i, e, g, out)
    }

    /// Writes factor `i`'s rows below the leading 1 at Y + c; the answer is the number of words written, which is that of the rows.
    ///
    /// # Errors
    ///
    /// Refused by 16, or as [`rows::shift`](crate::rows::shift) by 6 or 10.
    pub fn factor_shift(&self, i: u32, c: u32, out: &mut [u32]) -> Answer {
        factor_shift(&self.words, i, c, out)
    }

    /// The roots of the polynomial as series, where all of them are simple at X = 0: a row of [`Sheet::columns`] words for each, as [`roots`] writes them, one after the
    /// other.
    ///
    /// ```
    /// // the square roots of 1 + X modulo 7
    /// let mut sheet = bopkheul::Sheet::find_known(7, 2, 3, &[6, 6, 0, 0, 0, 0, 1, 0, 0])?;
    /// sheet.extend(3)?;
    /// assert_eq!(sheet.roots()?, [1, 4, 6, /* and */ 6, 3, 1]);
    ///
    /// // Y² (Y − 1) + X: the root 0 is not simple
    /// let refusal = bopkheul::Sheet::find_known(7, 3, 2, &[0, 1, 0, 0, 6, 0, 1, 0])?.roots().unwrap_err();
    /// assert_eq!((refusal.kind(), refusal.detail), (bopkheul::Kind::MultipleRoot, 0));
    /// # Ok::<(), bopkheul::Refusal>(())
    /// ```
    ///
    /// # Errors
    ///
    /// Refused by 22 where some root has a power above 1; the detail is the least such root.
    pub fn roots(&self) -> Result<Vec<u32>, Refusal> {
        let mut rows = vec![0; (self.count() * self.columns()) as usize];
        roots(&self.words, &mut rows)?;
        Ok(rows)
    }

    /// p.
    pub fn modulus(&self) -> u32 {
        self.words[0]
    }

    /// D.
    pub fn degree(&self) -> u32 {
        self.words[1]
    }

    /// N.
    pub fn columns(&self) -> u32 {
        self.words[2]
    }

    /// The terms worked.
    pub fn terms(&self) -> u32 {
        self.words[3]
    }

    /// The number of factors.
    pub fn count(&self) -> u32 {
        self.words[4]
    }

    /// The most terms that it can be worked to: the least of the known lengths.
    pub fn reach(&self) -> u32 {
        self.words[10]
    }

    /// The known lengths of the polynomial's rows below the top one.
    pub fn lengths(&self) -> &[u32] {
        &self.words[11..self.words[5] as usize]
    }

    /// All words, those past the sheet's end too.
    pub fn words(&self) -> &[u32] {
        &self.words
    }

    /// The words of [`Sheet::words`], handed over.
    pub fn into_words(self) -> Vec<u32> {
        self.words
    }

    /// The words that are the sheet: the first T, which is word 9.
    fn own_words(&self) -> &[u32] {
        &self.words[..self.words[9] as usize]
    }
}

impl PartialEq for Sheet {
    fn eq(&self, other: &Sheet) -> bool {
        self.own_words() == other.own_words()
    }
}

impl Eq for Sheet {}
