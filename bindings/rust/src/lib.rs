//! Hensel factors and Weierstrass pairs of polynomials over F_p\[\[X\]\], by proved code: for every input the engine answers what its specification says, or refuses by
//! a numbered rule and changes nothing.
//!
//! A power series has `n` words, that at `t` being its coefficient of X^t. A row polynomial is the series at Y^0, Y^1, .. up to Y^d, one after the
//! other; `d` is its degree bound. Words are below the prime modulus `p`, which is at most 16,777,215; `d` is at most 32 and `n` at most 256.
//!
//! [`Sheet`] owns its words; the modules' functions work in slices that the caller lends, allocate nothing, and leave words past those that they write as they were.
//!
//! ```
//! use bopkheul::Sheet;
//!
//! // Y² − 1 − X modulo 7, three terms. Its roots at X = 0 are found: they are 1 and 6.
//! let f = [6, 6, 0, /* Y */ 0, 0, 0, /* Y² */ 1, 0, 0];
//! let mut sheet = Sheet::find_known(7, 2, 3, &f)?;
//! sheet.extend(3)?;
//!
//! let first = sheet.factor(0)?;
//! assert_eq!((first.root, first.power), (1, 1));
//! assert_eq!(first.row(0), [6, 3, 1]); // Y + 6 + 3X + X²
//!
//! let refusal = sheet.extend(4).unwrap_err();
//! let text = "refused 14: the terms wanted are none, or more than there are columns, or than the least known length of a sheet";
//! assert_eq!(refusal.to_string(), text);
//! # Ok::<(), bopkheul::Refusal>(())
//! ```
//!
//! Here every entry is known. Where rows are known to different lengths, [`Sheet::find`] takes these lengths. [`Sheet::open_known`] and [`Sheet::open`] are for
//! roots that are known: they take the list of them. A mistyped entry is put right by [`Sheet::correct`], and the factors with it.
//!
//! [`formula::read`] takes a polynomial as it is typed, `(Y^2-X)*(Y+3) - 2*X*Y` for example, and writes its rows. [`formula::key_text`] is the
//! answer key of what a lecturer types: modulus, terms and polynomial.
//!
//! Where all roots are simple at X = 0, [`Sheet::roots`] gives them as series, and [`listing::roots_text`] lists those of a job file.
//!
//! How often polynomials split whose coefficients are drawn by lot is said by [`counts::counts`].

mod raw;
mod refusal;

pub mod counts;
pub mod formula;
pub mod listing;
pub mod numbers;
pub mod pair;
pub mod rows;
pub mod series;
pub mod sheet;

pub use refusal::{Kind, Refusal};
pub use sheet::{Call, Factor, FromWordsError, Sheet};

/// What every operation answers: a number that its documentation names, or why it did nothing. Refusals have the numbers of [`Kind`]; of several that are
/// listed, the first that applies is given.
pub type Answer = Result<u32, Refusal>;
