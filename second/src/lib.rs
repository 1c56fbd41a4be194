//! Document 01 once more, with document 02's F-8 (the sheet), F-2 (moduli of three bytes, wide job files), F-4 (one call for the pair), F-5 (quotients with X in
//! common), F-9 (rows known to different lengths), F-3 (roots that are found), F-6 (an entry corrected), F-13 (how often it splits), F-1 (typed polynomials) and
//! F-10 (simple roots as series): written from their text alone and by other methods than the engine's, so that a slip of one is not a slip of both.
//!
//! | | engine | here |
//! |---|---|---|
//! | prime modulus | division by a table of primes | a sieve of least divisors |
//! | inverse of a number | Euclid's remainders | Fermat's power |
//! | inverse of a series | column after column | Newton's doubling |
//! | quotient of series | least powers counted, then column after column | X taken out of both, once and again; then times the inverse |
//! | terms not known | left out of the work, and zeros put after it | worked out with the others, and then made 0 |
//! | shift | weights from binomials | Horner over row polynomials |
//! | powers of the roots | repeated division by Y − c | the order of f(Y + c), then multiplied back |
//! | finding the roots | (Y^p − Y)^32 modulo f as a test, then gcds with Y^p − Y and (Y + a)^((p−1)/2) − 1 | every number tried; for large p Berlekamp's method |
//! | pair | column after column, in place | Newton's doubling, from f alone; what stands in the output is compared with that |
//! | factors | two-factor splits along a tree, each by synthetic division | one linear system for each column, over all unknowns at once |
//! | a corrected entry | the splits once more, where its column is worked | the linear systems once more, whatever its column is |
//! | a factor's rows | a part of the sheet, by its place | the sheet taken apart, row after row |
//! | simple roots as series | the factors' rows with the other sign | Newton's iteration on the root, from f and its number at X = 0 |
//! | signed numbers | the number, or p less the number with a sign, whichever is less | a remainder between −p/2 and p/2 |
//! | how often it splits | products of binomials | every product of lines multiplied out, and looked up among all polynomials |
//! | a typed polynomial | one pass with a state and counts of digits and brackets; then functions for sum, term and element that call each other | brackets taken out from the innermost on, and sums cut at signs, `*` and `^` |
//! | the first line of typed ones | byte after byte | cut at its blanks |
//! | soundness | splits once more and compares | the definitions: everything is multiplied out |
//!
//! Every operation has the arguments of the C interface (`include/bopkheul.h`), and answers `Ok(answer)` or `Err(refusal)`.
//! It is written to be read, not to be fast.

pub mod calls;
pub mod counts;
pub mod field;
pub mod formula;
pub mod linear;
pub mod listing;
pub mod numbers;
pub mod pair;
pub mod polynomial;
pub mod refusal;
pub mod roots;
pub mod rows;
pub mod series;
pub mod sheet;
pub mod simple;

pub use refusal::{Answer, Refusal};
