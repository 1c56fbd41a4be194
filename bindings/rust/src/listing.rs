//! Job files and their listings, of factors and of simple roots.

use crate::raw::{answer, bk_list, bk_list_roots};
use crate::Answer;

/// All that a call writes, which says in the detail of 10 how many bytes it needs.
pub(crate) fn whole(call: impl Fn(&mut [u8]) -> Answer) -> Vec<u8> {
    let needed = call(&mut []).unwrap_or_else(|short| short.detail);
    let mut out = vec![0; needed as usize];
    call(&mut out).expect("a text fits the bytes that it needs");
    out
}

/// Writes the listing of a job file, which for a refused job is one line, `refused NUMBER DETAIL`. The answer is the number of bytes.
///
/// # Errors
///
/// Refused by 10 alone, where `out` is too short for the listing.
pub fn list(job: &[u8], out: &mut [u8]) -> Answer {
    // SAFETY: each pointer goes with the count of its slice, and `out` does not overlap the job.
    answer(unsafe { bk_list(job.as_ptr(), job.len(), out.as_mut_ptr(), out.len()) })
}

/// The listing of a job file of either kind: with fields of 16 bits, or, after a first word of 0, of 32 bits. A file that lists no roots has them found.
///
/// ```
/// let job = [7, 0, 2, 0, 1, 0, 2, 0, 12, 0, 16, 0, 1, 0, 6, 0, 6, 0, 0, 0, 1, 0];
/// let text = bopkheul::listing::text(&job);
/// assert_eq!(text, b"mod 7 terms 1 degree 2 factors 2\nroot 1 power 1\nY^0: 6\nroot 6 power 1\nY^0: 1\n");
///
/// let without_roots = [7, 0, 2, 0, 1, 0, 0, 0, 12, 0, 12, 0, 6, 0, 0, 0, 1, 0];
/// assert_eq!(bopkheul::listing::text(&without_roots), text);
/// ```
pub fn text(job: &[u8]) -> Vec<u8> {
    whole(|out| list(job, out))
}

/// Writes the roots' listing of a job file, which for a refused job is one line, `refused NUMBER DETAIL`. The answer is the number of bytes; 9,216 are always enough. What
/// the listing is, and what jobs are refused by, is said at [`roots_text`].
///
/// # Errors
///
/// Refused by 10 alone, where `out` is too short for the listing.
pub fn list_roots(job: &[u8], out: &mut [u8]) -> Answer {
    // SAFETY: each pointer goes with the count of its slice, and `out` does not overlap the job.
    answer(unsafe { bk_list_roots(job.as_ptr(), job.len(), out.as_mut_ptr(), out.len()) })
}

/// The roots' listing of a job file as [`text`] takes it. After the first line of [`text`]'s there is a line for each root, as a series: `Y =` and its entries, each as the
/// number v that is congruent to it and has −p/2 < v ≤ p/2.
///
/// ```
/// // Y² − 1 − X modulo 7, three terms
/// let fields = [7u16, 2, 3, 0, 12, 12, 6, 6, 0, /* Y */ 0, 0, 0, /* Y² */ 1, 0, 0];
/// let job: Vec<u8> = fields.iter().flat_map(|field| field.to_le_bytes()).collect();
/// assert_eq!(bopkheul::listing::roots_text(&job), b"mod 7 terms 3 degree 2 factors 2\nY = 1 -3 -1\nY = -1 3 1\n");
/// ```
///
/// A job whose listing is `refused NUMBER DETAIL` has this line here too. The other jobs are refused by 22 where some root has a power above 1; the detail is the least
/// such root.
pub fn roots_text(job: &[u8]) -> Vec<u8> {
    whole(|out| list_roots(job, out))
}
