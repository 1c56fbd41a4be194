//! The job file and its two listings, of factors and of simple roots, and the answer key of typed lines, which is a listing of factors too.

use crate::formula;
use crate::refusal::{composite, judge, modulus_range, short, when, Answer, Refusal};
use crate::sheet;
use crate::simple::signed;

/// A job file taken apart: the fields that it begins with, and all after them.
struct Job {
    p: u32,
    d: u32,
    n: u32,
    r: u32,
    rest: Vec<u32>,
}

/// The bytes of a field, the bytes before and with the six fields of the head, and the fields: of 32 bits after a first word of 0, and else of 16.
fn taken_apart(bytes: &[u8]) -> (u64, u64, Vec<u32>) {
    match bytes {
        [0, 0, rest @ ..] => (4, 26, rest.chunks_exact(4).map(|b| u32::from_le_bytes([b[0], b[1], b[2], b[3]])).collect()),
        _ => (2, 12, bytes.chunks_exact(2).map(|b| u16::from_le_bytes([b[0], b[1]]) as u32).collect()),
    }
}

/// Row 3 for a job.
fn degree(d: u32) -> Option<usize> {
    when(!(1..=12).contains(&d))
}

/// Row 4 for a job.
fn terms(n: u32) -> Option<usize> {
    when(!(1..=64).contains(&n))
}

fn read(bytes: &[u8]) -> Result<Job, Refusal> {
    let (size, head, fields) = taken_apart(bytes);
    let length = bytes.len() as u64;
    judge(&[(5, &|| when(length < head))])?;
    let [p, d, n, r, roots, rows, rest @ ..] = &fields[..] else { unreachable!("six fields") };
    let (p, d, n, r) = (*p, *d, *n, *r);
    // asked only where D and N are within their limits
    let misplaced = || {
        let after_roots = head + size * r as u64;
        *roots as u64 != head || *rows as u64 != after_roots || length != after_roots + size * (d as u64 + 1) * n as u64
    };
    judge(&[(1, &|| modulus_range(p)), (2, &|| composite(p)), (3, &|| degree(d)), (4, &|| terms(n)), (5, &|| when(r > 12 || misplaced()))])?;
    Ok(Job { p, d, n, r, rest: rest.to_vec() })
}

fn numbers<T: ToString>(row: impl Iterator<Item = T>) -> String {
    row.map(|number| number.to_string()).collect::<Vec<_>>().join(" ")
}

fn factor_text(words: &[u32], n: usize, i: u32) -> Result<String, Refusal> {
    let mut found = [0; 4];
    sheet::factor(words, i, &mut found)?;
    let [root, power, start, length] = found;
    let mut text = format!("root {root} power {power}\n");
    let part = &words[start as usize..(start + length) as usize];
    for (j, row) in part.chunks(n).enumerate() {
        text += &format!("Y^{j}: {}\n", numbers(row.iter()));
    }
    Ok(text)
}

/// The job's sheet, every row being known to N, extended to N terms. Without a list the roots are found.
fn worked(job: &Job) -> Result<Vec<u32>, Refusal> {
    let (roots, rows) = job.rest.split_at(job.r as usize);
    let lengths = vec![job.n; job.d as usize];
    let mut words = vec![0; 11 + 12 + 2 * 12 + 25 * 64]; // the largest sheet of a job: 12 roots, degree 12, 64 columns
    let total = match job.r {
        0 => sheet::find(job.p, job.d, job.n, rows, &lengths, &mut words)?,
        _ => sheet::open(job.p, job.d, job.n, rows, &lengths, roots, &mut words)?,
    };
    words.truncate(total as usize);
    sheet::extend(&mut words, job.n)?;
    Ok(words)
}

/// The first line of both listings.
fn head_text(sheet: &[u32]) -> String {
    format!("mod {} terms {} degree {} factors {}\n", sheet[0], sheet[3], sheet[1], sheet[4])
}

fn factors_text(sheet: &[u32]) -> Result<String, Refusal> {
    let mut text = head_text(sheet);
    for i in 0..sheet[4] {
        text += &factor_text(sheet, sheet[2] as usize, i)?;
    }
    Ok(text)
}

fn series_text(sheet: &[u32]) -> Result<String, Refusal> {
    let (p, n) = (sheet[0], sheet[2] as usize);
    let mut rows = vec![0; 12 * 64]; // the most roots of a job, and its most columns
    let written = sheet::roots(sheet, &mut rows)? as usize;
    let line = |row: &[u32]| format!("Y = {}\n", numbers(row.iter().map(|&word| signed(p, word))));
    Ok(head_text(sheet) + &rows[..written].chunks(n).map(line).collect::<String>())
}

/// A number of 1 to 9 digits.
fn number(word: &[u8]) -> Option<u32> {
    let digits = word.len() <= 9 && word.iter().all(u8::is_ascii_digit);
    std::str::from_utf8(word).ok().filter(|_| digits)?.parse().ok()
}

/// Modulus, terms and polynomial of typed lines: the first is cut at its blanks, and two numbers must be what is left.
fn asked(input: &[u8]) -> Option<(u32, u32, &[u8])> {
    let mut lines = input.splitn(2, |&byte| byte == b'\n');
    let (first, rest) = (lines.next()?, lines.next()?);
    let words = first.split(|&byte| byte == b' ').filter(|word| !word.is_empty());
    let [p, n] = words.map(number).collect::<Option<Vec<_>>>()?[..] else { return None };
    (input.len() <= 4160).then_some((p, n, rest.strip_suffix(b"\n").unwrap_or(rest)))
}

/// The job that typed lines ask for, all of it known and without roots.
fn typed(input: &[u8]) -> Result<Job, Refusal> {
    let (p, n, text) = asked(input).ok_or(Refusal { number: 17, detail: 0 })?;
    judge(&[(1, &|| modulus_range(p)), (2, &|| composite(p)), (4, &|| terms(n))])?;
    let mut rest = vec![0; 33 * n as usize];
    let d = formula::read(p, n, text, &mut rest)?;
    judge(&[(3, &|| degree(d))])?;
    rest.truncate(((d + 1) * n) as usize);
    Ok(Job { p, d, n, r: 0, rest })
}

fn printed(job: Result<Job, Refusal>, text: fn(&[u32]) -> Result<String, Refusal>) -> String {
    match job.and_then(|job| text(&worked(&job)?)) {
        Ok(text) => text,
        Err(Refusal { number, detail }) => format!("refused {number} {detail}\n"),
    }
}

fn put(text: String, out: &mut [u8]) -> Answer {
    judge(&[(10, &|| short(out, text.len()))])?;
    out[..text.len()].copy_from_slice(text.as_bytes());
    Ok(text.len() as u32)
}

/// What the program prints for a job file.
pub fn text(bytes: &[u8]) -> String {
    printed(read(bytes), factors_text)
}

/// Writes it, and answers the number of bytes.
pub fn list(job: &[u8], out: &mut [u8]) -> Answer {
    put(text(job), out)
}

/// What the program for simple roots prints for a job file.
pub fn roots_text(bytes: &[u8]) -> String {
    printed(read(bytes), series_text)
}

/// Writes it, and answers the number of bytes.
pub fn list_roots(job: &[u8], out: &mut [u8]) -> Answer {
    put(roots_text(job), out)
}

/// What the program prints for typed lines.
pub fn key_text(input: &[u8]) -> String {
    printed(typed(input), factors_text)
}

/// Writes it, and answers the number of bytes.
pub fn key(input: &[u8], out: &mut [u8]) -> Answer {
    put(key_text(input), out)
}
