//! The factor sheet.
//!
//! Column t ≥ 1 of all factors is found at once from the columns before it: with a_l the factors at X = 0, the unknown columns δ_i (m_i
//! numbers each, D together) satisfy Σ_i δ_i·Π_{l≠i} a_l = column t of f less what the earlier columns give.

use crate::field::sub;
use crate::linear::{apply, invert, Matrix};
use crate::polynomial::{
    at_zero, column, constant, cut, line_power, lower_words, polynomial, product_column, product_of_all, series, series_words, set_column, shift,
    truncated, words, Polynomial,
};
use crate::refusal::{beyond, composite, judge, length, modulus_range, no_entry, short, terms, unknown, unreduced, when, Answer, Refusal};
use crate::roots;
use crate::rows;
use crate::simple::root_series;

/// The header words; after them stand the lengths.
const HEADER: usize = 11;

/// A root and its power.
type Root = (u32, u32);

/// A sheet taken apart.
struct Sheet {
    p: u32,
    n: usize,
    /// The terms worked.
    k: usize,
    /// The known length of each row of f below the top one.
    lengths: Vec<u32>,
    roots: Vec<Root>,
    f: Polynomial,
    /// With their leading 1.
    factors: Vec<Polynomial>,
}

/// The header words. Word 8 was where cofactors began, and is now the total too.
fn header(p: u32, n: usize, k: usize, lengths: &[u32], powers: &[usize]) -> [u32; HEADER] {
    let (d, r) = (powers.iter().sum::<usize>(), powers.len());
    let roots = HEADER + lengths.len();
    let rows = roots + 2 * r;
    let factors = rows + (d + 1) * n;
    let total = factors + d * n;
    let [roots, rows, factors, total] = [roots, rows, factors, total].map(|place| place as u32);
    [p, d as u32, n as u32, k as u32, r as u32, roots, rows, factors, total, total, least(lengths)]
}

/// The least of the lengths, of which there is always one.
fn least(lengths: &[u32]) -> u32 {
    *lengths.iter().min().expect("there is a row below the top one")
}

/// The lengths, and roots with powers, where header words 1 to 4 and the powers are in their ranges.
fn front(s: &[u32]) -> Option<(Vec<u32>, Vec<Root>)> {
    let &[_, d, n, k, r, ..] = s.get(..HEADER)? else { return None };
    if !(1..=32).contains(&d) || !(1..=256).contains(&n) || !(1..=n).contains(&k) || !(1..=d).contains(&r) {
        return None;
    }
    let (lengths, after) = s[HEADER..].split_at_checked(d as usize)?;
    let entries = after.get(..2 * r as usize)?;
    let roots: Vec<Root> = entries.chunks(2).map(|entry| (entry[0], entry[1])).collect();
    roots.iter().all(|(_, m)| (1..=d).contains(m)).then_some((lengths.to_vec(), roots))
}

impl Sheet {
    fn powers(&self) -> Vec<usize> {
        self.roots.iter().map(|&(_, m)| m as usize).collect()
    }

    fn words(&self) -> Vec<u32> {
        let mut all = header(self.p, self.n, self.k, &self.lengths, &self.powers()).to_vec();
        all.extend(&self.lengths);
        all.extend(self.roots.iter().flat_map(|&(c, m)| [c, m]));
        all.extend(words(&self.f));
        all.extend(self.factors.iter().flat_map(|a| lower_words(a)));
        all
    }

    /// What the words hold, where they are as many as their header says and the header is right.
    fn read(s: &[u32]) -> Option<Sheet> {
        let (lengths, roots) = front(s)?;
        let &[p, d, n, k, ..] = s else { return None };
        let (n, k) = (n as usize, k as usize);
        let powers: Vec<usize> = roots.iter().map(|&(_, m)| m as usize).collect();
        let header = header(p, n, k, &lengths, &powers);
        if s[..HEADER] != header {
            return None;
        }
        let mut rows = s.get(header[6] as usize..header[9] as usize)?.chunks(n).map(series);
        let f = rows.by_ref().take(d as usize + 1).collect();
        let factors = powers.iter().map(|&m| rows.by_ref().take(m).chain([constant(1, n)]).collect()).collect();
        Some(Sheet { p, n, k, lengths, roots, f, factors })
    }

    /// The most terms that it can be worked to.
    fn reach(&self) -> u32 {
        least(&self.lengths)
    }

    /// The conditions of document 01 that speak of numbers, and F-9's: everything is multiplied out, modulo X^k.
    fn is_sound(&self) -> bool {
        self.is_reduced() && self.is_known() && self.is_monic() && self.starts_right() && self.ends_with_zeros() && self.multiplies_out()
    }

    fn is_reduced(&self) -> bool {
        let p = self.p;
        let below = |g: &Polynomial| g.iter().flatten().all(|&c| c < p as u64);
        modulus_range(p).is_none()
            && composite(p).is_none()
            && self.roots.iter().all(|&(c, _)| c < p)
            && self.roots.windows(2).all(|pair| pair[0].0 < pair[1].0)
            && below(&self.f)
            && self.factors.iter().all(below)
    }

    /// Row 21 passes the lengths and the rows, and no more terms are worked than are known.
    fn is_known(&self) -> bool {
        unknown(&self.f, &self.lengths).is_none() && self.k <= self.reach() as usize
    }

    fn is_monic(&self) -> bool {
        self.f.last() == Some(&constant(1, self.n))
    }

    /// At X = 0, factor i is (Y − c_i)^(m_i) and f is their product.
    fn starts_right(&self) -> bool {
        let start = starting_factors(self.p, 1, &self.roots);
        self.factors.iter().zip(&start).all(|(a, line)| at_zero(a) == *line) && at_zero(&self.f) == product_of_all(self.p as u64, 1, &start)
    }

    fn ends_with_zeros(&self) -> bool {
        self.factors.iter().all(|a| cut(a, self.k) == *a)
    }

    fn multiplies_out(&self) -> bool {
        let known: Vec<Polynomial> = self.factors.iter().map(|a| truncated(a, self.k)).collect();
        product_of_all(self.p as u64, self.k, &known) == truncated(&self.f, self.k)
    }

    /// The least root that is not simple.
    fn multiple_root(&self) -> Option<u32> {
        self.roots.iter().find(|&&(_, m)| m > 1).map(|&(c, _)| c)
    }

    /// To w terms.
    fn extend(&mut self, w: usize) {
        lift(self.p as u64, &self.f, &mut self.factors, self.k, w);
        self.k = w;
    }

    /// Row j of f with another entry in column t; the factors are worked from X = 0 once more, whatever t is.
    fn correct(&mut self, j: usize, t: usize, entry: u32) {
        self.f[j][t] = entry as u64;
        self.factors = starting_factors(self.p, self.n, &self.roots);
        lift(self.p as u64, &self.f, &mut self.factors, 1, self.k);
    }
}

/// (Y − c_i)^(m_i) for each root.
fn starting_factors(p: u32, n: usize, roots: &[Root]) -> Vec<Polynomial> {
    roots.iter().map(|&(c, m)| line_power(p as u64, n, c as u64, m as usize)).collect()
}

/// An unknown for each coefficient below the leading one of each factor; its matrix column is Y^j·Π_{l≠i} a_l, what it adds to f.
fn system(p: u64, factors: &[Polynomial]) -> Matrix {
    let start: Vec<Polynomial> = factors.iter().map(|a| at_zero(a)).collect();
    let size = start.iter().map(|a| a.len() - 1).sum();
    let mut matrix = vec![vec![0; size]; size];
    let mut unknown = 0;
    for i in 0..start.len() {
        let others = column(&product_of_all(p, 1, &[&start[..i], &start[i + 1..]].concat()), 0);
        for j in 0..start[i].len() - 1 {
            others.iter().enumerate().for_each(|(e, &c)| matrix[e + j][unknown] = c);
            unknown += 1;
        }
    }
    matrix
}

/// Products of the first 0, 1, .. factors, kept so that a column of f's product costs no more than the column.
struct Products(Vec<Polynomial>);

impl Products {
    fn new(n: usize, factors: &[Polynomial]) -> Products {
        let mut all = vec![vec![constant(1, n)]];
        for a in factors {
            let rows = all[all.len() - 1].len() + a.len() - 1;
            all.push(vec![vec![0; n]; rows]);
        }
        Products(all)
    }

    /// Works out column t of each product, and gives that of the last.
    fn column(&mut self, p: u64, factors: &[Polynomial], t: usize) -> Vec<u64> {
        for (i, a) in factors.iter().enumerate() {
            let next = product_column(p, &self.0[i], a, t);
            set_column(&mut self.0[i + 1], t, &next);
        }
        column(&self.0[factors.len()], t)
    }
}

/// Columns from..to − 1 of the factors, whose later columns are 0.
fn lift(p: u64, f: &Polynomial, factors: &mut [Polynomial], from: usize, to: usize) {
    let solver = invert(p, &system(p, factors)).expect("the factors have no common root at X = 0");
    let mut products = Products::new(f[0].len(), factors);
    for t in 0..from {
        products.column(p, factors, t);
    }
    for t in from..to {
        let known = products.column(p, factors, t);
        let missing: Vec<u64> = column(f, t).iter().zip(&known).map(|(&a, &b)| sub(p, a, b)).collect();
        let mut solved = apply(p, &solver, &missing).into_iter();
        for a in factors.iter_mut() {
            let lower: Vec<u64> = solved.by_ref().take(a.len() - 1).collect();
            set_column(a, t, &lower);
        }
        products.column(p, factors, t);
    }
}

/// The power of each root in f at X = 0, which is the order of f(Y + c), where they give f.
fn powers(p: u32, f: &Polynomial, roots: &[u32]) -> Option<Vec<Root>> {
    let start = at_zero(f);
    let order = |c: u32| shift(p as u64, &start, c as u64).iter().position(|row| row[0] != 0);
    let found: Vec<Root> = roots.iter().map(|&c| (c, order(c).expect("f is monic") as u32)).collect();
    let gives_f = product_of_all(p as u64, 1, &starting_factors(p, 1, &found)) == start;
    (gives_f && found.iter().all(|&(_, m)| m >= 1)).then_some(found)
}

/// What opening is given, judged up to its monic row; roots are counted on after the rows.
fn judged(p: u32, d: u32, n: u32, f: &[u32], lengths: &[u32], roots: &[u32]) -> Result<Polynomial, Refusal> {
    judge(&[
        (1, &|| modulus_range(p)),
        (2, &|| composite(p)),
        (3, &|| when(!(1..=32).contains(&d))),
        (4, &|| terms(n)),
        (5, &|| length(f, d as u64 + 1, n).or(when(lengths.len() != d as usize))),
        (6, &|| unreduced(p, &[f, roots])),
    ])?;
    let n = n as usize;
    let f = polynomial(f, n);
    judge(&[(21, &|| unknown(&f, lengths)), (7, &|| when(f[d as usize] != constant(1, n)))])?;
    Ok(f)
}

/// Writes the sheet of these roots with one term, where they give f.
fn fresh(p: u32, f: Polynomial, lengths: &[u32], roots: &[u32], out: &mut [u32]) -> Answer {
    let found = powers(p, &f, roots);
    judge(&[(9, &|| when(found.is_none()))])?;
    let (n, roots) = (f[0].len(), found.expect("judged"));
    let factors = starting_factors(p, n, &roots);
    let all = Sheet { p, n, k: 1, lengths: lengths.to_vec(), roots, f, factors }.words();
    judge(&[(10, &|| short(out, all.len()))])?;
    out[..all.len()].copy_from_slice(&all);
    Ok(all.len() as u32)
}

/// Writes a sheet with one term; the answer is its number of words. Each row of f below the top one has a known length.
pub fn open(p: u32, d: u32, n: u32, f: &[u32], lengths: &[u32], roots: &[u32], out: &mut [u32]) -> Answer {
    let f = judged(p, d, n, f, lengths, roots)?;
    judge(&[(8, &|| when(roots.is_empty() || roots.len() > d as usize || roots.windows(2).any(|c| c[0] >= c[1])))])?;
    fresh(p, f, lengths, roots, out)
}

/// The same with no list of roots: they are found. Where f has too few of them at X = 0, they do not give it, which is 9.
pub fn find(p: u32, d: u32, n: u32, f: &[u32], lengths: &[u32], out: &mut [u32]) -> Answer {
    let f = judged(p, d, n, f, lengths, &[])?;
    let roots: Vec<u32> = roots::roots(p as u64, &column(&f, 0)).iter().map(|&c| c as u32).collect();
    fresh(p, f, lengths, &roots, out)
}

fn sound(sheet: &[u32]) -> Option<Sheet> {
    Sheet::read(sheet).filter(Sheet::is_sound)
}

fn spoiled() -> Refusal {
    Refusal { number: 13, detail: 0 }
}

pub fn test(sheet: &[u32]) -> bool {
    sound(sheet).is_some()
}

/// Writes a sheet over the words that it was read from.
fn put(sheet: &mut [u32], worked: &Sheet) {
    let all = worked.words();
    sheet[..all.len()].copy_from_slice(&all);
}

/// Works the sheet on to w terms; the answer is w.
pub fn extend(sheet: &mut [u32], w: u32) -> Answer {
    let mut read = sound(sheet).ok_or(spoiled())?;
    judge(&[(14, &|| beyond(w, read.reach())), (15, &|| when((w as usize) < read.k))])?;
    read.extend(w as usize);
    put(sheet, &read);
    Ok(w)
}

/// Replaces row j, column t of f, and with it what the factors owe to it; the answer is the number of terms, which stays.
pub fn correct(sheet: &mut [u32], j: u32, t: u32, entry: u32) -> Answer {
    let mut read = sound(sheet).ok_or(spoiled())?;
    judge(&[(20, &|| no_entry(&read.lengths, j, t)), (6, &|| unreduced(read.p, &[&[entry]]))])?;
    read.correct(j as usize, t as usize, entry);
    put(sheet, &read);
    Ok(read.k as u32)
}

/// A sheet that has factor i: rows 13 and 16.
fn with_factor(sheet: &[u32], i: u32) -> Result<Sheet, Refusal> {
    let read = sound(sheet).ok_or(spoiled())?;
    judge(&[(16, &|| when(i as usize >= read.roots.len()))])?;
    Ok(read)
}

/// Writes root, power, and start and length of the part that holds the rows of factor i, counted from 0; the answer is 4.
pub fn factor(sheet: &[u32], i: u32, out: &mut [u32]) -> Answer {
    judge(&[(10, &|| short(out, 4))])?;
    let read = with_factor(sheet, i)?;
    let i = i as usize;
    let (root, power) = read.roots[i];
    let rows_before: usize = read.powers()[..i].iter().sum();
    let start = sheet[7] as usize + rows_before * read.n;
    out[..4].copy_from_slice(&[root, power, start as u32, power * read.n as u32]);
    Ok(4)
}

/// The rows of factor i below its leading 1, times g, of degree bound e: the factor is taken out of the sheet, its leading 1 off it, and what is left
/// multiplied. The answer is the number of words written.
pub fn factor_times(sheet: &[u32], i: u32, e: u32, g: &[u32], out: &mut [u32]) -> Answer {
    let read = with_factor(sheet, i)?;
    let lower = lower_words(&read.factors[i as usize]);
    rows::product(read.p, read.roots[i as usize].1 - 1, e, read.n as u32, &lower, g, out)
}

/// The same rows at Y + c.
pub fn factor_shift(sheet: &[u32], i: u32, c: u32, out: &mut [u32]) -> Answer {
    let read = with_factor(sheet, i)?;
    let lower = lower_words(&read.factors[i as usize]);
    rows::shift(read.p, read.roots[i as usize].1 - 1, read.n as u32, &lower, c, out)
}

/// Where all roots are simple: for each of them the series that is a root of f, to k terms, and then 0. The answer is the number of words.
pub fn roots(sheet: &[u32], out: &mut [u32]) -> Answer {
    let read = sound(sheet).ok_or(spoiled())?;
    let needed = read.roots.len() * read.n;
    judge(&[(22, &|| read.multiple_root().map(|c| c as usize)), (10, &|| short(out, needed))])?;
    let f = truncated(&read.f, read.k);
    for (row, &(c, _)) in out.chunks_mut(read.n).zip(&read.roots) {
        let mut s = root_series(read.p as u64, &f, c as u64);
        s.resize(read.n, 0);
        row.copy_from_slice(&series_words(&s));
    }
    Ok(needed as u32)
}
