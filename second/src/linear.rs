//! Linear systems over F_p by Gauss and Jordan, and the rank of a matrix.

use crate::field::{inverse, mul, sub};

/// Row after row.
pub type Matrix = Vec<Vec<u64>>;

/// The inverse of a square matrix, where there is one.
pub fn invert(p: u64, matrix: &Matrix) -> Option<Matrix> {
    let size = matrix.len();
    let mut rows = beside_identity(matrix);
    for column in 0..size {
        let pivot = (column..size).find(|&r| rows[r][column] != 0)?;
        rows.swap(column, pivot);
        let scale = inverse(p, rows[column][column]);
        rows[column].iter_mut().for_each(|x| *x = mul(p, *x, scale));
        clear_column(p, &mut rows, column);
    }
    Some(rows.into_iter().map(|row| row[size..].to_vec()).collect())
}

/// How many rows are left, other than 0, when each row has been taken from those that it can shorten.
pub fn rank(p: u64, mut rows: Matrix) -> usize {
    let mut done = 0;
    for column in 0..rows.first().map_or(0, Vec::len) {
        if let Some(pivot) = (done..rows.len()).find(|&r| rows[r][column] != 0) {
            rows.swap(done, pivot);
            let (above, below) = rows.split_at_mut(done + 1);
            let pivot_row = &above[done];
            let scale = inverse(p, pivot_row[column]);
            for row in below {
                let times = mul(p, row[column], scale);
                take_multiple(p, row, times, pivot_row);
            }
            done += 1;
        }
    }
    done
}

fn beside_identity(matrix: &Matrix) -> Matrix {
    let size = matrix.len();
    let unit = |r: usize| (0..size).map(move |c| (r == c) as u64);
    matrix.iter().enumerate().map(|(r, row)| row.iter().copied().chain(unit(r)).collect()).collect()
}

/// Takes multiples of the pivot's row from all others, so that nothing but the pivot is left in its column.
fn clear_column(p: u64, rows: &mut Matrix, column: usize) {
    let pivot_row = rows[column].clone();
    for (r, row) in rows.iter_mut().enumerate() {
        let factor = row[column];
        if r != column && factor != 0 {
            take_multiple(p, row, factor, &pivot_row);
        }
    }
}

/// Takes so many times another row from a row.
fn take_multiple(p: u64, row: &mut [u64], times: u64, other: &[u64]) {
    for (x, y) in row.iter_mut().zip(other) {
        *x = sub(p, *x, mul(p, times, *y));
    }
}

pub fn apply(p: u64, matrix: &Matrix, vector: &[u64]) -> Vec<u64> {
    matrix.iter().map(|row| row.iter().zip(vector).fold(0, |sum, (a, b)| (sum + a * b) % p)).collect()
}
