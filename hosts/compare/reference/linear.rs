//! Gaussian elimination.

use super::fields::Field;

/// Brings the first `columns` columns of the matrix into echelon form, each pivot 1; the rank.
pub fn eliminate(field: &Field, rows: &mut [Vec<u32>], columns: usize) -> usize {
    let mut rank = 0;
    for column in 0..columns {
        let Some(pivot) = (rank..rows.len()).find(|&r| rows[r][column] != 0) else {
            continue;
        };
        rows.swap(rank, pivot);
        let (above, below) = rows.split_at_mut(rank + 1);
        let top = &mut above[rank];
        let inverse = field.inverse(top[column]);
        for word in &mut top[column..] {
            *word = field.product(*word, inverse);
        }
        for row in below {
            let factor = row[column];
            if factor != 0 {
                for c in column..row.len() {
                    row[c] = field.difference(row[c], field.product(factor, top[c]));
                }
            }
        }
        rank += 1;
    }
    rank
}

/// The one solution of a system, the last column of which is its right side. None: there is no solution, or more than one.
pub fn one_solution(field: &Field, mut rows: Vec<Vec<u32>>, unknowns: usize) -> Option<Vec<u32>> {
    if eliminate(field, &mut rows, unknowns) < unknowns || rows[unknowns..].iter().any(|row| row[unknowns] != 0) {
        return None;
    }
    let mut solution = vec![0; unknowns];
    for r in (0..unknowns).rev() {
        let mut value = rows[r][unknowns];
        for c in r + 1..unknowns {
            value = field.difference(value, field.product(rows[r][c], solution[c]));
        }
        solution[r] = value;
    }
    Some(solution)
}

/// The codes at these pages whose sums 1, 2, .. are the values, if there is just one such choice.
pub fn codes_at(field: &Field, pages: &[usize], values: &[u32]) -> Option<Vec<u32>> {
    let points: Vec<u32> = pages.iter().map(|&n| field.power(field.alpha, n)).collect();
    let mut powers = points.clone();
    let mut rows = Vec::with_capacity(values.len());
    for &value in values {
        let mut row = powers.clone();
        row.push(value);
        rows.push(row);
        for (power, &point) in powers.iter_mut().zip(&points) {
            *power = field.product(*power, point);
        }
    }
    one_solution(field, rows, pages.len())
}
