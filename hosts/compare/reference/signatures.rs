//! Pages, signatures and sums.

use super::fields::Field;
use super::{refused, Refusal, SUMS};

/// How many pages the job has.
pub fn pages(field: &Field, bytes: usize, length: usize) -> Result<usize, Refusal> {
    if !(1..=4_096).contains(&length) {
        return refused(1, 7);
    }
    let count = bytes / length + usize::from(bytes % length > 0);
    if !(1..=field.most_pages()).contains(&count) {
        return refused(1, 3);
    }
    Ok(count)
}

/// The signatures of the job's pages: byte k of a page of L bytes counts α^(L−k) times.
pub fn sign(field: &Field, job: &[u8], length: usize) -> Result<Vec<u32>, Refusal> {
    pages(field, job.len(), length)?;
    let mut powers = vec![1];
    for k in 1..length {
        powers.push(field.product(powers[k - 1], field.alpha));
    }
    let signature = |page: &[u8]| {
        page.iter().enumerate().fold(0, |total, (k, &byte)| {
            field.sum(total, field.product(byte.into(), powers[length - 1 - k]))
        })
    };
    Ok(job.chunks(length).map(signature).collect())
}

/// The signature of one of the job's pages.
pub fn page_signature(field: &Field, job: &[u8], length: usize, page: usize) -> Result<u32, Refusal> {
    let card = sign(field, job, length)?;
    match page.checked_sub(1).and_then(|at| card.get(at)) {
        Some(&signature) => Ok(signature),
        None => refused(11, 0),
    }
}

/// Sum j of a row, by Horner's rule from its last page.
pub fn sum(field: &Field, row: &[u32], j: usize) -> u32 {
    let point = field.power(field.alpha, j);
    row.iter()
        .rev()
        .fold(0, |total, &word| field.product(field.sum(total, field.code(word)), point))
}

/// Sums 1 to this count of a card.
pub fn sums(field: &Field, card: &[u32], count: usize) -> Result<Vec<u32>, Refusal> {
    if !(1..=field.most_pages()).contains(&card.len()) {
        return refused(1, 3);
    }
    if count > SUMS {
        return refused(11, 0);
    }
    Ok((1..=count).map(|j| sum(field, card, j)).collect())
}

/// One of the sums 1 to 128 of a row.
pub fn row_sum(field: &Field, row: &[u32], j: usize) -> Result<u32, Refusal> {
    if !(1..=field.most_pages()).contains(&row.len()) {
        return refused(1, 3);
    }
    if !(1..=SUMS).contains(&j) {
        return refused(11, 0);
    }
    Ok(sum(field, row, j))
}
