//! Solving a difference.

use super::fields::Field;
use super::linear::{codes_at, eliminate, one_solution};
use super::{refused, Refusal, SUMS};

/// The pages of a solution, rising, each with its code, which is not 0.
pub type List = Vec<(usize, u32)>;

/// The solution of weight at most t, or none.
pub fn solve(field: &Field, pages: usize, values: &[u32], weight: usize) -> Result<Option<List>, Refusal> {
    if !(1..=field.most_pages()).contains(&pages) {
        return refused(1, 3);
    }
    if values.len() > SUMS || (values.len() != pages && (values.len() as u128) < 2 * weight as u128) {
        return refused(1, 6);
    }
    if let Some(first) = values.iter().position(|&value| value >= field.q) {
        return refused(8, first + 1);
    }
    Ok(quickly(field, pages, values, weight))
}

/// By one of the methods that fit.
pub fn quickly(field: &Field, pages: usize, values: &[u32], weight: usize) -> Option<List> {
    if values.len() as u128 >= 2 * weight as u128 {
        by_recurrence(field, pages, values, weight)
    } else {
        by_full_system(field, pages, values, weight)
    }
}

/// Each method that fits: what it finds.
pub fn by_each(field: &Field, pages: usize, values: &[u32], weight: usize) -> Vec<(&'static str, Option<List>)> {
    let mut found = Vec::new();
    if values.len() as u128 >= 2 * weight as u128 {
        found.push(("recurrence", by_recurrence(field, pages, values, weight)));
    }
    if values.len() == pages {
        found.push(("full system", by_full_system(field, pages, values, weight)));
    }
    if choices(pages, weight) <= 64 {
        found.push(("search", by_search(field, pages, values, weight)));
    }
    found
}

/// How many sets of at most so many pages there are; 65 stands for more than 64.
fn choices(pages: usize, weight: usize) -> usize {
    let (mut total, mut sets) = (1, 1);
    for chosen in 1..=weight.min(pages) {
        sets = sets * (pages + 1 - chosen) / chosen;
        total += sets;
        if total > 64 {
            return 65;
        }
    }
    total
}

fn list(pages: impl Iterator<Item = usize>, codes: &[u32]) -> List {
    pages.zip(codes.iter().copied()).filter(|&(_, code)| code != 0).collect()
}

/// Whether the list has weight at most t and its sums are the values.
fn fits(field: &Field, list: &List, values: &[u32], weight: usize) -> bool {
    let points: Vec<u32> = list.iter().map(|&(page, _)| field.power(field.alpha, page)).collect();
    let mut terms: Vec<u32> = list.iter().map(|&(_, code)| code).collect();
    list.len() <= weight
        && values.iter().all(|&value| {
            for (term, &point) in terms.iter_mut().zip(&points) {
                *term = field.product(*term, point);
            }
            terms.iter().fold(0, |total, &term| field.sum(total, term)) == value
        })
}

/// The sets of at most so many of the pages from this one on.
fn sets(from: usize, pages: usize, most: usize) -> Vec<Vec<usize>> {
    let mut all = vec![Vec::new()];
    if most > 0 {
        for first in from..=pages {
            for mut set in sets(first + 1, pages, most - 1) {
                set.insert(0, first);
                all.push(set);
            }
        }
    }
    all
}

/// Tries each set of at most t pages: the codes there are those of a linear system.
pub fn by_search(field: &Field, pages: usize, values: &[u32], weight: usize) -> Option<List> {
    let mut found: Option<List> = None;
    for set in sets(1, pages, weight) {
        let Some(codes) = codes_at(field, &set, values) else {
            continue;
        };
        let one = list(set.into_iter(), &codes);
        if fits(field, &one, values, weight) {
            assert!(found.is_none() || found.as_ref() == Some(&one), "two solutions");
            found = Some(one);
        }
    }
    found
}

/// With as many values as pages: the one vector with these sums, by the full system.
pub fn by_full_system(field: &Field, pages: usize, values: &[u32], weight: usize) -> Option<List> {
    let all: Vec<usize> = (1..=pages).collect();
    let codes = codes_at(field, &all, values).expect("a full system has one solution");
    let one = list(1..=pages, &codes);
    fits(field, &one, values, weight).then_some(one)
}

/// With 2t values and more: values of a vector of weight w obey a recurrence of length w, the coefficients of which solve a Hankel
/// system; w is the rank of the Hankel matrix of size t. The roots of its polynomial are the points of the pages.
pub fn by_recurrence(field: &Field, pages: usize, values: &[u32], weight: usize) -> Option<List> {
    let mut matrix: Vec<Vec<u32>> = (0..weight).map(|a| values[a..a + weight].to_vec()).collect();
    let rank = eliminate(field, &mut matrix, weight);
    let system: Vec<Vec<u32>> = (0..rank).map(|a| values[a..=a + rank].to_vec()).collect();
    let coefficients = one_solution(field, system, rank)?;
    // x^rank minus the total of coefficient b times x^b, at the point of each page
    let mut point = 1;
    let mut roots = Vec::new();
    for page in 1..=pages {
        point = field.product(point, field.alpha);
        let value = coefficients
            .iter()
            .rev()
            .fold(1, |value, &c| field.difference(field.product(value, point), c));
        if value == 0 {
            roots.push(page);
        }
    }
    if roots.len() != rank {
        return None;
    }
    let codes = codes_at(field, &roots, &values[..rank])?;
    let one = list(roots.into_iter(), &codes);
    fits(field, &one, values, weight).then_some(one)
}
