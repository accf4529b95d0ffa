//! The verdict: what weighing and settling make of row 1 and the sums.

use super::fields::Field;
use super::solving::{quickly, List};
use super::{refused, Refusal, SUMS};

/// The numbers of a check.
#[derive(Clone, Copy, Debug)]
pub struct Scheme {
    pub stations: usize,
    pub pages: usize,
    pub bound: usize,
}

impl Scheme {
    /// The limits of a check, in their order.
    pub fn limits(&self, field: &Field) -> Result<(), Refusal> {
        if !(3..=8).contains(&self.stations) {
            return refused(1, 2);
        }
        if !(1..=field.most_pages()).contains(&self.pages) {
            return refused(1, 3);
        }
        if !(1..=64).contains(&self.bound) {
            return refused(1, 4);
        }
        Ok(())
    }

    /// h
    pub fn first_sums(&self) -> usize {
        if self.stations > 3 {
            self.bound
        } else {
            (3 * self.bound).div_ceil(2)
        }
    }

    /// J
    pub fn all_sums(&self) -> usize {
        self.pages.min(2 * self.bound)
    }

    pub fn plain(&self) -> bool {
        if self.stations > 3 {
            self.bound >= self.pages
        } else {
            self.pages < self.first_sums()
        }
    }

    pub fn row_words(&self) -> usize {
        self.pages + SUMS
    }
}

/// What weighing finds in a check that is not plain. The text tells by which rules.
#[derive(Clone, Debug)]
pub enum Weighed {
    Over(&'static str),
    Rows(Vec<Vec<u32>>, &'static str),
    Split(usize, &'static str),
    Asks(Again),
}

#[derive(Clone, Debug)]
pub enum Settled {
    Over(&'static str),
    Rows(Vec<Vec<u32>>, &'static str),
    Split(usize, &'static str),
}

/// The second asking, and what it is settled by.
#[derive(Clone, Debug)]
pub struct Again {
    pub station: usize,
    pub rule: &'static str,
    how: How,
}

#[derive(Clone, Debug)]
enum How {
    /// The station in all suspects, the base b, and for each page the station g and the difference of b and g; all differences.
    Four {
        odd: usize,
        base: usize,
        leaders: Vec<usize>,
        differences: Differences,
    },
    /// k, the other one of the stations 2 and 3, and the pair that was taken, as a difference.
    Three {
        k: usize,
        other: usize,
        pair: (usize, usize),
        difference: Vec<u32>,
    },
}

/// The solved difference of each two stations, counted from 0, as a vector of codes.
type Differences = Vec<Vec<Option<Vec<u32>>>>;

fn vector(list: &List, pages: usize) -> Vec<u32> {
    let mut codes = vec![0; pages];
    for &(page, code) in list {
        codes[page - 1] = code;
    }
    codes
}

fn minus(field: &Field, a: &[u32], b: &[u32]) -> Vec<u32> {
    a.iter().zip(b).map(|(&a, &b)| field.difference(a, b)).collect()
}

fn plus(field: &Field, a: &[u32], b: &[u32]) -> Vec<u32> {
    a.iter().zip(b).map(|(&a, &b)| field.sum(a, b)).collect()
}

fn negative(field: &Field, a: &[u32]) -> Vec<u32> {
    a.iter().map(|&a| field.negative(a)).collect()
}

fn weight(a: &[u32]) -> usize {
    a.iter().filter(|&&code| code != 0).count()
}

/// Stations count from 0 here and in what follows; what is told of them counts from 1. `sums[s][j − 1]` is a code.
pub fn weigh(field: &Field, scheme: &Scheme, own: &[u32], sums: &[Vec<u32>]) -> Weighed {
    if scheme.stations > 3 {
        weigh_four(field, scheme, own, sums)
    } else {
        weigh_three(field, scheme, own, sums)
    }
}

fn solved(field: &Field, scheme: &Scheme, sums: &[Vec<u32>], s: usize, t: usize, count: usize, most: usize) -> Option<Vec<u32>> {
    let values = minus(field, &sums[s][..count], &sums[t][..count]);
    Some(vector(&quickly(field, scheme.pages, &values, most)?, scheme.pages))
}

fn weigh_four(field: &Field, scheme: &Scheme, own: &[u32], sums: &[Vec<u32>]) -> Weighed {
    let m = scheme.stations;
    let pairs: Vec<(usize, usize)> = (0..m).flat_map(|s| (s + 1..m).map(move |t| (s, t))).collect();
    let mut differences: Differences = vec![vec![None; m]; m];
    for &(s, t) in &pairs {
        differences[s][t] = solved(field, scheme, sums, s, t, scheme.bound, scheme.bound / 2);
        differences[t][s] = differences[s][t].as_ref().map(|d| negative(field, d));
    }
    for (s, row) in differences.iter_mut().enumerate() {
        row[s] = Some(vec![0; scheme.pages]);
    }

    let weight_of = |(s, t): (usize, usize)| differences[s][t].as_ref().map(|d| weight(d));
    let disjoint = |(s, t): (usize, usize), (u, v): (usize, usize)| s != u && s != v && t != u && t != v;
    let is_suspect = |&pair: &(usize, usize)| match weight_of(pair) {
        None => true,
        Some(own_weight) => pairs
            .iter()
            .filter(|&&other| disjoint(pair, other))
            .all(|&other| weight_of(other).is_some_and(|w| w < own_weight)),
    };
    let suspects: Vec<(usize, usize)> = pairs.iter().copied().filter(is_suspect).collect();

    if suspects.iter().any(|&a| suspects.iter().any(|&b| disjoint(a, b))) {
        return Weighed::Over("1");
    }
    let mut corners: Vec<usize> = suspects.iter().flat_map(|&(s, t)| [s, t]).collect();
    corners.sort_unstable();
    corners.dedup();
    let triangle = suspects.len() == 3 && corners.len() == 3;
    let mut odd = None;
    if triangle {
        let base = (0..m).find(|s| !corners.contains(s)).expect("a fourth station");
        for &(s, t) in &suspects {
            let to_base = |s: usize| differences[s][base].clone().expect("not suspect");
            let d = minus(field, &to_base(s), &to_base(t));
            differences[t][s] = Some(negative(field, &d));
            differences[s][t] = Some(d);
        }
    } else if !suspects.is_empty() {
        odd = (0..m).find(|&s| suspects.iter().all(|&(t, u)| s == t || s == u));
        assert!(odd.is_some(), "suspects that meet are a triangle or have a station in common");
    }

    let others: Vec<usize> = (0..m).filter(|&s| Some(s) != odd).collect();
    let of = |s: usize, t: usize| differences[s][t].as_ref().expect("a difference without the odd station");
    for (a, &s) in others.iter().enumerate() {
        for (b, &t) in others.iter().enumerate().skip(a + 1) {
            for &u in &others[b + 1..] {
                if plus(field, of(s, t), of(t, u)) != *of(s, u) {
                    return Weighed::Over(match (triangle, odd) {
                        (true, _) => "2, 4",
                        (_, Some(_)) => "3, 4",
                        _ => "4",
                    });
                }
            }
        }
    }

    let Some(odd) = odd else {
        let rows = (0..m).map(|t| minus(field, own, of(0, t))).collect();
        return Weighed::Rows(rows, if triangle { "2, 5" } else { "5" });
    };
    let rule = if odd == 0 { "3 with i = 1" } else { "3 with i > 1" };
    let mut leaders = Vec::new();
    for n in 0..scheme.pages {
        let (mut best, mut size) = (others[0], 0);
        for &s in &others {
            let agree = others.iter().filter(|&&t| of(s, t)[n] == 0).count();
            if agree > size {
                (best, size) = (s, agree);
            }
        }
        if size < m / 2 {
            return Weighed::Split(n + 1, if odd == 0 { "6 with i = 1" } else { "6 with i > 1" });
        }
        leaders.push(best);
    }
    let base = if odd == 0 { 1 } else { 0 };
    let station = if odd == 0 { 2 } else { odd + 1 };
    Weighed::Asks(Again {
        station,
        rule,
        how: How::Four {
            odd,
            base,
            leaders,
            differences,
        },
    })
}

fn weigh_three(field: &Field, scheme: &Scheme, own: &[u32], sums: &[Vec<u32>]) -> Weighed {
    let h = scheme.first_sums();
    let mut taken: Option<((usize, usize), Vec<u32>)> = None;
    for (s, t) in [(0, 1), (0, 2), (1, 2)] {
        if let Some(d) = solved(field, scheme, sums, s, t, h, h / 2) {
            if taken.as_ref().is_none_or(|(_, least)| weight(&d) < weight(least)) {
                taken = Some(((s, t), d));
            }
        }
    }
    let Some((pair, difference)) = taken else {
        return Weighed::Over("three, no pair");
    };
    let (k, other, rule) = match pair {
        (0, 1) => (2, 1, "three, {1,2}"),
        (0, 2) => (1, 2, "three, {1,3}"),
        _ => (1, 2, "three, {2,3}"),
    };
    let again = Again {
        station: k + 1,
        rule,
        how: How::Three {
            k,
            other,
            pair,
            difference,
        },
    };
    if scheme.all_sums() > h {
        return Weighed::Asks(again);
    }
    match finish(field, scheme, own, sums, &again) {
        Settled::Over(rule) => Weighed::Over(rule),
        Settled::Rows(rows, rule) => Weighed::Rows(rows, rule),
        Settled::Split(page, rule) => Weighed::Split(page, rule),
    }
}

/// What settling makes of the tally: what weighing does, unless that asks again.
pub fn settle(field: &Field, scheme: &Scheme, own: &[u32], sums: &[Vec<u32>]) -> Settled {
    match weigh(field, scheme, own, sums) {
        Weighed::Over(rule) => Settled::Over(rule),
        Weighed::Rows(rows, rule) => Settled::Rows(rows, rule),
        Weighed::Split(page, rule) => Settled::Split(page, rule),
        Weighed::Asks(again) => finish(field, scheme, own, sums, &again),
    }
}

/// Settling, after weighing named a station. Each of the sums 1 to J is there of that station and of station 1.
pub fn finish(field: &Field, scheme: &Scheme, own: &[u32], sums: &[Vec<u32>], again: &Again) -> Settled {
    let all = scheme.all_sums();
    match &again.how {
        How::Four {
            odd,
            base,
            leaders,
            differences,
        } => {
            let of = |s: usize, t: usize| differences[s][t].as_ref().expect("a difference without the odd station");
            let to_leader: Vec<u32> = leaders.iter().enumerate().map(|(n, &g)| of(*base, g)[n]).collect();
            let values: Vec<u32> = (1..=all)
                .map(|j| {
                    let apart = field.difference(sums[*odd][j - 1], sums[*base][j - 1]);
                    field.sum(apart, super::signatures::sum(field, &to_leader, j))
                })
                .collect();
            let Some(list) = quickly(field, scheme.pages, &values, scheme.bound) else {
                return Settled::Over("7");
            };
            let solution = vector(&list, scheme.pages);
            let mut rows = vec![vec![0; scheme.pages]; scheme.stations];
            for n in 0..scheme.pages {
                let leader = leaders[n];
                let leading = if *odd == 0 {
                    field.difference(own[n], solution[n])
                } else {
                    field.difference(own[n], of(0, leader)[n])
                };
                for (s, row) in rows.iter_mut().enumerate() {
                    row[n] = if s == *odd {
                        field.sum(leading, solution[n])
                    } else {
                        field.difference(leading, of(leader, s)[n])
                    };
                }
            }
            Settled::Rows(rows, if *odd == 0 { "7 with i = 1" } else { "7 with i > 1" })
        }
        How::Three {
            k,
            other,
            pair,
            difference,
        } => {
            let values = minus(field, &sums[0][..all], &sums[*k][..all]);
            let Some(list) = quickly(field, scheme.pages, &values, scheme.bound) else {
                return Settled::Over("three, second");
            };
            let apart = vector(&list, scheme.pages);
            let mut rows = vec![own.to_vec(); 3];
            rows[*k] = minus(field, own, &apart);
            // the pair that was taken leads from a row that is known to the other one
            rows[*other] = if pair.0 == 0 {
                minus(field, own, difference)
            } else {
                minus(field, &rows[*k], difference)
            };
            Settled::Rows(rows, again.rule)
        }
    }
}

/// With the rows at hand: the lowest page without a majority.
pub fn split_page(rows: &[Vec<u32>]) -> Option<usize> {
    (0..rows[0].len()).find(|&n| majority(rows, n).is_none()).map(|n| n + 1)
}

/// The word that more than half of the rows have on page n, counted from 0.
pub fn majority(rows: &[Vec<u32>], n: usize) -> Option<u32> {
    rows.iter()
        .map(|row| row[n])
        .find(|&word| 2 * rows.iter().filter(|row| row[n] == word).count() > rows.len())
}
