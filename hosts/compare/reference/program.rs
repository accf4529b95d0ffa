//! The text of the program that checks a farm of cards in the small field.

use super::fields::SMALL;
use super::signatures::sum;
use super::verdict::{finish, majority, split_page, weigh, Scheme, Settled, Weighed};
use super::{refused, Refusal};

/// What was found, for counting.
pub struct Findings {
    pub text: String,
    pub way: String,
}

pub fn findings(bytes: &[u8]) -> Findings {
    match judge(bytes) {
        Ok(found) => found,
        Err(Refusal { number, place }) => {
            let text = format!("refused {number} {place}\n");
            let way = if number == 8 {
                format!("refused {number}")
            } else {
                format!("refused {number} {place}")
            };
            Findings { text, way }
        }
    }
}

fn judge(bytes: &[u8]) -> Result<Findings, Refusal> {
    if bytes.len() < 3 {
        return refused(8, bytes.len() + 1);
    }
    let scheme = Scheme {
        stations: bytes[0].into(),
        pages: bytes[1].into(),
        bound: bytes[2].into(),
    };
    scheme.limits(&SMALL)?;
    let due = 3 + scheme.stations * scheme.pages;
    if bytes.len() != due {
        return refused(8, due.min(bytes.len()) + 1);
    }
    let rows: Vec<Vec<u32>> = bytes[3..]
        .chunks(scheme.pages)
        .map(|row| row.iter().map(|&byte| byte.into()).collect())
        .collect();
    let plain = scheme.plain();
    let mut count = (scheme.stations - 1) * if plain { scheme.pages } else { scheme.first_sums() };
    let end = if plain {
        Settled::Rows(rows, "plain")
    } else {
        let told = |row: &[u32], most: usize| (1..=most).map(|j| sum(&SMALL, row, j)).collect::<Vec<u32>>();
        let mut sums: Vec<Vec<u32>> = rows.iter().map(|row| told(row, scheme.first_sums())).collect();
        sums[0] = told(&rows[0], scheme.all_sums());
        match weigh(&SMALL, &scheme, &rows[0], &sums) {
            Weighed::Over(rule) => Settled::Over(rule),
            Weighed::Rows(rows, rule) => Settled::Rows(rows, rule),
            Weighed::Split(page, rule) => Settled::Split(page, rule),
            Weighed::Asks(again) => {
                count += scheme.all_sums() - scheme.first_sums();
                sums[again.station - 1] = told(&rows[again.station - 1], scheme.all_sums());
                finish(&SMALL, &scheme, &rows[0], &sums, &again)
            }
        }
    };
    let mut text = String::new();
    let way = match end {
        Settled::Over(rule) => {
            text += "over\n";
            format!("over by {rule}")
        }
        Settled::Split(page, rule) => {
            text += &format!("split {page}\n");
            format!("split by {rule}")
        }
        Settled::Rows(rows, rule) => match split_page(&rows) {
            Some(page) => {
                text += &format!("split {page}\n");
                format!("split of rows by {rule}")
            }
            None => {
                for (s, row) in rows.iter().enumerate() {
                    for (n, &word) in row.iter().enumerate() {
                        if majority(&rows, n) != Some(word) {
                            text += &format!("{} {}\n", s + 1, n + 1);
                        }
                    }
                }
                let all_good = if text.is_empty() { ", none bad" } else { "" };
                format!("report by {rule}{all_good}")
            }
        },
    };
    text += &format!("sums {count}\n");
    Ok(Findings { text, way })
}
