//! Random farms: the findings, and tallies that are judged without a check.

use crate::random::Random;
use crate::reference::fields::{numbered, Field, SMALL};
use crate::reference::linear::codes_at;
use crate::reference::verdict::{self, Scheme, Settled};
use crate::reference::{program, signatures, Refusal, SUMS};
use crate::wulambey::{self, raw, Outcome, Weighed, ASKS, OVER, SPLIT};
use crate::{field_number, hex, hex_words, safe, safe_field, same, Compared, Wanted, UNWRITTEN};

/// The numbers of a check, within the limits.
fn some_scheme(random: &mut Random, field: &Field) -> Scheme {
    let stations = if random.chance(25) { 3 } else { random.from(4, 8) };
    let pages = random.size(field.places);
    let bound = if random.chance(70) {
        random.size(64.min(pages.saturating_sub(1).max(1)))
    } else {
        random.size(64)
    };
    Scheme { stations, pages, bound }
}

/// A code other than this one.
fn other(random: &mut Random, code: u32, codes: usize) -> u32 {
    ((code as usize + random.from(1, codes - 1)) % codes) as u32
}

/// A vector other than 0 the sums 1 to count of which are 0, as pages and codes, if it is quickly found.
fn silent(random: &mut Random, field: &Field, pages: usize, count: usize) -> Vec<(usize, u32)> {
    if count >= pages || count > 24 {
        return Vec::new();
    }
    let mut places = random.different(count + 1, pages);
    let free = places.swap_remove(random.below(count + 1));
    let code = random.from(1, field.q as usize - 1) as u32;
    let point = field.power(field.alpha, free);
    let mut values = Vec::new();
    let mut term = code;
    for _ in 0..count {
        term = field.product(term, point);
        values.push(field.negative(term));
    }
    let codes = codes_at(field, &places, &values).expect("a square system of different points");
    places.push(free);
    places.into_iter().zip(codes.into_iter().chain([code])).collect()
}

/// The rows of a farm, with strays of some kind.
fn some_rows(random: &mut Random, field: &Field, scheme: &Scheme) -> Vec<Vec<u32>> {
    let Scheme {
        stations: m,
        pages: n,
        bound: f,
    } = *scheme;
    let codes = if random.chance(15) { random.from(2, 3) } else { field.q as usize };
    let row: Vec<u32> = match random.below(10) {
        0 => vec![0; n],
        1 => vec![random.below(codes) as u32; n],
        _ => (0..n).map(|_| random.below(codes) as u32).collect(),
    };
    let mut rows = vec![row; m];
    let mut strew = |random: &mut Random, count: usize, stations: &[usize]| {
        for _ in 0..count {
            let (s, page) = (random.one(stations), random.below(n));
            rows[s][page] = other(random, rows[s][page], codes);
        }
    };
    let all: Vec<usize> = (0..m).collect();
    let one = random.below(m);
    match random.below(100) {
        // equal rows
        0..=7 => {}
        // a few strays, at any stations
        8..=32 => {
            let count = random.from(1, f);
            strew(random, count, &all);
        }
        // at one station, within the bound, or any
        33..=42 => {
            let count = random.from(1, f);
            strew(random, count, &[one]);
        }
        43..=47 => {
            let count = random.from(1, n);
            strew(random, count, &[one]);
        }
        // at two stations
        48..=55 => {
            let count = random.from(1, 2 * f);
            strew(random, count, &[one, (one + 1) % m]);
        }
        // many strays
        56..=63 => {
            let count = random.from(f.min(m * n), m * n);
            strew(random, count, &all);
        }
        // rows that have nothing in common
        64..=67 => {
            for row in &mut rows {
                for word in row {
                    *word = random.below(codes) as u32;
                }
            }
        }
        // the same strays at some stations, and a few others
        68..=83 => {
            let places = random.different(f.div_ceil(2).min(n), n);
            let like = random.different(m / 2 + 1, m);
            let group = &like[..1 + one % like.len()];
            for page in places {
                let code = other(random, rows[0][page - 1], codes);
                for &s in group {
                    rows[s - 1][page - 1] = code;
                }
            }
            let count = random.below(f / 2 + 1);
            let mut left = all.clone();
            left.rotate_left(one);
            left.truncate(2);
            for _ in 0..count {
                let (s, page) = (random.one(&left), random.below(n));
                rows[s][page] = other(random, rows[s][page], codes);
            }
        }
        // a vector that the first sums do not show, in three parts, some of which each station has
        84..=89 => {
            let parts: Vec<(usize, (usize, u32))> = silent(random, field, n, scheme.first_sums())
                .into_iter()
                .map(|term| (random.below(3), term))
                .collect();
            for row in &mut rows {
                let has = random.below(8);
                for &(part, (page, code)) in &parts {
                    if has >> part & 1 == 1 {
                        row[page - 1] = field.sum(row[page - 1], code);
                    }
                }
            }
        }
        // two stations that differ by a vector which the first sums do not show, or most of it
        _ => {
            let count = if random.chance(70) { scheme.first_sums() } else { 2 * (f / 2) };
            let second = (one + random.from(1, m - 1)) % m;
            let split = random.chance(60);
            for (page, code) in silent(random, field, n, count) {
                if split && random.chance(50) {
                    rows[second][page - 1] = field.difference(rows[second][page - 1], code);
                } else {
                    rows[one][page - 1] = field.sum(rows[one][page - 1], code);
                }
            }
            if random.chance(50) {
                let count = random.from(1, f);
                for _ in 0..count {
                    let (s, page) = (random.below(m), random.below(n));
                    rows[s][page] = other(random, rows[s][page], codes);
                }
            }
        }
    }
    rows
}

pub fn findings(random: &mut Random) -> Compared {
    let scheme = some_scheme(random, &SMALL);
    let rows = some_rows(random, &SMALL, &scheme);
    let mut input = vec![scheme.stations as u8, scheme.pages as u8, scheme.bound as u8];
    input.extend(rows.iter().flatten().map(|&word| word as u8));
    match random.below(100) {
        0 => input.truncate(random.below(4)),
        1 => {
            let length = random.below(input.len());
            input.truncate(length);
        }
        2 => input.push(10),
        3 => input.extend([random.bits() as u8; 3]),
        4..=6 => {
            let at = random.below(3);
            input[at] = match random.below(4) {
                0 => 0,
                1 => [2, 0, 65][at],
                2 => [9, 255, 64][at],
                _ => random.bits() as u8,
            };
        }
        _ => {}
    }
    let found = program::findings(&input);
    let due = found.text.as_bytes();
    let room = match random.below(20) {
        0 => due.len() - 1,
        1 => random.below(due.len()),
        2..=9 => due.len() + random.below(40),
        _ => due.len(),
    };
    let before: Vec<u8> = (0..room).map(|_| random.bits() as u8).collect();
    let (mut text, mut count, mut place) = (before.clone(), UNWRITTEN, UNWRITTEN);
    let status = unsafe { raw::wulambey_findings(input.as_ptr(), input.len(), text.as_mut_ptr(), room, &mut count, &mut place) };
    let cramped = room < due.len();
    let wanted = if cramped {
        Wanted::Ends(2, Some(2))
    } else {
        Wanted::Done(due.to_vec())
    };
    let mut all = same(&wanted, &before, status, Some(count), place, &text);
    if all.is_ok() && !cramped {
        all = safe(wulambey::findings(&input), &Ok(due.to_vec()));
    }
    let stations = if input.first() == Some(&3) { "M = 3" } else { "M > 3" };
    let name = match &found.way {
        _ if cramped => "refused 2 2".to_string(),
        way if way.starts_with("refused") => format!("the line {way}"),
        way => format!("{stations}: {way}"),
    };
    all.map(|()| name).map_err(|why| {
        format!(
            "{why}\na text of {room} bytes; the other's is {:?}; farm\n{}",
            found.text,
            hex(&input)
        )
    })
}

/// What a judged tally is to give: a status, a place, and the words of the tally after it.
/// A tally that is judged without a check is judged by its sums, also where a check with these numbers would be plain.
fn judged(field: &Field, scheme: &Scheme, tally: &[u32], settles: bool) -> Judgement {
    scheme.limits(field)?;
    let words = scheme.row_words();
    if tally.len() < scheme.stations * words {
        return Err(Refusal { number: 2, place: 1 });
    }
    let mut after = tally.to_vec();
    let rows: Vec<Vec<u32>> = tally
        .chunks(words)
        .take(scheme.stations)
        .map(|row| row.iter().map(|&word| field.code(word)).collect())
        .collect();
    let own = &rows[0][..scheme.pages];
    let sums: Vec<Vec<u32>> = rows.iter().map(|row| row[scheme.pages..].to_vec()).collect();
    let end = if settles {
        verdict::settle(field, scheme, own, &sums)
    } else {
        match verdict::weigh(field, scheme, own, &sums) {
            verdict::Weighed::Over(rule) => Settled::Over(rule),
            verdict::Weighed::Rows(rows, rule) => Settled::Rows(rows, rule),
            verdict::Weighed::Split(page, rule) => Settled::Split(page, rule),
            verdict::Weighed::Asks(again) => return Ok((ASKS, Some(again.station), after, again.rule)),
        }
    };
    Ok(match end {
        Settled::Over(rule) => (OVER, None, after, rule),
        Settled::Split(page, rule) => (SPLIT, Some(page), after, rule),
        Settled::Rows(rows, rule) => {
            for (s, row) in rows.iter().enumerate().skip(1) {
                after[s * words..s * words + scheme.pages].copy_from_slice(row);
            }
            (0, None, after, rule)
        }
    })
}

type Judgement = Result<(u32, Option<usize>, Vec<u32>, &'static str), Refusal>;

/// Compares what the safe module makes of the tally.
fn by_module(number: u32, scheme: &Scheme, tally: &[u32], settles: bool, judgement: &Judgement) -> Result<(), String> {
    let field = safe_field(number);
    let Scheme { stations, pages, bound } = *scheme;
    let mut after = tally.to_vec();
    let got = if settles {
        wulambey::settle(field, stations, pages, bound, &mut after).map(Weighed::Ended)
    } else {
        wulambey::weigh(field, stations, pages, bound, &mut after)
    };
    let wanted = judgement.as_ref().map_err(|refusal| *refusal).map(|(status, place, _, _)| match (*status, *place) {
        (OVER, _) => Weighed::Ended(Outcome::Over),
        (SPLIT, Some(page)) => Weighed::Ended(Outcome::Split(page)),
        (ASKS, Some(station)) => Weighed::Asks(station),
        _ => Weighed::Ended(Outcome::Filled),
    });
    safe(got, &wanted)?;
    let left = judgement.as_ref().map_or(tally, |(_, _, words, _)| words);
    if after == left {
        Ok(())
    } else {
        Err("the safe module leaves another tally".to_string())
    }
}

pub fn judge(random: &mut Random) -> Compared {
    let number = field_number(random);
    let known = numbered(number);
    let field = known.unwrap_or(SMALL);
    let mut scheme = some_scheme(random, &field);
    let rows = some_rows(random, &field, &scheme);
    let words = scheme.row_words();
    let unreduced = random.chance(10);
    let noise = random.chance(20);
    let raised = |random: &mut Random, code: u32| {
        if unreduced {
            code + field.q * random.below(1_000) as u32
        } else {
            code
        }
    };
    let mut tally = vec![0; scheme.stations * words];
    if noise {
        // words that are not read
        tally = random.words(tally.len());
    }
    for (s, row) in rows.iter().enumerate() {
        let at = s * words;
        if s == 0 {
            for (n, &code) in row.iter().enumerate() {
                tally[at + n] = raised(random, code);
            }
        }
        // with noise some rows lack the sums that only the station of the second asking tells
        let told = if noise && random.chance(30) { 0 } else { scheme.all_sums() };
        for j in 1..=told.max(scheme.first_sums()).min(SUMS) {
            tally[at + scheme.pages + j - 1] = raised(random, signatures::sum(&field, row, j));
        }
    }
    if random.chance(10) {
        // sums that no row has
        for _ in 0..random.from(1, 3) {
            let at = random.below(scheme.stations) * words + scheme.pages + random.below(scheme.all_sums());
            tally[at] = random.word();
        }
    }
    match random.below(100) {
        0 => tally.truncate(random.below(tally.len())),
        1 => {
            tally.pop();
        }
        2..=10 => tally.extend(random.words(5)),
        11 => scheme.stations = random.one(&[0, 2, 9, usize::MAX]),
        12 => scheme.pages = random.one(&[0, field.places + 1, 1_921, usize::MAX]),
        13 => scheme.bound = random.one(&[0, 65, usize::MAX]),
        _ => {}
    }
    let mut names = Vec::new();
    for (settles, call) in [(false, "weigh"), (true, "settle")] {
        let (mut after, mut place) = (tally.clone(), UNWRITTEN);
        let judge = if settles { raw::wulambey_settle } else { raw::wulambey_weigh };
        let status = unsafe {
            judge(
                number,
                scheme.stations,
                scheme.pages,
                scheme.bound,
                after.as_mut_ptr(),
                after.len(),
                &mut place,
            )
        };
        let judgement = known.map(|field| judged(&field, &scheme, &tally, settles));
        let by_module = judgement.as_ref().map_or(Ok(()), |judgement| by_module(number, &scheme, &tally, settles, judgement));
        let (wanted, name) = match judgement {
            None => (Wanted::Ends(255, None), "no field".to_string()),
            Some(Err(Refusal { number, place })) => (Wanted::Ends(number, Some(place)), format!("refused {number} {place}")),
            Some(Ok((status, place, words, rule))) => {
                let what = match status {
                    OVER => "over",
                    SPLIT => "split",
                    ASKS => "asks",
                    _ => "rows",
                };
                let wanted = if status == 0 {
                    Wanted::Done(words)
                } else {
                    Wanted::Ends(status, place)
                };
                (wanted, format!("{what} by {rule}"))
            }
        };
        same(&wanted, &tally, status, None, place, &after).and(by_module).map_err(|why| {
            let Scheme { stations, pages, bound } = scheme;
            format!(
                "{call}, {why}\nfield {number}, M {stations}, N {pages}, f {bound}, tally\n{}",
                hex_words(&tally)
            )
        })?;
        names.push(name);
    }
    names.dedup();
    Ok(names.join(", then "))
}
