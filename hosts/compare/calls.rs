//! Random cases of the calls that take a field.

use crate::random::Random;
use crate::reference::fields::{numbered, Field, SMALL};
use crate::reference::serving::word;
use crate::reference::{refused, serving, signatures, solving, Refusal};
use crate::wulambey::{self, raw, Entry, LIST_PLACES};
use crate::{field_number, hex, hex_words, safe, safe_field, same, way, Compared, Wanted, UNWRITTEN};

/// What a field's number stands for; small where it has none, for the sizes of a case.
fn field(random: &mut Random) -> (u32, Option<Field>, Field) {
    let number = field_number(random);
    (number, numbered(number), numbered(number).unwrap_or(SMALL))
}

fn wanted<T>(field: Option<Field>, result: impl FnOnce(&Field) -> Result<Vec<T>, Refusal>) -> Wanted<T> {
    field.map_or(Wanted::Ends(255, None), |field| result(&field).into())
}

/// Some number of pages, seldom one that no job has.
fn some_pages(random: &mut Random, field: &Field) -> usize {
    match random.below(100) {
        0 => 0,
        1 => field.places + 1,
        2 => random.one(&[255, 256, 1_919, 1_920, 1_921, 2_000]),
        3 => field.places,
        _ => random.size(field.places),
    }
}

/// A job's bytes and a page length; mostly with a short last page.
fn some_job(random: &mut Random, field: &Field) -> (Vec<u8>, usize) {
    let mut length = match random.below(100) {
        0 => 0,
        1 => 4_097,
        2 => random.one(&[usize::MAX, 1 << 32, 65_536]),
        3 => 4_096,
        4 => random.from(1, 4_096),
        5..=24 => random.from(1, 3),
        _ => random.size(100),
    };
    let pages = some_pages(random, field);
    if pages > 30 && (1..=4_096).contains(&length) {
        length = random.from(1, 12);
    }
    let bytes = match length.min(4_097).saturating_mul(pages) {
        0 => random.below(20),
        all => all - if random.chance(70) { random.below(length.min(4_097)) } else { 0 },
    };
    let job = match random.below(10) {
        0 => vec![0; bytes],
        1 => vec![255; bytes],
        _ => (0..bytes).map(|_| random.bits() as u8).collect(),
    };
    (job, length)
}

/// A row's words: codes, or any words.
fn some_card(random: &mut Random, field: &Field) -> Vec<u32> {
    let pages = some_pages(random, field);
    match random.below(10) {
        0..=2 => random.words(pages),
        3 => vec![0; pages],
        4 => (0..pages).map(|_| field.q - 1 + random.below(3) as u32).collect(),
        _ => (0..pages).map(|_| random.below(field.q as usize) as u32).collect(),
    }
}

pub fn sign(random: &mut Random) -> Compared {
    let (number, known, field) = field(random);
    let (job, length) = some_job(random, &field);
    let due = if length == 0 { 0 } else { job.len().div_ceil(length) };
    let room = match random.below(20) {
        0 => 0,
        1..=2 => due.saturating_sub(1),
        3..=9 => due + random.below(5),
        _ => due,
    };
    let before = random.words(room);
    let (mut card, mut count, mut place) = (before.clone(), UNWRITTEN, UNWRITTEN);
    let status = unsafe {
        raw::wulambey_sign(
            number,
            job.as_ptr(),
            job.len(),
            length,
            card.as_mut_ptr(),
            room,
            &mut count,
            &mut place,
        )
    };
    let wanted = wanted(known, |field| {
        let card = signatures::sign(field, &job, length)?;
        if card.len() > room {
            return refused(2, 2);
        }
        Ok(card)
    });
    let mut all = same(&wanted, &before, status, Some(count), place, &card);
    if all.is_ok() && known.is_some() {
        all = safe(
            wulambey::sign(safe_field(number), &job, length),
            &signatures::sign(&field, &job, length),
        );
    }
    all.map(|()| way("signed", &wanted)).map_err(|why| {
        format!(
            "{why}\nfield {number}, page length {length}, a card of {room} words, job\n{}",
            hex(&job)
        )
    })
}

pub fn sums(random: &mut Random) -> Compared {
    let (number, known, field) = field(random);
    let row = some_card(random, &field);
    let room = match random.below(50) {
        0 => 0,
        1 => 128,
        2 => random.from(129, 300),
        3 => 129,
        _ => random.size(128),
    };
    let before = random.words(room);
    let (mut sums, mut place) = (before.clone(), UNWRITTEN);
    let status = unsafe { raw::wulambey_sums(number, row.as_ptr(), row.len(), sums.as_mut_ptr(), room, &mut place) };
    let result = signatures::sums(&field, &row, room);
    let wanted = wanted(known, |_| result.clone());
    let mut all = same(&wanted, &before, status, None, place, &sums);
    if all.is_ok() && known.is_some() {
        all = safe(wulambey::sums(safe_field(number), &row, room), &result);
    }
    all.map(|()| way("summed", &wanted))
        .map_err(|why| format!("{why}\nfield {number}, {room} sums, card\n{}", hex_words(&row)))
}

/// The sums 1 to this count of a vector that has these codes at these pages.
fn values_of(field: &Field, pages: &[usize], codes: &[u32], count: usize) -> Vec<u32> {
    let mut values = vec![0; count];
    for (&page, &code) in pages.iter().zip(codes) {
        let point = field.power(field.alpha, page);
        let mut term = code;
        for value in &mut values {
            term = field.product(term, point);
            *value = field.sum(*value, term);
        }
    }
    values
}

pub fn solve(random: &mut Random) -> Compared {
    let (number, known, field) = field(random);
    let pages = some_pages(random, &field);
    let real_pages = pages.clamp(1, field.places);
    let mut weight = if random.chance(15) { random.below(3) } else { random.size(64) };
    let mut length = match random.below(20) {
        0..=10 => 2 * weight,
        11..=13 => (2 * weight + random.below(4)).min(128),
        14..=17 => pages.min(128),
        18 => 128,
        _ => random.below(140),
    };
    if random.below(200) == 0 {
        weight = random.one(&[usize::MAX, usize::MAX / 2 + 1, 65, 129]);
        length = random.one(&[pages.min(128), length, 0, 128]);
    }
    // a planted vector: within the weight, or above it
    let planted = match random.below(10) {
        0..=5 => random.below(weight.min(64) + 1),
        6 => weight.min(64),
        _ => weight.min(64) + random.from(1, 4),
    };
    let places = random.different(planted.min(real_pages), real_pages);
    let codes: Vec<u32> = places.iter().map(|_| random.from(1, field.q as usize - 1) as u32).collect();
    let mut values = match random.below(20) {
        0 => vec![0; length],
        1 => (0..length).map(|_| random.below(field.q as usize) as u32).collect(),
        _ => values_of(&field, &places, &codes, length),
    };
    if !values.is_empty() && random.chance(12) {
        let at = random.below(values.len());
        values[at] = random.below(field.q as usize) as u32;
    }
    if !values.is_empty() && random.chance(5) {
        let at = random.below(values.len());
        values[at] = if random.chance(50) { field.q } else { random.word() };
    }
    let before: Vec<Entry> = (0..LIST_PLACES)
        .map(|_| Entry {
            page: random.below(3_000),
            code: random.word(),
        })
        .collect();
    let (mut list, mut count, mut place) = (before.clone(), UNWRITTEN, UNWRITTEN);
    let status = unsafe {
        raw::wulambey_solve(
            number,
            pages,
            values.as_ptr(),
            values.len(),
            weight,
            list.as_mut_ptr(),
            &mut count,
            &mut place,
        )
    };
    let result = solving::solve(&field, pages, &values, weight);
    let as_entries = |list: &solving::List| list.iter().map(|&(page, code)| Entry { page, code }).collect::<Vec<Entry>>();
    let mut own = Ok(());
    if let Ok(found) = &result {
        for (method, other) in solving::by_each(&field, pages, &values, weight) {
            if other != *found {
                own = Err(format!(
                    "the second implementation differs from itself: {method} finds {other:?}, and not {found:?}"
                ));
            }
        }
    }
    let wanted = match (known, &result) {
        (None, _) => Wanted::Ends(255, None),
        (_, Err(refusal)) => Wanted::Ends(refusal.number, Some(refusal.place)),
        (_, Ok(None)) => Wanted::Ends(254, None),
        (_, Ok(Some(found))) => {
            let mut entries = as_entries(found);
            entries.resize(LIST_PLACES, Entry::default());
            Wanted::Done(entries)
        }
    };
    // the whole list is written; how many pages there are is told apart
    let solved = matches!(wanted, Wanted::Done(_));
    let pages_found = result.as_ref().ok().and_then(|found| found.as_ref()).map_or(0, Vec::len);
    let mut all = own.and_then(|()| same(&wanted, &before, status, (!solved).then_some(count), place, &list));
    if all.is_ok() && solved && count != pages_found {
        all = Err(format!("the count: the library's is {count}, the other's {pages_found}"));
    }
    if all.is_ok() && known.is_some() {
        all = safe(
            wulambey::solve(safe_field(number), pages, &values, weight),
            &result.map(|found| found.map(|list| as_entries(&list))),
        );
    }
    let full = if values.len() == pages { ", as many values as pages" } else { "" };
    let name = match pages_found {
        0 => format!("solved, empty{full}"),
        1..=4 => format!("solved, of weight 1 to 4{full}"),
        _ => format!("solved, of weight 5 and more{full}"),
    };
    all.map(|()| way(&name, &wanted)).map_err(|why| {
        format!(
            "{why}\nfield {number}, {pages} pages, weight {weight}, values\n{}",
            hex_words(&values)
        )
    })
}

/// A request to this station of so many pages, mostly a right one, and room for its reply.
fn some_request(random: &mut Random, station: u32, pages: usize) -> (Vec<u32>, usize) {
    let sums = random.chance(50);
    let most = if sums { 128 } else { pages.max(1) };
    let mut first = random.size(most);
    let span = random.one(&[0, 3, 20, 2_000]);
    let mut last = random.from(first, most.min(first + span));
    if random.chance(10) {
        match random.below(6) {
            0 => (first, last) = (last, first.saturating_sub(1)),
            1 => first = 0,
            2 => last = most + 1,
            3 => last = 0x0FFF_FFFF,
            4 => first = most + 1,
            _ => (first, last) = (0x0FFF_FFFF, 0x0FFF_FFFF),
        }
    }
    let mut request = vec![
        word(1, random.word() & 0x0FFF_FFFF),
        word(2, station & 0x0FFF_FFFF),
        word(if sums { 3 } else { 4 }, first as u32),
        word(5, last as u32),
    ];
    if random.chance(8) {
        request[1] = word(2, random.from(0, 9) as u32);
    }
    if random.chance(8) {
        let at = random.below(4);
        request[at] = word(random.below(16) as u32, request[at] & 0x0FFF_FFFF);
    }
    if random.chance(3) {
        let at = random.below(4);
        request[at] = random.word();
    }
    if random.chance(8) {
        let length = random.below(8);
        let more = random.words(8);
        request.extend(more);
        request.truncate(length);
    }
    let due = 4 + (last + 1).saturating_sub(first).min(2_000);
    let room = match random.below(20) {
        0 => due - 1,
        1 => random.below(6),
        2..=8 => due + random.below(6),
        _ => due,
    };
    (request, room)
}

fn some_station(random: &mut Random) -> u32 {
    match random.below(50) {
        0 => random.word(),
        1 => 0,
        2 => 1 << 28,
        _ => random.from(1, 8) as u32,
    }
}

fn kind_of(request: &[u32]) -> &'static str {
    match request.get(2).map(|word| word >> 28) {
        Some(3) => "served sums",
        _ => "served signatures",
    }
}

pub fn serve_card(random: &mut Random) -> Compared {
    let (number, known, field) = field(random);
    let card = some_card(random, &field);
    let station = some_station(random);
    let (request, room) = some_request(random, station, card.len());
    let before = random.words(room);
    let (mut reply, mut count, mut place) = (before.clone(), UNWRITTEN, UNWRITTEN);
    let status = unsafe {
        raw::wulambey_serve_card(
            number,
            card.as_ptr(),
            card.len(),
            station,
            request.as_ptr(),
            request.len(),
            reply.as_mut_ptr(),
            room,
            &mut count,
            &mut place,
        )
    };
    let result = serving::serve_card(&field, &card, station, &request, room);
    let cramped = result == refused(2, 2);
    let wanted = wanted(known, |_| result.clone());
    let mut all = same(&wanted, &before, status, Some(count), place, &reply);
    if all.is_ok() && known.is_some() && !cramped {
        all = safe(wulambey::serve_card(safe_field(number), &card, station, &request), &result);
    }
    all.map(|()| way(kind_of(&request), &wanted)).map_err(|why| {
        let request = hex_words(&request);
        format!(
            "{why}\nfield {number}, station {station}, a reply of {room} words, request\n{request}\ncard\n{}",
            hex_words(&card)
        )
    })
}

pub fn serve_job(random: &mut Random) -> Compared {
    let (number, known, field) = field(random);
    let (job, length) = some_job(random, &field);
    let station = some_station(random);
    let pages = if length == 0 { 0 } else { job.len().div_ceil(length) };
    let (request, room) = some_request(random, station, pages);
    let before = random.words(room);
    let (mut reply, mut count, mut place) = (before.clone(), UNWRITTEN, UNWRITTEN);
    let status = unsafe {
        raw::wulambey_serve_job(
            number,
            job.as_ptr(),
            job.len(),
            length,
            station,
            request.as_ptr(),
            request.len(),
            reply.as_mut_ptr(),
            room,
            &mut count,
            &mut place,
        )
    };
    let result = serving::serve_job(&field, &job, length, station, &request, room);
    let cramped = result == refused(2, 2);
    let wanted = wanted(known, |_| result.clone());
    let mut all = same(&wanted, &before, status, Some(count), place, &reply);
    if all.is_ok() && known.is_some() && !cramped {
        all = safe(wulambey::serve_job(safe_field(number), &job, length, station, &request), &result);
    }
    all.map(|()| way(kind_of(&request), &wanted)).map_err(|why| {
        let request = hex_words(&request);
        format!(
            "{why}\nfield {number}, page length {length}, station {station}, a reply of {room} words, request\n{request}\njob\n{}",
            hex(&job)
        )
    })
}

/// Mostly one of 1 to this, else one outside.
fn some_index(random: &mut Random, most: usize) -> usize {
    match random.below(20) {
        0 => 0,
        1 => most + 1,
        2 => random.one(&[usize::MAX, 1 << 32, 129, 1_921]),
        3 => most,
        _ => random.from(1, most.max(1)),
    }
}

pub fn page_signature(random: &mut Random) -> Compared {
    let (number, known, field) = field(random);
    let (job, length) = some_job(random, &field);
    let page = some_index(random, if length == 0 { 0 } else { job.len().div_ceil(length) });
    let before = random.word();
    let (mut signature, mut place) = (before, UNWRITTEN);
    let status = unsafe { raw::wulambey_page_signature(number, job.as_ptr(), job.len(), length, page, &mut signature, &mut place) };
    let result = signatures::page_signature(&field, &job, length, page);
    let wanted = wanted(known, |_| result.map(|code| vec![code]));
    let mut all = same(&wanted, &[before], status, None, place, &[signature]);
    if all.is_ok() && known.is_some() {
        all = safe(wulambey::page_signature(safe_field(number), &job, length, page), &result);
    }
    all.map(|()| way("signed", &wanted)).map_err(|why| {
        let job = hex(&job);
        format!("{why}\nfield {number}, page length {length}, page {page}, job\n{job}")
    })
}

pub fn row_sum(random: &mut Random) -> Compared {
    let (number, known, field) = field(random);
    let row = some_card(random, &field);
    let j = some_index(random, 128);
    let before = random.word();
    let (mut sum, mut place) = (before, UNWRITTEN);
    let status = unsafe { raw::wulambey_row_sum(number, row.as_ptr(), row.len(), j, &mut sum, &mut place) };
    let result = signatures::row_sum(&field, &row, j);
    let wanted = wanted(known, |_| result.map(|code| vec![code]));
    let mut all = same(&wanted, &[before], status, None, place, &[sum]);
    if all.is_ok() && known.is_some() {
        all = safe(wulambey::row_sum(safe_field(number), &row, j), &result);
    }
    all.map(|()| way("summed", &wanted))
        .map_err(|why| format!("{why}\nfield {number}, sum {j}, row\n{}", hex_words(&row)))
}
