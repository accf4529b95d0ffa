//! Words on the link, and serving a request from a row.

use super::fields::Field;
use super::signatures::{sign, sum};
use super::{refused, Refusal, SUMS};

pub fn kind(word: u32) -> u32 {
    word >> 28
}

pub fn value(word: u32) -> u32 {
    word & 0x0FFF_FFFF
}

/// A word of this kind.
pub fn word(kind: u32, value: u32) -> u32 {
    kind << 28 | value
}

/// The lowest position where a request's word is missing, surplus or of a wrong kind.
fn garbled(request: &[u32]) -> Option<usize> {
    const DUE: [&[u32]; 4] = [&[1], &[2], &[3, 4], &[5]];
    (1..=request.len().max(4)).find(|&at| match (DUE.get(at - 1), request.get(at - 1)) {
        (Some(kinds), Some(&there)) => !kinds.contains(&kind(there)),
        _ => true,
    })
}

/// The reply to a request, from the row of a station with this number.
fn serve(field: &Field, row: &[u32], station: u32, request: &[u32], room: usize) -> Result<Vec<u32>, Refusal> {
    if let Some(at) = garbled(request) {
        return refused(8, at);
    }
    if value(request[1]) != station {
        return refused(9, 2);
    }
    let (first, last) = (value(request[2]) as usize, value(request[3]) as usize);
    let sums = kind(request[2]) == 3;
    let most = if sums { SUMS } else { row.len() };
    if first < 1 || last > most || first > last {
        return refused(11, 0);
    }
    if room < 4 + (last + 1 - first) {
        return refused(2, 2);
    }
    let mut reply = request.to_vec();
    for index in first..=last {
        let code = if sums { sum(field, row, index) } else { field.code(row[index - 1]) };
        reply.push(word(6, code));
    }
    Ok(reply)
}

pub fn serve_card(field: &Field, card: &[u32], station: u32, request: &[u32], room: usize) -> Result<Vec<u32>, Refusal> {
    if !(1..=field.most_pages()).contains(&card.len()) {
        return refused(1, 3);
    }
    serve(field, card, station, request, room)
}

pub fn serve_job(field: &Field, job: &[u8], length: usize, station: u32, request: &[u32], room: usize) -> Result<Vec<u32>, Refusal> {
    let row = sign(field, job, length)?;
    serve(field, &row, station, request, room)
}
