//! Wulambey for programs in Rust: safe calls of the static library. docs/RULES.md says what is computed, docs/HOSTING.md how to link.
//! For the editions 2021 and 2024, from Rust 1.82 on.
#![allow(dead_code)] // a program seldom makes all calls

/// The calls as the library has them; hosts/wulambey.h says what each does.
pub mod raw {
    use super::Entry;

    unsafe extern "C" {
        pub fn wulambey_sign(
            field: u32,
            job: *const u8,
            job_len: usize,
            page_length: usize,
            card: *mut u32,
            card_len: usize,
            count: *mut usize,
            place: *mut usize,
        ) -> u32;
        pub fn wulambey_sums(field: u32, card: *const u32, card_len: usize, sums: *mut u32, sums_len: usize, place: *mut usize) -> u32;
        pub fn wulambey_solve(
            field: u32,
            pages: usize,
            values: *const u32,
            values_len: usize,
            weight: usize,
            list: *mut Entry,
            count: *mut usize,
            place: *mut usize,
        ) -> u32;
        pub fn wulambey_serve_card(
            field: u32,
            card: *const u32,
            card_len: usize,
            station: u32,
            request: *const u32,
            request_len: usize,
            reply: *mut u32,
            reply_len: usize,
            count: *mut usize,
            place: *mut usize,
        ) -> u32;
        pub fn wulambey_serve_job(
            field: u32,
            job: *const u8,
            job_len: usize,
            page_length: usize,
            station: u32,
            request: *const u32,
            request_len: usize,
            reply: *mut u32,
            reply_len: usize,
            count: *mut usize,
            place: *mut usize,
        ) -> u32;
        pub fn wulambey_findings(
            input: *const u8,
            input_len: usize,
            text: *mut u8,
            text_len: usize,
            count: *mut usize,
            place: *mut usize,
        ) -> u32;
        pub fn wulambey_page_signature(
            field: u32,
            job: *const u8,
            job_len: usize,
            page_length: usize,
            page: usize,
            signature: *mut u32,
            place: *mut usize,
        ) -> u32;
        pub fn wulambey_row_sum(field: u32, row: *const u32, row_len: usize, j: usize, sum: *mut u32, place: *mut usize) -> u32;
        pub fn wulambey_weigh(
            field: u32,
            stations: usize,
            pages: usize,
            bound: usize,
            tally: *mut u32,
            tally_len: usize,
            place: *mut usize,
        ) -> u32;
        pub fn wulambey_settle(
            field: u32,
            stations: usize,
            pages: usize,
            bound: usize,
            tally: *mut u32,
            tally_len: usize,
            place: *mut usize,
        ) -> u32;
    }
}

/// The statuses beside those of refusals.
pub const DONE: u32 = 0;
pub const OVER: u32 = 251;
pub const SPLIT: u32 = 252;
pub const ASKS: u32 = 253;
pub const NO_SOLUTION: u32 = 254;
pub const NO_FIELD: u32 = 255;

/// The most pages of a job in any field.
pub const MOST_PAGES: usize = 1_920;
/// How many sums a station tells.
pub const MOST_SUMS: usize = 128;
/// The places of a list of `wulambey_solve`.
pub const LIST_PLACES: usize = 129;
/// The bytes of stack that suffice for each call of the library, as the header has them; the buffers of this module are on the heap.
pub const STACK: usize = 262_144;
/// The most words of a reply, and bytes of a text.
const REPLY_WORDS: usize = 4 + MOST_PAGES;
const TEXT_BYTES: usize = 8 * 255 * 6 + 26;

/// The fields, with their numbers in the calls.
#[derive(Clone, Copy, PartialEq, Eq, Debug)]
pub enum Field {
    Small = 1,
    Wide = 2,
    Prime = 3,
}

/// What was wrong and where, as docs/RULES.md has it under Refusals. It is written `refused NUMBER PLACE: WHY`.
#[derive(Clone, Copy, PartialEq, Eq, Debug)]
pub struct Refusal {
    pub number: u32,
    pub place: usize,
}

impl std::fmt::Display for Refusal {
    fn fmt(&self, out: &mut std::fmt::Formatter<'_>) -> std::fmt::Result {
        let Refusal { number, place } = *self;
        let why = match (number, place) {
            (1, 2) => "the number of stations is not 3 to 8",
            (1, 3) => "no job has so many pages",
            (1, 4) => "the bound is not 1 to 64",
            (1, 6) => "so many values cannot be solved with this weight",
            (1, 7) => "the page length is not 1 to 4,096",
            (2, 1) => "the tally is too short for its rows",
            (2, 2) => "the buffer is too short",
            (8, _) => "the word at this position is missing, surplus or wrong",
            (9, _) => "the request is for another station",
            (11, _) => "an index is outside its range",
            _ => "RULES.md says what this number means",
        };
        write!(out, "refused {number} {place}: {why}")
    }
}

impl std::error::Error for Refusal {}

/// One page of a solution, with its code, which is not 0.
#[repr(C)]
#[derive(Clone, Copy, PartialEq, Eq, Debug, Default)]
pub struct Entry {
    pub page: usize,
    pub code: u32,
}

/// How a tally is judged.
#[derive(Clone, Copy, PartialEq, Eq, Debug)]
pub enum Outcome {
    /// The rows are filled. Whether each page has a majority is for the caller to see.
    Filled,
    /// The rules come to no judgement, as they can with more stray copies than the bound.
    Over,
    /// This page has no majority.
    Split(usize),
}

/// How a tally is judged after the first asking.
#[derive(Clone, Copy, PartialEq, Eq, Debug)]
pub enum Weighed {
    /// Nobody is asked again.
    Ended(Outcome),
    /// This station is to be asked again.
    Asks(usize),
}

/// That the call did what it says; or what it refused.
fn done(status: u32, place: usize) -> Result<(), Refusal> {
    match status {
        DONE => Ok(()),
        number => Err(Refusal { number, place }),
    }
}

/// The front of the buffer, as long as the call said; or what the call refused.
fn front<T>(status: u32, mut buffer: Vec<T>, count: usize, place: usize) -> Result<Vec<T>, Refusal> {
    done(status, place)?;
    buffer.truncate(count);
    Ok(buffer)
}

/// The card of a job: the signature of each page. Refused: how the job is cut (1, places 7 and 3).
pub fn sign(field: Field, job: &[u8], page_length: usize) -> Result<Vec<u32>, Refusal> {
    let (mut card, mut count, mut place) = (vec![0; MOST_PAGES], 0, 0);
    let status = unsafe {
        raw::wulambey_sign(
            field as u32,
            job.as_ptr(),
            job.len(),
            page_length,
            card.as_mut_ptr(),
            card.len(),
            &mut count,
            &mut place,
        )
    };
    front(status, card, count, place)
}

/// The sums 1 to `count` of a card. Refused: a number of words that no job has (1, place 3); more than 128 sums (11, place 0).
pub fn sums(field: Field, card: &[u32], count: usize) -> Result<Vec<u32>, Refusal> {
    // one sum too many is refused as any more are
    let (mut sums, mut place) = (vec![0; count.min(MOST_SUMS + 1)], 0);
    let status = unsafe { raw::wulambey_sums(field as u32, card.as_ptr(), card.len(), sums.as_mut_ptr(), sums.len(), &mut place) };
    front(status, sums, count, place)
}

/// The pages of the solved difference, rising, or that there is no solution. Refused: the number of pages (1, place 3); the number of values (1,
/// place 6); a value that is no code (8, its position).
pub fn solve(field: Field, pages: usize, values: &[u32], weight: usize) -> Result<Option<Vec<Entry>>, Refusal> {
    let (mut list, mut count, mut place) = (vec![Entry::default(); LIST_PLACES], 0, 0);
    let status = unsafe {
        raw::wulambey_solve(
            field as u32,
            pages,
            values.as_ptr(),
            values.len(),
            weight,
            list.as_mut_ptr(),
            &mut count,
            &mut place,
        )
    };
    if status == NO_SOLUTION {
        return Ok(None);
    }
    front(status, list, count, place).map(Some)
}

/// The reply of the station with this number, whose row is a card, to a request. Refused: the card (1, place 3); a garbled request (8, the
/// position); another station's (9, place 2); an index outside (11, place 0).
pub fn serve_card(field: Field, card: &[u32], station: u32, request: &[u32]) -> Result<Vec<u32>, Refusal> {
    let (mut reply, mut count, mut place) = (vec![0; REPLY_WORDS], 0, 0);
    let status = unsafe {
        raw::wulambey_serve_card(
            field as u32,
            card.as_ptr(),
            card.len(),
            station,
            request.as_ptr(),
            request.len(),
            reply.as_mut_ptr(),
            reply.len(),
            &mut count,
            &mut place,
        )
    };
    front(status, reply, count, place)
}

/// The same from a job's bytes. Refused: how the job is cut (1, places 7 and 3); then as `serve_card` refuses a request.
pub fn serve_job(field: Field, job: &[u8], page_length: usize, station: u32, request: &[u32]) -> Result<Vec<u32>, Refusal> {
    let (mut reply, mut count, mut place) = (vec![0; REPLY_WORDS], 0, 0);
    let status = unsafe {
        raw::wulambey_serve_job(
            field as u32,
            job.as_ptr(),
            job.len(),
            page_length,
            station,
            request.as_ptr(),
            request.len(),
            reply.as_mut_ptr(),
            reply.len(),
            &mut count,
            &mut place,
        )
    };
    front(status, reply, count, place)
}

/// All bytes that the program `wulambey` writes for the bytes of a farm in the small field; what is refused of the farm is a line of them.
pub fn findings(input: &[u8]) -> Result<Vec<u8>, Refusal> {
    let (mut text, mut count, mut place) = (vec![0; TEXT_BYTES], 0, 0);
    let status = unsafe { raw::wulambey_findings(input.as_ptr(), input.len(), text.as_mut_ptr(), text.len(), &mut count, &mut place) };
    front(status, text, count, place)
}

/// The signature of one page of a job. Refused: how the job is cut (1, places 7 and 3); a page that is not 1 to their number (11, place 0).
pub fn page_signature(field: Field, job: &[u8], page_length: usize, page: usize) -> Result<u32, Refusal> {
    let (mut signature, mut place) = (0, 0);
    let status = unsafe { raw::wulambey_page_signature(field as u32, job.as_ptr(), job.len(), page_length, page, &mut signature, &mut place) };
    done(status, place).map(|()| signature)
}

/// Sum j of a row. Refused: a number of words that no job has (1, place 3); j is not 1 to 128 (11, place 0).
pub fn row_sum(field: Field, row: &[u32], j: usize) -> Result<u32, Refusal> {
    let (mut sum, mut place) = (0, 0);
    let status = unsafe { raw::wulambey_row_sum(field as u32, row.as_ptr(), row.len(), j, &mut sum, &mut place) };
    done(status, place).map(|()| sum)
}

/// How many words a tally has: a row of `pages + 128` for each station, its signatures by page and then its sums 1 to 128.
pub fn tally_words(stations: usize, pages: usize) -> usize {
    stations * (pages + MOST_SUMS)
}

/// Weighs a tally: judges it as a check that is not plain does after its first asking. hosts/wulambey.h says which of its words count, and what is
/// written: the signatures of all rows but row 1 where they are filled, and else nothing.
/// Refused: the number of stations, of pages, the bound (1, places 2, 3, 4); a tally that is too short (2, place 1).
pub fn weigh(field: Field, stations: usize, pages: usize, bound: usize, tally: &mut [u32]) -> Result<Weighed, Refusal> {
    let mut place = 0;
    let status = unsafe { raw::wulambey_weigh(field as u32, stations, pages, bound, tally.as_mut_ptr(), tally.len(), &mut place) };
    if status == ASKS {
        return Ok(Weighed::Asks(place));
    }
    outcome(status, place).map(Weighed::Ended)
}

/// Settles a tally, once the station that weighing names has told its other sums: works weighing out anew and, where that asks a station, judges by
/// all sums. It never asks again. Refused as weighing is.
pub fn settle(field: Field, stations: usize, pages: usize, bound: usize, tally: &mut [u32]) -> Result<Outcome, Refusal> {
    let mut place = 0;
    let status = unsafe { raw::wulambey_settle(field as u32, stations, pages, bound, tally.as_mut_ptr(), tally.len(), &mut place) };
    outcome(status, place)
}

fn outcome(status: u32, place: usize) -> Result<Outcome, Refusal> {
    match status {
        OVER => Ok(Outcome::Over),
        SPLIT => Ok(Outcome::Split(place)),
        _ => done(status, place).map(|()| Outcome::Filled),
    }
}
