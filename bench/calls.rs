//! The library's calls, and FLINT's operations.
use crate::plain::{Farm, List, Outcome};

mod c {
    use crate::plain::List;

    extern "C" {
        pub fn wulambey_page_signature(
            field: u32,
            job: *const u8,
            job_len: usize,
            page_length: usize,
            page: usize,
            signature: *mut u32,
            place: *mut usize,
        ) -> u32;
        pub fn wulambey_row_sum(field: u32, row: *const u32, row_len: usize, j: usize, sum: *mut u32, place: *mut usize) -> u32;
        pub fn wulambey_solve(
            field: u32,
            pages: usize,
            values: *const u32,
            values_len: usize,
            weight: usize,
            list: *mut List,
            count: *mut usize,
            place: *mut usize,
        ) -> u32;
        pub fn wulambey_weigh(
            field: u32,
            stations: usize,
            pages: usize,
            bound: usize,
            tally: *mut u32,
            len: usize,
            place: *mut usize,
        ) -> u32;
        pub fn wulambey_settle(
            field: u32,
            stations: usize,
            pages: usize,
            bound: usize,
            tally: *mut u32,
            len: usize,
            place: *mut usize,
        ) -> u32;
        pub fn wulambey_serve_card(
            field: u32,
            card: *const u32,
            card_len: usize,
            station: u32,
            request: *const u32,
            request_len: usize,
            reply: *mut u32,
            reply_len: usize,
            count: *mut usize,
            place: *mut usize,
        ) -> u32;
        pub fn wulambey_serve_job(
            field: u32,
            job: *const u8,
            job_len: usize,
            page_length: usize,
            station: u32,
            request: *const u32,
            request_len: usize,
            reply: *mut u32,
            reply_len: usize,
            count: *mut usize,
            place: *mut usize,
        ) -> u32;
        pub fn flint_open();
        pub fn flint_sign(field: u32, page: *const u8, length: usize) -> u32;
        pub fn flint_sum(field: u32, row: *const u32, pages: usize, j: usize) -> u32;
        pub fn flint_sums(field: u32, row: *const u32, pages: usize, first: usize, count: usize, sums: *mut u32);
        pub fn flint_roots(field: u32, values: *const u32, count: usize, pages: usize, found: *mut usize) -> usize;
    }
}

pub fn page_signature(field: u32, job: &[u8], length: usize, page: usize) -> u32 {
    let (mut signature, mut place) = (0, 0);
    let status = unsafe { c::wulambey_page_signature(field, job.as_ptr(), job.len(), length, page, &mut signature, &mut place) };
    assert_eq!(status, 0);
    signature
}

pub fn row_sum(field: u32, row: &[u32], j: usize) -> u32 {
    let (mut sum, mut place) = (0, 0);
    let status = unsafe { c::wulambey_row_sum(field, row.as_ptr(), row.len(), j, &mut sum, &mut place) };
    assert_eq!(status, 0);
    sum
}

/// How many pages the solution has, in the list.
pub fn solve(field: u32, pages: usize, values: &[u32], weight: usize, list: &mut List) -> Option<usize> {
    let (mut count, mut place) = (0, 0);
    match unsafe { c::wulambey_solve(field, pages, values.as_ptr(), values.len(), weight, list, &mut count, &mut place) } {
        0 => Some(count),
        254 => None,
        status => panic!("status {status}"),
    }
}

/// Weighs and, where a station is asked again, settles: all sums are in the tally. How both end.
pub fn judge(field: u32, farm: &Farm, tally: &mut [u32]) -> (Outcome, Outcome) {
    let mut place = 0;
    let outcome = |status, place| match status {
        0 => Outcome::Filled,
        251 => Outcome::Over,
        252 => Outcome::Split(place),
        253 => Outcome::Asks(place),
        _ => panic!("status {status}"),
    };
    let Farm { stations, pages, bound } = *farm;
    let weighed = unsafe { c::wulambey_weigh(field, stations, pages, bound, tally.as_mut_ptr(), tally.len(), &mut place) };
    let weighed = outcome(weighed, place);
    if !matches!(weighed, Outcome::Asks(_)) {
        return (weighed, weighed);
    }
    let settled = unsafe { c::wulambey_settle(field, stations, pages, bound, tally.as_mut_ptr(), tally.len(), &mut place) };
    (weighed, outcome(settled, place))
}

pub fn serve_card(field: u32, card: &[u32], request: &[u32], reply: &mut [u32]) -> usize {
    let (mut count, mut place) = (0, 0);
    let status = unsafe {
        c::wulambey_serve_card(
            field,
            card.as_ptr(),
            card.len(),
            1,
            request.as_ptr(),
            request.len(),
            reply.as_mut_ptr(),
            reply.len(),
            &mut count,
            &mut place,
        )
    };
    assert_eq!(status, 0);
    count
}

pub fn serve_job(field: u32, job: &[u8], length: usize, request: &[u32], reply: &mut [u32]) -> usize {
    let (mut count, mut place) = (0, 0);
    let status = unsafe {
        c::wulambey_serve_job(
            field,
            job.as_ptr(),
            job.len(),
            length,
            1,
            request.as_ptr(),
            request.len(),
            reply.as_mut_ptr(),
            reply.len(),
            &mut count,
            &mut place,
        )
    };
    assert_eq!(status, 0);
    count
}

pub fn flint_open() {
    unsafe { c::flint_open() }
}

pub fn flint_sign(field: u32, page: &[u8]) -> u32 {
    unsafe { c::flint_sign(field, page.as_ptr(), page.len()) }
}

pub fn flint_sum(field: u32, row: &[u32], j: usize) -> u32 {
    unsafe { c::flint_sum(field, row.as_ptr(), row.len(), j) }
}

/// Sums first, first + 1, .. of a row.
pub fn flint_sums(field: u32, row: &[u32], first: usize, sums: &mut [u32]) {
    unsafe { c::flint_sums(field, row.as_ptr(), row.len(), first, sums.len(), sums.as_mut_ptr()) }
}

/// The pages of a difference with these sums.
pub fn flint_roots(field: u32, values: &[u32], pages: usize) -> Vec<usize> {
    let mut found = vec![0; pages];
    let count = unsafe { c::flint_roots(field, values.as_ptr(), values.len(), pages, found.as_mut_ptr()) };
    found.truncate(count);
    found
}
