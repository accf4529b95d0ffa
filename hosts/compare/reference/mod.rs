//! A second implementation of docs/RULES.md, written from that page alone, by other methods than the library's where there are some:
//! products by long multiplication and division, inverses by Euclid's algorithm, signatures by powers, sums by Horner's rule, and solved
//! differences by search, by Hankel systems and by full systems, all with Gaussian elimination.

pub mod fields;
pub mod linear;
pub mod program;
pub mod serving;
pub mod signatures;
pub mod solving;
pub mod verdict;

/// What was wrong, and where.
#[derive(Clone, Copy, PartialEq, Eq, Debug)]
pub struct Refusal {
    pub number: u32,
    pub place: usize,
}

pub fn refused<T>(number: u32, place: usize) -> Result<T, Refusal> {
    Err(Refusal { number, place })
}

/// The most sums that a station tells.
pub const SUMS: usize = 128;
