//! The library's methods in plain Rust: the same loops, over the same fields.

pub trait Field {
    const ALPHA: u32;

    fn add(a: u32, b: u32) -> u32;
    fn sub(a: u32, b: u32) -> u32;
    fn mul(a: u32, b: u32) -> u32;
    fn inv(a: u32) -> u32;
    fn alpha_add(a: u32, c: u32) -> u32;

    fn mul_add(a: u32, b: u32, c: u32) -> u32 {
        Self::add(Self::mul(a, b), c)
    }

    fn alpha_pow(n: usize) -> u32 {
        let (mut base, mut left, mut product) = (Self::ALPHA, n, 1);
        while left > 0 {
            if left % 2 == 1 {
                product = Self::mul(product, base);
            }
            base = Self::mul(base, base);
            left /= 2;
        }
        product
    }
}

/// Words of WIDTH bits, modulo a polynomial; products by shifting and adding.
pub struct Binary<const WIDTH: u32, const POLY: u32>;

pub type Small = Binary<8, 0x11D>;
pub type Wide = Binary<16, 0x1100B>;

impl<const WIDTH: u32, const POLY: u32> Field for Binary<WIDTH, POLY> {
    const ALPHA: u32 = 2;

    fn add(a: u32, b: u32) -> u32 {
        a ^ b
    }

    fn sub(a: u32, b: u32) -> u32 {
        a ^ b
    }

    fn mul(a: u32, b: u32) -> u32 {
        let (mut x, mut y, mut sum) = (b, a, 0);
        for _ in 0..WIDTH {
            sum ^= (y & 1) * x;
            x = (x << 1) ^ ((x >> (WIDTH - 1) & 1) * POLY);
            y >>= 1;
        }
        sum
    }

    fn inv(a: u32) -> u32 {
        let (mut square, mut result) = (Self::mul(a, a), 1);
        for _ in 1..WIDTH {
            result = Self::mul(result, square);
            square = Self::mul(square, square);
        }
        result
    }

    fn alpha_add(a: u32, c: u32) -> u32 {
        (a << 1) ^ ((a >> (WIDTH - 1) & 1) * POLY) ^ c
    }
}

/// Wide with products by tables of logarithms and powers.
pub struct Tables;

const fn powers() -> [u16; 131072] {
    let mut table = [0; 131072];
    let (mut n, mut x) = (0, 1u32);
    while n < 131072 {
        table[n] = x as u16;
        x = (x << 1) ^ ((x >> 15) * 0x1100B);
        n += 1;
    }
    table
}

const fn logarithms(powers: &[u16; 131072]) -> [u16; 65536] {
    let mut table = [0; 65536];
    let mut n = 0;
    while n < 65535 {
        table[powers[n] as usize] = n as u16;
        n += 1;
    }
    table
}

static POWERS: [u16; 131072] = powers();
static LOGARITHMS: [u16; 65536] = logarithms(&powers());

impl Field for Tables {
    const ALPHA: u32 = 2;

    fn add(a: u32, b: u32) -> u32 {
        a ^ b
    }

    fn sub(a: u32, b: u32) -> u32 {
        a ^ b
    }

    fn mul(a: u32, b: u32) -> u32 {
        if a == 0 || b == 0 {
            return 0;
        }
        u32::from(POWERS[usize::from(LOGARITHMS[a as usize & 0xFFFF]) + usize::from(LOGARITHMS[b as usize & 0xFFFF])])
    }

    fn inv(a: u32) -> u32 {
        if a == 0 { 0 } else { u32::from(POWERS[65535 - usize::from(LOGARITHMS[a as usize & 0xFFFF])]) }
    }

    fn alpha_add(a: u32, c: u32) -> u32 {
        Wide::alpha_add(a, c)
    }
}

pub struct Prime;

impl Field for Prime {
    const ALPHA: u32 = 3;

    fn add(a: u32, b: u32) -> u32 {
        (a + b) % 65537
    }

    fn sub(a: u32, b: u32) -> u32 {
        (a + 65537 - b) % 65537
    }

    fn mul(a: u32, b: u32) -> u32 {
        (u64::from(a) * u64::from(b) % 65537) as u32
    }

    fn inv(a: u32) -> u32 {
        let (mut x, mut scale) = (u64::from(a), 1);
        while x > 1 {
            scale = scale * (65537 - 65537 / x) % 65537;
            x = 65537 % x;
        }
        (x * scale % 65537) as u32
    }

    fn alpha_add(a: u32, c: u32) -> u32 {
        (a * 3 + c) % 65537
    }

    fn mul_add(a: u32, b: u32, c: u32) -> u32 {
        ((u64::from(a) * u64::from(b) + u64::from(c)) % 65537) as u32
    }
}

pub fn sign<F: Field>(page: &[u8]) -> u32 {
    page.iter().fold(0, |signature, byte| F::alpha_add(signature, u32::from(*byte)))
}

fn sum<F: Field>(signatures: impl Iterator<Item = u32>, j: usize) -> u32 {
    let step = F::alpha_pow(j);
    let (mut weight, mut total) = (step, 0);
    for signature in signatures {
        total = F::mul_add(signature, weight, total);
        weight = F::mul(weight, step);
    }
    total
}

pub fn row_sum<F: Field>(row: &[u32], j: usize) -> u32 {
    sum::<F>(row.iter().copied(), j)
}

/// Serving sums first to last to station 1 of check 1: the header of the request, then a value word for each answer.
fn serve(request: &[u32], reply: &mut [u32], sum: impl Fn(usize) -> u32) -> usize {
    const KINDS: [u32; 4] = [1, 2, 3, 5];
    assert!(request.len() == 4 && request.iter().zip(KINDS).all(|(word, kind)| word >> 28 == kind));
    let (first, last) = ((request[2] & 0xFFF_FFFF) as usize, (request[3] & 0xFFF_FFFF) as usize);
    assert!(1 <= first && first <= last && last <= 128);
    reply[..4].copy_from_slice(request);
    reply[4..].iter_mut().zip(first..=last).for_each(|(value, j)| *value = 6 << 28 | sum(j));
    5 + last - first
}

pub fn serve_card<F: Field>(card: &[u32], request: &[u32], reply: &mut [u32]) -> usize {
    serve(request, reply, |j| row_sum::<F>(card, j))
}

/// Signs the whole job for each sum.
pub fn serve_job<F: Field>(job: &[u8], length: usize, request: &[u32], reply: &mut [u32]) -> usize {
    serve(request, reply, |j| sum::<F>(job.chunks(length).map(sign::<F>), j))
}

/// The faster way: signs the job once.
pub fn serve_signed<F: Field>(job: &[u8], length: usize, request: &[u32], reply: &mut [u32]) -> usize {
    let card: Vec<u32> = job.chunks(length).map(sign::<F>).collect();
    serve_card::<F>(&card, request, reply)
}

/// One page of a solution.
#[repr(C)]
#[derive(Clone, Copy, Default, PartialEq, Debug)]
pub struct Entry {
    pub page: usize,
    pub code: u32,
}

pub type List = [Entry; 129];

pub const BLANK: List = [Entry { page: 0, code: 0 }; 129];

#[derive(Clone, Copy)]
struct Candidate {
    page: usize,
    point: u32,
    code: u32,
}

/// x^a p - c x^b w
fn combine<F: Field>(p: &[u32; 129], a: usize, c: u32, w: &[u32; 129], b: usize) -> [u32; 129] {
    let coefficient = |p: &[u32; 129], a: usize, i: usize| if i < a { 0 } else { p[i - a] };
    std::array::from_fn(|i| F::sub(coefficient(p, a, i), F::mul(c, coefficient(w, b, i))))
}

fn locate<F: Field>(values: &[u32], weight: usize) -> ([u32; 129], usize) {
    let mut locator = [0; 129];
    locator[0] = 1;
    let mut previous = [0; 129];
    let (mut divisor, mut degree, mut cleared) = (1, 0, 0);
    while cleared < weight {
        let discrepancy =
            locator[..=degree].iter().zip(&values[cleared..]).fold(0, |sum, (c, value)| F::mul_add(*c, *value, sum));
        if discrepancy == 0 {
            cleared += 1;
            continue;
        }
        let scale = F::mul(discrepancy, F::inv(divisor));
        if cleared < degree {
            locator = combine::<F>(&locator, 0, scale, &previous, degree - 1 - cleared);
            cleared += 1;
        } else {
            let longer = combine::<F>(&locator, cleared + 1 - degree, scale, &previous, 0);
            previous = locator;
            locator = longer;
            divisor = discrepancy;
            (degree, cleared) = (cleared + 1, degree);
        }
    }
    (locator, degree + 1)
}

fn roots<F: Field>(locator: &[u32], pages: usize) -> Vec<Candidate> {
    let mut found = Vec::with_capacity(128);
    let mut point = 1;
    for page in 1..=pages {
        point = F::mul(point, F::ALPHA);
        if locator.iter().rev().fold(0, |sum, c| F::mul_add(sum, point, *c)) == 0 {
            found.push(Candidate { page, point, code: 0 });
        }
    }
    found
}

fn interpolate<F: Field>(candidates: &mut [Candidate], values: &[u32]) {
    let mut product = [0; 129];
    product[0] = 1;
    for candidate in candidates.iter() {
        product = combine::<F>(&product, 1, candidate.point, &product, 0);
    }
    let count = candidates.len();
    for candidate in candidates {
        let x = candidate.point;
        let (mut quotient, mut against_values, mut at_x) = (0, 0, 0);
        for k in (0..count).rev() {
            quotient = F::mul_add(quotient, x, product[k + 1]);
            against_values = F::mul_add(quotient, values[k], against_values);
            at_x = F::mul_add(at_x, x, quotient);
        }
        candidate.code = F::mul(against_values, F::inv(F::mul(x, at_x)));
    }
}

fn verified<F: Field>(candidates: &[Candidate], values: &[u32], weight: usize) -> bool {
    let mut terms = candidates.to_vec();
    let has_sums = |terms: &mut [Candidate]| {
        values.iter().all(|value| {
            let sum = terms.iter_mut().fold(0, |sum, term| {
                term.code = F::mul(term.code, term.point);
                F::add(sum, term.code)
            });
            sum == *value
        })
    };
    candidates.iter().filter(|candidate| candidate.code != 0).count() <= weight && has_sums(&mut terms)
}

/// How many pages the solution has, in the list.
pub fn solve<F: Field>(pages: usize, values: &[u32], weight: usize, list: &mut List) -> Option<usize> {
    let mut candidates = if values.len() == pages {
        roots::<F>(&[], pages)
    } else {
        let (locator, length) = locate::<F>(values, weight);
        roots::<F>(&locator[..length], pages)
    };
    interpolate::<F>(&mut candidates, values);
    if !verified::<F>(&candidates, values, weight) {
        return None;
    }
    *list = BLANK;
    let mut listed = 0;
    for candidate in candidates.iter().filter(|candidate| candidate.code != 0) {
        list[listed] = Entry { page: candidate.page, code: candidate.code };
        listed += 1;
    }
    Some(listed)
}

fn code_at(list: &List, page: usize) -> u32 {
    for entry in list {
        if entry.page == 0 {
            return 0;
        }
        if entry.page == page {
            return entry.code;
        }
    }
    0
}

#[derive(Clone, Copy)]
pub struct Farm {
    pub stations: usize,
    pub pages: usize,
    pub bound: usize,
}

#[derive(Clone, Copy, PartialEq, Debug)]
pub enum Outcome {
    Over,
    Split(usize),
    Filled,
    Asks(usize),
}

#[derive(Clone, Copy)]
enum Doubt {
    TwoApart,
    Nobody,
    Triangle { x: usize, y: usize, z: usize, outside: usize },
    Station(usize),
}

type Pairs = [[Option<(usize, List)>; 8]; 8];

impl Farm {
    fn row_start(&self, station: usize) -> usize {
        (station - 1) * (self.pages + 128)
    }

    fn sum(&self, tally: &[u32], station: usize, j: usize) -> u32 {
        tally[self.row_start(station) + self.pages + j - 1]
    }

    fn solve_pairs<F: Field>(&self, tally: &[u32]) -> Box<Pairs> {
        let mut pairs = Box::new([[None; 8]; 8]);
        for s in 1..self.stations {
            for t in s + 1..=self.stations {
                let values: [u32; 128] =
                    std::array::from_fn(|k| F::sub(self.sum(tally, s, k + 1), self.sum(tally, t, k + 1)));
                let mut list = BLANK;
                let found = solve::<F>(self.pages, &values[..self.bound], self.bound / 2, &mut list);
                pairs[s - 1][t - 1] = found.map(|weight| (weight, list));
            }
        }
        pairs
    }

    fn first_pair(&self, passes: impl Fn(usize, usize) -> bool) -> Option<(usize, usize)> {
        for s in 1..=self.stations {
            if let Some(t) = (s + 1..=self.stations).find(|t| passes(s, *t)) {
                return Some((s, t));
            }
        }
        None
    }

    fn doubt(&self, pairs: &Pairs) -> Doubt {
        let weight = |s: usize, t: usize| pairs[s - 1][t - 1].as_ref().map(|(weight, _)| *weight);
        let disjoint = |s, t, u, v| s != u && s != v && t != u && t != v;
        let suspect = |s, t| match weight(s, t) {
            Some(own) => {
                self.first_pair(|u, v| disjoint(s, t, u, v) && !weight(u, v).is_some_and(|other| other < own)).is_none()
            }
            None => true,
        };
        let first_apart = |x, y| self.first_pair(|u, v| disjoint(x, y, u, v) && suspect(u, v));
        if self.first_pair(|s, t| suspect(s, t) && first_apart(s, t).is_some()).is_some() {
            return Doubt::TwoApart;
        }
        let Some((x, y)) = first_apart(0, 0) else { return Doubt::Nobody };
        let Some((_, z)) = first_apart(x, x) else { return Doubt::Station(x) };
        if first_apart(y, y).is_none() {
            return Doubt::Station(y);
        }
        Doubt::Triangle { x, y, z, outside: (1..=3).find(|s| ![x, y, z].contains(s)).unwrap_or(4) }
    }

    fn fill<F: Field>(&self, tally: &mut [u32], gap: impl Fn(usize, usize) -> u32) {
        for station in 2..=self.stations {
            for page in 1..=self.pages {
                tally[self.row_start(station) + page - 1] = F::sub(tally[page - 1], gap(station, page));
            }
        }
    }
}

fn pair_gap<F: Field>(pairs: &Pairs, s: usize, t: usize, page: usize) -> u32 {
    let code = |s: usize, t: usize| pairs[s - 1][t - 1].as_ref().map_or(0, |(_, list)| code_at(list, page));
    if s < t {
        code(s, t)
    } else if t < s {
        F::sub(0, code(t, s))
    } else {
        0
    }
}

/// The stations but one that may be set aside (0: none is), with the differences that are relied on.
struct Others<'a, G> {
    farm: &'a Farm,
    aside: usize,
    gap: G,
}

impl<G: Fn(usize, usize, usize) -> u32> Others<'_, G> {
    fn all_add<F: Field>(&self) -> bool {
        let (stations, gap) = (self.farm.stations, &self.gap);
        let others = |from: usize| (from..=stations).filter(|s| *s != self.aside);
        others(1).all(|s| {
            others(s + 1).all(|t| {
                others(t + 1).all(|u| {
                    (1..=self.farm.pages).all(|page| F::add(gap(s, t, page), gap(t, u, page)) == gap(s, u, page))
                })
            })
        })
    }

    fn group_size(&self, page: usize, station: usize) -> usize {
        if station == self.aside {
            return 0;
        }
        (1..=self.farm.stations).filter(|other| *other != self.aside && (self.gap)(*other, station, page) == 0).count()
    }

    fn lead(&self, page: usize) -> usize {
        let (mut lead, mut largest) = (1, self.group_size(page, 1));
        for station in 1..=self.farm.stations {
            let size = self.group_size(page, station);
            if largest < size {
                (lead, largest) = (station, size);
            }
        }
        lead
    }

    fn first_scattered(&self) -> Option<usize> {
        (1..=self.farm.pages).find(|page| self.group_size(*page, self.lead(*page)) < self.farm.stations / 2)
    }

    fn settle<F: Field>(&self, tally: &mut [u32]) -> Outcome {
        let Farm { pages, bound, .. } = *self.farm;
        let (aside, gap) = (self.aside, &self.gap);
        let beside = if aside == 1 { 2 } else { 1 };
        let row: Vec<u32> = (1..=pages).map(|page| gap(beside, self.lead(page), page)).collect();
        let values: Vec<u32> = (1..=pages.min(2 * bound))
            .map(|j| F::add(F::sub(self.farm.sum(tally, aside, j), self.farm.sum(tally, beside, j)), row_sum::<F>(&row, j)))
            .collect();
        let mut list = BLANK;
        if solve::<F>(pages, &values, bound, &mut list).is_none() {
            return Outcome::Over;
        }
        self.farm.fill::<F>(tally, |t, page| {
            let lead = self.lead(page);
            let code = code_at(&list, page);
            if aside == 1 {
                F::add(code, gap(lead, t, page))
            } else if t == aside {
                F::sub(gap(1, lead, page), code)
            } else {
                gap(1, t, page)
            }
        });
        Outcome::Filled
    }
}

/// What the first sums of four stations and more say and, where the station that is asked again has told all its sums,
/// what these say.
pub fn judge<F: Field>(farm: &Farm, tally: &mut [u32], all_told: bool) -> Outcome {
    let pairs = farm.solve_pairs::<F>(tally);
    let doubt = farm.doubt(&pairs);
    let gap = |s: usize, t: usize, page: usize| match doubt {
        Doubt::Triangle { x, y, z, outside } if [x, y, z].contains(&s) && [x, y, z].contains(&t) => {
            F::sub(pair_gap::<F>(&pairs, s, outside, page), pair_gap::<F>(&pairs, t, outside, page))
        }
        _ => pair_gap::<F>(&pairs, s, t, page),
    };
    let aside = match doubt {
        Doubt::TwoApart => return Outcome::Over,
        Doubt::Station(station) => station,
        _ => 0,
    };
    let others = Others { farm, aside, gap };
    if !others.all_add::<F>() {
        return Outcome::Over;
    }
    if aside == 0 {
        farm.fill::<F>(tally, |station, page| gap(1, station, page));
        return Outcome::Filled;
    }
    match others.first_scattered() {
        Some(page) => Outcome::Split(page),
        None if all_told => others.settle::<F>(tally),
        None => Outcome::Asks(if aside == 1 { 2 } else { aside }),
    }
}
