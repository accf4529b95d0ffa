//! Times the library beside plain Rust of the same method and beside FLINT, prints the tables and draws the growth.
//! Built and run by bench/run.
mod calls;
mod plain;
mod plot;

use plain::{Farm, Field, Outcome, Prime, Small, Tables, Wide};
use std::fmt::Debug;
use std::hint::black_box;
use std::time::Instant;

const LENGTH: usize = 4096;
const PAGES: [usize; 4] = [240, 480, 960, 1920];
const BOUNDS: [usize; 4] = [8, 16, 32, 64];
const STATIONS: usize = 8;

/// A field of the library.
trait Named: Field {
    const NUMBER: u32;
    const NAME: &'static str;
    const MOST: usize;
}

impl Named for Small {
    const NUMBER: u32 = 1;
    const NAME: &'static str = "small";
    const MOST: usize = 255;
}

impl Named for Wide {
    const NUMBER: u32 = 2;
    const NAME: &'static str = "wide";
    const MOST: usize = 1920;
}

impl Named for Prime {
    const NUMBER: u32 = 3;
    const NAME: &'static str = "prime";
    const MOST: usize = 1920;
}

type Work<'a, T> = Option<Box<dyn FnMut() -> T + 'a>>;

fn work<'a, T>(work: impl FnMut() -> T + 'a) -> Work<'a, T> {
    Some(Box::new(work))
}

/// The least times in nanoseconds: ours, plain Rust, FLINT, plain Rust by a faster method.
#[derive(Clone, Copy)]
struct Times([Option<f64>; 4]);

impl Times {
    fn better(self, other: Times) -> Times {
        let least = |a: Option<f64>, b: Option<f64>| a.zip(b).map(|(a, b)| a.min(b));
        Times(std::array::from_fn(|k| least(self.0[k], other.0[k])))
    }
}

/// Times them turn about, each so often in a turn; all come to the same.
fn race<T: PartialEq + Debug>(turns: usize, often: usize, mut works: [Work<T>; 4]) -> Times {
    let mut least = [None; 4];
    for _ in 0..turns {
        let mut due = None;
        for (work, least) in works.iter_mut().zip(&mut least) {
            let Some(work) = work else { continue };
            for _ in 0..often {
                let start = Instant::now();
                let value = black_box(work());
                let time = start.elapsed().as_nanos() as f64;
                *least = Some(least.map_or(time, |least: f64| least.min(time)));
                match &due {
                    Some(due) => assert_eq!(*due, value),
                    None => due = Some(value),
                }
            }
        }
    }
    Times(least)
}

/// Jobs, rows and differences that look like any.
struct Numbers(u32);

impl Numbers {
    fn next(&mut self) -> u32 {
        self.0 = self.0.wrapping_mul(1664525).wrapping_add(1013904223);
        self.0 >> 8
    }

    fn row<F: Named>(&mut self, pages: usize) -> Vec<u32> {
        let mask = if F::NUMBER == 1 { 0xFF } else { 0xFFFF };
        (0..pages).map(|_| self.next() & mask).collect()
    }

    /// So many pages, evenly spread, each with a code that is not 0.
    fn strays<F: Named>(&mut self, pages: usize, count: usize) -> Vec<(usize, u32)> {
        let mask = if F::NUMBER == 1 { 0x7F } else { 0x7FFF };
        (0..count).map(|k| (k * pages / count + 1, 1 + self.next() % mask)).collect()
    }
}

/// Signing so many pages.
fn signing<F: Named>(turns: usize, job: &[u8]) -> Times {
    let total = |pages: &mut dyn Iterator<Item = u32>| pages.fold(0, |total, signature| total + u64::from(signature));
    race(
        turns,
        1,
        [
            work(|| total(&mut (1..=job.len() / LENGTH).map(|n| calls::page_signature(F::NUMBER, job, LENGTH, n)))),
            work(|| total(&mut job.chunks(LENGTH).map(plain::sign::<F>))),
            work(|| total(&mut job.chunks(LENGTH).map(|page| calls::flint_sign(F::NUMBER, page)))),
            None,
        ],
    )
}

/// One sum of a row.
fn summing<F: Named>(turns: usize, row: &[u32]) -> Times {
    race(
        turns,
        8,
        [
            work(|| calls::row_sum(F::NUMBER, black_box(row), black_box(7))),
            work(|| plain::row_sum::<F>(black_box(row), black_box(7))),
            work(|| calls::flint_sum(F::NUMBER, black_box(row), black_box(7))),
            if F::NUMBER == 2 { work(|| plain::row_sum::<Tables>(black_box(row), black_box(7))) } else { None },
        ],
    )
}

/// Solving from 2 weight sums.
fn solving<F: Named>(turns: usize, numbers: &mut Numbers, pages: usize, weight: usize) -> Times {
    let strays = numbers.strays::<F>(pages, weight);
    let mut difference = vec![0; pages];
    strays.iter().for_each(|(page, code)| difference[page - 1] = *code);
    let values: Vec<u32> = (1..=2 * weight).map(|j| plain::row_sum::<F>(&difference, j)).collect();
    let mut lists = [plain::BLANK; 3];
    let [ours, theirs, fast] = &mut lists;
    let found = |list: &plain::List, count: Option<usize>| -> Vec<usize> {
        list[..count.unwrap()].iter().map(|entry| entry.page).collect()
    };
    let values = &values;
    let times = race(
        turns,
        2,
        [
            work(|| {
                let count = calls::solve(F::NUMBER, pages, black_box(values), weight, ours);
                found(ours, count)
            }),
            work(|| {
                let count = plain::solve::<F>(pages, black_box(values), weight, theirs);
                found(theirs, count)
            }),
            work(|| calls::flint_roots(F::NUMBER, black_box(values), pages)),
            if F::NUMBER == 2 {
                work(|| {
                    let count = plain::solve::<Tables>(pages, black_box(values), weight, fast);
                    found(fast, count)
                })
            } else {
                None
            },
        ],
    );
    let [ours, theirs, _] = &lists;
    assert_eq!(ours, theirs);
    assert!(strays.iter().zip(ours).all(|((page, code), entry)| (entry.page, entry.code) == (*page, *code)));
    times
}

/// A request of check 1 to station 1 for sums first to last.
fn request(first: usize, last: usize) -> [u32; 4] {
    [1 << 28 | 1, 2 << 28 | 1, 3 << 28 | first as u32, 5 << 28 | last as u32]
}

/// Serving sums first to last from a card.
fn serving_card<F: Named>(turns: usize, card: &[u32], first: usize, last: usize) -> Times {
    let request = &request(first, last);
    let room = 5 + last - first;
    let reply = move |serve: &dyn Fn(&mut [u32]) -> usize| {
        let mut reply = vec![0; room];
        assert_eq!(serve(&mut reply), room);
        reply
    };
    race(
        turns,
        1,
        [
            work(move || reply(&|out| calls::serve_card(F::NUMBER, black_box(card), request, out))),
            work(move || reply(&|out| plain::serve_card::<F>(black_box(card), request, out))),
            work(move || {
                let mut out = vec![0; room];
                out[..4].copy_from_slice(request);
                calls::flint_sums(F::NUMBER, black_box(card), first, &mut out[4..]);
                out[4..].iter_mut().for_each(|value| *value |= 6 << 28);
                out
            }),
            if F::NUMBER == 2 {
                work(move || reply(&|out| plain::serve_card::<Tables>(black_box(card), request, out)))
            } else {
                None
            },
        ],
    )
}

/// Serving sums first to last from a job's bytes.
fn serving_job<F: Named>(turns: usize, job: &[u8], first: usize, last: usize) -> Times {
    let request = &request(first, last);
    let room = 5 + last - first;
    let reply = move |serve: &dyn Fn(&mut [u32]) -> usize| {
        let mut reply = vec![0; room];
        assert_eq!(serve(&mut reply), room);
        reply
    };
    race(
        turns,
        1,
        [
            work(move || reply(&|out| calls::serve_job(F::NUMBER, black_box(job), LENGTH, request, out))),
            work(move || reply(&|out| plain::serve_job::<F>(black_box(job), LENGTH, request, out))),
            None,
            work(move || reply(&|out| plain::serve_signed::<F>(black_box(job), LENGTH, request, out))),
        ],
    )
}

/// Which stations hold the stray copies.
#[derive(Clone, Copy)]
enum Held {
    ByOne,
    ByAll,
}

/// The judgement of 8 stations: weighing and, where a station is asked again, settling. Whether one is.
fn judging<F: Named>(turns: usize, numbers: &mut Numbers, pages: usize, bound: usize, held: Held) -> (Times, bool) {
    let own = numbers.row::<F>(pages);
    let mut rows = vec![own; STATIONS];
    for (k, (page, code)) in numbers.strays::<F>(pages, bound).into_iter().enumerate() {
        let station = match held {
            Held::ByOne => 5,
            Held::ByAll => 1 + k % STATIONS,
        };
        rows[station - 1][page - 1] ^= code;
    }
    let words = pages + 128;
    let mut told = vec![0; STATIONS * words];
    for (words, row) in told.chunks_mut(words).zip(&rows) {
        words[pages..].iter_mut().zip(1..).for_each(|(sum, j)| *sum = calls::row_sum(F::NUMBER, row, j));
    }
    told[..pages].copy_from_slice(&rows[0]);
    let farm = &Farm { stations: STATIONS, pages, bound };
    let told = &told;
    let mut tallies = [told.clone(), told.clone(), told.clone()];
    let [ours, theirs, fast] = &mut tallies;
    fn judge<F: Field>(farm: &Farm, tally: &mut [u32]) -> (Outcome, Outcome) {
        let weighed = plain::judge::<F>(farm, tally, false);
        match weighed {
            Outcome::Asks(_) => (weighed, plain::judge::<F>(farm, tally, true)),
            _ => (weighed, weighed),
        }
    }
    let mut asked = false;
    let times = race(
        turns,
        1,
        [
            work(|| {
                ours.copy_from_slice(told);
                let ends = calls::judge(F::NUMBER, farm, black_box(ours));
                asked = ends.0 != ends.1;
                ends
            }),
            work(|| {
                theirs.copy_from_slice(told);
                judge::<F>(farm, black_box(theirs))
            }),
            None,
            if F::NUMBER == 2 {
                work(|| {
                    fast.copy_from_slice(told);
                    judge::<Tables>(farm, black_box(fast))
                })
            } else {
                None
            },
        ],
    );
    let [ours, theirs, _] = &tallies;
    assert_eq!(ours, theirs);
    assert!(ours.chunks(words).zip(&rows).all(|(words, row)| words[..pages] == row[..]));
    (times, asked)
}

fn micros(time: f64) -> f64 {
    time / 1_000.0
}

fn millis(time: f64) -> f64 {
    time / 1_000_000.0
}

/// A number up to 999,999.
fn grouped(number: usize) -> String {
    if number < 1_000 { number.to_string() } else { format!("{},{:03}", number / 1_000, number % 1_000) }
}

/// Three digits of a figure.
fn digits(value: f64) -> String {
    let places = (2.0 - value.log10().floor()).max(0.0) as usize;
    format!("{value:.places$}")
}

/// An operation in a field, timed.
struct Line {
    what: String,
    times: Times,
    figure: Box<dyn Fn(f64) -> f64>,
}

impl Line {
    fn new(what: String, times: Times, figure: impl Fn(f64) -> f64 + 'static) -> Line {
        Line { what, times, figure: Box::new(figure) }
    }

    /// The figures by their times, and how many times as long ours takes.
    fn print(&self, field: &str) {
        let Times([ours, plain, flint, faster]) = self.times;
        let cell = |time: Option<f64>| time.map_or("-".into(), |time| digits((self.figure)(time)));
        let ratio = |time: Option<f64>| time.map_or("-".into(), |time| format!("{:.2}", ours.unwrap() / time));
        let cells = [cell(ours), cell(plain), ratio(plain), cell(flint), ratio(flint), cell(faster)];
        println!("| {} | {field} | {} |", self.what, cells.join(" | "));
    }
}

/// One field's lines, one for each operation.
fn lines<F: Named>(numbers: &mut Numbers, all: &[u8]) -> Vec<Line> {
    let pages = F::MOST;
    let job = &all[..LENGTH * pages];
    let row = numbers.row::<F>(pages);
    let counted = grouped(pages);
    let bytes = job.len() as f64;
    let rate = move |time| bytes * 1_000.0 / time;
    let mut lines = vec![
        Line::new(format!("signing {counted} pages, MB/s"), signing::<F>(10, job), rate),
        Line::new(format!("one sum of {counted} signatures, µs"), summing::<F>(100, &row), micros),
        Line::new(format!("solving {counted} pages, 128 sums, weight 64, µs"), solving::<F>(60, numbers, pages, 64), micros),
    ];
    for (first, last) in [(1, 64), (65, 128)] {
        let times = serving_card::<F>(20, &row, first, last);
        lines.push(Line::new(format!("serving sums {first} to {last} from a card, ms"), times, millis));
    }
    for (first, last) in [(1, 64), (65, 128)] {
        let times = serving_job::<F>(1, job, first, last);
        lines.push(Line::new(format!("serving sums {first} to {last} from a job, ms"), times, millis));
    }
    for (held, farm) in [(Held::ByOne, "64 strays at one station"), (Held::ByAll, "8 strays at each station")] {
        let (times, asked) = judging::<F>(15, numbers, pages, 64, held);
        let ends = if asked { "weighed and settled" } else { "weighed" };
        lines.push(Line::new(format!("judging {farm}, {ends}, ms"), times, millis));
    }
    lines
}

/// How long each operation takes, by pages and by bound.
fn growth<F: Named>(numbers: &mut Numbers, job: &[u8]) -> [plot::Panel; 2] {
    let over = |sizes: [usize; 4], mut time: Box<dyn FnMut(usize) -> Times + '_>| -> Vec<(f64, f64, f64)> {
        sizes
            .iter()
            .map(|size| {
                let Times([ours, plain, ..]) = time(*size);
                (*size as f64, ours.unwrap(), plain.unwrap())
            })
            .collect()
    };
    let row = numbers.row::<F>(1920);
    let numbers = std::cell::RefCell::new(numbers);
    let curve = |name, points| plot::Line { name, points };
    let by_pages = vec![
        curve("signing", over(PAGES, Box::new(|n| signing::<F>(4, &job[..LENGTH * n])))),
        curve("one sum", over(PAGES, Box::new(|n| summing::<F>(40, &row[..n])))),
        curve("solving", over(PAGES, Box::new(|n| solving::<F>(20, &mut numbers.borrow_mut(), n, 64)))),
        curve("serving, card", over(PAGES, Box::new(|n| serving_card::<F>(6, &row[..n], 1, 64)))),
        curve("serving, job", over(PAGES, Box::new(|n| serving_job::<F>(1, &job[..LENGTH * n], 1, 64)))),
        curve("judging", over(PAGES, Box::new(|n| judging::<F>(6, &mut numbers.borrow_mut(), n, 64, Held::ByOne).0))),
    ];
    let by_bound = vec![
        curve("solving", over(BOUNDS, Box::new(|f| solving::<F>(20, &mut numbers.borrow_mut(), 1920, f)))),
        curve("serving, card", over(BOUNDS, Box::new(|f| serving_card::<F>(6, &row, 1, f)))),
        curve("serving, job", over(BOUNDS, Box::new(|f| serving_job::<F>(1, job, 1, f)))),
        curve("judging", over(BOUNDS, Box::new(|f| judging::<F>(6, &mut numbers.borrow_mut(), 1920, f, Held::ByOne).0))),
    ];
    [
        plot::Panel { title: format!("{}, f = 64", F::NAME), axis: "pages N", lines: by_pages },
        plot::Panel { title: format!("{}, N = 1,920", F::NAME), axis: "bound f", lines: by_bound },
    ]
}

fn print_growth(panel: &plot::Panel) {
    let sizes: Vec<String> = panel.lines[0].points.iter().map(|point| grouped(point.0 as usize)).collect();
    println!("\n| {}: ours, ms, by {} | {} |", panel.title, panel.axis, sizes.join(" | "));
    println!("|---|{}", "---|".repeat(sizes.len()));
    for line in &panel.lines {
        let cells: Vec<String> = line.points.iter().map(|point| digits(millis(point.1))).collect();
        println!("| {} | {} |", line.name, cells.join(" | "));
    }
}

fn main() {
    let start = Instant::now();
    calls::flint_open();
    let mut numbers = Numbers(1);
    let job: Vec<u8> = (0..LENGTH * 1920).map(|_| numbers.next() as u8).collect();
    // Two passes, since others use the machine: the better figure of each stands.
    let mut passes = [1, 2].map(|_| {
        let tables = [lines::<Small>(&mut numbers, &job), lines::<Wide>(&mut numbers, &job), lines::<Prime>(&mut numbers, &job)];
        let panels: Vec<plot::Panel> =
            growth::<Wide>(&mut numbers, &job).into_iter().chain(growth::<Prime>(&mut numbers, &job)).collect();
        (tables, panels)
    });
    let [(tables, panels), (again, more)] = &mut passes;
    tables.iter_mut().flatten().zip(again.iter().flatten()).for_each(|(line, again)| line.times = line.times.better(again.times));
    panels.iter_mut().zip(more.iter()).for_each(|(panel, more)| panel.take_better(more));
    println!("| what | field | ours | plain Rust | ratio | FLINT | ratio | faster |");
    println!("|---|---|---|---|---|---|---|---|");
    for operation in 0..tables[0].len() {
        tables.iter().zip(["small", "wide", "prime"]).for_each(|(lines, field)| lines[operation].print(field));
    }
    panels.iter().for_each(print_growth);
    let path = std::env::args().nth(1).expect("where the plot goes");
    std::fs::write(&path, plot::draw(panels)).expect("the plot is written");
    eprintln!("\n{path} is drawn; all took {:.0} s", start.elapsed().as_secs_f64());
}
