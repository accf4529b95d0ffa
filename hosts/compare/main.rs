//! Compares the static library with the second implementation in `reference` on random inputs: compare [SEED] [COUNT].
//! Built and run by hosts/compare/run. Ends with status 1 at the first difference.

mod calls;
mod farms;
mod random;
#[allow(dead_code)]
mod reference;
#[path = "../rust/wulambey.rs"]
mod wulambey;

use random::Random;
use std::collections::BTreeMap;

/// What a random case was, for counting; or how the two differ.
pub type Compared = Result<String, String>;

const KINDS: [(&str, fn(&mut Random) -> Compared); 9] = [
    ("sign", calls::sign),
    ("sums", calls::sums),
    ("solve", calls::solve),
    ("serve_card", calls::serve_card),
    ("serve_job", calls::serve_job),
    ("findings", farms::findings),
    ("weigh, settle", farms::judge),
    ("page_signature", calls::page_signature),
    ("row_sum", calls::row_sum),
];

/// The header: the stack that it names is that of the threads that make the calls.
const HEADER: &str = include_str!("../wulambey.h");

/// The most inputs of each kind.
const MOST: u64 = 1_000_000;

fn main() {
    let arguments: Vec<String> = std::env::args().skip(1).collect();
    let number = |at: usize, default: u64| arguments.get(at).map_or(Some(default), |text| text.parse().ok());
    let (Some(seed), Some(count), 0..=2) = (number(0, 1), number(1, 100_000).filter(|&count| count <= MOST), arguments.len()) else {
        eprintln!("usage: compare [SEED] [COUNT], numbers, and COUNT at most {MOST}");
        std::process::exit(2);
    };
    if !HEADER.contains(&format!("#define WULAMBEY_STACK {}\n", wulambey::STACK)) {
        println!("the stack of wulambey.h and that of wulambey.rs differ");
        std::process::exit(1);
    }
    println!("seed {seed}, {count} of each kind, on {} bytes of stack", wulambey::STACK);
    if let Err(difference) = known() {
        println!("{difference}");
        std::process::exit(1);
    }
    for (at, (kind, compare)) in KINDS.into_iter().enumerate() {
        // each kind has numbers of its own, so that it can be read alone
        let random = Random::new(Random::new(seed).bits() ^ Random::new(at as u64).bits());
        let ways = match on_stack(|| compare_all(compare, random, count)) {
            Ok(ways) => ways,
            Err(difference) => {
                println!("{kind}, {difference}");
                std::process::exit(1);
            }
        };
        println!("{kind}: {count} the same");
        for (way, count) in ways {
            println!("  {count:>7} {way}");
        }
    }
    println!("no difference");
}

/// Does this in a thread that has exactly the stack that the header names.
fn on_stack<T: Send>(work: impl FnOnce() -> T + Send) -> T {
    std::thread::scope(|scope| {
        let thread = std::thread::Builder::new().stack_size(wulambey::STACK).spawn_scoped(scope, work);
        thread.expect("there is a thread").join().expect("it ends")
    })
}

/// How many of so many cases went which way; or how the first one differs that does.
fn compare_all(compare: fn(&mut Random) -> Compared, mut random: Random, count: u64) -> Result<BTreeMap<String, u64>, String> {
    let mut ways = BTreeMap::new();
    for case in 1..=count {
        let way = compare(&mut random).map_err(|difference| format!("case {case} differs\n{difference}"))?;
        *ways.entry(way).or_default() += 1;
    }
    Ok(ways)
}

/// Values from elsewhere: the second implementation has the examples of the rules, and the findings on the farms in crates/farms.
fn known() -> Result<(), String> {
    use reference::fields::{PRIME, SMALL};
    use reference::signatures::{sign, sums};
    let holds = |example: bool, what: &str| {
        if example {
            Ok(())
        } else {
            Err(format!("the second implementation fails at {what}"))
        }
    };
    holds(
        sign(&SMALL, &[1, 2, 3], 3) == Ok(vec![3]) && sign(&PRIME, &[1, 2, 3], 3) == Ok(vec![18]),
        "the signature of 1, 2, 3",
    )?;
    holds(
        sums(&SMALL, &[3, 0, 5], 2) == Ok(vec![46, 81]) && sums(&PRIME, &[3, 0, 5], 2) == Ok(vec![144, 3_672]),
        "the sums of 3, 0, 5",
    )?;
    let read = |name: &str| std::fs::read_to_string(name).map_err(|error| format!("{name}: {error}"));
    let (farms, found) = (read("crates/farms/stdin")?, read("crates/farms/stdout")?);
    let mut wanted = String::new();
    let mut count = 0;
    for line in farms.lines() {
        let bytes: Option<Vec<u8>> = (0..line.len())
            .step_by(2)
            .map(|at| line.get(at..at + 2).and_then(|two| u8::from_str_radix(two, 16).ok()))
            .collect();
        let bytes = bytes.ok_or("crates/farms/stdin: a line that is not hexadecimal")?;
        wanted += &reference::program::findings(&bytes).text;
        wanted += "\n";
        count += 1;
    }
    holds(wanted == found, "the farms in crates/farms")?;
    println!("the second implementation has the findings on {count} farms in crates/farms");
    Ok(())
}

/// What a call is to do.
pub enum Wanted<T> {
    /// Status 0, with these at the front of the buffer.
    Done(Vec<T>),
    /// Another status, with its place if it has one.
    Ends(u32, Option<usize>),
}

impl<T> From<Result<Vec<T>, reference::Refusal>> for Wanted<T> {
    fn from(result: Result<Vec<T>, reference::Refusal>) -> Wanted<T> {
        match result {
            Ok(words) => Wanted::Done(words),
            Err(refusal) => Wanted::Ends(refusal.number, Some(refusal.place)),
        }
    }
}

/// What stands in count and place before a call.
pub const UNWRITTEN: usize = 0x5A5A_5A5A_5A5A;

/// Compares what a call returned and wrote with what it is to do. `count` is what it wrote there, if it writes a count.
pub fn same<T: Copy + PartialEq + std::fmt::Debug>(
    wanted: &Wanted<T>,
    before: &[T],
    status: u32,
    count: Option<usize>,
    place: usize,
    after: &[T],
) -> Result<(), String> {
    let mut buffer = before.to_vec();
    if let Wanted::Done(front) = wanted {
        if front.len() > buffer.len() {
            return Err(format!(
                "the status: the library's is {status}, and the other writes more than there is room for"
            ));
        }
    }
    let (want_status, want_count, want_place) = match wanted {
        Wanted::Done(front) => {
            buffer[..front.len()].copy_from_slice(front);
            (0, front.len(), UNWRITTEN)
        }
        Wanted::Ends(status, place) => (*status, UNWRITTEN, place.unwrap_or(UNWRITTEN)),
    };
    let differs = |what: &str, library: usize, second: usize| {
        let name = |number: usize| {
            if number == UNWRITTEN {
                "not written".to_string()
            } else {
                number.to_string()
            }
        };
        Err(format!("{what}: the library's is {}, the other's {}", name(library), name(second)))
    };
    if status != want_status {
        return differs("the status", status as usize, want_status as usize);
    }
    if place != want_place {
        return differs("the place", place, want_place);
    }
    if let Some(count) = count.filter(|&count| count != want_count) {
        return differs("the count", count, want_count);
    }
    match (0..after.len()).find(|&at| after[at] != buffer[at]) {
        Some(at) => Err(format!(
            "item {} of the buffer: the library's is {:?}, the other's {:?}",
            at + 1,
            after[at],
            buffer[at]
        )),
        None => Ok(()),
    }
}

/// Compares what the safe module returns.
pub fn safe<T: PartialEq + std::fmt::Debug>(
    got: Result<T, wulambey::Refusal>,
    wanted: &Result<T, reference::Refusal>,
) -> Result<(), String> {
    let got = got.map_err(|refusal| reference::Refusal {
        number: refusal.number,
        place: refusal.place,
    });
    if got == *wanted {
        Ok(())
    } else {
        Err(format!("the safe module: {got:?}, the other's {wanted:?}"))
    }
}

/// The field in the safe module with this number.
pub fn safe_field(number: u32) -> wulambey::Field {
    match number {
        1 => wulambey::Field::Small,
        2 => wulambey::Field::Wide,
        _ => wulambey::Field::Prime,
    }
}

/// The number of a field; seldom one that no field has.
pub fn field_number(random: &mut Random) -> u32 {
    if random.below(200) == 0 {
        random.one(&[0, 4, 250, 256, 257, u32::MAX])
    } else {
        random.from(1, 3) as u32
    }
}

pub fn way<T>(name: &str, wanted: &Wanted<T>) -> String {
    match wanted {
        Wanted::Done(_) => name.to_string(),
        Wanted::Ends(8, _) => "refused 8".to_string(),
        Wanted::Ends(number, Some(place)) => format!("refused {number} {place}"),
        Wanted::Ends(254, _) => "no solution".to_string(),
        Wanted::Ends(_, _) => "no field".to_string(),
    }
}

pub fn hex(bytes: &[u8]) -> String {
    bytes.iter().map(|byte| format!("{byte:02X}")).collect()
}

pub fn hex_words(words: &[u32]) -> String {
    words.iter().map(|word| format!("{word:08X}")).collect::<Vec<String>>().join(" ")
}
