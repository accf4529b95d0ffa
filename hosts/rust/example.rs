//! From Rust: signs a job, serves a request from its card, shows refused calls, judges the example farm, and weighs and settles a tally.
//! Built and run by hosts/rust/run.
mod wulambey;

use std::error::Error;
use std::io::Write;
use wulambey::{Field, Outcome, Refusal, Weighed};

fn print(what: &str, words: &[u32]) {
    print!("{what}");
    for word in words {
        print!(" {word}");
    }
    println!();
}

/// Four stations, three pages, a bound of 1: check 5 of docs/RULES.md, without a check. All rows are 3, 0, 5 but that of station 4, which is 3, 7, 5.
fn judge() -> Result<(), Refusal> {
    const STATIONS: usize = 4;
    const PAGES: usize = 3;
    const ROW: usize = PAGES + wulambey::MOST_SUMS;
    let (own, fourth) = ([3, 0, 5], [3, 7, 5]);

    // row 1, and sum 1 of each row
    let mut tally = vec![0; wulambey::tally_words(STATIONS, PAGES)];
    tally[..PAGES].copy_from_slice(&own);
    for row in [0, 1, 2] {
        tally[row * ROW + PAGES] = wulambey::row_sum(Field::Prime, &own, 1)?;
    }
    tally[3 * ROW + PAGES] = wulambey::row_sum(Field::Prime, &fourth, 1)?;
    let Weighed::Asks(station) = wulambey::weigh(Field::Prime, STATIONS, PAGES, 1, &mut tally)? else {
        panic!("nobody is asked again");
    };
    println!("asks {station}");

    // sum 2 of row 1 and of the station that is asked
    tally[PAGES + 1] = wulambey::row_sum(Field::Prime, &own, 2)?;
    tally[3 * ROW + PAGES + 1] = wulambey::row_sum(Field::Prime, &fourth, 2)?;
    match wulambey::settle(Field::Prime, STATIONS, PAGES, 1, &mut tally)? {
        Outcome::Filled => print("row 4", &tally[3 * ROW..3 * ROW + PAGES]),
        other => panic!("{other:?}"),
    }
    Ok(())
}

fn main() -> Result<(), Box<dyn Error>> {
    // The job 1, 2, 3, 4, 5 in pages of 3 bytes, in prime: two signatures.
    let card = wulambey::sign(Field::Prime, &[1, 2, 3, 4, 5], 3)?;
    print("card", &card);
    print("sums", &wulambey::sums(Field::Prime, &card, 2)?);

    // Check 5 asks station 4 for sum 2.
    let request = [0x1000_0005, 0x2000_0004, 0x3000_0002, 0x5000_0002];
    let reply = wulambey::serve_card(Field::Prime, &card, 4, &request)?;
    print!("reply");
    for word in reply {
        print!(" {word:08X}");
    }
    println!();

    // Station 3 refuses the words meant for station 4: 9, place 2. The job has no page 3: 11, place 0.
    match wulambey::serve_card(Field::Prime, &card, 3, &request) {
        Err(refusal @ Refusal { number: 9, place: 2 }) => println!("{refusal}"),
        other => panic!("station 3 said {other:?}"),
    }
    match wulambey::page_signature(Field::Prime, &[1, 2, 3, 4, 5], 3, 3) {
        Err(refusal @ Refusal { number: 11, place: 0 }) => println!("{refusal}"),
        other => panic!("page 3 has {other:?}"),
    }

    // The example farm: four stations, three pages, a bound of 1.
    let text = wulambey::findings(&[4, 3, 1, 3, 0, 5, 3, 0, 5, 3, 0, 5, 3, 7, 5])?;
    std::io::stdout().write_all(&text)?;

    judge()?;
    Ok(())
}
