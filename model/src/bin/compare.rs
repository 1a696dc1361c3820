//! Compares the model with the proved planner on random lists of calls.
//!
//!     compare [LISTS [SEED [ONLY]]]
//!
//! ONLY is the number of one list, to perform it alone. Status 1 where the two differ.

use model::compare::compare;
use model::generate;
use model::planner::Planner;
use model::random::Random;
use model::tally::Tally;
use std::env;
use std::process::ExitCode;
use std::time::Instant;

const LISTS: u64 = 100_000;
const SEED: u64 = 1;

#[cfg(feature = "library")]
fn other() -> impl Planner {
    model::library::Library
}

#[cfg(not(feature = "library"))]
fn other() -> impl Planner {
    println!("no library is linked: the model is compared with itself");
    model::planner::Model
}

fn main() -> ExitCode {
    let mut numbers = Vec::new();
    for word in env::args().skip(1) {
        match word.parse::<u64>() {
            Ok(number) => numbers.push(number),
            Err(_) => {
                eprintln!("compare [LISTS [SEED [ONLY]]]: {word} is no number");
                return ExitCode::from(2);
            }
        }
    }
    let lists = numbers.first().copied().unwrap_or(LISTS);
    let seed = numbers.get(1).copied().unwrap_or(SEED);
    let range = numbers.get(2).map_or(0..lists, |&only| only..only + 1);
    compare_all(range, seed)
}

fn compare_all(lists: std::ops::Range<u64>, seed: u64) -> ExitCode {
    let other = other();
    let begun = Instant::now();
    let mut tally = Tally::default();
    println!("seed: {seed}");
    for list in lists {
        let mut random = Random::of_list(seed, list);
        let case = generate::case(&mut random);
        if let Err(text) = compare(&other, &case, &mut random, &mut tally) {
            println!("DIFFERENT: seed {seed}, list {list}\n{text}");
            return ExitCode::FAILURE;
        }
    }
    print!("{tally}");
    println!("no difference, in {} s", begun.elapsed().as_secs());
    ExitCode::SUCCESS
}
