//! The archive against the second implementation on drawn cases: answer and every lent byte. Prints how often each call gave each answer.

use compare::archive::Archive;
use peer::cases::{all_calls, CALLS, CALLS_ON_PAGES};
use peer::compare::{self as cores, Table};
use peer::lent::Peer;
use std::process::ExitCode;

fn main() -> ExitCode {
    let words: Vec<u64> = std::env::args().skip(1).map_while(|word| word.parse().ok()).collect();
    let [seed, count] = words[..] else {
        eprintln!("compare SEED N");
        return ExitCode::FAILURE;
    };
    match compare(seed, count as usize) {
        Ok(table) => report(&table),
        Err(what) => {
            eprintln!("{what}");
            ExitCode::FAILURE
        }
    }
}

/// So many cases of all calls but those on pages, and a quarter as many of these.
fn compare(seed: u64, count: usize) -> Result<Table, String> {
    let mut table = cores::compare(&Archive, &Peer, &CALLS, seed, count)?;
    table.extend(cores::compare(&Archive, &Peer, &CALLS_ON_PAGES, seed, count / 4)?);
    Ok(table)
}

/// A line for each call: its answers and how often each came. An answer that never came is a failure.
fn report(table: &Table) -> ExitCode {
    let mut missed = false;
    for call in all_calls() {
        let times = |answer: u32| table.get(&(call.name(), answer)).copied().unwrap_or(0);
        let shown: Vec<String> = call.answers().iter().map(|answer| format!("{answer}: {}", times(*answer))).collect();
        println!("{:18}  {}", call.name(), shown.join(", "));
        missed |= call.answers().iter().any(|answer| times(*answer) == 0);
    }
    println!("{} cases, no difference", table.values().sum::<usize>());
    if missed {
        eprintln!("some answers never came: draw more cases");
        return ExitCode::FAILURE;
    }
    ExitCode::SUCCESS
}
