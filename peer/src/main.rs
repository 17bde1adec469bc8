//! The peer's program: simulate, vectors, compare, list, basin, listings, rounds, levelling.

use peer::basin;
use peer::cases::{CALLS, CALLS_ON_PAGES};
use peer::compare;
use peer::lent::Peer;
use peer::levelling;
use peer::listing;
use peer::listings;
use peer::plain::Plain;
use peer::rounds;
use peer::simulate::{self, Failure};
use peer::vectors;
use std::io::{Read, Write};
use std::path::Path;
use std::process::ExitCode;

const USAGE: &str =
    "peer simulate SEED N | peer vectors SEED N DIR | peer compare SEED N | peer list < FILE | peer basin DIR | peer listings DIR | peer rounds SEED N DIR | peer levelling SEED DIR";

fn main() -> ExitCode {
    let words: Vec<String> = std::env::args().skip(1).collect();
    let words: Vec<&str> = words.iter().map(String::as_str).collect();
    let done = match words[..] {
        ["simulate", seed, count] => match (seed.parse(), count.parse()) {
            (Ok(seed), Ok(count)) => run_simulation(seed, count),
            _ => Err(USAGE.to_string()),
        },
        ["vectors", seed, count, folder] => match (seed.parse(), count.parse()) {
            (Ok(seed), Ok(count)) => write_vectors(seed, count, folder),
            _ => Err(USAGE.to_string()),
        },
        ["compare", seed, count] => match (seed.parse(), count.parse()) {
            (Ok(seed), Ok(count)) => run_comparison(seed, count),
            _ => Err(USAGE.to_string()),
        },
        ["list"] => list(),
        ["basin", folder] => write_basin(folder).map_err(|e| e.to_string()),
        ["listings", folder] => write_listings(folder).map_err(|e| e.to_string()),
        ["rounds", seed, count, folder] => match (seed.parse(), count.parse()) {
            (Ok(seed), Ok(count)) => write_rounds(seed, count, folder),
            _ => Err(USAGE.to_string()),
        },
        ["levelling", seed, folder] => match seed.parse() {
            Ok(seed) => write_levelling(seed, folder),
            _ => Err(USAGE.to_string()),
        },
        _ => Err(USAGE.to_string()),
    };
    match done {
        Ok(()) => ExitCode::SUCCESS,
        Err(why) => {
            eprintln!("{why}");
            ExitCode::FAILURE
        }
    }
}

/// Prints the listing of the file on standard input.
fn list() -> Result<(), String> {
    let mut input = Vec::new();
    // One byte past the limit is enough to know that it is too long.
    let limit = listing::MAX_INPUT as u64 + 1;
    std::io::stdin().take(limit).read_to_end(&mut input).map_err(|e| e.to_string())?;
    std::io::stdout().write_all(listing::listing(&input).as_bytes()).map_err(|e| e.to_string())
}

/// Writes the block files of a small basin.
fn write_basin(folder: &str) -> std::io::Result<()> {
    basin::files().iter().try_for_each(|(name, bytes)| std::fs::write(Path::new(folder).join(name), bytes))
}

/// Writes the files of the listing program in a row, and what it prints for them.
fn write_listings(folder: &str) -> std::io::Result<()> {
    let made = listings::listings();
    std::fs::write(Path::new(folder).join("stdin"), made.input)?;
    std::fs::write(Path::new(folder).join("stdout"), made.output)
}

/// Writes meshes with requests, and what a program that plays them has to print.
fn write_rounds(seed: u64, count: usize, folder: &str) -> Result<(), String> {
    let made = rounds::rounds(seed, count)?;
    put_run(folder, &made.input, &made.output)
}

/// Writes meshes with oracles, and what a program that balances them has to print.
fn write_levelling(seed: u64, folder: &str) -> Result<(), String> {
    let made = levelling::levelling(seed)?;
    put_run(folder, &made.input, &made.output)
}

/// Writes what a program reads and what it has to print.
fn put_run(folder: &str, input: &[u8], output: &str) -> Result<(), String> {
    let put = |name: &str, bytes: &[u8]| std::fs::write(Path::new(folder).join(name), bytes).map_err(|e| e.to_string());
    put("stdin", input)?;
    put("stdout", output.as_bytes())
}

fn write_vectors(seed: u64, count: usize, folder: &str) -> Result<(), String> {
    let total = vectors::write(seed, count, Path::new(folder)).map_err(|e| e.to_string())?;
    println!("{total} bytes in {folder}");
    Ok(())
}

fn run_simulation(seed: u64, count: usize) -> Result<(), String> {
    match simulate::simulate(&Peer, seed, count) {
        Ok(tally) => {
            println!(
                "{} requests over {} meshes, {} redirects: the runs agree",
                tally.requests, tally.meshes, tally.redirects
            );
            for (answer, times) in &tally.answers {
                match answer {
                    0 => println!("served        {times}"),
                    number => println!("refused by {number:2} {times}"),
                }
            }
            for (way, [served, refused]) in
                ["into a viewer", "out of a viewer", "viewer to viewer"].iter().zip(tally.with_viewers)
            {
                println!("{way:16} {served} served, {refused} refused");
            }
            Ok(())
        }
        Err(failure) => Err(describe(&failure)),
    }
}

/// The plain version against the value version.
fn run_comparison(seed: u64, count: usize) -> Result<(), String> {
    for (calls, count) in [(CALLS.as_slice(), count), (&CALLS_ON_PAGES, count / 4)] {
        for ((call, answer), times) in compare::compare(&Plain, &Peer, calls, seed, count)? {
            println!("{call:16} {answer:2} {times}");
        }
    }
    Ok(())
}

fn describe(failure: &Failure) -> String {
    let mut text = format!("the runs disagree: {}\nmesh seed {}\n", failure.what, failure.mesh_seed);
    for turn in &failure.turns {
        let request = turn.request;
        text += &format!("move {} from {} to {} (order {})\n", request.serial, request.from, request.to, turn.order);
    }
    text += &format!("viewers {:#b}\n", failure.mesh.viewers.0);
    for block in &failure.mesh.blocks {
        text += &listing::lines(block);
    }
    text
}
