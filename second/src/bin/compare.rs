//! Holds the second program and the proved library together: the same calls on both sides, and everything that comes back compared.
//!
//! `compare quick` takes fixed seeds; `compare long SEED COUNT` goes on until at least COUNT inputs were compared; `compare only WORD
//! SEED SEEDS` takes the kinds whose name begins with the word, to find a difference again.

#[path = "../calls.rs"]
mod calls;
#[path = "../compare/mod.rs"]
mod compare;
#[path = "../proved.rs"]
mod proved;

use compare::jobs;
use compare::tally::Tally;
use std::process::ExitCode;

fn main() -> ExitCode {
    let arguments: Vec<String> = std::env::args().skip(1).collect();
    let words: Vec<&str> = arguments.iter().map(String::as_str).collect();
    let tallies = match words[..] {
        ["quick"] => jobs::quick(),
        ["long", seed, count] => match (seed.parse(), count.replace(['_', ','], "").parse()) {
            (Ok(seed), Ok(count)) => jobs::long(seed, count),
            _ => return usage(),
        },
        ["only", word, seed, seeds] => match (seed.parse(), seeds.parse()) {
            (Ok(seed), Ok(seeds)) => jobs::only(word, seed, seeds),
            _ => return usage(),
        },
        _ => return usage(),
    };
    if report(&tallies) {
        ExitCode::SUCCESS
    } else {
        ExitCode::FAILURE
    }
}

fn usage() -> ExitCode {
    eprintln!("usage: compare quick | compare long SEED COUNT | compare only WORD SEED SEEDS");
    ExitCode::from(2)
}

/// Prints what came out; answers whether nothing differed.
fn report(tallies: &[Tally]) -> bool {
    for note in tallies.iter().flat_map(|tally| &tally.notes) {
        println!("{note}");
    }
    for tally in tallies {
        for line in &tally.shown {
            println!("difference ({}): {line}", tally.kind);
        }
    }
    for tally in tallies {
        println!("{:36} {:>12} inputs {:>9} differences", tally.kind, tally.inputs, tally.differences);
    }
    let inputs: u64 = tallies.iter().map(|tally| tally.inputs).sum();
    let differences: u64 = tallies.iter().map(|tally| tally.differences).sum();
    println!("{inputs} inputs compared, {differences} differences");
    differences == 0
}
