//! Compares the proved services and the listing program with methods of its own, on random tables: paper 01 by trying
//! every choice, and exact methods for tables too large for that.
//!
//! usage: compare [--seed N] LISTING       LISTING: the path of the listing program
//!        compare [--seed N] --no-listing  the services alone
//!        compare --expect FILE            prints the listing of a table by the methods alone, and on standard error their names

mod answer;
mod brute;
mod calls;
mod compare;
mod counts;
mod coverage;
mod exact;
mod expected;
mod gaps;
mod generate;
mod grades;
mod guarded;
mod library;
mod listing;
mod methods;
mod order;
mod program;
mod record;
mod rng;
mod rules;
mod runner;
mod seen;
mod self_test;
mod service;
#[cfg(test)]
mod trials;
mod uncalled;

use seen::{Counts, Seen};
use service::Service;
use std::fmt::Debug;
use std::path::{Path, PathBuf};
use std::process::ExitCode;

const USAGE: &str = "usage: compare [--seed N] (LISTING | --no-listing), or compare --expect FILE";
const SEED: u64 = 1;

enum Task {
    Compare { seed: u64, listing: Option<PathBuf> },
    Expect(PathBuf),
}

fn main() -> ExitCode {
    let words: Vec<String> = std::env::args().skip(1).collect();
    let Some(task) = task(&words) else {
        eprintln!("{USAGE}");
        return ExitCode::from(2);
    };
    let done = match task {
        Task::Compare { seed, listing } => run(seed, listing.as_deref()),
        Task::Expect(file) => print_expected(&file),
    };
    match done {
        Ok(()) => ExitCode::SUCCESS,
        Err(difference) => {
            eprintln!("compare: FAILED\n{difference}");
            ExitCode::FAILURE
        }
    }
}

fn task(words: &[String]) -> Option<Task> {
    let words: Vec<&str> = words.iter().map(String::as_str).collect();
    let (seed, rest) = match &words[..] {
        ["--expect", file] => return Some(Task::Expect(PathBuf::from(file))),
        ["--seed", seed, rest @ ..] => (seed.parse().ok()?, rest),
        rest => (SEED, rest),
    };
    match rest {
        ["--no-listing"] => Some(Task::Compare { seed, listing: None }),
        [path] if !path.starts_with("--") => Some(Task::Compare { seed, listing: Some(PathBuf::from(path)) }),
        _ => None,
    }
}

fn print_expected(file: &Path) -> Result<(), String> {
    let table = std::fs::read(file).map_err(|error| format!("{}: {error}", file.display()))?;
    let outcome = expected::outcome(&table)?;
    print!("{}", expected::text(&outcome));
    eprintln!("{}", expected::methods(&outcome));
    Ok(())
}

fn run(seed: u64, listing: Option<&Path>) -> Result<(), String> {
    println!("seed {seed}");
    let noticed = self_test::run(listing)?;
    let tallies = runner::run(seed, listing)?;
    coverage::complete(&tallies, listing.is_some())?;
    let all = runner::sum(&tallies).counts;
    println!("compare: {}; {} wrong ones noticed; seed {seed}", compared(&all), grouped(noticed));
    Ok(())
}

/// What was compared, each part with its number.
fn compared(all: &Counts) -> String {
    let [tables, gapped, listings, in_pieces] =
        [Seen::Table, Seen::Gapped, Seen::Listing, Seen::ListingInPieces].map(|seen| grouped(all.of(seen)));
    let calls = Service::ALL.map(|service| format!("{} {}", service.name(), grouped(all.of(Seen::Call(service)))));
    let round_trips = grouped(all.of(Seen::TableRoundTrip) + all.of(Seen::CellsRoundTrip));
    format!(
        "{tables} tables ({gapped} gapped), none skipped: {listings} listings ({in_pieces} more in pieces), \
         calls as expected: {}, round trips {round_trips}",
        calls.join(", ")
    )
}

/// A number with a comma before each three digits.
fn grouped(number: usize) -> String {
    let digits = number.to_string();
    let comma = |at: usize| at > 0 && (digits.len() - at).is_multiple_of(3);
    digits.chars().enumerate().flat_map(|(at, digit)| comma(at).then_some(',').into_iter().chain([digit])).collect()
}

/// Fails with both sides unless they are equal.
fn agree<T: PartialEq + Debug + ?Sized>(what: &str, expected: &T, found: &T) -> Result<(), String> {
    if expected == found {
        Ok(())
    } else {
        Err(format!("{what}\nexpected {expected:?}\nfound    {found:?}"))
    }
}
