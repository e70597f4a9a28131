//! Compares the proved library with C, by loops over cells and of the same algorithms by masks: `bench/run`.

mod agree;
mod buffers;
mod plain;
mod random;
mod request;
#[cfg(test)]
mod rules;
mod services;
mod tables;
mod timing;
#[cfg(test)]
mod wrong;

use request::{Form, Request};
use services::Service;
use std::fs::File;
use std::io::{self, Write};
use std::os::fd::AsFd;
use std::process::ExitCode;
use tables::Kind;
use timing::{Effort, Times};

const USAGE: &str = "use: bench/run, bench/run --check, or bench/run --search SERVICE COUNT \
(SERVICE one of unpack pack find check S F C conflict_counts, COUNT at least 1). \
RUNS and LENGTH (microseconds of a run), at least 1, may be set in the environment";

/// The head of the table.
const HEAD: &str = "| service | table | loops gcc µs | loops clang µs | masks gcc µs | masks clang µs | library µs \
| ratio to loops | ratio to masks |\n|---|---|---|---|---|---|---|---|---|";

enum Task {
    Check,
    Table(Effort),
    Search(Service, u64, Effort),
}

fn main() -> ExitCode {
    let words: Vec<String> = std::env::args().skip(1).collect();
    let Some(task) = task(&words) else {
        eprintln!("bench: {USAGE}");
        return ExitCode::from(2);
    };
    match run(task) {
        Ok(()) => ExitCode::SUCCESS,
        Err(message) => {
            eprintln!("bench: {message}");
            ExitCode::FAILURE
        }
    }
}

fn task(words: &[String]) -> Option<Task> {
    let words: Vec<&str> = words.iter().map(String::as_str).collect();
    match words[..] {
        [] => Some(Task::Table(effort(9, 40000)?)),
        ["--check"] => Some(Task::Check),
        ["--search", service, count] => {
            let count = count.parse().ok().filter(|&count| count > 0)?;
            Some(Task::Search(Service::named(service)?, count, effort(3, 5000)?))
        }
        _ => None,
    }
}

/// As the environment says, or as many runs of that length.
fn effort(runs: i64, length: i64) -> Option<Effort> {
    let set = |name, default| match std::env::var(name) {
        Ok(word) => word.parse().ok().filter(|&number| number > 0),
        Err(_) => Some(default),
    };
    Some(Effort { runs: set("RUNS", runs)?, length: set("LENGTH", length)? })
}

fn run(task: Task) -> Result<(), String> {
    let mut out = Out::standard()?;
    match task {
        Task::Check => out.line(&agree::agree_on_all(&agree::ALL)?),
        Task::Table(effort) => {
            out.line(&agree::agree_on_all(&agree::ALL)?)?;
            print_table(&mut out, effort)
        }
        Task::Search(service, count, effort) => print_slowest(&mut out, service, count, effort),
    }
}

fn print_table(out: &mut Out, effort: Effort) -> Result<(), String> {
    out.line(HEAD)?;
    for row in timing::rows() {
        let times = timing::measure(row, &agree::ALL, effort)?;
        out.line(&format!("| {} | {} | {} |", row.service, timing::row_name(&row), times.joined(" | ")))?;
    }
    Ok(())
}

/// The three slowest of so many tables, the slowest last: the times and ratios of a row, kind and seed.
fn print_slowest(out: &mut Out, service: Service, count: u64, effort: Effort) -> Result<(), String> {
    let mut measured: Vec<(Times, u64)> = Vec::new();
    for seed in 1..=count {
        let request = Request { service, kind: Kind::Drawn, seed, form: Form::Sound };
        measured.push((timing::measure(request, &agree::ALL, effort)?, seed));
        measured.sort_by(|(one, _), (other, _)| other.library.total_cmp(&one.library));
        measured.truncate(3);
    }
    let lines = measured.iter().rev().map(|(times, seed)| format!("{} drawn {seed}", times.joined(" ")));
    lines.into_iter().try_for_each(|line| out.line(&line))
}

/// Standard output as a file: where its descriptor cannot be written, Rust's own handle drops the bytes in silence.
struct Out(File);

impl Out {
    fn standard() -> Result<Out, String> {
        let descriptor = io::stdout().as_fd().try_clone_to_owned().map_err(unwritten)?;
        Ok(Out(File::from(descriptor)))
    }

    fn line(&mut self, line: &str) -> Result<(), String> {
        self.0.write_all(format!("{line}\n").as_bytes()).map_err(unwritten)
    }
}

fn unwritten(error: io::Error) -> String {
    format!("the results cannot be written: {error}")
}
