//! The listing program, as a process that reads the table on standard input.

use crate::rng::Rng;
use std::io::{ErrorKind, Read, Write};
use std::path::Path;
use std::process::{Child, ChildStdin, Command, Stdio};
use std::time::Duration;

/// Feeds the whole input at once.
pub fn listing(program: &Path, input: &[u8]) -> Result<Vec<u8>, String> {
    let mut child = spawn(program)?;
    let mut stdin = child.stdin.take().expect("standard input is a pipe");
    feed(&mut stdin, input)?;
    drop(stdin);
    output(child)
}

/// Feeds the input in small pieces, so that the program's reads come back short.
pub fn listing_in_pieces(program: &Path, input: &[u8], rng: &mut Rng) -> Result<Vec<u8>, String> {
    let mut child = spawn(program)?;
    let mut stdin = child.stdin.take().expect("standard input is a pipe");
    let longest = rng.pick(&[7, 33, 700]);
    let mut rest = input;
    while !rest.is_empty() {
        let (piece, later) = rest.split_at(rng.between(1, longest).min(rest.len()));
        feed(&mut stdin, piece)?;
        if rng.chance(20) {
            std::thread::sleep(Duration::from_micros(200));
        }
        rest = later;
    }
    drop(stdin);
    output(child)
}

fn spawn(program: &Path) -> Result<Child, String> {
    let spawned = Command::new(program).stdin(Stdio::piped()).stdout(Stdio::piped()).spawn();
    spawned.map_err(|error| format!("{}: {error}", program.display()))
}

/// The program may stop reading after its 4,128 bytes and end, so a closed pipe is no fault.
fn feed(stdin: &mut ChildStdin, bytes: &[u8]) -> Result<(), String> {
    match stdin.write_all(bytes).and_then(|()| stdin.flush()) {
        Err(error) if error.kind() != ErrorKind::BrokenPipe => Err(format!("standard input: {error}")),
        _ => Ok(()),
    }
}

fn output(mut child: Child) -> Result<Vec<u8>, String> {
    let mut text = Vec::new();
    let mut stdout = child.stdout.take().expect("standard output is a pipe");
    stdout.read_to_end(&mut text).map_err(|error| format!("standard output: {error}"))?;
    let status = child.wait().map_err(|error| format!("the listing program: {error}"))?;
    match status.code() {
        Some(0) => Ok(text),
        _ => Err(format!("the listing program ended with {status}")),
    }
}
