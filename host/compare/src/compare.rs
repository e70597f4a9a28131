//! One table through the listing program and through every service, compared with what is expected.

use crate::calls::{self, Table};
use crate::expected::Outcome;
use crate::library::proved;
use crate::rng::Rng;
use crate::seen::{Counts, Seen};
use crate::{expected, generate, program};
use std::path::Path;

/// What was compared, and found as expected.
pub fn table(bytes: &[u8], listing: Option<&Path>, rng: &mut Rng) -> Result<Counts, String> {
    let mut counts = Counts::default();
    let outcome = expected::outcome(bytes)?;
    if let Some(program) = listing {
        let text = expected::text(&outcome);
        listing_says(program, bytes, &text)?;
        counts.add(Seen::Listing, 1);
        let gapped = ["\nS refused 8 at ", "\nF refused 8 at "].iter().all(|line| text.contains(line));
        counts.add(Seen::GappedListing, gapped as usize);
        let graded =
            matches!(&outcome, Outcome::Accepted(table) if table.is_graded() && table.answers.corrections.is_ok());
        counts.add(Seen::GradedListing, graded as usize);
        if rng.chance(8) {
            listing_in_pieces_says(program, bytes, &text, rng)?;
            counts.add(Seen::ListingInPieces, 1);
        }
    }
    counts.add_outcome(&outcome);
    let cells = generate::cells(rng);
    counts.add_all(&calls::all(&proved, &Table { bytes, outcome: &outcome }, &cells, rng)?);
    Ok(counts)
}

pub fn listing_says(program: &Path, bytes: &[u8], expected: &str) -> Result<(), String> {
    same_text("the listing", expected, &program::listing(program, bytes)?)
}

fn listing_in_pieces_says(program: &Path, bytes: &[u8], expected: &str, rng: &mut Rng) -> Result<(), String> {
    same_text("the listing of a table fed in pieces", expected, &program::listing_in_pieces(program, bytes, rng)?)
}

pub fn same_text(what: &str, expected: &str, found: &[u8]) -> Result<(), String> {
    if expected.as_bytes() == found {
        return Ok(());
    }
    Err(format!("{what}\nexpected:\n{expected}found:\n{}", String::from_utf8_lossy(found)))
}
