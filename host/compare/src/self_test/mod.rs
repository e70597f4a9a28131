//! Shows that the comparison can fail: what paper 01 prints passes, and with any one letter changed it does not. A
//! library that is wrong in one way is noticed, a method that differs, and a run that has seen too little.

mod wrong_gaps;
mod wrong_grades;
mod wrong_libraries;
mod wrong_order;
mod wrong_uncalled;

use crate::answer::Answer;
use crate::compare::{listing_says, same_text};
use crate::coverage::{self, Demand};
use crate::methods::{like_check, settled, Method, Settled, FRAGMENTS, SNPS};
use crate::record::{graded, record, Matrix, A, B, HOLE};
use crate::runner::Tally;
use crate::{agree, expected};
use std::path::Path;

/// The table that paper 01 prints: AA-, BAA, -BB.
pub fn printed_table() -> Vec<u8> {
    [record(10, 0, &[1, 1]), record(11, 0, &[2, 1, 1]), record(12, 1, &[2, 2])].concat()
}

pub const PRINTED_LISTING: &str = "\
fragments 3 snps 3
error-free no
S 1 101 A#B B#A 121 0,0,0
F 1 111 AA- BAA 120 0,0,-
C 1 111 AAA -BB 112 0,0,0
";

/// AB-, B-A, -AB: every two columns by themselves are error-free, and the three are not.
pub fn gapped_triangle() -> Vec<u8> {
    [record(10, 0, &[A, B]), record(11, 0, &[B, HOLE, A]), record(12, 1, &[A, B])].concat()
}

/// By hand: on one side the three differ on every column; with sides 112 the first two do on column 0, where the B becomes A.
pub const TRIANGLE_LISTING: &str = "\
fragments 3 snps 3
error-free no
S refused 8 at 1
F refused 8 at 1
C 1 111 ABA -AB 112 0,0,0
";

/// The same fragments as they stood while the order of records was free: AB-, -AB, B-A.
pub fn unordered_triangle() -> Vec<u8> {
    [record(10, 0, &[A, B]), record(11, 1, &[A, B]), record(12, 0, &[B, HOLE, A])].concat()
}

pub const UNORDERED_LISTING: &str = "refused 13 at 2\n";

/// A stored table with fragments without calls: AB, --, --, -A.
pub fn stored_table() -> Vec<u8> {
    [record(1, 0, &[A, B]), record(2, 0, &[]), record(3, 0, &[]), record(4, 1, &[A])].concat()
}

/// By hand: the first and the last conflict on column 1. Without calls there is no conflict, so each is a block by itself.
pub const STORED_LISTING: &str = "\
fragments 4 snps 2
error-free yes
S 0 11 AB -A 1112 0,1,2,0
F 0 11 AB -A 1112 0,1,2,0
C 0 11 AB -A 1112 0,1,2,0
";

/// AAA, BAA, BAA, -BB: the last two columns hold the first three together. Grades as they are given.
fn with_grades(grades: [u8; 4]) -> Vec<u8> {
    let records = [record(1, 0, &[A, A, A]), record(2, 0, &[B, A, A]), record(3, 0, &[B, A, A]), record(4, 1, &[B, B])];
    records.into_iter().zip(grades).flat_map(|(record, grade)| graded(record, grade)).collect()
}

/// The A of column 0 weighs 60, and the two Bs there weigh 2.
pub fn graded_table() -> Vec<u8> {
    with_grades([15, 0, 0, 15])
}

/// By hand: S and F as without grades; the two Bs become A.
pub const GRADED_LISTING: &str = "\
fragments 4 snps 3
error-free no
S 1 011 #AA #BB 1112 0,0,0,0
F 1 111 AAA BAA 1220 0,0,0,-
C 2 111 AAA -BB 1112 0,0,0,0
";

/// The same fragments of grade 0: the one A becomes B.
pub fn plain_table() -> Vec<u8> {
    with_grades([0; 4])
}

pub const PLAIN_LISTING: &str = "\
fragments 4 snps 3
error-free no
S 1 011 #AA #BB 1112 0,0,0,0
F 1 111 AAA BAA 1220 0,0,0,-
C 1 111 BAA -BB 1112 0,0,0,0
";

/// The number of wrong expectations, libraries, methods and counts, all noticed.
pub fn run(listing: Option<&Path>) -> Result<usize, String> {
    let listings = wrong_listings(listing, &printed_table(), PRINTED_LISTING)?
        + wrong_listings(listing, &gapped_triangle(), TRIANGLE_LISTING)?
        + wrong_listings(listing, &unordered_triangle(), UNORDERED_LISTING)?
        + wrong_listings(listing, &stored_table(), STORED_LISTING)?
        + wrong_listings(listing, &graded_table(), GRADED_LISTING)?
        + wrong_listings(listing, &plain_table(), PLAIN_LISTING)?;
    Ok(listings + wrong_libraries::noticed()? + wrong_methods()? + too_little_seen(false)? + too_little_seen(true)?)
}

/// The listing of a table, by the methods and by the program, with any part of it wrong.
fn wrong_listings(listing: Option<&Path>, table: &[u8], text: &str) -> Result<usize, String> {
    let own = expected::text(&expected::outcome(table)?);
    same_text("own text", text, own.as_bytes())?;
    if let Some(program) = listing {
        listing_says(program, table, text)?;
    }
    let wrong = spoiled(text);
    for wrong in &wrong {
        must_differ(same_text("own text", wrong, own.as_bytes()))?;
        if let Some(program) = listing {
            must_differ(listing_says(program, table, wrong))?;
        }
    }
    Ok(wrong.len())
}

/// The text with one letter changed at every fifth place, without its end, and with a line more.
fn spoiled(text: &str) -> Vec<String> {
    let changed = |at: usize| text[..at].to_string() + "~" + &text[at + 1..];
    let mut all: Vec<String> = (0..text.len()).step_by(5).map(changed).collect();
    all.push(text.trim_end().to_string());
    all.push(text.to_string() + "\n");
    all
}

/// A method with another answer, no method that settles the table, and a check that does not go with a least count.
fn wrong_methods() -> Result<usize, String> {
    let matrix = Matrix::read(&printed_table(), 3);
    let silent = Method { name: "silent", answer: |_| None };
    let differing = Method { name: "differing", answer: FRAGMENTS[0].answer };
    let Settled { answer: one_removed, by } = settled(&[silent, SNPS[0]], &matrix)?;
    agree("the methods of S", &vec![SNPS[0].name], &by)?;
    must_differ(settled(&[SNPS[0], differing], &matrix).map(drop))?;
    must_differ(settled(&[silent], &matrix).map(drop))?;
    let none_removed = Answer { count: 0, ..one_removed.clone() };
    like_check(&None, &one_removed)?;
    like_check(&Some(none_removed.clone()), &none_removed)?;
    must_differ(like_check(&None, &none_removed))?;
    must_differ(like_check(&Some(none_removed), &one_removed))?;
    Ok(4)
}

/// Tallies that just meet every demand pass; without a kind, or with a count that just misses, they do not.
fn too_little_seen(with_listing: bool) -> Result<usize, String> {
    let kinds = coverage::kind_names();
    let place = |demand: &Demand| kinds.iter().position(|&kind| Some(kind) == demand.kind).unwrap_or(0);
    let demands = coverage::demands(with_listing);
    let mut tallies: Vec<Tally> = kinds.iter().map(|kind| Tally::new(kind)).collect();
    for demand in &demands {
        tallies[place(demand)].counts.set(demand.seen, demand.number.just_met());
    }
    coverage::complete(&tallies, with_listing)?;
    let mut wrong = vec![tallies[1..].to_vec()];
    for demand in &demands {
        for count in demand.number.just_missed() {
            let mut missing = tallies.clone();
            missing[place(demand)].counts.set(demand.seen, count);
            wrong.push(missing);
        }
    }
    wrong.iter().try_for_each(|tallies| must_differ(coverage::complete(tallies, with_listing)))?;
    Ok(wrong.len())
}

fn must_differ(compared: Result<(), String>) -> Result<(), String> {
    match compared {
        Err(_) => Ok(()),
        Ok(()) => Err("the self-test's wrong expectation passed".to_string()),
    }
}
