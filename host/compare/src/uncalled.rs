//! What calls of pack must show of fragments without calls, so that telling them by something else or at another turn would be
//! noticed.

use crate::library::Call;
use crate::record::{has_call, A, B, HOLE};
use crate::rules::{pack_fault_without, Refusal};

/// Which of the fragments given to pack have no call.
#[derive(Clone, Copy, PartialEq, Eq, PartialOrd, Ord, Debug)]
pub enum Uncalled {
    First,
    Between,
    Last,
    Several,
    All,
    /// all, as there is no column to call
    NoColumns,
}

impl Uncalled {
    pub const ALL: [Uncalled; 6] =
        [Uncalled::First, Uncalled::Between, Uncalled::Last, Uncalled::Several, Uncalled::All, Uncalled::NoColumns];

    /// Of rows of which one at least has no call.
    pub fn of(rows: &[Vec<u8>]) -> Uncalled {
        let places: Vec<usize> = places(rows).collect();
        match places[..] {
            _ if rows[0].is_empty() => Uncalled::NoColumns,
            _ if places.len() == rows.len() => Uncalled::All,
            [0] => Uncalled::First,
            [place] if place == rows.len() - 1 => Uncalled::Last,
            [_] => Uncalled::Between,
            _ => Uncalled::Several,
        }
    }
}

/// The places of the rows without calls.
pub fn places(rows: &[Vec<u8>]) -> impl Iterator<Item = usize> + '_ {
    (0..rows.len()).filter(|&place| !has_call(&rows[place]))
}

/// The first fault of pack's fragments, if it took those without calls.
pub fn other_fault(call: &Call) -> Option<Refusal> {
    pack_fault_without(17, call.given())
}

/// What some library could ask of a row in the place of a call, though rows with calls lack it.
pub struct Other {
    pub name: &'static str,
    has: fn(&[u8]) -> bool,
}

impl Other {
    /// The first row that lacks it, of rows with calls.
    pub fn first_without(&self, rows: &[Vec<u8>]) -> Option<usize> {
        rows.iter().position(|row| !(self.has)(row))
    }
}

pub static OTHERS: [Other; 6] = [
    other("two calls", |row| row.iter().filter(|&&code| code != HOLE).count() > 1),
    other("an A", |row| row.contains(&A)),
    other("a B", |row| row.contains(&B)),
    other("a call after the first column", |row| has_call(&row[1..])),
    other("a call before the last column", |row| has_call(&row[..row.len() - 1])),
    other("a call below column 64", |row| has_call(&row[..row.len().min(64)])),
];

const fn other(name: &'static str, has: fn(&[u8]) -> bool) -> Other {
    Other { name, has }
}
