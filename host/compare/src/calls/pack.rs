//! Pack, with random cells, tags and grades.

use super::{compared, expected, sizes};
use crate::generate::Cells;
use crate::guarded::Guarded;
use crate::library::{Buffers, Call, Library};
use crate::record::RECORD;
use crate::rng::Rng;
use crate::rules::Given;
use crate::seen::Counts;
use crate::service::{Buffer, Service};

pub fn all(library: Library, given: &Cells, rng: &mut Rng, counts: &mut Counts) -> Result<(), String> {
    let mut calls = Vec::new();
    for sizes in sizes::of_calls(Service::Pack, given.n, given.tags.len(), rng) {
        calls.push(call(Given { n: sizes.n, ..given.given() }, sizes.of(Buffer::Table), rng));
    }
    for other in other_lengths(given, rng) {
        calls.push(call(other.given(), RECORD * other.tags.len(), rng));
    }
    for call in calls {
        let expected = expected::of_pack(&call);
        let differs = |difference| format!("{difference}\n{}", given.shown());
        compared(library, call, expected, counts).map_err(differs)?;
    }
    Ok(())
}

pub fn call(given: Given, table_length: usize, rng: &mut Rng) -> Call {
    let lent = Buffers {
        cells: Guarded::holding(given.cells, rng),
        tags: Guarded::holding(given.tags, rng),
        grades: Guarded::holding(given.grades, rng),
        table: Guarded::dirty(table_length, rng),
        ..Buffers::default()
    };
    Call { service: Service::Pack, number: given.n, lent }
}

/// A cell, a grade, or a tag and a grade more, and one fewer where there is one; and any number of grades.
fn other_lengths(given: &Cells, rng: &mut Rng) -> [Cells; 7] {
    let Cells { cells, tags, grades, .. } = given;
    let any = [&grades[..], &[0; 2], grades].concat()[..rng.between(0, 2 * grades.len() + 2)].to_vec();
    [
        given.with_cells(one_more(cells, 0)),
        given.with_cells(one_fewer(cells)),
        given.with_grades(one_more(grades, 0)),
        given.with_grades(one_fewer(grades)),
        given.with_grades(any),
        Cells { tags: one_more(tags, 7), ..given.with_grades(one_more(grades, 0)) },
        Cells { tags: one_fewer(tags), ..given.with_grades(one_fewer(grades)) },
    ]
}

fn one_more<T: Copy>(elements: &[T], more: T) -> Vec<T> {
    elements.iter().copied().chain([more]).collect()
}

fn one_fewer<T: Copy>(elements: &[T]) -> Vec<T> {
    elements[..elements.len().saturating_sub(1)].to_vec()
}
