//! Libraries that are wrong about fragments without calls: a pack that takes them, tells them by something else, at another turn
//! among the rules or at another place, or writes all the same; and another service that refuses them.

use super::stored_table;
use super::wrong_libraries::{flipping, refused_by, Wrong, FIRST};
use crate::generate::Cells;
use crate::library::{Call, Returned};
use crate::record::{first_without_calls, packed, record, span, A, B, HOLE};
use crate::rules::{Refusal, MOST_FRAGMENTS};
use crate::service::{Buffer, Service};
use crate::uncalled::{other_fault, places, Other, OTHERS};
use haplotypes::Outcome::{self, Accepted, Refused};

/// Every row has whatever could be asked of it.
pub fn plain_tables() -> Vec<(Vec<u8>, Cells)> {
    vec![(plain(), plain_cells())]
}

/// Cells for pack, and then a stored table: pack's own calls show what is wrong before a round trip does.
pub fn tables() -> Vec<(Vec<u8>, Cells)> {
    let cells = refused().into_iter().chain(beside_other_faults()).chain(accepted());
    cells.map(|cells| (plain(), cells)).chain([(stored_table(), plain_cells())]).collect()
}

fn plain() -> Vec<u8> {
    [record(1, 0, &[A, B]), record(2, 0, &[B, A])].concat()
}

fn plain_cells() -> Cells {
    given(&[[A, B], [B, A]], &[1, 2])
}

fn given(rows: &[[u8; 2]], tags: &[u32]) -> Cells {
    Cells::ungraded(2, rows.concat(), tags.to_vec())
}

fn on_no_columns(m: usize) -> Cells {
    Cells::ungraded(0, Vec::new(), (0..m as u32).collect())
}

const CALLED: [u8; 2] = [A, B];
const UNCALLED: [u8; 2] = [HOLE, HOLE];

/// One fragment without calls at each place, several, and all; on no columns 128 of them, and one too many.
fn refused() -> Vec<Cells> {
    vec![
        given(&[UNCALLED, CALLED, CALLED], &[1, 2, 3]),
        given(&[CALLED, UNCALLED, CALLED], &[1, 2, 3]),
        given(&[CALLED, CALLED, UNCALLED], &[1, 2, 3]),
        given(&[CALLED, UNCALLED, UNCALLED], &[1, 2, 3]),
        given(&[UNCALLED, UNCALLED], &[1, 2]),
        on_no_columns(MOST_FRAGMENTS),
        on_no_columns(MOST_FRAGMENTS + 1),
    ]
}

/// Another rule that is broken by the fragment without calls, by an earlier one, and by a later one.
fn beside_other_faults() -> Vec<Cells> {
    vec![
        given(&[CALLED, [HOLE, 3]], &[1, 2]),
        given(&[CALLED, UNCALLED], &[1, 1]),
        given(&[[HOLE, A], UNCALLED], &[1, 2]),
        given(&[[A, 3], UNCALLED], &[1, 2]),
        given(&[CALLED, UNCALLED, [A, 3]], &[1, 2, 3]),
    ]
}

/// Rows of one call, A or B, in the first column, the last and column 64; and no fragments.
fn accepted() -> Vec<Cells> {
    let far = [&[HOLE; 64][..], &CALLED].concat();
    vec![given(&[[A, HOLE], [HOLE, B]], &[1, 2]), Cells::ungraded(far.len(), far, vec![1]), given(&[], &[])]
}

pub fn all() -> Vec<Wrong> {
    let mut all: Vec<Wrong> = Service::ON_TABLES.map(refusing_stored).into();
    all.extend(TAKEN.map(taking));
    all.extend(OTHERS.iter().map(asking));
    all.extend([9, 13].map(after_rule));
    all.extend([2, 11].map(before_size));
    all.extend([after_all(), before_all(), before_unknown(), at_0(), at_last(), writing()]);
    all.extend([refusing_none(), find_with_calls()]);
    all
}

/// Those that the round trip of a table with records without calls must notice.
pub fn of_round_trip() -> [Wrong; 5] {
    [refusing_stored(Service::Unpack), taking(TAKEN[0]), at_0(), at_last(), writing()]
}

/// A service on tables that refuses a record without calls.
fn refusing_stored(service: Service) -> Wrong {
    Wrong::outcome(service, |call, outcome, before| {
        if let (Accepted(_), Some(place)) = (*outcome, first_without_calls(call.lent.table.lent())) {
            *outcome = Refused(17, place);
            call.lent = before;
        }
    })
}

/// A pack that changes its outcome.
fn of_pack(change: impl Fn(&Call, Outcome) -> Option<Outcome> + Sync + 'static) -> Wrong {
    Wrong::outcome(Service::Pack, move |call, outcome, before| {
        if let Some(other) = change(call, *outcome) {
            *outcome = other;
            call.lent = before;
        }
    })
}

fn first_uncalled(call: &Call) -> Option<usize> {
    places(&call.matrix().rows).next()
}

/// Is a fragment at a place, without calls, taken?
type Taken = fn(&Call, usize) -> bool;

/// Every one, every one but fragment 0, the last fragment, and those on no columns.
const TAKEN: [Taken; 4] = [
    |_, _| true,
    |_, place| place > 0,
    |call, place| place + 1 == call.lent.tags.lent().len(),
    |call, _| call.number == 0,
];

/// A pack that writes records without calls, as it did.
fn taking(taken: Taken) -> Wrong {
    Wrong::outcome(Service::Pack, move |call, outcome, _| match *outcome {
        Refused(17, place) if taken(call, place) => match other_fault(call) {
            Some(refusal) => *outcome = refused_by(refusal),
            None => {
                let rows = call.matrix().rows;
                let table = packed(&rows, call.lent.tags.lent(), call.lent.grades.lent());
                call.lent.table.put(&table);
                *outcome = Accepted(rows.len());
            }
        },
        _ => {}
    })
}

/// A pack that asks for something else than a call.
fn asking(other: &'static Other) -> Wrong {
    of_pack(|call, outcome| match outcome {
        Accepted(_) => other.first_without(&call.matrix().rows).map(|place| Refused(17, place)),
        _ => None,
    })
}

/// Rule 17 after another rule of the fragment.
fn after_rule(rule: usize) -> Wrong {
    of_pack(move |call, outcome| match outcome {
        Refused(17, place) => {
            other_fault(call).filter(|&fault| fault == Refusal { number: rule, place }).map(refused_by)
        }
        _ => None,
    })
}

/// Rule 17 after the other rules of all fragments.
fn after_all() -> Wrong {
    of_pack(|call, outcome| match outcome {
        Refused(17, _) => other_fault(call).map(refused_by),
        _ => None,
    })
}

/// Rule 17 before the other rules of all fragments.
fn before_all() -> Wrong {
    of_pack(|call, outcome| match outcome {
        Refused(4..=6 | 9 | 13, place) => {
            first_uncalled(call).filter(|&uncalled| uncalled > place).map(|uncalled| Refused(17, uncalled))
        }
        _ => None,
    })
}

/// Rule 17 before 6 of the fragment.
fn before_unknown() -> Wrong {
    of_pack(|call, outcome| match outcome {
        Refused(6, place) => {
            first_uncalled(call).filter(|&uncalled| uncalled == place).map(|uncalled| Refused(17, uncalled))
        }
        _ => None,
    })
}

/// Rule 17 before 2 or 11, which are of the call as a whole.
fn before_size(rule: u8) -> Wrong {
    of_pack(move |call, outcome| match outcome {
        Refused(number, _) if number == rule => first_uncalled(call).map(|uncalled| Refused(17, uncalled)),
        _ => None,
    })
}

fn at_0() -> Wrong {
    of_pack(|_, outcome| matches!(outcome, Refused(17, _)).then_some(Refused(17, 0)))
}

/// The last of several fragments without calls.
fn at_last() -> Wrong {
    of_pack(|call, outcome| match outcome {
        Refused(17, _) => places(&call.matrix().rows).last().map(|uncalled| Refused(17, uncalled)),
        _ => None,
    })
}

/// The table written before 17 is found.
fn writing() -> Wrong {
    flipping(Service::Pack, Buffer::Table, FIRST, |returned| matches!(returned, Returned::Outcome(Refused(17, _))))
}

/// A pack that refuses to write no fragments.
fn refusing_none() -> Wrong {
    of_pack(|call, outcome| match outcome {
        Accepted(0) if call.lent.tags.lent().is_empty() => Some(Refused(17, 0)),
        _ => None,
    })
}

/// Find with nothing where the record has no calls.
fn find_with_calls() -> Wrong {
    Wrong::new(Service::Find, |call, returned, _| {
        let table = call.lent.table.lent();
        if let Returned::Part(part) = returned {
            let record = &table[part.clone()];
            if !record.is_empty() && span(record) == 0 {
                *part = table.len()..table.len();
            }
        }
    })
}
