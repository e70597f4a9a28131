//! Libraries that are wrong in one way each. The linked one makes the call, and what it returned or left is then spoiled:
//! a count, a refusal, an element of each buffer or beside it, work left dirty, other counts of conflicts, another part of
//! the table, and whatever is wrong about holes (`wrong_gaps`), about the order of records (`wrong_order`), about fragments
//! without calls (`wrong_uncalled`) and about grades (`wrong_grades`).

use super::{
    gapped_triangle, graded_table, must_differ, printed_table, stored_table, wrong_gaps, wrong_grades, wrong_order,
    wrong_uncalled,
};
use crate::agree;
use crate::calls::{self, round_trips, Table};
use crate::counts::conflicts;
use crate::expected;
use crate::generate::Cells;
use crate::library::{proved, Buffers, Call, Library, Returned};
use crate::record::{column_count, grade, places_of, record, tag, whole_records, Matrix, CELLS, HOLE, RECORD};
use crate::rng::Rng;
use crate::rules::{Refusal, LEAST_WORK};
use crate::seen::Counts;
use crate::service::{Buffer, Service};
use haplotypes::Outcome::{Accepted, Refused};
use std::ops::Range;

pub struct Wrong {
    service: Service,
    /// what the comparison must say of it
    said: String,
    spoil: Spoil,
}

/// Spoils what a call returned or left. It has what the buffers held before.
type Spoil = Box<dyn Fn(&mut Call, &mut Returned, Buffers) + Sync>;

/// A table with what the methods make of it, and cells for pack.
struct Case {
    bytes: Vec<u8>,
    outcome: expected::Outcome,
    cells: Cells,
}

fn cases(tables: Vec<(Vec<u8>, Cells)>) -> Result<Vec<Case>, String> {
    let case = |(bytes, cells): (Vec<u8>, Cells)| Ok(Case { outcome: expected::outcome(&bytes)?, bytes, cells });
    tables.into_iter().map(case).collect()
}

/// The number of wrong libraries, each noticed by the comparison that the linked one passes.
pub fn noticed() -> Result<usize, String> {
    let tables = cases(tables_in_order())?;
    compared(&proved, &tables)?;
    let mut all = wrong_outcomes();
    all.extend(Service::ALL.into_iter().flat_map(wrong_elements));
    all.extend(dirty_works());
    all.extend(wrong_counts());
    all.extend(counts_left());
    all.extend(counts_of_refused());
    all.extend(wrong_parts());
    all.extend(wrong_grades::of_any_table());
    let of_gaps = wrong_gaps::all();
    let gapless = cases(gapless_tables())?;
    // without holes between calls none of these would be noticed
    of_gaps.iter().try_for_each(|wrong| wrong.compared(&gapless))?;
    all.extend(of_gaps);
    all.iter().try_for_each(|wrong| must_be_noticed(wrong, &tables))?;
    let orders = all_noticed(&wrong_order::all(), wrong_order::tables(), wrong_order::plain_tables())?;
    let uncalled = all_noticed(&wrong_uncalled::all(), wrong_uncalled::tables(), wrong_uncalled::plain_tables())?;
    let grades = all_noticed(&wrong_grades::all(), wrong_grades::tables(), wrong_grades::plain_tables())?;
    Ok(all.len() + orders + uncalled + grades + wrong_round_trips()?)
}

/// The number of wrong libraries, each noticed by these tables, and not by plain ones, of which all say the same.
fn all_noticed(all: &[Wrong], tables: Vec<(Vec<u8>, Cells)>, plain: Vec<(Vec<u8>, Cells)>) -> Result<usize, String> {
    let (tables, plain) = (cases(tables)?, cases(plain)?);
    compared(&proved, &tables)?;
    all.iter().try_for_each(|wrong| wrong.compared(&plain))?;
    all.iter().try_for_each(|wrong| must_be_noticed(wrong, &tables))?;
    Ok(all.len())
}

/// The calls of a run about some tables, and about the cells with each.
fn compared(library: Library, cases: &[Case]) -> Result<(), String> {
    for Case { bytes, outcome, cells } in cases {
        calls::all(library, &Table { bytes, outcome }, cells, &mut Rng::new(1))?;
    }
    Ok(())
}

/// One error-free, one not, and one with conflicts on columns 32 to 127.
fn gapless_tables() -> Vec<(Vec<u8>, Cells)> {
    let pair = [record(1, 0, &[1]), record(2, 0, &[2])].concat();
    let wide = [record(1, 32, &[1; CELLS]), record(2, 32, &[2; CELLS])].concat();
    [pair, printed_table(), wide].map(|bytes| (bytes, printed_cells())).into()
}

fn tables_in_order() -> Vec<(Vec<u8>, Cells)> {
    let gapped = wrong_gaps::tables().map(|bytes| (bytes, triangle_cells()));
    gapless_tables().into_iter().chain(gapped).collect()
}

pub type Record = [u8; RECORD];

/// A table and its fragments for pack.
pub fn both(records: &[Record]) -> (Vec<u8>, Cells) {
    (records.concat(), fragments(&records.concat()))
}

pub fn fragments(table: &[u8]) -> Cells {
    let n = column_count(table);
    let (tags, grades) = whole_records(table).map(|record| (tag(record), grade(record))).unzip();
    Cells { n, cells: Matrix::read(table, n).rows.concat(), tags, grades }
}

fn printed_cells() -> Cells {
    Cells::ungraded(3, vec![1, 1, 0, 2, 1, 1, 0, 2, 2], vec![10, 11, 12])
}

fn triangle_cells() -> Cells {
    Cells::ungraded(3, vec![1, 2, 0, 2, 0, 1, 0, 1, 2], vec![10, 11, 12])
}

fn must_be_noticed(wrong: &Wrong, cases: &[Case]) -> Result<(), String> {
    let name = wrong.service.name();
    match wrong.compared(cases) {
        Ok(()) => Err(format!("self-test: a wrong {name} passed: {:?}", wrong.said)),
        Err(difference) if difference.starts_with(name) && difference.contains(&wrong.said) => Ok(()),
        Err(difference) => Err(format!("self-test: a wrong {name} ({:?}) is reported as {difference}", wrong.said)),
    }
}

impl Wrong {
    pub fn new(service: Service, spoil: impl Fn(&mut Call, &mut Returned, Buffers) + Sync + 'static) -> Wrong {
        Wrong { service, said: ": returned\n".to_string(), spoil: Box::new(spoil) }
    }

    /// Wrong in the outcome, and in what is left then.
    pub fn outcome(
        service: Service,
        spoil: impl Fn(&mut Call, &mut haplotypes::Outcome, Buffers) + Sync + 'static,
    ) -> Wrong {
        Wrong::new(service, move |call, returned, before| {
            if let Returned::Outcome(outcome) = returned {
                spoil(call, outcome, before);
            }
        })
    }

    pub fn in_buffer(self, buffer: Buffer) -> Wrong {
        Wrong { said: format!(": in its {}, ", buffer.name()), ..self }
    }

    /// Its calls of the service that it is wrong about.
    fn compared(&self, cases: &[Case]) -> Result<(), String> {
        for Case { bytes, outcome, cells } in cases {
            let (table, counts) = (Table { bytes, outcome }, &mut Counts::default());
            calls::of_service(&self.library(), self.service, &table, cells, &mut Rng::new(1), counts)?;
        }
        Ok(())
    }

    fn library(&self) -> impl Fn(&mut Call) -> Returned + Sync + '_ {
        |call| {
            let before = call.lent.clone();
            let mut returned = proved(call);
            if call.service == self.service {
                (self.spoil)(call, &mut returned, before);
            }
            returned
        }
    }
}

/// Another count, number or place; a refusal of what is accepted, and an acceptance of what is refused.
fn wrong_outcomes() -> Vec<Wrong> {
    type Other = fn(haplotypes::Outcome) -> haplotypes::Outcome;
    let others: [Other; 5] = [
        |outcome| if let Accepted(count) = outcome { Accepted(count + 1) } else { outcome },
        |outcome| if let Refused(number, place) = outcome { Refused(number + 1, place) } else { outcome },
        |outcome| if let Refused(number, place) = outcome { Refused(number, place + 1) } else { outcome },
        |outcome| if let Accepted(_) = outcome { Refused(1, 0) } else { outcome },
        |outcome| if let Refused(..) = outcome { Accepted(0) } else { outcome },
    ];
    let spoiled = |service, other: Other| Wrong::outcome(service, move |_, outcome, _| *outcome = other(*outcome));
    let services = Service::ALL.into_iter().filter(|&service| service != Service::Find);
    services.flat_map(|service| others.map(|other| spoiled(service, other))).collect()
}

/// Where to write in a room of some length with this part lent.
pub type Place = fn(Range<usize>, usize) -> usize;
pub const FIRST: Place = |lent, _| lent.start;
const LAST: Place = |lent, _| lent.end - 1;
/// The guards beside the buffer and farthest from it.
const GUARDS: [Place; 4] = [|lent, _| lent.start - 1, |lent, _| lent.end, |_, _| 0, |_, length| length - 1];

/// One element of each buffer, or beside it, changed on each acceptance, or on each refusal. Find has no refusal.
fn wrong_elements(service: Service) -> Vec<Wrong> {
    let outcomes: &[bool] = if service == Service::Find { &[false] } else { &[false, true] };
    let mut all = Vec::new();
    for buffer in service.buffers() {
        for &refused in outcomes {
            let places = [FIRST, LAST].into_iter().chain(GUARDS);
            all.extend(places.map(|place| flipping(service, buffer, place, move |to| is_refusal(to) == refused)));
        }
    }
    all
}

/// An element changed on some of what is returned. Empty buffers are left alone, so that it is the element at the place that is
/// noticed.
pub fn flipping(
    service: Service,
    buffer: Buffer,
    place: Place,
    on: impl Fn(&Returned) -> bool + Sync + 'static,
) -> Wrong {
    let wrong = Wrong::new(service, move |call, returned, _| {
        let room = call.lent.room_mut(buffer);
        if on(returned) && !room.lent_range().is_empty() {
            room.flip(place(room.lent_range(), room.length()));
        }
    });
    wrong.in_buffer(buffer)
}

/// A library that changes an outcome which says that records, or pack's fragments, were looked at.
pub fn of_records(
    service: Service,
    change: impl Fn(&Call, haplotypes::Outcome) -> Option<haplotypes::Outcome> + Sync + 'static,
) -> Wrong {
    Wrong::outcome(service, move |call, outcome, before| {
        let looked_at = matches!(outcome, Accepted(_) | Refused(4..=9 | 13 | 17, _));
        if let Some(other) = looked_at.then(|| change(call, *outcome)).flatten() {
            *outcome = other;
            call.lent = before;
        }
    })
}

pub fn refused_by(refusal: Refusal) -> haplotypes::Outcome {
    Refused(refusal.number as u8, refusal.place)
}

/// What a service fills or borrows.
pub fn written(service: Service) -> impl Iterator<Item = Buffer> {
    service.buffers().into_iter().filter(move |buffer| !service.reads().contains(buffer))
}

pub fn is_refusal(returned: &Returned) -> bool {
    matches!(returned, Returned::Outcome(Refused(..)))
}

/// Work left as it was, whole or past the least, on each acceptance.
fn dirty_works() -> Vec<Wrong> {
    let dirty = |service, from: usize| {
        Wrong::new(service, move |call, returned, before| {
            if !is_refusal(returned) {
                call.lent.work.lent_mut()[from..].copy_from_slice(&before.work.lent()[from..]);
            }
        })
        .in_buffer(Buffer::Work)
    };
    let borrowing = Service::ALL.into_iter().filter(|service| service.borrows_work());
    borrowing.flat_map(|service| [dirty(service, 0), dirty(service, LEAST_WORK)]).collect()
}

/// Conflict_counts with the number 1 for any other but 0, with the columns that both call, with a fragment's calls against
/// itself, and without the columns from 64 on or below 64.
fn wrong_counts() -> Vec<Wrong> {
    type Count = fn(&Matrix, usize, usize) -> usize;
    let others: [Count; 5] = [
        |matrix, i, j| conflicts_of(matrix, i, j).count().min(1),
        |matrix, i, j| if i == j { 0 } else { called_by_both(matrix, i, j) },
        |matrix, i, j| if i == j { called_by_both(matrix, i, i) } else { conflicts_of(matrix, i, j).count() },
        |matrix, i, j| conflicts_of(matrix, i, j).filter(|&c| c < 64).count(),
        |matrix, i, j| conflicts_of(matrix, i, j).filter(|&c| c >= 64).count(),
    ];
    let spoiled = |other: Count| {
        Wrong::new(Service::ConflictCounts, move |call, returned, _| {
            if !is_refusal(returned) {
                let matrix = Matrix::read(call.lent.table.lent(), call.number);
                let count = |at: usize| other(&matrix, at / matrix.m(), at % matrix.m()) as u8;
                let counts: Vec<u8> = (0..matrix.m() * matrix.m()).map(count).collect();
                call.lent.counts.put(&counts);
            }
        })
        .in_buffer(Buffer::Counts)
    };
    others.map(spoiled).into()
}

fn conflicts_of(matrix: &Matrix, i: usize, j: usize) -> impl Iterator<Item = usize> + '_ {
    conflicts(&matrix.rows[i], &matrix.rows[j])
}

fn called_by_both(matrix: &Matrix, i: usize, j: usize) -> usize {
    (0..matrix.n).filter(|&c| matrix.rows[i][c] != HOLE && matrix.rows[j][c] != HOLE).count()
}

/// Half of the counts left as they were, on each acceptance: those above the diagonal, or below it.
fn counts_left() -> Vec<Wrong> {
    type Half = fn(usize, usize) -> bool;
    let halves: [Half; 2] = [|i, j| i < j, |i, j| j < i];
    let left = |half: Half| {
        Wrong::new(Service::ConflictCounts, move |call, returned, before| {
            let m = call.lent.table.lent().len() / RECORD;
            if !is_refusal(returned) {
                let left = (0..m * m).filter(|at| half(at / m, at % m));
                left.for_each(|at| call.lent.counts.lent_mut()[at] = before.counts.lent()[at]);
            }
        })
        .in_buffer(Buffer::Counts)
    };
    halves.map(left).into()
}

/// Counts cleared on each refusal, or only where a record is refused.
fn counts_of_refused() -> Vec<Wrong> {
    type Numbers = fn(u8) -> bool;
    let all: [Numbers; 2] = [|_| true, |number| matches!(number, 4..=9 | 13)];
    let cleared = |numbers: Numbers| {
        Wrong::new(Service::ConflictCounts, move |call, returned, _| {
            if matches!(returned, Returned::Outcome(Refused(number, _)) if numbers(*number)) {
                call.lent.counts.lent_mut().fill(0);
            }
        })
        .in_buffer(Buffer::Counts)
    };
    all.map(cleared).into()
}

/// Find with the last record in the place of the first, with nothing found, with the empty part at the table's start,
/// and with parts beside the right one.
fn wrong_parts() -> Vec<Wrong> {
    type Other = fn(u32, &[u8], Range<usize>) -> Range<usize>;
    let others: [Other; 6] = [
        |wanted, table, part| {
            let last = places_of(wanted, table).last();
            last.map_or(part, |place| RECORD * place..RECORD * (place + 1))
        },
        |_, table, _| table.len()..table.len(),
        |_, _, part| if part.is_empty() { 0..0 } else { part },
        |_, _, part| part.start + RECORD..part.end + RECORD,
        |_, _, part| part.start + 1..part.end + 1,
        |_, _, part| part.start..part.end.saturating_sub(1),
    ];
    let spoiled = |other: Other| {
        Wrong::new(Service::Find, move |call, returned, _| {
            if let Returned::Part(part) = returned {
                *part = other(call.number as u32, call.lent.table.lent(), part.clone());
            }
        })
    };
    others.map(spoiled).into()
}

/// A cell, a tag, a grade and a byte of a record that change on the way there or back, both ways round, without holes and with
/// them; far mates and grades that get lost; and records without calls that pack takes, or refuses in another way.
fn wrong_round_trips() -> Result<usize, String> {
    let unpacked = [Buffer::Cells, Buffer::Tags, Buffer::Grades].map(|buffer| (Service::Unpack, buffer));
    let places = unpacked.into_iter().chain([(Service::Pack, Buffer::Table)]);
    let flipped: Vec<Wrong> =
        places.map(|(service, buffer)| flipping(service, buffer, FIRST, |returned| !is_refusal(returned))).collect();
    let lost = [wrong_gaps::near_cells(), wrong_gaps::near_records()];
    let gapless = trips_noticed(&printed_table(), &printed_cells(), &flipped)?;
    let gapped = [&flipped[..], &lost].map(|wrong| trips_noticed(&gapped_triangle(), &triangle_cells(), wrong));
    let uncalled = table_trips_noticed(&stored_table(), &wrong_uncalled::of_round_trip())?;
    let graded = trips_noticed(&graded_table(), &wrong_grades::graded_cells(), &wrong_grades::of_round_trip())?;
    gapped.into_iter().try_fold(gapless + uncalled + graded, |sum, noticed| Ok(sum + noticed?))
}

/// The number of round trips by wrong libraries, each noticed.
fn trips_noticed(table: &[u8], cells: &Cells, wrong: &[Wrong]) -> Result<usize, String> {
    let of_cells = |library: Library| round_trips::of_cells(library, cells, &mut Rng::new(1));
    Ok(table_trips_noticed(table, wrong)? + each_noticed(of_cells, wrong)?)
}

fn table_trips_noticed(table: &[u8], wrong: &[Wrong]) -> Result<usize, String> {
    each_noticed(|library| round_trips::of_table(library, table, &mut Rng::new(1)), wrong)
}

fn each_noticed(trip: impl Fn(Library) -> Result<bool, String>, wrong: &[Wrong]) -> Result<usize, String> {
    agree("a round trip", &Ok(true), &trip(&proved))?;
    wrong.iter().try_for_each(|wrong| must_differ(trip(&wrong.library()).map(drop)))?;
    Ok(wrong.len())
}
