//! The calls of every service for one table, and for pack's cells, each compared with what is expected.

mod expected;
mod find;
mod grades;
mod order;
mod pack;
pub mod round_trips;
mod sizes;
mod uncalled;

use crate::agree;
use crate::expected::Outcome as TableOutcome;
use crate::generate::Cells;
use crate::guarded::Guarded;
use crate::library::{Buffers, Call, Library, Returned};
use crate::record::{column_count, first_without_calls, grade, whole_records, Matrix, RECORD};
use crate::rng::Rng;
use crate::rules::{table_fault, LEAST_WORK};
use crate::seen::{Counts, Seen, Verdict};
use crate::service::Service;
use expected::Expected;
use haplotypes::Outcome;
use sizes::Sizes;

/// A table, and what the methods make of it.
pub struct Table<'a> {
    pub bytes: &'a [u8],
    pub outcome: &'a TableOutcome,
}

/// Every service: right calls and wrong ones, and both round trips. Pack has cells of its own.
pub fn all(library: Library, table: &Table, cells: &Cells, rng: &mut Rng) -> Result<Counts, String> {
    let mut counts = Counts::default();
    for service in Service::ALL {
        of_service(library, service, table, cells, rng, &mut counts)?;
    }
    if round_trips::of_table(library, table.bytes, rng)? {
        let restored = first_without_calls(table.bytes).is_none();
        counts.add(if restored { Seen::TableRoundTrip } else { Seen::UncalledRoundTrip }, 1);
        counts.add(Seen::GappedTableRoundTrip, (restored && has_gaps(table)) as usize);
        let is_graded = whole_records(table.bytes).any(|record| grade(record) > 0);
        counts.add(Seen::GradedTableRoundTrip, (restored && is_graded) as usize);
    }
    if round_trips::of_cells(library, cells, rng)? {
        counts.add(Seen::CellsRoundTrip, 1);
        counts.add(Seen::GappedCellsRoundTrip, cells.matrix().is_gapped() as usize);
        counts.add(Seen::GradedCellsRoundTrip, cells.grades.iter().any(|&grade| grade > 0) as usize);
    }
    Ok(counts)
}

/// The calls of one service.
pub fn of_service(
    library: Library,
    service: Service,
    table: &Table,
    cells: &Cells,
    rng: &mut Rng,
    counts: &mut Counts,
) -> Result<(), String> {
    match service {
        Service::Find => find::all(library, table.bytes, rng, counts),
        Service::Pack => pack::all(library, cells, rng, counts),
        _ => on_tables(library, service, table, rng, counts),
    }
}

fn on_tables(
    library: Library,
    service: Service,
    table: &Table,
    rng: &mut Rng,
    counts: &mut Counts,
) -> Result<(), String> {
    for sizes in sizes::of_calls(service, column_count(table.bytes), table.bytes.len() / RECORD, rng) {
        let call = on_table(service, table.bytes, sizes, rng);
        let expected = expected::of_call(&call, table.outcome);
        if matches!(expected.returned, Returned::Outcome(Outcome::Refused(8, _))) {
            counts.add(gap(&call), 1);
        }
        compared(library, call, expected, counts)?;
    }
    Ok(())
}

fn has_gaps(table: &Table) -> bool {
    Matrix::read(table.bytes, column_count(table.bytes)).is_gapped()
}

/// What S's or F's refusal 8 shows: check accepts, or it refuses that record by 9 or 13, or a later one.
fn gap(call: &Call) -> Seen {
    match table_fault(call.number, call.lent.table.lent()) {
        None => Seen::GapAlone(call.service),
        Some(_) => Seen::GapBeforeFault(call.service),
    }
}

fn on_table(service: Service, table: &[u8], sizes: Sizes, rng: &mut Rng) -> Call {
    let mut lent = Buffers { table: Guarded::holding(table, rng), ..Buffers::default() };
    for &buffer in service.buffers().iter().filter(|buffer| !service.reads().contains(buffer)) {
        lent.room_mut(buffer).lend_dirty(sizes.of(buffer), rng);
    }
    Call { service, number: sizes.n, lent }
}

/// Makes a call. What it returns and every element of what it is lent, guards and inputs too, must be as expected.
fn compared(library: Library, mut call: Call, expected: Expected, counts: &mut Counts) -> Result<(), String> {
    let returned = library(&mut call);
    let outcome = agree("returned", &expected.returned, &returned);
    if let Some(difference) = outcome.err().or_else(|| expected.after.difference(&call.lent)) {
        return Err(format!("{}: {difference}", call.shown()));
    }
    counts.add(Seen::Call(call.service), 1);
    if let Returned::Outcome(outcome) = returned {
        counts.add(Seen::Returned(call.service, verdict(call.service, outcome)), 1);
        let long_work = matches!(outcome, Outcome::Accepted(_)) && call.lent.work.lent().len() > LEAST_WORK;
        counts.add(Seen::LongWork(call.service), long_work as usize);
        order::count(&call, outcome, counts);
        uncalled::count(&call, outcome, counts);
        grades::count(&call, outcome, counts);
    }
    Ok(())
}

fn verdict(service: Service, outcome: Outcome) -> Verdict {
    let returns_m = matches!(service, Service::Unpack | Service::Pack | Service::ConflictCounts);
    match outcome {
        Outcome::Refused(number, _) => Verdict::Refused(number as usize),
        Outcome::Accepted(_) if returns_m => Verdict::Accepted,
        Outcome::Accepted(0) => Verdict::Yes,
        Outcome::Accepted(_) => Verdict::No,
    }
}
