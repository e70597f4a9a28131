//! Both round trips. Nothing but what went in says what must come out.

use super::expected::Expected;
use super::sizes::Sizes;
use super::{compared, on_table, pack};
use crate::generate::Cells;
use crate::library::{Buffers, Call, Library, Returned};
use crate::record::{column_count, first_without_calls, RECORD};
use crate::rng::Rng;
use crate::rules::{pack_fault, table_fault, Given, MOST_COLUMNS};
use crate::seen::Counts;
use crate::service::Service;
use haplotypes::Outcome;

/// Unpacks a table and packs what came out: the table's bytes, or 17 at the first record without calls and nothing written.
/// False if the rules refuse the table.
pub fn of_table(library: Library, table: &[u8], rng: &mut Rng) -> Result<bool, String> {
    let least = column_count(table);
    if table_fault(least, table).is_some() {
        return Ok(false);
    }
    let n = rng.between(least, MOST_COLUMNS);
    let Buffers { cells, tags, grades, .. } = made(library, unpack(n, table, rng)).lent;
    let given = Given { n, cells: cells.lent(), tags: tags.lent(), grades: grades.lent() };
    let call = pack::call(given, table.len(), rng);
    let mut after = call.lent.clone();
    let outcome = match first_without_calls(table) {
        Some(place) => Outcome::Refused(17, place),
        None => {
            after.table.put(table);
            Outcome::Accepted(table.len() / RECORD)
        }
    };
    comes_back(library, call, after, outcome)?;
    Ok(true)
}

/// Packs fragments and unpacks the table that came out: the cells, tags and grades. False if the rules refuse the fragments.
pub fn of_cells(library: Library, given: &Cells, rng: &mut Rng) -> Result<bool, String> {
    let m = given.tags.len();
    if pack_fault(given.given(), RECORD * m).is_some() {
        return Ok(false);
    }
    let packed = made(library, pack::call(given.given(), RECORD * m, rng)).lent.table;
    let call = unpack(given.n, packed.lent(), rng);
    let mut after = call.lent.clone();
    after.cells.put(&given.cells);
    after.tags.put(&given.tags);
    after.grades.put(&given.grades);
    let differs = |difference| format!("{difference}\n{}", given.shown());
    comes_back(library, call, after, Outcome::Accepted(m)).map_err(differs)?;
    Ok(true)
}

fn unpack(n: usize, table: &[u8], rng: &mut Rng) -> Call {
    let sizes = Sizes::right(n, table.len() / RECORD, rng);
    on_table(Service::Unpack, table, sizes, rng)
}

/// The way there: only what comes back is compared.
fn made(library: Library, mut call: Call) -> Call {
    library(&mut call);
    call
}

fn comes_back(library: Library, call: Call, after: Buffers, outcome: Outcome) -> Result<(), String> {
    let expected = Expected { returned: Returned::Outcome(outcome), after };
    let there_and_back = |difference| format!("round trip, back by {difference}");
    compared(library, call, expected, &mut Counts::default()).map_err(there_and_back)
}
