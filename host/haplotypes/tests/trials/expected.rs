//! What calls are expected to return, and to leave in the buffers.

use haplotypes::Outcome::{self, Accepted, Refused};

use crate::calls::Service;
use crate::fixtures::{answer, counts, Fixture};

/// Of one call. A buffer without numbers here is left as it was. The work is not here: an answer leaves it all zero.
#[derive(Clone)]
pub struct Expected {
    pub outcome: Outcome,
    pub cells: Option<Vec<u8>>,
    pub tags: Option<Vec<u32>>,
    pub grades: Option<Vec<u8>>,
    pub answer: Option<Vec<u8>>,
    pub table: Option<Vec<u8>>,
    pub counts: Option<Vec<u8>>,
}

impl Expected {
    pub fn untouched(outcome: Outcome) -> Expected {
        Expected { outcome, cells: None, tags: None, grades: None, answer: None, table: None, counts: None }
    }

    pub fn refused(number: u8, place: usize) -> Expected {
        Expected::untouched(Refused(number, place))
    }

    pub fn unpacked(given: &Fixture) -> Expected {
        let (cells, tags, grades) = (given.cells.clone(), given.tags.clone(), given.grades.clone());
        let outcome = Accepted(given.m());
        Expected { cells: Some(cells), tags: Some(tags), grades: Some(grades), ..Expected::untouched(outcome) }
    }

    /// The table, where every fragment has a call; the first without is refused.
    pub fn packed(given: &Fixture) -> Expected {
        match given.first_without_calls() {
            Some(place) => Expected::refused(17, place),
            None => Expected { table: Some(given.table.clone()), ..Expected::untouched(Accepted(given.m())) },
        }
    }

    /// Conflict_counts' numbers, a word of digits to a fragment: `01 10`.
    pub fn counted(rows: &str) -> Expected {
        let m = if rows == "." { 0 } else { rows.split(' ').count() };
        Expected { counts: Some(counts(rows)), ..Expected::untouched(Accepted(m)) }
    }

    /// The same of m fragments by an argument: the number of two of them.
    pub fn counted_by(m: usize, count: impl Fn(usize, usize) -> usize) -> Expected {
        let number = |at: usize| count(at / m, at % m) as u8;
        Expected { counts: Some((0..m * m).map(number).collect()), ..Expected::untouched(Accepted(m)) }
    }

    /// A line as the listing has it: the count, and the fields of the answer.
    pub fn listed(line: &str) -> Expected {
        let (count, fields) = line.split_once(' ').unwrap_or_else(|| panic!("no count: {line}"));
        let count = count.parse().unwrap_or_else(|_| panic!("no count: {line}"));
        Expected { answer: Some(answer(fields)), ..Expected::untouched(Accepted(count)) }
    }

    /// The same with a count that is so many times as large.
    pub fn times(self, factor: usize) -> Expected {
        let Accepted(count) = self.outcome else { panic!("no count: {}", self.outcome) };
        Expected { outcome: Accepted(factor * count), ..self }
    }

    /// The same of C, whose table has these fragments, and the grade 0 throughout.
    pub fn corrected(line: &str, fragments: &[impl AsRef<str>]) -> Expected {
        Expected::corrected_to(line, &Fixture::of(fragments))
    }

    /// The same of any tags and grades.
    pub fn corrected_to(line: &str, corrected: &Fixture) -> Expected {
        Expected { table: Some(corrected.table.clone()), ..Expected::listed(line) }
    }
}

/// Of every service that can refuse, given one table.
pub struct Each {
    unpack: Expected,
    pack: Expected,
    check: Expected,
    conflict_counts: Expected,
    s: Expected,
    f: Expected,
    c: Expected,
}

impl Each {
    /// No two fragments conflict, so the table is error-free too.
    pub fn of_conflict_free(given: &Fixture, fields: &str) -> Each {
        Each::of_error_free(given, Expected::counted_by(given.m(), |_, _| 0), fields)
    }

    /// The same of As alone: all are on side 1, and each is a block by itself.
    pub fn of_as_alone(given: &Fixture) -> Each {
        let (m, n) = (given.m(), given.n);
        let called = |c: usize| (0..m).any(|i| given.cells[n * i + c] != 0);
        let haplotype: String = (0..n).map(|c| if called(c) { 'A' } else { '-' }).collect();
        let blocks: Vec<String> = (0..m).map(|i| i.to_string()).collect();
        let [keep, sides] = [n, m].map(|count| "1".repeat(count));
        Each::of_conflict_free(given, &format!("{keep} {haplotype} {} {sides} {}", "-".repeat(n), blocks.join(",")))
    }

    /// There is nothing to change in an error-free table, so the answers of check, S, F and C are one.
    pub fn of_error_free(given: &Fixture, conflict_counts: Expected, fields: &str) -> Each {
        let listed = Expected::listed(&format!("0 {fields}"));
        let c = Expected { table: Some(given.table.clone()), ..listed.clone() };
        Each { check: listed.clone(), ..Each::of_errors(given, conflict_counts, [listed.clone(), listed, c]) }
    }

    /// Of S, F and C in this order. Check's no leaves the answer; unpack and pack do not look for errors.
    pub fn of_errors(given: &Fixture, conflict_counts: Expected, [s, f, c]: [Expected; 3]) -> Each {
        let (unpack, pack) = (Expected::unpacked(given), Expected::packed(given));
        Each { unpack, pack, check: Expected::untouched(Accepted(1)), conflict_counts, s, f, c }
    }

    /// Of conflict_counts and C, where a record has a hole between two calls: S and F refuse it.
    pub fn of_gapped_errors(given: &Fixture, place: usize, conflict_counts: Expected, c: Expected) -> Each {
        let refused = Expected::refused(8, place);
        Each::of_errors(given, conflict_counts, [refused.clone(), refused, c])
    }

    /// S and F refuse the record, which has a hole between two calls, and no other service does.
    pub fn gapped(mut self, place: usize) -> Each {
        self.s = Expected::refused(8, place);
        self.f = Expected::refused(8, place);
        self
    }

    /// C refuses the column, and no other service does.
    pub fn too_deep(mut self, column: usize) -> Each {
        self.c = Expected::refused(12, column);
        self
    }

    pub fn of(&self, service: Service) -> &Expected {
        match service {
            Service::Unpack => &self.unpack,
            Service::Pack => &self.pack,
            Service::Check => &self.check,
            Service::ConflictCounts => &self.conflict_counts,
            Service::S => &self.s,
            Service::F => &self.f,
            Service::C => &self.c,
        }
    }
}
