//! A call of the bench: a service on a table of a kind, drawn from a seed, as it is or with a fault.

use crate::buffers::Buffers;
use crate::random::Random;
use crate::services::{Call, Service};
use crate::tables::{self, Kind, Table, A, CELLS, MOST};
use haplotypes::RECORD;
use std::fmt;
use std::ops::Range;

const HOLE: u8 = 0;
const NO_CALL: u8 = 3;

/// Grades over 15: the least, the most, and between them one with bit 4 and two without it, the second of which is
/// negative as a signed byte.
const OVER: [u8; 5] = [16, 31, 32, 128, 255];

/// The rules that a record can break, in the order in which they are tested.
const OF_RECORDS: [u8; 7] = [4, 5, 6, 7, 8, 9, 13];
/// Those of a row of cells that is to be packed: of one without calls, which reaches over no column, and of one with.
const OF_ROWS: [[u8; 5]; 2] = [[5, 6, 17, 9, 13], [5, 6, 4, 9, 13]];

#[derive(Clone, Copy, PartialEq, Eq, Debug)]
pub enum Form {
    /// The table itself, or for pack its cells with a call in each fragment. Find looks for the tag of its last record.
    Sound,
    /// Find looks for a tag that no record has.
    Absent,
    /// One byte of a record's fields is changed, or of the cells for pack.
    Changed,
    /// One of the first cells of a record is changed.
    Miscalled,
    /// The last fragment has the first one's tag.
    Repeated,
    /// A fragment and the one before it are in each other's place.
    Swapped,
    /// A fragment breaks one of the rules and all later ones, and the last fragment the first rule, or for pack one of
    /// the first three.
    Broken,
    /// For pack: a fragment has no call, or none has.
    Uncalled,
    /// A fragment has a grade over 15, or all have it.
    Overgraded,
}

impl Form {
    pub fn of(service: Service) -> &'static [Form] {
        use Form::*;
        match service {
            Service::Find => &[Sound, Absent, Changed, Miscalled, Repeated, Swapped, Broken, Overgraded],
            Service::Pack => &[Sound, Changed, Repeated, Swapped, Broken, Uncalled, Overgraded],
            _ => &[Sound, Changed, Miscalled, Repeated, Swapped, Broken, Overgraded],
        }
    }
}

#[derive(Clone, Copy)]
pub struct Request {
    pub service: Service,
    pub kind: Kind,
    pub seed: u64,
    pub form: Form,
}

impl Request {
    /// Whether a refusal is a fault.
    pub fn must_be_accepted(&self) -> bool {
        match self.service {
            Service::Find => true,
            Service::S | Service::F => self.form == Form::Sound && !self.kind.is_gapped(),
            Service::C => self.form == Form::Sound && self.kind.is_within_depth(),
            _ => self.form == Form::Sound,
        }
    }

    /// The call and its buffers: the input, and dirt that is another for each request.
    pub fn call(&self) -> (Call, Buffers) {
        let mut random = Random::new(self.dirt());
        let mut buffers = Buffers::dirty(&mut random);
        let table = tables::table(self.kind, self.seed);
        match self.service {
            Service::Pack => {
                buffers.cells.lent().copy_from_slice(&table.called_cells());
                buffers.tags.lent().copy_from_slice(&table.tags);
                buffers.grades.lent().copy_from_slice(&table.grades);
            }
            _ => buffers.table.lent().copy_from_slice(&table.records),
        }
        self.spoil(&mut random, &mut buffers);
        (Call { service: self.service, n: MOST, tag: self.sought(&table) }, buffers)
    }

    fn sought(&self, table: &Table) -> u32 {
        let last = table.tags[MOST - 1];
        match self.form {
            // one that differs from the last in a single bit
            Form::Absent => {
                let mut near = (0..32).map(|bit| last ^ 1 << bit);
                near.find(|tag| !table.tags.contains(tag)).expect("some tag is absent")
            }
            _ => last,
        }
    }

    fn dirt(&self) -> u64 {
        let numbers = [self.seed, self.service as u64, self.kind as u64, self.form as u64];
        numbers.into_iter().fold(0, |seed, number| Random::new(seed ^ number).next())
    }

    fn spoil(&self, random: &mut Random, buffers: &mut Buffers) {
        let (table, cells) = (buffers.table.lent(), buffers.cells.lent());
        let (tags, grades) = (buffers.tags.lent(), buffers.grades.lent());
        // by little, so that every rule refuses some of the tables
        let change = 1 + random.below(3) as u8;
        match (self.form, self.service) {
            (Form::Sound | Form::Absent, _) => {}
            (Form::Changed, Service::Pack) => cells[random.below(MOST * MOST)] ^= change,
            (Form::Changed, _) => table[RECORD * random.below(MOST) + random.below(8)] ^= change,
            (Form::Miscalled, _) => table[RECORD * random.below(MOST) + 8 + random.below(2)] ^= change,
            (Form::Repeated, Service::Pack) => tags[MOST - 1] = tags[0],
            (Form::Repeated, _) => table.copy_within(0..4, (MOST - 1) * RECORD),
            (Form::Swapped, Service::Pack) => swap_rows(cells, tags, grades, 1 + random.below(MOST - 1)),
            (Form::Swapped, _) => swap(table, RECORD, 1 + random.below(MOST - 1)),
            (Form::Broken, Service::Pack) => {
                let rules = &OF_ROWS[self.seed as usize % 2];
                break_row(cells, tags, grades, broken_at(random), self.rules_from_one(rules));
                let last = &mut cells[MOST * (MOST - 1)..];
                last.fill(HOLE);
                match random.below(3) {
                    0 => grades[MOST - 1] = OVER[0],
                    1 => last[0] = NO_CALL,
                    _ => {}
                }
            }
            (Form::Broken, _) => {
                break_record(table, broken_at(random), self.rules_from_one(&OF_RECORDS));
                table[RECORD * (MOST - 1) + 6] = CELLS as u8 + 1;
            }
            (Form::Uncalled, _) => {
                let Range { start, end } = self.one_or_all(random);
                cells[MOST * start..MOST * end].fill(HOLE);
            }
            (Form::Overgraded, service) => {
                let over = OVER[random.below(OVER.len())];
                for i in self.one_or_all(random) {
                    match service {
                        Service::Pack => grades[i] = over,
                        _ => table[RECORD * i + 7] = over,
                    }
                }
            }
        }
    }

    /// A number below a bound, which is another for the next kind or seed.
    fn turn(&self, bound: usize) -> usize {
        (self.kind as usize + self.seed as usize) % bound
    }

    /// The rules from one of them on.
    fn rules_from_one<'a>(&self, rules: &'a [u8]) -> &'a [u8] {
        &rules[self.turn(rules.len())..]
    }

    /// The first fragment, one between, the last, or all.
    fn one_or_all(&self, random: &mut Random) -> Range<usize> {
        let between = 1 + random.below(MOST - 2);
        match self.turn(4) {
            0 => 0..1,
            1 => between..between + 1,
            2 => MOST - 1..MOST,
            _ => 0..MOST,
        }
    }
}

/// Fragment i, which has so many numbers, and the one before it in each other's place.
fn swap<T>(numbers: &mut [T], width: usize, i: usize) {
    numbers[width * (i - 1)..width * (i + 1)].rotate_left(width);
}

fn swap_rows(cells: &mut [u8], tags: &mut [u32], grades: &mut [u8], i: usize) {
    swap(cells, MOST, i);
    swap(tags, 1, i);
    swap(grades, 1, i);
}

/// Neither of the first two fragments nor the last: with start 0 and the first one's tag it comes before the second,
/// and so before its predecessor.
fn broken_at(random: &mut Random) -> usize {
    2 + random.below(MOST - 3)
}

/// Breaks rules at record i: 13 alone, or 9 too and those before it.
fn break_record(table: &mut [u8], i: usize, rules: &[u8]) {
    let broken = |rule| rules.contains(&rule);
    if !broken(9) {
        return swap(table, RECORD, i);
    }
    table.copy_within(0..4, RECORD * i);
    let record = &mut table[RECORD * i..RECORD * (i + 1)];
    record[4..].fill(0);
    let mut codes = [A; 6];
    if broken(8) {
        codes[2] = HOLE;
    }
    if broken(7) {
        codes[0] = HOLE;
    }
    if broken(6) {
        codes[4] = NO_CALL;
    }
    codes.iter().enumerate().for_each(|(k, code)| record[8 + k / 4] |= code << (2 * (k % 4)));
    record[6] = if broken(4) { CELLS + 1 } else { codes.len() } as u8;
    record[7] = if broken(5) { OVER[0] } else { 0 };
}

/// The same for a row of cells, its tag and its grade.
fn break_row(cells: &mut [u8], tags: &mut [u32], grades: &mut [u8], i: usize, rules: &[u8]) {
    let broken = |rule| rules.contains(&rule);
    if !broken(9) {
        return swap_rows(cells, tags, grades, i);
    }
    tags[i] = tags[0];
    if broken(5) {
        grades[i] = OVER[0];
    }
    let row = &mut cells[MOST * i..MOST * (i + 1)];
    row.fill(HOLE);
    if !broken(17) {
        row[0] = A;
    }
    if broken(4) {
        row[CELLS] = A;
    }
    if broken(6) {
        row[1] = NO_CALL;
    }
}

impl fmt::Display for Request {
    fn fmt(&self, out: &mut fmt::Formatter) -> fmt::Result {
        write!(out, "{} {} {}", self.service, self.kind, self.seed)?;
        match self.form {
            Form::Sound => Ok(()),
            Form::Absent => out.write_str(", a tag that is absent"),
            Form::Changed => out.write_str(", a byte changed"),
            Form::Miscalled => out.write_str(", a cell changed"),
            Form::Repeated => out.write_str(", a tag repeated"),
            Form::Swapped => out.write_str(", two fragments swapped"),
            Form::Broken => out.write_str(", several rules broken"),
            Form::Uncalled => out.write_str(", calls left out"),
            Form::Overgraded => out.write_str(", a grade over 15"),
        }
    }
}
