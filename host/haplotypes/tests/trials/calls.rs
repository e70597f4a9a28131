//! Calls of the services, with every byte that they are lent, or that lies around it, looked at afterwards.

use std::collections::BTreeMap;
use std::fmt::Debug;
use std::panic::catch_unwind;

use haplotypes::{
    check, conflict_counts, find, least_corrections, least_fragment_removal, least_snp_removal, pack, unpack, Outcome,
    RECORD, WORK,
};

use crate::expected::{Each, Expected};
use crate::fixtures::Fixture;

/// Numbers on each side of a buffer.
const GUARD: usize = 64;

/// What stands in a buffer, and around it, before a call: the number at an index.
type Dirt = fn(usize) -> u32;

/// Each call is made once with each. The first and the last differ everywhere, so what a call writes differs from one
/// of them, and so does what it should have written.
const DIRTS: [Dirt; 3] = [|_| u32::MAX, |_| 1, |i| (i % 251) as u32];

#[derive(Clone, Copy, PartialEq, Eq)]
pub enum Service {
    Unpack,
    Pack,
    Check,
    ConflictCounts,
    S,
    F,
    C,
}

use Service::*;

impl Service {
    fn name(self) -> &'static str {
        match self {
            Unpack => "unpack",
            Pack => "pack",
            Check => "check",
            ConflictCounts => "conflict_counts",
            S => "S",
            F => "F",
            C => "C",
        }
    }

    /// Whether it refuses a hole between two calls, by rule 8. All others take mates.
    pub fn refuses_holes(self) -> bool {
        matches!(self, S | F)
    }
}

/// Every service that can refuse: all but find.
pub const SERVICES: [Service; 7] = [Unpack, Pack, Check, ConflictCounts, S, F, C];
/// Those that are given a table, which pack writes.
pub const OF_TABLES: [Service; 6] = [Unpack, Check, ConflictCounts, S, F, C];
pub const WITH_WORK: [Service; 3] = [S, F, C];

/// The lengths of the buffers that are lent. A service takes only its own.
#[derive(Clone, Copy)]
pub struct Sizes {
    pub cells: usize,
    pub tags: usize,
    pub grades: usize,
    pub work: usize,
    pub answer: usize,
    pub table: usize,
    pub counts: usize,
}

impl Sizes {
    /// The lengths that the papers ask for.
    pub fn exact(n: usize, m: usize) -> Sizes {
        Sizes { cells: m * n, tags: m, grades: m, work: 32_768, answer: 3 * n + 2 * m, table: 32 * m, counts: m * m }
    }

    pub fn of(given: &Fixture) -> Sizes {
        Sizes::exact(given.n, given.m())
    }
}

/// Makes the calls, and counts them: at its end it prints a line for each service, and `host/haplotypes/test` adds
/// these up.
#[derive(Default)]
pub struct Trials {
    calls: BTreeMap<&'static str, usize>,
}

impl Trials {
    /// A call of every service that can refuse.
    pub fn run_each(&mut self, name: &str, given: &Fixture, expected: &Each) {
        for service in SERVICES {
            self.run(name, service, given, expected.of(service));
        }
    }

    /// The call with exact lengths.
    pub fn run(&mut self, name: &str, service: Service, given: &Fixture, expected: &Expected) {
        self.run_sized(name, service, given, Sizes::of(given), expected);
    }

    pub fn run_sized(&mut self, name: &str, service: Service, given: &Fixture, sizes: Sizes, expected: &Expected) {
        for (k, dirt) in DIRTS.into_iter().enumerate() {
            let given_buffers = Buffers::holding(given, dirt);
            let mut lent = Buffers::dirty(sizes, dirt);
            let outcome = call(service, given.n, &given_buffers, &mut lent);
            self.count(service.name());
            let row = format!("{}, {name}, dirt {k}", service.name());
            assert_eq!(outcome, expected.outcome, "{row}");
            given_buffers.compare(&format!("{row}: given"), &Expected::untouched(outcome), false);
            lent.compare(&row, expected, WITH_WORK.contains(&service));
        }
    }

    /// Find hands back the record at a position, or the empty part at the table's end, as those very bytes.
    pub fn find(&mut self, name: &str, tag: u32, table: &[u8], position: Option<usize>) {
        let (start, length) = position.map_or((table.len(), 0), |i| (RECORD * i, RECORD));
        for (k, dirt) in DIRTS.into_iter().enumerate() {
            let row = format!("find, {name}, dirt {k}");
            let given = Guarded::holding(table, dirt);
            let part =
                catch_unwind(|| find(tag, given.part())).unwrap_or_else(|_| panic!("{row}: no part of the table"));
            self.count("find");
            let offset = part.as_ptr() as usize - given.part().as_ptr() as usize;
            assert_eq!((offset, part.len()), (start, length), "{row}: start and length");
            assert_eq!(part, &table[start..start + length], "{row}");
            given.compare(&format!("{row}: table"), None);
        }
    }

    fn count(&mut self, service: &'static str) {
        *self.calls.entry(service).or_default() += 1;
    }
}

impl Drop for Trials {
    fn drop(&mut self) {
        for (service, calls) in &self.calls {
            println!("trials: {service} {calls}");
        }
    }
}

fn call(service: Service, n: usize, given: &Buffers, lent: &mut Buffers) -> Outcome {
    let table = given.table.part();
    match service {
        Unpack => unpack(n, table, lent.cells.lend(), lent.tags.lend(), lent.grades.lend()),
        Pack => pack(n, given.cells.part(), given.tags.part(), given.grades.part(), lent.table.lend()),
        Check => check(n, table, lent.answer.lend()),
        ConflictCounts => conflict_counts(n, table, lent.counts.lend()),
        S => least_snp_removal(n, table, lent.work.lend(), lent.answer.lend()),
        F => least_fragment_removal(n, table, lent.work.lend(), lent.answer.lend()),
        C => least_corrections(n, table, lent.work.lend(), lent.answer.lend(), lent.table.lend()),
    }
}

/// One of each buffer; those that a service does not take must stay as they are too.
struct Buffers {
    cells: Guarded<u8>,
    tags: Guarded<u32>,
    grades: Guarded<u8>,
    work: Guarded<u16>,
    answer: Guarded<u8>,
    table: Guarded<u8>,
    counts: Guarded<u8>,
}

impl Buffers {
    fn dirty(sizes: Sizes, dirt: Dirt) -> Buffers {
        Buffers {
            cells: Guarded::dirty(sizes.cells, dirt),
            tags: Guarded::dirty(sizes.tags, dirt),
            grades: Guarded::dirty(sizes.grades, dirt),
            work: Guarded::dirty(sizes.work, dirt),
            answer: Guarded::dirty(sizes.answer, dirt),
            table: Guarded::dirty(sizes.table, dirt),
            counts: Guarded::dirty(sizes.counts, dirt),
        }
    }

    fn holding(given: &Fixture, dirt: Dirt) -> Buffers {
        Buffers {
            cells: Guarded::holding(&given.cells, dirt),
            tags: Guarded::holding(&given.tags, dirt),
            grades: Guarded::holding(&given.grades, dirt),
            table: Guarded::holding(&given.table, dirt),
            ..Buffers::dirty(Sizes::exact(0, 0), dirt)
        }
    }

    /// An answer leaves the work of a service that borrows it all zero.
    fn compare(&self, row: &str, expected: &Expected, borrows_work: bool) {
        let zero = (borrows_work && expected.answer.is_some()).then(|| vec![0; self.work.part().len()]);
        self.cells.compare(&format!("{row}: cells"), expected.cells.as_deref());
        self.tags.compare(&format!("{row}: tags"), expected.tags.as_deref());
        self.grades.compare(&format!("{row}: grades"), expected.grades.as_deref());
        self.work.compare(&format!("{row}: work"), zero.as_deref());
        self.answer.compare(&format!("{row}: answer"), expected.answer.as_deref());
        self.table.compare(&format!("{row}: table"), expected.table.as_deref());
        self.counts.compare(&format!("{row}: counts"), expected.counts.as_deref());
    }
}

trait Number: Copy + PartialEq + Debug {
    fn cut(number: u32) -> Self;
}

impl Number for u8 {
    fn cut(number: u32) -> u8 {
        number as u8
    }
}

impl Number for u16 {
    fn cut(number: u32) -> u16 {
        number as u16
    }
}

impl Number for u32 {
    fn cut(number: u32) -> u32 {
        number
    }
}

/// A buffer between guards, and a copy of them all from before the call.
struct Guarded<T> {
    whole: Vec<T>,
    before: Vec<T>,
}

impl<T: Number> Guarded<T> {
    fn dirty(length: usize, dirt: Dirt) -> Guarded<T> {
        let whole: Vec<T> = (0..GUARD + length + GUARD).map(|i| T::cut(dirt(i))).collect();
        Guarded { before: whole.clone(), whole }
    }

    fn holding(numbers: &[T], dirt: Dirt) -> Guarded<T> {
        let mut guarded = Guarded::dirty(numbers.len(), dirt);
        guarded.lend().copy_from_slice(numbers);
        guarded.before.clone_from(&guarded.whole);
        guarded
    }

    fn part(&self) -> &[T] {
        &self.whole[GUARD..self.whole.len() - GUARD]
    }

    fn lend(&mut self) -> &mut [T] {
        let end = self.whole.len() - GUARD;
        &mut self.whole[GUARD..end]
    }

    /// Is the buffer what is expected, or without that as it was, and are the guards as they were?
    fn compare(&self, row: &str, expected: Option<&[T]>) {
        let mut after = self.before.clone();
        if let Some(numbers) = expected {
            assert_eq!(self.part().len(), numbers.len(), "{row}: numbers expected");
            after[GUARD..GUARD + numbers.len()].copy_from_slice(numbers);
        }
        if let Some(i) = (0..after.len()).find(|&i| self.whole[i] != after[i]) {
            let (at, length) = (i as isize - GUARD as isize, self.part().len());
            panic!("{row}: number {at} of {length} is {:?} and not {:?}", self.whole[i], after[i]);
        }
    }
}

#[test]
fn the_least_work_is_the_papers() {
    assert_eq!((WORK, RECORD), (32_768, 32));
}
