//! Pikondaur's services: the fragments of one animal, sorted into the two parental copies.
//!
//! The library is written in Rattle and proved: for all inputs each call returns what its contract says, and writes nothing where it refuses.
//! This crate hands its eight services to Rust as safe functions over slices. `README.md` and `docs/TRUST.md` of the repository say what is
//! proved and what that rests on.
//!
//! A table is 32 bytes to a fragment: tag (4 bytes, little-endian), start (2), span (1), grade (1), and 96 cells of two bits, four to a
//! byte from the low bits on: 0 a hole, 1 A, 2 B. It has m fragments and n columns, each at most 128. Two mates are one fragment, with holes
//! between them, which all services but [`least_snp_removal`] and [`least_fragment_removal`] take. Fragments rise by start, the first called
//! column, and at one start by tag; without calls the start is 0.
//!
//! A grade is 0 to 15. To correct a call costs the weight of its fragment's grade, and [`least_corrections`] finds the least total. [`unpack`] and
//! [`pack`] carry grades; no other service looks at them.
//!
//! | grade | 0 | 1 | 2 | 3 | 4 | 5 | 6 | 7 | 8 | 9 | 10 | 11 | 12 | 13 | 14 | 15 |
//! |---|---|---|---|---|---|---|---|---|---|---|---|---|---|---|---|---|
//! | weight | 1 | 1 | 2 | 3 | 4 | 6 | 8 | 10 | 13 | 16 | 20 | 25 | 31 | 38 | 46 | 60 |
//!
//! An answer is 3n + 2m bytes ([`answer_length`]): n keep marks, haplotypes 1 and 2 of n codes each (3 at a removed column), m sides (0 for a removed fragment),
//! m blocks (the position of the block's first fragment, 255 for a removed one). A chain of kept fragments, each in conflict with the next on a kept
//! column (after correction, for C), joins a block, and sides of different blocks say nothing of each other.
//!
//! ```
//! use haplotypes::{answer_length, check, least_snp_removal, pack, Outcome, RECORD, WORK};
//!
//! // AA-, BAA, -BB
//! let cells = [1, 1, 0, 2, 1, 1, 0, 2, 2];
//! let mut table = [0; 3 * RECORD];
//! assert_eq!(pack(3, &cells, &[10, 11, 12], &[0; 3], &mut table), Outcome::Accepted(3));
//!
//! let mut answer = [0; answer_length(3, 3)];
//! assert_eq!(check(3, &table, &mut answer), Outcome::Accepted(1)); // not error-free
//!
//! let mut work = vec![0; WORK];
//! assert_eq!(least_snp_removal(3, &table, &mut work, &mut answer), Outcome::Accepted(1));
//! assert_eq!(answer[0..3], [1, 0, 1]); // column 1 goes
//! assert_eq!(answer[9..12], [1, 2, 1]); // the second fragment is of the other copy
//! ```

pub mod ffi;
mod outcome;

pub use outcome::Outcome;

use outcome::read;

/// The bytes of a fragment in a table.
pub const RECORD: usize = 32;

/// The least numbers that a work buffer must have.
pub const WORK: usize = 32768;

/// The bytes of an answer for n columns and m fragments.
pub const fn answer_length(n: usize, m: usize) -> usize {
    3 * n + 2 * m
}

const CHECK: u64 = 1000;
const COUNT: u64 = 1 << 32;

/// A table's records as m × n cells (0 a hole, 1 A, 2 B; by fragment and then column), m tags and m grades. Accepted with m. A record without
/// calls, as stored tables may have, gives holes alone, which [`pack`] does not write again.
///
/// ```
/// use haplotypes::{pack, unpack, Outcome};
///
/// let mut table = [0; 64];
/// pack(2, &[1, 2, 0, 1], &[7, 8], &[15, 0], &mut table);
/// let (mut cells, mut tags, mut grades) = ([9; 4], [9; 2], [9; 2]);
/// assert_eq!(unpack(2, &table, &mut cells, &mut tags, &mut grades), Outcome::Accepted(2));
/// assert_eq!((cells, tags, grades), ([1, 2, 0, 1], [7, 8], [15, 0]));
///
/// table[36..].fill(0); // AB, --: the second record has its tag alone
/// assert_eq!(unpack(2, &table, &mut cells, &mut tags, &mut grades), Outcome::Accepted(2));
/// assert_eq!((cells, tags), ([1, 2, 0, 0], [7, 8]));
/// assert_eq!(pack(2, &cells, &tags, &grades, &mut table), Outcome::Refused(17, 1));
/// ```
pub fn unpack(n: usize, table: &[u8], cells: &mut [u8], tags: &mut [u32], grades: &mut [u8]) -> Outcome {
    // Of every call here: the pointers are those of slices, so they are not null, valid for their lengths, and those that are written overlap no other.
    read(COUNT, unsafe {
        ffi::haplotypes_unpack(
            n,
            table.as_ptr(),
            table.len(),
            cells.as_mut_ptr(),
            cells.len(),
            tags.as_mut_ptr(),
            tags.len(),
            grades.as_mut_ptr(),
            grades.len(),
        )
    })
}

/// The table of m × n cells, m tags and m grades: the reverse of [`unpack`]. Accepted with m. The fragments are given in the order of the records,
/// and each has a call.
///
/// ```
/// use haplotypes::{pack, Outcome};
///
/// let mut table = [9; 32];
/// assert_eq!(pack(4, &[0, 1, 3, 2], &[7], &[5], &mut table), Outcome::Refused(6, 0)); // 3 is no call
/// assert_eq!(pack(4, &[0, 1, 0, 2], &[7], &[16], &mut table), Outcome::Refused(5, 0)); // no grade is over 15
/// assert_eq!(table, [9; 32]);
/// assert_eq!(pack(4, &[0, 1, 0, 2], &[7], &[5], &mut table), Outcome::Accepted(1)); // mates, and a hole between them
/// assert_eq!(table[..9], [7, 0, 0, 0, 1, 0, 3, 5, 0b10_00_01]);
///
/// let mut table = [9; 64];
/// assert_eq!(pack(2, &[1, 0, 0, 1], &[8, 7], &[0; 2], &mut table), Outcome::Accepted(2)); // A-, -A: the start rises
/// assert_eq!(pack(2, &[1, 0, 1, 0], &[8, 7], &[0; 2], &mut table), Outcome::Refused(13, 1)); // A-, A-: the tag falls
/// assert_eq!(pack(2, &[0, 0, 1, 0], &[7, 8], &[0; 2], &mut table), Outcome::Refused(17, 0)); // --, A-: the first has no call
/// assert_eq!(pack(2, &[1, 0, 0, 1], &[8, 7], &[0; 3], &mut table), Outcome::Refused(1, 0)); // a grade too many
/// ```
pub fn pack(n: usize, cells: &[u8], tags: &[u32], grades: &[u8], table: &mut [u8]) -> Outcome {
    read(COUNT, unsafe {
        ffi::haplotypes_pack(
            n,
            cells.as_ptr(),
            cells.len(),
            tags.as_ptr(),
            tags.len(),
            grades.as_ptr(),
            grades.len(),
            table.as_mut_ptr(),
            table.len(),
        )
    })
}

/// The first whole record with the tag, as those very bytes of the table; the empty part at its end where none has it. Refuses nothing, and takes
/// records in any order.
///
/// ```
/// use haplotypes::{find, pack};
///
/// let mut table = [0; 64];
/// pack(1, &[1, 2], &[7, 8], &[0; 2], &mut table);
/// assert_eq!(find(8, &table), &table[32..]);
/// assert!(find(9, &table).is_empty());
/// ```
pub fn find(tag: u32, table: &[u8]) -> &[u8] {
    let start = unsafe { ffi::haplotypes_find(tag, table.as_ptr(), table.len()) };
    let end = if start < table.len() { start + RECORD } else { start };
    &table[start..end]
}

/// Is the table error-free: can its fragments be put in two classes with no conflict inside a class? Accepted with 0 for yes, and the answer;
/// with 1 for no, and the answer untouched.
///
/// ```
/// use haplotypes::{answer_length, check, pack, Outcome};
///
/// let mut table = [0; 64];
/// pack(1, &[1, 2], &[7, 8], &[0; 2], &mut table); // A, B
/// let mut answer = [0; answer_length(1, 2)];
/// assert_eq!(check(1, &table, &mut answer), Outcome::Accepted(0));
/// assert_eq!(answer, [1, 1, 2, 1, 2, 0, 0]); // kept; A; B; sides 1 and 2; one block
///
/// let mut mates = [0; 96];
/// pack(3, &[1, 2, 0, 2, 0, 1, 0, 1, 2], &[10, 11, 12], &[0; 3], &mut mates); // AB-, B-A, -AB: each two conflict
/// let mut answer = [0; answer_length(3, 3)];
/// assert_eq!(check(3, &mates, &mut answer), Outcome::Accepted(1));
/// ```
pub fn check(n: usize, table: &[u8], answer: &mut [u8]) -> Outcome {
    read(CHECK, unsafe { ffi::haplotypes_check(n, table.as_ptr(), table.len(), answer.as_mut_ptr(), answer.len()) })
}

/// For each two fragments the number of columns on which they conflict: one calls A and the other B. The m × m counts stand row by row, that of
/// fragments i and j at m × i + j, and are 0 for a fragment against itself. Accepted with m.
///
/// ```
/// use haplotypes::{conflict_counts, pack, Outcome};
///
/// let mut table = [0; 96];
/// pack(3, &[1, 1, 0, 2, 1, 1, 0, 2, 2], &[10, 11, 12], &[0; 3], &mut table); // AA-, BAA, -BB
/// let mut counts = [9; 3 * 3];
/// assert_eq!(conflict_counts(3, &table, &mut counts), Outcome::Accepted(3));
/// assert_eq!(counts, [0, 1, 1, 1, 0, 2, 1, 2, 0]); // the last two conflict on two columns
///
/// assert_eq!(conflict_counts(3, &table, &mut counts[1..]), Outcome::Refused(11, 0)); // a count too few
/// ```
pub fn conflict_counts(n: usize, table: &[u8], counts: &mut [u8]) -> Outcome {
    read(COUNT, unsafe {
        ffi::haplotypes_conflict_counts(n, table.as_ptr(), table.len(), counts.as_mut_ptr(), counts.len())
    })
}

/// S: the fewest columns to remove so that the rest is error-free. Accepted with their number, the answer, and the work all zero. No fragment may
/// have a hole between two calls.
///
/// ```
/// use haplotypes::{answer_length, least_snp_removal, pack, Outcome, WORK};
///
/// let mut table = [0; 96];
/// pack(2, &[1, 1, 1, 2, 2, 1], &[10, 11, 12], &[0; 3], &mut table); // AA, AB, BA
/// let (mut work, mut answer) = (vec![7; WORK], [0; answer_length(2, 3)]);
/// assert_eq!(least_snp_removal(2, &table, &mut work, &mut answer), Outcome::Accepted(1));
/// assert_eq!(answer, [1, 0, 1, 3, 2, 3, 1, 1, 2, 0, 0, 0]); // keep marks; A#; B#; sides; blocks
/// assert!(work.iter().all(|&number| number == 0));
///
/// assert_eq!(least_snp_removal(2, &table, &mut work[1..], &mut answer), Outcome::Refused(10, 0)); // work too short
///
/// pack(3, &[1, 2, 0, 2, 0, 1, 0, 1, 2], &[10, 11, 12], &[0; 3], &mut table); // AB-, B-A, -AB
/// let mut answer = [0; answer_length(3, 3)];
/// assert_eq!(least_snp_removal(3, &table, &mut work, &mut answer), Outcome::Refused(8, 1)); // the second has a hole
/// ```
pub fn least_snp_removal(n: usize, table: &[u8], work: &mut [u16], answer: &mut [u8]) -> Outcome {
    read(COUNT, unsafe {
        ffi::haplotypes_least_snp_removal(
            n,
            table.as_ptr(),
            table.len(),
            work.as_mut_ptr(),
            work.len(),
            answer.as_mut_ptr(),
            answer.len(),
        )
    })
}

/// F: the fewest fragments to remove so that the rest is error-free. Accepted with their number, the answer, and the work all zero. No fragment
/// may have a hole between two calls.
///
/// Have 148 KiB of stack free. A thread of Rust's own making has 2 MiB; where one has too little, the program ends as by any overflow of the stack.
///
/// ```
/// use haplotypes::{answer_length, least_fragment_removal, pack, Outcome, WORK};
///
/// let mut table = [0; 96];
/// pack(3, &[1, 1, 0, 2, 1, 1, 0, 2, 2], &[10, 11, 12], &[0; 3], &mut table); // AA-, BAA, -BB
/// let (mut work, mut answer) = (vec![0; WORK], [0; answer_length(3, 3)]);
/// assert_eq!(least_fragment_removal(3, &table, &mut work, &mut answer), Outcome::Accepted(1));
/// assert_eq!(answer[9..12], [1, 2, 0]); // the third goes
/// ```
pub fn least_fragment_removal(n: usize, table: &[u8], work: &mut [u16], answer: &mut [u8]) -> Outcome {
    read(COUNT, unsafe {
        ffi::haplotypes_least_fragment_removal(
            n,
            table.as_ptr(),
            table.len(),
            work.as_mut_ptr(),
            work.len(),
            answer.as_mut_ptr(),
            answer.len(),
        )
    })
}

/// C: the calls of the least total weight to correct, A to B or B to A, so that the table is error-free. Accepted with that total, the answer, the
/// corrected table (as long as the table given), and the work all zero. At most 8 fragments, each from its first to its last call, may cover a column.
///
/// A call weighs what its fragment's grade says (1 for the grade 0, see the [crate's page](crate)), so the total is the number of corrected calls
/// where every grade is 0 or 1. On each column and side the letter of smaller weight changes, and B where both weigh the same. Grades stay.
///
/// ```
/// use haplotypes::{answer_length, least_corrections, pack, unpack, Outcome, WORK};
///
/// let mut table = [0; 96];
/// pack(3, &[1, 1, 0, 2, 1, 1, 0, 2, 2], &[10, 11, 12], &[0; 3], &mut table); // AA-, BAA, -BB
/// let (mut work, mut answer, mut corrected) = (vec![0; WORK], [0; answer_length(3, 3)], [0; 96]);
/// let outcome = least_corrections(3, &table, &mut work, &mut answer, &mut corrected);
/// assert_eq!(outcome, Outcome::Accepted(1));
/// let (mut cells, mut tags, mut grades) = ([0; 9], [0; 3], [0; 3]);
/// unpack(3, &corrected, &mut cells, &mut tags, &mut grades);
/// assert_eq!(cells, [1, 1, 0, 1, 1, 1, 0, 2, 2]); // BAA becomes AAA
///
/// pack(3, &[1, 2, 0, 2, 0, 1, 0, 1, 2], &[10, 11, 12], &[0; 3], &mut table); // AB-, B-A, -AB: mates are corrected too
/// let outcome = least_corrections(3, &table, &mut work, &mut answer, &mut corrected);
/// assert_eq!(outcome, Outcome::Accepted(1));
/// assert_eq!(answer, [1, 1, 1, 1, 2, 1, 0, 1, 2, 1, 1, 2, 0, 0, 0]); // kept; ABA; -AB; sides; blocks
///
/// let (cells, tags) = ([1, 1, 1, 2, 1, 1, 2, 1, 1, 0, 2, 2], [10, 11, 12, 13]); // AAA, BAA, BAA, -BB
/// let (mut table, mut corrected, mut answer) = ([0; 128], [0; 128], [0; answer_length(3, 4)]);
/// pack(3, &cells, &tags, &[0; 4], &mut table);
/// let outcome = least_corrections(3, &table, &mut work, &mut answer, &mut corrected);
/// assert_eq!(outcome, Outcome::Accepted(1));
/// assert_eq!(answer[3..6], [2, 1, 1]); // one A becomes B on column 0
/// pack(3, &cells, &tags, &[15, 0, 0, 15], &mut table); // and where it weighs 60, the Bs that weigh 1 each become A
/// let outcome = least_corrections(3, &table, &mut work, &mut answer, &mut corrected);
/// assert_eq!(outcome, Outcome::Accepted(2));
/// assert_eq!(answer[3..6], [1, 1, 1]);
/// ```
pub fn least_corrections(n: usize, table: &[u8], work: &mut [u16], answer: &mut [u8], corrected: &mut [u8]) -> Outcome {
    read(COUNT, unsafe {
        ffi::haplotypes_least_corrections(
            n,
            table.as_ptr(),
            table.len(),
            work.as_mut_ptr(),
            work.len(),
            answer.as_mut_ptr(),
            answer.len(),
            corrected.as_mut_ptr(),
            corrected.len(),
        )
    })
}
