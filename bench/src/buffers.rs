//! What a call is lent: buffers of exact length, each between guards.

use crate::random::Random;
use crate::tables::MOST;
use haplotypes::{answer_length, RECORD, WORK};
use std::fmt::Display;

pub const GUARD: usize = 64;

/// A buffer with numbers before and after it that no call may change.
#[derive(Clone)]
pub struct Guarded<T> {
    pub name: &'static str,
    /// guard, buffer, guard
    pub all: Vec<T>,
}

impl<T: Copy + PartialEq + Display> Guarded<T> {
    fn dirty(name: &'static str, length: usize, draw: impl FnMut() -> T) -> Guarded<T> {
        Guarded { name, all: std::iter::repeat_with(draw).take(length + 2 * GUARD).collect() }
    }

    fn length(&self) -> usize {
        self.all.len() - 2 * GUARD
    }

    pub fn lent(&mut self) -> &mut [T] {
        let end = GUARD + self.length();
        &mut self.all[GUARD..end]
    }

    #[cfg(test)]
    pub fn resize(&mut self, length: usize) {
        self.all.resize(length + 2 * GUARD, self.all[0]);
    }

    /// Where it differs first from another, guards included; in them alone where it is named.
    fn difference(&self, other: &Guarded<T>, but: &[&str]) -> Option<String> {
        let ends = self.length() + GUARD;
        let inside = |i: usize| (GUARD..ends).contains(&i);
        let differs = |&i: &usize| self.all[i] != other.all[i] && !(inside(i) && but.contains(&self.name));
        let i = (0..self.all.len()).find(differs)?;
        let (name, at, length) = (self.name, i as isize - GUARD as isize, self.length());
        Some(format!("{name}[{at}] of {length} is {}, not {}", self.all[i], other.all[i]))
    }
}

/// Everything that a service on a full table reads or writes.
#[derive(Clone)]
pub struct Buffers {
    pub table: Guarded<u8>,
    pub cells: Guarded<u8>,
    pub tags: Guarded<u32>,
    pub grades: Guarded<u8>,
    pub answer: Guarded<u8>,
    pub corrected: Guarded<u8>,
    pub work: Guarded<u16>,
    pub counts: Guarded<u8>,
}

impl Buffers {
    pub fn dirty(random: &mut Random) -> Buffers {
        Buffers {
            table: Guarded::dirty("table", MOST * RECORD, || random.next() as u8),
            cells: Guarded::dirty("cells", MOST * MOST, || random.next() as u8),
            tags: Guarded::dirty("tags", MOST, || random.next() as u32),
            grades: Guarded::dirty("grades", MOST, || random.next() as u8),
            answer: Guarded::dirty("answer", answer_length(MOST, MOST), || random.next() as u8),
            corrected: Guarded::dirty("corrected", MOST * RECORD, || random.next() as u8),
            work: Guarded::dirty("work", WORK, || random.next() as u16),
            counts: Guarded::dirty("counts", MOST * MOST, || random.next() as u8),
        }
    }

    /// The numbers of others, in the same places of memory.
    pub fn copy_from(&mut self, other: &Buffers) {
        self.table.all.copy_from_slice(&other.table.all);
        self.cells.all.copy_from_slice(&other.cells.all);
        self.tags.all.copy_from_slice(&other.tags.all);
        self.grades.all.copy_from_slice(&other.grades.all);
        self.answer.all.copy_from_slice(&other.answer.all);
        self.corrected.all.copy_from_slice(&other.corrected.all);
        self.work.all.copy_from_slice(&other.work.all);
        self.counts.all.copy_from_slice(&other.counts.all);
    }

    /// Where they differ first from others, but for the contents of the buffers that are named.
    pub fn difference(&self, other: &Buffers, but: &[&str]) -> Option<String> {
        (self.table.difference(&other.table, but))
            .or_else(|| self.cells.difference(&other.cells, but))
            .or_else(|| self.tags.difference(&other.tags, but))
            .or_else(|| self.grades.difference(&other.grades, but))
            .or_else(|| self.answer.difference(&other.answer, but))
            .or_else(|| self.corrected.difference(&other.corrected, but))
            .or_else(|| self.work.difference(&other.work, but))
            .or_else(|| self.counts.difference(&other.counts, but))
    }
}
