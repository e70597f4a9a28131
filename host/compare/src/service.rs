//! The eight services, and the buffers that each is lent.

use crate::record::RECORD;
use crate::rules::LEAST_WORK;
use Buffer::{Answer, Cells, Corrected, Counts, Grades, Table, Tags, Work};

#[derive(Clone, Copy, PartialEq, Eq, PartialOrd, Ord, Debug)]
pub enum Service {
    Unpack,
    Pack,
    Find,
    Check,
    ConflictCounts,
    Snps,
    Fragments,
    Corrections,
}

#[derive(Clone, Copy, PartialEq, Eq, Debug)]
pub enum Buffer {
    Table,
    Cells,
    Tags,
    Grades,
    Work,
    Answer,
    Corrected,
    Counts,
}

impl Service {
    pub const ALL: [Service; 8] = [
        Service::Unpack,
        Service::Pack,
        Service::Find,
        Service::Check,
        Service::ConflictCounts,
        Service::Snps,
        Service::Fragments,
        Service::Corrections,
    ];

    /// Those that are called with a table and a column count.
    pub const ON_TABLES: [Service; 6] = [
        Service::Unpack,
        Service::Check,
        Service::ConflictCounts,
        Service::Snps,
        Service::Fragments,
        Service::Corrections,
    ];

    pub fn name(self) -> &'static str {
        match self {
            Service::Unpack => "unpack",
            Service::Pack => "pack",
            Service::Find => "find",
            Service::Check => "check",
            Service::ConflictCounts => "conflict_counts",
            Service::Snps => "S",
            Service::Fragments => "F",
            Service::Corrections => "C",
        }
    }

    pub fn reads(self) -> &'static [Buffer] {
        match self {
            Service::Pack => &[Cells, Tags, Grades],
            _ => &[Table],
        }
    }

    /// What it fills where it accepts. Each must have its exact length.
    pub fn fills(self) -> &'static [Buffer] {
        match self {
            Service::Unpack => &[Cells, Tags, Grades],
            Service::Pack => &[Table],
            Service::Find => &[],
            Service::ConflictCounts => &[Counts],
            Service::Check | Service::Snps | Service::Fragments => &[Answer],
            Service::Corrections => &[Answer, Corrected],
        }
    }

    pub fn borrows_work(self) -> bool {
        matches!(self, Service::Snps | Service::Fragments | Service::Corrections)
    }

    /// Does it take fragments with a hole between two calls? The others refuse them by rule 8.
    pub fn takes_holes(self) -> bool {
        !matches!(self, Service::Snps | Service::Fragments)
    }

    /// All that it is lent.
    pub fn buffers(self) -> Vec<Buffer> {
        let work: &[Buffer] = if self.borrows_work() { &[Work] } else { &[] };
        [self.reads(), work, self.fills()].concat()
    }
}

impl Buffer {
    pub const COUNT: usize = 8;
    pub const ALL: [Buffer; Buffer::COUNT] = [Table, Cells, Tags, Grades, Work, Answer, Corrected, Counts];

    pub fn name(self) -> &'static str {
        match self {
            Table => "table",
            Cells => "cells",
            Tags => "tags",
            Grades => "grades",
            Work => "work",
            Answer => "answer",
            Corrected => "corrected table",
            Counts => "counts",
        }
    }

    /// The elements that it must have, and of work the least.
    pub fn length(self, n: usize, m: usize) -> usize {
        match self {
            Table | Corrected => RECORD * m,
            Cells => m * n,
            Tags | Grades => m,
            Work => LEAST_WORK,
            Answer => 3 * n + 2 * m,
            Counts => m * m,
        }
    }
}
