//! The eight services, and one call of any of them through the library.

use crate::buffers::Buffers;
use haplotypes::Outcome;
use std::fmt;

#[derive(Clone, Copy, PartialEq, Eq, Debug)]
pub enum Service {
    Unpack,
    Pack,
    Find,
    Check,
    S,
    F,
    C,
    ConflictCounts,
}

impl Service {
    pub const ALL: [Service; 8] = {
        use Service::*;
        [Unpack, Pack, Find, Check, S, F, C, ConflictCounts]
    };

    pub fn name(self) -> &'static str {
        match self {
            Service::Unpack => "unpack",
            Service::Pack => "pack",
            Service::Find => "find",
            Service::Check => "check",
            Service::S => "S",
            Service::F => "F",
            Service::C => "C",
            Service::ConflictCounts => "conflict_counts",
        }
    }

    pub fn named(name: &str) -> Option<Service> {
        Service::ALL.into_iter().find(|service| service.name() == name)
    }

    /// The buffers that it writes where it accepts.
    pub fn written(self) -> &'static [&'static str] {
        match self {
            Service::Unpack => &["cells", "tags", "grades"],
            Service::Pack => &["table"],
            Service::Find => &[],
            Service::Check => &["answer"],
            Service::S | Service::F => &["answer", "work"],
            Service::C => &["answer", "corrected", "work"],
            Service::ConflictCounts => &["counts"],
        }
    }

    /// Whether it compares fragments or columns: the others are the same C by loops and by masks.
    pub fn compares(self) -> bool {
        !matches!(self, Service::Unpack | Service::Pack | Service::Find)
    }
}

impl fmt::Display for Service {
    fn fmt(&self, out: &mut fmt::Formatter) -> fmt::Result {
        out.write_str(self.name())
    }
}

/// What a call is given besides its buffers: the column count, and the tag that find looks for.
#[derive(Clone, Copy)]
pub struct Call {
    pub service: Service,
    pub n: usize,
    pub tag: u32,
}

/// One of those that are compared. Find's outcome is an acceptance with the byte at which the record begins.
#[derive(Clone, Copy)]
pub struct Implementation<'a> {
    pub name: &'static str,
    pub call: &'a dyn Fn(&Call, &mut Buffers) -> Outcome,
}

pub fn library(call: &Call, b: &mut Buffers) -> Outcome {
    let n = call.n;
    let table = b.table.lent();
    match call.service {
        Service::Unpack => haplotypes::unpack(n, table, b.cells.lent(), b.tags.lent(), b.grades.lent()),
        Service::Pack => haplotypes::pack(n, b.cells.lent(), b.tags.lent(), b.grades.lent(), table),
        Service::Find => {
            Outcome::Accepted(haplotypes::find(call.tag, table).as_ptr() as usize - table.as_ptr() as usize)
        }
        Service::Check => haplotypes::check(n, table, b.answer.lent()),
        Service::S => haplotypes::least_snp_removal(n, table, b.work.lent(), b.answer.lent()),
        Service::F => haplotypes::least_fragment_removal(n, table, b.work.lent(), b.answer.lent()),
        Service::C => haplotypes::least_corrections(n, table, b.work.lent(), b.answer.lent(), b.corrected.lent()),
        Service::ConflictCounts => haplotypes::conflict_counts(n, table, b.counts.lent()),
    }
}
