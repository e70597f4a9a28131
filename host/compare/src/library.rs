//! The library under test: a function of a call, so that the self-test can put a wrong one in its place.

use crate::guarded::{Guarded, Room};
use crate::record::Matrix;
use crate::rules::Given;
use crate::service::{Buffer, Service};
use haplotypes::Outcome;
use std::ops::Range;

/// What a call is lent. What its service does not take is empty.
#[derive(Clone, Default)]
pub struct Buffers {
    pub table: Guarded<u8>,
    pub cells: Guarded<u8>,
    pub tags: Guarded<u32>,
    pub grades: Guarded<u8>,
    pub work: Guarded<u16>,
    pub answer: Guarded<u8>,
    pub corrected: Guarded<u8>,
    pub counts: Guarded<u8>,
}

pub struct Call {
    pub service: Service,
    /// the column count; for find, the tag
    pub number: usize,
    pub lent: Buffers,
}

#[derive(Clone, PartialEq, Eq, Debug)]
pub enum Returned {
    Outcome(Outcome),
    /// the bytes of the caller's table that find hands back, by their address
    Part(Range<usize>),
}

/// It has the whole room of each buffer, guards and all.
pub type Library<'a> = &'a (dyn Fn(&mut Call) -> Returned + Sync);

/// The library that is linked.
pub fn proved(call: &mut Call) -> Returned {
    let n = call.number;
    let Buffers { table, cells, tags, grades, work, answer, corrected, counts } = &mut call.lent;
    Returned::Outcome(match call.service {
        Service::Find => return Returned::Part(found(n as u32, table.lent())),
        Service::Unpack => haplotypes::unpack(n, table.lent(), cells.lent_mut(), tags.lent_mut(), grades.lent_mut()),
        Service::Pack => haplotypes::pack(n, cells.lent(), tags.lent(), grades.lent(), table.lent_mut()),
        Service::Check => haplotypes::check(n, table.lent(), answer.lent_mut()),
        Service::ConflictCounts => haplotypes::conflict_counts(n, table.lent(), counts.lent_mut()),
        Service::Snps => haplotypes::least_snp_removal(n, table.lent(), work.lent_mut(), answer.lent_mut()),
        Service::Fragments => haplotypes::least_fragment_removal(n, table.lent(), work.lent_mut(), answer.lent_mut()),
        Service::Corrections => {
            let work = work.lent_mut();
            haplotypes::least_corrections(n, table.lent(), work, answer.lent_mut(), corrected.lent_mut())
        }
    })
}

fn found(tag: u32, table: &[u8]) -> Range<usize> {
    let part = haplotypes::find(tag, table);
    let start = (part.as_ptr() as usize).wrapping_sub(table.as_ptr() as usize);
    start..start.wrapping_add(part.len())
}

impl Buffers {
    /// The first element, of a buffer or a guard, that is not as expected.
    pub fn difference(&self, found: &Buffers) -> Option<String> {
        let differences = [
            (Buffer::Table, self.table.difference(&found.table)),
            (Buffer::Cells, self.cells.difference(&found.cells)),
            (Buffer::Tags, self.tags.difference(&found.tags)),
            (Buffer::Grades, self.grades.difference(&found.grades)),
            (Buffer::Work, self.work.difference(&found.work)),
            (Buffer::Answer, self.answer.difference(&found.answer)),
            (Buffer::Corrected, self.corrected.difference(&found.corrected)),
            (Buffer::Counts, self.counts.difference(&found.counts)),
        ];
        differences
            .into_iter()
            .find_map(|(buffer, difference)| Some(format!("in its {}, {}", buffer.name(), difference?)))
    }

    pub fn room(&self, buffer: Buffer) -> &dyn Room {
        match buffer {
            Buffer::Table => &self.table,
            Buffer::Cells => &self.cells,
            Buffer::Tags => &self.tags,
            Buffer::Grades => &self.grades,
            Buffer::Work => &self.work,
            Buffer::Answer => &self.answer,
            Buffer::Corrected => &self.corrected,
            Buffer::Counts => &self.counts,
        }
    }

    pub fn room_mut(&mut self, buffer: Buffer) -> &mut dyn Room {
        match buffer {
            Buffer::Table => &mut self.table,
            Buffer::Cells => &mut self.cells,
            Buffer::Tags => &mut self.tags,
            Buffer::Grades => &mut self.grades,
            Buffer::Work => &mut self.work,
            Buffer::Answer => &mut self.answer,
            Buffer::Corrected => &mut self.corrected,
            Buffer::Counts => &mut self.counts,
        }
    }

    /// The length of what is lent, without the guards.
    pub fn length(&self, buffer: Buffer) -> usize {
        self.room(buffer).lent_range().len()
    }
}

impl Call {
    /// What pack is given.
    pub fn given(&self) -> Given<'_> {
        let Buffers { cells, tags, grades, .. } = &self.lent;
        Given { n: self.number, cells: cells.lent(), tags: tags.lent(), grades: grades.lent() }
    }

    /// The cells that pack is given, or those of an accepted table.
    pub fn matrix(&self) -> Matrix {
        match self.service {
            Service::Pack => Matrix::of_cells(self.number, self.lent.tags.lent().len(), self.lent.cells.lent()),
            _ => Matrix::read(self.lent.table.lent(), self.number),
        }
    }

    /// The call in words, with the lengths of its buffers.
    pub fn shown(&self) -> String {
        let argument = if self.service == Service::Find { "tag" } else { "columns" };
        let length = |buffer: &Buffer| format!(", {} {}", buffer.name(), self.lent.length(*buffer));
        let lengths: String = self.service.buffers().iter().map(length).collect();
        format!("{} with {argument} {}{lengths}", self.service.name(), self.number)
    }
}
