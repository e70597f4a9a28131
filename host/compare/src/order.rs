//! What calls must show of the order of records, so that judging it by less, by something else or at another turn would be
//! noticed.

use crate::library::Call;
use crate::record::{span, start, stretch, tag, whole_records, Matrix};
use crate::rules::{fault_in_any_order, pack_fault_without, Refusal};
use crate::service::Service;

/// Where a record, or a fragment given to pack, stands in order; and whether it has calls, which the order does not ask.
#[derive(Clone, Copy)]
pub struct Key {
    pub start: usize,
    pub tag: u32,
    pub uncalled: bool,
}

impl Key {
    fn order(self) -> (usize, u32) {
        (self.start, self.tag)
    }
}

/// The records of a call, or pack's fragments where its cells are m × n.
pub fn keys(call: &Call) -> Vec<Key> {
    let lent = &call.lent;
    match call.service {
        Service::Pack => keys_of_cells(call.number, lent.cells.lent(), lent.tags.lent()),
        _ => keys_of_table(lent.table.lent()),
    }
}

pub fn keys_of_table(table: &[u8]) -> Vec<Key> {
    whole_records(table).map(|r| Key { start: start(r), tag: tag(r), uncalled: span(r) == 0 }).collect()
}

pub fn keys_of_cells(n: usize, cells: &[u8], tags: &[u32]) -> Vec<Key> {
    let rows = Matrix::of_cells(n, tags.len(), cells).rows;
    let key = |(row, &tag): (&Vec<u8>, &u32)| {
        let stretch = stretch(row);
        Key { start: stretch.start, tag, uncalled: stretch.is_empty() }
    };
    rows.iter().zip(tags).map(key).collect()
}

/// The places that are out of order.
pub fn falls(keys: &[Key]) -> impl Iterator<Item = usize> + '_ {
    (1..keys.len()).filter(|&place| keys[place].order() < keys[place - 1].order())
}

/// The first fault of a call's records or fragments, if their order were free.
pub fn other_fault(call: &Call) -> Option<Refusal> {
    match call.service {
        Service::Pack => pack_fault_without(13, call.given()),
        service => fault_in_any_order(service, call.number, call.lent.table.lent()),
    }
}

/// A comparison that is not the order of records, though some library could take it for that.
pub struct Other {
    pub name: &'static str,
    misses: bool,
    makes_up: bool,
    /// does it differ from the order beside fragments without calls alone?
    of_uncalled: bool,
    /// does it refuse a record, given record 0, the one before, and itself?
    refuses: Refuses,
}

type Refuses = fn(Key, Key, Key) -> bool;

impl Other {
    /// Can it take a record that is out of order?
    pub fn misses(&self, service: Service) -> bool {
        self.misses && self.differs(service)
    }

    /// Can it refuse one that is not?
    pub fn makes_up(&self, service: Service) -> bool {
        self.makes_up && self.differs(service)
    }

    /// Pack refuses fragments without calls before it comes to their order.
    fn differs(&self, service: Service) -> bool {
        !(self.of_uncalled && service == Service::Pack)
    }

    pub fn refuses(&self, keys: &[Key], place: usize) -> bool {
        place > 0 && (self.refuses)(keys[0], keys[place - 1], keys[place])
    }

    /// The first place that it refuses.
    pub fn first(&self, keys: &[Key]) -> Option<usize> {
        (0..keys.len()).find(|&place| self.refuses(keys, place))
    }
}

pub static OTHERS: [Other; 15] = [
    misses("none", |_, _, _| false),
    misses("by start alone", |_, before, key| key.start < before.start),
    misses("by start and tag, both", |_, before, key| key.start < before.start && key.tag < before.tag),
    misses("by the highest byte of tags", |_, before, key| by(key, key.tag >> 24) < by(before, before.tag >> 24)),
    misses("with record 0", |first, _, key| key.order() < first.order()),
    of_uncalled(misses("of fragments with calls", |_, before, key| {
        !uncalled(before, key) && key.order() < before.order()
    })),
    of_uncalled(misses("without calls by start alone", |_, before, key| {
        if uncalled(before, key) {
            key.start < before.start
        } else {
            key.order() < before.order()
        }
    })),
    makes_up("by start or tag", |_, before, key| key.start < before.start || key.tag < before.tag),
    makes_up("by starts that differ", |_, before, key| key.start <= before.start),
    both("by tag alone", |_, before, key| key.tag < before.tag),
    both("by the lowest byte of tags", |_, before, key| by(key, key.tag as u8) < by(before, before.tag as u8)),
    both("by the bytes of tags in turn", |_, before, key| {
        by(key, key.tag.to_le_bytes()) < by(before, before.tag.to_le_bytes())
    }),
    both("by tags with a sign", |_, before, key| by(key, key.tag as i32) < by(before, before.tag as i32)),
    of_uncalled(both("without calls last", |_, before, key| {
        (key.uncalled, key.order()) < (before.uncalled, before.order())
    })),
    of_uncalled(both("without calls by tag alone", |_, before, key| {
        if uncalled(before, key) {
            key.tag < before.tag
        } else {
            key.order() < before.order()
        }
    })),
];

/// Has one of two no calls?
fn uncalled(before: Key, key: Key) -> bool {
    before.uncalled || key.uncalled
}

/// By start, and then by something of the tag.
fn by<T>(key: Key, of_tag: T) -> (usize, T) {
    (key.start, of_tag)
}

const fn misses(name: &'static str, refuses: Refuses) -> Other {
    Other { name, misses: true, makes_up: false, of_uncalled: false, refuses }
}

const fn makes_up(name: &'static str, refuses: Refuses) -> Other {
    Other { name, misses: false, makes_up: true, of_uncalled: false, refuses }
}

const fn both(name: &'static str, refuses: Refuses) -> Other {
    Other { name, misses: true, makes_up: true, of_uncalled: false, refuses }
}

const fn of_uncalled(other: Other) -> Other {
    Other { of_uncalled: true, ..other }
}
