//! A buffer as a call is lent it: dirty, and between guard elements that no call may write.

use crate::rng::Rng;
use std::fmt::Debug;
use std::ops::{BitXorAssign, Range};

/// The guard elements before a buffer, and as many after it.
const GUARDS: usize = 64;

pub trait Element: Copy + PartialEq + Debug + BitXorAssign {
    fn low_bits(bits: u64) -> Self;
}

impl Element for u8 {
    fn low_bits(bits: u64) -> u8 {
        bits as u8
    }
}

impl Element for u16 {
    fn low_bits(bits: u64) -> u16 {
        bits as u16
    }
}

impl Element for u32 {
    fn low_bits(bits: u64) -> u32 {
        bits as u32
    }
}

/// The default has no elements, nor guards: a buffer that a call does not take.
#[derive(Clone, Default)]
pub struct Guarded<T> {
    room: Vec<T>,
    lent: Range<usize>,
}

impl<T: Element> Guarded<T> {
    /// A buffer to write to, of random elements.
    pub fn dirty(length: usize, rng: &mut Rng) -> Guarded<T> {
        Guarded { room: random(GUARDS + length + GUARDS, rng), lent: GUARDS..GUARDS + length }
    }

    /// A buffer to read.
    pub fn holding(elements: &[T], rng: &mut Rng) -> Guarded<T> {
        let room = [&random(GUARDS, rng), elements, &random(GUARDS, rng)].concat();
        Guarded { room, lent: GUARDS..GUARDS + elements.len() }
    }

    pub fn lent(&self) -> &[T] {
        &self.room[self.lent.clone()]
    }

    pub fn lent_mut(&mut self) -> &mut [T] {
        &mut self.room[self.lent.clone()]
    }

    /// Writes the whole buffer.
    pub fn put(&mut self, elements: &[T]) {
        self.lent_mut().copy_from_slice(elements);
    }

    /// The first element, of the buffer or a guard, that is not as expected.
    pub fn difference(&self, found: &Guarded<T>) -> Option<String> {
        if self.room == found.room {
            return None;
        }
        let at = (0..self.room.len()).find(|&at| self.room[at] != found.room[at])?;
        let place = match at.checked_sub(self.lent.start) {
            None => format!("{} before its start", self.lent.start - at),
            Some(i) if i < self.lent.len() => format!("at {i}"),
            Some(i) => format!("{} past its end", i + 1 - self.lent.len()),
        };
        Some(format!("{place}: expected {:?}, found {:?}", self.room[at], found.room[at]))
    }
}

/// The random elements of a long buffer come again after so many, which costs less and is as dirty.
const PERIOD: usize = 1000;

fn random<T: Element>(length: usize, rng: &mut Rng) -> Vec<T> {
    let mut elements = Vec::with_capacity(length);
    elements.extend((0..length.min(PERIOD)).map(|_| T::low_bits(rng.next())));
    while elements.len() < length {
        elements.extend_from_within(..elements.len().min(length - elements.len()));
    }
    elements
}

/// The whole room of a buffer, whatever its elements.
pub trait Room {
    fn lend_dirty(&mut self, length: usize, rng: &mut Rng);
    fn lent_range(&self) -> Range<usize>;
    fn length(&self) -> usize;
    /// Changes an element, of the buffer or a guard, as a wrong library does.
    fn flip(&mut self, at: usize);
}

impl<T: Element> Room for Guarded<T> {
    fn lend_dirty(&mut self, length: usize, rng: &mut Rng) {
        *self = Guarded::dirty(length, rng);
    }

    fn lent_range(&self) -> Range<usize> {
        self.lent.clone()
    }

    fn length(&self) -> usize {
        self.room.len()
    }

    fn flip(&mut self, at: usize) {
        self.room[at] ^= T::low_bits(1);
    }
}
