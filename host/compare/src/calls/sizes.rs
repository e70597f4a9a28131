//! The column counts and lengths to call a service with: right ones, and wrong ones of every sort.

use crate::rng::Rng;
use crate::rules::{LEAST_WORK, MOST_COLUMNS};
use crate::service::{Buffer, Service};

const MOST_WORK: usize = 40_000;

/// A column count, and the length of each buffer.
#[derive(Clone, Copy)]
pub struct Sizes {
    pub n: usize,
    lengths: [usize; Buffer::COUNT],
}

/// Right lengths for right and wrong column counts, one wrong length at a time, and all of them at random: with more
/// than one fault, the order of the rules shows.
pub fn of_calls(service: Service, n: usize, m: usize, rng: &mut Rng) -> Vec<Sizes> {
    let any = rng.below(MOST_COLUMNS + 2);
    let column_counts = [n, n + 1, n.saturating_sub(1), any, MOST_COLUMNS, MOST_COLUMNS + 1, usize::MAX];
    let mut all: Vec<Sizes> = column_counts.iter().map(|&n| Sizes::right(n, m, rng)).collect();
    for &buffer in service.fills() {
        for length in wrong_lengths(Sizes::right(n, m, rng).of(buffer), rng) {
            all.push(Sizes::right(n, m, rng).with(buffer, length));
        }
    }
    if service.borrows_work() {
        let short = [0, LEAST_WORK - 1, rng.below(LEAST_WORK)];
        all.extend(short.map(|length| Sizes::right(n, m, rng).with(Buffer::Work, length)));
    }
    let lengths = [0; Buffer::COUNT].map(|_| rng.below(600));
    all.push(Sizes { n: any, lengths }.with(Buffer::Work, rng.pick(&[0, LEAST_WORK - 1, LEAST_WORK, MOST_WORK])));
    all
}

fn wrong_lengths(right: usize, rng: &mut Rng) -> [usize; 4] {
    [right + 1, right.saturating_sub(1), 0, rng.below(2 * right + 2)]
}

impl Sizes {
    pub fn of(&self, buffer: Buffer) -> usize {
        self.lengths[buffer as usize]
    }

    /// Too many columns are refused before any length matters, so those for 129 do for any number.
    pub fn right(n: usize, m: usize, rng: &mut Rng) -> Sizes {
        let any = rng.between(LEAST_WORK, MOST_WORK);
        let work = rng.pick(&[LEAST_WORK, LEAST_WORK + 32, MOST_WORK, any]);
        let lengths = Buffer::ALL.map(|buffer| buffer.length(n.min(MOST_COLUMNS + 1), m));
        Sizes { n, lengths }.with(Buffer::Work, work)
    }

    fn with(mut self, buffer: Buffer, length: usize) -> Sizes {
        self.lengths[buffer as usize] = length;
        self
    }
}
