//! What a call returns.

use std::fmt;

/// An acceptance with its count, or a refusal with its number and place. A refusal has written nothing.
///
/// | number | refused | place |
/// |---|---|---|
/// | 1 | the table's bytes are not a multiple of 32; pack: the cells are not m × n, or the grades not m | 0 |
/// | 2, 3 | over 128 fragments; over 128 columns | 0 |
/// | 4 | out of frame: span over 96, start + span over n, or a start without calls | the fragment |
/// | 5 | stray bits: a grade over 15, or a cell after the span that is not 0 | the fragment |
/// | 6 | an unknown call: a code over 2 | the fragment |
/// | 7 | an open end: the span's first or last cell is a hole | the fragment |
/// | 8 | S and F alone: gapped, a hole between two calls | the fragment |
/// | 9 | the tag of an earlier fragment | the fragment |
/// | 10 | work under [`WORK`](crate::WORK) numbers | 0 |
/// | 11 | the length of an output is not exact | 0 |
/// | 12 | C alone: over 8 fragments whose stretch from first to last call covers a column | the column |
/// | 13 | out of order: a start below that of the fragment before, or the same start and a lower tag | the fragment |
/// | 17 | pack alone: a fragment without calls | the fragment |
#[derive(Clone, Copy, PartialEq, Eq, Debug)]
pub enum Outcome {
    Accepted(usize),
    /// number, place
    Refused(u8, usize),
}

impl fmt::Display for Outcome {
    fn fmt(&self, out: &mut fmt::Formatter) -> fmt::Result {
        match self {
            Outcome::Accepted(count) => write!(out, "accepted {count}"),
            Outcome::Refused(number, place) => write!(out, "refused {number} at {place}"),
        }
    }
}

/// An outcome from the number that an export returns: a count below `base`, or `base` × number + place.
pub(crate) fn read(base: u64, number: u64) -> Outcome {
    if number < base {
        Outcome::Accepted(number as usize)
    } else {
        let refusal = u8::try_from(number / base).expect("the refusals' numbers are below 256");
        Outcome::Refused(refusal, (number % base) as usize)
    }
}

#[cfg(test)]
mod tests {
    use super::*;

    #[test]
    fn numbers_are_read() {
        let check = |number| read(1000, number);
        assert_eq!(check(0), Outcome::Accepted(0));
        assert_eq!(check(1), Outcome::Accepted(1));
        assert_eq!(check(1000), Outcome::Refused(1, 0));
        assert_eq!(check(9127), Outcome::Refused(9, 127));
        assert_eq!(check(13002), Outcome::Refused(13, 2));
        let count = |number| read(1 << 32, number);
        assert_eq!(count(16384), Outcome::Accepted(16384));
        assert_eq!(count(1 << 32), Outcome::Refused(1, 0));
        assert_eq!(count((12 << 32) + 127), Outcome::Refused(12, 127));
        assert_eq!(count((13 << 32) + 1), Outcome::Refused(13, 1));
        assert_eq!(count((17 << 32) + 127), Outcome::Refused(17, 127));
    }
}
