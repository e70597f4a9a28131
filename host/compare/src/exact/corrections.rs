//! C by branch and bound over the side lists of each part. Its fragments are decided by their first column. Costs only
//! grow as fragments are added, and two halves of a part cost at least as much together as each alone, so the least cost
//! of the undecided fragments by themselves is added to the bound. These least costs come from the same search, from the
//! last fragment alone to the whole part. Nothing here needs a gapless table.

use super::letters::{below, members, Letters};
use super::{block_numbers, PastLimit, Work};
use crate::answer::Answer;
use crate::record::{A, B, HOLE};

/// The weights of A and B of each column and side.
struct Weights {
    of: Vec<[[usize; 2]; 2]>,
}

struct Search<'a> {
    letters: &'a Letters,
    order: Vec<usize>,
    /// the least cost of the fragments from each place of the order on, by themselves
    least_from: Vec<usize>,
    sides: Vec<u8>,
    weights: Weights,
    work: &'a mut Work,
}

/// The first side list of least cost.
pub fn first_least_sides(letters: &Letters, work: &mut Work) -> Result<Vec<u8>, PastLimit> {
    let mut sides = vec![1; letters.m()];
    for part in letters.parts() {
        let found = sides_of_part(letters, part, work)?;
        members(part).for_each(|f| sides[f] = found[f]);
    }
    Ok(sides)
}

/// C's answer with these sides.
pub fn answer(letters: &Letters, sides: Vec<u8>) -> Answer {
    let mut weights = Weights::none(letters.n());
    let count = (0..letters.m()).map(|f| weights.put(letters, f, sides[f])).sum();
    let haplotypes = [0, 1].map(|side| weights.of.iter().map(|column| heavier(column[side])).collect());
    let blocks = block_numbers(&letters.corrected(&haplotypes, &sides), letters.all_columns(), &sides);
    Answer { count, keep: vec![true; letters.n()], haplotypes, sides, blocks }
}

/// A call has a weight over 0.
fn heavier([a, b]: [usize; 2]) -> u8 {
    match (a, b) {
        (0, 0) => HOLE,
        _ if a < b => B,
        _ => A,
    }
}

/// The sides of the part's fragments in the first side list of least cost.
fn sides_of_part(letters: &Letters, part: u128, work: &mut Work) -> Result<Vec<u8>, PastLimit> {
    let mut order: Vec<usize> = members(part).collect();
    order.sort_by_key(|&f| (letters.calls(f).trailing_zeros(), letters.calls(f).leading_zeros()));
    let mut search = Search {
        letters,
        least_from: vec![0; order.len() + 1],
        order,
        sides: vec![1; letters.m()],
        weights: Weights::none(letters.n()),
        work,
    };
    for from in (0..search.order.len()).rev() {
        search.find_least(from)?;
    }
    search.first_among_equals(part)?;
    Ok(search.sides)
}

/// A look for side lists that differ at a fragment. `reach` is the end of the stretches that differ so far, 0 if none.
#[derive(Clone, Copy)]
struct Moving {
    fragment: usize,
    settled: u128,
    reach: u32,
}

impl Moving {
    /// The look after fragment f, the next by its first column, or None if f cannot differ (or cannot stay).
    fn next(self, letters: &Letters, f: usize, differs: bool) -> Option<Moving> {
        let calls = letters.calls(f);
        let apart = self.reach != 0 && self.reach <= calls.trailing_zeros();
        if !differs {
            return (f != self.fragment).then_some(self);
        }
        let settled = self.settled >> f & 1 == 1;
        (!settled && !apart).then_some(Moving { reach: self.reach.max(128 - calls.leading_zeros()), ..self })
    }
}

impl Search<'_> {
    /// Settles the least cost of the fragments from a place of the order on: the first of them is put beside a least side list
    /// of the others, and lists of ever less cost are looked for.
    fn find_least(&mut self, from: usize) -> Result<(), PastLimit> {
        let mut least = self.cost_from(from);
        // the two sides can be exchanged, so the first fragment is on side 1
        while least > self.least_from[from + 1] && self.within(from, &[1], least - 1)? {
            least = self.cost_from(from);
        }
        self.least_from[from] = least;
        Ok(())
    }

    /// What `sides` costs for the fragments from a place of the order on, by themselves.
    fn cost_from(&self, from: usize) -> usize {
        let mut weights = Weights::none(self.letters.n());
        self.order[from..].iter().map(|&f| weights.put(self.letters, f, self.sides[f])).sum()
    }

    /// From a least side list to the first one: each fragment in record order moves to side 1 if a list of the same cost
    /// agrees on all fragments before.
    fn first_among_equals(&mut self, part: u128) -> Result<(), PastLimit> {
        for f in members(part) {
            if self.sides[f] == 2 {
                self.moved(Moving { fragment: f, settled: below(f), reach: 0 }, 0, self.least_from[0])?;
            }
        }
        Ok(())
    }

    /// Is there a side list with at most this cost that differs from `sides` at one fragment, and at no settled one? It is
    /// enough to look at lists in which the fragments that differ hang together by shared columns: those that do not hang
    /// together with the one would change the cost by themselves, and none can lower it. If there is one, `sides` holds it.
    fn moved(&mut self, moving: Moving, at: usize, left: usize) -> Result<bool, PastLimit> {
        let Some(&f) = self.order.get(at) else {
            return Ok(true);
        };
        self.work.spend(1)?;
        let old = self.sides[f];
        for differs in [false, true] {
            let Some(next) = moving.next(self.letters, f, differs) else {
                continue;
            };
            let side = if differs { 3 - old } else { old };
            let cost = self.weights.put(self.letters, f, side);
            let found = cost + self.least_from[at + 1] <= left && self.moved(next, at + 1, left - cost)?;
            self.weights.take(self.letters, f, side);
            if found {
                self.sides[f] = side;
                return Ok(true);
            }
        }
        Ok(false)
    }

    /// Is there a side list of the fragments from a place on with at most this cost, the first on one of these sides? If so,
    /// `sides` holds it.
    fn within(&mut self, at: usize, first: &[u8], left: usize) -> Result<bool, PastLimit> {
        let Some(&f) = self.order.get(at) else {
            return Ok(true);
        };
        self.work.spend(1)?;
        for &side in first {
            let cost = self.weights.put(self.letters, f, side);
            let found = cost + self.least_from[at + 1] <= left && self.within(at + 1, &[1, 2], left - cost)?;
            self.weights.take(self.letters, f, side);
            if found {
                self.sides[f] = side;
                return Ok(true);
            }
        }
        Ok(false)
    }
}

impl Weights {
    fn none(n: usize) -> Weights {
        Weights { of: vec![[[0; 2]; 2]; n] }
    }

    /// Adds a fragment to a side and returns what it adds to the cost.
    fn put(&mut self, letters: &Letters, f: usize, side: u8) -> usize {
        let mut cost = 0;
        for (letter, columns) in [letters.a[f], letters.b[f]].into_iter().enumerate() {
            for c in members(columns) {
                let weights = &mut self.of[c][side as usize - 1];
                let before = weights[0].min(weights[1]);
                weights[letter] += letters.weights[f];
                cost += weights[0].min(weights[1]) - before;
            }
        }
        cost
    }

    fn take(&mut self, letters: &Letters, f: usize, side: u8) {
        for (letter, columns) in [letters.a[f], letters.b[f]].into_iter().enumerate() {
            members(columns).for_each(|c| self.of[c][side as usize - 1][letter] -= letters.weights[f]);
        }
    }
}
