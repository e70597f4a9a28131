//! The matrix as two sets of columns for each fragment, and what follows from them by flooding.

use crate::answer::REMOVED_FRAGMENT;
use crate::record::{Matrix, A, B};

/// Sets of columns and of fragments are the bits of one number: tables have at most 128 of each.
pub struct Letters {
    pub a: Vec<u128>,
    pub b: Vec<u128>,
    pub weights: Vec<usize>,
    n: usize,
}

/// The numbers of a set, ascending.
pub fn members(mut set: u128) -> impl Iterator<Item = usize> {
    std::iter::from_fn(move || {
        let next = set.trailing_zeros() as usize;
        set &= set.wrapping_sub(1);
        (next < 128).then_some(next)
    })
}

/// The numbers below k.
pub fn below(k: usize) -> u128 {
    if k == 128 {
        u128::MAX
    } else {
        (1 << k) - 1
    }
}

/// The columns at which a row of codes has the letter.
fn columns_of(codes: &[u8], letter: u8) -> u128 {
    (0..codes.len()).filter(|&c| codes[c] == letter).fold(0, |set, c| set | 1 << c)
}

/// The sets of fragments that chains of joined ones make, the lowest first.
fn flooded(fragments: u128, joined: impl Fn(usize, usize) -> bool) -> Vec<u128> {
    let mut rest = fragments;
    let mut sets = Vec::new();
    while rest != 0 {
        let mut set = 0;
        let mut reached = 1 << rest.trailing_zeros();
        while reached != 0 {
            set |= reached;
            rest &= !reached;
            let next = members(rest).filter(|&g| members(reached).any(|f| joined(f, g)));
            reached = next.fold(0, |set, g| set | 1 << g);
        }
        sets.push(set);
    }
    sets
}

impl Letters {
    pub fn new(matrix: &Matrix) -> Letters {
        Letters {
            a: matrix.rows.iter().map(|row| columns_of(row, A)).collect(),
            b: matrix.rows.iter().map(|row| columns_of(row, B)).collect(),
            weights: matrix.weights.clone(),
            n: matrix.n,
        }
    }

    pub fn n(&self) -> usize {
        self.n
    }

    pub fn m(&self) -> usize {
        self.a.len()
    }

    pub fn all_columns(&self) -> u128 {
        below(self.n)
    }

    pub fn all_fragments(&self) -> u128 {
        below(self.m())
    }

    pub fn calls(&self, f: usize) -> u128 {
        self.a[f] | self.b[f]
    }

    pub fn weight(&self, fragments: u128) -> usize {
        members(fragments).map(|f| self.weights[f]).sum()
    }

    pub fn fragments_where(&self, holds: impl Fn(usize) -> bool) -> u128 {
        (0..self.m()).filter(|&f| holds(f)).fold(0, |set, f| set | 1 << f)
    }

    /// The columns on which two fragments conflict.
    pub fn conflict(&self, f: usize, g: usize) -> u128 {
        self.a[f] & self.b[g] | self.b[f] & self.a[g]
    }

    /// Parts of the fragments that share no column, the lowest first: what is least for each is least for all.
    pub fn parts(&self) -> Vec<u128> {
        flooded(self.all_fragments(), |f, g| self.calls(f) & self.calls(g) != 0)
    }

    /// The blocks of the kept fragments, which chains of conflicts on the kept columns join, the lowest first.
    pub fn blocks(&self, columns: u128, fragments: u128) -> Vec<u128> {
        flooded(fragments, |f, g| self.conflict(f, g) & columns != 0)
    }

    /// The letters after correction: each call is that of its side's haplotype.
    pub fn corrected(&self, haplotypes: &[Vec<u8>; 2], sides: &[u8]) -> Letters {
        let columns = haplotypes.each_ref().map(|codes| [A, B].map(|letter| columns_of(codes, letter)));
        let calls = |f: usize, letter: usize| self.calls(f) & columns[sides[f] as usize - 1][letter];
        Letters {
            a: (0..self.m()).map(|f| calls(f, 0)).collect(),
            b: (0..self.m()).map(|f| calls(f, 1)).collect(),
            weights: self.weights.clone(),
            n: self.n,
        }
    }

    /// The first lawful side list: the lowest fragment of each chain of conflicts is on side 1, and the chain settles the
    /// others. None if a chain comes back to a fragment on the wrong side.
    pub fn first_sides(&self, columns: u128, fragments: u128) -> Option<Vec<u8>> {
        let mut sides = vec![REMOVED_FRAGMENT; self.m()];
        for lowest in members(fragments) {
            if sides[lowest] != REMOVED_FRAGMENT {
                continue;
            }
            sides[lowest] = 1;
            let mut open = vec![lowest];
            while let Some(f) = open.pop() {
                for g in members(fragments).filter(|&g| self.conflict(f, g) & columns != 0) {
                    if sides[g] == sides[f] {
                        return None;
                    }
                    if sides[g] == REMOVED_FRAGMENT {
                        sides[g] = 3 - sides[f];
                        open.push(g);
                    }
                }
            }
        }
        Some(sides)
    }
}
