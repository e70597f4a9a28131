//! S by pairs of columns. Two columns are at odds if the table with these two alone is not error-free, so what S keeps has
//! no two at odds, and a largest set without two at odds is no smaller. If the first of the largest makes the table
//! error-free, it is therefore what S keeps. That is tested each time; where it fails, this method settles nothing.
//!
//! The largest sets are found by branch and bound: of columns that are all at odds with each other a set has one at most.

use super::letters::{below, members, Letters};
use super::{PastLimit, Work};

struct Search<'a> {
    /// for each column those that it is at odds with
    odds: Vec<u128>,
    work: &'a mut Work,
}

/// The columns that S keeps, if this method settles them.
pub fn first_most_kept(letters: &Letters, work: &mut Work) -> Result<Option<u128>, PastLimit> {
    let mut search = Search { odds: odds(letters), work };
    let kept = search.first_largest(letters.all_columns())?;
    Ok(letters.first_sides(kept, letters.all_fragments()).map(|_| kept))
}

/// Are no two columns at odds? A gapless table is then error-free, but one with holes between calls need not be.
pub fn none_at_odds(letters: &Letters) -> bool {
    (0..letters.n()).all(|d| (0..d).all(|c| !at_odds(letters, c, d)))
}

fn odds(letters: &Letters) -> Vec<u128> {
    let mut odds = vec![0; letters.n()];
    for d in 0..letters.n() {
        for c in (0..d).filter(|&c| at_odds(letters, c, d)) {
            odds[c] |= 1 << d;
            odds[d] |= 1 << c;
        }
    }
    odds
}

fn at_odds(letters: &Letters, c: usize, d: usize) -> bool {
    let both = 1 << c | 1 << d;
    letters.first_sides(both, different_on(letters, c, d)).is_none()
}

/// One fragment of each that have the same calls on two columns: it conflicts with the same others.
fn different_on(letters: &Letters, c: usize, d: usize) -> u128 {
    let calls = |f: usize| [letters.a[f] >> c, letters.b[f] >> c, letters.a[f] >> d, letters.b[f] >> d];
    let mut seen = [false; 16];
    let mut first = |f: &usize| {
        let code = calls(*f).iter().fold(0, |code, bit| 2 * code + (bit & 1) as usize);
        !std::mem::replace(&mut seen[code], true)
    };
    (0..letters.m()).filter(|f| first(f)).fold(0, |set, f| set | 1 << f)
}

impl Search<'_> {
    /// Of the largest sets the one that keeps the column at the first difference.
    fn first_largest(&mut self, columns: u128) -> Result<u128, PastLimit> {
        let mut size = self.cliques(columns).len();
        while !self.reaches(columns, size)? {
            size -= 1;
        }
        let mut kept = 0;
        let mut open = columns;
        for c in members(columns) {
            let with = open & !below(c + 1) & !self.odds[c];
            if open >> c & 1 == 1 && self.reaches(with, size - 1)? {
                kept |= 1 << c;
                size -= 1;
                open = with;
            }
        }
        Ok(kept)
    }

    /// Have these columns a set of this size without two at odds?
    fn reaches(&mut self, columns: u128, size: usize) -> Result<bool, PastLimit> {
        self.work.spend(1)?;
        if size == 0 {
            return Ok(true);
        }
        let mut open = columns;
        // a set of this size has a column outside the first size - 1 cliques
        for &clique in self.cliques(columns).iter().skip(size - 1).rev() {
            for c in members(clique) {
                open &= !(1 << c);
                if self.reaches(open & !self.odds[c], size - 1)? {
                    return Ok(true);
                }
            }
        }
        Ok(false)
    }

    /// The columns in groups whose columns are all at odds with each other, as few as come easily.
    fn cliques(&self, columns: u128) -> Vec<u128> {
        let mut rest = columns;
        let mut cliques = Vec::new();
        while rest != 0 {
            let mut clique = 0;
            let mut fitting = rest;
            while fitting != 0 {
                let c = fitting.trailing_zeros() as usize;
                clique |= 1 << c;
                fitting &= self.odds[c];
            }
            rest &= !clique;
            cliques.push(clique);
        }
        cliques
    }
}
