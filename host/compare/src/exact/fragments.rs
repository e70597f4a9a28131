//! F by branching: of the fragments of an odd walk of conflicts one must go.

use super::letters::{below, members, Letters};
use super::odd_walk::Graph;
use super::{PastLimit, Work};

struct Search<'a> {
    /// for each fragment of the part those that it conflicts with
    conflicts: Vec<u128>,
    fragments: usize,
    work: &'a mut Work,
}

/// The fragments still there, those of them that must stay, and how many more may go.
#[derive(Clone, Copy)]
struct Branch {
    present: u128,
    must_keep: u128,
    left: usize,
}

/// The fragments that F removes in a part.
pub fn first_least_removal(letters: &Letters, part: u128, work: &mut Work) -> Result<u128, PastLimit> {
    let near = |f: usize| members(part).filter(|&g| letters.conflict(f, g) != 0).fold(0, |set, g| set | 1 << g);
    let conflicts = (0..letters.m()).map(|f| if part >> f & 1 == 1 { near(f) } else { 0 }).collect();
    let mut search = Search { conflicts, fragments: part.count_ones() as usize, work };
    let mut left = 0;
    let least = loop {
        if let Some(kept) = search.solve(Branch { present: part, must_keep: 0, left })? {
            break part & !kept;
        }
        left += 1;
    };
    search.first_among_equals(part, least)
}

impl Search<'_> {
    /// From a least set to the first one: each removed fragment in turn stays if a set of the same size without it agrees
    /// on all fragments before.
    fn first_among_equals(&mut self, part: u128, least: u128) -> Result<u128, PastLimit> {
        let mut removed = least;
        let size = least.count_ones() as usize;
        for f in members(part) {
            if removed >> f & 1 == 0 {
                continue;
            }
            let settled = removed & below(f);
            let present = part & !settled;
            let must_keep = present & below(f + 1);
            let left = size - settled.count_ones() as usize;
            if let Some(kept) = self.solve(Branch { present, must_keep, left })? {
                removed = part & !kept;
            }
        }
        Ok(removed)
    }

    /// Fragments that are error-free, with at most `left` of those present removed.
    fn solve(&mut self, mut branch: Branch) -> Result<Option<u128>, PastLimit> {
        self.work.spend_pairs(self.fragments)?;
        let Some(walk) = self.graph(&branch).odd_walk(1) else {
            return Ok(Some(branch.present));
        };
        if self.packing(branch) > branch.left {
            return Ok(None);
        }
        for f in members(set_of(&walk) & !branch.must_keep) {
            let without = Branch { present: branch.present & !(1 << f), left: branch.left - 1, ..branch };
            if let Some(kept) = self.solve(without)? {
                return Ok(Some(kept));
            }
            branch.must_keep |= 1 << f; // the solutions without f have been looked at
        }
        Ok(None)
    }

    /// A lower bound on the removals: odd walks that share no removable fragment.
    fn packing(&self, mut branch: Branch) -> usize {
        let mut bound = 0;
        while let Some(walk) = self.graph(&branch).odd_walk(3) {
            let removable = set_of(&walk) & !branch.must_keep;
            if removable == 0 {
                return usize::MAX; // nothing can break this walk
            }
            bound += 1;
            if bound > branch.left {
                break;
            }
            branch.present &= !removable;
        }
        bound
    }

    fn graph(&self, branch: &Branch) -> Graph {
        let mut graph = Graph::new(self.conflicts.len());
        for f in members(branch.present) {
            let near = self.conflicts[f] & branch.present;
            graph.free[f] = near & branch.must_keep;
            graph.paid[f] = near & !branch.must_keep;
        }
        graph
    }
}

fn set_of(walk: &[usize]) -> u128 {
    walk.iter().fold(0, |set, &f| set | 1 << f)
}
