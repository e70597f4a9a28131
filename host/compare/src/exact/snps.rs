//! S by branching: an odd walk of conflicts is broken only where some pair of neighbours stops conflicting, and then every
//! column on which that pair conflicts is gone.

use super::letters::{below, members, Letters};
use super::odd_walk::Graph;
use super::{PastLimit, Work};

struct Search<'a> {
    letters: &'a Letters,
    fragments: Vec<usize>,
    /// columns that a solution must keep
    must_keep: u128,
    work: &'a mut Work,
}

/// What a branch has settled: the columns still there, how many more may go, and for each fragment of the part those with
/// which its conflict stays, because another branch has looked at the solutions without that conflict.
struct Branch {
    columns: u128,
    left: usize,
    stays: Vec<u128>,
}

/// The columns that S removes in a part of fragments.
pub fn first_least_removal(letters: &Letters, part: u128, work: &mut Work) -> Result<u128, PastLimit> {
    let fragments: Vec<usize> = members(part).collect();
    let columns = fragments.iter().fold(0, |set, &f| set | letters.calls(f));
    let mut search = Search { letters, fragments, must_keep: 0, work };
    let mut limit = 0;
    let least = loop {
        if let Some(kept) = search.within(columns, limit)? {
            break columns & !kept;
        }
        limit += 1;
    };
    search.first_among_equals(columns, least)
}

impl Search<'_> {
    /// From a least set to the first one: each removed column in turn stays if a set of the same size without it agrees on
    /// all columns before.
    fn first_among_equals(&mut self, columns: u128, least: u128) -> Result<u128, PastLimit> {
        let mut removed = least;
        let size = least.count_ones() as usize;
        for c in 0..self.letters.n() {
            if removed >> c & 1 == 0 {
                continue;
            }
            let settled = removed & below(c);
            self.must_keep = columns & below(c + 1) & !settled;
            if let Some(kept) = self.within(columns & !settled, size - settled.count_ones() as usize)? {
                removed = columns & !kept;
            }
        }
        Ok(removed)
    }

    fn within(&mut self, columns: u128, left: usize) -> Result<Option<u128>, PastLimit> {
        let stays = vec![0; self.fragments.len()];
        self.solve(Branch { columns, left, stays })
    }

    /// Columns that make the part error-free, with at most `left` of the branch's columns removed.
    fn solve(&mut self, mut branch: Branch) -> Result<Option<u128>, PastLimit> {
        self.work.spend_pairs(self.fragments.len())?;
        let Some(walk) = self.graph(&branch, 0).odd_walk(1) else {
            return Ok(Some(branch.columns));
        };
        if self.packing(&branch) > branch.left {
            return Ok(None);
        }
        for (i, j) in self.breakable(&branch, &walk) {
            let gone = self.conflict(i, j) & branch.columns;
            let columns = branch.columns & !gone;
            let left = branch.left - gone.count_ones() as usize;
            if let Some(kept) = self.solve(Branch { columns, left, stays: branch.stays.clone() })? {
                return Ok(Some(kept));
            }
            branch.stays[i] |= 1 << j;
            branch.stays[j] |= 1 << i;
        }
        Ok(None)
    }

    /// A lower bound on the removals: walks are found one after another, each broken only by columns that no walk before
    /// it could use.
    fn packing(&self, branch: &Branch) -> usize {
        let mut used = 0;
        let mut bound = 0;
        while let Some(walk) = self.graph(branch, used).odd_walk(3) {
            let breaks: Vec<u128> = self
                .breakable(branch, &walk)
                .iter()
                .map(|&(i, j)| self.conflict(i, j) & branch.columns & !used)
                .collect();
            let Some(fewest) = breaks.iter().map(|set| set.count_ones() as usize).min() else {
                return usize::MAX; // nothing can break this walk
            };
            bound += fewest;
            if bound > branch.left {
                break;
            }
            used |= breaks.iter().fold(0, |set, gone| set | gone);
        }
        bound
    }

    /// The conflicts of the part, without those that lie within the used columns and could be gone.
    fn graph(&self, branch: &Branch, used: u128) -> Graph {
        let mut graph = Graph::new(self.fragments.len());
        for j in 0..self.fragments.len() {
            for i in 0..j {
                let conflict = self.conflict(i, j) & branch.columns;
                let near = if conflict == 0 {
                    continue;
                } else if !self.can_go(branch, i, j) {
                    &mut graph.free
                } else if conflict & !used != 0 {
                    &mut graph.paid
                } else {
                    continue;
                };
                near[i] |= 1 << j;
                near[j] |= 1 << i;
            }
        }
        graph
    }

    fn conflict(&self, i: usize, j: usize) -> u128 {
        self.letters.conflict(self.fragments[i], self.fragments[j])
    }

    fn can_go(&self, branch: &Branch, i: usize, j: usize) -> bool {
        let conflict = self.conflict(i, j) & branch.columns;
        conflict & self.must_keep == 0 && conflict.count_ones() as usize <= branch.left && branch.stays[i] >> j & 1 == 0
    }

    /// The neighbours on a walk whose conflict can still go, each pair once.
    fn breakable(&self, branch: &Branch, walk: &[usize]) -> Vec<(usize, usize)> {
        let mut pairs: Vec<(usize, usize)> =
            walk.windows(2).map(|pair| (pair[0].min(pair[1]), pair[0].max(pair[1]))).collect();
        pairs.sort_unstable();
        pairs.dedup();
        pairs.retain(|&(i, j)| self.can_go(branch, i, j));
        pairs
    }
}
