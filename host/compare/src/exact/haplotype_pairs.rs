//! F by every pair of haplotypes. Fragments are error-free exactly if each is a part of one haplotype of some pair, so a
//! largest error-free set is all that fits a pair. The letters are chosen column by column. Pairs to which the same open
//! fragments can still fit go on alike, so only the best of them does. This bears any noise, where branching does not.

use super::letters::{below, Letters};
use std::collections::HashMap;

/// The open fragments, begun and not ended, that fit each haplotype so far; the smaller set first, as the two can be exchanged.
type Fitting = [u128; 2];

/// The fragments that F removes in the whole table.
pub fn first_least_removal(letters: &Letters) -> u128 {
    let bare = letters.fragments_where(|f| letters.calls(f) == 0);
    let mut best = HashMap::from([([0, 0], bare)]);
    for c in 0..letters.n() {
        best = after_column(letters, c, &best);
    }
    let kept = best[&[0, 0]]; // no fragment is open after the last column
    letters.all_fragments() & !kept
}

/// The best kept fragments among those that have ended, after one more column.
fn after_column(letters: &Letters, c: usize, best: &HashMap<Fitting, u128>) -> HashMap<Fitting, u128> {
    let begun = letters.fragments_where(|f| letters.calls(f) & below(c + 1) == 1 << c);
    let ended = letters.fragments_where(|f| letters.calls(f) >> c == 1);
    // what a haplotype with A, or with B, in this column does not fit
    let unfit = [&letters.b, &letters.a].map(|other| letters.fragments_where(|f| other[f] >> c & 1 == 1));
    let mut after = HashMap::new();
    for (&[one, two], &kept) in best {
        for (x, y) in [(0, 0), (0, 1), (1, 0), (1, 1)] {
            let fits = [(one | begun) & !unfit[x], (two | begun) & !unfit[y]];
            let kept = kept | (fits[0] | fits[1]) & ended;
            let mut open = fits.map(|set| set & !ended);
            open.sort_unstable();
            let known = after.entry(open).or_insert(kept);
            if order(kept) > order(*known) {
                *known = kept;
            }
        }
    }
    after
}

/// More fragments are better, and among equals those that keep the fragment at the first difference. What two sets gain
/// alike later does not change their order.
fn order(kept: u128) -> (u32, u128) {
    (kept.count_ones(), kept.reverse_bits())
}
