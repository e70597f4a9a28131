//! C by the sides of the open fragments, column by column. A fragment is open from its first call to its last. Side lists
//! that agree on the open fragments cost alike from there on, so only the best of them goes on. This bears any noise, where
//! branching does not, and needs no gapless table: 8 fragments are open at most where C does not refuse the table.

use super::letters::{below, members, Letters};
use std::collections::HashMap;

/// The cost so far, and the fragments on side 2.
type Best = (usize, u128);

/// The fragments on side 2 in the first side list of least cost.
pub fn first_least_sides(letters: &Letters) -> u128 {
    let mut best = HashMap::from([(0, (0, 0))]);
    for c in 0..letters.n() {
        best = after_column(letters, c, &best);
    }
    best[&0].1 // no fragment is open after the last column
}

/// For each set of open fragments on side 2 the best side list, after one more column.
fn after_column(letters: &Letters, c: usize, best: &HashMap<u128, Best>) -> HashMap<u128, Best> {
    let begun = letters.fragments_where(|f| letters.calls(f) & below(c + 1) == 1 << c);
    let ended = letters.fragments_where(|f| letters.calls(f) >> c == 1);
    let callers = [&letters.a, &letters.b].map(|letter| letters.fragments_where(|f| letter[f] >> c & 1 == 1));
    let mut after = HashMap::new();
    for (&open, &(cost, sides)) in best {
        for more in subsets(begun) {
            let open = open | more;
            let found = (cost + column_cost(letters, callers, open), sides | more);
            let known = after.entry(open & !ended).or_insert(found);
            if order(found) < order(*known) {
                *known = found;
            }
        }
    }
    after
}

fn subsets(set: u128) -> Vec<u128> {
    members(set).fold(vec![0], |subsets, f| subsets.iter().flat_map(|&subset| [subset, subset | 1 << f]).collect())
}

/// The smaller of the weights of A and B on each side; only open fragments call the column.
fn column_cost(letters: &Letters, callers: [u128; 2], side_2: u128) -> usize {
    let price = |side: u128| callers.map(|set| letters.weight(set & side)).into_iter().min().unwrap_or(0);
    price(!side_2) + price(side_2)
}

/// Less cost is better, and among equals side 1 at the first difference. What two side lists gain alike later does not
/// change their order.
fn order((cost, side_2): Best) -> (usize, u128) {
    (cost, side_2.reverse_bits())
}
