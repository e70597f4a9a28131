//! Random tables of every kind, and random cells.

mod cells;
mod faulty;
mod graded;
mod grades;
mod large;
mod mates;
mod rows;
mod small;
mod unordered;

use crate::rng::Rng;

pub use cells::{cells, Cells};

pub struct Kind {
    pub name: &'static str,
    pub tables: usize,
    make: fn(&mut Rng) -> Vec<u8>,
}

impl Kind {
    pub fn table(&self, rng: &mut Rng) -> Vec<u8> {
        (self.make)(rng)
    }
}

pub fn kinds() -> Vec<Kind> {
    let kind = |name, tables, make| Kind { name, tables, make };
    vec![
        kind("no records", 3, |_| Vec::new()),
        kind("uniform", 1500, small::uniform),
        kind("noisy copies", 2000, small::noisy),
        kind("nested", 1000, small::nested),
        kind("single calls", 600, small::singles),
        kind("identical", 400, small::identical),
        kind("without calls", 50, small::uncalled),
        kind("deep", 300, small::deep),
        kind("up to 12 x 12", 200, small::twelve),
        kind("held together", 800, graded::held_together),
        kind("mates, uniform", 4800, mates::uniform),
        kind("mates, noisy copies", 4800, mates::noisy),
        kind("mates, cycles", 1500, mates::cycles),
        kind("mates, deep", 800, mates::deep),
        kind("mates, 12 x 12", 300, mates::twelve),
        kind("one fault", 1500, faulty::one),
        kind("several faults", 1000, faulty::several),
        kind("mates and faults", 800, faulty::of_mates),
        kind("grades over 15", 600, faulty::over_graded),
        kind("long or ragged", 400, faulty::long),
        kind("random fields", 600, faulty::random_fields),
        kind("out of order", 1500, unordered::table),
        kind("out of order, faulty", 1500, unordered::with_faults),
        kind("shifted", 300, large::shifted),
        kind("few, long", 200, large::few_long),
        kind("many, short", 200, large::many_short),
        kind("medium, heavy noise", 300, large::medium),
        kind("medium, shallow", 300, large::medium_shallow),
        kind("medium, mates", 300, mates::medium),
        kind("full, error-free", 10, large::full_error_free),
        kind("full, noisy", 60, large::full_noisy),
        kind("full, nested", 60, large::full_nested),
        kind("full, shallow", 80, large::full_shallow),
        kind("full, blocks", 60, large::full_blocks),
        kind("full, 8 and 9 calls", 20, large::full_at_depth),
        kind("full, heavy noise", 20, large::full_heavy_noise),
        kind("full, graded", 24, graded::full),
        kind("full, mates", 40, mates::full),
        kind("full, mates shallow", 60, mates::full_shallow),
        kind("full, mates at depth", 80, mates::full_at_depth),
        kind("full, far mates", 60, mates::full_far),
        kind("full, mate cycles", 60, mates::full_cycles),
    ]
}
