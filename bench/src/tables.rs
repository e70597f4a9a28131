//! Full tables, 128 fragments over 128 columns, of a kind and drawn from a seed. Their records rise by start, and at
//! one start by tag.

use crate::random::Random;
use haplotypes::RECORD;
use std::collections::BTreeSet;
use std::fmt;
use std::ops::{Range, RangeInclusive};

/// The most fragments of a table, and the most columns.
pub const MOST: usize = 128;
pub const CELLS: usize = 96;
/// The fewest columns of two mates with a hole between them.
const PAIR: usize = 3;
/// The most fragments over a column that C accepts.
const DEPTH: usize = 8;
/// The highest grade.
const HIGHEST: usize = 15;
pub const A: u8 = 1;
pub const B: u8 = 2;

#[derive(Clone, Copy, PartialEq, Eq, Debug)]
pub enum Kind {
    Typical,
    Clean,
    Short,
    Full,
    Random,
    Mixed,
    Uniform,
    Empty,
    Single,
    Shallow,
    Deep,
    /// Its parameters are drawn too, for a search.
    Drawn,
    Mates,
    ShallowMates,
    /// Mates of one call each, so that a column has few calls and many stretches over it.
    Ends,
    /// All at column 0 and so in order by their tags alone, most of them without calls.
    Front,
    /// The fragments of a shallow table, with grades at random; all others but the next two have grade 0.
    Graded,
    /// Those of shallow mates, with grades at random.
    GradedMates,
    /// Those of a deep table, all of the highest grade.
    Heavy,
}

impl Kind {
    pub const ALL: [Kind; 19] = {
        use Kind::*;
        [
            Typical,
            Clean,
            Short,
            Full,
            Random,
            Mixed,
            Uniform,
            Empty,
            Single,
            Shallow,
            Deep,
            Drawn,
            Mates,
            ShallowMates,
            Ends,
            Front,
            Graded,
            GradedMates,
            Heavy,
        ]
    };

    /// Whether C accepts its tables, whatever the seed.
    pub fn is_within_depth(self) -> bool {
        use Kind::*;
        matches!(self, Empty | Single | Shallow | Deep | ShallowMates | Front | Graded | GradedMates | Heavy)
    }

    /// Whether its fragments are mate pairs, each with a hole between the mates.
    pub fn is_gapped(self) -> bool {
        self.longest_mate().is_some()
    }

    fn longest_mate(self) -> Option<usize> {
        match self {
            Kind::Mates | Kind::ShallowMates | Kind::GradedMates => Some(CELLS),
            Kind::Ends => Some(1),
            _ => None,
        }
    }

    /// Whether its fragments have other grades than 0.
    #[cfg(test)]
    pub fn is_graded(self) -> bool {
        self.grades() != (0..=0)
    }

    fn grades(self) -> RangeInclusive<usize> {
        match self {
            Kind::Graded | Kind::GradedMates => 0..=HIGHEST,
            Kind::Heavy => HIGHEST..=HIGHEST,
            _ => 0..=0,
        }
    }

    fn parameters(self, random: &mut Random) -> Parameters {
        use {Letters::*, Places::*};
        let (spans, errors_per_mille, letters, places) = match self {
            Kind::Typical => (16..=96, 20, Haplotypes, Anywhere),
            Kind::Clean => (16..=96, 0, Haplotypes, Anywhere),
            Kind::Short => (1..=8, 20, Haplotypes, Anywhere),
            Kind::Full => (96..=96, 0, Haplotypes, Anywhere),
            Kind::Random => (96..=96, 0, AtRandom, Anywhere),
            Kind::Mixed => (1..=96, 0, AtRandom, Anywhere),
            Kind::Uniform => (96..=96, 0, AllA, Anywhere),
            Kind::Empty => (0..=0, 0, AllA, Anywhere),
            Kind::Single => (1..=1, 0, AllA, Diagonal),
            Kind::Shallow | Kind::Graded => (4..=10, 20, Haplotypes, Limited),
            Kind::Deep | Kind::Heavy => (1..=96, 0, AtRandom, Tiled),
            Kind::Drawn => return drawn(random),
            Kind::Mates => (16..=96, 20, Haplotypes, Anywhere),
            Kind::ShallowMates | Kind::GradedMates => (PAIR..=96, 20, Haplotypes, TiledPairs),
            Kind::Ends => (16..=96, 20, Haplotypes, Anywhere),
            Kind::Front => (1..=96, 20, Haplotypes, Left),
        };
        Parameters {
            spans,
            errors_per_mille,
            letters,
            places,
            longest_mate: self.longest_mate(),
            grades: self.grades(),
        }
    }
}

impl fmt::Display for Kind {
    fn fmt(&self, out: &mut fmt::Formatter) -> fmt::Result {
        match self {
            Kind::ShallowMates => out.write_str("shallow mates"),
            Kind::GradedMates => out.write_str("graded mates"),
            _ => out.write_str(&format!("{self:?}").to_lowercase()),
        }
    }
}

/// Letters from two opposite haplotypes, at random, or all A.
#[derive(Clone, Copy, PartialEq)]
enum Letters {
    Haplotypes,
    AtRandom,
    AllA,
}

#[derive(Clone, Copy, PartialEq)]
enum Places {
    /// Random starts.
    Anywhere,
    /// Random starts, with at most 8 fragments on a column.
    Limited,
    /// Rows, with 8 fragments on each column.
    Tiled,
    /// Rows of mate pairs, with at most 8 over a column.
    TiledPairs,
    /// Fragment i at column i.
    Diagonal,
    /// All at column 0, with calls in every sixteenth fragment alone.
    Left,
}

struct Parameters {
    spans: RangeInclusive<usize>,
    errors_per_mille: usize,
    letters: Letters,
    places: Places,
    /// The most calls of each of two mates; none for fragments without a hole.
    longest_mate: Option<usize>,
    grades: RangeInclusive<usize>,
}

fn drawn(random: &mut Random) -> Parameters {
    let (a, b) = (random.below(CELLS + 1), random.below(CELLS + 1));
    let errors_per_mille = if random.below(2) == 1 { 0 } else { random.below(100) };
    let letters = [Letters::Haplotypes, Letters::AtRandom, Letters::AllA][random.below(3)];
    let places = [Places::Anywhere, Places::Limited, Places::Tiled][random.below(3)];
    Parameters { spans: a.min(b)..=a.max(b), errors_per_mille, letters, places, longest_mate: None, grades: 0..=0 }
}

/// The records, and what unpack makes of them.
pub struct Table {
    pub records: Vec<u8>,
    pub cells: Vec<u8>,
    pub tags: Vec<u32>,
    pub grades: Vec<u8>,
}

impl Table {
    /// The cells as pack takes them: a fragment without calls has one at column 0, so that its start stays.
    pub fn called_cells(&self) -> Vec<u8> {
        let mut cells = self.cells.clone();
        let uncalled = cells.chunks_mut(MOST).filter(|row| row.iter().all(|&code| code == 0));
        uncalled.for_each(|row| row[0] = A);
        cells
    }

    /// The lowest column for which `counts` says yes of the cells of over 8 fragments.
    #[cfg(test)]
    pub fn first_deep(&self, counts: impl Fn(&[u8], usize) -> bool) -> Option<usize> {
        (0..MOST).find(|&column| self.cells.chunks(MOST).filter(|cells| counts(cells, column)).count() > DEPTH)
    }
}

pub fn table(kind: Kind, seed: u64) -> Table {
    let mut random = Random::new(seed);
    let parameters = kind.parameters(&mut random);
    let haplotype = (0..MOST).map(|_| A + random.below(2) as u8).collect();
    let mut generator = Generator { random, parameters, haplotype, fragments: Vec::new() };
    match generator.parameters.places {
        Places::Tiled => generator.tile(),
        Places::TiledPairs => generator.tile_pairs(),
        _ => generator.scatter(),
    }
    generator.table()
}

/// The codes of a fragment from its start on.
struct Fragment {
    start: usize,
    codes: Vec<u8>,
}

struct Generator {
    random: Random,
    parameters: Parameters,
    haplotype: Vec<u8>,
    /// as they are drawn
    fragments: Vec<Fragment>,
}

impl Generator {
    fn scatter(&mut self) {
        let mut depth = [0; MOST];
        for i in 0..MOST {
            let (start, span) = self.place(i, &mut depth);
            self.add(start, span);
        }
    }

    fn place(&mut self, i: usize, depth: &mut [usize; MOST]) -> (usize, usize) {
        let places = self.parameters.places;
        for tries in 1.. {
            let drawn = within(&mut self.random, &self.parameters.spans);
            let span = match places {
                Places::Limited if tries > 1000 => 0,
                Places::Left if i % (MOST / DEPTH) > 0 => 0,
                _ => drawn,
            };
            let start = match places {
                Places::Diagonal => i,
                Places::Left => 0,
                _ => self.random.below(MOST - span + 1),
            };
            if places != Places::Limited || fits(&mut depth[start..start + span]) {
                return (start, span);
            }
        }
        unreachable!("an empty span fits")
    }

    /// Eight rows of 16 fragments, each row cut at random, so that eight fragments are on every column.
    fn tile(&mut self) {
        for _ in 0..DEPTH {
            let mut start = 0;
            for left in (0..16).rev() {
                let most = MOST - start - left;
                let span = if left == 0 { most } else { 1 + self.random.below(most.min(15)) }.min(CELLS);
                self.add(start, span);
                start += span;
            }
        }
    }

    /// Eight rows, of 8 and of 24 mate pairs in turn, cut at random: the first of a row are mostly the longest.
    fn tile_pairs(&mut self) {
        for pairs in [8, 24].repeat(DEPTH / 2) {
            let mut start = 0;
            for left in (0..pairs).rev() {
                let most = (MOST - start - PAIR * left).min(CELLS);
                let span = if left == 0 { most } else { PAIR + self.random.below(most - PAIR + 1) };
                self.add(start, span);
                start += span;
            }
        }
    }

    /// The hole between a fragment's mates, each of which has less than half of the span; empty in a gapless fragment.
    fn hole(&mut self, span: usize) -> Range<usize> {
        let Some(longest) = self.parameters.longest_mate else { return 0..0 };
        let most = longest.min((span - 1) / 2);
        1 + self.random.below(most)..span - 1 - self.random.below(most)
    }

    /// A fragment's calls from a start over a span, of one of two opposite haplotypes.
    fn add(&mut self, start: usize, span: usize) {
        let other = self.random.below(2) == 1;
        let hole = self.hole(span);
        let mut codes = vec![0; span];
        for i in (0..span).filter(|i| !hole.contains(i)) {
            let erroneous = self.random.below(1000) < self.parameters.errors_per_mille;
            codes[i] = match self.parameters.letters {
                Letters::Haplotypes if other != erroneous => A + B - self.haplotype[start + i],
                Letters::Haplotypes => self.haplotype[start + i],
                Letters::AtRandom => A + self.random.below(2) as u8,
                Letters::AllA => A,
            };
        }
        self.fragments.push(Fragment { start: if span == 0 { 0 } else { start }, codes });
    }

    /// The fragments in order. Their tags rise as they were drawn, over all 32 bits and in pairs that differ in the
    /// lowest alone: no part of a tag tells the order.
    fn table(mut self) -> Table {
        let mut tags = BTreeSet::new();
        while tags.len() < MOST {
            let tag = self.random.next() as u32;
            tags.extend([tag & !1, tag | 1]);
        }
        let mut tagged: Vec<_> = tags.into_iter().zip(self.fragments).collect();
        tagged.sort_by_key(|(tag, fragment)| (fragment.start, *tag));
        let (records, cells) = (vec![0; MOST * RECORD], vec![0; MOST * MOST]);
        let mut table = Table { records, cells, tags: Vec::new(), grades: Vec::new() };
        let rows = table.records.chunks_mut(RECORD).zip(table.cells.chunks_mut(MOST));
        for ((tag, fragment), (record, cells)) in tagged.iter().zip(rows) {
            let Fragment { start, codes } = fragment;
            record[..4].copy_from_slice(&tag.to_le_bytes());
            record[4] = *start as u8;
            record[6] = codes.len() as u8;
            record[7] = within(&mut self.random, &self.parameters.grades) as u8;
            codes.iter().enumerate().for_each(|(i, code)| record[8 + i / 4] |= code << (2 * (i % 4)));
            cells[*start..start + codes.len()].copy_from_slice(codes);
            table.tags.push(*tag);
            table.grades.push(record[7]);
        }
        table
    }
}

fn within(random: &mut Random, range: &RangeInclusive<usize>) -> usize {
    range.start() + random.below(range.end() - range.start() + 1)
}

/// Raises the depth of the columns where that leaves none over 8.
fn fits(depth: &mut [usize]) -> bool {
    let fits = depth.iter().all(|&calls| calls < DEPTH);
    if fits {
        depth.iter_mut().for_each(|calls| *calls += 1);
    }
    fits
}

#[cfg(test)]
mod tests {
    use super::Kind::*;
    use super::*;
    use haplotypes::{unpack, Outcome};

    /// FNV-1a over the kinds with grades or those without, of these the ones with holes or the ones without, and seeds
    /// 1 to 5.
    fn sum(graded: bool, gapped: bool) -> u64 {
        let of_these = |kind: &Kind| (kind.is_graded(), kind.is_gapped()) == (graded, gapped);
        let tables = Kind::ALL.into_iter().filter(of_these).flat_map(|kind| (1..=5).map(move |seed| table(kind, seed)));
        let bytes = tables.flat_map(|table| table.records);
        bytes.fold(0xcbf29ce484222325, |sum, byte| (sum ^ byte as u64).wrapping_mul(0x100000001b3))
    }

    /// The figures of docs/PERFORMANCE.md are those of the very same tables.
    #[test]
    fn tables_stay_the_same() {
        assert_eq!((sum(false, false), sum(false, true)), (0xf3d7dc34b43f0d29, 0xd1b7dfed67f67dba));
        assert_eq!((sum(true, false), sum(true, true)), (0xabd68ee863ee2937, 0x8b47181394df8ba7));
    }

    #[test]
    fn graded_tables_are_others_with_grades() {
        for (kind, other) in [(Graded, Shallow), (GradedMates, ShallowMates), (Heavy, Deep)] {
            let (mut graded, other) = (table(kind, 1), table(other, 1));
            let grades: BTreeSet<usize> = graded.grades.iter().map(|&grade| grade as usize).collect();
            assert!(grades.into_iter().eq(kind.grades()), "{kind}");
            graded.records.chunks_mut(RECORD).for_each(|record| record[7] = 0);
            assert!(graded.records == other.records, "{kind}");
        }
    }

    #[test]
    fn records_rise_by_start_and_tag() {
        for kind in Kind::ALL {
            let records = table(kind, 1).records;
            let start = |record: &[u8]| u16::from_le_bytes([record[4], record[5]]);
            let tag = |record: &[u8]| u32::from_le_bytes([record[0], record[1], record[2], record[3]]);
            let places: Vec<_> = records.chunks(RECORD).map(|record| (start(record), tag(record))).collect();
            assert!(places.windows(2).all(|two| two[0] < two[1]), "{kind}");
        }
    }

    #[test]
    fn gapped_tables_are_of_mate_pairs() {
        for kind in Kind::ALL.into_iter().filter(|kind| kind.is_gapped()) {
            for cells in table(kind, 1).cells.chunks(MOST) {
                let mates = cells.split(|&code| code == 0).filter(|calls| !calls.is_empty());
                assert_eq!(mates.count(), 2, "{kind}");
            }
        }
    }

    #[test]
    fn pack_is_given_one_call_more_where_there_is_none() {
        for kind in Kind::ALL {
            let table = table(kind, 1);
            let given = table.called_cells();
            for (given, cells) in given.chunks(MOST).zip(table.cells.chunks(MOST)) {
                let expected = if cells == [0; MOST] { [&[A][..], &[0; MOST - 1]].concat() } else { cells.to_vec() };
                assert_eq!(given, expected, "{kind}");
            }
        }
    }

    #[test]
    fn cells_tags_and_grades_are_those_of_the_records() {
        for kind in Kind::ALL {
            let table = table(kind, 1);
            let (mut cells, mut tags, mut grades) = (vec![9; MOST * MOST], vec![9; MOST], vec![99; MOST]);
            let outcome = unpack(MOST, &table.records, &mut cells, &mut tags, &mut grades);
            assert_eq!(outcome, Outcome::Accepted(MOST));
            assert!((cells, tags, grades) == (table.cells, table.tags, table.grades), "{kind}");
        }
    }
}
