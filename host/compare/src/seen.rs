//! What a run has seen, counted.

use crate::answer::Answer;
use crate::counts;
use crate::expected::{Accepted, Outcome};
use crate::gaps;
use crate::grades::{
    corrected_calls, corrected_otherwise, fewest_corrections, ties, weights_but, LARGEST_TOTAL, OTHERS,
};
use crate::methods::{CHECK, CORRECTIONS};
use crate::rules::REFUSALS;
use crate::service::Service;
use crate::uncalled::Uncalled;
use std::collections::{BTreeMap, BTreeSet};

/// Refusals 13 and 17 are counted by their places: from each of these on, up to the next. The last is the last of a full table.
pub const PLACES: [usize; 4] = [1, 3, 30, 127];

/// Where a place is counted, unless it is 0.
pub fn from_place(place: usize) -> Option<usize> {
    PLACES.into_iter().rfind(|&from| place >= from)
}

#[derive(Clone, Copy, PartialEq, Eq, PartialOrd, Ord, Debug)]
pub enum Seen {
    Table,
    /// what the listing says of the table as a whole
    Listed(Verdict),
    /// C's refusal, 12
    TooDeep,
    /// a gapped table that check takes: S's and F's refusal, 8
    Gapped,
    /// 12 for stretches that cover a column, where no column has over 8 calls
    DeepByStretchesAlone,
    /// 12 for stretches at a lower column than the first with over 8 calls
    DeepBelowCalls,
    /// a gapped table that is not error-free, though it is on every two columns by themselves
    BeyondPairs,
    /// C's answer to a gapped table
    GappedCorrected(Verdict),
    /// a gapped table that check and C settle by every choice
    GappedByEveryChoice,
    /// C's answer to a gapped table that is too large for every choice
    GappedLarge,
    /// a gapped table with a column that a stretch covers and no fragment calls
    CoversUncalled,
    /// a table with a fragment of two calls on 96 columns
    FarthestMates,
    /// a table with two fragments that conflict on over 64 columns
    CountOver64,
    /// a table with two fragments that conflict on columns below 64 and on columns from 64 on
    ConflictsAcross64,
    /// an answer of S with two fragments in two blocks that both call a kept column
    SharingApart,
    /// an answer of S with two fragments in two blocks that conflict, on a removed column
    RemovedApart,
    /// an answer of C with two fragments in two blocks that conflicted before correction
    CorrectedApart,
    /// a graded table: a grade over 0
    Graded,
    /// C's answer to a graded table
    GradedCorrected(Verdict),
    /// C's answer to a graded table that is too large for every choice
    GradedLarge,
    /// an answer of C that corrects more calls than the fewest
    MoreCalls,
    /// an answer of C with other sides than the fewest corrections
    OtherSides,
    /// an answer of C with the sides of the fewest corrections, and with other letters
    OtherLetters,
    /// an answer of C with a column and side where A and B weigh the same, with as many calls of other grades
    TieOfGrades,
    /// the same, with another number of calls
    TieOfNumbers,
    /// an answer of C that corrects a call of this grade
    CorrectedGrade(u8),
    /// an answer of C to a small table that would be another if this grade weighed 1 more, or 1 less
    DependsOn(u8),
    /// an answer of C to a small table that would be another by other weights, by their name
    NotBy(&'static str),
    /// a total of C over half of the largest that there can be
    LargeTotal,
    /// a method that settled a service
    By(&'static str),
    Listing,
    ListingInPieces,
    /// a listing of a graded table with an answer of C
    GradedListing,
    /// a listing with refusal 8 in the lines of S and F
    GappedListing,
    Call(Service),
    Returned(Service, Verdict),
    /// S's or F's refusal 8 where check accepts
    GapAlone(Service),
    /// S's or F's refusal 8 where check refuses the same record by 9 or 13, or a later one
    GapBeforeFault(Service),
    /// a refusal 13 of a record that another comparison, by its name, takes
    Missed(Service, &'static str),
    /// an acceptance of records of which another comparison refuses one
    MadeUp(Service, &'static str),
    /// a refusal 13 at this place or a later one, but before the next of `PLACES`
    OutOfOrderFrom(Service, usize),
    /// a refusal 13 of the first record of several that are out of order
    FirstOutOfOrder(Service),
    /// a refusal 13 where no other rule is broken
    OrderAlone(Service),
    /// a refusal 13 where a later record breaks another rule
    OrderBeforeFault(Service),
    /// C's refusal 13 where nothing but 12 is broken too
    OrderBeforeDepth,
    /// a refusal by another rule of the first record that is out of order
    FaultOutOfOrder(Service, usize),
    /// a refusal by another rule of a record before the first that is out of order
    FaultBeforeOrder(Service),
    /// pack's refusal 17, by the fragments that have no call
    Uncalled(Uncalled),
    /// a refusal 17 at this place or a later one, but before the next of `PLACES`
    UncalledFrom(usize),
    /// a refusal 17 where no other rule is broken
    UncalledAlone,
    /// a refusal 17 of a fragment that breaks this rule too
    UncalledBefore(usize),
    /// a refusal 17 where a later fragment breaks this rule
    UncalledBeforeLater(usize),
    /// pack's refusal 6 of a fragment without calls
    UnknownUncalled,
    /// pack's refusal by another rule of a fragment before the first without calls
    FaultBeforeUncalled(usize),
    /// pack's acceptance of a fragment that lacks what could be asked for in the place of a call, by its name
    PackedWithout(&'static str),
    /// an acceptance of a table with a record without calls
    UncalledTaken(Service),
    /// an acceptance of a grade over 0
    GradeTaken(Service),
    /// an acceptance of the highest grade
    HighestTaken(Service),
    /// a refusal 5 for the lowest byte that is no grade
    LowestRefused(Service),
    /// a refusal 5 for a grade where no other rule is broken, nor this one by a cell
    OverAlone(Service),
    /// a refusal of a record with a grade over 15 that breaks this rule too, 5 by a cell; by 5, or by 4 where that comes first
    OverBeside(Service, usize),
    /// a refusal 5 for a grade where a later record breaks this rule
    OverBeforeLater(Service, usize),
    /// a refusal by this rule of a record before the first with a grade over 15
    BeforeOver(Service, usize),
    /// a refusal 5 for a cell of a record with a grade over 0
    StrayCellGraded(Service),
    /// a refusal for too many grades alone, and for too few
    GradesLong(Service),
    GradesShort(Service),
    /// an acceptance with more work than the least
    LongWork(Service),
    /// a record that find hands back of a table with a part of a record at its end
    FoundInRagged,
    /// a record that find hands back at position 128 or later
    FoundPastMost,
    /// a record that find hands back where it, or one before it, is out of order
    FoundOutOfOrder,
    /// a record without calls that find hands back
    FoundUncalled,
    /// a record with a grade over 0 that find hands back, and with one over 15
    FoundGraded,
    FoundOver,
    /// a table unpacked and packed again
    TableRoundTrip,
    /// a table with a record without calls unpacked, and refused by pack
    UncalledRoundTrip,
    /// cells and tags packed and unpacked again
    CellsRoundTrip,
    /// the same with holes between calls
    GappedTableRoundTrip,
    GappedCellsRoundTrip,
    /// the same with a grade over 0
    GradedTableRoundTrip,
    GradedCellsRoundTrip,
}

#[derive(Clone, Copy, PartialEq, Eq, PartialOrd, Ord, Debug)]
pub enum Verdict {
    /// error-free: check's yes, and nothing to remove or correct
    Yes,
    No,
    /// by unpack, pack or conflict_counts
    Accepted,
    Refused(usize),
    /// what find hands back: the only record with the tag, the first of several, or none
    Only,
    First,
    Absent,
}

#[derive(Clone, Default)]
pub struct Counts {
    of: BTreeMap<Seen, usize>,
}

impl Counts {
    pub fn of(&self, seen: Seen) -> usize {
        self.of.get(&seen).copied().unwrap_or(0)
    }

    pub fn set(&mut self, seen: Seen, count: usize) {
        self.of.insert(seen, count);
    }

    pub fn add(&mut self, seen: Seen, count: usize) {
        *self.of.entry(seen).or_default() += count;
    }

    pub fn add_all(&mut self, other: &Counts) {
        other.of.iter().for_each(|(&seen, &count)| self.add(seen, count));
    }

    pub fn add_outcome(&mut self, outcome: &Outcome) {
        self.add(Seen::Table, 1);
        self.add(Seen::Listed(verdict(outcome)), 1);
        if let Outcome::Accepted(table) = outcome {
            self.add_blocks(table);
            self.add_depth(table);
            if table.matrix.is_gapped() {
                self.add_gapped(table);
            }
            if table.is_graded() {
                self.add_graded(table);
            }
            table.by.iter().for_each(|name| self.add(Seen::By(name), 1));
        }
    }

    fn add_if(&mut self, seen: Seen, holds: bool) {
        self.add(seen, holds as usize);
    }

    /// Of conflicts and blocks.
    fn add_blocks(&mut self, Accepted { matrix, answers, .. }: &Accepted) {
        self.add_if(Seen::CountOver64, counts::over_64(matrix));
        self.add_if(Seen::ConflictsAcross64, counts::across_64(matrix));
        if let Ok(snps) = &answers.snps {
            self.add_if(Seen::SharingApart, counts::sharing_apart(matrix, snps));
            self.add_if(Seen::RemovedApart, counts::conflicting_apart(matrix, snps));
        }
        if let Ok(corrections) = &answers.corrections {
            self.add_if(Seen::CorrectedApart, counts::conflicting_apart(matrix, corrections));
        }
    }

    /// Of rule 12.
    fn add_depth(&mut self, Accepted { matrix, answers, .. }: &Accepted) {
        if let Err(refusal) = answers.corrections {
            let by_calls = gaps::deep_by_calls(matrix);
            self.add(Seen::TooDeep, 1);
            self.add_if(Seen::DeepByStretchesAlone, by_calls.is_none());
            self.add_if(Seen::DeepBelowCalls, by_calls.is_some_and(|column| column != refusal.place));
        }
    }

    /// Of a table with holes between calls.
    fn add_gapped(&mut self, Accepted { matrix, answers, by, .. }: &Accepted) {
        self.add(Seen::Gapped, 1);
        self.add_if(Seen::BeyondPairs, answers.check.is_none() && gaps::error_free_by_pairs(matrix));
        self.add_if(Seen::CoversUncalled, gaps::covers_uncalled(matrix));
        self.add_if(Seen::FarthestMates, gaps::farthest_mates(matrix));
        if let Ok(corrections) = &answers.corrections {
            let verdict = if corrections.count == 0 { Verdict::Yes } else { Verdict::No };
            let every_choice = [CHECK[0].name, CORRECTIONS[0].name].iter().all(|name| by.contains(name));
            self.add(Seen::GappedCorrected(verdict), 1);
            self.add(if every_choice { Seen::GappedByEveryChoice } else { Seen::GappedLarge }, 1);
        }
    }

    /// Of a table with a grade over 0.
    fn add_graded(&mut self, table: &Accepted) {
        self.add(Seen::Graded, 1);
        let Ok(corrections) = &table.answers.corrections else {
            return;
        };
        let is_small = table.by.contains(&CORRECTIONS[0].name);
        let verdict = if corrections.count == 0 { Verdict::Yes } else { Verdict::No };
        self.add(Seen::GradedCorrected(verdict), 1);
        self.add_if(Seen::GradedLarge, !is_small);
        self.add_if(Seen::LargeTotal, corrections.count > LARGEST_TOTAL / 2);
        if corrections.count > 0 {
            self.add_corrected(table, corrections);
            if is_small {
                self.add_other_weights(table, corrections);
            }
        }
    }

    /// Of what C corrects in a graded table.
    fn add_corrected(&mut self, Accepted { matrix, grades, .. }: &Accepted, corrections: &Answer) {
        let calls = corrected_calls(matrix, corrections);
        let fewest = fewest_corrections(matrix);
        let same_sides = fewest.sides == corrections.sides;
        self.add_if(Seen::MoreCalls, calls.iter().sum::<usize>() > fewest.count);
        self.add_if(Seen::OtherSides, !same_sides);
        self.add_if(Seen::OtherLetters, same_sides && fewest.haplotypes != corrections.haplotypes);
        let ties = ties(matrix, grades, &corrections.sides);
        self.add_if(Seen::TieOfGrades, ties.iter().any(|[a, b]| a.len() == b.len() && a != b));
        self.add_if(Seen::TieOfNumbers, ties.iter().any(|[a, b]| a.len() != b.len()));
        let corrected: BTreeSet<u8> = (0..grades.len()).filter(|&f| calls[f] > 0).map(|f| grades[f]).collect();
        corrected.into_iter().for_each(|grade| self.add(Seen::CorrectedGrade(grade), 1));
    }

    fn add_other_weights(&mut self, Accepted { matrix, grades, .. }: &Accepted, corrections: &Answer) {
        let differs = |weights: Vec<usize>| corrected_otherwise(matrix, weights, corrections);
        for other in &OTHERS {
            self.add_if(Seen::NotBy(other.name), differs(other.weights(grades)));
        }
        let distinct: BTreeSet<u8> = grades.iter().copied().collect();
        for grade in distinct {
            let depends = [-1, 1].into_iter().any(|more| differs(weights_but(grades, grade, more)));
            self.add_if(Seen::DependsOn(grade), depends);
        }
    }

    /// The refusals that occurred, as rule:times.
    pub fn refusals(&self, of: impl Fn(Verdict) -> Seen) -> String {
        let counts = REFUSALS.map(|rule| (rule, self.of(of(Verdict::Refused(rule)))));
        let shown = counts.into_iter().filter(|&(_, count)| count > 0).map(|(rule, count)| format!("{rule}:{count}"));
        shown.collect::<Vec<_>>().join(" ")
    }
}

fn verdict(outcome: &Outcome) -> Verdict {
    match outcome {
        Outcome::Refused(refusal) => Verdict::Refused(refusal.number),
        Outcome::Accepted(table) if table.answers.check.is_some() => Verdict::Yes,
        Outcome::Accepted(_) => Verdict::No,
    }
}
