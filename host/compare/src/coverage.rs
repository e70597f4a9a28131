//! What a run must have seen, so that a kind of tables that no longer comes to a verdict or a refusal, or a method that no
//! longer settles anything, fails it. The generator says how many tables a kind has. The rest depends on the seed: at least
//! half of what is usual is asked for, a quarter of what is below 40, and nothing below 12.
//!
//! The listing meets the refusals 1 to 7, 9 and 13, in the lines of S and F 8, and in C's 12. It never meets 10 and 11, as it
//! lends itself enough work and buffers of the right length. Every service meets the refusals that it has, and no other: 8 is of S
//! and F alone, 10 of those that borrow work, 12 of C alone, 17 of pack alone, pack has no 7, as cells have no ends, and find
//! refuses nothing.

use crate::rules::{REFUSALS, RULES_OF_RECORDS};
use crate::runner::{sum, Tally};
use crate::seen::{Seen, Verdict, PLACES};
use crate::service::Service::{self, Check, ConflictCounts, Corrections, Find, Fragments, Pack, Snps, Unpack};
use crate::uncalled::Uncalled;
use Verdict::{Absent, Accepted, First, No, Only, Refused, Yes};

/// A kind's tables, and the least of them with each verdict: yes, no, refused by C alone, by S and F alone, and by each of the
/// rules of the whole table.
struct Kind {
    name: &'static str,
    tables: usize,
    yes: usize,
    no: usize,
    too_deep: usize,
    gapped: usize,
    refused: [usize; 9],
}

/// The rules of the whole table.
const RULES: [usize; 9] = [1, 2, 3, 4, 5, 6, 7, 9, 13];
const NONE: [usize; 9] = [0; 9];

const KINDS: [Kind; 42] = [
    kind("no records", 3, [3, 0, 0, 0], NONE),
    kind("uniform", 1500, [360, 370, 20, 0], NONE),
    kind("noisy copies", 2000, [500, 490, 7, 0], NONE),
    kind("nested", 1000, [270, 220, 20, 0], NONE),
    kind("single calls", 600, [260, 25, 0, 0], NONE),
    kind("identical", 400, [190, 3, 7, 0], NONE),
    kind("without calls", 50, [50, 0, 0, 0], NONE),
    kind("deep", 300, [35, 110, 115, 0], NONE),
    kind("up to 12 x 12", 200, [25, 70, 20, 0], NONE),
    kind("held together", 800, [3, 390, 0, 50], NONE),
    kind("mates, uniform", 4800, [1000, 1350, 30, 4800], NONE),
    kind("mates, noisy copies", 4800, [1400, 950, 30, 4800], NONE),
    kind("mates, cycles", 1500, [170, 570, 0, 1500], NONE),
    kind("mates, deep", 800, [30, 360, 320, 800], NONE),
    kind("mates, 12 x 12", 300, [50, 95, 30, 300], NONE),
    kind("one fault", 1500, [100, 80, 9, 45], [60, 40, 70, 80, 100, 45, 54, 65, 0]),
    kind("several faults", 1000, [4, 3, 0, 4], [25, 35, 160, 45, 73, 35, 32, 40, 0]),
    kind("mates and faults", 800, [27, 20, 0, 50], [5, 4, 85, 30, 71, 35, 40, 35, 0]),
    kind("grades over 15", 600, [6, 3, 0, 4], [0, 0, 30, 4, 210, 0, 0, 4, 0]),
    kind("long or ragged", 400, [5, 0, 5, 0], [50, 95, 30, 0, 0, 0, 0, 0, 0]),
    kind("random fields", 600, [45, 0, 0, 4], [0, 0, 115, 5, 9, 55, 25, 0, 0]),
    kind("out of order", 1500, [7, 0, 0, 0], [0, 0, 0, 0, 0, 0, 0, 10, 700]),
    kind("out of order, faulty", 1500, [0, 0, 0, 0], [0, 5, 115, 45, 105, 55, 50, 140, 185]),
    kind("shifted", 300, [40, 100, 5, 0], NONE),
    kind("few, long", 200, [4, 90, 0, 0], NONE),
    kind("many, short", 200, [0, 95, 100, 0], NONE),
    kind("medium, heavy noise", 300, [4, 140, 80, 0], NONE),
    kind("medium, shallow", 300, [0, 145, 0, 0], NONE),
    kind("medium, mates", 300, [50, 95, 0, 300], NONE),
    kind("full, error-free", 10, [10, 0, 10, 0], NONE),
    kind("full, noisy", 60, [0, 30, 60, 0], NONE),
    kind("full, nested", 60, [0, 30, 60, 0], NONE),
    kind("full, shallow", 80, [5, 30, 0, 0], NONE),
    kind("full, blocks", 60, [0, 30, 0, 0], NONE),
    kind("full, 8 and 9 calls", 20, [0, 10, 2, 0], NONE),
    kind("full, heavy noise", 20, [0, 20, 20, 0], NONE),
    kind("full, graded", 24, [0, 24, 0, 0], NONE),
    kind("full, mates", 40, [4, 5, 40, 40], NONE),
    kind("full, mates shallow", 60, [3, 20, 0, 60], NONE),
    kind("full, mates at depth", 80, [3, 30, 20, 80], NONE),
    kind("full, far mates", 60, [5, 9, 2, 60], NONE),
    kind("full, mate cycles", 60, [6, 8, 9, 60], NONE),
];

const fn kind(name: &'static str, tables: usize, verdicts: [usize; 4], refused: [usize; 9]) -> Kind {
    let [yes, no, too_deep, gapped] = verdicts;
    Kind { name, tables, yes, no, too_deep, gapped, refused }
}

/// The calls of each service for each table, right and wrong ones.
const CALLS: [(Service, usize); 8] = [
    (Unpack, 20),
    (Pack, 19),
    (Find, 6),
    (Check, 12),
    (ConflictCounts, 12),
    (Snps, 15),
    (Fragments, 15),
    (Corrections, 19),
];

/// What the calls of a service must have returned, over all kinds: the least of each acceptance and of each refusal, 0 where the
/// service does not have it.
struct Replies {
    service: Service,
    accepted: &'static [(Verdict, usize)],
    refused: [usize; 14],
}

const REPLIES: [Replies; 8] = [
    replies(Unpack, &[(Accepted, 41500)], [3850, 2550, 39500, 13500, 2750, 1200, 1000, 0, 1300, 0, 170000, 0, 3400, 0]),
    replies(Pack, &[(Accepted, 14000)], [160000, 1700, 32000, 300, 2000, 1850, 0, 0, 1100, 0, 51000, 0, 1300, 2950]),
    replies(Find, &[(Only, 25000), (First, 12000), (Absent, 36000)], [0; 14]),
    replies(
        Check,
        &[(Yes, 19000), (No, 21500)],
        [2100, 1250, 28500, 13500, 2650, 1150, 1000, 0, 1300, 0, 57000, 0, 3400, 0],
    ),
    replies(
        ConflictCounts,
        &[(Accepted, 41000)],
        [2100, 1250, 28500, 13500, 2650, 1150, 1000, 0, 1300, 0, 57000, 0, 3400, 0],
    ),
    replies(
        Snps,
        &[(Yes, 7500), (No, 7700)],
        [2700, 1600, 30000, 10500, 2050, 955, 820, 28500, 970, 40000, 51000, 0, 2400, 0],
    ),
    replies(
        Fragments,
        &[(Yes, 7500), (No, 7700)],
        [2700, 1600, 30000, 10500, 2050, 955, 820, 28500, 970, 40000, 51000, 0, 2400, 0],
    ),
    replies(
        Corrections,
        &[(Yes, 18000), (No, 18500)],
        [3500, 2100, 32000, 13500, 2650, 1150, 1000, 0, 1300, 40000, 97000, 3700, 3400, 0],
    ),
];

const fn replies(service: Service, accepted: &'static [(Verdict, usize)], refused: [usize; 14]) -> Replies {
    Replies { service, accepted, refused }
}

/// What else the calls must have seen, over all kinds. Of conflicts it is the tables that count, as each goes through a
/// call with its own columns and exact lengths.
const CALLED: [(Seen, usize); 13] = [
    (Seen::LongWork(Snps), 11500),
    (Seen::LongWork(Fragments), 11500),
    (Seen::LongWork(Corrections), 27500),
    (Seen::CountOver64, 80),
    (Seen::ConflictsAcross64, 235),
    (Seen::SharingApart, 1350),
    (Seen::RemovedApart, 1150),
    (Seen::CorrectedApart, 1150),
    (Seen::FoundInRagged, 740),
    (Seen::FoundPastMost, 230),
    (Seen::FoundOutOfOrder, 3400),
    (Seen::TableRoundTrip, 10300),
    (Seen::CellsRoundTrip, 6100),
];

/// What must have been seen of holes between calls, over all kinds. Of tables by every choice 10,000 are asked for, and not
/// half of what is usual.
const GAPPED: [(Seen, usize); 10] = [
    (Seen::GappedByEveryChoice, 10000),
    (Seen::GappedLarge, 260),
    (Seen::GappedCorrected(Yes), 2800),
    (Seen::GappedCorrected(No), 3100),
    (Seen::GapAlone(Snps), 25000),
    (Seen::GapAlone(Fragments), 25000),
    (Seen::GapBeforeFault(Snps), 6700),
    (Seen::GapBeforeFault(Fragments), 6700),
    (Seen::GappedTableRoundTrip, 6500),
    (Seen::GappedCellsRoundTrip, 2650),
];

/// What small kinds and full ones must have seen of holes that tells definitions apart.
const OF_MATES: [(&str, Seen, usize); 12] = [
    ("mates, uniform", Seen::BeyondPairs, 50),
    ("mates, cycles", Seen::BeyondPairs, 460),
    ("full, mate cycles", Seen::BeyondPairs, 8),
    ("mates, deep", Seen::DeepByStretchesAlone, 160),
    ("full, mates at depth", Seen::DeepByStretchesAlone, 3),
    ("full, mate cycles", Seen::DeepByStretchesAlone, 8),
    ("mates, deep", Seen::DeepBelowCalls, 50),
    ("full, mates", Seen::DeepBelowCalls, 5),
    ("full, mates at depth", Seen::DeepBelowCalls, 4),
    ("mates, cycles", Seen::CoversUncalled, 550),
    ("full, mates at depth", Seen::CoversUncalled, 25),
    ("full, far mates", Seen::FarthestMates, 60),
];

/// Of 13 beside the other rules, over all kinds, the least of: refusals 13 where no other rule is broken, where a later record
/// breaks one, and where a later one is out of order too; refusals by another rule of a record before the first that is out of
/// order; refusals 13 by their places; refusals by rule 4 to 9 of the first record that is out of order. The calls at place
/// 127 are of about twelve tables, so a fifth of them is asked for.
struct Order {
    service: Service,
    turns: [usize; 4],
    places: [usize; 4],
    faults: [usize; 6],
}

const ORDERS: [Order; 7] = [
    order(Unpack, [2800, 640, 1850, 1600], [1850, 1350, 135, 10], [230, 300, 140, 115, 0, 420]),
    order(Pack, [855, 465, 735, 600], [785, 375, 140, 3], [28, 180, 195, 0, 0, 80]),
    order(Check, [2750, 625, 1800, 1550], [1800, 1350, 135, 10], [230, 290, 135, 110, 0, 410]),
    order(ConflictCounts, [2750, 630, 1800, 1600], [1800, 1350, 135, 10], [230, 290, 140, 110, 0, 410]),
    order(Snps, [1700, 620, 1300, 2700], [1350, 855, 125, 10], [180, 220, 105, 83, 225, 280]),
    order(Fragments, [1700, 620, 1300, 2700], [1350, 850, 125, 10], [175, 220, 105, 84, 225, 280]),
    order(Corrections, [1850, 625, 1800, 1600], [1800, 1350, 135, 10], [225, 290, 135, 115, 0, 410]),
];

const fn order(service: Service, turns: [usize; 4], places: [usize; 4], faults: [usize; 6]) -> Order {
    Order { service, turns, places, faults }
}

/// C's refusals 13 of tables that are too deep.
const BEFORE_DEPTH: usize = 890;

/// What must have been seen of fragments without calls, over all kinds: pack's refusals 17, by the fragments, by their places and
/// beside other rules of the same fragment, a later and an earlier one; what pack accepts; and what the other services do.
const WITHOUT_CALLS: [(Seen, usize); 38] = [
    (Seen::Uncalled(Uncalled::First), 370),
    (Seen::Uncalled(Uncalled::Between), 460),
    (Seen::Uncalled(Uncalled::Last), 235),
    (Seen::Uncalled(Uncalled::Several), 375),
    (Seen::Uncalled(Uncalled::All), 265),
    (Seen::Uncalled(Uncalled::NoColumns), 1350),
    (Seen::UncalledFrom(1), 365),
    (Seen::UncalledFrom(3), 405),
    (Seen::UncalledFrom(30), 130),
    (Seen::UncalledFrom(127), 4),
    (Seen::UncalledAlone, 1400),
    (Seen::UncalledBefore(9), 41),
    (Seen::UncalledBefore(13), 355),
    (Seen::UncalledBeforeLater(5), 74),
    (Seen::UncalledBeforeLater(6), 120),
    (Seen::UncalledBeforeLater(4), 7),
    (Seen::UncalledBeforeLater(9), 345),
    (Seen::UncalledBeforeLater(13), 550),
    (Seen::UnknownUncalled, 330),
    (Seen::FaultBeforeUncalled(5), 105),
    (Seen::FaultBeforeUncalled(6), 120),
    (Seen::FaultBeforeUncalled(4), 24),
    (Seen::FaultBeforeUncalled(9), 89),
    (Seen::FaultBeforeUncalled(13), 185),
    (Seen::PackedWithout("two calls"), 4100),
    (Seen::PackedWithout("an A"), 4200),
    (Seen::PackedWithout("a B"), 4200),
    (Seen::PackedWithout("a call after the first column"), 2400),
    (Seen::PackedWithout("a call before the last column"), 1700),
    (Seen::PackedWithout("a call below column 64"), 825),
    (Seen::UncalledTaken(Unpack), 1250),
    (Seen::UncalledTaken(Check), 1100),
    (Seen::UncalledTaken(ConflictCounts), 1100),
    (Seen::UncalledTaken(Snps), 1000),
    (Seen::UncalledTaken(Fragments), 1000),
    (Seen::UncalledTaken(Corrections), 1050),
    (Seen::FoundUncalled, 1100),
    (Seen::UncalledRoundTrip, 280),
];

/// What must have been seen of graded tables, over all kinds: C's answers and what tells weights from the number of calls; round
/// trips; wrong numbers of grades.
const GRADED: [(Seen, usize); 18] = [
    (Seen::Graded, 6900),
    (Seen::GradedCorrected(Yes), 2850),
    (Seen::GradedCorrected(No), 3400),
    (Seen::GradedLarge, 550),
    (Seen::LargeTotal, 4),
    (Seen::MoreCalls, 755),
    (Seen::OtherSides, 860),
    (Seen::OtherLetters, 650),
    (Seen::TieOfGrades, 200),
    (Seen::TieOfNumbers, 240),
    (Seen::GradedTableRoundTrip, 6700),
    (Seen::GradedCellsRoundTrip, 3100),
    (Seen::FoundGraded, 23000),
    (Seen::FoundOver, 330),
    (Seen::GradesLong(Unpack), 20000),
    (Seen::GradesLong(Pack), 21500),
    (Seen::GradesShort(Unpack), 32500),
    (Seen::GradesShort(Pack), 18500),
];

/// Of each grade from 0 on, the least of C's answers that correct a call of it, and of those that depend on its weight.
const BY_GRADE: [[usize; 2]; 16] = [
    [1100, 1100],
    [1100, 1150],
    [595, 325],
    [415, 140],
    [390, 150],
    [335, 105],
    [250, 82],
    [210, 71],
    [200, 72],
    [165, 56],
    [145, 60],
    [130, 54],
    [105, 58],
    [98, 50],
    [74, 51],
    [450, 28],
];

/// The least of C's answers that would be others by other weights.
const NOT_BY: [(&str, usize); 7] = [
    ("1 for each grade", 1250),
    ("0 for grade 0", 1000),
    ("the grade", 1250),
    ("the grade and 1", 525),
    ("the fewest calls among equals", 160),
    ("of the record before", 1500),
    ("from the last record on", 1450),
];

/// Of grades beside the rules, over all kinds, the least of: acceptances of a grade over 0, and of the highest; refusals 5 for the
/// lowest byte that is no grade, for a grade alone, and for a cell of a record with a grade over 0; and by the rules of records
/// (`RULES_OF_RECORDS`) refusals of a record with a grade over 15 that breaks another one too, refusals 5 where a later record
/// breaks one, and refusals by one of a record before the first with such a grade.
struct Grades {
    service: Service,
    alone: [usize; 5],
    beside: [usize; 8],
    before: [usize; 8],
    after: [usize; 8],
}

const GRADES: [Grades; 7] = [
    grades(
        Unpack,
        [27500, 10000, 480, 800, 470],
        [195, 73, 65, 70, 0, 81, 99, 0],
        [160, 21, 32, 23, 0, 93, 31, 0],
        [260, 66, 61, 63, 0, 51, 20, 0],
    ),
    grades(
        Pack,
        [3550, 1450, 510, 1000, 0],
        [24, 0, 190, 0, 0, 100, 115, 325],
        [0, 0, 60, 0, 0, 50, 45, 32],
        [5, 0, 53, 0, 0, 38, 47, 100],
    ),
    grades(
        Check,
        [26500, 9750, 460, 770, 460],
        [185, 71, 63, 69, 0, 81, 93, 0],
        [160, 20, 32, 23, 0, 91, 27, 0],
        [260, 61, 59, 62, 0, 50, 9, 0],
    ),
    grades(
        ConflictCounts,
        [26500, 9750, 465, 770, 460],
        [190, 71, 63, 67, 0, 79, 96, 0],
        [160, 20, 32, 23, 0, 90, 27, 0],
        [260, 61, 60, 62, 0, 50, 9, 0],
    ),
    grades(
        Snps,
        [10500, 4400, 345, 430, 385],
        [135, 50, 46, 43, 120, 44, 60, 0],
        [100, 8, 9, 5, 82, 55, 9, 0],
        [220, 43, 51, 50, 550, 44, 5, 0],
    ),
    grades(
        Fragments,
        [10500, 4400, 350, 430, 385],
        [135, 50, 47, 43, 120, 44, 60, 0],
        [100, 8, 9, 5, 82, 55, 9, 0],
        [225, 43, 50, 51, 545, 43, 5, 0],
    ),
    grades(
        Corrections,
        [24000, 8750, 465, 770, 460],
        [190, 70, 64, 69, 0, 80, 93, 0],
        [160, 21, 32, 22, 0, 91, 27, 0],
        [260, 61, 59, 62, 0, 49, 9, 0],
    ),
];

const fn grades(
    service: Service,
    alone: [usize; 5],
    beside: [usize; 8],
    before: [usize; 8],
    after: [usize; 8],
) -> Grades {
    Grades { service, alone, beside, before, after }
}

/// Of each comparison that is not the order of records: the least of the refusals 13 that it misses, and of the acceptances
/// that it would refuse, of every service on a table, and of pack.
pub struct OtherOrder {
    pub name: &'static str,
    pub of_tables: [usize; 2],
    pub of_pack: [usize; 2],
}

pub const OTHER_ORDERS: [OtherOrder; 15] = [
    other_order("none", [2400, 0], [1350, 0]),
    other_order("by start alone", [1050, 0], [750, 0]),
    other_order("by start and tag, both", [1800, 0], [1050, 0]),
    other_order("by the highest byte of tags", [750, 0], [520, 0]),
    other_order("with record 0", [1150, 0], [650, 0]),
    other_order("of fragments with calls", [380, 0], [0, 0]),
    other_order("without calls by start alone", [150, 0], [0, 0]),
    other_order("by start or tag", [0, 12000], [0, 3700]),
    other_order("by starts that differ", [0, 13500], [0, 4600]),
    other_order("by tag alone", [740, 12000], [310, 3700]),
    other_order("by the lowest byte of tags", [620, 6100], [455, 2100]),
    other_order("by the bytes of tags in turn", [440, 6200], [305, 2250]),
    other_order("by tags with a sign", [65, 1500], [45, 610]),
    other_order("without calls last", [330, 810], [0, 0]),
    other_order("without calls by tag alone", [160, 310], [0, 0]),
];

const fn other_order(name: &'static str, of_tables: [usize; 2], of_pack: [usize; 2]) -> OtherOrder {
    OtherOrder { name, of_tables, of_pack }
}

/// What each method must have settled, over all kinds.
const SETTLED: [(&str, usize); 11] = [
    ("check by every choice", 9500),
    ("check by flooding", 10500),
    ("S by every choice", 3100),
    ("S by branching", 4000),
    ("S by pairs of columns", 4000),
    ("F by every choice", 3100),
    ("F by branching", 4000),
    ("F by pairs of haplotypes", 4000),
    ("C by every choice", 8600),
    ("C by branching", 9500),
    ("C by open fragments", 9500),
];

/// What the listings must have seen.
const LISTED: [(Seen, usize); 3] =
    [(Seen::ListingInPieces, 950), (Seen::GappedListing, 6500), (Seen::GradedListing, 6300)];

#[derive(Clone, Copy, Debug)]
pub enum Number {
    Exactly(usize),
    AtLeast(usize),
}

/// How often something must have been seen, of one kind of tables or over all.
pub struct Demand {
    pub kind: Option<&'static str>,
    pub seen: Seen,
    pub number: Number,
}

/// Fails unless the tallies have these kinds and meet every demand.
pub fn complete(tallies: &[Tally], with_listing: bool) -> Result<(), String> {
    let names: Vec<&str> = tallies.iter().map(|tally| tally.kind).collect();
    crate::agree("the kinds of tables", &kind_names(), &names)?;
    let all = sum(tallies);
    for Demand { kind, seen, number } in demands(with_listing) {
        let named = |name| tallies.iter().find(|tally| tally.kind == name).ok_or(format!("no kind {name}"));
        let tally = kind.map_or(Ok(&all), named)?;
        let count = tally.counts.of(seen);
        if !number.is_met(count) {
            return Err(format!("{}: {count} times {seen:?}, expected {number:?}", tally.kind));
        }
    }
    Ok(())
}

pub fn kind_names() -> Vec<&'static str> {
    KINDS.iter().map(|kind| kind.name).collect()
}

pub fn demands(with_listing: bool) -> Vec<Demand> {
    let of_kinds = KINDS.iter().flat_map(|kind| kind.demands(with_listing));
    let of_mates =
        OF_MATES.map(|(kind, seen, least)| Demand { kind: Some(kind), seen, number: Number::AtLeast(least) });
    let returned = REPLIES.iter().flat_map(Replies::leasts);
    let settled = SETTLED.map(|(name, least)| (Seen::By(name), least));
    let listed = LISTED.into_iter().filter(|_| with_listing);
    let orders = ORDERS.iter().flat_map(Order::leasts).chain([(Seen::OrderBeforeDepth, BEFORE_DEPTH)]);
    let other_orders = OTHER_ORDERS.iter().flat_map(OtherOrder::leasts);
    let called = CALLED.into_iter().chain(GAPPED).chain(WITHOUT_CALLS).chain(GRADED);
    let of_grades = GRADES.iter().flat_map(Grades::leasts).chain(weights());
    let of_all = returned.chain(called).chain(orders).chain(other_orders).chain(of_grades).chain(settled).chain(listed);
    let never = REPLIES.iter().filter(|replies| replies.service != Find).flat_map(Replies::never);
    of_kinds
        .chain(of_mates)
        .chain(of_all.map(|(seen, least)| Demand { kind: None, seen, number: Number::AtLeast(least) }))
        .chain(never.map(|seen| Demand { kind: None, seen, number: Number::Exactly(0) }))
        .collect()
}

impl Kind {
    fn demands(&self, with_listing: bool) -> Vec<Demand> {
        let listings = if with_listing { self.tables } else { 0 };
        let calls = CALLS.map(|(service, calls)| (Seen::Call(service), calls * self.tables));
        let exact = [(Seen::Table, self.tables), (Seen::Listing, listings)].into_iter().chain(calls);
        let verdicts = [
            (Seen::Listed(Yes), self.yes),
            (Seen::Listed(No), self.no),
            (Seen::TooDeep, self.too_deep),
            (Seen::Gapped, self.gapped),
        ];
        let refused = RULES.into_iter().zip(self.refused).map(|(rule, least)| (Seen::Listed(Refused(rule)), least));
        let least = verdicts.into_iter().chain(refused).filter(|&(_, least)| least > 0);
        let exact = exact.map(|(seen, count)| (seen, Number::Exactly(count)));
        let all = exact.chain(least.map(|(seen, least)| (seen, Number::AtLeast(least))));
        all.map(|(seen, number)| Demand { kind: Some(self.name), seen, number }).collect()
    }
}

impl Replies {
    fn leasts(&self) -> impl Iterator<Item = (Seen, usize)> + '_ {
        let refused = self.refusals().map(|(rule, least)| (Refused(rule), least));
        let all = self.accepted.iter().copied().chain(refused).filter(|&(_, least)| least > 0);
        all.map(|(verdict, least)| (Seen::Returned(self.service, verdict), least))
    }

    /// The refusals that a service does not have, though its calls return some.
    fn never(&self) -> impl Iterator<Item = Seen> + '_ {
        let none = self.refusals().filter(|&(_, least)| least == 0);
        none.map(|(rule, _)| Seen::Returned(self.service, Refused(rule)))
    }

    fn refusals(&self) -> impl Iterator<Item = (usize, usize)> {
        REFUSALS.into_iter().zip(self.refused)
    }
}

impl Order {
    fn leasts(&self) -> Vec<(Seen, usize)> {
        let service = self.service;
        let turns = [Seen::OrderAlone, Seen::OrderBeforeFault, Seen::FirstOutOfOrder, Seen::FaultBeforeOrder]
            .map(|of| of(service));
        let places = PLACES.map(|place| Seen::OutOfOrderFrom(service, place));
        let faults = [4, 5, 6, 7, 8, 9].map(|rule| Seen::FaultOutOfOrder(service, rule));
        let turns = turns.into_iter().zip(self.turns);
        let all = turns.chain(places.into_iter().zip(self.places)).chain(faults.into_iter().zip(self.faults));
        all.filter(|&(_, least)| least > 0).collect()
    }
}

impl Grades {
    fn leasts(&self) -> Vec<(Seen, usize)> {
        let service = self.service;
        let alone = [Seen::GradeTaken, Seen::HighestTaken, Seen::LowestRefused, Seen::OverAlone, Seen::StrayCellGraded]
            .map(|of| of(service));
        let by_rule = |of: fn(Service, usize) -> Seen, leasts: [usize; 8]| {
            RULES_OF_RECORDS.into_iter().map(move |rule| of(service, rule)).zip(leasts)
        };
        let beside = by_rule(Seen::OverBeside, self.beside);
        let others = by_rule(Seen::OverBeforeLater, self.before).chain(by_rule(Seen::BeforeOver, self.after));
        let all = alone.into_iter().zip(self.alone).chain(beside).chain(others);
        all.filter(|&(_, least)| least > 0).collect()
    }
}

/// What each grade and all other weights must have shown of C.
fn weights() -> impl Iterator<Item = (Seen, usize)> {
    let by_grade = (0..).zip(BY_GRADE).flat_map(|(grade, [corrected, depending])| {
        [(Seen::CorrectedGrade(grade), corrected), (Seen::DependsOn(grade), depending)]
    });
    by_grade.chain(NOT_BY.map(|(name, least)| (Seen::NotBy(name), least)))
}

impl OtherOrder {
    fn leasts(&self) -> Vec<(Seen, usize)> {
        let of = |service, [missed, made_up]: [usize; 2]| {
            [(Seen::Missed(service, self.name), missed), (Seen::MadeUp(service, self.name), made_up)]
        };
        let tables = Service::ON_TABLES.into_iter().flat_map(|service| of(service, self.of_tables));
        let all = tables.chain(of(Pack, self.of_pack));
        all.filter(|&(_, least)| least > 0).collect()
    }
}

impl Number {
    fn is_met(self, count: usize) -> bool {
        match self {
            Number::Exactly(wanted) => count == wanted,
            Number::AtLeast(least) => count >= least,
        }
    }

    pub fn just_met(self) -> usize {
        match self {
            Number::Exactly(count) | Number::AtLeast(count) => count,
        }
    }

    pub fn just_missed(self) -> Vec<usize> {
        match self {
            Number::Exactly(count) => count.checked_sub(1).into_iter().chain([count + 1]).collect(),
            Number::AtLeast(least) => vec![least - 1],
        }
    }
}
