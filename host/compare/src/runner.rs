//! All tables of all kinds on every processor, and the report.

use crate::compare;
use crate::generate::{kinds, Kind};
use crate::grades::{self, MOST_GRADE};
use crate::listing::{hexadecimal, rows, MOST_BYTES};
use crate::methods::{self, CHECK};
use crate::order::OTHERS;
use crate::record::{column_count, Matrix};
use crate::rng::Rng;
use crate::rules::{table_fault, RULES_OF_RECORDS};
use crate::seen::{Counts, Seen, Verdict, PLACES};
use crate::service::Service;
use crate::uncalled::{self, Uncalled};
use std::fmt::Display;
use std::path::Path;
use std::sync::atomic::{AtomicBool, AtomicUsize, Ordering};
use std::sync::Mutex;
use std::time::{Duration, Instant};

/// What was seen of a kind of tables.
#[derive(Clone)]
pub struct Tally {
    pub kind: &'static str,
    pub counts: Counts,
    time: Duration,
}

impl Tally {
    pub fn new(kind: &'static str) -> Tally {
        Tally { kind, counts: Counts::default(), time: Duration::ZERO }
    }
}

/// What was seen of all kinds.
pub fn sum(tallies: &[Tally]) -> Tally {
    tallies.iter().fold(Tally::new("all"), |mut sum, tally| {
        sum.counts.add_all(&tally.counts);
        sum.time += tally.time;
        sum
    })
}

struct Run<'a> {
    seed: u64,
    listing: Option<&'a Path>,
    kinds: Vec<Kind>,
    /// the kind of each table
    tables: Vec<usize>,
    next: AtomicUsize,
    failed: AtomicBool,
    tallies: Mutex<Vec<Tally>>,
    difference: Mutex<Option<String>>,
}

/// Compares every table; the tallies by kind, or the first difference.
pub fn run(seed: u64, listing: Option<&Path>) -> Result<Vec<Tally>, String> {
    let kinds = kinds();
    let tables: Vec<usize> = (0..kinds.len()).flat_map(|kind| vec![kind; kinds[kind].tables]).collect();
    let run = Run {
        seed,
        listing,
        tallies: Mutex::new(kinds.iter().map(|kind| Tally::new(kind.name)).collect()),
        kinds,
        tables,
        next: AtomicUsize::new(0),
        failed: AtomicBool::new(false),
        difference: Mutex::new(None),
    };
    let threads = std::thread::available_parallelism().map_or(1, |count| count.get());
    std::thread::scope(|scope| {
        for _ in 0..threads {
            scope.spawn(|| run.take_tables());
        }
    });
    if let Some(difference) = run.difference.into_inner().expect("no thread panicked") {
        return Err(difference);
    }
    let tallies = run.tallies.into_inner().expect("no thread panicked");
    print_tallies(&tallies);
    Ok(tallies)
}

impl Run<'_> {
    fn take_tables(&self) {
        while !self.failed.load(Ordering::Relaxed) {
            // in the order of the kinds: a fault then shows on a small table, if it can
            let index = self.next.fetch_add(1, Ordering::Relaxed);
            if index >= self.tables.len() {
                return;
            }
            self.compare(index);
        }
    }

    fn compare(&self, index: usize) {
        let kind = &self.kinds[self.tables[index]];
        let mut rng = Rng::for_table(self.seed, index);
        let bytes = kind.table(&mut rng);
        let begun = Instant::now();
        match compare::table(&bytes, self.listing, &mut rng) {
            Ok(counts) => {
                let tally = &mut self.tallies.lock().expect("no thread panicked")[self.tables[index]];
                tally.counts.add_all(&counts);
                tally.time += begun.elapsed();
            }
            Err(difference) => {
                self.failed.store(true, Ordering::Relaxed);
                let head = format!("table {index} of seed {}, {}: {difference}", self.seed, kind.name);
                let mut first = self.difference.lock().expect("no thread panicked");
                first.get_or_insert(format!("{head}\n{}", shown(&bytes)));
            }
        }
    }
}

/// A table in hexadecimal, and as letters if it keeps the rules.
fn shown(bytes: &[u8]) -> String {
    let read = &bytes[..bytes.len().min(MOST_BYTES)];
    let n = column_count(read);
    let letters = match table_fault(n, read) {
        None => rows(&Matrix::read(read, n)),
        Some(refusal) => format!("no letters: rule {} at {}\n", refusal.number, refusal.place),
    };
    format!("{} bytes:\n{}{letters}", bytes.len(), hexadecimal(bytes))
}

fn print_tallies(tallies: &[Tally]) {
    let heads = ["tables", "yes", "no", "gapped", "C deep", "choices", "seconds"].map(|head| format!("{head:>8}"));
    println!("{:<20} {}  refused by rule:tables", "kind", heads.join(" "));
    tallies.iter().for_each(print_tally);
    let all = sum(tallies);
    print_tally(&all);
    Service::ALL.iter().for_each(|&service| println!("{}: {}", service.name(), returned(&all.counts, service)));
    let [tables, cells] = [Seen::TableRoundTrip, Seen::CellsRoundTrip].map(|seen| all.counts.of(seen));
    let gapped = [Seen::GappedTableRoundTrip, Seen::GappedCellsRoundTrip].map(|seen| all.counts.of(seen));
    println!("round trips: tables {tables}, gapped {}; cells {cells}, gapped {}", gapped[0], gapped[1]);
    let [over, across] = [Seen::CountOver64, Seen::ConflictsAcross64].map(|seen| all.counts.of(seen));
    println!("two fragments conflict on over 64 columns: tables {over}; on columns below 64 and from 64 on: {across}");
    let apart = [Seen::SharingApart, Seen::RemovedApart, Seen::CorrectedApart];
    let [sharing, removed, corrected] = apart.map(|seen| all.counts.of(seen));
    println!("two fragments in two blocks share a kept column: tables {sharing}; conflict on a removed one: {removed}");
    println!("two fragments in two blocks conflicted before correction: tables {corrected}");
    print_gapped(&all.counts);
    print_order(&all.counts);
    print_uncalled(&all.counts);
    print_grades(&all.counts);
    let settled = methods::names().into_iter().map(|name| format!("{name} {}", all.counts.of(Seen::By(name))));
    println!("settled: {}", settled.collect::<Vec<_>>().join(", "));
}

/// What was seen of tables with holes between calls.
fn print_gapped(counts: &Counts) {
    let named = [
        ("listings", Seen::GappedListing),
        ("not error-free, though every two columns are", Seen::BeyondPairs),
        ("12 by stretches alone", Seen::DeepByStretchesAlone),
        ("12 at a lower column than by calls", Seen::DeepBelowCalls),
        ("C corrects nothing", Seen::GappedCorrected(Verdict::Yes)),
        ("C corrects", Seen::GappedCorrected(Verdict::No)),
        ("check and C by every choice", Seen::GappedByEveryChoice),
        ("C without every choice", Seen::GappedLarge),
        ("a covered column without calls", Seen::CoversUncalled),
        ("two calls on 96 columns", Seen::FarthestMates),
    ];
    let shown = named.map(|(name, seen)| format!("{name} {}", counts.of(seen)));
    println!("gapped tables: {}", shown.join("; "));
    for service in [Service::Snps, Service::Fragments] {
        let [alone, before] = [Seen::GapAlone(service), Seen::GapBeforeFault(service)].map(|seen| counts.of(seen));
        println!("{} refuses by 8 where check accepts: calls {alone}; where check refuses: {before}", service.name());
    }
}

/// What was seen of records out of order. Of a comparison that is not this order it is the least of all services on tables.
fn print_order(counts: &Counts) {
    for service in Service::ALL.into_iter().filter(|&service| service != Service::Find) {
        let named = [
            ("alone", Seen::OrderAlone(service)),
            ("before a later fault", Seen::OrderBeforeFault(service)),
            ("of the first of several", Seen::FirstOutOfOrder(service)),
            ("after a fault", Seen::FaultBeforeOrder(service)),
        ];
        let turns = named.map(|(name, seen)| format!("{name} {}", counts.of(seen))).join(", ");
        let places = numbered(counts, PLACES, |place| Seen::OutOfOrderFrom(service, place));
        let faults = numbered(counts, RULES_OF_RECORDS, |rule| Seen::FaultOutOfOrder(service, rule));
        println!("{} and order: {turns}; from place {places}; refused by rule {faults}", service.name());
    }
    println!("C's 13 where a column is too deep: calls {}", counts.of(Seen::OrderBeforeDepth));
    for other in &OTHERS {
        let least = |of: fn(Service, &'static str) -> Seen| {
            let tables = Service::ON_TABLES.map(|service| counts.of(of(service, other.name)));
            let pack = counts.of(of(Service::Pack, other.name));
            format!("{} and {pack}", tables.into_iter().min().unwrap_or(0))
        };
        let (missed, made_up) = (least(Seen::Missed), least(Seen::MadeUp));
        println!("order {}: 13 missed on tables and by pack {missed}; made up {made_up}", other.name);
    }
}

/// What was seen of fragments without calls.
fn print_uncalled(counts: &Counts) {
    let which =
        Uncalled::ALL.map(|uncalled| format!("{uncalled:?} {}", counts.of(Seen::Uncalled(uncalled)))).join(", ");
    println!("pack refuses by 17: {which}; from place {}", numbered(counts, PLACES, Seen::UncalledFrom));
    let [alone, unknown] = [Seen::UncalledAlone, Seen::UnknownUncalled].map(|seen| counts.of(seen));
    let rules = |of: fn(usize) -> Seen| numbered(counts, RULES_OF_RECORDS, of);
    let (same, later) = (rules(Seen::UncalledBefore), rules(Seen::UncalledBeforeLater));
    println!("17 alone {alone}, before a rule of the same fragment {same}, of a later one {later}");
    let earlier = rules(Seen::FaultBeforeUncalled);
    println!("17 after 6 of the same fragment {unknown}, after a rule of an earlier one {earlier}");
    let packed = uncalled::OTHERS.each_ref().map(|other| (other.name, counts.of(Seen::PackedWithout(other.name))));
    println!("pack takes a fragment without {}", packed.map(|(name, count)| format!("{name} {count}")).join(", "));
    let taken =
        Service::ON_TABLES.map(|service| format!("{} {}", service.name(), counts.of(Seen::UncalledTaken(service))));
    let [found, unpacked] = [Seen::FoundUncalled, Seen::UncalledRoundTrip].map(|seen| counts.of(seen));
    println!("records without calls: {}, find {found}; unpacked and refused by pack {unpacked}", taken.join(", "));
}

/// What was seen of grades.
fn print_grades(counts: &Counts) {
    let named = [
        ("tables", Seen::Graded),
        ("listings with C's answer", Seen::GradedListing),
        ("C corrects nothing", Seen::GradedCorrected(Verdict::Yes)),
        ("C corrects", Seen::GradedCorrected(Verdict::No)),
        ("C without every choice", Seen::GradedLarge),
        ("more calls than the fewest", Seen::MoreCalls),
        ("other sides", Seen::OtherSides),
        ("other letters", Seen::OtherLetters),
        ("equal weights of other grades", Seen::TieOfGrades),
        ("of another number of calls", Seen::TieOfNumbers),
        ("a total over half of the largest", Seen::LargeTotal),
        ("round trips of tables", Seen::GradedTableRoundTrip),
        ("of cells", Seen::GradedCellsRoundTrip),
        ("found", Seen::FoundGraded),
        ("found over 15", Seen::FoundOver),
    ];
    println!("graded: {}", named.map(|(name, seen)| format!("{name} {}", counts.of(seen))).join("; "));
    let by_grade = |of: fn(u8) -> Seen| numbered(counts, 0..=MOST_GRADE, of);
    println!("C corrects a call of grade {}", by_grade(Seen::CorrectedGrade));
    println!("C corrects something else if a grade weighs 1 more or less: {}", by_grade(Seen::DependsOn));
    let others =
        grades::OTHERS.each_ref().map(|other| format!("{} {}", other.name, counts.of(Seen::NotBy(other.name))));
    println!("C corrects something else by other weights: {}", others.join(", "));
    for service in Service::ALL.into_iter().filter(|&service| service != Service::Find) {
        let named = [
            ("taken", Seen::GradeTaken(service)),
            ("15 taken", Seen::HighestTaken(service)),
            ("16 refused", Seen::LowestRefused(service)),
            ("refused alone", Seen::OverAlone(service)),
            ("a cell after the span beside a grade", Seen::StrayCellGraded(service)),
            ("too many", Seen::GradesLong(service)),
            ("too few", Seen::GradesShort(service)),
        ];
        let shown = named.map(|(name, seen)| format!("{name} {}", counts.of(seen))).join(", ");
        let of = |of: fn(Service, usize) -> Seen| numbered(counts, RULES_OF_RECORDS, |rule| of(service, rule));
        let (same, later, earlier) = (of(Seen::OverBeside), of(Seen::OverBeforeLater), of(Seen::BeforeOver));
        println!(
            "{} and grades: {shown}; over 15 beside rule {same}, before a later {later}, after an earlier {earlier}",
            service.name()
        );
    }
}

/// How often each of some numbers was seen, where it was, as number:times.
fn numbered<T: Copy + Display>(
    counts: &Counts,
    numbers: impl IntoIterator<Item = T>,
    of: impl Fn(T) -> Seen,
) -> String {
    let all = numbers.into_iter().map(|number| (number, counts.of(of(number)))).filter(|&(_, count)| count > 0);
    all.map(|(number, count)| format!("{number}:{count}")).collect::<Vec<_>>().join(" ")
}

/// What the calls of a service returned, and how often.
fn returned(counts: &Counts, service: Service) -> String {
    let verdicts = [Verdict::Yes, Verdict::No, Verdict::Accepted, Verdict::Only, Verdict::First, Verdict::Absent];
    let mut named = verdicts.map(|verdict| (format!("{verdict:?}"), Seen::Returned(service, verdict))).to_vec();
    named.push(("with over-long work".to_string(), Seen::LongWork(service)));
    if service == Service::Find {
        named.push(("in a ragged table".to_string(), Seen::FoundInRagged));
        named.push(("at 128 or later".to_string(), Seen::FoundPastMost));
    }
    let seen = named.into_iter().map(|(name, seen)| (name.to_lowercase(), counts.of(seen)));
    let mut parts: Vec<String> =
        seen.filter(|&(_, count)| count > 0).map(|(name, count)| format!("{count} {name}")).collect();
    let refusals = counts.refusals(|verdict| Seen::Returned(service, verdict));
    parts.extend((!refusals.is_empty()).then(|| format!("refused {refusals}")));
    parts.join(", ")
}

fn print_tally(tally: &Tally) {
    let yes_no = [Verdict::Yes, Verdict::No].map(Seen::Listed);
    let columns = [Seen::Table, yes_no[0], yes_no[1], Seen::Gapped, Seen::TooDeep, Seen::By(CHECK[0].name)];
    let numbers = columns.map(|seen| format!("{:>8}", tally.counts.of(seen))).join(" ");
    let refusals = tally.counts.refusals(Seen::Listed);
    println!("{}", format!("{:<20} {numbers} {:>8.1}  {refusals}", tally.kind, tally.time.as_secs_f64()).trim_end());
}
