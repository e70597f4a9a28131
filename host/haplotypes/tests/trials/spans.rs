//! How far a fragment may reach: 96 columns, and not past the last one. Two mates reach as far as all between them.

use crate::calls::{Service, Trials, OF_TABLES, SERVICES};
use crate::expected::{Each, Expected};
use crate::fixtures::{lone, mates, Fixture};

/// So many As from a column on, and holes in the other columns up to n.
fn run_of_as(start: usize, span: usize, n: usize) -> String {
    (0..n).map(|c| if (start..start + span).contains(&c) { 'A' } else { '-' }).collect()
}

/// A at the first of so many columns and B at the last, and holes in the other columns up to n.
fn two_calls(start: usize, span: usize, n: usize) -> String {
    mates([('A', start), ('B', start + span - 1)], n)
}

/// A fragment alone is on side 1.
fn each_alone(letters: &str) -> (Fixture, Each) {
    let (given, n) = (Fixture::of(&[letters]), letters.len());
    let fields = format!("{} {letters} {} 1 0", "1".repeat(n), "-".repeat(n));
    let each = Each::of_conflict_free(&given, &fields);
    (given, each)
}

#[test]
fn spans_up_to_96() {
    let mut trials = Trials::default();
    for (start, span, n) in [(0, 95, 95), (0, 96, 96), (0, 96, 97), (1, 96, 97), (0, 96, 128), (32, 96, 128)] {
        let name = format!("span {span} from {start} in {n} columns");
        let (given, each) = each_alone(&run_of_as(start, span, n));
        trials.run_each(&name, &given, &each);
        let (given, each) = each_alone(&two_calls(start, span, n));
        trials.run_each(&format!("{name}, two calls"), &given, &each.gapped(0));
    }
}

/// Pack's rule 4 too: its calls reach over more than 96 columns.
#[test]
fn spans_over_96() {
    let mut trials = Trials::default();
    for (start, span, n) in [(0, 97, 97), (0, 97, 128), (31, 97, 128), (0, 128, 128)] {
        let short = lone('A', 0, n);
        for letters in [run_of_as(start, span, n), two_calls(start, span, n)] {
            for service in SERVICES {
                let name = format!("span {span} from {start} in {n} columns");
                trials.run(&name, service, &Fixture::of(&[&letters]), &Expected::refused(4, 0));
                trials.run(&name, service, &Fixture::of(&[&short, &short, &letters]), &Expected::refused(4, 2));
            }
        }
    }
}

/// start + span = n, and with a column fewer n + 1.
#[test]
fn spans_to_the_last_column() {
    let mut trials = Trials::default();
    for (start, span) in [(0, 1), (0, 2), (1, 1), (1, 2), (127, 1), (64, 64), (32, 96), (0, 96)] {
        let n = start + span;
        let letters = run_of_as(start, span, n);
        let (given, each) = each_alone(&letters);
        trials.run_each(&format!("from {start} to {n}"), &given, &each);
        let holes = Fixture::of(&["-".repeat(n), letters]);
        for service in OF_TABLES {
            let name = format!("from {start} to {n}, a column fewer");
            trials.run(&name, service, &given.clone().in_columns(n - 1), &Expected::refused(4, 0));
            trials.run(&name, service, &holes.clone().in_columns(n - 1), &Expected::refused(4, 1));
        }
    }
}

/// With no columns, a fragment has no room for a call.
#[test]
fn calls_and_no_columns() {
    let mut trials = Trials::default();
    let given = Fixture::of(&["A", "A"]).in_columns(0);
    for service in OF_TABLES {
        trials.run("A, A, no columns", service, &given, &Expected::refused(4, 0));
    }
    trials.run("A, A, no columns", Service::Pack, &given, &Expected::refused(1, 0));
}
