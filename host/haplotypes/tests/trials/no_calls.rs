//! Rule 17, of pack alone: a fragment without calls. Every other service takes its record, as stored tables have it; and
//! what unpack gives of such a table pack refuses. `order` tries the rule among the others, and `records` cells over 2 in
//! a fragment without calls.

use crate::calls::Service::Pack;
use crate::calls::{Trials, OF_TABLES};
use crate::expected::{Each, Expected};
use crate::fixtures::{lone, padded, Fixture};

/// Pack refuses the fragment at the place, and every other service takes the table.
fn run_stored(trials: &mut Trials, name: &str, given: &Fixture, place: usize, expected: &Each) {
    trials.run(name, Pack, given, &Expected::refused(17, place));
    for service in OF_TABLES {
        trials.run(name, service, given, expected.of(service));
    }
}

/// A name, fragments of As, and the first without calls.
type Stored = (&'static str, &'static [&'static str], usize);

const STORED: [Stored; 11] = [
    ("alone", &["---"], 0),
    ("first", &["---", "AAA", "AAA"], 0),
    ("between", &["AAA", "---", "AAA"], 1),
    ("last", &["AAA", "AAA", "---"], 2),
    ("after a call on the first column", &["A--", "---"], 1),
    ("before a call on the last column", &["---", "--A"], 0),
    ("before a call on the first column", &["---", "A--"], 0),
    ("two, first and last", &["---", "AAA", "---"], 0),
    ("two after another", &["AAA", "---", "---"], 1),
    ("two with another between", &["AAA", "---", "AAA", "---"], 1),
    ("all", &["---", "---", "---"], 0),
];

#[test]
fn fragments_without_calls_among_others() {
    let mut trials = Trials::default();
    for (name, fragments, place) in STORED {
        let given = Fixture::of(fragments);
        run_stored(&mut trials, name, &given, place, &Each::of_as_alone(&given));
    }
}

/// No columns, too, have no room for a call; and no number of columns without calls is out of frame.
#[test]
fn nothing_but_fragments_without_calls() {
    let mut trials = Trials::default();
    for n in [0, 1, 96, 97, 128] {
        for m in [1, 2, 128] {
            let given = Fixture::of(&vec![padded("", n); m]);
            run_stored(&mut trials, &format!("{m} fragments, {n} columns"), &given, 0, &Each::of_as_alone(&given));
        }
    }
}

/// 128 fragments that call column 0, but for the one at a place.
fn none_at(place: usize) -> Fixture {
    let mut fragments = vec![lone('A', 0, 128); 128];
    fragments[place] = padded("", 128);
    Fixture::of(&fragments)
}

#[test]
fn each_place() {
    let mut trials = Trials::default();
    for place in 0..128 {
        trials.run(&format!("at {place}"), Pack, &none_at(place), &Expected::refused(17, place));
    }
    for place in [0, 1, 63, 64, 126, 127] {
        let given = none_at(place);
        run_stored(&mut trials, &format!("at {place}"), &given, place, &Each::of_as_alone(&given).too_deep(0));
    }
}

/// One call on any column will do, and is of its own fragment alone.
#[test]
fn one_call() {
    let mut trials = Trials::default();
    for n in [1, 2, 3, 64, 65, 128] {
        for (column, letter) in (0..n).flat_map(|column| [(column, 'A'), (column, 'B')]) {
            let (call, none) = (lone(letter, column, n), padded("", n));
            for fragments in [vec![&call], vec![&call; 3]] {
                let given = Fixture::of(&fragments);
                trials.run(&format!("{fragments:?}"), Pack, &given, &Expected::packed(&given));
            }
            for (fragments, place) in [([&call, &none], 1), ([&none, &call], 0)] {
                let given = Fixture::of(&fragments);
                trials.run(&format!("{fragments:?}"), Pack, &given, &Expected::refused(17, place));
            }
        }
    }
}
