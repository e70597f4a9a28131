//! Tables with records out of order, which rule 13 refuses, at one place and at several, alone and beside other faults. Pack's
//! cells are put out of order in the same ways.

use super::faulty::{base_rows, fault, fault_of_record};
use super::large::full_rows;
use super::mates::gapped_rows;
use super::rows::{records, tagged, Fragment, Row};
use super::small::{deep_rows, SMALL};
use crate::order::{falls, keys_of_table};
use crate::record::{set_tag, tag, RECORD};
use crate::rng::Rng;
use crate::rules::MOST_FRAGMENTS;

/// Ways to put fragments out of order, of which there is one at least.
const WAYS: [fn(&mut Rng, &mut Vec<Fragment>); 8] = [
    |rng, fragments| exchange_neighbours(rng, fragments),
    |rng, fragments| exchange_neighbours(rng, fragments),
    move_one,
    |rng, fragments| rng.shuffle(fragments),
    |_, fragments| fragments.reverse(),
    lower_tag_at_one_start,
    lower_tag_at_one_start,
    without_calls,
];

pub fn table(rng: &mut Rng) -> Vec<u8> {
    records(&fragments(rng))
}

/// With other faults, many of them in the first record that is out of order: the order of the rules then shows.
pub fn with_faults(rng: &mut Rng) -> Vec<u8> {
    let mut bytes = records(&fragments(rng));
    for _ in 0..rng.between(1, 2) {
        let first = falls(&keys_of_table(&bytes)).next();
        match first {
            Some(place) if rng.chance(65) => fault_out_of_order(rng, &mut bytes, place),
            _ => fault(rng, &mut bytes, 5),
        }
    }
    bytes
}

/// Fragments out of order in one way, or in several.
fn fragments(rng: &mut Rng) -> Vec<Fragment> {
    let rows = rows(rng);
    let mut fragments = tagged(rng, rows);
    disorder(rng, &mut fragments);
    fragments
}

/// At least one fragment, of tables of every size, gapped, and too deep for C.
fn rows(rng: &mut Rng) -> Vec<Row> {
    match rng.below(10) {
        0..=3 => base_rows(rng),
        4..=5 => gapped_rows(rng, base_rows),
        6 => deep_rows(rng, SMALL),
        7 => gapped_rows(rng, |rng| deep_rows(rng, SMALL)),
        _ => {
            let mut rows = full_rows(rng);
            rows.truncate(rng.pick(&[rows.len(), rows.len(), 40]));
            rows
        }
    }
}

pub fn disorder(rng: &mut Rng, fragments: &mut Vec<Fragment>) {
    let ways = rng.pick(&[1, 1, 1, 2, 3]);
    for _ in 0..ways {
        rng.pick(&WAYS)(rng, fragments);
    }
}

/// A place below a bound, often the last.
fn place(rng: &mut Rng, bound: usize) -> usize {
    if rng.chance(30) {
        bound - 1
    } else {
        rng.below(bound)
    }
}

/// A start that falls, or a tag at one start.
fn exchange_neighbours(rng: &mut Rng, fragments: &mut [Fragment]) {
    if fragments.len() > 1 {
        let place = place(rng, fragments.len() - 1);
        fragments.swap(place, place + 1);
    }
}

/// A fragment too late comes before its predecessor, and before others; one too early makes the next come before it.
fn move_one(rng: &mut Rng, fragments: &mut Vec<Fragment>) {
    let one = fragments.remove(rng.below(fragments.len()));
    let place = rng.between(0, fragments.len());
    fragments.insert(place, one);
}

/// A fragment like another with a lower tag, after it.
fn lower_tag_at_one_start(rng: &mut Rng, fragments: &mut Vec<Fragment>) {
    let place = place(rng, fragments.len());
    let like = fragments[place].clone();
    let tag = lower(rng, like.tag);
    put_after(fragments, place, Fragment { tag, ..like });
}

/// A fragment without calls, after one that starts at column 0 and has a higher tag, or after one that starts elsewhere.
fn without_calls(rng: &mut Rng, fragments: &mut Vec<Fragment>) {
    let place = place(rng, fragments.len());
    let before = &fragments[place];
    let tag = if before.start == 0 { lower(rng, before.tag) } else { rng.next() as u32 };
    put_after(fragments, place, Fragment { start: 0, tag, cells: Vec::new(), grade: before.grade });
}

/// Where there is no room for more, the next one goes, or the first.
fn put_after(fragments: &mut Vec<Fragment>, place: usize, fragment: Fragment) {
    fragments.insert(place + 1, fragment);
    if fragments.len() > MOST_FRAGMENTS {
        fragments.remove(if place + 2 < fragments.len() { place + 2 } else { 0 });
    }
}

/// A lower tag than this one where there is one: by 1, by any number, or with a higher lowest byte.
fn lower(rng: &mut Rng, tag: u32) -> u32 {
    let low = tag as u8;
    match rng.below(3) {
        0 if tag > 0 => rng.below(tag as usize) as u32,
        1 if tag > 255 && low < 255 => ((tag >> 8) - 1) << 8 | rng.between(low as usize + 1, 255) as u32,
        _ => tag.saturating_sub(1),
    }
}

/// A fault in the record at a place: mostly it is still out of order then. It may get the tag of an earlier one.
fn fault_out_of_order(rng: &mut Rng, bytes: &mut [u8], place: usize) {
    let at = RECORD * place;
    if rng.chance(30) {
        let earlier = tag(&bytes[RECORD * rng.below(place)..]);
        set_tag(&mut bytes[at..], earlier);
    } else {
        fault_of_record(rng, &mut bytes[at..at + RECORD]);
    }
}
