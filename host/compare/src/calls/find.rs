//! Find, with tags that a table has once, several times or nowhere.

use super::{compared, expected};
use crate::grades::MOST_GRADE;
use crate::guarded::Guarded;
use crate::library::{Buffers, Call, Library};
use crate::listing::hexadecimal;
use crate::order::{falls, keys_of_table};
use crate::record::{grade, places_of, record, set_tag, span, tag, whole_records, RECORD};
use crate::rng::Rng;
use crate::rules::MOST_FRAGMENTS;
use crate::seen::{Counts, Seen, Verdict};
use crate::service::Service;

pub fn all(library: Library, table: &[u8], rng: &mut Rng, counts: &mut Counts) -> Result<(), String> {
    for (table, wanted) in questions(table, rng) {
        let lent = Buffers { table: Guarded::holding(&table, rng), ..Buffers::default() };
        let call = Call { service: Service::Find, number: wanted as usize, lent };
        let expected = expected::of_find(&call);
        let differs = |difference| format!("{difference}\nin the table\n{}", hexadecimal(&table));
        compared(library, call, expected, counts).map_err(differs)?;
        count(&table, wanted, counts);
    }
    Ok(())
}

/// Tables to look into, and the tags to look for.
fn questions(table: &[u8], rng: &mut Rng) -> [(Vec<u8>, u32); 6] {
    let any = rng.next() as u32;
    let tags: Vec<u32> = whole_records(table).map(tag).collect();
    let some = if tags.is_empty() { any } else { rng.pick(&tags) };
    let last = tags.last().copied().unwrap_or(any);
    [
        (table.to_vec(), some),
        (table.to_vec(), last),
        (table.to_vec(), any),
        (table.to_vec(), some ^ 1 << rng.below(32)),
        (with_part(table, any, rng), any),
        (with_copies(table, some, rng), some),
    ]
}

/// The whole records, and then a part of one with the tag: it is none.
fn with_part(table: &[u8], wanted: u32, rng: &mut Rng) -> Vec<u8> {
    let whole = table.len() / RECORD * RECORD;
    [&table[..whole], &record(wanted, 0, &[1])[..rng.between(4, RECORD - 1)]].concat()
}

/// The table with the tag in another record, or in several.
fn with_copies(table: &[u8], wanted: u32, rng: &mut Rng) -> Vec<u8> {
    let mut bytes = table.to_vec();
    let mut others: Vec<&mut [u8]> = bytes.chunks_exact_mut(RECORD).filter(|other| tag(other) != wanted).collect();
    rng.shuffle(&mut others);
    let copies = rng.between(1, 3);
    others.into_iter().take(copies).for_each(|other| set_tag(other, wanted));
    bytes
}

fn count(table: &[u8], wanted: u32, counts: &mut Counts) {
    let places: Vec<usize> = places_of(wanted, table).collect();
    let verdict = match places[..] {
        [] => Verdict::Absent,
        [_] => Verdict::Only,
        _ => Verdict::First,
    };
    counts.add(Seen::Returned(Service::Find, verdict), 1);
    let ragged = !table.len().is_multiple_of(RECORD);
    counts.add(Seen::FoundInRagged, (ragged && !places.is_empty()) as usize);
    counts.add(Seen::FoundPastMost, places.first().is_some_and(|&first| first >= MOST_FRAGMENTS) as usize);
    let past_fall = |&first: &usize| falls(&keys_of_table(table)).next().is_some_and(|fall| first >= fall);
    counts.add(Seen::FoundOutOfOrder, places.first().is_some_and(past_fall) as usize);
    let found = places.first().map(|&first| &table[RECORD * first..]);
    counts.add(Seen::FoundUncalled, found.is_some_and(|record| span(record) == 0) as usize);
    counts.add(Seen::FoundGraded, found.is_some_and(|record| grade(record) > 0) as usize);
    counts.add(Seen::FoundOver, found.is_some_and(|record| grade(record) > MOST_GRADE) as usize);
}
