//! The control of a day.

use crate::answers::Controlled;
use crate::balance::tallies;
use crate::book::{decode, encode, room, Book, Entry, CANCELLED, LAST_DAY, LAST_PARTY};
use crate::calendar::period_of;
use std::collections::{BTreeMap, BTreeSet};

/// Those of the parties whose day-ahead balance is above zero.
fn detected_of(book: &Book, day: u32, parties: &BTreeSet<u32>) -> BTreeSet<u32> {
    let tallies = tallies(book, day);
    let mut detected = BTreeSet::new();
    for party in parties {
        let tally = tallies.get(party).copied().unwrap_or_default();
        if tally.day_ahead(book) > 0 {
            detected.insert(*party);
        }
    }
    detected
}

/// Cancels the day's standing bilateral sales of the sellers; exports stay.
/// Returns how many were cancelled.
fn cancel(book: &mut Book, day: u32, sellers: &BTreeSet<u32>) -> u32 {
    let mut cancelled = 0;
    for e in &mut book.entries {
        if e.day == day && e.stands() && e.is_sale_to_party() && sellers.contains(&e.party) {
            e.status = CANCELLED;
            cancelled += 1;
        }
    }
    cancelled
}

/// The buyers of repeated pairs: a pair with cancelled entries of this day and
/// of another day of the same billing period.
fn repeated_buyers(book: &Book, day: u32) -> BTreeSet<u32> {
    let period = period_of(day);
    let mut days_of_pair: BTreeMap<(u32, u32), BTreeSet<u32>> = BTreeMap::new();
    for e in &book.entries {
        if e.status == CANCELLED && period_of(e.day) == period {
            let days = days_of_pair.entry((e.party, e.counterparty)).or_default();
            days.insert(e.day);
        }
    }
    let mut buyers = BTreeSet::new();
    for ((_, buyer), days) in days_of_pair {
        if days.contains(&day) && days.len() > 1 {
            buyers.insert(buyer);
        }
    }
    buyers
}

/// Controls a day and closes it with a mark.
pub fn control(words: &mut [u32], day: u32) -> Controlled {
    let refused = |answer| Controlled { answer, ..Controlled::default() };
    let Some(mut book) = decode(words) else {
        return refused(1);
    };
    if day > LAST_DAY {
        return refused(4);
    }
    if book.is_closed(day) {
        return refused(8);
    }
    if book.entries.len() >= room(words.len()) {
        return refused(9);
    }

    let everyone: BTreeSet<u32> = (1..=LAST_PARTY).collect();
    let first = detected_of(&book, day, &everyone);
    let mut cancelled = cancel(&mut book, day, &first);

    let buyers = repeated_buyers(&book, day);
    let second = detected_of(&book, day, &buyers);
    cancelled += cancel(&mut book, day, &second);

    book.entries.push(Entry::mark(day));
    encode(&book, words);
    Controlled { answer: 0, first: first.len() as u32, second: second.len() as u32, cancelled }
}
