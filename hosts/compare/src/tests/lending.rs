//! Slips of how a book is lent: a call on words or on bytes that reads or writes
//! other words than it should. Each is tried in every call that it can spoil.

use super::{quiet, searching};
use crate::call::{Call, NAMES};
use crate::engine::{bytes, words, Engine, Post, Second, Tables};
use crate::lent::Lent;
use crate::rng::Rng;
use crate::rounds::{lists, single};
use second::{
    BalanceAnswer, Case, CeilingAnswer, Collateral, Controlled, Counted, EntryRead, FileRead,
    FirstDayAnswer, MonthAnswer, MonthReport, Posted, TallyAnswer,
};

/// The second calculation with one slip, in its calls on words or in those on bytes.
struct Lending {
    slip: &'static str,
    words: bool,
}

impl Lending {
    fn on_bytes(slip: &'static str) -> Lending {
        Lending { slip, words: false }
    }

    /// The slip, where this call has it.
    fn slip(&self) -> &'static str {
        if self.slip.starts_with("on words") == self.words {
            self.slip
        } else {
            ""
        }
    }

    /// The bytes that the call takes for those lent.
    fn seen(&self, book: &[u8]) -> Vec<u8> {
        match self.slip() {
            "on words: the length is taken in bytes" => return book[..book.len() / 4].to_vec(),
            "on words: a word less" => return book[..book.len().saturating_sub(4)].to_vec(),
            _ => (),
        }
        let Some(mut w) = words(book).filter(|w| !w.is_empty()) else {
            return book.to_vec();
        };
        let (kind, entries) = (w[0] & 0xF000_0000, (w[0] & 0x0FFF_FFFF) as usize);
        let array = match self.slip() {
            "on bytes: entries after the first 26 are not seen" if entries > 26 => 26,
            "on bytes: entries after the first 128 are not seen" if entries > 128 => 128,
            "on bytes: entries after the first 769 are not seen" if entries > 769 => 769,
            "on bytes: no place after 26 entries" if entries == 26 => 26,
            "on bytes: no place after 128 entries" if entries == 128 => 128,
            "on bytes: no place after 769 entries" if entries == 769 => 769,
            "on bytes: the words behind are an entry" if 8 + 5 * entries <= w.len() => entries + 1,
            _ => return book.to_vec(),
        };
        w[0] = kind | array as u32;
        w.truncate(3 + 5 * array);
        bytes(&w)
    }

    /// Writes the words that the call has changed.
    fn write(&self, book: &mut [u8], seen: &[u8], after: &[u8]) {
        let (Some(seen), Some(after)) = (words(seen), words(after)) else {
            return;
        };
        let mut changed: Vec<usize> = (0..seen.len()).filter(|i| seen[*i] != after[*i]).collect();
        let done = !changed.is_empty();
        match self.slip() {
            "on bytes: the last word is not written" => drop(changed.pop()),
            "on bytes: the count is not written" => changed.retain(|i| *i != 0),
            "on bytes: a status is not written" => {
                let end = 3 + 5 * (seen[0] & 0xFFFF) as usize;
                changed.retain(|i| *i < 3 || *i >= end || i % 5 != 0);
            }
            _ => (),
        }
        for i in &changed {
            book[4 * i..4 * i + 4].copy_from_slice(&after[*i].to_le_bytes());
        }
        match self.slip() {
            "on bytes: a refused call writes the count" if !done => {
                book.iter_mut().take(1).for_each(|byte| *byte ^= 1);
            }
            "on words: a word more is written" if done => {
                let last = changed[changed.len() - 1];
                strike(book, 4 * (last + 1));
            }
            "on words: the word behind the slice is written" if done => strike(book, book.len()),
            _ => (),
        }
    }
}

/// Changes a byte in the slice or just behind it, but for a guarded page, which ends the run.
fn strike(book: &mut [u8], at: usize) {
    let at = book.as_mut_ptr().wrapping_add(at);
    if at as usize % 4_096 != 0 {
        unsafe {
            *at ^= 1;
        }
    }
}

macro_rules! reads {
    ($($name:ident($($figure:ident: $kind:ty),*) -> $answer:ty;)*) => {
        $(fn $name(&self, book: &[u8], $($figure: $kind),*) -> $answer {
            Second.$name(&self.seen(book), $($figure),*)
        })*
    };
}

macro_rules! writes {
    ($($name:ident($($figure:ident: $kind:ty),*) -> $answer:ty;)*) => {
        $(fn $name(&self, book: &mut [u8], $($figure: $kind),*) -> $answer {
            let seen = self.seen(book);
            let mut after = seen.clone();
            let answer = Second.$name(&mut after, $($figure),*);
            self.write(book, &seen, &after);
            answer
        })*
    };
}

impl Engine for Lending {
    fn on_words(&self) -> Lending {
        Lending { words: true, ..*self }
    }

    fn month(&self, t: Tables) -> MonthAnswer {
        let [prices, imbalance, dm] = &[t.prices, t.imbalance, t.dm].map(|table| self.seen(table));
        Second.month(Tables { prices, imbalance, dm, ..t })
    }

    reads! {
        is_book() -> u32;
        count() -> Counted;
        entry(number: u32) -> EntryRead;
        tally(party: u32, day: u32) -> TallyAnswer;
        day_ahead(party: u32, day: u32) -> BalanceAnswer;
        delivery(party: u32, day: u32) -> BalanceAnswer;
        month_report(month: u32) -> MonthReport;
        collateral(case: &Case) -> Collateral;
    }

    writes! {
        open(coefficient: u32, tolerance: u32) -> u32;
        open_default() -> u32;
        post(post: Post) -> Posted;
        withdraw(number: u32) -> u32;
        control(day: u32) -> Controlled;
        read_file(file: &[u8]) -> FileRead;
    }

    as_second! {
        detected(balance: i64) -> u32;
        ceiling(offer: u32, bilateral: u32, futures: u32, capacity: u32) -> CeilingAnswer;
        first_day(month: u32) -> FirstDayAnswer;
    }
}

const ON_WORDS: &[&str] = &[
    "is_book",
    "open",
    "open_default",
    "post",
    "withdraw",
    "count",
    "entry",
    "tally",
    "day_ahead",
    "delivery",
    "month",
    "month_report",
    "collateral",
    "control",
    "read_file",
];
const ON_ENTRIES: &[&str] = &[
    "is_book",
    "post",
    "withdraw",
    "count",
    "entry",
    "tally",
    "day_ahead",
    "delivery",
    "month_report",
    "collateral",
    "control",
    "read_file",
];
const CHANGES: &[&str] = &["open", "open_default", "post", "withdraw", "control", "read_file"];
const COUNTS: &[&str] = &["open", "open_default", "post", "control", "read_file"];
const ADDS: &[&str] = &["post", "control", "read_file"];

/// Each slip with the calls that it can spoil.
const SLIPS: [(&str, &[&str]); 15] = [
    ("on words: the length is taken in bytes", ON_WORDS),
    ("on words: a word less", ON_WORDS),
    ("on words: a word more is written", CHANGES),
    ("on words: the word behind the slice is written", CHANGES),
    ("on bytes: entries after the first 26 are not seen", ON_ENTRIES),
    ("on bytes: entries after the first 128 are not seen", ON_ENTRIES),
    ("on bytes: entries after the first 769 are not seen", ON_ENTRIES),
    ("on bytes: no place after 26 entries", ADDS),
    ("on bytes: no place after 128 entries", ADDS),
    ("on bytes: no place after 769 entries", ADDS),
    ("on bytes: the words behind are an entry", ON_ENTRIES),
    ("on bytes: the last word is not written", CHANGES),
    ("on bytes: the count is not written", COUNTS),
    ("on bytes: a status is not written", &["withdraw", "control"]),
    ("on bytes: a refused call writes the count", CHANGES),
];

#[test]
fn every_slip_is_found() {
    let mut missed = Vec::new();
    for (slip, names) in SLIPS {
        for name in NAMES.into_iter().filter(|name| names.contains(name)) {
            let counts = single(&Lending::on_bytes(slip), &searching(200_000), name);
            println!("{name} {slip}: {} of {}", counts.failed, counts.compared);
            if counts.failed == 0 {
                missed.push((name, slip));
            }
        }
    }
    assert!(missed.is_empty(), "{missed:?}");
}

#[test]
fn slips_are_found_in_lists() {
    for (slip, _) in SLIPS {
        let counts = lists(&Lending::on_bytes(slip), &searching(200_000));
        assert_eq!(counts.values().map(|c| c.failed).sum::<u64>(), 1, "{slip}");
    }
}

/// A difference says which of the two calls it is of.
#[test]
fn a_slip_is_told_on_its_own_side() {
    for (slip, words) in [("on words: a word less", true), ("none", false)] {
        let (mut lent, mut rng) = (Lent::new(), Rng::of_round(1, "test", 0));
        let mut book = bytes(&[0x6000_0000, 0x7000_006E, 0x8009_27C0]);
        lent.lend_book(&mut rng, &book);
        let told = lent.compare(&Lending::on_bytes(slip), &mut rng, &mut book, &Call::IsBook);
        let told = told.map_err(|lines| lines.iter().all(|line| line.starts_with("on words: ")));
        assert_eq!(told.err(), words.then_some(true), "{slip}");
    }
}

#[test]
fn no_difference_where_there_is_no_slip() {
    for name in NAMES {
        assert_eq!(single(&Lending::on_bytes("none"), &quiet(2_000), name).failed, 0, "{name}");
    }
}

/// The calls on words are made, and no other call is counted as one.
#[test]
fn words_are_met() {
    for name in NAMES {
        let met = single(&Second, &quiet(2_000), name).met("on words");
        assert_eq!(met > 1_600, ON_WORDS.contains(&name), "{name}: {met}");
    }
}

/// Each call meets books about every array's size, in slices of all three kinds,
/// and words of all kinds behind the last entry.
#[test]
fn sizes_are_met() {
    for name in NAMES.into_iter().filter(|name| *name == "open" || ON_ENTRIES.contains(name)) {
        let counts = single(&Second, &quiet(2_000), name);
        let mut labels =
            ["an entry's words behind", "other words behind", "more entries than room"]
                .map(str::to_string)
                .to_vec();
        for size in ["25", "127", "768", "3,072"] {
            for slice in ["a longer slice", "a slice as long", "a shorter slice"] {
                labels.push(format!("about {size} entries in {slice}"));
            }
            for lines in ["fit", "too many"] {
                if name == "read_file" {
                    labels.push(format!("lines to about {size} entries {lines}"));
                }
            }
        }
        for label in labels {
            assert!(counts.met(&label) > 0, "{name}: {label}");
        }
    }
}
