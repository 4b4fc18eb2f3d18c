//! The harness itself: no difference where there is none, and every slip below
//! is found.

use crate::call::{Call, NAMES};
use crate::engine::{bytes, words, Engine, Post, Second, Tables};
use crate::fault;
use crate::lent::Lent;
use crate::rng::Rng;
use crate::rounds::{lists, single, Plan};
use crate::worked::figures;
use second::calendar::period_of;
use second::{
    BalanceAnswer, Book, Case, CeilingAnswer, Collateral, Controlled, Counted, Entry, EntryRead,
    FileRead, FirstDayAnswer, MonthAnswer, MonthReport, Posted, TallyAnswer,
};
use std::collections::{BTreeMap, BTreeSet};

/// Calls that are the second calculation's own.
macro_rules! as_second {
    ($($name:ident($($figure:ident: $kind:ty),*) -> $answer:ty;)*) => {
        $(fn $name(&self, $($figure: $kind),*) -> $answer {
            Second.$name($($figure),*)
        })*
    };
}

mod lending;
mod reports;

fn quiet(rounds: u64) -> Plan {
    Plan { seed: 7, rounds, only: None, loud: false, first_only: false }
}

/// A run that ends with the first difference.
fn searching(rounds: u64) -> Plan {
    Plan { first_only: true, ..quiet(rounds) }
}

#[test]
fn no_difference_where_there_is_none() {
    for name in NAMES {
        let counts = single(&Second, &quiet(3_000), name);
        assert_eq!((counts.compared, counts.failed), (3_000, 0), "{name}");
    }
    let counts = lists(&Second, &quiet(10_000));
    assert_eq!(counts.values().map(|c| c.failed).sum::<u64>(), 0);
    assert!(counts.values().map(|c| c.compared).sum::<u64>() >= 10_000);
    assert!(counts.len() >= 15);
}

/// The worked figures hold for the second calculation, and show these slips.
#[test]
fn worked_figures() {
    let worked = figures(&Second);
    assert_eq!((worked.compared, worked.failed), (460, 0));
    for slip in [
        "open_default: the old coefficient",
        "open_default: the old tolerance",
        "open_default: R and TM are swapped",
        "delivery: tender and import are added",
        "is_book: bits above an amount are not read",
        "is_book: money up to 10^12 only",
        "post: the low word is cut at 27 bits",
        "post: a high word of twelve bits",
        "post: money up to 10^12 only",
        "post: a kuruş above the limit",
        "post: a volume up to 10^12",
        "read_file: bit 16 of an amount is not spare",
        "read_file: bit 12 of an amount is spare",
        "is_book: no updated programs",
        "is_book: an updated program up to 10^13",
        "is_book: an updated program with a counterparty",
        "is_book: type 21 with figures",
        "is_book: type 23",
        "post: no updated programs",
        "post: an updated program up to 10^13",
        "post: an updated program with a counterparty",
        "post: an updated program on a closed day is refused",
        "post: type 21",
        "post: type 23",
        "withdraw: an updated program of a closed day is refused",
        "tally: the last sum is lost",
        "tally: updates are in sum 12",
        "tally: the latest update only",
        "day_ahead: the larger of program and update",
        "delivery: program and update are added",
        "delivery: the smaller of program and update",
        "delivery: the update alone",
        "delivery: the program alone",
        "delivery: any update instead of the program",
        "collateral: an updated program is money",
        "control: an updated program counts",
        "read_file: no updated programs",
        "read_file: an updated program up to 10^13",
        "read_file: type 21",
        "read_file: type 23",
        "detected: zero too",
        "month: halves down",
        "month: a weight below zero is one less",
        "month: no imbalance weighs one",
        "ceiling: below only",
        "first_day: 2100 is a leap year",
        "first_day: 2000 is no leap year",
        "first_day: a year begins in December",
        "month_report: 12 before 1",
        "month_report: refused as a day",
        "month_report: the month on a refusal",
        "month_report: month 1,200 is given",
        "month_report: a month is cut to sixteen bits",
        "month_report: exports are left out",
        "month_report: exports are left out of the totals",
        "month_report: a sale counts for its buyer too",
        "month_report: withdrawn entries count",
        "month_report: cancelled entries count",
        "month_report: cancelled entries are in the totals",
        "month_report: the first party alone",
        "month_report: the latest entry alone",
        "month_report: the day before counts",
        "month_report: the day after counts",
        "month_report: months of thirty days",
        "month_report: Februaries of 28 days",
        "month_report: days from 1 on",
        "month_report: the totals miss the first day",
        "month_report: the totals miss the last day",
        "month_report: the totals are in the last line",
        "month_report: no totals",
        "month_report: totals of the whole book",
        "month_report: updates are left out",
        "month_report: updates are in sum 12",
        "month_report: updates come before money",
        "month_report: money is left out",
        "month_report: sums of 32 bits",
        "month_report: the high word of an amount is lost",
        "collateral: a day's debt may be negative",
        "control: a lost purchase inside the first pass",
    ] {
        assert!(figures(&Wrong(slip)).failed > 0, "{slip}");
    }
}

#[test]
fn rounds_are_repeatable() {
    for name in NAMES {
        for round in 0..20 {
            let draw = || crate::draw::round(&mut Rng::of_round(3, name, round), name);
            assert!(draw() == draw(), "{name} {round}");
        }
        let one = crate::draw::round(&mut Rng::of_round(3, name, 0), name);
        let other = crate::draw::round(&mut Rng::of_round(4, name, 0), name);
        assert!(one != other || matches!(name, "detected" | "ceiling" | "first_day"), "{name}");
    }
}

/// Every cause that a call can be refused by is drawn.
#[test]
fn every_cause_is_reached() {
    for (name, causes) in [
        ("open", &[1, 11, 12][..]),
        ("open_default", &[1, 11]),
        ("post", &[1, 3, 4, 5, 6, 7, 8, 9]),
        ("withdraw", &[1, 8, 10]),
        ("count", &[1]),
        ("entry", &[1, 10]),
        ("tally", &[1, 3, 4]),
        ("day_ahead", &[1, 3, 4]),
        ("delivery", &[1, 3, 4]),
        ("ceiling", &[12]),
        ("first_day", &[12]),
        ("month", &[11, 12]),
        ("month_report", &[1, 12]),
        ("collateral", &[1, 3, 4, 12]),
        ("control", &[1, 4, 8, 9]),
        ("read_file", &[1, 2, 3, 4, 5, 6, 7, 8, 9]),
    ] {
        let counts = single(&Second, &quiet(20_000), name);
        let reached: Vec<u32> = counts.causes().collect();
        assert_eq!(reached, causes, "{name}");
    }
}

/// Updated programs are drawn often, above the program, below it and like it (02, T-02).
#[test]
fn updated_programs_are_met() {
    for (name, label) in [
        ("post", "updated program"),
        ("entry", "updated program"),
        ("read_file", "updated program"),
        ("tally", "update above program"),
        ("tally", "update like program"),
        ("tally", "update below program"),
    ] {
        let met = single(&Second, &quiet(20_000), name).met(label);
        assert!(met > 100, "{name}: {label} {met}");
    }
    let counts = lists(&Second, &quiet(20_000));
    for (name, label) in [
        ("post", "updated program"),
        ("read_file", "updated program"),
        ("tally", "update above program"),
    ] {
        let met = counts[name].met(label);
        assert!(met > 10, "list, {name}: {label} {met}");
    }
}

/// Reports have figures more often than not, of months of each length, and their books entries that do
/// not count (02, T-01).
#[test]
fn months_are_met() {
    let counts = single(&Second, &quiet(20_000), "month_report");
    let without = counts.met("no figures");
    assert!(without > 500 && without < 8_000, "no figures {without}");
    for label in [
        "28 days",
        "29 days",
        "30 days",
        "31 days",
        "figures of the first day",
        "figures of the last day",
        "figures of ten days or more",
        "the day before",
        "the day after",
        "updated program",
        "export",
        "withdrawn",
        "cancelled",
        "mark",
    ] {
        let met = counts.met(label);
        assert!(met > 200, "{label} {met}");
    }
    let lists = lists(&Second, &quiet(20_000));
    let met = lists["month_report"].met("figures of the first day");
    assert!(met > 10, "list: figures of the first day {met}");
}

/// The second calculation with one slip.
struct Wrong(&'static str);

impl Wrong {
    fn slips(&self, slip: &str) -> bool {
        self.0 == slip
    }
}

fn decoded(book: &[u8]) -> Option<Book> {
    second::decode(&words(book)?)
}

fn stored(book: &Book, lent: &mut [u8]) {
    let mut w = words(lent).expect("words");
    second::encode(book, &mut w);
    lent.copy_from_slice(&bytes(&w));
}

/// A book with as many entries more as the words behind the last one are.
fn with_words_behind(book: &[u8]) -> Vec<u8> {
    let mut w = words(book).expect("words");
    while Second.is_book(&bytes(&w)) == 1 && (w[0] & 0xFFFF) < 3_072 {
        w[0] += 1;
    }
    if Second.is_book(&bytes(&w)) == 0 {
        w[0] -= 1;
    }
    bytes(&w)
}

/// Changes the lent words.
fn rewritten(lent: &mut [u8], change: impl FnOnce(&mut [u32])) {
    let mut w = words(lent).expect("words");
    change(&mut w);
    lent.copy_from_slice(&bytes(&w));
}

fn over(sums: &[u64; 17], types: &[usize]) -> i64 {
    types.iter().map(|t| sums[*t - 1] as i64).sum()
}

/// A day-ahead or delivery balance whose program is made of sums 12 and 22.
fn with_program(
    book: &[u8],
    (party, day): (u32, u32),
    ahead: bool,
    program: fn(i64, i64) -> i64,
) -> i64 {
    let t = Second.tally(book, party, day);
    let figures = decoded(book).expect("a book");
    let (sales, cover): (&[usize], &[usize]) = if ahead {
        (&[1, 3, 4, 6], &[7, 9, 10, 13, 14])
    } else {
        (&[1, 2, 3, 4, 5, 6], &[7, 8, 9, 10, 11, 13, 14])
    };
    let notified = t.sums[14].max(t.sums[15]) as i64;
    let own = over(&t.sums, cover) + program(t.sums[11] as i64, t.sums[16] as i64);
    let covered = (own + t.bought as i64 + notified) * i64::from(figures.coefficient);
    100 * over(&t.sums, sales) - covered.max(100 * i64::from(figures.tolerance))
}

/// The types of a book's entries changed in its words.
fn retyped(book: &[u8], change: fn(u32) -> u32) -> Vec<u8> {
    let mut w = words(book).expect("words");
    let entries = w.first().map_or(0, |n| n & 0x0FFF_FFFF) as usize;
    w.iter_mut().skip(5).step_by(5).take(entries).for_each(|word| *word = change(*word));
    bytes(&w)
}

/// A type word with its type of one number taken as another.
fn taken(word: u32, own: u32, other: u32) -> u32 {
    if word & 0xFF == own {
        word & 0xFFFF_FF00 | other
    } else {
        word
    }
}

/// A post taken as one of another type, without a counterparty, that then keeps its own.
fn posted_as(book: &mut [u8], post: Post, other: u32) -> Posted {
    let answer = Second.post(book, Post { entry_type: other, counterparty: 0, ..post });
    if answer.answer == 0 {
        let own = 0x3000_0000 | (post.counterparty & 0xFFFF) << 8 | post.entry_type;
        rewritten(book, |w| w[5 + 5 * answer.number as usize] = own);
    }
    answer
}

/// A file whose lines of one type are taken as of another, and then keep their own.
fn read_as(book: &mut [u8], file: &[u8], own: u32, other: u32) -> FileRead {
    let first = Second.count(book).count as usize;
    let Some(mut w) = words(file) else {
        return Second.read_file(book, file);
    };
    let mut of_own = Vec::new();
    for (i, word) in w.iter_mut().filter(|word| **word >> 28 == 3).enumerate() {
        if *word & 0xFF == own {
            of_own.push(5 + 5 * (first + i));
            *word = taken(*word, own, other);
        }
    }
    let answer = Second.read_file(book, &bytes(&w));
    if answer.answer == 0 {
        rewritten(book, |w| of_own.iter().for_each(|at| w[*at] = taken(w[*at], other, own)));
    }
    answer
}

impl Engine for Wrong {
    fn on_words(&self) -> Wrong {
        Wrong(self.0)
    }

    fn is_book(&self, book: &[u8]) -> u32 {
        let right = Second.is_book(book);
        if right == 0 && book.len() % 4 == 0 {
            let mut w = words(book).expect("words");
            let entries = w.first().map_or(0, |n| n & 0x0FFF_FFFF) as usize;
            if self.slips("is_book: status 3 is allowed") {
                for i in 0..entries.min(w.len() / 5) {
                    let at = 5 + 5 * i;
                    if at < w.len() && w[at] >> 24 & 3 == 3 {
                        w[at] &= 0xFCFF_FFFF;
                    }
                }
                return Second.is_book(&bytes(&w));
            }
            if self.slips("is_book: a cancelled export is allowed") {
                for word in &mut w {
                    if *word == 0x3200_0006 {
                        *word = 0x3000_0006;
                    }
                }
                return Second.is_book(&bytes(&w));
            }
            if self.slips("is_book: more than 3,072 entries are allowed")
                && (3_073..3_080).contains(&entries)
                && w.len() >= 3 + 5 * entries
            {
                w[0] = 0x6000_0C00;
                return Second.is_book(&bytes(&w));
            }
            if self.slips("is_book: bits above the party are not read") {
                for word in w.iter_mut().skip(3) {
                    if *word >> 28 == 1 {
                        *word &= 0xF000_FFFF;
                    }
                }
                return Second.is_book(&bytes(&w));
            }
            if self.slips("is_book: bits above an amount are not read") {
                for word in w.iter_mut().skip(3) {
                    if *word >> 28 == 5 {
                        *word &= 0xF000_FFFF;
                    }
                }
                return Second.is_book(&bytes(&w));
            }
        }
        if right == 0 && book.len() % 4 == 0 {
            let change: fn(u32) -> u32 = match self.0 {
                "is_book: an updated program up to 10^13" => |word| taken(word, 22, 20),
                "is_book: an updated program with a counterparty" => {
                    |word| if word & 0xFF == 22 { word & 0xFF00_00FF } else { word }
                }
                "is_book: type 21 with figures" => |word| taken(word, 21, 22),
                "is_book: type 23" => |word| taken(word, 23, 22),
                _ => |word| word,
            };
            return Second.is_book(&retyped(book, change));
        }
        if right == 1 && self.slips("is_book: no updated programs") {
            return Second.is_book(&retyped(book, |word| taken(word, 22, 23)));
        }
        if right == 1 && self.slips("is_book: money up to 10^12 only") {
            let held = decoded(book).expect("a book").entries;
            return u32::from(held.iter().all(|e| e.amount <= 1_000_000_000_000));
        }
        if right == 0 && self.slips("is_book: bytes behind the words are not read") {
            return Second.is_book(&book[..book.len() / 4 * 4]);
        }
        right
    }

    fn open(&self, book: &mut [u8], coefficient: u32, tolerance: u32) -> u32 {
        let right = Second.open(book, coefficient, tolerance);
        if right == 0 && self.slips("open: clears the words behind") {
            book[12..].fill(0);
        }
        if right == 12 && self.slips("open: writes on a refusal") {
            book[0] ^= 1;
        }
        if right == 11 && self.slips("open: ranges before the length") && coefficient > 1_000 {
            return 12;
        }
        right
    }

    fn open_default(&self, book: &mut [u8]) -> u32 {
        if self.slips("open_default: the old coefficient") {
            return Second.open(book, 110, 500_000);
        }
        if self.slips("open_default: the old tolerance") {
            return Second.open(book, 105, 600_000);
        }
        if self.slips("open_default: R and TM are swapped") {
            return Second.open(book, 500_000, 105);
        }
        Second.open_default(book)
    }

    fn post(&self, book: &mut [u8], post: Post) -> Posted {
        let before = book.to_vec();
        let right = Second.post(book, post);
        if self.slips("post: reaches the book on the first call only") && right.number > 0 {
            book.copy_from_slice(&before);
        }
        if self.slips("post: the high bits of an amount are lost") && right.answer == 0 {
            rewritten(book, |w| w[7 + 5 * right.number as usize] = 0x5000_0000);
        }
        if self.slips("post: the low word is cut at 27 bits") && right.answer == 0 {
            rewritten(book, |w| w[6 + 5 * right.number as usize] &= 0xF7FF_FFFF);
        }
        if self.slips("post: a high word of twelve bits") && right.answer == 0 {
            rewritten(book, |w| w[7 + 5 * right.number as usize] &= 0xF000_0FFF);
        }
        if self.slips("post: money up to 10^12 only")
            && right.answer == 0
            && post.amount > 1_000_000_000_000
        {
            book.copy_from_slice(&before);
            return Posted { answer: 7, number: 0 };
        }
        if self.slips("post: a kuruş above the limit") && right.answer == 7 {
            let money = (17..=20).contains(&post.entry_type);
            let above = money && post.amount == second::MOST_MONEY + 1;
            return Posted { answer: if above { 9 } else { 7 }, number: 0 };
        }
        if self.slips("post: a volume up to 10^12") && right.answer == 7 {
            let within = post.entry_type <= 16 && post.amount <= 1_000_000_000_000;
            return Posted { answer: if within { 9 } else { 7 }, number: 0 };
        }
        match (self.0, right.answer, post.entry_type) {
            ("post: no updated programs", 0 | 6..=9, 22) => {
                book.copy_from_slice(&before);
                return Posted { answer: 5, number: 0 };
            }
            ("post: an updated program up to 10^13", 7, 22) => return posted_as(book, post, 20),
            ("post: an updated program with a counterparty", 6, 22) => {
                return posted_as(book, post, 22)
            }
            ("post: type 21", 5, 21) => return posted_as(book, post, 20),
            ("post: type 23", 5, 23) => return posted_as(book, post, 22),
            ("post: an updated program on a closed day is refused", 0, 22)
                if decoded(&before).expect("a book").is_closed(post.day) =>
            {
                book.copy_from_slice(&before);
                return Posted { answer: 8, number: 0 };
            }
            _ => (),
        }
        if self.slips("post: a closed day refuses exports too")
            && right.answer == 0
            && post.entry_type == 6
            && decoded(&before).expect("a book").is_closed(post.day)
        {
            book.copy_from_slice(&before);
            return Posted { answer: 8, number: 0 };
        }
        if self.slips("post: a party is cut to sixteen bits") && right.answer == 3 {
            let party = post.party & 0xFFFF;
            return Second.post(book, Post { party, ..post });
        }
        if self.slips("post: a number on a refusal") && right.answer == 9 {
            return Posted { answer: 9, number: 1 };
        }
        if self.slips("post: no room where the slice has just one place left") {
            let used = right.number as usize + 1;
            if right.answer == 0 && book.len() / 4 < 3 + 5 * used + 1 {
                book.copy_from_slice(&before);
                return Posted { answer: 9, number: 0 };
            }
        }
        if self.slips("post: a byte outside the slice is written") && right.answer == 0 {
            // Not where the guarded page lies before the slice: that ends the run.
            if book.as_ptr() as usize % 4_096 != 0 {
                unsafe {
                    *book.as_mut_ptr().offset(-1) ^= 1;
                }
            }
        }
        right
    }

    fn withdraw(&self, book: &mut [u8], number: u32) -> u32 {
        let before = book.to_vec();
        let right = Second.withdraw(book, number);
        let held = decoded(book);
        let entry = held.as_ref().and_then(|b| b.entries.get(number as usize).copied());
        if self.slips("withdraw: an updated program of a closed day is refused") && right == 0 {
            let day = entry.filter(|e| e.entry_type == 22).map(|e| e.day);
            if day.is_some_and(|day| held.expect("a book").is_closed(day)) {
                book.copy_from_slice(&before);
                return 8;
            }
        }
        if self.slips("withdraw: a mark behind the last entry closes its day") && right == 0 {
            let mut w = words(&before).expect("words");
            w[0] += 1;
            let last = second::decode(&w).and_then(|more| more.entries.last().copied());
            let closes = |e: &Entry| last.is_some_and(|mark| mark.is_mark() && mark.day == e.day);
            if entry.is_some_and(|e| e.is_sale_to_party() && closes(&e)) {
                book.copy_from_slice(&before);
                return 8;
            }
        }
        let again = match entry {
            Some(e) if right == 10 && e.status == second::CANCELLED => {
                self.slips("withdraw: a cancelled sale")
            }
            Some(e) if right == 10 && e.is_mark() => self.slips("withdraw: a mark"),
            Some(_) if right == 8 => self.slips("withdraw: on a closed day"),
            _ => false,
        };
        if again {
            rewritten(book, |w| {
                let at = 5 + 5 * number as usize;
                w[at] = w[at] & 0xFCFF_FFFF | 0x0100_0000;
            });
            return 0;
        }
        right
    }

    fn count(&self, book: &[u8]) -> Counted {
        let right = Second.count(book);
        if self.slips("count: without marks") && right.answer == 0 {
            let entries = decoded(book).expect("a book").entries;
            let count = entries.iter().filter(|e| !e.is_mark()).count() as u32;
            return Counted { count, ..right };
        }
        right
    }

    fn entry(&self, book: &[u8], number: u32) -> EntryRead {
        let right = Second.entry(book, number);
        if self.slips("entry: marks are not read") && right.entry_type == second::MARK {
            return EntryRead { answer: 10, ..EntryRead::default() };
        }
        if self.slips("entry: reads the words behind the last") && right.answer == 10 {
            let mut w = words(book).expect("words");
            let count = Second.count(book).count;
            if number == count && w.len() >= 8 + 5 * count as usize {
                w[0] += 1;
                let read = Second.entry(&bytes(&w), number);
                return if read.answer == 0 { read } else { right };
            }
        }
        right
    }

    fn tally(&self, book: &[u8], party: u32, day: u32) -> TallyAnswer {
        let right = Second.tally(book, party, day);
        if right.answer != 0 {
            if self.slips("tally: the party on a refusal") {
                return TallyAnswer { party, ..right };
            }
            return right;
        }
        let mut wrong = right;
        if self.slips("tally: the last sum is lost") {
            wrong.sums[16] = 0;
        }
        if self.slips("tally: updates are in sum 12") {
            wrong.sums[11] += right.sums[16];
            wrong.sums[16] = 0;
        }
        for e in decoded(book).expect("a book").entries {
            let place = match e.entry_type {
                1..=16 => e.entry_type as usize - 1,
                22 => 16,
                _ => continue,
            };
            if e.party != party || e.day != day {
                continue;
            }
            if self.slips("tally: the latest update only") && place == 16 && e.stands() {
                wrong.sums[16] = e.amount;
            }
            let export = e.entry_type == 6 && e.counterparty == 0;
            if self.slips("tally: exports count") && export && e.stands() {
                wrong.sums[place] += e.amount;
            }
            if self.slips("tally: withdrawn entries count") && e.status == second::WITHDRAWN {
                wrong.sums[place] += e.amount;
            }
        }
        wrong
    }

    fn day_ahead(&self, book: &[u8], party: u32, day: u32) -> BalanceAnswer {
        let right = Second.day_ahead(book, party, day);
        if right.answer != 0 {
            return right;
        }
        if self.slips("day_ahead: intraday counts") {
            return Second.delivery(book, party, day);
        }
        if self.slips("day_ahead: the larger of program and update") {
            return BalanceAnswer {
                answer: 0,
                balance: with_program(book, (party, day), true, i64::max),
            };
        }
        if self.slips("day_ahead: the words behind the last entry are read") {
            return Second.day_ahead(&with_words_behind(book), party, day);
        }
        right
    }

    fn delivery(&self, book: &[u8], party: u32, day: u32) -> BalanceAnswer {
        let right = Second.delivery(book, party, day);
        if right.answer != 0 {
            return right;
        }
        let t = Second.tally(book, party, day);
        let figures = decoded(book).expect("a book");
        let (r, tm) = (i64::from(figures.coefficient), i64::from(figures.tolerance));
        let sales = over(&t.sums, &[1, 2, 3, 4, 5, 6]);
        let others = over(&t.sums, &[7, 8, 9, 10, 11, 13, 14]);
        let own = others + t.sums[11].max(t.sums[16]) as i64;
        let (tender, import) = (t.sums[14] as i64, t.sums[15] as i64);
        let bought = t.bought as i64;
        let cover = own + bought + tender.max(import);
        let balance = match self.0 {
            "delivery: the tolerance goes to the sale side" => 100 * (sales - tm) - cover * r,
            "delivery: tender and import are added" => {
                100 * sales - (100 * tm).max((own + bought + tender + import) * r)
            }
            "delivery: the larger of bought and notified" => {
                100 * sales - (100 * tm).max((own + bought.max(tender.max(import))) * r)
            }
            "delivery: whole kWh" => right.balance / 100 * 100,
            "delivery: program and update are added" => {
                with_program(book, (party, day), false, |program, update| program + update)
            }
            "delivery: the smaller of program and update" => {
                with_program(book, (party, day), false, i64::min)
            }
            "delivery: the update alone" => {
                with_program(book, (party, day), false, |_, update| update)
            }
            "delivery: the program alone" => {
                with_program(book, (party, day), false, |program, _| program)
            }
            "delivery: any update instead of the program" => {
                with_program(book, (party, day), false, |program, update| match update {
                    0 => program,
                    _ => update,
                })
            }
            _ => right.balance,
        };
        BalanceAnswer { answer: 0, balance }
    }

    fn detected(&self, balance: i64) -> u32 {
        if self.slips("detected: zero too") {
            return u32::from(balance >= 0);
        }
        Second.detected(balance)
    }

    fn ceiling(&self, o: u32, n: u32, v: u32, g: u32) -> CeilingAnswer {
        let right = Second.ceiling(o, n, v, g);
        if right.answer != 0 {
            return right;
        }
        let recordable = match self.0 {
            "ceiling: below only" => {
                2 * u64::from(o)
                    < (3 * (u64::from(n) + u64::from(v))).max(50_000) + 2 * u64::from(g)
            }
            "ceiling: halves lost" => {
                u64::from(o) <= (3 * (u64::from(n) + u64::from(v)) / 2).max(25_000) + u64::from(g)
                    && (u64::from(n) + u64::from(v)) % 2 == 0
            }
            "ceiling: 32 bits" => {
                let most = 3_u32.wrapping_mul(n.wrapping_add(v)).max(50_000);
                2 * o <= most.wrapping_add(2 * g)
            }
            _ => right.recordable == 1,
        };
        CeilingAnswer { answer: 0, recordable: u32::from(recordable) }
    }

    fn first_day(&self, month: u32) -> FirstDayAnswer {
        let right = Second.first_day(month);
        if self.slips("first_day: the table's months only") && month > 1_200 {
            return FirstDayAnswer { answer: 12, day: 0 };
        }
        if self.slips("first_day: a month more") && month == 4_800 {
            return FirstDayAnswer { answer: 0, day: 146_097 };
        }
        if self.slips("first_day: refused as a day") && right.answer != 0 {
            return FirstDayAnswer { answer: 4, day: 0 };
        }
        if right.answer != 0 {
            return right;
        }
        let day = match self.0 {
            "first_day: 2100 is a leap year" => right.day + u32::from(month >= 1_202),
            "first_day: 2000 is no leap year" => right.day - u32::from(month >= 2),
            "first_day: a year begins in December" if month % 12 == 11 => right.day + 31,
            _ => right.day,
        };
        FirstDayAnswer { answer: 0, day }
    }

    fn month(&self, t: Tables) -> MonthAnswer {
        let right = Second.month(t);
        if self.slips("month: rows × hours wraps") && right.answer == 11 {
            let figures = t.rows.wrapping_mul(t.prices.len() as u32 / 4);
            let agree = t.imbalance.len() == 4 * figures as usize && t.dm.len() == t.prices.len();
            if agree && t.prices.len() <= 4 * 745 && t.prices.len() % 4 == 0 {
                return MonthAnswer { answer: 12, ..right };
            }
        }
        if right.answer != 0 {
            return right;
        }
        let prices = words(t.prices).expect("words");
        let signed = |b: &[u8]| -> Vec<i64> {
            words(b).expect("words").iter().map(|w| i64::from(*w as i32)).collect()
        };
        let (imbalance, dm) = (signed(t.imbalance), signed(t.dm));
        let hours = prices.len();
        let sums = |size: &dyn Fn(i64) -> u64| -> (u64, u64) {
            let weighted = |(i, v): (usize, &i64)| size(*v) * u64::from(prices[i % hours]);
            let weight = imbalance.iter().map(|v| size(*v)).sum();
            (imbalance.iter().enumerate().map(weighted).sum(), weight)
        };
        let average =
            |(weighted, weight): (u64, u64)| (2 * weighted + weight) / (2 * weight).max(1);
        let mut wrong = right;
        match self.0 {
            "month: prices without weights" => {
                let sum: u64 = prices.iter().map(|p| u64::from(*p)).sum();
                if right.aosmf > 0 {
                    wrong.aosmf = (2 * sum + hours as u64) / (2 * hours as u64);
                }
            }
            "month: halves down" => {
                let (weighted, weight) = sums(&|v| v.unsigned_abs());
                if weight > 0 && 2 * (weighted % weight) == weight {
                    wrong.aosmf = weighted / weight;
                }
            }
            "month: a weight below zero is one less" => {
                wrong.aosmf = average(sums(&|v| v.unsigned_abs() - u64::from(v < 0)));
            }
            "month: no imbalance weighs one" => {
                wrong.aosmf = average(sums(&|v| v.unsigned_abs().max(1)));
            }
            "month: secondary control is added" => wrong.aedm += 2 * dm.iter().sum::<i64>(),
            "month: the first group" => {
                wrong.aedm = imbalance.iter().take(hours).sum::<i64>() - dm.iter().sum::<i64>();
            }
            "month: hour after hour" => {
                let rows = t.rows as usize;
                let own: i64 = (0..hours).map(|h| imbalance[h * rows + t.group as usize]).sum();
                wrong.aedm = own - dm.iter().sum::<i64>();
            }
            _ => (),
        }
        wrong
    }

    fn month_report(&self, book: &[u8], month: u32) -> MonthReport {
        self.wrong_month_report(book, month)
    }

    fn collateral(&self, book: &[u8], case: &Case) -> Collateral {
        let right = Second.collateral(book, case);
        if self.slips("collateral: months that are not used are held to their range")
            && right.answer == 0
            && case.months.iter().any(|m| m.aosmf > 1_000_000)
        {
            return Collateral { answer: 12, ..Collateral::default() };
        }
        if self.slips("collateral: capacity is free for a supplier") && right.answer == 12 {
            let other = Case { capacity: 0, ..*case };
            return if case.licence < 2 { Second.collateral(book, &other) } else { right };
        }
        if right.answer != 0 {
            return right;
        }
        let mut wrong = right;
        match self.0 {
            "collateral: days are netted before they are chosen"
            | "collateral: both markets choose together"
            | "collateral: a zero entry chooses a day"
            | "collateral: g counts"
            | "collateral: g − 31 counts"
            | "collateral: an updated program is money"
            | "collateral: a day's debt may be negative" => {
                let debts = self.debts(&decoded(book).expect("a book"), case);
                let k = if case.nonbusiness <= 2 { 3 } else { 1 + case.nonbusiness };
                let q = if case.holiday == 1 && k > 3 { 3 } else { 4 };
                let dividend = debts * (20 + i128::from(case.defaults)) * q;
                wrong.trading = ((dividend + 79) / 80) as u64;
            }
            "collateral: trading rounds down" => {
                let exact = self.debts(&decoded(book).expect("a book"), case);
                let q = if case.holiday == 1 && case.nonbusiness > 2 { 3 } else { 4 };
                wrong.trading = (exact * (20 + i128::from(case.defaults)) * q / 80) as u64;
            }
            "collateral: a holiday counts with k 3 too" if case.nonbusiness <= 2 => {
                let other = Case { holiday: 0, ..*case };
                let whole = Second.collateral(book, &other).trading;
                if case.holiday == 1 {
                    wrong.trading = (whole * 3).div_ceil(4);
                }
            }
            "collateral: the latest month only" if case.used > 1 => {
                wrong.imbalance = Second.collateral(book, &Case { used: 1, ..*case }).imbalance;
            }
            "collateral: RT although not responsible" => wrong.risk = case.rt,
            "collateral: YEK without the floor" if case.score == case.best => wrong.yek = 0,
            "collateral: margin and trading are added" => {
                wrong.total += right.margin.min(right.trading)
            }
            _ => (),
        }
        if wrong != right && !self.slips("collateral: margin and trading are added") {
            let items = wrong.imbalance + wrong.risk + wrong.yek;
            wrong.total = wrong.margin.max(wrong.trading) + items;
        }
        wrong
    }

    fn control(&self, book: &mut [u8], day: u32) -> Controlled {
        let mut scratch = book.to_vec();
        let right = Second.control(&mut scratch, day);
        if right.answer != 0 || !self.0.starts_with("control: ") {
            book.copy_from_slice(&scratch);
            return right;
        }
        let mut work = decoded(book).expect("a book");
        let answer = self.wrong_control(&mut work, day);
        stored(&work, book);
        answer
    }

    fn read_file(&self, book: &mut [u8], file: &[u8]) -> FileRead {
        let before = book.to_vec();
        let right = Second.read_file(book, file);
        if self.slips("read_file: the lines before a faulty one stay") && right.answer >= 3 {
            // The first line of the file, where it is good.
            let first = words(file).filter(|w| w.len() >= 5 && w[0] >> 16 & 0xFFF > 0);
            if let Some(w) = first {
                Second.post(
                    book,
                    Post {
                        party: w[0] & 0xFFFF,
                        day: w[1] & 0x0FFF_FFFF,
                        entry_type: w[2] & 0xFF,
                        counterparty: w[2] >> 8 & 0xFFFF,
                        amount: u64::from(w[3] & 0x0FFF_FFFF) + (u64::from(w[4] & 0xFFFF) << 28),
                    },
                );
            }
        }
        if self.slips("read_file: an empty block is not checked") && (3..=4).contains(&right.answer)
        {
            let w = words(file).expect("words");
            if w.len() == 2 {
                return FileRead { answer: 0, posted: 0 };
            }
        }
        if right.answer == 2 && self.slips("read_file: bit 16 of an amount is not spare") {
            let shown = words(file).map(|mut w| {
                w.iter_mut().filter(|x| **x >> 28 == 5).for_each(|x| *x &= !(1 << 16));
                bytes(&w)
            });
            if let Some(shown) = shown {
                return Second.read_file(book, &shown);
            }
        }
        if right.answer != 1 && self.slips("read_file: bit 12 of an amount is spare") {
            let bit = |w: &u32| w >> 28 == 5 && w >> 12 & 0xF != 0;
            if words(file).is_some_and(|w| w.iter().any(bit)) {
                book.copy_from_slice(&before);
                return FileRead { answer: 2, posted: 0 };
            }
        }
        let (own, other) = match (self.0, right.answer) {
            ("read_file: no updated programs", 0 | 3..=9) => (22, 23),
            ("read_file: an updated program up to 10^13", 7) => (22, 20),
            ("read_file: type 21", 5) => (21, 20),
            ("read_file: type 23", 5) => (23, 22),
            _ => (0, 0),
        };
        if own > 0 {
            book.copy_from_slice(&before);
            return read_as(book, file, own, other);
        }
        if self.slips("read_file: a length above 65,536")
            && right.answer == 2
            && file.len() > 65_536
        {
            return FileRead { answer: 9, posted: 0 };
        }
        if self.slips("read_file: a file of 65,536 bytes is refused") && file.len() == 65_536 {
            book.copy_from_slice(&before);
            let answer = if Second.is_book(&before) == 1 { 2 } else { 1 };
            return FileRead { answer, posted: 0 };
        }
        if self.slips("read_file: the room before the lines") && (3..9).contains(&right.answer) {
            let lines = words(file).expect("words").iter().filter(|w| **w >> 28 == 3).count();
            let entries = Second.count(book).count as usize;
            if entries + lines > second::room(book.len() / 4) {
                return FileRead { answer: 9, posted: 0 };
            }
        }
        if self.slips("read_file: lines are read from the front each time") && right.posted > 1 {
            let at = 4 * (3 + 5 * (Second.count(&before).count as usize));
            let first = book[at..at + 20].to_vec();
            book[at + 20..at + 40].copy_from_slice(&first);
        }
        if self.slips("read_file: the file is written") && !file.is_empty() {
            // Past the compiler, as an engine in another language would.
            let at = std::hint::black_box(file.as_ptr() as usize) as *mut u8;
            unsafe {
                at.write_volatile(at.read_volatile() ^ 1);
            }
        }
        right
    }
}

impl Wrong {
    /// The debts D of a case, with the slip.
    fn debts(&self, book: &Book, case: &Case) -> i128 {
        let k = if case.nonbusiness <= 2 { 3 } else { 1 + case.nonbusiness as usize };
        let mut markets: [BTreeMap<u32, (i128, bool)>; 2] = Default::default();
        for e in &book.entries {
            let mut window = e.day < case.day && case.day - e.day <= 30;
            if self.slips("collateral: g counts") && e.day == case.day {
                window = true;
            }
            if self.slips("collateral: g − 31 counts") && case.day == e.day + 31 {
                window = true;
            }
            let update =
                self.slips("collateral: an updated program is money") && e.entry_type == 22;
            let money = (17..=20).contains(&e.entry_type) || update;
            if e.party != case.party || !e.stands() || !money || !window {
                continue;
            }
            let market = if e.entry_type <= 18 { 0 } else { 1 };
            let sign = if e.entry_type % 2 == 1 { 1 } else { -1 };
            let day = markets[market].entry(e.day).or_default();
            day.0 += sign * i128::from(e.amount);
            day.1 |= e.amount > 0 || self.slips("collateral: a zero entry chooses a day");
        }
        let mut nets: BTreeMap<u32, i128> = BTreeMap::new();
        if self.slips("collateral: both markets choose together") {
            let mut days: BTreeSet<u32> = BTreeSet::new();
            for market in &markets {
                days.extend(market.iter().filter(|(_, d)| d.1).map(|(day, _)| *day));
            }
            for day in days.into_iter().rev().take(k) {
                for market in &markets {
                    *nets.entry(day).or_default() += market.get(&day).map_or(0, |d| d.0);
                }
            }
        } else {
            for market in &markets {
                let chosen = market.iter().rev().filter(|(_, d)| {
                    if self.slips("collateral: days are netted before they are chosen") {
                        d.0 != 0
                    } else {
                        d.1
                    }
                });
                for (day, d) in chosen.take(k) {
                    *nets.entry(*day).or_default() += d.0;
                }
            }
        }
        if self.slips("collateral: a day's debt may be negative") {
            nets.values().sum::<i128>().max(0)
        } else {
            nets.values().map(|net| (*net).max(0)).sum()
        }
    }

    /// A control with the slip.
    fn wrong_control(&self, book: &mut Book, day: u32) -> Controlled {
        let slips = |slip: &str| self.0 == slip;
        let balance = |book: &Book, party: u32| -> i64 {
            let mut w = vec![0; 3 + 5 * book.entries.len()];
            second::encode(book, &mut w);
            if slips("control: the delivery balance") {
                second::delivery(&w, party, day).balance
            } else if slips("control: an updated program counts") {
                with_program(&bytes(&w), (party, day), true, i64::max)
            } else {
                second::day_ahead(&w, party, day).balance
            }
        };
        let is_sale = |e: &Entry| {
            let export = slips("control: exports are cancelled too") && e.entry_type == 6;
            e.day == day && e.stands() && (e.is_sale_to_party() || export)
        };
        let mut named: BTreeSet<u32> = BTreeSet::new();
        for e in book.entries.iter().filter(|e| !e.is_mark()) {
            named.extend([e.party, e.counterparty]);
        }
        named.remove(&0);

        let mut cancelled = 0;
        let mut first: BTreeSet<u32> = BTreeSet::new();
        let cancel = |book: &mut Book, sellers: &BTreeSet<u32>, cancelled: &mut u32| {
            for e in &mut book.entries {
                if is_sale(e) && sellers.contains(&e.party) {
                    e.status = second::CANCELLED;
                    *cancelled += 1;
                }
            }
        };
        if slips("control: a lost purchase inside the first pass") {
            for party in &named {
                if balance(book, *party) > 0 {
                    first.insert(*party);
                    cancel(book, &first, &mut cancelled);
                }
            }
        } else {
            for party in &named {
                let sells = book.entries.iter().any(|e| e.party == *party && is_sale(e));
                let counts = sells || !slips("control: only bilateral sellers are counted");
                if balance(book, *party) > 0 && counts {
                    first.insert(*party);
                }
            }
            cancel(book, &first, &mut cancelled);
        }

        let mut days: BTreeMap<(u32, u32), BTreeSet<u32>> = BTreeMap::new();
        for e in book.entries.iter().filter(|e| e.status == second::CANCELLED) {
            let same = if slips("control: months of thirty days") {
                e.day / 30 == day / 30
            } else if slips("control: one month of all begins a day late") {
                let late = |d: u32| if d == 13_666 { period_of(d - 1) } else { period_of(d) };
                late(e.day) == late(day)
            } else if slips("control: any month") {
                true
            } else if slips("control: a calendar without leap days") {
                let month = |d: u32| {
                    let of_year = d % 365;
                    let ends = [31, 59, 90, 120, 151, 181, 212, 243, 273, 304, 334, 365];
                    (d / 365, ends.iter().position(|end| of_year < *end))
                };
                month(e.day) == month(day)
            } else if slips("control: earlier days only") {
                e.day <= day && period_of(e.day) == period_of(day)
            } else {
                period_of(e.day) == period_of(day)
            };
            if same {
                let pair = if slips("control: any seller of the buyer") {
                    (0, e.counterparty)
                } else {
                    (e.party, e.counterparty)
                };
                days.entry(pair).or_default().insert(e.day);
            }
        }
        let mut buyers: BTreeSet<u32> = BTreeSet::new();
        for ((_, buyer), days) in days {
            let other = days.len() > 1 || slips("control: every pair repeats");
            if days.contains(&day) && other {
                buyers.insert(buyer);
            }
        }
        if slips("control: no second pass") {
            buyers.clear();
        }
        if slips("control: a party is detected once only") {
            buyers = buyers.difference(&first).copied().collect();
        }
        let second: BTreeSet<u32> =
            buyers.into_iter().filter(|buyer| balance(book, *buyer) > 0).collect();
        cancel(book, &second, &mut cancelled);
        if slips("control: a third pass") && !second.is_empty() {
            let third: BTreeSet<u32> =
                named.iter().copied().filter(|party| balance(book, *party) > 0).collect();
            cancel(book, &third, &mut cancelled);
        }
        if !slips("control: no mark") {
            book.entries.push(Entry::mark(day));
        }
        let count = second.len() as u32;
        Controlled {
            answer: 0,
            first: first.len() as u32,
            second: count,
            cancelled: if slips("control: counts parties, not entries") {
                first.len() as u32 + count
            } else {
                cancelled
            },
        }
    }
}

const SLIPS: [&str; 150] = [
    "is_book: status 3 is allowed",
    "is_book: a cancelled export is allowed",
    "is_book: more than 3,072 entries are allowed",
    "is_book: bits above the party are not read",
    "is_book: bits above an amount are not read",
    "is_book: money up to 10^12 only",
    "is_book: no updated programs",
    "is_book: an updated program up to 10^13",
    "is_book: an updated program with a counterparty",
    "is_book: type 21 with figures",
    "is_book: type 23",
    "is_book: bytes behind the words are not read",
    "open: clears the words behind",
    "open: writes on a refusal",
    "open: ranges before the length",
    "open_default: the old coefficient",
    "open_default: the old tolerance",
    "open_default: R and TM are swapped",
    "post: reaches the book on the first call only",
    "post: the high bits of an amount are lost",
    "post: the low word is cut at 27 bits",
    "post: a high word of twelve bits",
    "post: money up to 10^12 only",
    "post: a kuruş above the limit",
    "post: a volume up to 10^12",
    "post: no updated programs",
    "post: an updated program up to 10^13",
    "post: an updated program with a counterparty",
    "post: an updated program on a closed day is refused",
    "post: type 21",
    "post: type 23",
    "post: a closed day refuses exports too",
    "post: a party is cut to sixteen bits",
    "post: a number on a refusal",
    "post: no room where the slice has just one place left",
    "post: a byte outside the slice is written",
    "withdraw: a cancelled sale",
    "withdraw: a mark",
    "withdraw: on a closed day",
    "withdraw: a mark behind the last entry closes its day",
    "withdraw: an updated program of a closed day is refused",
    "count: without marks",
    "entry: marks are not read",
    "entry: reads the words behind the last",
    "tally: the party on a refusal",
    "tally: exports count",
    "tally: withdrawn entries count",
    "tally: the last sum is lost",
    "tally: updates are in sum 12",
    "tally: the latest update only",
    "day_ahead: intraday counts",
    "day_ahead: the larger of program and update",
    "day_ahead: the words behind the last entry are read",
    "delivery: the tolerance goes to the sale side",
    "delivery: tender and import are added",
    "delivery: the larger of bought and notified",
    "delivery: whole kWh",
    "delivery: program and update are added",
    "delivery: the smaller of program and update",
    "delivery: the update alone",
    "delivery: the program alone",
    "delivery: any update instead of the program",
    "detected: zero too",
    "ceiling: below only",
    "ceiling: halves lost",
    "ceiling: 32 bits",
    "first_day: the table's months only",
    "first_day: a month more",
    "first_day: refused as a day",
    "first_day: 2100 is a leap year",
    "first_day: 2000 is no leap year",
    "first_day: a year begins in December",
    "month: rows × hours wraps",
    "month: prices without weights",
    "month: halves down",
    "month: a weight below zero is one less",
    "month: no imbalance weighs one",
    "month: secondary control is added",
    "month: the first group",
    "month: hour after hour",
    "month_report: 12 before 1",
    "month_report: refused as a day",
    "month_report: the month on a refusal",
    "month_report: month 1,200 is given",
    "month_report: a month is cut to sixteen bits",
    "month_report: exports are left out",
    "month_report: exports are left out of the totals",
    "month_report: a sale counts for its buyer too",
    "month_report: withdrawn entries count",
    "month_report: cancelled entries count",
    "month_report: cancelled entries are in the totals",
    "month_report: the first party alone",
    "month_report: the latest entry alone",
    "month_report: the words behind the last entry are read",
    "month_report: the day before counts",
    "month_report: the day after counts",
    "month_report: months of thirty days",
    "month_report: Februaries of 28 days",
    "month_report: days from 1 on",
    "month_report: the totals miss the first day",
    "month_report: the totals miss the last day",
    "month_report: the totals are in the last line",
    "month_report: no totals",
    "month_report: totals of the whole book",
    "month_report: updates are left out",
    "month_report: updates are in sum 12",
    "month_report: updates come before money",
    "month_report: money is left out",
    "month_report: sums of 32 bits",
    "month_report: the high word of an amount is lost",
    "collateral: months that are not used are held to their range",
    "collateral: capacity is free for a supplier",
    "collateral: days are netted before they are chosen",
    "collateral: both markets choose together",
    "collateral: a zero entry chooses a day",
    "collateral: g counts",
    "collateral: g − 31 counts",
    "collateral: an updated program is money",
    "collateral: a day's debt may be negative",
    "collateral: trading rounds down",
    "collateral: a holiday counts with k 3 too",
    "collateral: the latest month only",
    "collateral: RT although not responsible",
    "collateral: YEK without the floor",
    "collateral: margin and trading are added",
    "control: the delivery balance",
    "control: an updated program counts",
    "control: exports are cancelled too",
    "control: a lost purchase inside the first pass",
    "control: only bilateral sellers are counted",
    "control: months of thirty days",
    "control: any month",
    "control: a calendar without leap days",
    "control: earlier days only",
    "control: any seller of the buyer",
    "control: every pair repeats",
    "control: no second pass",
    "control: a party is detected once only",
    "control: a third pass",
    "control: no mark",
    "control: counts parties, not entries",
    "read_file: the lines before a faulty one stay",
    "read_file: an empty block is not checked",
    "read_file: bit 16 of an amount is not spare",
    "read_file: bit 12 of an amount is spare",
    "read_file: no updated programs",
    "read_file: an updated program up to 10^13",
    "read_file: type 21",
    "read_file: type 23",
    "read_file: the room before the lines",
];

const RARE_SLIPS: [&str; 5] = [
    "control: one month of all begins a day late",
    "read_file: a length above 65,536",
    "read_file: a file of 65,536 bytes is refused",
    "read_file: lines are read from the front each time",
    "read_file: the file is written",
];

/// Each slip is found in a default run's rounds.
#[test]
fn every_slip_is_found() {
    let mut missed = Vec::new();
    for slip in SLIPS.into_iter().chain(RARE_SLIPS) {
        let asked = slip.split(':').next().expect("a call");
        let name = NAMES.into_iter().find(|name| *name == asked).expect("a call");
        let counts = single(&Wrong(slip), &searching(200_000), name);
        println!("{slip}: {} of {}", counts.failed, counts.compared);
        if counts.failed == 0 {
            missed.push(slip);
        }
    }
    assert!(missed.is_empty(), "{missed:?}");
}

/// A slip of one call is no difference of another.
#[test]
fn a_slip_is_found_in_its_own_call_only() {
    let engine = Wrong("withdraw: a mark");
    for name in NAMES {
        let failed = single(&engine, &quiet(5_000), name).failed;
        assert_eq!(failed > 0, name == "withdraw", "{name}");
    }
}

#[test]
fn slips_are_found_in_lists() {
    for (slip, name) in [
        ("post: reaches the book on the first call only", "post"),
        ("post: no updated programs", "post"),
        ("withdraw: on a closed day", "withdraw"),
        ("delivery: the program alone", "delivery"),
        ("month_report: withdrawn entries count", "month_report"),
        ("control: an updated program counts", "control"),
        ("control: no second pass", "control"),
        ("control: no mark", "control"),
        ("read_file: the lines before a faulty one stay", "read_file"),
    ] {
        let counts = lists(&Wrong(slip), &searching(200_000));
        for (call, counts) in counts {
            assert_eq!(counts.failed, u64::from(call == name), "{slip}: {call}");
        }
    }
}

// The guards

/// Reads the byte just outside the lent book, by its calls on bytes or on words.
struct Stray {
    how: &'static str,
    words: bool,
}

impl Stray {
    fn stray(&self, book: &[u8]) {
        let (first, behind) = (book.as_ptr(), book.as_ptr().wrapping_add(book.len()));
        let at = match (self.how, self.words) {
            ("behind", false) | ("behind words", true) => behind,
            ("before", false) => first.wrapping_sub(1),
            _ => return,
        };
        std::hint::black_box(unsafe { at.read_volatile() });
    }
}

impl Engine for Stray {
    fn on_words(&self) -> Stray {
        Stray { words: true, ..*self }
    }

    fn count(&self, book: &[u8]) -> Counted {
        self.stray(book);
        Second.count(book)
    }

    as_second! {
        is_book(book: &[u8]) -> u32;
        open(book: &mut [u8], coefficient: u32, tolerance: u32) -> u32;
        open_default(book: &mut [u8]) -> u32;
        post(book: &mut [u8], post: Post) -> Posted;
        withdraw(book: &mut [u8], number: u32) -> u32;
        entry(book: &[u8], number: u32) -> EntryRead;
        tally(book: &[u8], party: u32, day: u32) -> TallyAnswer;
        day_ahead(book: &[u8], party: u32, day: u32) -> BalanceAnswer;
        delivery(book: &[u8], party: u32, day: u32) -> BalanceAnswer;
        detected(balance: i64) -> u32;
        ceiling(offer: u32, bilateral: u32, futures: u32, capacity: u32) -> CeilingAnswer;
        first_day(month: u32) -> FirstDayAnswer;
        month(tables: Tables) -> MonthAnswer;
        month_report(book: &[u8], month: u32) -> MonthReport;
        collateral(book: &[u8], case: &Case) -> Collateral;
        control(book: &mut [u8], day: u32) -> Controlled;
        read_file(book: &mut [u8], file: &[u8]) -> FileRead;
    }
}

/// Run by the next test in a process of its own, which ends with a fault.
#[test]
#[ignore]
fn strays() {
    let Ok(how) = std::env::var("COMPARE_STRAY") else {
        return;
    };
    fault::watch();
    let stray = |how| drop(single(&Stray { how, words: false }, &quiet(100), "count"));
    match how.as_str() {
        "behind" => stray("behind"),
        "before" => stray("before"),
        "behind words" => stray("behind words"),
        "aborts" => std::process::abort(),
        _ => {
            fault::limit(1);
            std::thread::sleep(std::time::Duration::from_secs(20));
        }
    }
}

#[cfg(target_os = "linux")]
#[test]
fn reads_outside_a_slice_end_the_run() {
    let program = std::env::current_exe().expect("this program");
    for how in ["behind", "before", "behind words", "aborts", "without end"] {
        let output = std::process::Command::new(&program)
            .args(["--exact", "tests::strays", "--ignored", "--nocapture", "--test-threads", "1"])
            .env("COMPARE_STRAY", how)
            .output()
            .expect("runs");
        let text = String::from_utf8_lossy(&output.stdout);
        assert_eq!(output.status.code(), Some(1), "{how}: {text}");
        assert!(text.contains("the engine did not come back"), "{how}: {text}");
        assert_eq!(text.contains(" on words, seed"), how == "behind words", "{how}: {text}");
        assert!(text.ends_with("passed, 1 failed\n"), "{how}: {text}");
    }
}

#[test]
fn an_answer_is_compared_with_its_figures() {
    let mut lent = Lent::new();
    let mut rng = Rng::of_round(1, "test", 0);
    let mut book = bytes(&[0x6000_0000, 0x7000_006E, 0x8009_27C0]);
    lent.lend_book(&mut rng, &book);
    let call = Call::Delivery { party: 1, day: 0 };
    let answer = lent.compare(&Second, &mut rng, &mut book, &call).expect("alike");
    assert_eq!(answer.cause(), 0);
    let slip = Wrong("delivery: the tolerance goes to the sale side");
    assert!(lent.compare(&slip, &mut rng, &mut book, &call).is_ok());
    // With a cover above the tolerance the two differ.
    let mut book = vec![0; 4 * 8];
    Second.open_default(&mut book);
    let cover = Post { party: 1, day: 0, entry_type: 7, counterparty: 0, amount: 600_000 };
    Second.post(&mut book, cover);
    lent.lend_book(&mut rng, &book);
    assert!(lent.compare(&slip, &mut rng, &mut book, &call).is_err());
}
