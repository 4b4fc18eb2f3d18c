//! What a call met, for the report.

use crate::call::{Answer, Call};
use crate::engine::words;
use crate::sizes::ARRAYS;
use second::{room, Entry};

/// What a call on this book met, so that the report shows what the draws reach.
pub fn met(call: &Call, book: &[u8], answer: &Answer) -> Vec<&'static str> {
    let mut met = of_answer(call, answer);
    if call.is_on_a_book() {
        met.extend(of_book(book));
    }
    met.extend(of_lines(call, book, answer));
    met.extend(of_report(book, answer));
    if call.has_words(book) {
        met.push("on words");
    }
    met
}

/// By array: books of about its size in a longer slice, in one of just their
/// words and in a shorter one; files that bring a book there and fit, or do not.
const ABOUT: [[&str; 5]; 4] = [
    [
        "about 25 entries in a longer slice",
        "about 25 entries in a slice as long",
        "about 25 entries in a shorter slice",
        "lines to about 25 entries fit",
        "lines to about 25 entries too many",
    ],
    [
        "about 127 entries in a longer slice",
        "about 127 entries in a slice as long",
        "about 127 entries in a shorter slice",
        "lines to about 127 entries fit",
        "lines to about 127 entries too many",
    ],
    [
        "about 768 entries in a longer slice",
        "about 768 entries in a slice as long",
        "about 768 entries in a shorter slice",
        "lines to about 768 entries fit",
        "lines to about 768 entries too many",
    ],
    [
        "about 3,072 entries in a longer slice",
        "about 3,072 entries in a slice as long",
        "about 3,072 entries in a shorter slice",
        "lines to about 3,072 entries fit",
        "lines to about 3,072 entries too many",
    ],
];

/// The labels of the array that so many entries are about: one less to two more.
fn about(entries: usize) -> Option<&'static [&'static str; 5]> {
    let array = ARRAYS.iter().position(|array| (array - 1..array + 3).contains(&entries))?;
    Some(&ABOUT[array])
}

/// The number of entries that the first word says; None where there is none.
fn stated(book: &[u8]) -> Option<usize> {
    let first = u32::from_le_bytes(book.get(..4)?.try_into().ok()?);
    (first >> 28 == 6).then_some((first & 0x0FFF_FFFF) as usize)
}

/// What a book's number of entries is beside its slice.
fn of_book(book: &[u8]) -> Vec<&'static str> {
    let mut met = Vec::new();
    let Some(entries) = stated(book).filter(|_| book.len() % 4 == 0) else {
        return met;
    };
    let used = 4 * (3 + 5 * entries);
    if let Some(labels) = about(entries) {
        met.push(match book.len() {
            length if length > used => labels[0],
            length if length == used => labels[1],
            _ => labels[2],
        });
    }
    if entries > room(book.len() / 4) {
        met.push("more entries than room");
    } else if let Some(behind) = book.get(used..used + 20) {
        // A book of these five words alone: are they an entry's?
        let alone = [&[0x6000_0001, 0x7000_0000, 0x8000_0000][..], &words(behind).expect("words")];
        let entry = second::is_book(&alone.concat());
        met.push(if entry { "an entry's words behind" } else { "other words behind" });
    }
    met
}

/// Whether a file's lines bring a book about an array's size.
fn of_lines(call: &Call, book: &[u8], answer: &Answer) -> Option<&'static str> {
    let (Call::ReadFile { file }, 0 | 9) = (call, answer.cause()) else {
        return None;
    };
    let lines = words(file)?.iter().filter(|word| **word >> 28 == 3).count();
    let labels = about(stated(book)? + lines).filter(|_| lines > 0)?;
    Some(if answer.cause() == 0 { labels[3] } else { labels[4] })
}

/// What a report has in its lines, and what of the book it leaves out.
fn of_report(book: &[u8], answer: &Answer) -> Vec<&'static str> {
    let Answer::MonthReport(report) = answer else {
        return Vec::new();
    };
    let Some(entries) = words(book).and_then(|w| second::decode(&w)).map(|book| book.entries)
    else {
        return Vec::new();
    };
    if report.answer != 0 {
        return Vec::new();
    }
    let mut met = vec![match report.days {
        28 => "28 days",
        29 => "29 days",
        30 => "30 days",
        _ => "31 days",
    }];
    let (first, after) = (report.first_day, report.first_day + report.days);
    let some = |line: u32| report.lines[line as usize].iter().any(|sum| *sum > 0);
    let has = |test: &dyn Fn(&Entry) -> bool| entries.iter().any(test);
    let of_month = |e: &Entry| e.day >= first && e.day < after;
    for (holds, label) in [
        (!some(report.days), "no figures"),
        (some(0), "figures of the first day"),
        (some(report.days - 1), "figures of the last day"),
        ((0..report.days).filter(|day| some(*day)).count() > 9, "figures of ten days or more"),
        (has(&|e| e.day + 1 == first && e.stands() && e.amount > 0), "the day before"),
        (has(&|e| e.day == after && e.stands() && e.amount > 0), "the day after"),
        (report.lines[report.days as usize][20] > 0, "updated program"),
        (has(&|e| of_month(e) && e.stands() && e.is_export() && e.amount > 0), "export"),
        (has(&|e| of_month(e) && e.status == second::WITHDRAWN && e.amount > 0), "withdrawn"),
        (has(&|e| of_month(e) && e.status == second::CANCELLED && e.amount > 0), "cancelled"),
        (has(&|e| of_month(e) && e.is_mark()), "mark"),
    ] {
        if holds {
            met.push(label);
        }
    }
    met
}

/// What an answer says.
fn of_answer(call: &Call, answer: &Answer) -> Vec<&'static str> {
    let mut met = Vec::new();
    let mut when = |holds: bool, label: &'static str| {
        if holds {
            met.push(label);
        }
    };
    match (call, answer) {
        (Call::IsBook, Answer::Flag(flag)) => {
            when(*flag == 1, "a book");
            when(*flag == 0, "no book");
        }
        (Call::Detected { .. }, Answer::Flag(flag)) => {
            when(*flag == 1, "detected");
            when(*flag == 0, "clear");
        }
        (_, answer) if answer.cause() != 0 => (),
        (_, Answer::Balance(a)) => {
            when(a.balance > 0, "above zero");
            when(a.balance > 0 && a.balance <= 100, "above by a kWh or less");
            when(a.balance == 0, "zero");
            when(a.balance < 0 && a.balance >= -100, "below by a kWh or less");
            when(a.balance < 0, "below zero");
        }
        (_, Answer::Tally(a)) => {
            let (program, update) = (a.sums[11], a.sums[16]);
            when(a.bought > 0, "bought bilaterally");
            when(a.sums[5] > 0, "sold bilaterally");
            when(update > program, "update above program");
            when(update > 0 && update == program, "update like program");
            when(update > 0 && update < program, "update below program");
            when(a.sums.iter().all(|s| *s == 0) && a.bought == 0, "nothing");
        }
        (_, Answer::EntryRead(a)) => {
            when(a.entry_type == second::MARK, "mark");
            when(a.entry_type == second::UPDATED_PROGRAM, "updated program");
            when(a.status == second::WITHDRAWN, "withdrawn");
            when(a.status == second::CANCELLED, "cancelled");
        }
        (Call::Post(post), Answer::Posted(_)) => {
            when(post.entry_type == second::UPDATED_PROGRAM, "updated program");
        }
        (_, Answer::Ceiling(a)) => {
            when(a.recordable == 1, "recordable");
            when(a.recordable == 0, "not recordable");
        }
        (_, Answer::FirstDay(a)) => {
            when(a.day <= second::LAST_DAY, "a day of the table");
            when(a.day > second::LAST_DAY, "a later day");
        }
        (Call::Month { prices, imbalance, .. }, Answer::Month(a)) => {
            when(prices.is_empty(), "no hours");
            when(a.aedm < 0, "short");
            let (half, weight) = half_and_weight(prices, imbalance);
            when(weight == 0, "no imbalance");
            when(half, "an exact half");
        }
        (Call::Collateral(case), Answer::Collateral(a)) => {
            when(a.trading > 0, "trading");
            when(a.trading > a.margin, "trading above margin");
            when(a.trading > 0 && case.holiday == 1 && case.nonbusiness > 2, "q 3");
            when(a.imbalance > 0, "imbalance");
            when(a.risk > 0, "risk");
            when(a.yek > 0, "YEK");
            when(case.responsible == 0, "not responsible");
            when(case.licence == 2, "generation");
        }
        (_, Answer::Controlled(a)) => {
            when(a.first > 0, "detected first");
            when(a.second > 0, "detected second");
            when(a.cancelled > 0, "cancelled");
            when(a.first == 0, "nobody detected");
        }
        (Call::ReadFile { file }, Answer::FileRead(a)) => {
            let update = |word: &u32| word >> 28 == 3 && word & 0xFF == second::UPDATED_PROGRAM;
            when(a.posted > 0, "lines posted");
            when(words(file).is_some_and(|w| w.iter().any(update)), "updated program");
            when(a.posted == 0 && !file.is_empty(), "blocks without lines");
            when(file.is_empty(), "empty file");
            when(file.len() >= 65_000, "near 65,536 bytes");
        }
        _ => (),
    }
    met
}

/// Whether a month's average lies exactly between two whole figures, and its divisor.
fn half_and_weight(prices: &[u8], imbalance: &[u8]) -> (bool, u128) {
    let (Some(prices), Some(imbalance)) = (words(prices), words(imbalance)) else {
        return (false, 0);
    };
    let (mut weighted, mut weight) = (0_u128, 0_u128);
    for (i, value) in imbalance.iter().enumerate() {
        let size = u128::from((*value as i32).unsigned_abs());
        weighted += size * u128::from(prices[i % prices.len()]);
        weight += size;
    }
    (weight > 0 && 2 * (weighted % weight) == weight, weight)
}
