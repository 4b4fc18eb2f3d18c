//! A call made on both sides, on memory lent to the engine.

use crate::call::{Answer, Call};
use crate::engine::{Engine, Second, Tables, NULL_WHEN_EMPTY};
use crate::fault;
use crate::guard::{Arena, Place};
use crate::rng::Rng;
use crate::sizes::{MOST_BOOK, MOST_FILE, MOST_TABLE};
use std::sync::atomic::Ordering::Relaxed;

/// Makes a call on a book and on what else it is lent.
fn made(engine: &impl Engine, call: &Call, book: &mut [u8], beside: &[&[u8]]) -> Answer {
    match call {
        Call::IsBook => Answer::Flag(engine.is_book(book)),
        Call::Open { coefficient, tolerance } => {
            Answer::Plain(engine.open(book, *coefficient, *tolerance))
        }
        Call::OpenDefault => Answer::Plain(engine.open_default(book)),
        Call::Post(post) => Answer::Posted(engine.post(book, *post)),
        Call::Withdraw { number } => Answer::Plain(engine.withdraw(book, *number)),
        Call::Count => Answer::Counted(engine.count(book)),
        Call::Entry { number } => Answer::EntryRead(engine.entry(book, *number)),
        Call::Tally { party, day } => Answer::Tally(engine.tally(book, *party, *day)),
        Call::DayAhead { party, day } => Answer::Balance(engine.day_ahead(book, *party, *day)),
        Call::Delivery { party, day } => Answer::Balance(engine.delivery(book, *party, *day)),
        Call::Detected { balance } => Answer::Flag(engine.detected(*balance)),
        Call::Ceiling { offer, bilateral, futures, capacity } => {
            Answer::Ceiling(engine.ceiling(*offer, *bilateral, *futures, *capacity))
        }
        Call::FirstDay { month } => Answer::FirstDay(engine.first_day(*month)),
        Call::Month { rows, group, .. } => Answer::Month(engine.month(Tables {
            prices: beside[0],
            imbalance: beside[1],
            rows: *rows,
            dm: beside[2],
            group: *group,
        })),
        Call::MonthReport { month } => {
            Answer::MonthReport(Box::new(engine.month_report(book, *month)))
        }
        Call::Collateral(case) => Answer::Collateral(engine.collateral(book, case)),
        Call::Control { day } => Answer::Controlled(engine.control(book, *day)),
        Call::ReadFile { .. } => Answer::FileRead(engine.read_file(book, beside[0])),
    }
}

/// A call, the book before it, and what the second calculation makes of both.
struct Wanted<'a> {
    call: &'a Call,
    before: &'a [u8],
    answer: Answer,
    after: &'a [u8],
}

/// Memory that the engine is lent: a book, and a file or a month's tables.
struct Memory {
    /// Whether it is lent as words, at aligned addresses.
    words: bool,
    book: Arena,
    beside: [Arena; 3],
}

fn place(rng: &mut Rng, aligned: bool) -> Place {
    match rng.below(8) {
        0..=3 => Place::Back,
        4 => Place::Front,
        _ if aligned => Place::Between(4 * rng.index(3)),
        _ => Place::Between(rng.index(9)),
    }
}

impl Memory {
    fn new(words: bool) -> Memory {
        let beside = [MOST_FILE, MOST_TABLE, MOST_FILE].map(Arena::new);
        Memory { words, book: Arena::new(MOST_BOOK), beside }
    }

    /// Makes a call on this memory and compares answer, figures and every lent
    /// byte. Returns what is different.
    fn differences(&mut self, engine: &impl Engine, rng: &mut Rng, wanted: &Wanted) -> Vec<String> {
        let lent = wanted.call.beside();
        // A day file is bytes for either call.
        let aligned = self.words && lent.len() > 1;
        for (arena, (_, bytes)) in self.beside.iter_mut().zip(&lent) {
            arena.lend(bytes, place(rng, aligned));
        }
        fault::lends(self.words);
        let beside = self.beside.each_ref().map(Arena::bytes);
        let got = made(engine, wanted.call, self.book.bytes_mut(), &beside);

        let mut wrong = Vec::new();
        if got != wanted.answer {
            let (got, wanted) = (got.shown(), wanted.answer.shown());
            wrong.push(format!("answer {got}, second calculation {wanted}"));
        }
        if got.cause() != 0 && self.book.bytes() != wanted.before {
            wrong.push("the engine wrote on a refusal".to_string());
        }
        wrong.extend(written(&mut self.book, "book", wanted.after));
        for (arena, (what, bytes)) in self.beside.iter_mut().zip(lent) {
            wrong.extend(written(arena, what, bytes));
        }
        if self.words {
            wrong.iter_mut().for_each(|line| line.insert_str(0, "on words: "));
        }
        wrong
    }
}

/// What an arena has otherwise than it should, in the lent slice and around it.
fn written(arena: &mut Arena, what: &str, wanted: &[u8]) -> Vec<String> {
    let mut wrong = Vec::new();
    if let Some(at) = first_difference(arena.bytes(), wanted) {
        let (word, got, wanted) = (at / 4, arena.bytes()[at], wanted[at]);
        wrong.push(format!(
            "byte {at} of the {what} (word {word}) is {got:02x}, second calculation {wanted:02x}"
        ));
    }
    if let Some(at) = arena.broken_canary() {
        wrong.push(format!("byte {at} outside the {what} was written"));
    }
    wrong
}

/// The memory of the calls on bytes and that of the calls on words.
pub struct Lent {
    bytes: Memory,
    words: Memory,
}

impl Lent {
    pub fn new() -> Lent {
        Lent { bytes: Memory::new(false), words: Memory::new(true) }
    }

    /// Lends a book, as words too where it is whole words; both stay lent, and
    /// alike, from call to call.
    pub fn lend_book(&mut self, rng: &mut Rng, book: &[u8]) {
        self.bytes.book.lend(book, place(rng, false));
        if book.len() % 4 == 0 {
            self.words.book.lend(book, place(rng, true));
        }
    }

    /// Makes a call on both sides, the engine's on bytes and, where there is
    /// one, on words. The model is the second calculation's copy of the book.
    /// Returns the expected answer, or what is different.
    pub fn compare(
        &mut self,
        engine: &impl Engine,
        rng: &mut Rng,
        model: &mut [u8],
        call: &Call,
    ) -> Result<Answer, Vec<String>> {
        NULL_WHEN_EMPTY.store(rng.percent(50), Relaxed);
        let before = model.to_vec();
        let beside: Vec<&[u8]> = call.beside().into_iter().map(|(_, bytes)| bytes).collect();
        let answer = made(&Second, call, model, &beside);
        let wanted = Wanted { call, before: &before, answer, after: model };

        let mut wrong = self.bytes.differences(engine, rng, &wanted);
        if call.has_words(&before) {
            wrong.extend(self.words.differences(&engine.on_words(), rng, &wanted));
        }
        let Wanted { answer, after, .. } = wanted;
        if answer.cause() != 0 && *after != before[..] {
            wrong.push("the second calculation wrote on a refusal".to_string());
        }
        if wrong.is_empty() {
            Ok(answer)
        } else {
            Err(wrong)
        }
    }
}

fn first_difference(one: &[u8], other: &[u8]) -> Option<usize> {
    if one == other {
        return None;
    }
    one.iter().zip(other).position(|(a, b)| a != b)
}
