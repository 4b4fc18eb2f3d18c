//! The day file, and what the programs "balance" and "month" print for one.

use crate::answers::FileRead;
use crate::balance::{day_ahead, delivery};
use crate::book::{
    decode, encode, fault_in, field, open_default, room, Entry, HIGH_BITS, LAST_DAY, LAST_PARTY,
    MOST_ENTRIES, STANDING,
};
use crate::report::{month_report, LAST_MONTH};
use std::collections::BTreeSet;

pub const MOST_FILE_BYTES: usize = 65_536;

/// A party's day with its lines, each as the entry it asks for.
struct Block {
    party: u32,
    day: u32,
    lines: Vec<Entry>,
}

/// The blocks of a file; None if its length, kinds, spare or status bits or its
/// ending are wrong.
fn blocks(file: &[u8]) -> Option<Vec<Block>> {
    if file.len() > MOST_FILE_BYTES || file.len() % 4 != 0 {
        return None;
    }
    let words: Vec<u32> =
        file.chunks(4).map(|b| u32::from_le_bytes([b[0], b[1], b[2], b[3]])).collect();
    let mut left = words.iter().copied();
    let mut blocks = Vec::new();
    while let Some(head) = left.next() {
        let head = field(head, 1, 28)?;
        let party = head & 0xFFFF;
        let number = head >> 16;
        let day = field(left.next()?, 2, 28)?;
        let mut lines = Vec::new();
        for _ in 0..number {
            // 24 bits: type and counterparty; a status or spare bit is none of them.
            let what = field(left.next()?, 3, 24)?;
            let low = field(left.next()?, 4, 28)?;
            let high = field(left.next()?, 5, HIGH_BITS)?;
            lines.push(Entry {
                party,
                day,
                entry_type: what & 0xFF,
                counterparty: what >> 8,
                status: STANDING,
                amount: u64::from(low) + (u64::from(high) << 28),
            });
        }
        blocks.push(Block { party, day, lines });
    }
    Some(blocks)
}

/// Posts all lines of a day file, or none.
pub fn read_file(words: &mut [u32], file: &[u8]) -> FileRead {
    let refused = |answer| FileRead { answer, posted: 0 };
    let Some(mut book) = decode(words) else {
        return refused(1);
    };
    let Some(blocks) = blocks(file) else {
        return refused(2);
    };
    // In file order, the first faulty line or empty block.
    let mut lines = Vec::new();
    for block in &blocks {
        if block.lines.is_empty() {
            if block.party < 1 || block.party > LAST_PARTY {
                return refused(3);
            }
            if block.day > LAST_DAY {
                return refused(4);
            }
        }
        for line in &block.lines {
            let cause = fault_in(&book, line);
            if cause != 0 {
                return refused(cause);
            }
            lines.push(*line);
        }
    }
    if book.entries.len() + lines.len() > room(words.len()) {
        return refused(9);
    }
    let posted = lines.len() as u32;
    book.entries.extend(lines);
    encode(&book, words);
    FileRead { answer: 0, posted }
}

/// The parties and days that a well-shaped file names, counterparties above 0
/// included, by party, then day, each once. A file of wrong shape names none.
pub fn named(file: &[u8]) -> Vec<(u32, u32)> {
    let mut pairs = BTreeSet::new();
    for block in blocks(file).unwrap_or_default() {
        pairs.insert((block.party, block.day));
        for line in block.lines {
            if line.counterparty > 0 {
                pairs.insert((line.counterparty, line.day));
            }
        }
    }
    pairs.into_iter().collect()
}

/// A default book of 3,072 entries into which the file was read, or what is printed where it is refused.
fn book_of(file: &[u8]) -> Result<Vec<u32>, Vec<u8>> {
    let mut words = vec![0; 3 + 5 * MOST_ENTRIES];
    open_default(&mut words);
    match read_file(&mut words, file).answer {
        0 => Ok(words),
        cause => Err(refusal(cause)),
    }
}

fn refusal(cause: u32) -> Vec<u8> {
    format!("refused {cause}\n").into_bytes()
}

/// What the program "balance" prints for a file on its standard input.
pub fn balance_output(file: &[u8]) -> Vec<u8> {
    let words = match book_of(file) {
        Ok(words) => words,
        Err(text) => return text,
    };
    let mut text = String::from("party day ahead delivery\n");
    for (party, day) in named(file) {
        let ahead = day_ahead(&words, party, day).balance;
        let delivered = delivery(&words, party, day).balance;
        text.push_str(&format!("{party} {day} {ahead} {delivered}\n"));
    }
    text.into_bytes()
}

/// The month that the arguments name: one argument, of digits alone, 0 to 1,199.
fn month_asked(arguments: &[&str]) -> Option<u32> {
    let [digits] = arguments else {
        return None;
    };
    if digits.is_empty() || !digits.bytes().all(|byte| byte.is_ascii_digit()) {
        return None;
    }
    let without_zeros = digits.trim_start_matches('0');
    if without_zeros.len() > 4 {
        return None;
    }
    let month = format!("0{without_zeros}").parse().ok()?;
    (month <= LAST_MONTH).then_some(month)
}

/// What the program "month" prints for its arguments and a file on its standard input (document 02, T-01).
pub fn month_output(file: &[u8], arguments: &[&str]) -> Vec<u8> {
    let words = match book_of(file) {
        Ok(words) => words,
        Err(text) => return text,
    };
    let Some(month) = month_asked(arguments) else {
        return refusal(12);
    };
    let report = month_report(&words, month);
    let days = report.first_day..report.first_day + report.days;
    let mut text = String::new();
    // After the days, in the line of the totals, the month.
    for (number, line) in days.chain([month]).zip(report.lines) {
        text.push_str(&number.to_string());
        for sum in line {
            text.push_str(&format!(" {sum}"));
        }
        text.push('\n');
    }
    text.into_bytes()
}
