//! The words of a book, opening, posts and withdrawals.

use crate::answers::{Counted, EntryRead, Posted};

pub const MOST_ENTRIES: usize = 3_072;
pub const LAST_DAY: u32 = 36_524;
pub const LAST_PARTY: u32 = 999;
pub const BILATERAL_SALE: u32 = 6;
pub const PROGRAM: u32 = 12;
pub const MARK: u32 = 21;
/// The updated generation program, a volume (02, T-02).
pub const UPDATED_PROGRAM: u32 = 22;
pub const MOST_VOLUME: u64 = 1_000_000_000;
/// Money goes up to 10^13, and the kind 5 word carries its bits from 28 on, 16 of them (02, T-06).
pub const MOST_MONEY: u64 = 10_000_000_000_000;
pub const HIGH_BITS: u32 = 16;
pub const MOST_COEFFICIENT: u32 = 1_000;
pub const MOST_TOLERANCE: u32 = 200_000_000;
pub const DEFAULT_COEFFICIENT: u32 = 105;
pub const DEFAULT_TOLERANCE: u32 = 500_000;

pub const STANDING: u32 = 0;
pub const WITHDRAWN: u32 = 1;
pub const CANCELLED: u32 = 2;

/// One entry, or the mark of a closed day.
#[derive(Clone, Copy, Debug, PartialEq, Eq, Default)]
pub struct Entry {
    pub party: u32,
    pub day: u32,
    pub entry_type: u32,
    pub counterparty: u32,
    pub status: u32,
    pub amount: u64,
}

impl Entry {
    /// The mark that closes a day.
    pub fn mark(day: u32) -> Entry {
        Entry { day, entry_type: MARK, ..Entry::default() }
    }

    pub fn is_mark(&self) -> bool {
        self.entry_type == MARK
    }

    pub fn stands(&self) -> bool {
        self.status == STANDING
    }

    /// A bilateral sale to another party; counterparty 0 is an export.
    pub fn is_sale_to_party(&self) -> bool {
        self.entry_type == BILATERAL_SALE && self.counterparty > 0
    }

    /// A bilateral sale to the System Operator.
    pub fn is_export(&self) -> bool {
        self.entry_type == BILATERAL_SALE && self.counterparty == 0
    }

    /// The five words of this entry.
    pub fn words(&self) -> [u32; 5] {
        let low = (self.amount & 0x0FFF_FFFF) as u32;
        let high = (self.amount >> 28) as u32;
        [
            (1 << 28) | self.party,
            (2 << 28) | self.day,
            (3 << 28) | (self.status << 24) | (self.counterparty << 8) | self.entry_type,
            (4 << 28) | low,
            (5 << 28) | high,
        ]
    }

    /// The entry in five words, if it may stand in a book.
    fn from_words(words: &[u32]) -> Option<Entry> {
        let party = field(words[0], 1, 16)?;
        let day = field(words[1], 2, 28)?;
        let third = field(words[2], 3, 26)?;
        let low = field(words[3], 4, 28)?;
        let high = field(words[4], 5, HIGH_BITS)?;
        let entry = Entry {
            party,
            day,
            entry_type: third & 0xFF,
            counterparty: (third >> 8) & 0xFFFF,
            status: third >> 24,
            amount: u64::from(high) * (1 << 28) + u64::from(low),
        };
        if entry.is_mark() {
            if entry == Entry::mark(day) && day <= LAST_DAY {
                return Some(entry);
            }
            return None;
        }
        let cause =
            fault(entry.party, entry.day, entry.entry_type, entry.counterparty, entry.amount);
        if cause != 0 {
            return None;
        }
        match entry.status {
            STANDING | WITHDRAWN => Some(entry),
            CANCELLED if entry.is_sale_to_party() => Some(entry),
            _ => None,
        }
    }
}

/// A book's figures and entries, out of their words.
#[derive(Clone, Debug, PartialEq, Eq, Default)]
pub struct Book {
    /// R in hundredths.
    pub coefficient: u32,
    /// TM in kWh.
    pub tolerance: u32,
    pub entries: Vec<Entry>,
}

impl Book {
    /// A day with a mark is closed.
    pub fn is_closed(&self, day: u32) -> bool {
        self.entries.iter().any(|e| e.is_mark() && e.day == day)
    }
}

/// The figure in the low bits of a word, if the word has this kind and no other bit.
pub(crate) fn field(word: u32, kind: u32, bits: u32) -> Option<u32> {
    let figure = word & 0x0FFF_FFFF;
    if word >> 28 == kind && u64::from(figure) < (1_u64 << bits) {
        Some(figure)
    } else {
        None
    }
}

/// The number of entries for which a slice of so many words has places.
pub fn room(words: usize) -> usize {
    if words < 3 {
        0
    } else {
        MOST_ENTRIES.min((words - 3) / 5)
    }
}

/// The figures and entries of a book; None if the words are not a book.
/// Words after the last entry are not read.
pub fn decode(words: &[u32]) -> Option<Book> {
    if words.len() < 3 {
        return None;
    }
    let number = field(words[0], 6, 28)? as usize;
    let coefficient = field(words[1], 7, 28)?;
    let tolerance = field(words[2], 8, 28)?;
    if number > room(words.len()) || coefficient > MOST_COEFFICIENT || tolerance > MOST_TOLERANCE {
        return None;
    }
    let mut entries = Vec::new();
    for i in 0..number {
        let at = 3 + 5 * i;
        entries.push(Entry::from_words(&words[at..at + 5])?);
    }
    Some(Book { coefficient, tolerance, entries })
}

/// Writes a book over the first words of a slice; those after it stay as they are.
pub fn encode(book: &Book, words: &mut [u32]) {
    words[0] = (6 << 28) | book.entries.len() as u32;
    words[1] = (7 << 28) | book.coefficient;
    words[2] = (8 << 28) | book.tolerance;
    for (i, entry) in book.entries.iter().enumerate() {
        let at = 3 + 5 * i;
        words[at..at + 5].copy_from_slice(&entry.words());
    }
}

/// The largest amount of a type; None where no post has the type, a mark's among them.
pub fn most_of(entry_type: u32) -> Option<u64> {
    match entry_type {
        1..=16 | UPDATED_PROGRAM => Some(MOST_VOLUME),
        17..=20 => Some(MOST_MONEY),
        _ => None,
    }
}

pub(crate) fn is_volume(entry_type: u32) -> bool {
    most_of(entry_type) == Some(MOST_VOLUME)
}

/// Checks 3 to 7 of a post: the lowest cause that holds, or 0.
pub fn fault(party: u32, day: u32, entry_type: u32, counterparty: u32, amount: u64) -> u32 {
    if party < 1 || party > LAST_PARTY {
        return 3;
    }
    if day > LAST_DAY {
        return 4;
    }
    let Some(most) = most_of(entry_type) else {
        return 5;
    };
    if entry_type == BILATERAL_SALE {
        if counterparty > LAST_PARTY || counterparty == party {
            return 6;
        }
    } else if counterparty != 0 {
        return 6;
    }
    if amount > most {
        return 7;
    }
    0
}

/// Checks 3 to 8 of a post: those of `fault`, then whether the day is closed to it.
pub(crate) fn fault_in(book: &Book, entry: &Entry) -> u32 {
    let cause = fault(entry.party, entry.day, entry.entry_type, entry.counterparty, entry.amount);
    if cause != 0 {
        return cause;
    }
    if entry.is_sale_to_party() && book.is_closed(entry.day) {
        return 8;
    }
    0
}

/// Whether the words are a book.
pub fn is_book(words: &[u32]) -> bool {
    decode(words).is_some()
}

/// Opens a book with coefficient R in hundredths and tolerance amount TM in kWh.
pub fn open(words: &mut [u32], r: u32, tm: u32) -> u32 {
    if words.len() < 3 {
        return 11;
    }
    if r > MOST_COEFFICIENT || tm > MOST_TOLERANCE {
        return 12;
    }
    let book = Book { coefficient: r, tolerance: tm, entries: Vec::new() };
    encode(&book, words);
    0
}

/// Opens a book with the figures of document 02, T-12.
pub fn open_default(words: &mut [u32]) -> u32 {
    open(words, DEFAULT_COEFFICIENT, DEFAULT_TOLERANCE)
}

/// Appends one standing entry.
pub fn post(
    words: &mut [u32],
    party: u32,
    day: u32,
    entry_type: u32,
    counterparty: u32,
    amount: u64,
) -> Posted {
    let refused = |answer| Posted { answer, number: 0 };
    let Some(mut book) = decode(words) else {
        return refused(1);
    };
    let entry = Entry { party, day, entry_type, counterparty, status: STANDING, amount };
    let cause = fault_in(&book, &entry);
    if cause != 0 {
        return refused(cause);
    }
    let number = book.entries.len();
    if number >= room(words.len()) {
        return refused(9);
    }
    book.entries.push(entry);
    encode(&book, words);
    Posted { answer: 0, number: number as u32 }
}

/// Withdraws a standing entry; its place is not used again.
pub fn withdraw(words: &mut [u32], number: u32) -> u32 {
    let Some(mut book) = decode(words) else {
        return 1;
    };
    let Some(entry) = book.entries.get(number as usize).copied() else {
        return 10;
    };
    if entry.is_mark() || !entry.stands() {
        return 10;
    }
    if entry.is_sale_to_party() && book.is_closed(entry.day) {
        return 8;
    }
    book.entries[number as usize].status = WITHDRAWN;
    encode(&book, words);
    0
}

/// The number of entries, marks included.
pub fn count(words: &[u32]) -> Counted {
    match decode(words) {
        None => Counted { answer: 1, count: 0 },
        Some(book) => Counted { answer: 0, count: book.entries.len() as u32 },
    }
}

/// Reads one entry or mark by its number.
pub fn entry(words: &[u32], number: u32) -> EntryRead {
    let refused = |answer| EntryRead { answer, ..EntryRead::default() };
    let Some(book) = decode(words) else {
        return refused(1);
    };
    match book.entries.get(number as usize) {
        None => refused(10),
        Some(e) => EntryRead {
            answer: 0,
            party: e.party,
            day: e.day,
            entry_type: e.entry_type,
            counterparty: e.counterparty,
            status: e.status,
            amount: e.amount,
        },
    }
}
