//! The tally of a party's day and the two balances.

use crate::answers::{BalanceAnswer, TallyAnswer};
use crate::book::{
    decode, is_volume, Book, BILATERAL_SALE, LAST_DAY, LAST_PARTY, PROGRAM, UPDATED_PROGRAM,
};
use std::collections::BTreeMap;

/// Sums by type (places of no volume type are not used), and B: bilateral sales of
/// others to the party.
#[derive(Clone, Copy, Debug, PartialEq, Eq, Default)]
pub(crate) struct Tally {
    sums: [i128; 23],
    bought: i128,
}

impl Tally {
    fn over(&self, types: &[usize]) -> i128 {
        types.iter().map(|t| self.sums[*t]).sum()
    }

    /// A = B + the larger of capacity tender and import notification.
    fn a(&self) -> i128 {
        self.bought + self.sums[15].max(self.sums[16])
    }

    /// Article 5, paragraph 3: a program raised by an update is the one used (02, T-02).
    fn program_in_delivery(&self) -> i128 {
        self.sums[PROGRAM as usize].max(self.sums[UPDATED_PROGRAM as usize])
    }

    /// Article 7.
    pub(crate) fn day_ahead(&self, book: &Book) -> i128 {
        let sales = self.over(&[1, 3, 4, 6]);
        let cover = self.over(&[7, 9, 10, 12, 13, 14]) + self.a();
        balance(book, sales, cover)
    }

    /// Article 5.
    pub(crate) fn delivery(&self, book: &Book) -> i128 {
        let sales = self.over(&[1, 2, 3, 4, 5, 6]);
        let others = self.over(&[7, 8, 9, 10, 11, 13, 14]);
        let cover = others + self.program_in_delivery() + self.a();
        balance(book, sales, cover)
    }
}

/// 100 × S − the larger of 100 × TM and C × R.
fn balance(book: &Book, sales: i128, cover: i128) -> i128 {
    let tolerance = 100 * i128::from(book.tolerance);
    let covered = cover * i128::from(book.coefficient);
    100 * sales - tolerance.max(covered)
}

/// The tallies of a day for every party that a standing entry of the day names.
/// A party that is missing has a tally of zeros.
pub(crate) fn tallies(book: &Book, day: u32) -> BTreeMap<u32, Tally> {
    let mut all: BTreeMap<u32, Tally> = BTreeMap::new();
    for e in &book.entries {
        if !e.stands() || e.day != day || !is_volume(e.entry_type) {
            continue;
        }
        if e.is_export() {
            // No sum of a tally counts it.
            continue;
        }
        let amount = i128::from(e.amount);
        all.entry(e.party).or_default().sums[e.entry_type as usize] += amount;
        if e.entry_type == BILATERAL_SALE {
            all.entry(e.counterparty).or_default().bought += amount;
        }
    }
    all
}

/// One party's tally of a day.
fn tally_of(book: &Book, party: u32, day: u32) -> Tally {
    tallies(book, day).remove(&party).unwrap_or_default()
}

/// Causes 3 and 4 of a question about a party's day.
fn party_day_fault(party: u32, day: u32) -> u32 {
    if party < 1 || party > LAST_PARTY {
        3
    } else if day > LAST_DAY {
        4
    } else {
        0
    }
}

/// The tally of a party's day.
pub fn tally(words: &[u32], party: u32, day: u32) -> TallyAnswer {
    let refused = |answer| TallyAnswer { answer, ..TallyAnswer::default() };
    let Some(book) = decode(words) else {
        return refused(1);
    };
    let cause = party_day_fault(party, day);
    if cause != 0 {
        return refused(cause);
    }
    let tally = tally_of(&book, party, day);
    let mut sums = [0; 17];
    for entry_type in 1..=16 {
        sums[entry_type - 1] = tally.sums[entry_type] as u64;
    }
    sums[16] = tally.sums[UPDATED_PROGRAM as usize] as u64;
    TallyAnswer { answer: 0, party, sums, bought: tally.bought as u64 }
}

/// Either balance, by its formula over the tally.
fn asked(words: &[u32], party: u32, day: u32, formula: fn(&Tally, &Book) -> i128) -> BalanceAnswer {
    let refused = |answer| BalanceAnswer { answer, balance: 0 };
    let Some(book) = decode(words) else {
        return refused(1);
    };
    let cause = party_day_fault(party, day);
    if cause != 0 {
        return refused(cause);
    }
    BalanceAnswer { answer: 0, balance: formula(&tally_of(&book, party, day), &book) as i64 }
}

/// The day-ahead balance (Article 7).
pub fn day_ahead(words: &[u32], party: u32, day: u32) -> BalanceAnswer {
    asked(words, party, day, Tally::day_ahead)
}

/// The delivery balance (Article 5).
pub fn delivery(words: &[u32], party: u32, day: u32) -> BalanceAnswer {
    asked(words, party, day, Tally::delivery)
}

/// Above zero is detected; zero is clear.
pub fn detected(balance: i64) -> bool {
    balance > 0
}
