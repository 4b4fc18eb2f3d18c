//! A round's small world: a few parties and days, so that entries meet.

use super::{odd, odd_wide};
use crate::engine::Post;
use crate::rng::Rng;
use second::calendar::{begin_of, days_of_month, period_of};
use second::{
    most_of, Book, Entry, BILATERAL_SALE, CANCELLED, LAST_DAY, LAST_MONTH, LAST_PARTY,
    MOST_COEFFICIENT, MOST_MONEY, MOST_TOLERANCE, PROGRAM, STANDING, UPDATED_PROGRAM, WITHDRAWN,
};

/// What a round's entries are mostly about.
#[derive(Clone, Copy, PartialEq)]
pub enum Taste {
    Volumes,
    Bilateral,
    Money,
    Mixed,
    /// Each party sells the same volume on to the next, on days of one month.
    Chain,
    /// Money of equal amounts, so that days net to nothing.
    Level,
}

pub struct World {
    pub parties: Vec<u32>,
    pub days: Vec<u32>,
    pub coefficient: u32,
    pub tolerance: u32,
    pub taste: Taste,
    /// The volume that goes along a chain, or the money of a level day.
    pub volume: u64,
}

impl World {
    pub fn draw(rng: &mut Rng, taste: Taste) -> World {
        let mut parties = Vec::new();
        for _ in 0..rng.between(2, 5) {
            parties.push(match rng.below(20) {
                0..=12 => rng.between(1, 6) as u32,
                13..=15 => rng.pick(&[998, 999]),
                _ => rng.between(1, 999) as u32,
            });
        }
        let days = match rng.below(10) {
            0..=4 => days_about_a_month(rng),
            5 | 6 => {
                let edges = [0, 1, 2, 30, 31, 58, 59, 60, 36_493, 36_494, 36_523, 36_524];
                (0..rng.between(2, 5)).map(|_| rng.pick(&edges)).collect()
            }
            _ => {
                let base = rng.between(0, u64::from(LAST_DAY)) as u32;
                days_before(rng, base, 6)
            }
        };
        let coefficient = match rng.below(10) {
            0 => 0,
            1..=3 => 100,
            4 => 105,
            5 => 110,
            6 => rng.pick(&[1, 99, 101, 999, 1_000]),
            _ => rng.between(0, u64::from(MOST_COEFFICIENT)) as u32,
        };
        let tolerance = match rng.below(10) {
            0..=3 => 0,
            4 => 500_000,
            5 => 600_000,
            6 => rng.pick(&[1, 2, 100, MOST_TOLERANCE - 1, MOST_TOLERANCE]),
            7 | 8 => rng.between(0, 1_000) as u32,
            _ => rng.between(0, u64::from(MOST_TOLERANCE)) as u32,
        };
        let mut world =
            World { parties, days, coefficient, tolerance, taste, volume: rng.between(1, 1_000) };
        if taste == Taste::Chain {
            let first = rng.between(1, 995) as u32;
            world.parties = (first..first + 4).collect();
            world.days = days_about_a_month(rng);
            world.coefficient = rng.pick(&[100, 100, 110, 90]);
            world.tolerance = rng.pick(&[0, 0, 0, 1, world.volume as u32]);
        }
        world
    }

    pub fn party(&self, rng: &mut Rng) -> u32 {
        rng.pick(&self.parties)
    }

    pub fn day(&self, rng: &mut Rng) -> u32 {
        rng.pick(&self.days)
    }

    /// A party and a day to ask about: often of an entry, sometimes of none.
    pub fn asked(&self, rng: &mut Rng, book: Option<&Book>) -> (u32, u32) {
        let (mut party, mut day) = (self.party(rng), self.asked_day(rng));
        match book {
            Some(book) if !book.entries.is_empty() && rng.percent(75) => {
                let e = book.entries[rng.index(book.entries.len())];
                if !e.is_mark() {
                    day = e.day;
                    party = if e.counterparty > 0 && rng.percent(50) {
                        e.counterparty
                    } else {
                        e.party
                    };
                }
            }
            _ => (),
        }
        match rng.below(20) {
            0 => party = odd(rng, LAST_PARTY),
            1 => party = rng.between(1, 999) as u32,
            2 => day = odd(rng, LAST_DAY),
            _ => (),
        }
        (party, day)
    }

    pub fn asked_day(&self, rng: &mut Rng) -> u32 {
        match rng.below(20) {
            0 => odd(rng, LAST_DAY),
            1 => rng.between(0, u64::from(LAST_DAY)) as u32,
            _ => self.day(rng),
        }
    }

    /// A month to ask about: often that of an entry or the one beside it, sometimes any or none.
    pub fn asked_month(&self, rng: &mut Rng, book: Option<&Book>) -> u32 {
        let day = match book {
            Some(book) if !book.entries.is_empty() && rng.percent(75) => {
                book.entries[rng.index(book.entries.len())].day
            }
            _ => self.day(rng),
        };
        let (year, of_year) = period_of(day);
        let month = 12 * (year - 2000) + of_year - 1;
        match rng.below(20) {
            0 | 1 => odd(rng, LAST_MONTH),
            2 => rng.between(0, u64::from(LAST_MONTH)) as u32,
            3 => month.saturating_sub(1),
            4 => (month + 1).min(LAST_MONTH),
            _ => month,
        }
    }

    pub fn entry_type(&self, rng: &mut Rng) -> u32 {
        match self.taste {
            Taste::Bilateral if rng.percent(65) => BILATERAL_SALE,
            Taste::Chain if rng.percent(80) => BILATERAL_SALE,
            Taste::Chain => rng.pick(&[1, 2, 7, PROGRAM, UPDATED_PROGRAM, 15, 16]),
            Taste::Money if rng.percent(85) => rng.between(17, 20) as u32,
            Taste::Level if rng.percent(95) => rng.between(17, 20) as u32,
            Taste::Volumes if rng.percent(85) => rng.between(1, 16) as u32,
            Taste::Volumes => rng.pick(&[PROGRAM, UPDATED_PROGRAM]),
            _ if rng.percent(30) => BILATERAL_SALE,
            _ if rng.percent(15) => rng.pick(&[PROGRAM, UPDATED_PROGRAM]),
            _ => rng.between(1, 20) as u32,
        }
    }

    pub fn counterparty(&self, rng: &mut Rng, party: u32) -> u32 {
        if self.taste == Taste::Chain && rng.percent(85) {
            return party % LAST_PARTY + 1;
        }
        if rng.percent(15) {
            return 0;
        }
        let other = self.party(rng);
        if other == party {
            party % LAST_PARTY + 1
        } else {
            other
        }
    }

    pub fn amount(&self, rng: &mut Rng, entry_type: u32) -> u64 {
        let most = most_of(entry_type).unwrap_or(MOST_MONEY);
        if self.taste == Taste::Chain && rng.percent(90) {
            return rng.pick(&[self.volume, self.volume, self.volume - 1, self.volume + 1]);
        }
        if self.taste == Taste::Level && rng.percent(85) {
            return self.volume;
        }
        match rng.below(20) {
            0 | 1 => 0,
            2..=6 => rng.between(1, 20),
            7..=9 => rng.between(0, 1_000),
            10..=13 => rng.between(0, 2_000_000),
            14 | 15 => {
                let near = u64::from(self.tolerance) + rng.below(5);
                near.saturating_sub(2).min(most)
            }
            16 => most - rng.below(3),
            17 if most == MOST_MONEY => 1 << rng.below(44),
            17 => 1 << rng.below(30),
            18 if most == MOST_MONEY => 1_000_000_000_000 + rng.below(3) - 1,
            _ => rng.between(0, most),
        }
    }

    /// A legal entry, standing more often than not, or now and then a mark.
    pub fn entry(&self, rng: &mut Rng) -> Entry {
        if rng.percent(4) {
            return Entry::mark(self.day(rng));
        }
        let party = self.party(rng);
        let entry_type = self.entry_type(rng);
        let counterparty =
            if entry_type == BILATERAL_SALE { self.counterparty(rng, party) } else { 0 };
        let status = match rng.below(20) {
            0 | 1 => WITHDRAWN,
            2..=5 if entry_type == BILATERAL_SALE && counterparty > 0 => CANCELLED,
            _ => STANDING,
        };
        Entry {
            party,
            day: self.day(rng),
            entry_type,
            counterparty,
            status,
            amount: self.amount(rng, entry_type),
        }
    }

    /// The figures of a post, mostly legal.
    pub fn post(&self, rng: &mut Rng, book: Option<&Book>) -> Post {
        let mut party = self.party(rng);
        let mut day = self.day(rng);
        if let Some(book) = book {
            if rng.percent(10) {
                day = some_mark(rng, book).unwrap_or(day);
            }
        }
        let mut entry_type = self.entry_type(rng);
        let mut counterparty =
            if entry_type == BILATERAL_SALE { self.counterparty(rng, party) } else { 0 };
        let mut amount = self.amount(rng, entry_type);
        // One wrong figure, or several of which the lowest cause wins.
        if rng.percent(if self.taste == Taste::Chain { 12 } else { 30 }) {
            for _ in 0..rng.pick(&[1, 1, 1, 2, 3]) {
                match rng.below(5) {
                    0 => party = odd(rng, LAST_PARTY),
                    1 => day = odd(rng, LAST_DAY),
                    2 => {
                        // 262 is 6 in its low byte, 278 is 22.
                        let (other, last) = (odd(rng, 20), odd(rng, UPDATED_PROGRAM));
                        entry_type = rng.pick(&[0, 21, 23, 255, 256, 262, 278, other, last]);
                    }
                    3 => {
                        let other = odd(rng, LAST_PARTY);
                        counterparty = rng.pick(&[party, 1, other]);
                    }
                    _ => {
                        amount = odd_wide(rng, most_of(entry_type).unwrap_or(MOST_MONEY));
                    }
                }
            }
        }
        Post { party, day, entry_type, counterparty, amount }
    }
}

pub fn days_about_a_month(rng: &mut Rng) -> Vec<u32> {
    let (year, month) = (rng.between(2000, 2099) as u32, rng.between(1, 12) as u32);
    let first = begin_of(year, month);
    let length = days_of_month(year, month);
    let near = [
        first,
        first,
        first + 1,
        first + length - 1,
        first + length - 1,
        first + length,
        first.saturating_sub(1),
        first + rng.below(u64::from(length)) as u32,
    ];
    (0..rng.between(2, 5)).map(|_| rng.pick(&near).min(LAST_DAY)).collect()
}

/// All days of a month, and those beside it.
pub fn days_of_a_month(rng: &mut Rng) -> Vec<u32> {
    let (year, month) = (rng.between(2000, 2099) as u32, rng.between(1, 12) as u32);
    let first = begin_of(year, month);
    let after = first + days_of_month(year, month);
    (first.saturating_sub(1)..=after.min(LAST_DAY)).collect()
}

/// Days in and just outside the thirty days before a day.
pub fn days_before(rng: &mut Rng, day: u32, most: u64) -> Vec<u32> {
    let number = rng.between(2, most);
    (0..number)
        .map(|_| {
            let back = match rng.below(6) {
                0 => rng.pick(&[28, 29, 30, 31, 32]),
                1 => rng.pick(&[0, 1, 2]),
                _ => rng.between(1, 30) as u32,
            };
            day.saturating_sub(back)
        })
        .collect()
}

/// The day of one of the book's marks.
pub fn some_mark(rng: &mut Rng, book: &Book) -> Option<u32> {
    let marks: Vec<u32> = book.entries.iter().filter(|e| e.is_mark()).map(|e| e.day).collect();
    if marks.is_empty() {
        None
    } else {
        Some(rng.pick(&marks))
    }
}
