//! Books of a world, with rubbish behind them, and damage to them.

use super::world::{days_about_a_month, World};
use crate::engine::{bytes, words};
use crate::rng::Rng;
use crate::sizes::ARRAYS;
use second::{
    Book, Entry, BILATERAL_SALE, CANCELLED, LAST_PARTY, MOST_VOLUME, PROGRAM, STANDING,
    UPDATED_PROGRAM,
};

/// The number of entries of a book: small ones far more often than full ones,
/// and some that are a few entries too many.
fn size(rng: &mut Rng) -> usize {
    let size = match rng.below(1_000) {
        0..=59 => 0,
        60..=249 => rng.between(1, 3),
        250..=649 => rng.between(4, 12),
        650..=949 => rng.between(13, 40),
        950..=995 => rng.between(41, 160),
        996..=998 => rng.between(161, 800),
        _ => rng.pick(&[3_065, 3_070, 3_071, 3_071, 3_072, 3_072, 3_072, 3_073, 3_075]),
    };
    size as usize
}

/// A number of entries about an array's size: one less, so many, one or two more.
pub fn edge_size(rng: &mut Rng) -> usize {
    rng.pick(&ARRAYS) - 1 + rng.index(4)
}

fn entries(rng: &mut Rng, world: &World, size: usize) -> Vec<Entry> {
    let mut entries = Vec::with_capacity(size);
    for i in 0..size {
        // A large book repeats its first entries with other amounts.
        if i < 200 {
            entries.push(world.entry(rng));
        } else {
            let mut e: Entry = entries[rng.index(200)];
            if !e.is_mark() {
                e.amount ^= e.amount & 3;
            }
            entries.push(e);
        }
    }
    entries
}

/// A book of this world.
pub fn book(rng: &mut Rng, world: &World) -> Book {
    let size = size(rng);
    let entries = entries(rng, world, size);
    let mut book = Book { coefficient: world.coefficient, tolerance: world.tolerance, entries };
    if size < 200 && rng.percent(30) {
        level_programs(rng, world, &mut book);
    }
    if size < 200 && rng.percent(30) {
        tune(rng, world, &mut book);
    }
    book
}

/// A book of so many entries, in which one day at most is closed: a large one
/// of any entries has marks of all its days.
pub fn book_of(rng: &mut Rng, world: &World, size: usize) -> Book {
    let closed = world.day(rng);
    let mut entries = entries(rng, world, size);
    for e in &mut entries {
        while e.is_mark() && e.day != closed {
            *e = world.entry(rng);
        }
    }
    Book { coefficient: world.coefficient, tolerance: world.tolerance, entries }
}

/// The bytes of a book about an array's size, in a slice that is longer than
/// its words, as long or shorter.
pub fn at_an_edge(rng: &mut Rng, world: &World) -> Vec<u8> {
    let size = edge_size(rng);
    let book = book_of(rng, world, size);
    let used = 3 + 5 * size;
    let behind = rng.pick(&[0, 0, 0, 0, 1, 4, 5, 5, 9, 10, 60]);
    let mut lent = lent_with(rng, world, &book, behind);
    if rng.percent(35) {
        // A word or a place too few, the words of an array, or any.
        let array = 3 + 5 * (rng.pick(&ARRAYS) + 1) + rng.index(3) - 1;
        let any = rng.index(used);
        let shorter = rng.pick(&[used - 1, used - 5, array.min(used - 1), any]);
        lent.truncate(4 * shorter);
    }
    lent
}

/// Adds to a program or to its update, so that both sums are equal or within a kWh of it.
fn level_programs(rng: &mut Rng, world: &World, book: &mut Book) {
    let is_program = |e: &&Entry| [PROGRAM, UPDATED_PROGRAM].contains(&e.entry_type);
    let mut of: Vec<_> = book.entries.iter().filter(is_program).map(|e| (e.party, e.day)).collect();
    of.push((world.party(rng), world.day(rng)));
    let (party, day) = of[rng.index(of.len())];
    let mut words = vec![0; 3 + 5 * book.entries.len()];
    second::encode(book, &mut words);
    let sums = second::tally(&words, party, day).sums;
    let (program, update) = (sums[11], sums[16]);
    let amount = program.abs_diff(update) + rng.below(3);
    if amount > MOST_VOLUME {
        return;
    }
    let entry_type = if program < update { PROGRAM } else { UPDATED_PROGRAM };
    let amount = amount.saturating_sub(1);
    let (counterparty, status) = (0, STANDING);
    book.entries.push(Entry { party, day, entry_type, counterparty, status, amount });
}

/// Adds a sale that brings a balance to zero or within a kWh of it.
fn tune(rng: &mut Rng, world: &World, book: &mut Book) {
    let mut words = vec![0; 3 + 5 * book.entries.len()];
    second::encode(book, &mut words);
    let (party, day) = (world.party(rng), world.day(rng));
    let (balance, types): (i64, &[u32]) = if rng.percent(50) {
        (second::day_ahead(&words, party, day).balance, &[1, 3, 4, 6])
    } else {
        (second::delivery(&words, party, day).balance, &[1, 2, 3, 4, 5, 6])
    };
    if balance >= 0 || balance / -100 + 1 > MOST_VOLUME as i64 {
        return;
    }
    let entry_type = rng.pick(types);
    let counterparty = if entry_type == BILATERAL_SALE { party % LAST_PARTY + 1 } else { 0 };
    let exact = balance / -100;
    let amount = (exact + rng.pick(&[-1, 0, 0, 0, 1, 1])).max(0);
    book.entries.push(Entry {
        party,
        day,
        entry_type,
        counterparty,
        status: STANDING,
        amount: amount as u64,
    });
}

/// A chain of sales whose first pair was cancelled on a day near the same
/// month's ends; returns the book and the day to control. Half of the chains
/// are plain: the second pass finds the next seller just if the month is one.
pub fn chain(rng: &mut Rng, world: &World) -> (Book, u32) {
    let plain = rng.percent(50);
    let days = days_about_a_month(rng);
    let day = rng.pick(&days);
    let mut other = rng.pick(&days);
    for _ in 0..4 {
        if plain && other == day {
            other = rng.pick(&days);
        }
    }
    let first = rng.between(1, 996) as u32;
    let bilateral = |party, counterparty, day, status, amount| Entry {
        party,
        day,
        entry_type: BILATERAL_SALE,
        counterparty,
        status,
        amount,
    };
    let volume = rng.between(1, 1_000);
    let mut entries = vec![
        bilateral(first, first + 1, other, CANCELLED, 5),
        bilateral(first, first + 1, day, STANDING, volume),
        bilateral(first + 1, first + 2, day, STANDING, volume),
        bilateral(first + 2, first + 3, day, STANDING, volume),
    ];
    for _ in 0..if plain { 0 } else { rng.below(6) } {
        // Noise: other links, other statuses, market sales and purchases.
        let party = first + rng.below(4) as u32;
        let entry_type = rng.pick(&[1, 2, 3, 7, 8, 12, 22, 22, 15, 16, 6, 6, 6, 6, 6, 6]);
        let other_party = first + (party - first + 1 + rng.below(3) as u32) % 4;
        let sale = entry_type == BILATERAL_SALE;
        let third = rng.pick(&days);
        let day = rng.pick(&[day, day, other, third]);
        entries.push(Entry {
            party,
            day,
            entry_type,
            counterparty: if sale { other_party } else { 0 },
            status: if sale { rng.pick(&[0, 0, 1, 2, 2]) } else { rng.pick(&[0, 0, 0, 1]) },
            amount: rng.pick(&[0, 1, volume, volume - 1, volume + 1]),
        });
    }
    for i in (1..entries.len()).rev() {
        entries.swap(i, rng.index(i + 1));
    }
    let (coefficient, tolerance) = if plain {
        (rng.pick(&[100, 110, 1_000]), 0)
    } else {
        let r = rng.pick(&[100, 100, 110, 90, world.coefficient]);
        (r, rng.pick(&[0, 0, 0, volume as u32, world.tolerance]))
    };
    let book = Book { coefficient, tolerance, entries };
    (book, day)
}

/// The bytes of a book, with words behind the last entry that nobody may read.
pub fn lent(rng: &mut Rng, world: &World, book: &Book) -> Vec<u8> {
    let behind = match rng.below(20) {
        0 | 1 => 0,
        2 | 3 => rng.between(1, 4),
        4 | 5 => 5,
        6 | 7 => rng.between(6, 9),
        8 | 9 => 10,
        10 => rng.between(60, 400),
        _ => rng.between(11, 60),
    };
    lent_with(rng, world, book, behind as usize)
}

/// The same with so many words behind the last entry.
pub fn lent_with(rng: &mut Rng, world: &World, book: &Book, behind: usize) -> Vec<u8> {
    let used = 3 + 5 * book.entries.len();
    let mut words = vec![0; used + behind];
    second::encode(book, &mut words);
    let style = rng.below(4);
    let closing = Entry::mark(world.day(rng)).words();
    let decoy = world.entry(rng).words();
    for (i, word) in words[used..].iter_mut().enumerate() {
        *word = match style {
            0 => rng.word(),
            1 => closing[i % 5],
            2 => decoy[i % 5],
            _ => 0,
        };
    }
    bytes(&words)
}

/// Damages a lent book; it may still be one.
pub fn damage(rng: &mut Rng, book: &mut Vec<u8>) {
    let Some(mut w) = words(book) else {
        return;
    };
    if w.len() < 3 {
        return;
    }
    let entries = (w[0] & 0x0FFF_FFFF) as usize;
    let used = (3 + 5 * entries.min(4_000)).min(w.len());
    let any_entry =
        if entries > 0 && used >= 8 { Some(3 + 5 * rng.index((used - 3) / 5)) } else { None };
    match (rng.below(16), any_entry) {
        (0 | 1, _) => w[rng.index(used)] ^= 1 << rng.below(32),
        (2, _) => {
            let place = rng.index(w.len());
            w[place] ^= 1 << rng.below(32);
        }
        (3, _) => w[rng.index(used)] = rng.word(),
        (4, _) => {
            let (a, b) = (rng.index(used), rng.index(used));
            w.swap(a, b);
        }
        (5, _) => {
            // Kinds swapped, figures kept.
            let (a, b) = (rng.index(used), rng.index(used));
            let (kind_a, kind_b) = (w[a] & 0xF000_0000, w[b] & 0xF000_0000);
            w[a] = w[a] & 0x0FFF_FFFF | kind_b;
            w[b] = w[b] & 0x0FFF_FFFF | kind_a;
        }
        (6, _) => {
            // Another number of entries.
            let number = entries as u32;
            let full = ((w.len() - 3) / 5) as u32;
            w[0] = 0x6000_0000
                | rng.pick(&[
                    number + 1,
                    number.saturating_sub(1),
                    full,
                    full + 1,
                    3_072,
                    3_073,
                    number | 1 << 16,
                    0x0FFF_FFFF,
                ]);
        }
        (7, _) => w[1] = 0x7000_0000 | rng.pick(&[0, 999, 1_000, 1_001, 0x0FFF_FFFF]),
        (8, _) => {
            w[2] = 0x8000_0000 | rng.pick(&[0, 199_999_999, 200_000_000, 200_000_001, 0x0FFF_FFFF]);
        }
        (9, _) => w.truncate(rng.index(w.len() + 1)),
        (10, _) => {
            // Cut to the last entry's end, or into it.
            let cut = rng.below(3) as usize;
            w.truncate(used.saturating_sub(cut));
        }
        (11, Some(at)) => w[at + 2] = w[at + 2] & 0xFCFF_FFFF | rng.word() & 0x0300_0000,
        (12, Some(at)) => {
            // A figure at its edge.
            let (place, figure) = rng.pick(&[
                (0, 0x1000_0000),
                (0, 0x1000_03E7),
                (0, 0x1000_03E8),
                (0, 0x1001_0001),
                (1, 0x2000_8EAC),
                (1, 0x2000_8EAD),
                (2, 0x3000_0000),
                (2, 0x3000_0001),
                (2, 0x3000_0014),
                (2, 0x3000_0015),
                (2, 0x3000_0016),
                (2, 0x3000_0017),
                (2, 0x3100_0016),
                (2, 0x3200_0016),
                (2, 0x3003_E716),
                (2, 0x3003_E706),
                (2, 0x3003_E806),
                (2, 0x3200_0106),
                (2, 0x3200_0006),
                (2, 0x3100_0006),
                (3, 0x4000_0000),
                (3, 0x4B9A_CA00),
                (3, 0x4B9A_CA01),
                (3, 0x4E72_A000),
                (3, 0x4E72_A001),
                (4, 0x5000_0000),
                (4, 0x5000_0003),
                (4, 0x5000_1000),
                (4, 0x5000_8000),
                (4, 0x5000_9184),
                (4, 0x5000_9185),
                (4, 0x5001_0000),
                (4, 0x5800_0000),
            ]);
            w[at + place] = figure;
        }
        (13, Some(at)) => {
            // A mark, whole or with one figure too many.
            let mut mark = Entry::mark(w[at + 1] & 0x0FFF_FFFF).words();
            match rng.below(8) {
                0 => mark[0] |= 1,
                1 => mark[1] = 0x2000_8EAD,
                2 => mark[2] |= 1 << 8,
                3 => mark[2] |= rng.pick(&[1, 2, 3]) << 24,
                4 => mark[3] |= 1,
                5 => mark[4] |= 1,
                _ => (),
            }
            w[at..at + 5].copy_from_slice(&mark);
        }
        (14, Some(at)) => {
            // The party's own number as counterparty, or one outside type 6.
            let party = w[at] & 0x3FF;
            w[at + 2] = w[at + 2] & 0xFF00_00FF | party << 8;
        }
        _ => {
            // Bytes that are no words.
            *book = bytes(&w);
            if rng.percent(50) {
                book.truncate(book.len() - rng.between(1, 3) as usize);
            } else {
                let more = rng.between(1, 3);
                book.extend((0..more).map(|i| i as u8));
            }
            return;
        }
    }
    *book = bytes(&w);
}

/// The book as the calls would read it, for drawing calls that meet it.
pub fn seen(lent: &[u8]) -> Option<Book> {
    second::decode(&words(lent)?)
}
