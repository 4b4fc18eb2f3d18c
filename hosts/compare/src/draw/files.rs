//! Day files.

use super::books::{book_of, edge_size, lent_with};
use super::odd;
use super::world::{some_mark, Taste, World};
use crate::call::Call;
use crate::engine::bytes;
use crate::rng::Rng;
use crate::sizes::MOST_FILE;
use second::calendar::period_of;
use second::{
    most_of, Book, BILATERAL_SALE, LAST_DAY, LAST_MONTH, LAST_PARTY, MARK, MOST_MONEY,
    UPDATED_PROGRAM,
};

struct Line {
    entry_type: u32,
    counterparty: u32,
    amount: u64,
}

struct Block {
    party: u32,
    day: u32,
    lines: Vec<Line>,
}

fn file_words(blocks: &[Block]) -> Vec<u32> {
    let mut words = Vec::new();
    for block in blocks {
        words.push(0x1000_0000 | (block.lines.len() as u32) << 16 | block.party & 0xFFFF);
        words.push(0x2000_0000 | block.day & 0x0FFF_FFFF);
        for line in &block.lines {
            let what = (line.counterparty & 0xFFFF) << 8 | line.entry_type & 0xFF;
            words.push(0x3000_0000 | what);
            words.push(0x4000_0000 | (line.amount & 0x0FFF_FFFF) as u32);
            words.push(0x5000_0000 | (line.amount >> 28 & 0xFFFF) as u32);
        }
    }
    words
}

fn line(rng: &mut Rng, world: &World, party: u32) -> Line {
    let entry_type = world.entry_type(rng);
    let counterparty =
        if entry_type == BILATERAL_SALE { world.counterparty(rng, party) } else { 0 };
    Line { entry_type, counterparty, amount: world.amount(rng, entry_type) }
}

/// A day file of this world, with faults, damage and lengths near the limit.
pub fn file(rng: &mut Rng, world: &World, book: Option<&Book>) -> Vec<u8> {
    let mut blocks: Vec<Block> = Vec::new();
    match rng.below(1_000) {
        0..=49 => (),
        50..=949 => {
            for _ in 0..rng.pick(&[1, 1, 1, 2, 2, 3, 4]) {
                let lines = rng.pick(&[0, 0, 1, 1, 1, 2, 3, 4]);
                blocks.push(block(rng, world, lines));
            }
        }
        950..=998 => {
            for _ in 0..rng.between(1, 6) {
                let lines = rng.between(0, 25);
                blocks.push(block(rng, world, lines));
            }
        }
        _ => blocks = large(rng, world),
    }
    if let Some(book) = book {
        if !blocks.is_empty() && rng.percent(8) {
            if let Some(day) = some_mark(rng, book) {
                let place = rng.index(blocks.len());
                blocks[place].day = day;
            }
        }
    }
    spoilt(rng, blocks)
}

/// A file at or near the longest length.
pub fn long_file(rng: &mut Rng, world: &World) -> Vec<u8> {
    let blocks = large(rng, world);
    seldom_spoilt(rng, blocks)
}

fn seldom_spoilt(rng: &mut Rng, blocks: Vec<Block>) -> Vec<u8> {
    if rng.percent(70) {
        bytes(&file_words(&blocks))
    } else {
        spoilt(rng, blocks)
    }
}

/// A book and a file whose lines make it one about an array's size: all fit, or
/// one does not.
pub fn file_to_an_edge(rng: &mut Rng, world: &World) -> (Vec<u8>, Call) {
    let entries = edge_size(rng);
    let few = rng.between(1, 3) as usize;
    let any = rng.between(1, entries as u64) as usize;
    let lines = rng.pick(&[few, few, entries, any]);
    let book = book_of(rng, world, entries - lines);
    let places = 5 * lines - rng.pick(&[0, 0, 1, 5]);
    let behind = places + rng.pick(&[0, 0, 4, 5, 60]);
    let lent = lent_with(rng, world, &book, behind);

    let mut blocks = vec![repeating(rng, world, lines, 100)];
    if rng.percent(40) {
        // Lines in two blocks, of which one may have none.
        let first = &mut blocks[0];
        let lines = first.lines.split_off(rng.index(lines + 1));
        let (party, day) = (first.party, first.day);
        blocks.push(Block { party, day, lines });
    }
    let closed = book.is_closed(blocks[0].day);
    if closed && rng.percent(90) {
        let open = (0..LAST_DAY).find(|day| !book.is_closed(*day)).unwrap_or(0);
        blocks.iter_mut().for_each(|block| block.day = open);
    }
    (lent, Call::ReadFile { file: seldom_spoilt(rng, blocks) })
}

/// The bytes of a file, some with faulty lines, some of wrong shape.
fn spoilt(rng: &mut Rng, mut blocks: Vec<Block>) -> Vec<u8> {
    if !blocks.is_empty() && rng.percent(25) {
        for _ in 0..rng.pick(&[1, 1, 2, 3]) {
            let place = rng.index(blocks.len());
            faulty(rng, &mut blocks[place]);
        }
    }
    let mut w = file_words(&blocks);
    if rng.percent(14) && !w.is_empty() {
        let place = rng.index(w.len());
        match rng.below(11) {
            0..=2 => w[place] ^= 1 << rng.below(32),
            3 => w[place] = rng.word(),
            4 => {
                let other = rng.index(w.len());
                w.swap(place, other);
            }
            5 => w.truncate(place),
            6 => w.push(rng.pick(&[0x1000_0001, 0x2000_0000, 0x3000_0001, 0, u32::MAX])),
            7 => {
                // A line more or less than the block says.
                w[0] = w[0].wrapping_add(rng.pick(&[1 << 16, 0xFFFF_0000]));
            }
            8 => {
                if let Some(at) = (0..w.len()).find(|i| w[*i] >> 28 == 3) {
                    w[at] |= 1 << rng.between(24, 27);
                }
            }
            9 => {
                // A bit above the lowest twelve of an amount's next bits: 16 to 27 are spare.
                if let Some(at) = (0..w.len()).find(|i| w[*i] >> 28 == 5) {
                    w[at] |= 1 << rng.between(12, 27);
                }
            }
            _ => {
                let mut file = bytes(&w);
                file.truncate(file.len() - rng.between(1, 3) as usize);
                return file;
            }
        }
    }
    let mut file = bytes(&w);
    file.truncate(MOST_FILE);
    file
}

fn block(rng: &mut Rng, world: &World, lines: u64) -> Block {
    let party = world.party(rng);
    Block {
        party,
        day: world.day(rng),
        lines: (0..lines).map(|_| line(rng, world, party)).collect(),
    }
}

/// A block of many lines: the first so many are drawn, and then repeated.
fn repeating(rng: &mut Rng, world: &World, lines: usize, drawn: usize) -> Block {
    let mut block = block(rng, world, lines.min(drawn) as u64);
    while block.lines.len() < lines {
        let again = block.lines.len() % drawn;
        let line = &block.lines[again];
        block.lines.push(Line { ..*line });
    }
    block
}

/// One wrong figure of a block or of one of its lines.
fn faulty(rng: &mut Rng, block: &mut Block) {
    let place = rng.index(block.lines.len().max(1));
    match (rng.below(5), block.lines.get_mut(place)) {
        (0, _) => {
            let other = odd(rng, LAST_PARTY);
            block.party = rng.pick(&[0, 1_000, 65_535, other]);
        }
        (1, _) => {
            let other = odd(rng, LAST_DAY);
            block.day = rng.pick(&[36_525, 0x0FFF_FFFF, other]);
        }
        (2, Some(line)) => line.entry_type = rng.pick(&[0, MARK, 23, 255]),
        (3, Some(line)) => line.counterparty = rng.pick(&[block.party, 1_000, 65_535, 1]),
        (4, Some(line)) => {
            if rng.percent(20) {
                (line.entry_type, line.counterparty) = (UPDATED_PROGRAM, 0);
            }
            let most = most_of(line.entry_type).unwrap_or(MOST_MONEY);
            // 10^12 and the bits from 40 to 43 belong to money alone (02, T-06).
            let bit = 1 << rng.between(40, 43);
            line.amount =
                rng.pick(&[most, most + 1, (1 << 44) - 1, 1 << 30, bit, 1_000_000_000_000]);
        }
        _ => block.party = 0,
    }
}

/// A file whose length is at or near the limit, with many lines or none.
fn large(rng: &mut Rng, world: &World) -> Vec<Block> {
    // 16,384 words: two a block and three a line.
    let words = 16_384 + rng.pick(&[-4, -2, -1, 0, 0, 0, 0, 1, 2, 4]);
    let mut lines: i64 = rng.pick(&[0, 100, 3_071, 3_072, 3_073, 4_095, 5_000, 5_460]);
    if lines == 0 {
        lines = words % 2;
    }
    while (words - 3 * lines) % 2 != 0 || words - 3 * lines < 2 {
        lines -= 1;
    }
    let mut number = (words - 3 * lines) / 2;
    let most = rng.pick(&[3, 4_095]);
    let mut blocks = Vec::new();
    while number > 0 {
        let here = if number == 1 { lines } else { lines.min(rng.between(0, most) as i64) };
        let here = here.min(4_095);
        blocks.push(repeating(rng, world, here as usize, 3));
        lines -= here;
        number -= 1;
    }
    blocks
}

/// A world for files alone, and a file of it.
pub fn lone_file(rng: &mut Rng) -> Vec<u8> {
    let taste = rng.pick(&[Taste::Volumes, Taste::Bilateral, Taste::Mixed]);
    let world = World::draw(rng, taste);
    if rng.percent(3) {
        long_file(rng, &world)
    } else {
        file(rng, &world, None)
    }
}

/// Arguments of the program "month": often one that names a month of the file, or none, two, a number past the last
/// month, or what is no number.
pub fn month_arguments(rng: &mut Rng, file: &[u8]) -> Vec<String> {
    let mut days: Vec<u32> = second::named(file).into_iter().map(|(_, day)| day).collect();
    days.push(rng.between(0, u64::from(LAST_DAY)) as u32);
    let (year, of_year) = period_of(days[rng.index(days.len())].min(LAST_DAY));
    let month = 12 * (year - 2000) + of_year - 1;
    let digits = month.to_string();
    let argument = match rng.below(16) {
        0 => return Vec::new(),
        1 => return vec![digits.clone(), rng.pick(&[digits.as_str(), ""]).to_string()],
        2 => String::new(),
        3 => format!("{}{digits}", rng.pick(&["+", "-", " ", "\t", "x", "/", ":", "\u{660}"])),
        4 => format!("{digits}{}", rng.pick(&[" ", "\n", ".", "a", "_", "/", ":", "\u{660}"])),
        5 => odd(rng, LAST_MONTH).to_string(),
        6 => (u128::from(month) + (1 << rng.pick(&[16, 32, 64, 100]))).to_string(),
        7 => (0..40).map(|_| rng.pick(&['0', '1', '9'])).collect(),
        8 | 9 => "0".repeat(rng.index(45)) + &digits,
        _ => digits,
    };
    vec![argument]
}
