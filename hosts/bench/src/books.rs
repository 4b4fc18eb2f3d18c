// What the calls are made on: books, day files and month tables, drawn with a fixed seed.

pub const FULL: usize = 15363;
pub const DAY: u32 = 9000;
// the day's month, August 2024: its number, its first day and its days
pub const MONTH: u32 = 295;
const FIRST_DAY: u32 = 8979;
const DAYS: u32 = 31;

pub struct Draw(u64);

impl Draw {
    pub fn new(seed: usize) -> Draw {
        Draw(88172645463325252 + seed as u64)
    }

    pub fn next(&mut self, below: u32) -> u32 {
        self.0 ^= self.0 << 13;
        self.0 ^= self.0 >> 7;
        self.0 ^= self.0 << 17;
        (self.0 % below as u64) as u32
    }
}

// A book's words up to its last entry, and what a call on it is asked.
pub struct Drawn {
    pub words: Vec<u32>,
    pub party: u32,
    pub number: u32,
    pub file: Vec<u8>,
}

// An entry's five words. Half are bilateral sales, to one of four parties or an export; of those of the four days before
// half were cancelled. One in eight is money of the 30 days before, one in 64 the mark of a day of the month before. One
// in eight was withdrawn.
fn entry(d: &mut Draw) -> [u32; 5] {
    const VOLUMES: [u32; 16] = [1, 2, 3, 4, 5, 7, 8, 9, 10, 11, 12, 13, 14, 15, 16, 22];
    if d.next(64) == 0 {
        return [0x10000000, 0x20000000 + DAY - 40 + d.next(8), 0x30000015, 0x40000000, 0x50000000];
    }
    let (party, withdrawn) = (1 + d.next(999), u32::from(d.next(8) == 0));
    let (kind, other, day, status) = match d.next(8) {
        0..=3 => {
            let earlier = if d.next(4) == 0 { 1 + d.next(4) } else { 0 };
            let other = if d.next(16) == 0 { 0 } else { 1 + (party + d.next(4)) % 999 };
            let cancelled = earlier > 0 && other > 0 && d.next(2) == 0;
            (6, other, DAY - earlier, if cancelled { 2 } else { withdrawn })
        }
        4 => (17 + d.next(4), 0, DAY - 1 - d.next(30), withdrawn),
        _ => (VOLUMES[d.next(16) as usize], 0, DAY, withdrawn),
    };
    let figures = kind + other * 256 + (status << 24);
    [
        0x10000000 + party,
        0x20000000 + day,
        0x30000000 + figures,
        0x40000000 + d.next(900_000),
        0x50000000,
    ]
}

// An entry of a book that a month report is made of. One in sixteen is of the day before the month or after it. A quarter
// are bilateral sales, of them one in eight an export and one in eight cancelled; the others are of every type. One in
// eight was withdrawn, one in 64 is a mark.
fn month_entry(d: &mut Draw) -> [u32; 5] {
    const OTHERS: [u32; 20] =
        [1, 2, 3, 4, 5, 7, 8, 9, 10, 11, 12, 13, 14, 15, 16, 17, 18, 19, 20, 22];
    let day = match d.next(32) {
        0 => FIRST_DAY - 1,
        1 => FIRST_DAY + DAYS,
        _ => FIRST_DAY + d.next(DAYS),
    };
    if d.next(64) == 0 {
        return [0x10000000, 0x20000000 + day, 0x30000015, 0x40000000, 0x50000000];
    }
    let (party, withdrawn) = (1 + d.next(999), u32::from(d.next(8) == 0));
    let (kind, other, status) = match d.next(4) {
        0 if d.next(8) == 0 => (6, 0, withdrawn),
        0 => {
            let cancelled = d.next(8) == 0;
            (6, 1 + (party + d.next(4)) % 999, if cancelled { 2 } else { withdrawn })
        }
        _ => (OTHERS[d.next(20) as usize], 0, withdrawn),
    };
    let figures = kind + other * 256 + (status << 24);
    [
        0x10000000 + party,
        0x20000000 + day,
        0x30000000 + figures,
        0x40000000 + d.next(900_000),
        0x50000000,
    ]
}

fn book(d: &mut Draw, entries: usize, entry: fn(&mut Draw) -> [u32; 5]) -> Vec<u32> {
    let mut words = vec![0x60000000 + entries as u32, 0x70000000 + 110, 0x80000000 + 600_000];
    words.extend((0..entries).flat_map(|_| entry(d)));
    words
}

// A day file of so many lines, up to 16 to a block; half of the lines are bilateral sales.
fn file(d: &mut Draw, mut lines: usize) -> Vec<u8> {
    let mut words = Vec::new();
    while lines > 0 {
        let of_block = lines.min(1 + d.next(16) as usize);
        let party = 1 + d.next(999);
        words.extend([0x10000000 + of_block as u32 * 65536 + party, 0x20000000 + DAY]);
        for _ in 0..of_block {
            let figures = if d.next(2) == 0 { 6 + (1 + party % 999) * 256 } else { 1 + d.next(5) };
            words.extend([0x30000000 + figures, 0x40000000 + d.next(900_000), 0x50000000]);
        }
        lines -= of_block;
    }
    words.iter().flat_map(|word| word.to_le_bytes()).collect()
}

// How many books a row is measured on: more of small ones, so that the processor does not predict their every branch.
fn books_of(size: usize) -> usize {
    (12_800 / size.max(1)).clamp(32, 256)
}

fn books_with(entries: usize, entry: fn(&mut Draw) -> [u32; 5]) -> Vec<Drawn> {
    let drawn = |seed| {
        let d = &mut Draw::new(seed);
        Drawn {
            words: book(d, entries, entry),
            party: 1 + d.next(999),
            number: d.next(entries.max(1) as u32),
            file: Vec::new(),
        }
    };
    (0..books_of(entries)).map(drawn).collect()
}

pub fn books(entries: usize) -> Vec<Drawn> {
    books_with(entries, entry)
}

pub fn months(entries: usize) -> Vec<Drawn> {
    books_with(entries, month_entry)
}

// Books without entries, and a day file of as many lines for each.
pub fn files(lines: usize) -> Vec<Drawn> {
    let drawn = |seed| {
        let d = &mut Draw::new(seed);
        Drawn { words: book(d, 0, entry), party: 0, number: 0, file: file(d, lines) }
    };
    (0..books_of(lines)).map(drawn).collect()
}

// The three tables of a month, as figures and as bytes.
pub struct Tables {
    pub prices: Vec<u32>,
    pub imbalance: Vec<i32>,
    pub dm: Vec<i32>,
    pub bytes: [Vec<u8>; 3],
}

pub fn tables(hours: usize, rows: u32) -> Vec<Tables> {
    let drawn = |seed| {
        let d = &mut Draw::new(seed);
        let prices: Vec<u32> = (0..hours).map(|_| d.next(1_000_001)).collect();
        let mut volumes = |n| (0..n).map(|_| d.next(20_000_001) as i32 - 10_000_000).collect();
        let (imbalance, dm): (Vec<i32>, Vec<i32>) =
            (volumes(rows as usize * hours), volumes(hours));
        let signed = |table: &[i32]| table.iter().flat_map(|f| f.to_le_bytes()).collect();
        let unsigned = prices.iter().flat_map(|f| f.to_le_bytes()).collect();
        let bytes = [unsigned, signed(&imbalance), signed(&dm)];
        Tables { prices, imbalance, dm, bytes }
    };
    (0..8).map(drawn).collect()
}
