// The calls again as plain idiomatic Rust of the same algorithm class, on lent words in place: bounds checks on, no
// unsafe, nothing tuned.
use crate::answers::*;
use std::collections::HashSet;
use std::ops::Range;

const KIND: u32 = 1 << 28;
const BILATERAL: u32 = 6;
const MARK: u32 = 21;
const STANDING: u32 = 0;
const CANCELLED: u32 = 2;

struct Entry {
    party: u32,
    day: u32,
    kind: u32,
    counterparty: u32,
    status: u32,
    amount: u64,
}

impl Entry {
    fn sells_to_a_party(&self) -> bool {
        self.kind == BILATERAL && self.counterparty > 0
    }

    fn is_export(&self) -> bool {
        self.kind == BILATERAL && self.counterparty == 0
    }
}

fn read(e: &[u32]) -> Entry {
    let v = e[2] % KIND;
    Entry {
        party: e[0] % KIND,
        day: e[1] % KIND,
        kind: v % 256,
        counterparty: v / 256 % 65536,
        status: v >> 24,
        amount: (e[3] % KIND) as u64 + (e[4] % KIND) as u64 * KIND as u64,
    }
}

fn fault(party: u32, day: u32, kind: u32, counterparty: u32, amount: u64) -> u32 {
    if party < 1 || party > 999 {
        return 3;
    }
    if day > 36524 {
        return 4;
    }
    if kind < 1 || kind > 22 || kind == MARK {
        return 5;
    }
    let known = match kind {
        BILATERAL => counterparty <= 999 && counterparty != party,
        _ => counterparty == 0,
    };
    if !known {
        return 6;
    }
    let most = if (17..=20).contains(&kind) { 10_000_000_000_000 } else { 1_000_000_000 };
    if amount > most {
        return 7;
    }
    0
}

fn entry_ok(e: &[u32]) -> bool {
    if e[0] / KIND != 1
        || e[1] / KIND != 2
        || e[2] / KIND != 3
        || e[3] / KIND != 4
        || e[4] / KIND != 5
    {
        return false;
    }
    let x = read(e);
    if x.kind == MARK {
        return x.day <= 36524
            && x.party == 0
            && x.counterparty == 0
            && x.amount == 0
            && x.status == STANDING;
    }
    fault(x.party, x.day, x.kind, x.counterparty, x.amount) == 0
        && (x.status <= 1 || (x.status == CANCELLED && x.sells_to_a_party()))
}

fn room(lent: usize) -> usize {
    ((lent - 3) / 5).min(3072)
}

fn valid(w: &[u32]) -> bool {
    if w.len() < 3 || w[0] / KIND != 6 || w[1] / KIND != 7 || w[2] / KIND != 8 {
        return false;
    }
    let n = (w[0] % KIND) as usize;
    if w[1] % KIND > 1000 || w[2] % KIND > 200_000_000 || n > room(w.len()) {
        return false;
    }
    w[3..3 + 5 * n].chunks_exact(5).all(entry_ok)
}

fn entries(w: &[u32]) -> impl Iterator<Item = Entry> + '_ {
    let n = (w[0] % KIND) as usize;
    w[3..3 + 5 * n].chunks_exact(5).map(read)
}

fn is_closed(w: &[u32], day: u32) -> bool {
    entries(w).any(|e| e.kind == MARK && e.day == day)
}

fn is_full(w: &[u32]) -> bool {
    (w[0] % KIND) as usize >= room(w.len())
}

fn append(w: &mut [u32], party: u32, day: u32, figures: u32, amount: u64) {
    let at = 3 + 5 * (w[0] % KIND) as usize;
    w[at..at + 5].copy_from_slice(&[
        KIND + party,
        2 * KIND + day,
        3 * KIND + figures,
        4 * KIND + (amount % KIND as u64) as u32,
        5 * KIND + (amount / KIND as u64) as u32,
    ]);
    w[0] += 1;
}

#[inline(never)]
pub fn is_book(w: &[u32]) -> u32 {
    valid(w) as u32
}

#[inline(never)]
pub fn open(w: &mut [u32], r: u32, tm: u32) -> u32 {
    if w.len() < 3 {
        return 11;
    }
    if r > 1000 || tm > 200_000_000 {
        return 12;
    }
    w[..3].copy_from_slice(&[6 * KIND, 7 * KIND + r, 8 * KIND + tm]);
    0
}

#[inline(never)]
pub fn count(w: &[u32]) -> Counted {
    if !valid(w) {
        return Counted::refused(1);
    }
    Counted { answer: 0, count: w[0] % KIND }
}

#[inline(never)]
pub fn entry(w: &[u32], number: u32) -> EntryRead {
    if !valid(w) {
        return EntryRead::refused(1);
    }
    if number >= w[0] % KIND {
        return EntryRead::refused(10);
    }
    let Entry { party, day, kind, counterparty, status, amount } =
        read(&w[3 + 5 * number as usize..]);
    EntryRead { answer: 0, party, day, entry_type: kind, counterparty, status, amount }
}

#[inline(never)]
pub fn post(
    w: &mut [u32],
    party: u32,
    day: u32,
    kind: u32,
    counterparty: u32,
    amount: u64,
) -> Posted {
    if !valid(w) {
        return Posted::refused(1);
    }
    let f = fault(party, day, kind, counterparty, amount);
    if f != 0 {
        return Posted::refused(f);
    }
    if kind == BILATERAL && counterparty > 0 && is_closed(w, day) {
        return Posted::refused(8);
    }
    if is_full(w) {
        return Posted::refused(9);
    }
    append(w, party, day, kind + counterparty * 256, amount);
    Posted { answer: 0, number: w[0] % KIND - 1 }
}

#[inline(never)]
pub fn withdraw(w: &mut [u32], number: u32) -> u32 {
    if !valid(w) {
        return 1;
    }
    if number >= w[0] % KIND {
        return 10;
    }
    let at = 3 + 5 * number as usize;
    let e = read(&w[at..at + 5]);
    if e.status != STANDING || e.kind == MARK {
        return 10;
    }
    if e.sells_to_a_party() && is_closed(w, e.day) {
        return 8;
    }
    w[at + 2] += 1 << 24;
    0
}

// The place of a volume type's sum: 1 to 16 in turn, then the updated program.
fn place(kind: u32) -> Option<usize> {
    match kind {
        1..=16 => Some(kind as usize - 1),
        22 => Some(16),
        _ => None,
    }
}

fn scan(w: &[u32], party: u32, day: u32) -> ([u64; 17], u64) {
    let mut sums = [0u64; 17];
    let mut bought = 0;
    for e in entries(w).filter(|e| e.day == day && e.status == STANDING) {
        if e.party == party && !e.is_export() {
            if let Some(at) = place(e.kind) {
                sums[at] += e.amount;
            }
        }
        if e.kind == BILATERAL && e.counterparty == party {
            bought += e.amount;
        }
    }
    (sums, bought)
}

fn asked(w: &[u32], party: u32, day: u32) -> u32 {
    if !valid(w) {
        1
    } else if party < 1 || party > 999 {
        3
    } else if day > 36524 {
        4
    } else {
        0
    }
}

#[inline(never)]
pub fn tally(w: &[u32], party: u32, day: u32) -> TallyAnswer {
    let cause = asked(w, party, day);
    if cause != 0 {
        return TallyAnswer::refused(cause);
    }
    let (sums, bought) = scan(w, party, day);
    TallyAnswer { answer: 0, tally: Sums { party, sums }, bought }
}

fn unrequited(w: &[u32], sales: u64, cover: u64) -> i64 {
    let (r, tm) = ((w[1] % KIND) as u64, (w[2] % KIND) as u64);
    100 * sales as i64 - (100 * tm).max(r * cover) as i64
}

#[inline(never)]
pub fn day_ahead(w: &[u32], party: u32, day: u32) -> Balance {
    let cause = asked(w, party, day);
    if cause != 0 {
        return Balance::refused(cause);
    }
    let (sums, bought) = scan(w, party, day);
    let at = |k: usize| sums[k - 1];
    let sales = at(1) + at(3) + at(4) + at(6);
    let cover = at(7) + at(9) + at(10) + at(12) + at(13) + at(14) + bought + at(15).max(at(16));
    Balance { answer: 0, balance: unrequited(w, sales, cover) }
}

#[inline(never)]
pub fn delivery(w: &[u32], party: u32, day: u32) -> Balance {
    let cause = asked(w, party, day);
    if cause != 0 {
        return Balance::refused(cause);
    }
    let (sums, bought) = scan(w, party, day);
    let at = |k: usize| sums[k - 1];
    let sales = (1..=6).map(at).sum();
    let program = at(12).max(sums[16]);
    let cover =
        (7..=11).map(at).sum::<u64>() + program + at(13) + at(14) + bought + at(15).max(at(16));
    Balance { answer: 0, balance: unrequited(w, sales, cover) }
}

// A plain supplier's: the margin is 20,000,000, and of the items just trading may be above 0.
#[inline(never)]
pub fn collateral(w: &[u32], party: u32, day: u32) -> Collateral {
    let cause = asked(w, party, day);
    if cause != 0 {
        return Collateral::refused(cause);
    }
    let mut money = [[0u64; 4]; 30];
    for e in entries(w)
        .filter(|e| e.party == party && e.status == STANDING && (17..=20).contains(&e.kind))
    {
        if e.day < day && e.day + 30 >= day {
            money[(day - 1 - e.day) as usize][e.kind as usize - 17] += e.amount;
        }
    }
    let (mut left, mut debt) = ([3; 2], 0u64);
    for of_day in &money {
        let (mut bought, mut sold) = (0, 0);
        for (market, left) in of_day.chunks_exact(2).zip(&mut left) {
            if *left > 0 && market[0] + market[1] > 0 {
                *left -= 1;
                bought += market[0];
                sold += market[1];
            }
        }
        debt += bought.saturating_sub(sold);
    }
    let (margin, trading) = (20_000_000, (debt * 20 * 4).div_ceil(80));
    Collateral { margin, trading, total: margin.max(trading), ..Collateral::default() }
}

// What the day-ahead balance takes of a party's day.
#[derive(Clone, Copy, Default)]
struct Position {
    sales: u64,
    cover: u64,
    tender: u64,
    import: u64,
}

// The positions of a day by party, up to the largest one that the day names.
fn positions(w: &[u32], day: u32) -> Vec<Position> {
    let of_day = || entries(w).filter(|e| e.day == day);
    let Some(largest) = of_day().map(|e| e.party.max(e.counterparty)).max() else {
        return Vec::new();
    };
    let mut table = vec![Position::default(); largest as usize + 1];
    for e in of_day().filter(|e| e.status == STANDING && !e.is_export()) {
        let own = &mut table[e.party as usize];
        match e.kind {
            1 | 3 | 4 => own.sales += e.amount,
            7 | 9 | 10 | 12 | 13 | 14 => own.cover += e.amount,
            15 => own.tender += e.amount,
            16 => own.import += e.amount,
            BILATERAL => {
                own.sales += e.amount;
                table[e.counterparty as usize].cover += e.amount;
            }
            _ => {}
        }
    }
    table
}

fn is_detected(w: &[u32], p: &Position) -> bool {
    unrequited(w, p.sales, p.cover + p.tender.max(p.import)) > 0
}

// Cancels the sales of the parties, and takes them from the positions.
fn cancel(w: &mut [u32], day: u32, positions: &mut [Position], who: &[bool]) -> u32 {
    let n = (w[0] % KIND) as usize;
    let mut cancelled = 0;
    for words in w[3..3 + 5 * n].chunks_exact_mut(5) {
        let e = read(words);
        if e.status == STANDING && e.day == day && e.sells_to_a_party() && who[e.party as usize] {
            words[2] += CANCELLED << 24;
            positions[e.party as usize].sales -= e.amount;
            positions[e.counterparty as usize].cover -= e.amount;
            cancelled += 1;
        }
    }
    cancelled
}

const fn is_leap(year: u32) -> bool {
    year % 4 == 0 && (year % 100 != 0 || year % 400 == 0)
}

// The first day of each month of 2000 to 2099, and the day after the last.
const FIRST_DAYS: [u32; 1201] = {
    let mut first = [0; 1201];
    let mut month = 0;
    while month < 1200 {
        let days = match month % 12 {
            1 => 28 + is_leap(month as u32 / 12) as u32,
            3 | 5 | 8 | 10 => 30,
            _ => 31,
        };
        first[month + 1] = first[month] + days;
        month += 1;
    }
    first
};

fn month_of(day: u32) -> Range<u32> {
    let after = FIRST_DAYS.partition_point(|&first| first <= day);
    FIRST_DAYS[after - 1]..FIRST_DAYS[after]
}

// The place of a type's sum in a line: 1 to 20 in turn, then the updated program.
fn place_in_line(kind: u32) -> Option<usize> {
    match kind {
        1..=20 => Some(kind as usize - 1),
        22 => Some(20),
        _ => None,
    }
}

#[inline(never)]
pub fn month_report(w: &[u32], month: u32) -> MonthReport {
    if !valid(w) {
        return MonthReport::refused(1);
    }
    if month >= 1200 {
        return MonthReport::refused(12);
    }
    let (first_day, after) = (FIRST_DAYS[month as usize], FIRST_DAYS[month as usize + 1]);
    let days = after - first_day;
    let mut report = MonthReport { month, first_day, days, ..MonthReport::default() };
    for e in entries(w).filter(|e| e.status == STANDING && (first_day..after).contains(&e.day)) {
        if let Some(at) = place_in_line(e.kind) {
            report.lines[(e.day - first_day) as usize][at] += e.amount;
            report.lines[days as usize][at] += e.amount;
        }
    }
    report
}

// The buyers of pairs with cancelled entries of the day and of another day of its month.
fn repeated_buyers(w: &[u32], day: u32) -> Vec<u32> {
    let month = month_of(day);
    let cancelled = || entries(w).filter(|e| e.status == CANCELLED);
    let others: HashSet<(u32, u32)> = cancelled()
        .filter(|e| e.day != day && month.contains(&e.day))
        .map(|e| (e.party, e.counterparty))
        .collect();
    let repeated = |e: &Entry| e.day == day && others.contains(&(e.party, e.counterparty));
    cancelled().filter(repeated).map(|e| e.counterparty).collect()
}

#[inline(never)]
pub fn control(w: &mut [u32], day: u32) -> Controlled {
    if !valid(w) {
        return Controlled::refused(1);
    }
    if day > 36524 {
        return Controlled::refused(4);
    }
    if is_closed(w, day) {
        return Controlled::refused(8);
    }
    if is_full(w) {
        return Controlled::refused(9);
    }
    let mut positions = positions(w, day);
    let first: Vec<bool> = positions.iter().map(|p| is_detected(w, p)).collect();
    let mut cancelled = cancel(w, day, &mut positions, &first);
    let mut second = vec![false; positions.len()];
    for buyer in repeated_buyers(w, day) {
        second[buyer as usize] = is_detected(w, &positions[buyer as usize]);
    }
    cancelled += cancel(w, day, &mut positions, &second);
    append(w, 0, day, MARK, 0);
    let parties = |who: &[bool]| who.iter().filter(|&&is| is).count() as u32;
    Controlled { answer: 0, first: parties(&first), second: parties(&second), cancelled }
}

struct Block {
    party: u32,
    day: u32,
    // where its lines are, in words
    lines: Range<usize>,
}

fn word(file: &[u8], at: usize) -> u32 {
    u32::from_le_bytes(file[4 * at..4 * at + 4].try_into().unwrap())
}

fn blocks(file: &[u8]) -> Option<Vec<Block>> {
    if file.len() > 65536 || file.len() % 4 != 0 {
        return None;
    }
    let words = file.len() / 4;
    let (mut at, mut blocks) = (0, Vec::new());
    while at < words {
        if at + 2 > words || word(file, at) / KIND != 1 || word(file, at + 1) / KIND != 2 {
            return None;
        }
        let (head, day) = (word(file, at) % KIND, word(file, at + 1) % KIND);
        let lines = at + 2..at + 2 + 3 * (head / 65536) as usize;
        if lines.end > words {
            return None;
        }
        at = lines.end;
        blocks.push(Block { party: head % 65536, day, lines });
    }
    Some(blocks)
}

// The words of kinds 3, 4 and 5 of each line.
fn lines<'a>(file: &'a [u8], block: &Block) -> impl Iterator<Item = [u32; 3]> + 'a {
    block
        .lines
        .clone()
        .step_by(3)
        .map(|at| [word(file, at), word(file, at + 1), word(file, at + 2)])
}

fn is_line(line: [u32; 3]) -> bool {
    line[0] >> 24 == 0x30 && line[1] / KIND == 4 && line[2] >> 16 == 0x5000
}

fn amount(line: [u32; 3]) -> u64 {
    (line[1] % KIND) as u64 + (line[2] % KIND) as u64 * KIND as u64
}

// The cause of the first faulty line or block without lines.
fn block_fault(file: &[u8], block: &Block, closed: &HashSet<u32>) -> u32 {
    let &Block { party, day, .. } = block;
    if block.lines.is_empty() {
        return fault(party, day, 1, 0, 0);
    }
    for line in lines(file, block) {
        let (kind, counterparty) = (line[0] % 256, line[0] / 256 % 65536);
        let f = fault(party, day, kind, counterparty, amount(line));
        if f != 0 {
            return f;
        }
        if kind == BILATERAL && counterparty > 0 && closed.contains(&day) {
            return 8;
        }
    }
    0
}

#[inline(never)]
pub fn read_file(w: &mut [u32], file: &[u8]) -> FileRead {
    if !valid(w) {
        return FileRead::refused(1);
    }
    let Some(blocks) = blocks(file) else { return FileRead::refused(2) };
    if !blocks.iter().all(|b| lines(file, b).all(is_line)) {
        return FileRead::refused(2);
    }
    let closed: HashSet<u32> = entries(w).filter(|e| e.kind == MARK).map(|e| e.day).collect();
    if let Some(f) = blocks.iter().map(|b| block_fault(file, b, &closed)).find(|&f| f != 0) {
        return FileRead::refused(f);
    }
    let posted: usize = blocks.iter().map(|b| b.lines.len() / 3).sum();
    if (w[0] % KIND) as usize + posted > room(w.len()) {
        return FileRead::refused(9);
    }
    for block in &blocks {
        for line in lines(file, block) {
            append(w, block.party, block.day, line[0] % (1 << 24), amount(line));
        }
    }
    FileRead { answer: 0, posted: posted as u32 }
}

#[inline(never)]
pub fn month(prices: &[u32], imbalance: &[i32], rows: u32, dm: &[i32], group: u32) -> MonthAnswer {
    let hours = prices.len();
    if hours > 745 || imbalance.len() as u64 != rows as u64 * hours as u64 || dm.len() != hours {
        return MonthAnswer::refused(11);
    }
    let far = |x: &i32| x.unsigned_abs() > 10_000_000;
    if rows < 1 || rows > 64 || group >= rows || prices.iter().any(|&p| p > 1_000_000) {
        return MonthAnswer::refused(12);
    }
    if imbalance.iter().any(far) || dm.iter().any(far) {
        return MonthAnswer::refused(12);
    }
    if hours == 0 {
        return MonthAnswer::default();
    }
    let (mut weighted, mut weights) = (0u64, 0u64);
    for row in imbalance.chunks_exact(hours) {
        for (volume, &price) in row.iter().zip(prices) {
            let weight = volume.unsigned_abs() as u64;
            weighted += weight * price as u64;
            weights += weight;
        }
    }
    let own = &imbalance[group as usize * hours..][..hours];
    let aedm = own.iter().zip(dm).map(|(&v, &d)| v as i64 - d as i64).sum();
    let aosmf = if weights == 0 { 0 } else { (2 * weighted + weights) / (2 * weights) };
    MonthAnswer { answer: 0, month: MonthFigures { aosmf, aedm } }
}

#[inline(never)]
pub fn ceiling(o: u32, n: u32, v: u32, g: u32) -> Recordable {
    if [o, n, v, g].iter().any(|&x| x > 1_000_000_000) {
        return Recordable::refused(12);
    }
    let (o, n, v, g) = (o as u64, n as u64, v as u64, g as u64);
    Recordable { answer: 0, recordable: (2 * o <= 50_000.max(3 * (n + v)) + 2 * g) as u32 }
}

// The days of the years before, and of the year's months before in a table.
#[inline(never)]
pub fn first_day(month: u32) -> FirstDay {
    const BEFORE: [u32; 12] = [0, 31, 59, 90, 120, 151, 181, 212, 243, 273, 304, 334];
    if month >= 4_800 {
        return FirstDay::refused(12);
    }
    let (year, of_year) = (month / 12, (month % 12) as usize);
    let leap_days = year.div_ceil(4) - year.div_ceil(100) + year.div_ceil(400);
    FirstDay {
        answer: 0,
        day: 365 * year + leap_days + BEFORE[of_year] + u32::from(is_leap(year) && of_year > 1),
    }
}
