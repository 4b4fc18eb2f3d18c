// The same calls in Rust on lent bytes: the words are read out of a book's bytes, `in_place` is called on them, and they
// are written back where the call is done.
use crate::answers::*;
use crate::in_place;

const FULL: usize = 15363;

fn decode(bytes: &[u8], words: &mut [u32; FULL]) -> Option<usize> {
    if bytes.len() % 4 != 0 {
        return None;
    }
    for (word, b) in words.iter_mut().zip(bytes.chunks_exact(4)) {
        *word = u32::from_le_bytes(b.try_into().unwrap());
    }
    Some(FULL.min(bytes.len() / 4))
}

fn encode(words: &[u32], bytes: &mut [u8]) {
    for (word, b) in words.iter().zip(bytes.chunks_exact_mut(4)) {
        b.copy_from_slice(&word.to_le_bytes());
    }
}

fn reading<A>(book: &[u8], no_book: A, call: impl FnOnce(&[u32]) -> A) -> A {
    let mut words = [0; FULL];
    match decode(book, &mut words) {
        Some(n) => call(&words[..n]),
        None => no_book,
    }
}

fn writing<A>(
    book: &mut [u8],
    no_book: A,
    call: impl FnOnce(&mut [u32]) -> A,
    done: impl FnOnce(&A) -> bool,
) -> A {
    let mut words = [0; FULL];
    let Some(n) = decode(book, &mut words) else { return no_book };
    let answer = call(&mut words[..n]);
    if done(&answer) {
        encode(&words[..n], book);
    }
    answer
}

#[inline(never)]
pub fn is_book(book: &[u8]) -> u32 {
    reading(book, 0, in_place::is_book)
}

#[inline(never)]
pub fn open(book: &mut [u8], r: u32, tm: u32) -> u32 {
    writing(book, 1, |w| in_place::open(w, r, tm), |&cause| cause == 0)
}

#[inline(never)]
pub fn count(book: &[u8]) -> Counted {
    reading(book, Counted::refused(1), in_place::count)
}

#[inline(never)]
pub fn entry(book: &[u8], number: u32) -> EntryRead {
    reading(book, EntryRead::refused(1), |w| in_place::entry(w, number))
}

#[inline(never)]
pub fn post(
    book: &mut [u8],
    party: u32,
    day: u32,
    kind: u32,
    counterparty: u32,
    amount: u64,
) -> Posted {
    let call = |w: &mut [u32]| in_place::post(w, party, day, kind, counterparty, amount);
    writing(book, Posted::refused(1), call, |p| p.answer == 0)
}

#[inline(never)]
pub fn withdraw(book: &mut [u8], number: u32) -> u32 {
    writing(book, 1, |w| in_place::withdraw(w, number), |&cause| cause == 0)
}

#[inline(never)]
pub fn tally(book: &[u8], party: u32, day: u32) -> TallyAnswer {
    reading(book, TallyAnswer::refused(1), |w| in_place::tally(w, party, day))
}

#[inline(never)]
pub fn day_ahead(book: &[u8], party: u32, day: u32) -> Balance {
    reading(book, Balance::refused(1), |w| in_place::day_ahead(w, party, day))
}

#[inline(never)]
pub fn delivery(book: &[u8], party: u32, day: u32) -> Balance {
    reading(book, Balance::refused(1), |w| in_place::delivery(w, party, day))
}

#[inline(never)]
pub fn collateral(book: &[u8], party: u32, day: u32) -> Collateral {
    reading(book, Collateral::refused(1), |w| in_place::collateral(w, party, day))
}

#[inline(never)]
pub fn month_report(book: &[u8], month: u32) -> MonthReport {
    let mut words = [0; FULL];
    match decode(book, &mut words) {
        Some(n) => in_place::month_report(&words[..n], month),
        None => MonthReport::refused(1),
    }
}

#[inline(never)]
pub fn control(book: &mut [u8], day: u32) -> Controlled {
    writing(book, Controlled::refused(1), |w| in_place::control(w, day), |c| c.answer == 0)
}

#[inline(never)]
pub fn read_file(book: &mut [u8], file: &[u8]) -> FileRead {
    writing(book, FileRead::refused(1), |w| in_place::read_file(w, file), |f| f.answer == 0)
}

fn table<T>(bytes: &[u8], figure: impl Fn([u8; 4]) -> T) -> Vec<T> {
    bytes.chunks_exact(4).map(|b| figure(b.try_into().unwrap())).collect()
}

#[inline(never)]
pub fn month(prices: &[u8], imbalance: &[u8], rows: u32, dm: &[u8], group: u32) -> MonthAnswer {
    if prices.len() % 4 != 0 || imbalance.len() % 4 != 0 || dm.len() % 4 != 0 {
        return MonthAnswer::refused(11);
    }
    let (imbalance, dm) = (table(imbalance, i32::from_le_bytes), table(dm, i32::from_le_bytes));
    in_place::month(&table(prices, u32::from_le_bytes), &imbalance, rows, &dm, group)
}
