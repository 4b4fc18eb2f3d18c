//! What is drawn: books, damage to them, and the figures of every call.
//!
//! A round has a small world, a few parties and days, so that entries meet:
//! sales in a chain, pairs repeated across a month's end, closed days.

mod books;
mod figures;
mod files;
mod lists;
mod world;

pub use files::{lone_file, month_arguments};
pub use lists::{list_call, list_length, list_script, list_start};

use crate::call::Call;
use crate::rng::Rng;
use books::{at_an_edge, book, chain, damage, lent, lent_with, seen};
use figures::{case, ceiling, first_day, month};
use files::{file, file_to_an_edge, long_file};
use second::{Book, LAST_DAY, MOST_COEFFICIENT, MOST_ENTRIES, MOST_TOLERANCE};
use world::{days_before, days_of_a_month, some_mark, Taste, World};

/// A figure at or past the edges of 0 to limit, or one that looks like a legal
/// figure in its low bits.
fn odd(rng: &mut Rng, limit: u32) -> u32 {
    let bit = 1_u32 << rng.below(32);
    match rng.below(12) {
        0 => 0,
        1 => 1,
        2 => limit.wrapping_sub(1),
        3 => limit,
        4 | 5 => limit.wrapping_add(1),
        6 => u32::MAX,
        7 => u32::MAX - 1,
        8 => bit,
        9 => limit | bit,
        10 => 1 | bit,
        _ => rng.word(),
    }
}

fn odd_wide(rng: &mut Rng, limit: u64) -> u64 {
    let bit = 1_u64 << rng.below(64);
    match rng.below(12) {
        0 => 0,
        1 => 1,
        2 => limit - 1,
        3 => limit,
        4 | 5 => limit + 1,
        6 => u64::MAX,
        7 => u64::MAX - 1,
        8 => bit,
        9 => limit | bit,
        10 => 1 | bit,
        _ => rng.next(),
    }
}

/// A legal figure, its ends more often than the rest.
fn legal(rng: &mut Rng, low: u64, high: u64) -> u64 {
    match rng.below(8) {
        0 => low,
        1 => high,
        2 => (low + 1).min(high),
        3 => low.max(high - 1),
        4 => low + rng.below((high - low + 1).min(20)),
        _ => rng.between(low, high),
    }
}

/// The world of a round of this call.
fn world_of(rng: &mut Rng, name: &str) -> World {
    let taste = match name {
        "control" => Taste::Bilateral,
        "collateral" => rng.pick(&[Taste::Money, Taste::Money, Taste::Level]),
        "tally" | "day_ahead" | "delivery" => {
            rng.pick(&[Taste::Volumes, Taste::Bilateral, Taste::Mixed])
        }
        _ => rng.pick(&[Taste::Volumes, Taste::Bilateral, Taste::Money, Taste::Mixed]),
    };
    let mut world = World::draw(rng, taste);
    if name == "month_report" && rng.percent(40) {
        world.days = days_of_a_month(rng);
    }
    if name == "collateral" {
        let day = match rng.below(2) {
            0 => legal(rng, 0, u64::from(LAST_DAY)) as u32,
            _ => rng.below(40) as u32,
        };
        let most = rng.pick(&[6, 12, 40]);
        world.days = days_before(rng, day, most);
        world.days.push(day);
        if rng.percent(60) {
            world.parties.truncate(1);
        }
    }
    world
}

/// A book and one call of this name on it.
pub fn round(rng: &mut Rng, name: &str) -> (Vec<u8>, Call) {
    let world = world_of(rng, name);
    let about_an_array = rng.percent(if name == "read_file" { 15 } else { 10 });
    match name {
        "open" | "open_default" if !about_an_array && rng.percent(80) => {
            let call = call(rng, name, &world, None);
            return (rubbish(rng), call);
        }
        "detected" | "ceiling" | "first_day" | "month" => {
            return (Vec::new(), call(rng, name, &world, None))
        }
        "read_file" if about_an_array && rng.percent(50) => return file_to_an_edge(rng, &world),
        "read_file" if rng.below(1_000) < 3 => return long_file_round(rng, &world),
        "control" if !about_an_array && rng.percent(40) => return chain_round(rng, &world),
        _ => (),
    }
    let mut lent = if about_an_array {
        at_an_edge(rng, &world)
    } else {
        let book = book(rng, &world);
        if name == "read_file" && rng.percent(50) {
            let behind = rng.between(10, 500) as usize;
            lent_with(rng, &world, &book, behind)
        } else {
            lent(rng, &world, &book)
        }
    };
    let damaged = if name == "is_book" && !about_an_array { 60 } else { 9 };
    if rng.percent(damaged) {
        damage(rng, &mut lent);
    }
    let call = call(rng, name, &world, seen(&lent).as_ref());
    (lent, call)
}

/// A control of a chain of sales.
fn chain_round(rng: &mut Rng, world: &World) -> (Vec<u8>, Call) {
    let (book, day) = chain(rng, world);
    let mut lent = lent(rng, world, &book);
    if rng.percent(9) {
        damage(rng, &mut lent);
    }
    let call = if rng.percent(95) {
        Call::Control { day }
    } else {
        call(rng, "control", world, seen(&lent).as_ref())
    };
    (lent, call)
}

/// A long file meets a book with room for all, or all but a few, of its lines.
fn long_file_round(rng: &mut Rng, world: &World) -> (Vec<u8>, Call) {
    let book = book(rng, world);
    let places = MOST_ENTRIES - book.entries.len().min(MOST_ENTRIES - 10);
    let behind = 5 * (places - rng.index(3)) + rng.index(50);
    let lent = lent_with(rng, world, &book, behind);
    (lent, Call::ReadFile { file: long_file(rng, world) })
}

/// Words to open a book on: short, long, no words at all.
fn rubbish(rng: &mut Rng) -> Vec<u8> {
    let length = match rng.below(4) {
        0 => rng.between(0, 3) * 4,
        1 => rng.between(0, 17),
        _ => rng.between(3, 100) * 4,
    };
    (0..length).map(|_| rng.next() as u8).collect()
}

fn open(rng: &mut Rng) -> Call {
    let r = legal(rng, 0, u64::from(MOST_COEFFICIENT)) as u32;
    let tm = legal(rng, 0, u64::from(MOST_TOLERANCE)) as u32;
    match rng.below(5) {
        0 => Call::Open { coefficient: odd(rng, MOST_COEFFICIENT), tolerance: tm },
        1 => Call::Open { coefficient: r, tolerance: odd(rng, MOST_TOLERANCE) },
        _ => Call::Open { coefficient: r, tolerance: tm },
    }
}

/// One call of this name, its figures drawn to meet the book.
pub fn call(rng: &mut Rng, name: &str, world: &World, book: Option<&Book>) -> Call {
    match name {
        "is_book" => Call::IsBook,
        "open" => open(rng),
        "open_default" => Call::OpenDefault,
        "post" => Call::Post(world.post(rng, book)),
        "withdraw" => Call::Withdraw { number: number(rng, book, true) },
        "count" => Call::Count,
        "entry" => Call::Entry { number: number(rng, book, false) },
        "tally" => {
            let (party, day) = world.asked(rng, book);
            Call::Tally { party, day }
        }
        "day_ahead" => {
            let (party, day) = world.asked(rng, book);
            Call::DayAhead { party, day }
        }
        "delivery" => {
            let (party, day) = world.asked(rng, book);
            Call::Delivery { party, day }
        }
        "detected" => Call::Detected {
            balance: match rng.below(4) {
                0 => rng.pick(&[0, 1, -1, 100, -100, i64::MIN, i64::MAX, 1 << 31, 1 << 32]),
                1 => rng.between(0, 200) as i64 - 100,
                2 => (rng.word() as i64) << 32,
                _ => rng.next() as i64,
            },
        },
        "ceiling" => ceiling(rng),
        "first_day" => first_day(rng),
        "month" => month(rng),
        "month_report" => Call::MonthReport { month: world.asked_month(rng, book) },
        "collateral" => {
            // A round of its own has drawn the days before the last one of its world.
            let last = world.days[world.days.len() - 1];
            let day = match rng.below(3) {
                0 => (world.day(rng) + rng.between(0, 31) as u32).min(LAST_DAY),
                _ => last,
            };
            Call::Collateral(case(rng, world, day))
        }
        "control" => {
            let mut day = world.asked_day(rng);
            if let Some(book) = book {
                if rng.percent(6) {
                    day = some_mark(rng, book).unwrap_or(day);
                } else if book.is_closed(day) && rng.percent(70) {
                    day = world.asked_day(rng);
                }
            }
            Call::Control { day }
        }
        "read_file" => Call::ReadFile { file: file(rng, world, book) },
        _ => unreachable!("{name}"),
    }
}

/// An entry's number; for a withdrawal often one that stands, or stands on a closed day.
fn number(rng: &mut Rng, book: Option<&Book>, withdrawal: bool) -> u32 {
    let Some(book) = book else {
        return rng.below(10) as u32;
    };
    let entries = book.entries.len();
    if entries == 0 || rng.percent(10) {
        return odd(rng, entries as u32);
    }
    if entries > 20 && rng.percent(20) {
        // One of the last, which a small array would not have.
        return (entries - 1 - rng.index(3)) as u32;
    }
    if withdrawal && entries < 200 {
        let closed = rng.percent(35);
        let fitting: Vec<usize> = (0..entries)
            .filter(|i| {
                let e = &book.entries[*i];
                let open = !closed || (e.is_sale_to_party() && book.is_closed(e.day));
                e.stands() && !e.is_mark() && open
            })
            .collect();
        if !fitting.is_empty() && rng.percent(60) {
            return rng.pick(&fitting) as u32;
        }
    }
    rng.index(entries) as u32
}
