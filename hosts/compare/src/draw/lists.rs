//! Lists of calls on one book.

use super::books::{book, book_of, damage, edge_size, lent, lent_with, seen};
use super::call;
use super::world::{Taste, World};
use crate::call::Call;
use crate::engine::{bytes, Post};
use crate::rng::Rng;
use second::BILATERAL_SALE;

/// The start of a list: mostly a fresh book with some places, also a used or a
/// damaged one.
pub fn list_start(rng: &mut Rng) -> (World, Vec<u8>) {
    let tastes = [Taste::Chain, Taste::Bilateral, Taste::Mixed, Taste::Money, Taste::Volumes];
    let taste = rng.pick(&tastes);
    let world = World::draw(rng, taste);
    let start = match rng.below(10) {
        0..=6 => {
            let places = match rng.below(20) {
                0..=4 => rng.between(0, 12),
                5..=15 => rng.between(10, 60),
                _ => rng.between(60, 300),
            };
            let length = 3 + 5 * places as usize + rng.index(5);
            let mut words: Vec<u32> = (0..length).map(|_| rng.word()).collect();
            second::open(&mut words, world.coefficient, world.tolerance);
            bytes(&words)
        }
        7 => {
            // A book that the list makes too large for an array.
            let size = edge_size(rng) - rng.index(12);
            let behind = rng.between(0, 100) as usize;
            let book = book_of(rng, &world, size);
            lent_with(rng, &world, &book, behind)
        }
        8 => {
            let book = book(rng, &world);
            lent(rng, &world, &book)
        }
        _ => {
            let book = book(rng, &world);
            let mut lent = lent(rng, &world, &book);
            damage(rng, &mut lent);
            lent
        }
    };
    (world, start)
}

/// Calls that a list goes through among others: along a chain, sales on several
/// days in any order, then the control of those days.
pub fn list_script(rng: &mut Rng, world: &World) -> Vec<Call> {
    if world.taste != Taste::Chain || rng.percent(15) {
        return Vec::new();
    }
    let mut days = world.days.clone();
    days.sort_unstable();
    days.dedup();
    let mut calls = Vec::new();
    for day in &days {
        for pair in world.parties.windows(2) {
            if rng.percent(92) {
                calls.push(Call::Post(Post {
                    party: pair[0],
                    day: *day,
                    entry_type: BILATERAL_SALE,
                    counterparty: pair[1],
                    amount: world.volume,
                }));
            }
        }
    }
    shuffle(rng, &mut calls);
    shuffle(rng, &mut days);
    calls.extend(days.into_iter().map(|day| Call::Control { day }));
    calls
}

fn shuffle<T>(rng: &mut Rng, list: &mut [T]) {
    for i in (1..list.len()).rev() {
        list.swap(i, rng.index(i + 1));
    }
}

/// The length of a list.
pub fn list_length(rng: &mut Rng) -> u64 {
    match rng.below(20) {
        0..=13 => rng.between(1, 30),
        14..=18 => rng.between(30, 100),
        _ => rng.between(100, 400),
    }
}

/// The next call of a list on the book as it stands.
pub fn list_call(rng: &mut Rng, world: &World, lent: &[u8]) -> Call {
    let name = match rng.below(1_000) {
        0..=484 => "post",
        485..=499 => "month_report",
        500..=589 => "withdraw",
        590..=649 => "control",
        650..=709 => "read_file",
        710..=769 => "day_ahead",
        770..=829 => "delivery",
        830..=879 => "collateral",
        880..=909 => "tally",
        910..=939 => "entry",
        940..=964 => "count",
        965..=984 => "is_book",
        985..=988 => "open",
        989 => "open_default",
        990..=993 => "month",
        994..=995 => "ceiling",
        996 => "first_day",
        _ => "detected",
    };
    let book = seen(lent);
    call(rng, name, world, book.as_ref())
}
