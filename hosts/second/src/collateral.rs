//! The collateral of a party on a day.

use crate::answers::{Case, Collateral};
use crate::book::{decode, Book, LAST_DAY, LAST_PARTY};
use std::collections::{BTreeMap, BTreeSet};

const SUPPLY: u32 = 0;
const TRANSMISSION: u32 = 1;
const GENERATION: u32 = 2;

/// The two markets: the types of their purchase money and sale money.
const MARKETS: [(u32, u32); 2] = [(17, 18), (19, 20)];

/// A division of non-negative figures that rounds up.
fn up(dividend: i128, divisor: i128) -> i128 {
    (dividend + divisor - 1) / divisor
}

/// Whether every figure but party and day is in its range; months only if used.
fn in_ranges(case: &Case) -> bool {
    if case.licence > GENERATION || case.capacity > 100_000_000 {
        return false;
    }
    if case.nonbusiness > 29 || case.defaults > 30 || case.used > 3 || case.rk > 500 {
        return false;
    }
    if case.holiday > 1 || case.responsible > 1 {
        return false;
    }
    for month in case.months.iter().take(case.used as usize) {
        let aedm = i128::from(month.aedm);
        if month.aosmf > 1_000_000 || aedm.abs() > 14_900_000_000 {
            return false;
        }
    }
    if case.rt > 1_000_000_000_000_000 || case.yt > 100_000_000_000_000 {
        return false;
    }
    case.best >= 1 && case.best <= 10_000 && case.score <= case.best
}

fn margin(case: &Case) -> i128 {
    let capacity = i128::from(case.capacity);
    match case.licence {
        SUPPLY | TRANSMISSION => 20_000_000,
        _ if capacity > 1_000_000 => 20_000_000,
        _ if capacity >= 50_000 => 20 * capacity,
        _ => 1_000_000,
    }
}

fn trading(book: &Book, case: &Case) -> i128 {
    let k = if case.nonbusiness <= 2 { 3 } else { 1 + case.nonbusiness };
    // Each market chooses its own days; a day's net is over the markets that chose it.
    let mut nets: BTreeMap<u32, i128> = BTreeMap::new();
    for (purchase, sale) in MARKETS {
        let mut days: BTreeSet<u32> = BTreeSet::new();
        let mut market: BTreeMap<u32, i128> = BTreeMap::new();
        for e in &book.entries {
            let mine = e.stands() && e.party == case.party;
            let window = e.day < case.day && e.day + 30 >= case.day;
            if !mine || !window || (e.entry_type != purchase && e.entry_type != sale) {
                continue;
            }
            if e.amount > 0 {
                days.insert(e.day);
            }
            let amount = i128::from(e.amount);
            let signed = if e.entry_type == purchase { amount } else { -amount };
            *market.entry(e.day).or_insert(0) += signed;
        }
        for day in days.iter().rev().take(k as usize) {
            *nets.entry(*day).or_insert(0) += market[day];
        }
    }
    let debts: i128 = nets.values().map(|net| (*net).max(0)).sum();
    let q = if case.holiday == 1 && k > 3 { 3 } else { 4 };
    up(debts * (20 + i128::from(case.defaults)) * q, 80)
}

fn imbalance(case: &Case) -> i128 {
    let used = &case.months[..case.used as usize];
    let highest = used.iter().map(|m| i128::from(m.aosmf)).max();
    let lowest = used.iter().map(|m| i128::from(m.aedm)).min();
    match (highest, lowest) {
        (Some(price), Some(volume)) if volume < 0 => {
            up(i128::from(case.rk) * price * volume.abs(), 100_000)
        }
        _ => 0,
    }
}

fn yek(case: &Case) -> i128 {
    let best = i128::from(case.best);
    let score = i128::from(case.score);
    let share = (5 * (best - score)).max(best);
    up(i128::from(case.yt) * share, 5 * best)
}

/// Every item of collateral and the total.
pub fn collateral(words: &[u32], case: &Case) -> Collateral {
    let refused = |answer| Collateral { answer, ..Collateral::default() };
    let Some(book) = decode(words) else {
        return refused(1);
    };
    if case.party < 1 || case.party > LAST_PARTY {
        return refused(3);
    }
    if case.day > LAST_DAY {
        return refused(4);
    }
    if !in_ranges(case) {
        return refused(12);
    }
    let margin = margin(case);
    let trading = trading(&book, case);
    let (imbalance, risk) =
        if case.responsible == 1 { (imbalance(case), i128::from(case.rt)) } else { (0, 0) };
    let yek = yek(case);
    let total = margin.max(trading) + imbalance + risk + yek;
    Collateral {
        answer: 0,
        margin: margin as u64,
        trading: trading as u64,
        imbalance: imbalance as u64,
        risk: risk as u64,
        yek: yek as u64,
        total: total as u64,
    }
}
