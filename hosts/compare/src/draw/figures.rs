//! The figures of the sales ceiling, of first days, of month tables and of collateral cases.

use super::world::World;
use super::{legal, odd, odd_wide};
use crate::call::Call;
use crate::engine::bytes;
use crate::rng::Rng;
use second::{Case, Month, LAST_DAY, LAST_PARTY};

/// Figures about the ceiling, and past their ranges.
pub fn ceiling(rng: &mut Rng) -> Call {
    const MOST: u64 = 1_000_000_000;
    let mut figure = |small: u64| match rng.below(4) {
        0 => legal(rng, 0, MOST),
        1 => 0,
        _ => legal(rng, 0, small),
    };
    let (n, v, g) = (figure(40_000), figure(40_000), figure(5_000));
    let near = ((3 * (n + v)).max(50_000) + 2 * g) / 2;
    let o = match rng.below(5) {
        0 => legal(rng, 0, MOST),
        1 => near.saturating_sub(1),
        2 => near,
        3 => near + 1,
        _ => near + rng.below(1_000),
    };
    let mut figures = [o.min(MOST), n, v, g].map(|f| f as u32);
    if rng.percent(20) {
        for _ in 0..rng.between(1, 2) {
            figures[rng.index(4)] = odd(rng, MOST as u32);
        }
    }
    let [offer, bilateral, futures, capacity] = figures;
    Call::Ceiling { offer, bilateral, futures, capacity }
}

/// A month about the turns of years and centuries, any month of the horizon, and months past it.
pub fn first_day(rng: &mut Rng) -> Call {
    const MONTHS: u32 = 4_800;
    let near = |rng: &mut Rng, turn: u32| (turn + rng.below(30) as u32).saturating_sub(15);
    let month = match rng.below(6) {
        0 => odd(rng, MONTHS - 1),
        1 => {
            let century = 1_200 * rng.below(5) as u32;
            near(rng, century)
        }
        2 => {
            let year = 12 * rng.below(401) as u32;
            near(rng, year)
        }
        _ => rng.below(u64::from(MONTHS)) as u32,
    };
    Call::FirstDay { month }
}

/// Tables that agree, and tables that do not.
pub fn month(rng: &mut Rng) -> Call {
    const MOST_VALUE: i64 = 10_000_000;
    let hours = match rng.below(1_000) {
        0..=59 => 0,
        60..=499 => rng.between(1, 3),
        500..=899 => rng.between(4, 24),
        900..=979 => rng.between(25, 100),
        980..=985 => rng.pick(&[744, 745]),
        986..=989 => rng.between(672, 745),
        990..=997 => rng.between(746, 748),
        _ => rng.between(101, 671),
    } as usize;
    let mut rows = match rng.below(100) {
        0..=34 => 1,
        35..=84 => rng.between(2, 4),
        85..=94 => rng.between(5, 64),
        95 => 64,
        96 => 0,
        97 => 65,
        _ => rng.between(1, 3),
    } as u32;
    if hours > 600 && rows > 4 && rng.percent(70) {
        rows = 2;
    }
    let flat = rng.percent(8);
    let small = rng.percent(40);
    let edges = rng.percent(10);
    let value = |rng: &mut Rng| -> u32 {
        let value = match rng.below(10) {
            _ if flat => 0,
            _ if edges => rng.pick(&[-MOST_VALUE, -1, 0, 1, MOST_VALUE]),
            0 | 1 => 0,
            _ if small => rng.between(0, 6) as i64 - 3,
            2..=4 => rng.between(0, 6) as i64 - 3,
            5 => rng.pick(&[-MOST_VALUE, MOST_VALUE, 1 - MOST_VALUE]),
            _ => rng.between(0, 2 * MOST_VALUE as u64) as i64 - MOST_VALUE,
        };
        value as i32 as u32
    };
    let mut prices: Vec<u32> = (0..hours)
        .map(|_| match rng.below(6) {
            0 => rng.pick(&[0, 1, 999_999, 1_000_000]),
            1..=3 => rng.between(0, 200) as u32,
            _ => rng.between(0, 1_000_000) as u32,
        })
        .collect();
    let mut imbalance: Vec<u32> = (0..hours * rows as usize).map(|_| value(rng)).collect();
    let mut dm: Vec<u32> =
        (0..hours).map(|_| if rng.percent(30) { 0 } else { value(rng) }).collect();
    let mut group = if rows > 0 { rng.below(u64::from(rows)) as u32 } else { 0 };

    if rng.percent(30) {
        for _ in 0..rng.pick(&[1, 1, 1, 2]) {
            let edge = rng.pick(&[10_000_001, -10_000_001, i32::MIN, i32::MAX, 10_000_000]) as u32;
            match rng.below(14) {
                0 => group = odd(rng, rows),
                1 if !prices.is_empty() => {
                    let place = rng.index(prices.len());
                    prices[place] = odd(rng, 1_000_000);
                }
                2 if !imbalance.is_empty() => {
                    let place = rng.index(imbalance.len());
                    imbalance[place] = edge;
                }
                3 if !dm.is_empty() => {
                    let place = rng.index(dm.len());
                    dm[place] = edge;
                }
                4 => prices.push(rng.word()),
                5 => dm.push(0),
                6 => drop(dm.pop()),
                7 => imbalance.push(0),
                8 => drop(imbalance.pop()),
                9 => rows = odd(rng, 64),
                10 => rows = rows.wrapping_add(1),
                11 => {
                    // Rows × hours that only agrees after a wrap.
                    let (h, wrapped) = rng.pick(&[(1, 1), (2, 0), (2, 2), (4, 0), (4, 4), (8, 8)]);
                    prices.resize(h, 1);
                    dm.resize(h, 1);
                    imbalance.clear();
                    imbalance.resize(wrapped, 1);
                    let bits = rng.pick(&[30, 31, 32]);
                    let turns = (1_u64 << bits) / h as u64;
                    rows = (turns + (wrapped / h) as u64) as u32;
                    group = 0;
                }
                12 => {
                    // No hours: any number of rows agrees with no figures.
                    prices.clear();
                    dm.clear();
                    imbalance.clear();
                    rows = rng.pick(&[0, 1, 2, 64, 65, u32::MAX]);
                    group = rng.pick(&[0, 1, 63, 64]);
                }
                _ => rows = rows.wrapping_sub(1),
            }
        }
    }
    let mut tables = [bytes(&prices), bytes(&imbalance), bytes(&dm)];
    if rng.percent(2) {
        let table = &mut tables[rng.index(3)];
        match rng.pick(&[-1, 1, 2, 3]) {
            -1 => drop(table.pop()),
            more => table.extend((0..more).map(|i| i as u8)),
        }
    }
    let [prices, imbalance, dm] = tables;
    Call::Month { prices, imbalance, rows, dm, group }
}

/// A case on this day, its figures legal or past their ranges.
pub fn case(rng: &mut Rng, world: &World, day: u32) -> Case {
    let month = |rng: &mut Rng| Month {
        aosmf: legal(rng, 0, 1_000_000),
        aedm: match rng.below(5) {
            0 => rng.pick(&[-14_900_000_000, 14_900_000_000, 0, 1, -1]),
            1 => rng.between(0, 20_000) as i64 - 10_000,
            2 => legal(rng, 0, 14_900_000_000) as i64,
            _ => -(legal(rng, 0, 14_900_000_000) as i64),
        },
    };
    let best = legal(rng, 1, 10_000);
    let mut case = Case {
        party: world.party(rng),
        day,
        licence: rng.below(3) as u32,
        capacity: match rng.below(4) {
            0 => legal(rng, 0, 100_000_000),
            1 => rng.pick(&[49_999, 50_000, 50_001, 999_999, 1_000_000, 1_000_001]),
            2 => rng.between(0, 60_000),
            _ => rng.between(50_000, 1_000_000),
        },
        nonbusiness: rng.pick(&[0, 1, 2, 3, 4, 5, 9, 28, 29]),
        holiday: rng.below(2) as u32,
        defaults: legal(rng, 0, 30) as u32,
        responsible: rng.pick(&[0, 1, 1, 1]),
        months: [month(rng), month(rng), month(rng)],
        used: rng.below(4) as u32,
        rk: match rng.below(3) {
            0 => 110,
            _ => legal(rng, 0, 500) as u32,
        },
        rt: match rng.below(2) {
            0 => 0,
            _ => legal(rng, 0, 1_000_000_000_000_000),
        },
        yt: match rng.below(2) {
            0 => rng.between(0, 1_000),
            _ => legal(rng, 0, 100_000_000_000_000),
        },
        score: legal(rng, 0, best) as u32,
        best: best as u32,
    };
    if rng.percent(50) {
        // Months that are not used may hold anything.
        for month in case.months.iter_mut().skip(case.used as usize) {
            month.aosmf = odd_wide(rng, 1_000_000);
            month.aedm = match rng.below(2) {
                0 => rng.pick(&[i64::MIN, i64::MAX, -14_900_000_001, 14_900_000_001]),
                _ => rng.next() as i64,
            };
        }
    }
    if rng.percent(35) {
        for _ in 0..rng.pick(&[1, 1, 1, 2, 3]) {
            let place = rng.index(3);
            match rng.below(20) {
                0 | 1 => case.party = odd(rng, LAST_PARTY),
                2 | 3 => case.day = odd(rng, LAST_DAY),
                4 => case.licence = odd(rng, 2),
                5 => case.capacity = odd_wide(rng, 100_000_000),
                6 => case.nonbusiness = odd(rng, 29),
                7 => case.holiday = odd(rng, 1),
                8 => case.defaults = odd(rng, 30),
                9 => case.responsible = odd(rng, 1),
                10 | 11 => case.months[place].aosmf = odd_wide(rng, 1_000_000),
                12 => {
                    let edges = [-14_900_000_000, -14_900_000_001, i64::MIN];
                    case.months[place].aedm = rng.pick(&edges);
                }
                13 => {
                    let edges = [14_900_000_000, 14_900_000_001, i64::MAX];
                    case.months[place].aedm = rng.pick(&edges);
                }
                14 => case.used = odd(rng, 3),
                15 => case.rk = odd(rng, 500),
                16 => case.rt = odd_wide(rng, 1_000_000_000_000_000),
                17 => case.yt = odd_wide(rng, 100_000_000_000_000),
                18 => case.score = odd(rng, case.best),
                _ => case.best = odd(rng, 10_000),
            }
        }
    }
    case
}
