//! The month step: the average price weighted by imbalances, and a group's volume.

use crate::answers::MonthAnswer;

const MOST_HOURS: usize = 745;
const MOST_ROWS: u32 = 64;
const MOST_PRICE: u32 = 1_000_000;
const MOST_IMBALANCE: i32 = 10_000_000;

/// Prices one an hour; imbalances row after row, row r and hour h at r × hours + h;
/// secondary control one an hour; the group asked is a row, counted from 0.
pub fn month_step(
    prices: &[u32],
    imbalance: &[i32],
    rows: u32,
    dm: &[i32],
    group: u32,
) -> MonthAnswer {
    let refused = |answer| MonthAnswer { answer, ..MonthAnswer::default() };
    let hours = prices.len();
    let figures = u128::from(rows) * hours as u128;
    if hours > MOST_HOURS || imbalance.len() as u128 != figures || dm.len() != hours {
        return refused(11);
    }
    if rows < 1 || rows > MOST_ROWS || group >= rows {
        return refused(12);
    }
    if prices.iter().any(|p| *p > MOST_PRICE) {
        return refused(12);
    }
    let in_range = |v: &i32| *v >= -MOST_IMBALANCE && *v <= MOST_IMBALANCE;
    if !imbalance.iter().all(in_range) || !dm.iter().all(in_range) {
        return refused(12);
    }

    let mut weighted: i128 = 0;
    let mut weight: i128 = 0;
    let mut volume: i128 = 0;
    for row in 0..rows as usize {
        for hour in 0..hours {
            let value = i128::from(imbalance[row * hours + hour]);
            weighted += value.abs() * i128::from(prices[hour]);
            weight += value.abs();
            if row == group as usize {
                volume += value - i128::from(dm[hour]);
            }
        }
    }
    let average = if weight == 0 { 0 } else { (2 * weighted + weight) / (2 * weight) };
    MonthAnswer { answer: 0, aosmf: average as u64, aedm: volume as i64 }
}
