//! The month report for the back office (document 02, T-01).

use crate::answers::MonthReport;
use crate::book::{decode, Entry, UPDATED_PROGRAM};
use crate::calendar::{begin_of, date_of, days_of_month};

pub const LAST_MONTH: u32 = 1_199;
/// The sums of a line: types 1 to 20 in order, the updated program last (02, T-02).
pub const LINE_SUMS: usize = 21;
/// Most lines: 31 days and the totals.
pub const MOST_LINES: usize = 32;

/// The sums of these entries, exports among type 6.
fn line(entries: &[&Entry]) -> [u64; LINE_SUMS] {
    let mut sums = [0; LINE_SUMS];
    for (sum, entry_type) in sums.iter_mut().zip((1..=20).chain([UPDATED_PROGRAM])) {
        let of_type = entries.iter().filter(|e| e.entry_type == entry_type);
        let amounts: u128 = of_type.map(|e| u128::from(e.amount)).sum();
        *sum = u64::try_from(amounts).expect("a sum of a book");
    }
    sums
}

/// The sums of all parties on each day of a month, and the month's totals.
/// The totals are those of the month's entries, not of the lines before them.
pub fn month_report(words: &[u32], month: u32) -> MonthReport {
    let refused = |answer| MonthReport { answer, ..MonthReport::default() };
    let Some(book) = decode(words) else {
        return refused(1);
    };
    if month > LAST_MONTH {
        return refused(12);
    }
    let (year, of_year) = (2000 + month / 12, 1 + month % 12);
    // Standing entries of the month, each with its day of the month from 1 on.
    let mut held: Vec<(u32, &Entry)> = Vec::new();
    for e in book.entries.iter().filter(|e| e.stands() && !e.is_mark()) {
        let (e_year, e_month, of_month) = date_of(e.day);
        if (e_year, e_month) == (year, of_year) {
            held.push((of_month, e));
        }
    }
    let days = days_of_month(year, of_year);
    let first_day = begin_of(year, of_year);
    let mut report = MonthReport { month, first_day, days, ..MonthReport::default() };
    for of_month in 1..=days {
        let of_day: Vec<&Entry> =
            held.iter().filter(|(own, _)| *own == of_month).map(|(_, e)| *e).collect();
        report.lines[of_month as usize - 1] = line(&of_day);
    }
    let of_the_month: Vec<&Entry> = held.iter().map(|(_, e)| *e).collect();
    report.lines[days as usize] = line(&of_the_month);
    report
}
