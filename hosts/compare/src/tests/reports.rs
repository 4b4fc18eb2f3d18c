//! Slips of the month report (02, T-01).

use super::{decoded, with_words_behind, Wrong};
use crate::engine::{Engine, Second};
use second::{Entry, MonthReport, CANCELLED, LAST_MONTH, WITHDRAWN};

impl Wrong {
    pub fn wrong_month_report(&self, book: &[u8], month: u32) -> MonthReport {
        let right = Second.month_report(book, month);
        let refused = |answer| MonthReport { answer, ..MonthReport::default() };
        match (self.0, right.answer) {
            (slip, 0) if slip.starts_with("month_report: ") => self.wrong_lines(book, right),
            ("month_report: 12 before 1", 1) if month > LAST_MONTH => refused(12),
            ("month_report: refused as a day", 12) => refused(4),
            ("month_report: the month on a refusal", _) => MonthReport { month, ..right },
            ("month_report: month 1,200 is given", 12) if month == 1_200 => {
                MonthReport { month, first_day: 36_525, days: 31, ..refused(0) }
            }
            ("month_report: a month is cut to sixteen bits", 12) => {
                Second.month_report(book, month & 0xFFFF)
            }
            _ => right,
        }
    }

    fn reports(&self, slip: &str) -> bool {
        self.0.strip_prefix("month_report: ") == Some(slip)
    }

    /// The place of a type's sum; None where it has none.
    fn place(&self, entry_type: u32) -> Option<usize> {
        match entry_type {
            17..=20 if self.reports("money is left out") => None,
            17..=20 if self.reports("updates come before money") => Some(entry_type as usize),
            22 if self.reports("updates are left out") => None,
            22 if self.reports("updates are in sum 12") => Some(11),
            22 if self.reports("updates come before money") => Some(16),
            1..=20 => Some(entry_type as usize - 1),
            22 => Some(20),
            _ => None,
        }
    }

    /// Whether an entry of the month counts in its line, and in the totals.
    fn counts(&self, e: &Entry, (first, last): (u32, u32)) -> (bool, bool) {
        let export = e.is_export();
        let stands = match e.status {
            WITHDRAWN => self.reports("withdrawn entries count"),
            CANCELLED => self.reports("cancelled entries count"),
            _ => !(export && self.reports("exports are left out")),
        };
        let missed = (export && self.reports("exports are left out of the totals"))
            || (e.day == first && self.reports("the totals miss the first day"))
            || (e.day == last && self.reports("the totals miss the last day"))
            || self.reports("no totals");
        let cancelled = e.status == CANCELLED;
        let more = cancelled && self.reports("cancelled entries are in the totals");
        (stands, (stands && !missed) || more)
    }

    fn amount(&self, e: &Entry) -> u64 {
        if self.reports("the high word of an amount is lost") {
            e.amount & 0x0FFF_FFFF
        } else if self.reports("a sale counts for its buyer too") && e.is_sale_to_party() {
            2 * e.amount
        } else {
            e.amount
        }
    }

    fn add(&self, sum: &mut u64, amount: u64) {
        *sum = match self.0 {
            "month_report: the latest entry alone" => amount,
            "month_report: sums of 32 bits" => (*sum + amount) & 0xFFFF_FFFF,
            _ => *sum + amount,
        };
    }

    /// The lines out of the entries, of a month that is no other.
    fn wrong_lines(&self, book: &[u8], right: MonthReport) -> MonthReport {
        let mut entries = if self.reports("the words behind the last entry are read") {
            decoded(&with_words_behind(book)).expect("a book").entries
        } else {
            decoded(book).expect("a book").entries
        };
        if self.reports("the first party alone") {
            let first = entries.iter().find(|e| !e.is_mark()).map(|e| e.party);
            entries.retain(|e| Some(e.party) == first);
        }
        let first = right.first_day;
        let days = match right.days {
            _ if self.reports("months of thirty days") => 30,
            29 if self.reports("Februaries of 28 days") => 28,
            days => days,
        };
        let mut wrong = MonthReport { days, lines: MonthReport::default().lines, ..right };
        let in_line_31 = self.reports("the totals are in the last line");
        let totals = if in_line_31 { 31 } else { days as usize };
        let later = u32::from(self.reports("days from 1 on"));
        for e in &entries {
            let Some(place) = self.place(e.entry_type) else {
                continue;
            };
            let (in_line, mut in_totals) = self.counts(e, (first, first + days - 1));
            // The day after would be the line of the totals.
            let line = match e.day {
                day if day >= first && day < first + days => Some(day - first + later),
                day if day + 1 == first && self.reports("the day before counts") => Some(0),
                day if day == first + days && self.reports("the day after counts") => {
                    in_totals = false;
                    Some(days)
                }
                _ => None,
            };
            if let Some(line) = line.filter(|_| in_line) {
                self.add(&mut wrong.lines[line as usize][place], self.amount(e));
            }
            let of_the_month = line.is_some() || self.reports("totals of the whole book");
            if of_the_month && in_totals {
                self.add(&mut wrong.lines[totals][place], self.amount(e));
            }
        }
        wrong
    }
}
