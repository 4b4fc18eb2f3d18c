//! The Gregorian calendar from 2000-01-01 (day 0) on, by walking, not by table.

use crate::answers::FirstDayAnswer;

/// The last year whose months' first days are told (document 02, T-08).
pub const LAST_YEAR: u32 = 2399;

/// Whether a year has a 29 February.
pub fn is_leap(year: u32) -> bool {
    if year % 400 == 0 {
        true
    } else if year % 100 == 0 {
        false
    } else {
        year % 4 == 0
    }
}

/// The number of days of a year.
pub fn days_of_year(year: u32) -> u32 {
    if is_leap(year) {
        366
    } else {
        365
    }
}

/// The number of days of a month (1 to 12) of a year.
pub fn days_of_month(year: u32, month: u32) -> u32 {
    match month {
        4 | 6 | 9 | 11 => 30,
        2 => {
            if is_leap(year) {
                29
            } else {
                28
            }
        }
        _ => 31,
    }
}

/// Year, month and day of the month of a day number.
pub fn date_of(day: u32) -> (u32, u32, u32) {
    let mut left = day;
    let mut year = 2000;
    while left >= days_of_year(year) {
        left -= days_of_year(year);
        year += 1;
    }
    let mut month = 1;
    while left >= days_of_month(year, month) {
        left -= days_of_month(year, month);
        month += 1;
    }
    (year, month, left + 1)
}

/// The billing period of a day: its year and month.
pub fn period_of(day: u32) -> (u32, u32) {
    let (year, month, _) = date_of(day);
    (year, month)
}

/// The number of the first day of a month, 1 to 12, of a year.
pub fn begin_of(year: u32, month: u32) -> u32 {
    let mut day = 0;
    for earlier in 2000..year {
        day += days_of_year(earlier);
    }
    for earlier in 1..month {
        day += days_of_month(year, earlier);
    }
    day
}

/// The first day of a month counted from January 2000, to the end of the last year.
pub fn first_day(month: u32) -> FirstDayAnswer {
    let (year, month) = (2000 + month / 12, 1 + month % 12);
    if year > LAST_YEAR {
        return FirstDayAnswer { answer: 12, day: 0 };
    }
    FirstDayAnswer { answer: 0, day: begin_of(year, month) }
}
