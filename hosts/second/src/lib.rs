//! A second calculation of the balance book and the collateral drawn from it.
//!
//! It is written from documents 01 and 02 alone and shares nothing with the engine, so
//! that the two can be compared. It is meant to be read beside that paper:
//! a book is decoded into a list of entries, the list is worked on with plain
//! loops, maps and wide numbers, and what changed is encoded again.
//!
//! Every call returns an answer. 0 is done; any other number is the cause of
//! the refusal, the other figures are then zero and lent words are untouched.

mod answers;
mod balance;
mod book;
pub mod calendar;
mod ceiling;
mod collateral;
mod control;
mod dayfile;
mod month;
mod report;

pub use answers::{
    BalanceAnswer, Case, CeilingAnswer, Collateral, Controlled, Counted, EntryRead, FileRead,
    FirstDayAnswer, Month, MonthAnswer, MonthReport, Posted, TallyAnswer,
};
pub use balance::{day_ahead, delivery, detected, tally};
pub use book::{
    count, decode, encode, entry, fault, is_book, most_of, open, open_default, post, room,
    withdraw, Book, Entry, BILATERAL_SALE, CANCELLED, DEFAULT_COEFFICIENT, DEFAULT_TOLERANCE,
    LAST_DAY, LAST_PARTY, MARK, MOST_COEFFICIENT, MOST_ENTRIES, MOST_MONEY, MOST_TOLERANCE,
    MOST_VOLUME, PROGRAM, STANDING, UPDATED_PROGRAM, WITHDRAWN,
};
pub use calendar::first_day;
pub use ceiling::ceiling;
pub use collateral::collateral;
pub use control::control;
pub use dayfile::{balance_output, month_output, named, read_file, MOST_FILE_BYTES};
pub use month::month_step;
pub use report::{month_report, LAST_MONTH, LINE_SUMS, MOST_LINES};
