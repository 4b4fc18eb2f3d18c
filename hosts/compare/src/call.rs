//! A call with its figures, and its answer.

use crate::engine::{words, Post};
use second::{
    BalanceAnswer, Case, CeilingAnswer, Collateral, Controlled, Counted, EntryRead, FileRead,
    FirstDayAnswer, MonthAnswer, MonthReport, Posted, TallyAnswer, LINE_SUMS,
};
use std::fmt::Write;

/// Every call that is compared by itself.
pub const NAMES: [&str; 18] = [
    "is_book",
    "open",
    "open_default",
    "post",
    "withdraw",
    "count",
    "entry",
    "tally",
    "day_ahead",
    "delivery",
    "detected",
    "ceiling",
    "first_day",
    "month",
    "month_report",
    "collateral",
    "control",
    "read_file",
];

#[derive(Clone, Debug, PartialEq, Eq)]
pub enum Call {
    IsBook,
    Open { coefficient: u32, tolerance: u32 },
    OpenDefault,
    Post(Post),
    Withdraw { number: u32 },
    Count,
    Entry { number: u32 },
    Tally { party: u32, day: u32 },
    DayAhead { party: u32, day: u32 },
    Delivery { party: u32, day: u32 },
    Detected { balance: i64 },
    Ceiling { offer: u32, bilateral: u32, futures: u32, capacity: u32 },
    FirstDay { month: u32 },
    Month { prices: Vec<u8>, imbalance: Vec<u8>, rows: u32, dm: Vec<u8>, group: u32 },
    MonthReport { month: u32 },
    Collateral(Case),
    Control { day: u32 },
    ReadFile { file: Vec<u8> },
}

#[derive(Clone, Debug, PartialEq, Eq)]
pub enum Answer {
    /// 1 or 0: is it a book, is it detected.
    Flag(u32),
    /// An answer without further figures.
    Plain(u32),
    Posted(Posted),
    Counted(Counted),
    EntryRead(EntryRead),
    Tally(TallyAnswer),
    Balance(BalanceAnswer),
    Ceiling(CeilingAnswer),
    FirstDay(FirstDayAnswer),
    Month(MonthAnswer),
    MonthReport(Box<MonthReport>),
    Collateral(Collateral),
    Controlled(Controlled),
    FileRead(FileRead),
}

impl Answer {
    /// 0 if the call is done, else the cause of its refusal.
    pub fn cause(&self) -> u32 {
        match self {
            Answer::Flag(_) => 0,
            Answer::Plain(answer) => *answer,
            Answer::Posted(a) => a.answer,
            Answer::Counted(a) => a.answer,
            Answer::EntryRead(a) => a.answer,
            Answer::Tally(a) => a.answer,
            Answer::Balance(a) => a.answer,
            Answer::Ceiling(a) => a.answer,
            Answer::FirstDay(a) => a.answer,
            Answer::Month(a) => a.answer,
            Answer::MonthReport(a) => a.answer,
            Answer::Collateral(a) => a.answer,
            Answer::Controlled(a) => a.answer,
            Answer::FileRead(a) => a.answer,
        }
    }

    /// The answer with its figures, of a report's lines those that are not all 0.
    pub fn shown(&self) -> String {
        let Answer::MonthReport(report) = self else {
            return format!("{self:?}");
        };
        let MonthReport { answer, month, first_day, days, lines } = **report;
        let mut text = format!("answer {answer}, month {month} from {first_day}, {days} days");
        for (i, line) in lines.iter().enumerate().filter(|(_, line)| **line != [0; LINE_SUMS]) {
            let _ = write!(text, ", line {i} {line:?}");
        }
        text
    }
}

fn hexadecimal(text: &mut String, bytes: &[u8]) {
    match words(bytes) {
        Some(words) => {
            let _ = write!(text, "{} words", words.len());
            for word in words {
                let _ = write!(text, " {word:08X}");
            }
        }
        None => {
            let _ = write!(text, "{} bytes", bytes.len());
            for byte in bytes {
                let _ = write!(text, " {byte:02x}");
            }
        }
    }
}

/// Bytes as words in hexadecimal, or as bytes where they are no words.
pub fn shown(bytes: &[u8]) -> String {
    let mut text = String::new();
    hexadecimal(&mut text, bytes);
    text
}

impl Call {
    pub fn name(&self) -> &'static str {
        match self {
            Call::IsBook => "is_book",
            Call::Open { .. } => "open",
            Call::OpenDefault => "open_default",
            Call::Post(_) => "post",
            Call::Withdraw { .. } => "withdraw",
            Call::Count => "count",
            Call::Entry { .. } => "entry",
            Call::Tally { .. } => "tally",
            Call::DayAhead { .. } => "day_ahead",
            Call::Delivery { .. } => "delivery",
            Call::Detected { .. } => "detected",
            Call::Ceiling { .. } => "ceiling",
            Call::FirstDay { .. } => "first_day",
            Call::Month { .. } => "month",
            Call::MonthReport { .. } => "month_report",
            Call::Collateral(_) => "collateral",
            Call::Control { .. } => "control",
            Call::ReadFile { .. } => "read_file",
        }
    }

    /// What the call is lent beside a book: a day file, or a month's tables.
    pub fn beside(&self) -> Vec<(&'static str, &[u8])> {
        match self {
            Call::ReadFile { file } => vec![("file", file)],
            Call::Month { prices, imbalance, dm, .. } => {
                vec![("prices", prices), ("imbalance", imbalance), ("dm", dm)]
            }
            _ => Vec::new(),
        }
    }

    /// Whether the call is on a book, not of figures or tables alone.
    pub fn is_on_a_book(&self) -> bool {
        !matches!(self.name(), "detected" | "ceiling" | "first_day" | "month")
    }

    /// Whether there is a call on words too: on a book or on tables, of which
    /// each length is a multiple of 4. A day file is bytes for both.
    pub fn has_words(&self, book: &[u8]) -> bool {
        let whole = |bytes: &[u8]| bytes.len() % 4 == 0;
        let tables = || self.beside().iter().all(|(_, table)| whole(table));
        whole(book) && (self.is_on_a_book() || (self.name() == "month" && tables()))
    }

    /// The call with all its figures.
    pub fn shown(&self) -> String {
        match self {
            Call::Month { prices, imbalance, rows, dm, group } => format!(
                "Month rows {rows} group {group}\n    prices {}\n    imbalance {}\n    dm {}",
                shown(prices),
                shown(imbalance),
                shown(dm)
            ),
            Call::ReadFile { file } => format!("ReadFile\n    file {}", shown(file)),
            other => format!("{other:?}"),
        }
    }
}
