//! What the calls return, and the case that collateral is asked for.

use crate::report::{LINE_SUMS, MOST_LINES};

/// A post: the number of the new entry, counted from 0.
#[derive(Clone, Copy, Debug, PartialEq, Eq, Default)]
pub struct Posted {
    pub answer: u32,
    pub number: u32,
}

/// The number of entries of a book, marks included.
#[derive(Clone, Copy, Debug, PartialEq, Eq, Default)]
pub struct Counted {
    pub answer: u32,
    pub count: u32,
}

/// One entry as it stands in the book.
#[derive(Clone, Copy, Debug, PartialEq, Eq, Default)]
pub struct EntryRead {
    pub answer: u32,
    pub party: u32,
    pub day: u32,
    pub entry_type: u32,
    pub counterparty: u32,
    pub status: u32,
    pub amount: u64,
}

/// A balance in hundredths of a kWh.
#[derive(Clone, Copy, Debug, PartialEq, Eq, Default)]
pub struct BalanceAnswer {
    pub answer: u32,
    pub balance: i64,
}

/// A party's seventeen volume sums of a day (type 1 stands at place 0, type 22 at
/// place 16; sum 6 is without exports), and what others sold to it bilaterally.
#[derive(Clone, Copy, Debug, PartialEq, Eq, Default)]
pub struct TallyAnswer {
    pub answer: u32,
    pub party: u32,
    pub sums: [u64; 17],
    pub bought: u64,
}

/// A month: the weighted average price and the group's volume.
#[derive(Clone, Copy, Debug, PartialEq, Eq, Default)]
pub struct MonthAnswer {
    pub answer: u32,
    pub aosmf: u64,
    pub aedm: i64,
}

/// Whether a settlement period's offer is recordable (1) or not (0).
#[derive(Clone, Copy, Debug, PartialEq, Eq, Default)]
pub struct CeilingAnswer {
    pub answer: u32,
    pub recordable: u32,
}

/// The first day of a month.
#[derive(Clone, Copy, Debug, PartialEq, Eq, Default)]
pub struct FirstDayAnswer {
    pub answer: u32,
    pub day: u32,
}

/// A month report: the month, its first day, how many days it has, a line of
/// sums for each of them, and after the last day's that of the month's totals.
#[derive(Clone, Copy, Debug, PartialEq, Eq, Default)]
pub struct MonthReport {
    pub answer: u32,
    pub month: u32,
    pub first_day: u32,
    pub days: u32,
    pub lines: [[u64; LINE_SUMS]; MOST_LINES],
}

/// A control: parties detected in each pass, and entries cancelled.
#[derive(Clone, Copy, Debug, PartialEq, Eq, Default)]
pub struct Controlled {
    pub answer: u32,
    pub first: u32,
    pub second: u32,
    pub cancelled: u32,
}

/// A day file: the number of lines posted.
#[derive(Clone, Copy, Debug, PartialEq, Eq, Default)]
pub struct FileRead {
    pub answer: u32,
    pub posted: u32,
}

/// Every item of collateral, in kuruş, and the total.
#[derive(Clone, Copy, Debug, PartialEq, Eq, Default)]
pub struct Collateral {
    pub answer: u32,
    pub margin: u64,
    pub trading: u64,
    pub imbalance: u64,
    pub risk: u64,
    pub yek: u64,
    pub total: u64,
}

/// A completed month as a case carries it.
#[derive(Clone, Copy, Debug, PartialEq, Eq, Default)]
pub struct Month {
    pub aosmf: u64,
    pub aedm: i64,
}

/// A collateral case.
#[derive(Clone, Copy, Debug, PartialEq, Eq, Default)]
pub struct Case {
    pub party: u32,
    /// Day g.
    pub day: u32,
    /// 0 supply, 1 transmission, 2 generation.
    pub licence: u32,
    /// kW; read for generation only, held to its range always.
    pub capacity: u64,
    /// Non-business days h.
    pub nonbusiness: u32,
    /// 1 if g is before a holiday.
    pub holiday: u32,
    /// Default days t.
    pub defaults: u32,
    /// 1 if the party is responsible for its group.
    pub responsible: u32,
    /// Latest first.
    pub months: [Month; 3],
    /// n: how many of the months are used.
    pub used: u32,
    /// RK in hundredths.
    pub rk: u32,
    /// RT.
    pub rt: u64,
    /// YT.
    pub yt: u64,
    /// Score T.
    pub score: u32,
    /// Best score M.
    pub best: u32,
}

impl Case {
    /// A plain supplier: all figures 0, M 1, responsible for its own group.
    pub fn supplier() -> Case {
        Case { best: 1, responsible: 1, ..Case::default() }
    }
}
