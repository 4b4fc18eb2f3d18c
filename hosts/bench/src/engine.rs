// The calls of include/fanzsoreb.h: those on a book twice, on words and on bytes, which differ in how the book is lent.
use peers::answers::*;

macro_rules! on_books {
    ($($name:ident($($given:ident: $kind:ty),*) -> $answer:ty;)*) => {
        pub mod words {
            use super::*;
            extern "C" {$(
                #[link_name = concat!("fanzsoreb_", stringify!($name), "_words")]
                pub fn $name(book: *mut u32, words: usize, $($given: $kind),*) -> $answer;
            )*}
        }
        pub mod bytes {
            use super::*;
            extern "C" {$(
                #[link_name = concat!("fanzsoreb_", stringify!($name))]
                pub fn $name(book: *mut u8, length: usize, $($given: $kind),*) -> $answer;
            )*}
        }
    };
}

on_books! {
    is_book() -> u32;
    open(coefficient: u32, tolerance: u32) -> u32;
    count() -> Counted;
    entry(number: u32) -> EntryRead;
    post(party: u32, day: u32, entry_type: u32, counterparty: u32, amount: u64) -> Posted;
    withdraw(number: u32) -> u32;
    tally(party: u32, day: u32) -> TallyAnswer;
    day_ahead(party: u32, day: u32) -> Balance;
    delivery(party: u32, day: u32) -> Balance;
    month_report(month: u32) -> MonthReport;
    control(day: u32) -> Controlled;
    read_file(file: *const u8, file_length: usize) -> FileRead;
    collateral(
        party: u32, day: u32, licence: u32, capacity: u64, nonbusiness: u32, holiday: u32, defaults: u32, responsible: u32,
        aosmf1: u64, aedm1: i64, aosmf2: u64, aedm2: i64, aosmf3: u64, aedm3: i64, used: u32, rk: u32, rt: u64, yt: u64,
        score: u32, best: u32
    ) -> Collateral;
}

#[rustfmt::skip]
extern "C" {
    pub fn fanzsoreb_month_words(
        prices: *const u32, hours: usize, imbalance: *const i32, figures: usize, rows: u32, dm: *const i32, dm_hours: usize,
        group: u32,
    ) -> MonthAnswer;
    pub fn fanzsoreb_month(
        prices: *const u8, prices_length: usize, imbalance: *const u8, imbalance_length: usize, rows: u32, dm: *const u8,
        dm_length: usize, group: u32,
    ) -> MonthAnswer;
    pub fn fanzsoreb_ceiling(offer: u32, bilateral: u32, futures: u32, capacity: u32) -> Recordable;
    pub fn fanzsoreb_first_day(month: u32) -> FirstDay;
}
