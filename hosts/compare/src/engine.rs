//! The engine's calls on numbers and byte slices.
//!
//! A book is its words' bytes, little-endian; a table too. `Linked` is the
//! engine under test, a static library in C's calling convention, by its calls
//! on bytes or by those on words. `Second` is the second calculation behind the
//! same calls: what the engine is held to, and with the feature `selftest` also
//! what stands in for the engine.

use second::{
    BalanceAnswer, Case, CeilingAnswer, Collateral, Controlled, Counted, EntryRead, FileRead,
    FirstDayAnswer, MonthAnswer, MonthReport, Posted, TallyAnswer,
};

/// The tables of a month step, as bytes.
#[derive(Clone, Copy)]
pub struct Tables<'a> {
    pub prices: &'a [u8],
    pub imbalance: &'a [u8],
    pub rows: u32,
    pub dm: &'a [u8],
    pub group: u32,
}

/// The figures of a post.
#[derive(Clone, Copy, Debug, PartialEq, Eq)]
pub struct Post {
    pub party: u32,
    pub day: u32,
    pub entry_type: u32,
    pub counterparty: u32,
    pub amount: u64,
}

pub trait Engine: Sized {
    /// The same engine by its calls on words in place. These are lent bytes
    /// whose length and address are multiples of 4.
    fn on_words(&self) -> Self;

    fn is_book(&self, book: &[u8]) -> u32;
    fn open(&self, book: &mut [u8], coefficient: u32, tolerance: u32) -> u32;
    fn open_default(&self, book: &mut [u8]) -> u32;
    fn post(&self, book: &mut [u8], post: Post) -> Posted;
    fn withdraw(&self, book: &mut [u8], number: u32) -> u32;
    fn count(&self, book: &[u8]) -> Counted;
    fn entry(&self, book: &[u8], number: u32) -> EntryRead;
    fn tally(&self, book: &[u8], party: u32, day: u32) -> TallyAnswer;
    fn day_ahead(&self, book: &[u8], party: u32, day: u32) -> BalanceAnswer;
    fn delivery(&self, book: &[u8], party: u32, day: u32) -> BalanceAnswer;
    fn detected(&self, balance: i64) -> u32;
    fn ceiling(&self, offer: u32, bilateral: u32, futures: u32, capacity: u32) -> CeilingAnswer;
    fn first_day(&self, month: u32) -> FirstDayAnswer;
    fn month(&self, tables: Tables) -> MonthAnswer;
    fn month_report(&self, book: &[u8], month: u32) -> MonthReport;
    fn collateral(&self, book: &[u8], case: &Case) -> Collateral;
    fn control(&self, book: &mut [u8], day: u32) -> Controlled;
    fn read_file(&self, book: &mut [u8], file: &[u8]) -> FileRead;
}

/// The second calculation behind the byte interface.
pub struct Second;

/// The words of bytes; None where the length is no multiple of 4.
pub fn words(bytes: &[u8]) -> Option<Vec<u32>> {
    if bytes.len() % 4 != 0 {
        return None;
    }
    let mut words = Vec::with_capacity(bytes.len() / 4);
    for b in bytes.chunks_exact(4) {
        words.push(u32::from_le_bytes([b[0], b[1], b[2], b[3]]));
    }
    Some(words)
}

/// The bytes of words.
pub fn bytes(words: &[u32]) -> Vec<u8> {
    let mut bytes = Vec::with_capacity(words.len() * 4);
    for word in words {
        bytes.extend_from_slice(&word.to_le_bytes());
    }
    bytes
}

fn signed(bytes: &[u8]) -> Option<Vec<i32>> {
    let words = words(bytes)?;
    Some(words.into_iter().map(|w| w as i32).collect())
}

/// A call on a book's words, or what is answered where the bytes are no words.
fn reading<T>(book: &[u8], refused: T, call: impl FnOnce(&[u32]) -> T) -> T {
    match words(book) {
        None => refused,
        Some(words) => call(&words),
    }
}

/// The same for a call that may write.
fn writing<T>(book: &mut [u8], refused: T, call: impl FnOnce(&mut [u32]) -> T) -> T {
    match words(book) {
        None => refused,
        Some(mut words) => {
            let answer = call(&mut words);
            book.copy_from_slice(&bytes(&words));
            answer
        }
    }
}

impl Engine for Second {
    fn on_words(&self) -> Second {
        Second
    }

    fn is_book(&self, book: &[u8]) -> u32 {
        reading(book, 0, |words| u32::from(second::is_book(words)))
    }

    fn open(&self, book: &mut [u8], coefficient: u32, tolerance: u32) -> u32 {
        writing(book, 1, |words| second::open(words, coefficient, tolerance))
    }

    fn open_default(&self, book: &mut [u8]) -> u32 {
        writing(book, 1, second::open_default)
    }

    fn post(&self, book: &mut [u8], p: Post) -> Posted {
        let refused = Posted { answer: 1, ..Posted::default() };
        writing(book, refused, |words| {
            second::post(words, p.party, p.day, p.entry_type, p.counterparty, p.amount)
        })
    }

    fn withdraw(&self, book: &mut [u8], number: u32) -> u32 {
        writing(book, 1, |words| second::withdraw(words, number))
    }

    fn count(&self, book: &[u8]) -> Counted {
        let refused = Counted { answer: 1, ..Counted::default() };
        reading(book, refused, second::count)
    }

    fn entry(&self, book: &[u8], number: u32) -> EntryRead {
        let refused = EntryRead { answer: 1, ..EntryRead::default() };
        reading(book, refused, |words| second::entry(words, number))
    }

    fn tally(&self, book: &[u8], party: u32, day: u32) -> TallyAnswer {
        let refused = TallyAnswer { answer: 1, ..TallyAnswer::default() };
        reading(book, refused, |words| second::tally(words, party, day))
    }

    fn day_ahead(&self, book: &[u8], party: u32, day: u32) -> BalanceAnswer {
        let refused = BalanceAnswer { answer: 1, ..BalanceAnswer::default() };
        reading(book, refused, |words| second::day_ahead(words, party, day))
    }

    fn delivery(&self, book: &[u8], party: u32, day: u32) -> BalanceAnswer {
        let refused = BalanceAnswer { answer: 1, ..BalanceAnswer::default() };
        reading(book, refused, |words| second::delivery(words, party, day))
    }

    fn detected(&self, balance: i64) -> u32 {
        u32::from(second::detected(balance))
    }

    fn ceiling(&self, offer: u32, bilateral: u32, futures: u32, capacity: u32) -> CeilingAnswer {
        second::ceiling(offer, bilateral, futures, capacity)
    }

    fn first_day(&self, month: u32) -> FirstDayAnswer {
        second::first_day(month)
    }

    fn month(&self, t: Tables) -> MonthAnswer {
        match (words(t.prices), signed(t.imbalance), signed(t.dm)) {
            (Some(prices), Some(imbalance), Some(dm)) => {
                second::month_step(&prices, &imbalance, t.rows, &dm, t.group)
            }
            _ => MonthAnswer { answer: 11, ..MonthAnswer::default() },
        }
    }

    fn month_report(&self, book: &[u8], month: u32) -> MonthReport {
        let refused = MonthReport { answer: 1, ..MonthReport::default() };
        reading(book, refused, |words| second::month_report(words, month))
    }

    fn collateral(&self, book: &[u8], case: &Case) -> Collateral {
        let refused = Collateral { answer: 1, ..Collateral::default() };
        reading(book, refused, |words| second::collateral(words, case))
    }

    fn control(&self, book: &mut [u8], day: u32) -> Controlled {
        let refused = Controlled { answer: 1, ..Controlled::default() };
        writing(book, refused, |words| second::control(words, day))
    }

    fn read_file(&self, book: &mut [u8], file: &[u8]) -> FileRead {
        let refused = FileRead { answer: 1, ..FileRead::default() };
        writing(book, refused, |words| second::read_file(words, file))
    }
}

/// Whether an empty slice is lent with a null pointer; the draws switch it.
pub static NULL_WHEN_EMPTY: std::sync::atomic::AtomicBool =
    std::sync::atomic::AtomicBool::new(false);

/// The engine under test, linked as a static library.
#[cfg(all(engine_linked, not(feature = "selftest")))]
#[allow(dead_code)]
pub mod linked {
    use super::*;
    use std::ffi::c_void;
    use std::sync::atomic::Ordering::Relaxed;

    #[repr(C)]
    struct CPosted {
        answer: u32,
        number: u32,
    }

    #[repr(C)]
    struct CCounted {
        answer: u32,
        count: u32,
    }

    #[repr(C)]
    struct CEntryRead {
        answer: u32,
        party: u32,
        day: u32,
        entry_type: u32,
        counterparty: u32,
        status: u32,
        amount: u64,
    }

    #[repr(C)]
    struct CBalanceAnswer {
        answer: u32,
        balance: i64,
    }

    #[repr(C)]
    struct CTally {
        party: u32,
        sums: [u64; 17],
    }

    #[repr(C)]
    struct CTallyAnswer {
        answer: u32,
        tally: CTally,
        bought: u64,
    }

    #[repr(C)]
    struct CCeilingAnswer {
        answer: u32,
        recordable: u32,
    }

    #[repr(C)]
    struct CFirstDayAnswer {
        answer: u32,
        day: u32,
    }

    #[repr(C)]
    struct CMonth {
        aosmf: u64,
        aedm: i64,
    }

    #[repr(C)]
    struct CMonthAnswer {
        answer: u32,
        month: CMonth,
    }

    #[repr(C)]
    struct CReport {
        answer: u32,
        month: u32,
        first_day: u32,
        days: u32,
        lines: [[u64; 21]; 32],
    }

    #[repr(C)]
    struct CCollateral {
        answer: u32,
        margin: u64,
        trading: u64,
        imbalance: u64,
        risk: u64,
        yek: u64,
        total: u64,
    }

    #[repr(C)]
    struct CControlled {
        answer: u32,
        first: u32,
        second: u32,
        cancelled: u32,
    }

    #[repr(C)]
    struct CFileRead {
        answer: u32,
        posted: u32,
    }

    /// A lent slice as the library takes it: its length is in bytes or in words.
    struct Slice {
        at: *mut u8,
        length: usize,
        words: bool,
    }

    /// Each call on a slice is declared on bytes and on words; the slice chooses.
    macro_rules! calls {
        ($($name:ident: $bytes:ident, $words:ident($($figure:ident: $kind:ty),*) -> $answer:ty;)*) => {
            #[link(name = "fanzsoreb", kind = "static")]
            extern "C" {
                $(fn $bytes(at: *mut u8, length: usize, $($figure: $kind),*) -> $answer;)*
                $(fn $words(at: *mut u32, length: usize, $($figure: $kind),*) -> $answer;)*
            }
            $(#[allow(clippy::too_many_arguments)]
            fn $name(slice: Slice, $($figure: $kind),*) -> $answer {
                unsafe {
                    if slice.words {
                        $words(slice.at.cast(), slice.length, $($figure),*)
                    } else {
                        $bytes(slice.at, slice.length, $($figure),*)
                    }
                }
            })*
        };
    }

    calls! {
        is_book: fanzsoreb_is_book, fanzsoreb_is_book_words() -> u32;
        open: fanzsoreb_open, fanzsoreb_open_words(coefficient: u32, tolerance: u32) -> u32;
        open_default: fanzsoreb_open_default, fanzsoreb_open_default_words() -> u32;
        post: fanzsoreb_post, fanzsoreb_post_words(
            party: u32, day: u32, entry_type: u32, counterparty: u32, amount: u64
        ) -> CPosted;
        withdraw: fanzsoreb_withdraw, fanzsoreb_withdraw_words(number: u32) -> u32;
        count: fanzsoreb_count, fanzsoreb_count_words() -> CCounted;
        entry: fanzsoreb_entry, fanzsoreb_entry_words(number: u32) -> CEntryRead;
        tally: fanzsoreb_tally, fanzsoreb_tally_words(party: u32, day: u32) -> CTallyAnswer;
        day_ahead: fanzsoreb_day_ahead, fanzsoreb_day_ahead_words(
            party: u32, day: u32
        ) -> CBalanceAnswer;
        delivery: fanzsoreb_delivery, fanzsoreb_delivery_words(
            party: u32, day: u32
        ) -> CBalanceAnswer;
        month: fanzsoreb_month, fanzsoreb_month_words(
            imbalance: *const c_void, imbalance_length: usize, rows: u32, dm: *const c_void,
            dm_length: usize, group: u32
        ) -> CMonthAnswer;
        month_report: fanzsoreb_month_report, fanzsoreb_month_report_words(month: u32) -> CReport;
        collateral: fanzsoreb_collateral, fanzsoreb_collateral_words(
            party: u32, day: u32, licence: u32, capacity: u64, nonbusiness: u32, holiday: u32,
            defaults: u32, responsible: u32, aosmf1: u64, aedm1: i64, aosmf2: u64, aedm2: i64,
            aosmf3: u64, aedm3: i64, used: u32, rk: u32, rt: u64, yt: u64, score: u32, best: u32
        ) -> CCollateral;
        control: fanzsoreb_control, fanzsoreb_control_words(day: u32) -> CControlled;
        read_file: fanzsoreb_read_file, fanzsoreb_read_file_words(
            file: *const u8, file_length: usize
        ) -> CFileRead;
    }

    extern "C" {
        fn fanzsoreb_detected(balance: i64) -> u32;
        fn fanzsoreb_ceiling(
            offer: u32,
            bilateral: u32,
            futures: u32,
            capacity: u32,
        ) -> CCeilingAnswer;
        fn fanzsoreb_first_day(month: u32) -> CFirstDayAnswer;
    }

    fn at(slice: &[u8]) -> *const u8 {
        if slice.is_empty() && NULL_WHEN_EMPTY.load(Relaxed) {
            std::ptr::null()
        } else {
            slice.as_ptr()
        }
    }

    fn at_mut(slice: &mut [u8]) -> *mut u8 {
        if slice.is_empty() && NULL_WHEN_EMPTY.load(Relaxed) {
            std::ptr::null_mut()
        } else {
            slice.as_mut_ptr()
        }
    }

    pub struct Linked {
        words: bool,
    }

    impl Linked {
        pub fn on_bytes() -> Linked {
            Linked { words: false }
        }

        fn slice(&self, at: *mut u8, length: usize) -> Slice {
            // What a host must see to before it calls on words.
            assert!(!self.words || (at as usize | length) % 4 == 0);
            Slice { at, length: if self.words { length / 4 } else { length }, words: self.words }
        }

        fn lent(&self, book: &[u8]) -> Slice {
            self.slice(at(book).cast_mut(), book.len())
        }

        fn lent_mut(&self, book: &mut [u8]) -> Slice {
            self.slice(at_mut(book), book.len())
        }
    }

    impl Engine for Linked {
        fn on_words(&self) -> Linked {
            Linked { words: true }
        }

        fn is_book(&self, book: &[u8]) -> u32 {
            is_book(self.lent(book))
        }

        fn open(&self, book: &mut [u8], coefficient: u32, tolerance: u32) -> u32 {
            open(self.lent_mut(book), coefficient, tolerance)
        }

        fn open_default(&self, book: &mut [u8]) -> u32 {
            open_default(self.lent_mut(book))
        }

        fn post(&self, book: &mut [u8], p: Post) -> Posted {
            let c =
                post(self.lent_mut(book), p.party, p.day, p.entry_type, p.counterparty, p.amount);
            Posted { answer: c.answer, number: c.number }
        }

        fn withdraw(&self, book: &mut [u8], number: u32) -> u32 {
            withdraw(self.lent_mut(book), number)
        }

        fn count(&self, book: &[u8]) -> Counted {
            let c = count(self.lent(book));
            Counted { answer: c.answer, count: c.count }
        }

        fn entry(&self, book: &[u8], number: u32) -> EntryRead {
            let c = entry(self.lent(book), number);
            EntryRead {
                answer: c.answer,
                party: c.party,
                day: c.day,
                entry_type: c.entry_type,
                counterparty: c.counterparty,
                status: c.status,
                amount: c.amount,
            }
        }

        fn tally(&self, book: &[u8], party: u32, day: u32) -> TallyAnswer {
            let c = tally(self.lent(book), party, day);
            TallyAnswer {
                answer: c.answer,
                party: c.tally.party,
                sums: c.tally.sums,
                bought: c.bought,
            }
        }

        fn day_ahead(&self, book: &[u8], party: u32, day: u32) -> BalanceAnswer {
            let c = day_ahead(self.lent(book), party, day);
            BalanceAnswer { answer: c.answer, balance: c.balance }
        }

        fn delivery(&self, book: &[u8], party: u32, day: u32) -> BalanceAnswer {
            let c = delivery(self.lent(book), party, day);
            BalanceAnswer { answer: c.answer, balance: c.balance }
        }

        fn detected(&self, balance: i64) -> u32 {
            unsafe { fanzsoreb_detected(balance) }
        }

        fn ceiling(
            &self,
            offer: u32,
            bilateral: u32,
            futures: u32,
            capacity: u32,
        ) -> CeilingAnswer {
            let c = unsafe { fanzsoreb_ceiling(offer, bilateral, futures, capacity) };
            CeilingAnswer { answer: c.answer, recordable: c.recordable }
        }

        fn first_day(&self, month: u32) -> FirstDayAnswer {
            let c = unsafe { fanzsoreb_first_day(month) };
            FirstDayAnswer { answer: c.answer, day: c.day }
        }

        fn month(&self, t: Tables) -> MonthAnswer {
            let (imbalance, dm) = (self.lent(t.imbalance), self.lent(t.dm));
            let c = month(
                self.lent(t.prices),
                imbalance.at.cast(),
                imbalance.length,
                t.rows,
                dm.at.cast(),
                dm.length,
                t.group,
            );
            MonthAnswer { answer: c.answer, aosmf: c.month.aosmf, aedm: c.month.aedm }
        }

        fn month_report(&self, book: &[u8], month: u32) -> MonthReport {
            let c = month_report(self.lent(book), month);
            MonthReport {
                answer: c.answer,
                month: c.month,
                first_day: c.first_day,
                days: c.days,
                lines: c.lines,
            }
        }

        fn collateral(&self, book: &[u8], case: &Case) -> Collateral {
            let [one, two, three] = case.months;
            let c = collateral(
                self.lent(book),
                case.party,
                case.day,
                case.licence,
                case.capacity,
                case.nonbusiness,
                case.holiday,
                case.defaults,
                case.responsible,
                one.aosmf,
                one.aedm,
                two.aosmf,
                two.aedm,
                three.aosmf,
                three.aedm,
                case.used,
                case.rk,
                case.rt,
                case.yt,
                case.score,
                case.best,
            );
            Collateral {
                answer: c.answer,
                margin: c.margin,
                trading: c.trading,
                imbalance: c.imbalance,
                risk: c.risk,
                yek: c.yek,
                total: c.total,
            }
        }

        fn control(&self, book: &mut [u8], day: u32) -> Controlled {
            let c = control(self.lent_mut(book), day);
            Controlled {
                answer: c.answer,
                first: c.first,
                second: c.second,
                cancelled: c.cancelled,
            }
        }

        fn read_file(&self, book: &mut [u8], file: &[u8]) -> FileRead {
            let c = read_file(self.lent_mut(book), at(file), file.len());
            FileRead { answer: c.answer, posted: c.posted }
        }
    }
}
