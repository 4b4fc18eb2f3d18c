//! The worked figures of document 01, 'Figures to hold it to', and the sample
//! of its day file, on an engine. The numbers are the papers' own; where 01
//! names no tolerance, R is 110 and TM 600,000, named at opening (02, T-12).

use crate::engine::{bytes, Engine, Post, Tables};
use second::{
    Case, Collateral, Controlled, EntryRead, FileRead, FirstDayAnswer, Month, MonthReport,
    TallyAnswer,
};
use std::fmt::Debug;

/// What was held against the paper, and how much of it differs.
pub struct Worked<'a, E: Engine> {
    engine: &'a E,
    pub compared: u64,
    pub failed: u64,
}

/// Every worked figure on an engine.
pub fn figures<E: Engine>(engine: &E) -> Worked<'_, E> {
    let mut worked = Worked { engine, compared: 0, failed: 0 };
    worked.balances();
    worked.opened_without_figures();
    worked.larger_money();
    worked.largest_trading();
    worked.updated_programs();
    worked.larger_of_two_programs();
    worked.seventeen_sums();
    worked.updates_of_a_closed_day();
    worked.updates_in_the_second_pass();
    worked.updates_beside_money();
    worked.margins();
    worked.months();
    worked.weights();
    worked.weights_of_a_table();
    worked.items();
    worked.ceilings();
    worked.first_days();
    worked.month_of_two_parties();
    worked.ends_of_a_month();
    worked.types_of_a_report();
    worked.largest_report();
    worked.reports_refused();
    worked.sample();
    worked.calendar();
    worked
}

/// The sums of a report that are not 0: line, place in it and sum.
fn nonzero(report: &MonthReport) -> Vec<(usize, usize, u64)> {
    let mut sums = Vec::new();
    for (i, line) in report.lines.iter().enumerate() {
        let of_line = line.iter().enumerate().filter(|(_, sum)| **sum > 0);
        sums.extend(of_line.map(|(at, sum)| (i, at, *sum)));
    }
    sums
}

impl<E: Engine> Worked<'_, E> {
    fn holds<T: PartialEq + Debug>(&mut self, what: &str, got: T, stated: T) {
        self.compared += 1;
        if got != stated {
            self.failed += 1;
            println!("{what}: {got:?}, stated is {stated:?}");
        }
    }

    /// A book with R 110 and TM 600,000, and entries of party, day, type, counterparty and amount.
    fn book(&mut self, entries: &[(u32, u32, u32, u32, u64)]) -> Vec<u8> {
        let mut book = vec![0; 12 + 20 * (entries.len() + 2)];
        self.holds("opening", self.engine.open(&mut book, 110, 600_000), 0);
        self.posts(&mut book, entries);
        book
    }

    /// A book opened without figures, and such entries.
    fn default_book(&mut self, entries: &[(u32, u32, u32, u32, u64)]) -> Vec<u8> {
        let mut book = vec![0; 12 + 20 * (entries.len() + 2)];
        self.holds("opening without figures", self.engine.open_default(&mut book), 0);
        self.posts(&mut book, entries);
        book
    }

    fn posts(&mut self, book: &mut [u8], entries: &[(u32, u32, u32, u32, u64)]) {
        for &(party, day, entry_type, counterparty, amount) in entries {
            let post = Post { party, day, entry_type, counterparty, amount };
            self.holds("a post", self.engine.post(book, post).answer, 0);
        }
    }

    /// Both balances of a party on a day.
    fn both(&mut self, what: &str, book: &[u8], (party, day): (u32, u32), balance: i64) {
        let ahead = self.engine.day_ahead(book, party, day).balance;
        let due = self.engine.delivery(book, party, day).balance;
        self.holds(what, (ahead, due), (balance, balance));
        self.holds(what, self.engine.detected(ahead), u32::from(balance > 0));
    }

    fn balances(&mut self) {
        let book = self.book(&[]);
        self.holds("opening", &book[..12], &bytes(&[0x6000_0000, 0x7000_006E, 0x8009_27C0]));
        self.both("no entries", &book, (1, 0), -60_000_000);
        for (amount, balance) in [(600_000, 0), (600_001, 100)] {
            let book = self.book(&[(1, 9_000, 1, 0, amount)]);
            self.both("a sale", &book, (1, 9_000), balance);
        }
        // 110 hundredths of A = 300,000 are less than the tolerance, so a coefficient of 1,000 shows A.
        let mut book = vec![0; 12 + 20 * 2];
        self.holds("opening", self.engine.open(&mut book, 1_000, 0), 0);
        for (entry_type, amount) in [(15, 300_000), (16, 200_000)] {
            let post = Post { party: 1, day: 5, entry_type, counterparty: 0, amount };
            self.holds("a post", self.engine.post(&mut book, post).answer, 0);
        }
        self.holds("tender and import", self.engine.delivery(&book, 1, 5).balance, -300_000_000);
    }

    /// R 105 and TM 500,000 (02, T-12): 105 × 476,190 is below 50,000,000, 105 × 476,191 is 50,000,055.
    fn opened_without_figures(&mut self) {
        let book = self.default_book(&[]);
        let stated = bytes(&[0x6000_0000, 0x7000_0069, 0x8007_A120]);
        self.holds("opening without figures", &book[..12], &stated);
        self.both("no entries, no figures", &book, (1, 0), -50_000_000);
        for (entry_type, amount, balance) in [
            (1, 500_000, 0),
            (1, 500_001, 100),
            (12, 476_190, -50_000_000),
            (12, 476_191, -50_000_055),
        ] {
            let book = self.default_book(&[(1, 9_000, entry_type, 0, amount)]);
            self.both("one entry, no figures", &book, (1, 9_000), balance);
        }
    }

    /// 02, T-06: money up to 10^13, which is 9184 E72A000 in a kind 5 and a kind 4 word. Bits 12 to 15 of kind 5
    /// are its own, bits 16 to 27 are spare; volumes stay within 10^9.
    fn larger_money(&mut self) {
        for (entry_type, amount, answer) in [
            (17, 1_000_000_000_001, 0),
            (17, 10_000_000_000_000, 0),
            (20, 10_000_000_000_000, 0),
            (17, 10_000_000_000_001, 7),
            (20, 10_000_000_000_001, 7),
            (16, 1_000_000_000, 0),
            (16, 1_000_000_001, 7),
            (16, 1_000_000_000_000, 7),
        ] {
            let mut book = self.book(&[]);
            let post = Post { party: 1, day: 99, entry_type, counterparty: 0, amount };
            self.holds("an amount", self.engine.post(&mut book, post).answer, answer);
        }
        let book = self.book(&[(1, 99, 17, 0, 10_000_000_000_000)]);
        let stated = [0x1000_0001, 0x2000_0063, 0x3000_0011, 0x4E72_A000, 0x5000_9184];
        self.holds("the words of 10^13", &book[12..32], &bytes(&stated));
        self.holds("10^13 read", self.engine.entry(&book, 0).amount, 10_000_000_000_000);
        for (what, low, high, answer, is_book) in [
            (0x3000_0011, 0x4E72_A000, 0x5000_9184, 0, 1),
            (0x3000_0011, 0x4E72_A001, 0x5000_9184, 7, 0),
            (0x3000_0011, 0x4000_0000, 0x5000_1000, 0, 1),
            (0x3000_0014, 0x4000_0000, 0x5000_8000, 0, 1),
            (0x3000_0011, 0x4000_0000, 0x5001_0000, 2, 0),
            (0x3000_0011, 0x4000_0000, 0x5800_0000, 2, 0),
            (0x3000_0001, 0x4000_0000, 0x5000_1000, 7, 0),
            (0x3000_0201, 0x4000_0000, 0x5000_1000, 6, 0),
        ] {
            self.line_and_entry(&book, [what, low, high], answer, is_book);
        }
    }

    /// Three words as a file's only line, and in the place of a book's first entry, both of party 1 and day 99.
    fn line_and_entry(&mut self, book: &[u8], line: [u32; 3], answer: u32, is_book: u32) {
        let (mut lent, mut held) = (self.book(&[]), book.to_vec());
        let file = bytes(&[&[0x1001_0001, 0x2000_0063][..], &line].concat());
        let stated = FileRead { answer, posted: u32::from(answer == 0) };
        self.holds("a line", self.engine.read_file(&mut lent, &file), stated);
        held[20..32].copy_from_slice(&bytes(&line));
        self.holds("an entry", self.engine.is_book(&held), is_book);
    }

    /// 02, T-02: type 22 is a volume without a counterparty, 21 stays a mark's.
    fn updated_programs(&mut self) {
        for (entry_type, counterparty, amount, answer) in [
            (22, 0, 0, 0),
            (22, 0, 1_000_000_000, 0),
            (22, 0, 1_000_000_001, 7),
            (22, 0, 1_000_000_000_000, 7),
            (22, 0, 10_000_000_000_000, 7),
            (22, 1, 0, 6),
            (22, 2, 1_000_000_001, 6),
            (21, 0, 0, 5),
            (23, 0, 0, 5),
            (255, 0, 0, 5),
        ] {
            let mut book = self.book(&[]);
            let post = Post { party: 1, day: 99, entry_type, counterparty, amount };
            self.holds("a type", self.engine.post(&mut book, post).answer, answer);
        }
        let book = self.book(&[(1, 99, 22, 0, 1_000_000_000)]);
        let stated = [0x1000_0001, 0x2000_0063, 0x3000_0016, 0x4B9A_CA00, 0x5000_0003];
        self.holds("the words of an update", &book[12..32], &bytes(&stated));
        let stated = EntryRead { party: 1, day: 99, entry_type: 22, ..EntryRead::default() };
        let stated = EntryRead { amount: 1_000_000_000, ..stated };
        self.holds("an update read", self.engine.entry(&book, 0), stated);
        for (what, low, high, answer, is_book) in [
            (0x3000_0016, 0x4B9A_CA00, 0x5000_0003, 0, 1),
            (0x3000_0016, 0x4B9A_CA01, 0x5000_0003, 7, 0), // 10^9 + 1
            (0x3000_0016, 0x44A5_1000, 0x5000_0E8D, 7, 0), // 10^12
            (0x3000_0216, 0x4000_0000, 0x5000_0000, 6, 0),
            (0x3100_0016, 0x4000_0000, 0x5000_0000, 2, 1), // a withdrawn entry, no line
            (0x3200_0016, 0x4000_0000, 0x5000_0000, 2, 0),
            (0x3000_0015, 0x4000_0000, 0x5000_0000, 5, 0), // a mark has no party
            (0x3000_0017, 0x4000_0000, 0x5000_0000, 5, 0),
        ] {
            self.line_and_entry(&book, [what, low, high], answer, is_book);
        }
    }

    /// Delivery uses the larger of sums 12 and 22, day-ahead sum 12. R 100, TM 0: −100 × the one used.
    fn larger_of_two_programs(&mut self) {
        for (entries, program, update, ahead, due) in [
            (&[(12, 300), (22, 200)][..], 300, 200, -30_000, -30_000),
            (&[(12, 200), (22, 300)], 200, 300, -20_000, -30_000),
            (&[(12, 250), (22, 250)], 250, 250, -25_000, -25_000),
            (&[(22, 300)], 0, 300, 0, -30_000),
            (&[(12, 300)], 300, 0, -30_000, -30_000),
            (&[(12, 200), (22, 120), (22, 130)], 200, 250, -20_000, -25_000),
        ] {
            let mut book = vec![0; 12 + 20 * entries.len()];
            self.holds("opening", self.engine.open(&mut book, 100, 0), 0);
            let posts: Vec<_> =
                entries.iter().map(|&(t, amount)| (1, 9_000, t, 0, amount)).collect();
            self.posts(&mut book, &posts);
            let sums = self.engine.tally(&book, 1, 9_000).sums;
            self.holds("program and update", (sums[11], sums[16]), (program, update));
            self.balances_of("two programs", &book, (1, 9_000), (ahead, due));
        }
    }

    /// Day-ahead and delivery balance of a party on a day.
    fn balances_of(&mut self, what: &str, book: &[u8], asked: (u32, u32), stated: (i64, i64)) {
        let ahead = self.engine.day_ahead(book, asked.0, asked.1).balance;
        let due = self.engine.delivery(book, asked.0, asked.1).balance;
        self.holds(what, (ahead, due), stated);
    }

    /// 1,000 × k of each volume type k: type 22 is last.
    fn seventeen_sums(&mut self) {
        let types = [1_u32, 2, 3, 4, 5, 6, 7, 8, 9, 10, 11, 12, 13, 14, 15, 16, 22];
        let posts = types.map(|k| (1, 99, k, if k == 6 { 2 } else { 0 }, 1_000 * u64::from(k)));
        let book = self.book(&posts);
        let sums = types.map(|k| 1_000 * u64::from(k));
        let stated = TallyAnswer { answer: 0, party: 1, sums, bought: 0 };
        self.holds("seventeen sums", self.engine.tally(&book, 1, 99), stated);
    }

    /// 700,000 sold against a program of 600,000, updated to 700,000: 70,000,000 − 66,000,000 is detected day-ahead,
    /// 70,000,000 − 77,000,000 is clear in delivery. The closed day takes updates, and their withdrawal.
    fn updates_of_a_closed_day(&mut self) {
        let mut book = self.book(&[
            (1, 99, 6, 2, 700_000),
            (1, 99, 12, 0, 600_000),
            (1, 99, 22, 0, 700_000),
            (2, 99, 22, 0, 800_000),
            (1, 98, 22, 0, 900_000),
        ]);
        self.balances_of("an update", &book, (1, 99), (4_000_000, -7_000_000));
        let stated = Controlled { answer: 0, first: 1, second: 0, cancelled: 1 };
        let got = self.engine.control(&mut book, 99);
        self.holds("control of an updated program", got, stated);
        self.balances_of("an update, no sale", &book, (1, 99), (-66_000_000, -77_000_000));
        self.holds("withdrawal of an update", self.engine.withdraw(&mut book, 2), 0);
        self.balances_of("a withdrawn update", &book, (1, 99), (-66_000_000, -66_000_000));
        self.posts(&mut book, &[(1, 99, 22, 0, 650_000)]);
        self.balances_of("another update", &book, (1, 99), (-66_000_000, -71_500_000));
    }

    /// As in `calendar`, but the buyer has an update of 900,000: it is detected all the same.
    fn updates_in_the_second_pass(&mut self) {
        let mut book = self.book(&[
            (1, 59, 6, 2, 700_000),
            (1, 58, 6, 2, 700_000),
            (2, 58, 6, 3, 650_000),
            (2, 58, 22, 0, 900_000),
        ]);
        for (day, second, cancelled) in [(59, 0, 1), (58, 1, 2)] {
            let stated = Controlled { answer: 0, first: 1, second, cancelled };
            let got = self.engine.control(&mut book, day);
            self.holds("control with an update", got, stated);
        }
    }

    /// Trading is of types 17 to 20 alone.
    fn updates_beside_money(&mut self) {
        let book = self.book(&[(1, 99, 19, 0, 80), (1, 99, 22, 0, 50)]);
        let case = Case { party: 1, day: 100, ..Case::supplier() };
        let answer = self.collateral(&book, case);
        self.holds("trading beside an update", answer.trading, 80);
    }

    /// 3,072 purchases of 10^13: × 50 × 4 / 80 is 76,800,000,000,000,000. The total adds the largest
    /// imbalance, 500 × 1,000,000 × 14,900,000,000 / 100,000, the largest RT and the largest YT.
    fn largest_trading(&mut self) {
        let line = [0x3000_0011, 0x4E72_A000, 0x5000_9184];
        let file = [vec![0x1C00_0001, 0x2000_0063], line.repeat(3_072)].concat();
        let mut book = vec![0; 12 + 20 * 3_072];
        self.holds("opening", self.engine.open(&mut book, 110, 600_000), 0);
        let read = self.engine.read_file(&mut book, &bytes(&file));
        self.holds("3,072 lines", read, FileRead { answer: 0, posted: 3_072 });
        let months = [Month { aosmf: 1_000_000, aedm: -14_900_000_000 }; 3];
        let case =
            Case { party: 1, day: 100, defaults: 30, used: 3, rk: 500, months, ..Case::supplier() };
        let (rt, yt) = (1_000_000_000_000_000, 100_000_000_000_000);
        let answer = self.collateral(&book, Case { rt, yt, best: 10_000, ..case });
        self.holds("the largest trading", answer.trading, 76_800_000_000_000_000);
        self.holds("the largest total", answer.total, 77_974_500_000_000_000);
    }

    fn collateral(&mut self, book: &[u8], case: Case) -> Collateral {
        let answer = self.engine.collateral(book, &case);
        self.holds("a case", answer.answer, 0);
        answer
    }

    fn margins(&mut self) {
        let book = self.book(&[]);
        for (capacity, margin) in
            [(49_999, 1_000_000), (50_000, 1_000_000), (50_001, 1_000_020), (1_000_001, 20_000_000)]
        {
            let case = Case { party: 1, licence: 2, capacity, ..Case::supplier() };
            let answer = self.collateral(&book, case);
            self.holds("generation margin", answer.margin, margin);
        }
    }

    fn months(&mut self) {
        let figures = |v: &[i32]| bytes(&v.iter().map(|&x| x as u32).collect::<Vec<_>>());
        let (prices, imbalance, dm) = (figures(&[100, 101]), figures(&[-1, -1]), figures(&[0, 0]));
        let two = Tables { prices: &prices, imbalance: &imbalance, rows: 1, dm: &dm, group: 0 };
        let none = Tables { prices: &[], imbalance: &[], rows: 1, dm: &[], group: 0 };
        for (tables, aosmf) in [(two, 101), (none, 0)] {
            let answer = self.engine.month(tables);
            self.holds("average price", (answer.answer, answer.aosmf), (0, aosmf));
        }
    }

    /// 02, T-04: an imbalance beside another one at prices 1 and 0. Equal weights are 0.5, up.
    fn weights(&mut self) {
        const MOST: i32 = 10_000_000;
        let (prices, dm) = (bytes(&[1, 0]), bytes(&[0, 0]));
        for (first, second, stated) in [
            (-MOST, MOST, (0, 1, 0)),
            (MOST, -MOST, (0, 1, 0)),
            (1 - MOST, MOST, (0, 0, 1)),
            (MOST - 1, -MOST, (0, 0, -1)),
            (-1, 1, (0, 1, 0)),
            (1, -1, (0, 1, 0)),
            (0, -1, (0, 0, -1)),
            (0, 1, (0, 0, 1)),
            (-1, 0, (0, 1, -1)),
            (1, 0, (0, 1, 1)),
            (0, 0, (0, 0, 0)),
            (i32::MIN, 0, (12, 0, 0)),
            (0, -MOST - 1, (12, 0, 0)),
        ] {
            let imbalance = bytes(&[first as u32, second as u32]);
            let tables =
                Tables { prices: &prices, imbalance: &imbalance, rows: 1, dm: &dm, group: 0 };
            let got = self.engine.month(tables);
            self.holds("two imbalances", (got.answer, got.aosmf, got.aedm), stated);
        }
    }

    /// The same figures in a whole table: 64 × 149 hours of each. A row is five parts of 149 hours,
    /// one of them at price 32. All weights are 64 × 20,000,002, in units of 149 hours; the second
    /// part's are 260,000,025, below 13/64 of them, the third's 260,000,026, which is 13/64: 6.5.
    fn weights_of_a_table(&mut self) {
        let figures = [-10_000_000, -1, 0, 1, 10_000_000_i32].map(|v| vec![v as u32; 9_536]);
        let (imbalance, dm) = (bytes(&figures.concat()), bytes(&[0; 745]));
        for (part, group, aosmf, aedm) in [
            (1, 12, 6, -5_960_000_149),
            (2, 25, 7, -447),
            (3, 38, 6, 447),
            (3, 51, 6, 5_960_000_149),
        ] {
            let mut prices = [0; 745];
            prices[149 * part..149 * (part + 1)].fill(32);
            let prices = bytes(&prices);
            let tables =
                Tables { prices: &prices, imbalance: &imbalance, rows: 64, dm: &dm, group };
            let got = self.engine.month(tables);
            let stated = (0, aosmf, aedm);
            self.holds("a whole table", (got.answer, got.aosmf, got.aedm), stated);
        }
    }

    fn items(&mut self) {
        let book = self.book(&[
            (1, 999, 17, 0, 900),
            (1, 998, 18, 0, 500),
            (1, 997, 17, 0, 100),
            (1, 996, 17, 0, 5_000),
        ]);
        let plain = Case { party: 1, day: 1_000, ..Case::supplier() };
        let answer = self.collateral(&book, Case { defaults: 1, ..plain });
        self.holds("trading", answer.trading, 1_050);
        let latest = Month { aosmf: 175_000, aedm: -2_001 };
        let months = [latest, Month::default(), Month::default()];
        let answer = self.collateral(&book, Case { rk: 110, used: 1, months, ..plain });
        self.holds("imbalance", answer.imbalance, 385_193);
        for (best, score, share) in [(3, 1, 667), (3, 3, 200), (1, 1, 200)] {
            let answer = self.collateral(&book, Case { yt: 1_000, best, score, ..plain });
            self.holds("YEK", answer.yek, share);
        }
    }

    fn ceilings(&mut self) {
        for (offer, recordable) in [(26_000, 1), (26_001, 0)] {
            let answer = self.engine.ceiling(offer, 16_000, 666, 1_000);
            self.holds("an offer recordable", (answer.answer, answer.recordable), (0, recordable));
        }
    }

    /// 02, T-08: 2000 to 2099 have 36,525 days, the centuries after them 36,524 each.
    fn first_days(&mut self) {
        for (month, day) in [
            (0, 0),
            (1, 31),
            (2, 60),
            (11, 335),
            (12, 366),
            (1_200, 36_525),
            (1_202, 36_584),
            (1_211, 36_859),
            (1_212, 36_890),
            (1_250, 38_045),
            (2_402, 73_108),
            (3_602, 109_632),
            (4_799, 146_066),
        ] {
            let stated = FirstDayAnswer { answer: 0, day };
            self.holds("the first day of a month", self.engine.first_day(month), stated);
        }
        let refused = FirstDayAnswer { answer: 12, day: 0 };
        for month in [4_800, u32::MAX] {
            self.holds("a month past 2399", self.engine.first_day(month), refused);
        }
        // the day limit does not grow: 36,525 is the first day of January 2100, and no day of a book
        let book = self.book(&[]);
        self.holds("day 36,525", self.engine.day_ahead(&book, 1, 36_525).answer, 4);
    }

    /// A report of a month, its first day and its days, in which just these figures are not 0: line, place, sum.
    fn report(&mut self, book: &[u8], stated: (u32, u32, u32), sums: &[(usize, usize, u64)]) {
        let got = self.engine.month_report(book, stated.0);
        self.holds("a report", (got.answer, got.month), (0, stated.0));
        self.holds("a month's days", (got.first_day, got.days), (stated.1, stated.2));
        self.holds("a report's sums", nonzero(&got), sums.to_vec());
    }

    /// 02, T-01: February 2000, days 31 to 59. Type 6 has the export of 40; nothing counts of the 7,000 withdrawn, of
    /// the 700,000 that control cancels (70,000,000 − 60,000,000), of the mark or of the days 30 and 60.
    fn month_of_two_parties(&mut self) {
        const MOST: u64 = 10_000_000_000_000;
        let mut book = self.book(&[
            (1, 31, 6, 2, 700_000),
            (1, 31, 6, 0, 40),
            (2, 31, 6, 1, 3),
            (1, 31, 1, 0, 100),
            (2, 31, 1, 0, 20),
            (2, 31, 1, 0, 7_000),
            (2, 31, 22, 0, 9),
            (1, 31, 20, 0, MOST),
            (2, 59, 20, 0, MOST),
            (2, 59, 1, 0, 5),
            (1, 59, 22, 0, 1),
            (1, 30, 1, 0, 1_000_000),
            (1, 60, 1, 0, 2_000_000),
        ]);
        self.holds("withdrawal of 7,000", self.engine.withdraw(&mut book, 5), 0);
        let sums = |sales: u64| {
            let first = [(0, 0, 120), (0, 5, sales), (0, 19, MOST), (0, 20, 9)];
            let last = [(28, 0, 5), (28, 19, MOST), (28, 20, 1)];
            let totals = [(29, 0, 125), (29, 5, sales), (29, 19, 2 * MOST), (29, 20, 10)];
            [&first[..], &last, &totals].concat()
        };
        self.report(&book, (1, 31, 29), &sums(700_043));
        let stated = Controlled { answer: 0, first: 1, second: 0, cancelled: 1 };
        self.holds("control of day 31", self.engine.control(&mut book, 31), stated);
        self.report(&book, (1, 31, 29), &sums(43));
        self.report(&book, (0, 0, 31), &[(30, 0, 1_000_000), (31, 0, 1_000_000)]);
        self.report(&book, (2, 60, 31), &[(0, 0, 2_000_000), (31, 0, 2_000_000)]);
        self.report(&book, (3, 91, 30), &[]);
    }

    /// Months of 28 to 31 days: 10 on the day before, 200 on the first, 3,000 on the last, 40,000 on the day after.
    fn ends_of_a_month(&mut self) {
        for (month, first, days) in [
            (0, 0, 31_u32),
            (1, 31, 29),
            (3, 91, 30),
            (13, 397, 28),
            (49, 1_492, 29),
            (1_189, 36_191, 28),
            (1_199, 36_494, 31),
        ] {
            let beside =
                [(1, first - 1, 10), (2, first, 200), (999, first + days as i32 - 1, 3_000)];
            let after = (3, first + days as i32, 40_000);
            let posts: Vec<_> = beside
                .into_iter()
                .chain([after])
                .filter(|&(_, day, _)| (0..=36_524).contains(&day))
                .map(|(party, day, amount)| (party, day as u32, 3, 0, amount))
                .collect();
            let book = self.book(&posts);
            let (last, totals) = (days as usize - 1, days as usize);
            let sums = [(0, 2, 200), (last, 2, 3_000), (totals, 2, 3_200)];
            self.report(&book, (month, first as u32, days), &sums);
        }
    }

    /// 1,000 × k of each type k, k days after the first of March 2000, and as much of another party, of type 6 an
    /// export: types 1 to 20 in order, then 22.
    fn types_of_a_report(&mut self) {
        let types = (1..=20).chain([22]);
        let posts = types.clone().flat_map(|k: u32| {
            let (day, amount) = (60 + k, 1_000 * u64::from(k));
            [(1, day, k, if k == 6 { 2 } else { 0 }, amount), (999, day, k, 0, amount)]
        });
        let book = self.book(&posts.collect::<Vec<_>>());
        let places = || types.clone().enumerate().map(|(at, k)| (at, k, 2_000 * u64::from(k)));
        let mut sums: Vec<_> = places().map(|(at, k, sum)| (k as usize, at, sum)).collect();
        sums.extend(places().map(|(at, _, sum)| (31, at, sum)));
        self.report(&book, (2, 60, 31), &sums);
    }

    /// 3,072 sales of 10^13 kuruş on 2099-12-31, in one line and in the totals.
    fn largest_report(&mut self) {
        let line = [0x3000_0014, 0x4E72_A000, 0x5000_9184];
        let file = [vec![0x1C00_03E7, 0x2000_8EAC], line.repeat(3_072)].concat();
        let mut book = vec![0; 12 + 20 * 3_072];
        self.holds("opening", self.engine.open(&mut book, 110, 600_000), 0);
        let read = self.engine.read_file(&mut book, &bytes(&file));
        self.holds("3,072 lines", read, FileRead { answer: 0, posted: 3_072 });
        let most = 30_720_000_000_000_000;
        self.report(&book, (1_199, 36_494, 31), &[(30, 19, most), (31, 19, most)]);
        self.report(&book, (1_198, 36_464, 30), &[]);
    }

    /// 12 for a month above 1,199, after 1.
    fn reports_refused(&mut self) {
        let mut book = self.book(&[(1, 36_524, 1, 0, 5)]);
        for cause in [12, 1] {
            for month in [1_200, 1_201, 65_536, u32::MAX] {
                let got = self.engine.month_report(&book, month);
                let figures = (got.month, got.first_day, got.days, nonzero(&got));
                self.holds("a month above 1,199", got.answer, cause);
                self.holds("a refused report", figures, (0, 0, 0, Vec::new()));
            }
            book[0] = 200;
        }
        let got = self.engine.month_report(&book, 1_199);
        self.holds("a report of no book", got.answer, 1);
        let got = self.engine.month_report(&book[..9], 1_199);
        self.holds("a report of nine bytes", got.answer, 1);
    }

    fn sample(&mut self) {
        let file = bytes(&[
            0x1002_0001,
            0x2000_2328,
            0x3000_0206,
            0x400A_AE60,
            0x5000_0000,
            0x3000_000C,
            0x4007_A120,
            0x5000_0000,
        ]);
        let (opened, named) = (self.default_book(&[]), self.book(&[]));
        for (mut book, first, second) in
            [(opened, 17_500_000, -73_500_000), (named, 10_000_000, -77_000_000)]
        {
            let read = self.engine.read_file(&mut book, &file);
            self.holds("the sample's lines", read, FileRead { answer: 0, posted: 2 });
            self.both("the sample's seller", &book, (1, 9_000), first);
            self.both("the sample's buyer", &book, (2, 9_000), second);
            // 2024-08-22
            let sums = [(21, 5, 700_000), (21, 11, 500_000), (31, 5, 700_000), (31, 11, 500_000)];
            self.report(&book, (295, 8_979, 31), &sums);
        }
        // The seller's program updated to 600,000 in a line of its own: 70,000,000 − 105 × 600,000 in delivery.
        let update = bytes(&[0x1001_0001, 0x2000_2328, 0x3000_0016, 0x4009_27C0, 0x5000_0000]);
        let mut book = vec![0; 12 + 20 * 3];
        self.holds("opening without figures", self.engine.open_default(&mut book), 0);
        let read = self.engine.read_file(&mut book, &[file, update].concat());
        self.holds("the sample and an update", read, FileRead { answer: 0, posted: 3 });
        self.balances_of("the sample updated", &book, (1, 9_000), (17_500_000, 7_000_000));
    }

    /// Day 59 is 2000-02-29: a pair cancelled on it is repeated on day 58, not on day 60. The buyer sells 650,000:
    /// covered by the 700,000 bought (65,000,000 − 77,000,000), not without them (65,000,000 − 60,000,000).
    fn calendar(&mut self) {
        for (day, second, cancelled) in [(58, 1, 2), (60, 0, 1)] {
            let mut book = self.book(&[
                (1, 59, 6, 2, 700_000),
                (1, day, 6, 2, 700_000),
                (2, day, 6, 3, 650_000),
            ]);
            let earlier = self.engine.control(&mut book, 59);
            self.holds(
                "control of day 59",
                earlier,
                Controlled { answer: 0, first: 1, second: 0, cancelled: 1 },
            );
            let stated = Controlled { answer: 0, first: 1, second, cancelled };
            let got = self.engine.control(&mut book, day);
            self.holds("control of another day", got, stated);
        }
    }
}
