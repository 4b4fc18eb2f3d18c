//! Every figure of document 01, 'Figures to hold it to' and the sample of the
//! day file, against the second calculation. Where a line names no tolerance,
//! R is 110 and TM 600,000, named at opening (document 02, T-12). Then updated
//! programs (document 02, T-02) and month reports (T-01).

use second::*;

/// A book of so many places with R 110 and TM 600,000.
fn starred_book(places: usize) -> Vec<u32> {
    let mut words = vec![0xFFFF_FFFF; 3 + 5 * places];
    assert_eq!(open(&mut words, 110, 600_000), 0);
    words
}

/// A book of so many places, opened without figures.
fn default_book(places: usize) -> Vec<u32> {
    let mut words = vec![0xFFFF_FFFF; 3 + 5 * places];
    assert_eq!(open_default(&mut words), 0);
    words
}

fn posted(words: &mut [u32], party: u32, day: u32, entry_type: u32, other: u32, amount: u64) {
    let count = count(words).count;
    let answer = post(words, party, day, entry_type, other, amount);
    assert_eq!(answer, Posted { answer: 0, number: count });
}

#[test]
fn opening_without_figures() {
    let words = default_book(0);
    assert_eq!(words, [0x6000_0000, 0x7000_0069, 0x8007_A120]);
    assert_eq!(decode(&words).unwrap().coefficient, 105);
    assert_eq!(decode(&words).unwrap().tolerance, 500_000);
}

#[test]
fn balances_of_a_book_opened_without_figures() {
    // 105 x 476,190 is below 50,000,000, 105 x 476,191 is 50,000,055.
    for (cover, expected) in [(0, -50_000_000), (476_190, -50_000_000), (476_191, -50_000_055)] {
        let mut words = default_book(1);
        posted(&mut words, 1, 9_000, 12, 0, cover);
        assert_eq!(day_ahead(&words, 1, 9_000).balance, expected);
        assert_eq!(delivery(&words, 1, 9_000).balance, expected);
    }
    for (sale, expected) in [(500_000, 0), (500_001, 100)] {
        let mut words = default_book(1);
        posted(&mut words, 1, 9_000, 1, 0, sale);
        let balance = day_ahead(&words, 1, 9_000).balance;
        assert_eq!(balance, expected);
        assert_eq!(detected(balance), expected > 0);
    }
}

#[test]
fn no_entries() {
    let words = starred_book(0);
    assert_eq!(day_ahead(&words, 1, 0), BalanceAnswer { answer: 0, balance: -60_000_000 });
    assert_eq!(delivery(&words, 999, 36_524), BalanceAnswer { answer: 0, balance: -60_000_000 });
}

#[test]
fn sale_of_600_000_is_clear() {
    for entry_type in 1..=6 {
        let mut words = starred_book(1);
        let other = if entry_type == 6 { 2 } else { 0 };
        posted(&mut words, 1, 9_000, entry_type, other, 600_000);
        let balance = delivery(&words, 1, 9_000).balance;
        assert_eq!(balance, 0);
        assert!(!detected(balance));
        // Intraday sales are not of the day-ahead balance.
        let ahead = day_ahead(&words, 1, 9_000).balance;
        let expected = if [2, 5].contains(&entry_type) { -60_000_000 } else { 0 };
        assert_eq!(ahead, expected);
    }
}

#[test]
fn sale_of_600_001_is_detected() {
    for entry_type in 1..=6 {
        let mut words = starred_book(1);
        let other = if entry_type == 6 { 2 } else { 0 };
        posted(&mut words, 1, 9_000, entry_type, other, 600_001);
        let balance = delivery(&words, 1, 9_000).balance;
        assert_eq!(balance, 100);
        assert!(detected(balance));
    }
}

#[test]
fn tender_300_000_and_import_200_000() {
    // R 100 and no tolerance: the balance is −100 × A.
    let mut words = vec![0; 3 + 5 * 2];
    assert_eq!(open(&mut words, 100, 0), 0);
    posted(&mut words, 1, 5, 15, 0, 300_000);
    posted(&mut words, 1, 5, 16, 0, 200_000);
    assert_eq!(day_ahead(&words, 1, 5).balance, -30_000_000);
    assert_eq!(delivery(&words, 1, 5).balance, -30_000_000);
    let tally = tally(&words, 1, 5);
    assert_eq!(tally.bought + tally.sums[14].max(tally.sums[15]), 300_000);
}

/// Document 02, T-02: delivery uses the larger of sums 12 and 22, day-ahead sum 12. R 100 and no
/// tolerance: each balance is −100 × the program that it uses.
#[test]
fn updated_programs() {
    for (entries, ahead, due) in [
        (&[(12, 300), (22, 200)][..], -30_000, -30_000), // an update below the program
        (&[(12, 200), (22, 300)], -20_000, -30_000),     // above it
        (&[(22, 300), (12, 200)], -20_000, -30_000),     // in another order
        (&[(12, 250), (22, 250)], -25_000, -25_000),     // equal
        (&[(12, 250), (22, 251)], -25_000, -25_100),
        (&[(22, 300)], 0, -30_000), // without a program
        (&[(12, 300)], -30_000, -30_000),
        (&[(12, 300), (22, 0)], -30_000, -30_000),
        (&[(12, 200), (22, 120), (22, 130)], -20_000, -25_000), // 250 in all
        (&[(12, 200), (22, 90), (22, 110)], -20_000, -20_000),  // 200 in all
        (&[(12, 150), (22, 200), (12, 150)], -30_000, -30_000), // 300 against 200
    ] {
        let mut words = vec![0; 3 + 5 * entries.len()];
        assert_eq!(open(&mut words, 100, 0), 0);
        for (entry_type, amount) in entries {
            posted(&mut words, 1, 9_000, *entry_type, 0, *amount);
        }
        assert_eq!(day_ahead(&words, 1, 9_000).balance, ahead, "{entries:?}");
        assert_eq!(delivery(&words, 1, 9_000).balance, due, "{entries:?}");
    }
}

/// An update against a tolerance: 105 × 476,190 is below 50,000,000, 105 × 476,191 is 50,000,055.
#[test]
fn an_updated_program_and_the_tolerance() {
    for (update, due) in [(0, -50_000_000), (476_190, -50_000_000), (476_191, -50_000_055)] {
        let mut words = default_book(1);
        posted(&mut words, 1, 9_000, 22, 0, update);
        assert_eq!(day_ahead(&words, 1, 9_000).balance, -50_000_000);
        assert_eq!(delivery(&words, 1, 9_000).balance, due);
    }
    // A sale of 630,000: 105 × 600,000 is just as much. Detected day-ahead, clear in delivery.
    let mut words = default_book(3);
    posted(&mut words, 1, 9_000, 1, 0, 630_000);
    posted(&mut words, 1, 9_000, 12, 0, 500_000);
    posted(&mut words, 1, 9_000, 22, 0, 600_000);
    assert_eq!(day_ahead(&words, 1, 9_000).balance, 10_500_000);
    assert_eq!(delivery(&words, 1, 9_000).balance, 0);
    assert!(!detected(0));
}

fn generation(capacity: u64) -> u64 {
    let words = starred_book(0);
    let case = Case { party: 1, licence: 2, capacity, ..Case::supplier() };
    let answer = collateral(&words, &case);
    assert_eq!(answer.answer, 0);
    assert_eq!(answer.total, answer.margin);
    answer.margin
}

#[test]
fn generation_margins() {
    assert_eq!(generation(49_999), 1_000_000);
    assert_eq!(generation(50_000), 1_000_000);
    assert_eq!(generation(50_001), 1_000_020);
    assert_eq!(generation(1_000_001), 20_000_000);
}

#[test]
fn average_price_halves_up() {
    let month = month_step(&[100, 101], &[-1, -1], 1, &[0, 0], 0);
    assert_eq!(month, MonthAnswer { answer: 0, aosmf: 101, aedm: -2 });
}

#[test]
fn month_without_hours() {
    assert_eq!(month_step(&[], &[], 1, &[], 0), MonthAnswer { answer: 0, aosmf: 0, aedm: 0 });
}

#[test]
fn imbalance_rounds_up() {
    let words = starred_book(0);
    let mut case = Case { party: 1, day: 100, rk: 110, used: 1, ..Case::supplier() };
    case.months[0] = Month { aosmf: 175_000, aedm: -2_001 };
    let answer = collateral(&words, &case);
    assert_eq!(answer.imbalance, 385_193);
    assert_eq!(answer.total, 20_000_000 + 385_193);
}

#[test]
fn trading_of_four_days() {
    let mut words = starred_book(4);
    let g = 1_000;
    posted(&mut words, 1, g - 1, 17, 0, 900);
    posted(&mut words, 1, g - 2, 18, 0, 500);
    posted(&mut words, 1, g - 3, 17, 0, 100);
    posted(&mut words, 1, g - 4, 17, 0, 5_000);
    let case = Case { party: 1, day: g, defaults: 1, ..Case::supplier() };
    let answer = collateral(&words, &case);
    assert_eq!(answer.trading, 1_050);
    assert_eq!(answer.total, 20_000_000);
}

#[test]
fn yek_shares() {
    let words = starred_book(0);
    let case = Case { party: 1, yt: 1_000, best: 3, score: 1, ..Case::supplier() };
    assert_eq!(collateral(&words, &case).yek, 667);
    for best in [1, 3, 5, 10_000] {
        let case = Case { best, score: best, ..case };
        assert_eq!(collateral(&words, &case).yek, 200);
    }
}

#[test]
fn sales_ceiling() {
    for (n, v) in [(16_666, 0), (0, 16_666), (16_000, 666)] {
        let yes = CeilingAnswer { answer: 0, recordable: 1 };
        let no = CeilingAnswer { answer: 0, recordable: 0 };
        assert_eq!(ceiling(26_000, n, v, 1_000), yes);
        assert_eq!(ceiling(26_001, n, v, 1_000), no);
    }
}

#[test]
fn calendar() {
    assert_eq!(second::calendar::date_of(0), (2000, 1, 1));
    assert_eq!(second::calendar::date_of(59), (2000, 2, 29));
    assert_eq!(second::calendar::date_of(60), (2000, 3, 1));
    assert_eq!(second::calendar::date_of(36_524), (2099, 12, 31));
    // 1,200 months follow one another without a gap up to 36,525.
    let mut day = 0;
    let mut months = 0;
    for year in 2000..=2099 {
        for month in 1..=12 {
            assert_eq!(second::calendar::begin_of(year, month), day);
            for of_month in 1..=second::calendar::days_of_month(year, month) {
                assert_eq!(second::calendar::date_of(day), (year, month, of_month));
                day += 1;
            }
            months += 1;
        }
    }
    assert_eq!(day, 36_525);
    assert_eq!(months, 1_200);
}

fn bytes(words: &[u32]) -> Vec<u8> {
    words.iter().flat_map(|w| w.to_le_bytes()).collect()
}

const SAMPLE: [u32; 8] = [
    0x1002_0001,
    0x2000_2328,
    0x3000_0206,
    0x400A_AE60,
    0x5000_0000,
    0x3000_000C,
    0x4007_A120,
    0x5000_0000,
];

#[test]
fn sample_of_the_day_file() {
    let file = bytes(&SAMPLE);
    let text = "party day ahead delivery\n1 9000 17500000 17500000\n2 9000 -73500000 -73500000\n";
    assert_eq!(balance_output(&file), text.as_bytes());
    assert_eq!(named(&file), [(1, 9_000), (2, 9_000)]);

    // A book opened with 110 and 600,000 keeps them.
    let mut words = starred_book(3_072);
    assert_eq!(read_file(&mut words, &file), FileRead { answer: 0, posted: 2 });
    assert_eq!(day_ahead(&words, 1, 9_000).balance, 10_000_000);
    assert_eq!(delivery(&words, 2, 9_000).balance, -77_000_000);

    let mut words = default_book(3_072);
    assert_eq!(read_file(&mut words, &file), FileRead { answer: 0, posted: 2 });
    assert_eq!(
        entry(&words, 0),
        EntryRead {
            answer: 0,
            party: 1,
            day: 9_000,
            entry_type: 6,
            counterparty: 2,
            status: 0,
            amount: 700_000,
        }
    );
    assert_eq!(
        entry(&words, 1),
        EntryRead {
            answer: 0,
            party: 1,
            day: 9_000,
            entry_type: 12,
            counterparty: 0,
            status: 0,
            amount: 500_000,
        }
    );
}

/// The sample with an updated program of 600,000: 70,000,000 − 105 × 500,000 day-ahead, 70,000,000 −
/// 105 × 600,000 in delivery.
#[test]
fn sample_with_an_updated_program() {
    let line = [0x3000_0016, 0x4009_27C0, 0x5000_0000];
    let file = bytes(&[&[0x1003_0001][..], &SAMPLE[1..], &line].concat());
    let text = "party day ahead delivery\n1 9000 17500000 7000000\n2 9000 -73500000 -73500000\n";
    assert_eq!(balance_output(&file), text.as_bytes());
    assert_eq!(named(&file), [(1, 9_000), (2, 9_000)]);
    let mut words = default_book(3);
    assert_eq!(read_file(&mut words, &file), FileRead { answer: 0, posted: 3 });
    assert_eq!(
        entry(&words, 2),
        EntryRead {
            answer: 0,
            party: 1,
            day: 9_000,
            entry_type: 22,
            counterparty: 0,
            status: 0,
            amount: 600_000,
        }
    );
    let tally = tally(&words, 1, 9_000);
    assert_eq!((tally.sums[5], tally.sums[11], tally.sums[16]), (700_000, 500_000, 600_000));
}

/// A report that is done, of these sums alone: line, place in it and sum, both counted from 0.
fn report(month: u32, first_day: u32, days: u32, sums: &[(usize, usize, u64)]) -> MonthReport {
    let mut report = MonthReport { month, first_day, days, ..MonthReport::default() };
    for &(line, place, sum) in sums {
        report.lines[line][place] = sum;
    }
    report
}

/// Document 02, T-01: day 9,000 is 2024-08-22, the 22nd line of month 295, which has 31.
#[test]
fn month_report_of_the_sample() {
    let mut words = default_book(2);
    assert_eq!(read_file(&mut words, &bytes(&SAMPLE)).answer, 0);
    let sums = [(21, 5, 700_000), (21, 11, 500_000), (31, 5, 700_000), (31, 11, 500_000)];
    assert_eq!(month_report(&words, 295), report(295, 8_979, 31, &sums));
    assert_eq!(month_report(&words, 294), report(294, 8_948, 31, &[]));
    assert_eq!(month_report(&words, 296), report(296, 9_010, 30, &[]));
}

/// Two parties' February 2000, days 31 to 59: sums of all parties, type 6 with the export, nothing of
/// the entry withdrawn, of the sale that control cancels, of the mark or of the days 30 and 60.
#[test]
fn month_report_of_two_parties() {
    let mut words = starred_book(20);
    posted(&mut words, 1, 31, 6, 2, 700_000); // cancelled: 70,000,000 − 60,000,000 is detected
    posted(&mut words, 1, 31, 6, 0, 40); // an export
    posted(&mut words, 2, 31, 6, 1, 3); // covered by the tolerance
    posted(&mut words, 1, 31, 1, 0, 100);
    posted(&mut words, 2, 31, 1, 0, 20);
    posted(&mut words, 2, 31, 1, 0, 7_000); // withdrawn
    posted(&mut words, 2, 31, 22, 0, 9);
    posted(&mut words, 1, 31, 20, 0, 10_000_000_000_000);
    posted(&mut words, 2, 59, 20, 0, 10_000_000_000_000);
    posted(&mut words, 2, 59, 1, 0, 5);
    posted(&mut words, 1, 59, 22, 0, 1);
    posted(&mut words, 1, 30, 1, 0, 1_000_000);
    posted(&mut words, 1, 60, 1, 0, 2_000_000);
    assert_eq!(withdraw(&mut words, 5), 0);
    assert_eq!(
        control(&mut words, 31),
        Controlled { answer: 0, first: 1, second: 0, cancelled: 1 }
    );
    let first = [(0, 0, 120), (0, 5, 43), (0, 19, 10_000_000_000_000), (0, 20, 9)];
    let last = [(28, 0, 5), (28, 19, 10_000_000_000_000), (28, 20, 1)];
    let totals = [(29, 0, 125), (29, 5, 43), (29, 19, 20_000_000_000_000), (29, 20, 10)];
    let sums = [&first[..], &last, &totals].concat();
    assert_eq!(month_report(&words, 1), report(1, 31, 29, &sums));
    let january = [(30, 0, 1_000_000), (31, 0, 1_000_000)];
    assert_eq!(month_report(&words, 0), report(0, 0, 31, &january));
    let march = [(0, 0, 2_000_000), (31, 0, 2_000_000)];
    assert_eq!(month_report(&words, 2), report(2, 60, 31, &march));
}

/// The program "month" on the sample: 31 lines of days, of which one has figures, and the month's.
#[test]
fn month_printed_of_the_sample() {
    let sums = " 0 0 0 0 0 700000 0 0 0 0 0 500000 0 0 0 0 0 0 0 0 0\n";
    let zeros = " 0".repeat(21) + "\n";
    let mut text = String::new();
    for day in 8_979..9_010 {
        text += &format!("{day}{}", if day == 9_000 { sums } else { &zeros });
    }
    text += &format!("295{sums}");
    assert_eq!(month_output(&bytes(&SAMPLE), &["295"]), text.as_bytes());
}
