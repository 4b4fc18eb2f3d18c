//! Edges of documents 01 and 02 worked out by hand.

use second::*;

fn book_with(places: usize, r: u32, tm: u32) -> Vec<u32> {
    let mut words = vec![0xDEAD_BEEF; 3 + 5 * places];
    assert_eq!(open(&mut words, r, tm), 0);
    words
}

fn posted(words: &mut [u32], party: u32, day: u32, entry_type: u32, other: u32, amount: u64) {
    assert_eq!(post(words, party, day, entry_type, other, amount).answer, 0);
}

/// A call that must be refused by this cause and leave the words alone.
fn post_refused(words: &mut [u32], cause: u32, a: (u32, u32, u32, u32, u64)) {
    let before = words.to_vec();
    let answer = post(words, a.0, a.1, a.2, a.3, a.4);
    assert_eq!(answer, Posted { answer: cause, number: 0 });
    assert_eq!(words, before);
}

fn bytes(words: &[u32]) -> Vec<u8> {
    words.iter().flat_map(|w| w.to_le_bytes()).collect()
}

// The book

#[test]
fn opening() {
    for length in 0..3 {
        let mut words = vec![7; length];
        assert_eq!(open(&mut words, 2_000, 0), 11);
        assert_eq!(open_default(&mut words), 11);
        assert_eq!(words, vec![7; length]);
    }
    let mut words = vec![7; 4];
    assert_eq!(open(&mut words, 1_001, 0), 12);
    assert_eq!(open(&mut words, 0, 200_000_001), 12);
    assert_eq!(open(&mut words, u32::MAX, u32::MAX), 12);
    assert_eq!(words, [7; 4]);
    assert_eq!(open(&mut words, 1_000, 200_000_000), 0);
    assert_eq!(words, [0x6000_0000, 0x7000_03E8, 0x8BEB_C200, 7]);
    assert_eq!(open(&mut words, 0, 0), 0);
    assert_eq!(words, [0x6000_0000, 0x7000_0000, 0x8000_0000, 7]);
}

#[test]
fn heads_of_a_book() {
    let head = [0x6000_0000, 0x7000_006E, 0x8009_27C0];
    assert!(is_book(&head));
    assert!(!is_book(&[]));
    assert!(!is_book(&head[..2]));
    for (place, word) in [
        (0, 0x6000_0001), // one entry, but no words for it
        (0, 0x7000_0000),
        (0, 0x0000_0000),
        (1, 0x6000_006E),
        (1, 0x7000_03E9), // R 1,001
        (1, 0xF000_006E),
        (2, 0x0009_27C0),
        (2, 0x8BEB_C201), // TM 200,000,001
    ] {
        let mut words = head;
        words[place] = word;
        assert!(!is_book(&words), "{place} {word:x}");
        assert_eq!(count(&words), Counted { answer: 1, count: 0 });
    }
    let mut words = vec![head[0], head[1], head[2], 1, 2, 3, 4];
    assert!(is_book(&words));
    words[0] = 0x6000_0001;
    assert!(!is_book(&words));
}

#[test]
fn at_most_3_072_entries() {
    let mut words = book_with(3_080, 110, 0);
    for _ in 0..3_072 {
        posted(&mut words, 1, 0, 1, 0, 1);
    }
    assert_eq!(count(&words).count, 3_072);
    post_refused(&mut words, 9, (1, 0, 1, 0, 1));
    assert_eq!(day_ahead(&words, 1, 0).balance, 307_200);
    // One more would have words, but is none of a book.
    let at = 3 + 5 * 3_072;
    let (first, rest) = words.split_at_mut(at);
    rest[..5].copy_from_slice(&first[3..8]);
    words[0] = 0x6000_0C01;
    assert!(!is_book(&words));
    words[0] = 0x6000_0C00;
    assert!(is_book(&words));
    assert!(!is_book(&words[..at - 1]));
    assert!(is_book(&words[..at]));
}

#[test]
fn words_of_an_entry() {
    let mut words = book_with(2, 110, 600_000);
    posted(&mut words, 999, 36_524, 6, 998, 1_000_000_000);
    posted(&mut words, 1, 0, 20, 0, 10_000_000_000_000);
    assert_eq!(
        words,
        [
            0x6000_0002,
            0x7000_006E,
            0x8009_27C0, //
            0x1000_03E7,
            0x2000_8EAC,
            0x3003_E606,
            0x4B9A_CA00,
            0x5000_0003, //
            0x1000_0001,
            0x2000_0000,
            0x3000_0014,
            0x4E72_A000,
            0x5000_9184,
        ]
    );
    assert_eq!(entry(&words, 0).amount, 1_000_000_000);
    assert_eq!(entry(&words, 1).amount, 10_000_000_000_000);
    assert_eq!(entry(&words, 2), EntryRead { answer: 10, ..EntryRead::default() });
}

#[test]
fn entries_that_no_book_has() {
    let mut good = book_with(1, 110, 600_000);
    posted(&mut good, 1, 9_000, 6, 2, 5);
    for (place, word) in [
        (3, 0x1000_0000), // party 0
        (3, 0x1000_03E8), // party 1,000
        (3, 0x1001_0001), // a bit above the party
        (3, 0x0000_0001),
        (4, 0x2000_8EAD), // day 36,525
        (4, 0x3000_2328),
        (5, 0x3000_0200), // type 0
        (5, 0x3000_0215), // a mark with a party and counterparty
        (5, 0x3000_0015), // a mark with a party
        (5, 0x3000_0216), // type 22 with a counterparty
        (5, 0x3200_0016), // a cancelled update
        (5, 0x3300_0016), // an update with status 3
        (5, 0x3000_0017), // type 23
        (5, 0x3000_00FF), // type 255
        (5, 0x3000_0106), // to itself
        (5, 0x3003_E806), // counterparty 1,000
        (5, 0x3000_0201), // counterparty outside type 6
        (5, 0x3300_0206), // status 3
        (5, 0x3200_0006), // a cancelled export
        (5, 0x3200_0001), // a cancelled day-ahead sale
        (5, 0x3400_0206), // a spare bit
        (5, 0x3800_0206),
        (5, 0x4000_0206),
        (6, 0x5000_0005),
        (7, 0x5000_0004), // above 10^9
        (7, 0x5000_1000), // 2^40, above 10^9
        (7, 0x5001_0000), // a spare bit
        (7, 0x6000_0000),
    ] {
        let mut words = good.clone();
        words[place] = word;
        assert!(!is_book(&words), "{place} {word:x}");
        let before = words.clone();
        assert_eq!(withdraw(&mut words, 0), 1);
        assert_eq!(control(&mut words, 0).answer, 1);
        assert_eq!(read_file(&mut words, &[1]).answer, 1);
        assert_eq!(words, before);
    }
    for (place, word) in [
        (5, 0x3000_0006), // an export
        (5, 0x3100_0006), // a withdrawn export
        (5, 0x3100_0206),
        (5, 0x3200_0206),
        (5, 0x3100_000B),
        (5, 0x3000_0016), // type 22
        (5, 0x3100_0016), // a withdrawn one
        (6, 0x4000_0000), // amount 0
    ] {
        let mut words = good.clone();
        words[place] = word;
        assert!(is_book(&words), "{place} {word:x}");
    }
}

#[test]
fn marks() {
    let mut words = book_with(2, 110, 600_000);
    assert_eq!(control(&mut words, 36_524), Controlled::default());
    assert_eq!(words[3..8], [0x1000_0000, 0x2000_8EAC, 0x3000_0015, 0x4000_0000, 0x5000_0000]);
    assert_eq!(entry(&words, 0), EntryRead { day: 36_524, entry_type: 21, ..EntryRead::default() });
    assert_eq!(withdraw(&mut words, 0), 10);
    for (place, word) in [
        (3, 0x1000_0001),
        (4, 0x2000_8EAD),
        (5, 0x3000_0115),
        (5, 0x3100_0015),
        (5, 0x3200_0015),
        (6, 0x4000_0001),
        (7, 0x5000_0001),
    ] {
        let mut other = words.clone();
        other[place] = word;
        assert!(!is_book(&other), "{place} {word:x}");
    }
    // Two marks of one day are still a book.
    let (first, rest) = words.split_at_mut(8);
    rest.copy_from_slice(&first[3..]);
    words[0] = 0x6000_0002;
    assert!(is_book(&words));
}

// Posts and withdrawals

#[test]
fn causes_of_a_post_lowest_first() {
    let big = u64::MAX;
    let mut words = book_with(0, 110, 600_000);
    post_refused(&mut words, 3, (0, u32::MAX, u32::MAX, u32::MAX, big));
    post_refused(&mut words, 3, (1_000, 0, 1, 0, 0));
    post_refused(&mut words, 3, (65_537, 0, 1, 0, 0));
    post_refused(&mut words, 4, (999, 36_525, 0, u32::MAX, big));
    post_refused(&mut words, 4, (1, 1 << 28, 1, 0, 0));
    post_refused(&mut words, 5, (1, 36_524, 0, 1, big));
    post_refused(&mut words, 5, (1, 36_524, 21, 0, 0));
    post_refused(&mut words, 5, (1, 36_524, 23, 1, big));
    post_refused(&mut words, 5, (1, 36_524, 257, 0, 0));
    post_refused(&mut words, 6, (1, 0, 6, 1, big));
    post_refused(&mut words, 6, (1, 0, 6, 1_000, 0));
    post_refused(&mut words, 6, (1, 0, 6, 65_538, 0));
    post_refused(&mut words, 6, (1, 0, 5, 2, big));
    post_refused(&mut words, 7, (1, 0, 16, 0, 1_000_000_001));
    post_refused(&mut words, 7, (1, 0, 16, 0, 1_000_000_000_000));
    post_refused(&mut words, 7, (1, 0, 17, 0, 10_000_000_000_001));
    post_refused(&mut words, 7, (1, 0, 20, 0, 10_000_000_000_001));
    post_refused(&mut words, 9, (1, 0, 17, 0, 10_000_000_000_000));
    post_refused(&mut words, 7, (1, 0, 6, 0, 1 << 40));
    post_refused(&mut words, 9, (1, 0, 6, 0, 1_000_000_000));
    words[0] = 0;
    post_refused(&mut words, 1, (0, 0, 0, 0, 0));
}

#[test]
fn room_where_the_slice_ends() {
    for length in 3..20 {
        let mut words = vec![0; length];
        assert_eq!(open_default(&mut words), 0);
        for _ in 0..(length - 3) / 5 {
            posted(&mut words, 1, 0, 1, 0, 1);
        }
        post_refused(&mut words, 9, (1, 0, 1, 0, 1));
        let before = words.clone();
        assert_eq!(control(&mut words, 0).answer, 9);
        assert_eq!(words, before);
    }
}

#[test]
fn refused_posts_between_accepted_ones() {
    let mut words = book_with(2, 110, 600_000);
    post_refused(&mut words, 3, (0, 0, 1, 0, 0));
    assert_eq!(post(&mut words, 1, 0, 1, 0, 10), Posted { answer: 0, number: 0 });
    post_refused(&mut words, 7, (1, 0, 1, 0, big_volume()));
    assert_eq!(post(&mut words, 1, 0, 7, 0, 20), Posted { answer: 0, number: 1 });
    post_refused(&mut words, 9, (1, 0, 1, 0, 30));
    assert_eq!(count(&words), Counted { answer: 0, count: 2 });
    let tally = tally(&words, 1, 0);
    assert_eq!((tally.sums[0], tally.sums[6]), (10, 20));
}

fn big_volume() -> u64 {
    1_000_000_001
}

#[test]
fn withdrawals() {
    let mut words = book_with(3, 100, 0);
    posted(&mut words, 1, 7, 1, 0, 10);
    posted(&mut words, 1, 7, 6, 2, 20);
    assert_eq!(withdraw(&mut words, 2), 10);
    assert_eq!(withdraw(&mut words, u32::MAX), 10);
    assert_eq!(withdraw(&mut words, 0), 0);
    assert_eq!(words[5], 0x3100_0001);
    assert_eq!(withdraw(&mut words, 0), 10);
    assert_eq!(delivery(&words, 1, 7).balance, 2_000);
    assert_eq!(delivery(&words, 2, 7).balance, -2_000);
    // Its place is not used again.
    assert_eq!(post(&mut words, 3, 7, 1, 0, 1), Posted { answer: 0, number: 2 });
    post_refused(&mut words, 9, (3, 7, 1, 0, 1));
    assert_eq!(withdraw(&mut words, 1), 0);
    assert_eq!(delivery(&words, 2, 7).balance, 0);
}

// The two balances

#[test]
fn each_type_has_its_side() {
    // Type t has amount 2^t, type 22 2^25; R 100, TM 0.
    let mut words = book_with(30, 100, 0);
    posted(&mut words, 1, 50, 22, 0, 1 << 25);
    for entry_type in 1..=16 {
        let other = if entry_type == 6 { 2 } else { 0 };
        posted(&mut words, 1, 50, entry_type, other, 1 << entry_type);
    }
    for money in 17..=20 {
        posted(&mut words, 1, 50, money, 0, 777);
    }
    posted(&mut words, 1, 50, 6, 0, 12_345); // an export
    posted(&mut words, 1, 51, 1, 0, 9); // another day
    posted(&mut words, 3, 50, 6, 1, 1 << 20); // bought
    posted(&mut words, 3, 51, 6, 1, 9);
    // Delivery: S 126, C 32,640 without type 12, which is 4,096, + 33,554,432 + 65,536 + 1,048,576.
    let cover = 32_640 - 4_096 + 33_554_432 + 65_536 + 1_048_576;
    assert_eq!(delivery(&words, 1, 50).balance, 100 * (126 - cover));
    // Day-ahead: S 90, C 30,336 + 65,536 + 1,048,576.
    assert_eq!(day_ahead(&words, 1, 50).balance, 100 * (90 - 30_336 - 65_536 - 1_048_576));
    let tally = tally(&words, 1, 50);
    assert_eq!(tally.party, 1);
    assert_eq!(tally.bought, 1 << 20);
    for entry_type in 1..=16 {
        assert_eq!(tally.sums[entry_type - 1], 1 << entry_type);
    }
    assert_eq!(tally.sums[16], 1 << 25);
    assert_eq!(day_ahead(&words, 2, 50).balance, -6_400);
}

#[test]
fn tolerance_stands_against_cover_not_sales() {
    // 100 × S − the larger of 100 × TM and C × R, with R 150 and TM 30.
    let mut words = book_with(3, 150, 30);
    posted(&mut words, 1, 0, 7, 0, 20);
    assert_eq!(day_ahead(&words, 1, 0).balance, -3_000); // equal
    posted(&mut words, 1, 0, 1, 0, 30);
    assert_eq!(day_ahead(&words, 1, 0).balance, 0);
    posted(&mut words, 1, 0, 12, 0, 1);
    assert_eq!(day_ahead(&words, 1, 0).balance, -150);
}

#[test]
fn hundredths() {
    let mut words = book_with(2, 101, 0);
    posted(&mut words, 1, 0, 7, 0, 1);
    posted(&mut words, 1, 0, 1, 0, 1);
    assert_eq!(delivery(&words, 1, 0).balance, -1);
    let mut words = book_with(2, 99, 0);
    posted(&mut words, 1, 0, 7, 0, 1);
    posted(&mut words, 1, 0, 1, 0, 1);
    assert_eq!(delivery(&words, 1, 0).balance, 1);
    assert!(detected(1) && !detected(0) && !detected(-1));
    assert!(detected(i64::MAX) && !detected(i64::MIN));
}

#[test]
fn largest_balances() {
    let mut words = book_with(3_072, 1_000, 200_000_000);
    for _ in 0..3_072 {
        posted(&mut words, 1, 0, 1, 0, 1_000_000_000);
    }
    assert_eq!(delivery(&words, 1, 0).balance, 307_200_000_000_000 - 20_000_000_000);
    let mut words = book_with(3_072, 1_000, 0);
    for _ in 0..3_072 {
        posted(&mut words, 2, 0, 6, 1, 1_000_000_000);
    }
    assert_eq!(delivery(&words, 1, 0).balance, -3_072_000_000_000_000);
    let mut words = book_with(3_072, 1_000, 0);
    for _ in 0..3_072 {
        posted(&mut words, 1, 0, 22, 0, 1_000_000_000);
    }
    assert_eq!(tally(&words, 1, 0).sums[16], 3_072_000_000_000);
    assert_eq!(delivery(&words, 1, 0).balance, -3_072_000_000_000_000);
    assert_eq!(day_ahead(&words, 1, 0).balance, 0);
}

#[test]
fn causes_of_a_balance() {
    let words = book_with(0, 110, 600_000);
    for (cause, party, day) in [(3, 0, 36_525), (3, 1_000, 0), (4, 999, 36_525), (4, 1, u32::MAX)] {
        let refused = BalanceAnswer { answer: cause, balance: 0 };
        assert_eq!(day_ahead(&words, party, day), refused);
        assert_eq!(delivery(&words, party, day), refused);
        let refused = TallyAnswer { answer: cause, ..TallyAnswer::default() };
        assert_eq!(tally(&words, party, day), refused);
    }
    assert_eq!(delivery(&words[..2], 0, 0).answer, 1);
    assert_eq!(tally(&words[..2], 0, 0), TallyAnswer { answer: 1, ..TallyAnswer::default() });
}

// Updated generation programs (document 02, T-02); their balances are in figures.rs

#[test]
fn posts_of_updated_programs() {
    let mut words = book_with(2, 110, 600_000);
    post_refused(&mut words, 3, (0, 36_525, 22, 1, u64::MAX));
    post_refused(&mut words, 4, (1, 36_525, 22, 1, u64::MAX));
    post_refused(&mut words, 6, (1, 0, 22, 1, 0));
    post_refused(&mut words, 6, (1, 0, 22, 2, 1_000_000_001));
    // The limit of volumes, not that of money.
    for amount in [1_000_000_001, 1_000_000_000_000, 10_000_000_000_000, u64::MAX] {
        post_refused(&mut words, 7, (1, 0, 22, 0, amount));
    }
    // Type 21 stays a mark's; 278 is 22 in its low byte.
    for entry_type in [0, 21, 23, 24, 255, 256, 278, u32::MAX] {
        post_refused(&mut words, 5, (1, 0, entry_type, 0, 0));
    }
    let answer = post(&mut words, 999, 36_524, 22, 0, 1_000_000_000);
    assert_eq!(answer, Posted { answer: 0, number: 0 });
    assert_eq!(words[3..8], [0x1000_03E7, 0x2000_8EAC, 0x3000_0016, 0x4B9A_CA00, 0x5000_0003]);
    assert_eq!(post(&mut words, 999, 0, 22, 0, 0), Posted { answer: 0, number: 1 });
    post_refused(&mut words, 9, (1, 0, 22, 0, 0));
}

#[test]
fn books_with_updated_programs() {
    let mut good = book_with(2, 110, 600_000);
    posted(&mut good, 1, 9_000, 22, 0, 1_000_000_000);
    assert!(is_book(&good));
    assert_eq!(count(&good), Counted { answer: 0, count: 1 });
    let read = EntryRead { party: 1, day: 9_000, entry_type: 22, ..EntryRead::default() };
    assert_eq!(entry(&good, 0), EntryRead { amount: 1_000_000_000, ..read });
    assert_eq!(control(&mut good.clone(), 9_000), controlled(0, 0, 0));
    for (low, high) in [
        (0x4B9A_CA01, 0x5000_0003), // 10^9 + 1
        (0x4000_0000, 0x5000_0004), // 2^30
        (0x44A5_1000, 0x5000_0E8D), // 10^12
        (0x4E72_A000, 0x5000_9184), // 10^13
        (0x4000_0000, 0x5001_0000), // a spare bit
    ] {
        let mut words = good.clone();
        words[6..8].copy_from_slice(&[low, high]);
        assert!(!is_book(&words), "{low:x} {high:x}");
        post_refused(&mut words, 1, (1, 9_000, 22, 0, 0));
    }
    // A mark with the figures of an update is none, and an update with a mark's has no party.
    for entry_type in [0x3000_0015, 0x3000_0016] {
        let mut words = good.clone();
        words[5] = entry_type;
        assert_eq!(is_book(&words), entry_type == 0x3000_0016);
        words[3] = 0x1000_0000;
        words[6..8].copy_from_slice(&[0x4000_0000, 0x5000_0000]);
        assert_eq!(is_book(&words), entry_type == 0x3000_0015);
    }
}

#[test]
fn which_updated_programs_count() {
    let mut words = book_with(6, 100, 0);
    posted(&mut words, 1, 50, 12, 0, 100);
    posted(&mut words, 1, 50, 22, 0, 150);
    posted(&mut words, 1, 50, 22, 0, 250);
    posted(&mut words, 2, 50, 22, 0, 4_000); // another party's
    posted(&mut words, 1, 51, 22, 0, 5_000); // another day's
    let ours = |words: &[u32]| {
        let tally = tally(words, 1, 50);
        assert_eq!(tally.sums.iter().sum::<u64>(), tally.sums[11] + tally.sums[16]);
        assert_eq!(day_ahead(words, 1, 50).balance, -100 * tally.sums[11] as i64);
        (tally.sums[11], tally.sums[16], delivery(words, 1, 50).balance)
    };
    assert_eq!(ours(&words), (100, 400, -40_000));
    assert_eq!(withdraw(&mut words, 2), 0);
    assert_eq!(words[15], 0x3100_0016);
    assert_eq!(ours(&words), (100, 150, -15_000));
    assert_eq!(withdraw(&mut words, 2), 10);
    assert_eq!(withdraw(&mut words, 1), 0);
    assert_eq!(ours(&words), (100, 0, -10_000));
    assert_eq!(withdraw(&mut words, 0), 0);
    assert_eq!(ours(&words), (0, 0, 0));
    posted(&mut words, 1, 50, 22, 0, 7);
    assert_eq!(ours(&words), (0, 7, -700));
    assert_eq!(delivery(&words, 2, 50).balance, -400_000);
    assert_eq!(day_ahead(&words, 2, 50).balance, 0);
    assert_eq!(delivery(&words, 1, 51).balance, -500_000);
}

#[test]
fn an_updated_program_is_no_money() {
    let mut words = book_with(2, 100, 0);
    posted(&mut words, 1, 99, 22, 0, 1_000_000_000);
    posted(&mut words, 1, 98, 17, 0, 80);
    let answer = collateral(&words, &Case { party: 1, day: 100, ..Case::supplier() });
    assert_eq!((answer.trading, answer.total), (80, 20_000_000));
}

/// Control goes by the day-ahead balance, in both passes.
#[test]
fn control_without_updated_programs() {
    // 1 sells 100 with a program of 90, updated to 100.
    let mut words = book_with(9, 100, 0);
    posted(&mut words, 1, 40, 6, 2, 100);
    posted(&mut words, 1, 40, 12, 0, 90);
    posted(&mut words, 1, 40, 22, 0, 100);
    assert_eq!(day_ahead(&words, 1, 40).balance, 1_000);
    assert_eq!(delivery(&words, 1, 40).balance, 0);
    assert_eq!(control(&mut words, 40), controlled(1, 0, 1));
    assert_eq!(statuses(&words), [2, 0, 0, 0]);
    // Clear by its program, whatever its update.
    let mut words = book_with(9, 100, 0);
    posted(&mut words, 1, 40, 6, 2, 100);
    posted(&mut words, 1, 40, 12, 0, 100);
    posted(&mut words, 1, 40, 22, 0, 90);
    assert_eq!(control(&mut words, 40), controlled(0, 0, 0));
    // 2 is the buyer of a repeated pair, and its update does not stand for what it lost.
    let mut words = book_with(9, 100, 0);
    posted(&mut words, 1, 39, 6, 2, 100);
    chain(&mut words, 40);
    posted(&mut words, 2, 40, 22, 0, 1_000);
    assert_eq!(control(&mut words, 39), controlled(1, 0, 1));
    assert_eq!(control(&mut words, 40), controlled(1, 1, 2));
    assert_eq!(statuses(&words), [2, 2, 2, 0, 0, 0, 0]);
}

/// A closed day is closed to bilateral sales alone.
#[test]
fn updated_programs_of_a_closed_day() {
    let mut words = book_with(5, 100, 0);
    posted(&mut words, 1, 40, 22, 0, 10);
    assert_eq!(control(&mut words, 40), controlled(0, 0, 0));
    assert_eq!(post(&mut words, 1, 40, 22, 0, 30), Posted { answer: 0, number: 2 });
    assert_eq!(delivery(&words, 1, 40).balance, -4_000);
    assert_eq!(withdraw(&mut words, 0), 0);
    assert_eq!(withdraw(&mut words, 2), 0);
    assert_eq!(delivery(&words, 1, 40).balance, 0);
    let line = [0x1001_0001, 0x2000_0028, 0x3000_0016, 0x4000_0007, 0x5000_0000];
    assert_eq!(read(&mut words, &line), (0, 1));
    assert_eq!(delivery(&words, 1, 40).balance, -700);
    assert_eq!(words[18..23], [0x1000_0001, 0x2000_0028, 0x3000_0016, 0x4000_0007, 0x5000_0000]);
}

#[test]
fn files_with_updated_programs() {
    let mut words = book_with(1, 110, 600_000);
    for (what, low, high, cause) in [
        (0x3000_0216, 0x4B9A_CA01, 0x5000_0003, 6),
        (0x3000_0016, 0x4B9A_CA01, 0x5000_0003, 7), // 10^9 + 1
        (0x3000_0016, 0x44A5_1000, 0x5000_0E8D, 7), // 10^12
        (0x3000_0016, 0x4E72_A000, 0x5000_9184, 7), // 10^13
        (0x3000_0016, 0x4000_0000, 0x5001_0000, 2),
        (0x3100_0016, 0x4000_0000, 0x5000_0000, 2),
        (0x3000_0015, 0x4000_0000, 0x5000_0000, 5),
        (0x3000_0017, 0x4000_0000, 0x5000_0000, 5),
        (0x3000_00FF, 0x4000_0000, 0x5000_0000, 5),
    ] {
        let file = [0x1001_0001, 0x2000_0000, what, low, high];
        assert_eq!(read(&mut words, &file), (cause, 0), "{what:x} {low:x} {high:x}");
    }
    // Two updates where one fits: 9; with a faulty line behind them, its cause.
    let update = [0x3000_0016, 0x4B9A_CA00, 0x5000_0003];
    let (one, two) = ([0x1001_0001, 0x2000_0000], [0x1002_0001, 0x2000_0000]);
    assert_eq!(read(&mut words, &[&two[..], &update, &update].concat()), (9, 0));
    let behind = [0x1001_0001, 0x2000_0000, 0x3000_0015, 0x4000_0000, 0x5000_0000];
    assert_eq!(read(&mut words, &[&two[..], &update, &update, &behind].concat()), (5, 0));
    assert_eq!(read(&mut words, &[&one[..], &update].concat()), (0, 1));
    assert_eq!(entry(&words, 0).amount, 1_000_000_000);
    assert_eq!(tally(&words, 1, 0).sums[16], 1_000_000_000);
}

// The month step

fn month(answer: u32, aosmf: u64, aedm: i64) -> MonthAnswer {
    MonthAnswer { answer, aosmf, aedm }
}

#[test]
fn weighted_average() {
    // (3 × 100 + 1 × 200) / 4, not (100 + 200) / 2.
    assert_eq!(month_step(&[100, 200], &[-3, 1], 1, &[0, 0], 0), month(0, 125, -2));
    // Weights are over all rows: |−3| + |5| at 100, |1| + |−7| at 200: 2,400 / 16.
    let rows = [-3, 1, 5, -7];
    assert_eq!(month_step(&[100, 200], &rows, 2, &[10, -20], 0), month(0, 150, -2 + 10));
    assert_eq!(month_step(&[100, 200], &rows, 2, &[10, -20], 1), month(0, 150, -2 + 10));
    assert_eq!(month_step(&[100, 200], &rows, 2, &[10, 20], 1), month(0, 150, -32));
    // 2 / 3 is 0.67, 1 / 3 is 0.33.
    assert_eq!(month_step(&[1, 0], &[2, 1], 1, &[0, 0], 0).aosmf, 1);
    assert_eq!(month_step(&[1, 0], &[1, 2], 1, &[0, 0], 0).aosmf, 0);
    assert_eq!(month_step(&[1, 0], &[1, -1], 1, &[0, 0], 0).aosmf, 1);
}

#[test]
fn month_without_imbalance() {
    assert_eq!(month_step(&[7, 9], &[0, 0], 1, &[4, -1], 0), month(0, 0, -3));
    assert_eq!(month_step(&[], &[], 64, &[], 63), month(0, 0, 0));
}

#[test]
fn largest_month() {
    let prices = [1_000_000; 745];
    let short = vec![-10_000_000; 745 * 64];
    let long = [10_000_000; 745];
    assert_eq!(month_step(&prices, &short, 64, &long, 63), month(0, 1_000_000, -14_900_000_000));
}

/// 02, T-04: one imbalance beside another at prices 1 and 0. Equal weights are 0.5, up; a first one
/// that weighs less is below the half.
#[test]
fn weights_at_the_edges() {
    const MOST: i32 = 10_000_000;
    for [first, second] in [[-MOST, MOST], [MOST, -MOST], [-1, 1], [1, -1], [1, 0], [-1, 0]] {
        let volume = i64::from(first + second);
        let answer = month_step(&[1, 0], &[first, second], 1, &[0, 0], 0);
        assert_eq!(answer, month(0, 1, volume), "{first} {second}");
    }
    for [first, second] in [[1 - MOST, MOST], [MOST - 1, -MOST], [0, 1], [0, -1], [0, 0]] {
        let volume = i64::from(first + second);
        let answer = month_step(&[1, 0], &[first, second], 1, &[0, 0], 0);
        assert_eq!(answer, month(0, 0, volume), "{first} {second}");
    }
    // A table of 64 groups, 64 × 149 hours of each value. Each row is five parts of 149 hours, one
    // of them at price 32. All weights are 64 × 20,000,002, in units of 149 hours; the parts' are
    // 250,000,026, 260,000,025, 260,000,026 (6.5, up), 260,000,025 and 250,000,026.
    let figures = [-MOST, -1, 0, 1, MOST].map(|v| vec![v; 9_536]).concat();
    for (part, average) in [6, 6, 7, 6, 6].into_iter().enumerate() {
        let mut prices = [0; 745];
        prices[149 * part..149 * (part + 1)].fill(32);
        let answer = month_step(&prices, &figures, 64, &[0; 745], 12);
        assert_eq!(answer, month(0, average, -5_960_000_149), "part {part}");
    }
}

#[test]
fn causes_of_a_month() {
    let ok = [1, 1];
    assert_eq!(month_step(&[1; 746], &[0; 746], 1, &[0; 746], 0), month(11, 0, 0));
    assert_eq!(month_step(&[1, 1], &[1], 1, &ok, 0), month(11, 0, 0));
    assert_eq!(month_step(&[1, 1], &[1, 1, 1], 1, &ok, 0), month(11, 0, 0));
    assert_eq!(month_step(&[1, 1], &ok, 2, &ok, 0), month(11, 0, 0));
    assert_eq!(month_step(&[1, 1], &ok, 1, &[1], 0), month(11, 0, 0));
    // Lengths come before ranges.
    assert_eq!(month_step(&[u32::MAX], &ok, 1, &ok, 9), month(11, 0, 0));
    // Rows × hours is counted without wrap.
    assert_eq!(month_step(&[1, 1], &[], 1 << 31, &ok, 0), month(11, 0, 0));
    assert_eq!(month_step(&[1; 4], &[1; 4], (1 << 30) + 1, &[1; 4], 0), month(11, 0, 0));
    // Lengths agree, but not the rows.
    assert_eq!(month_step(&[], &[], 0, &[], 0), month(12, 0, 0));
    assert_eq!(month_step(&[1, 1], &[], 0, &ok, 0), month(12, 0, 0));
    assert_eq!(month_step(&[], &[], 65, &[], 0), month(12, 0, 0));
    assert_eq!(month_step(&[], &[], u32::MAX, &[], 0), month(12, 0, 0));
    assert_eq!(month_step(&[1], &[1; 65], 65, &[1], 0), month(12, 0, 0));
    assert_eq!(month_step(&[], &[], 3, &[], 3), month(12, 0, 0));
    assert_eq!(month_step(&[1_000_001], &[0], 1, &[0], 0), month(12, 0, 0));
    for value in [10_000_001, -10_000_001, i32::MIN, i32::MAX] {
        assert_eq!(month_step(&[1], &[value], 1, &[0], 0), month(12, 0, 0));
        assert_eq!(month_step(&[1], &[0], 1, &[value], 0), month(12, 0, 0));
        assert_eq!(month_step(&[1], &[0, value], 2, &[0], 0), month(12, 0, 0));
    }
    assert_eq!(month_step(&[1_000_000], &[-10_000_000], 1, &[10_000_000], 0), {
        month(0, 1_000_000, -20_000_000)
    });
}

// Collateral

fn trading_of(entries: &[(u32, u32, u64)], case: Case) -> u64 {
    let mut words = book_with(entries.len(), 110, 600_000);
    for (day, entry_type, amount) in entries {
        posted(&mut words, 1, *day, *entry_type, 0, *amount);
    }
    let answer = collateral(&words, &Case { party: 1, ..case });
    assert_eq!(answer.answer, 0);
    let items = answer.imbalance + answer.risk + answer.yek;
    assert_eq!(answer.total, answer.margin.max(answer.trading) + items);
    answer.trading
}

#[test]
fn a_plain_supplier() {
    let words = book_with(0, 110, 600_000);
    assert_eq!(collateral(&words, &Case::supplier()).answer, 3);
    let case = Case { party: 1, ..Case::supplier() };
    let margin = Collateral { margin: 20_000_000, total: 20_000_000, ..Collateral::default() };
    assert_eq!(collateral(&words, &case), margin);
    assert_eq!(collateral(&words, &Case { licence: 1, ..case }), margin);
    assert_eq!(collateral(&words, &Case { capacity: 60_000, ..case }), margin);
}

#[test]
fn margin_edges() {
    let words = book_with(0, 110, 600_000);
    for (capacity, margin) in
        [(0, 1_000_000), (999_999, 19_999_980), (1_000_000, 20_000_000), (100_000_000, 20_000_000)]
    {
        let case = Case { party: 1, licence: 2, capacity, ..Case::supplier() };
        assert_eq!(collateral(&words, &case).margin, margin);
    }
}

#[test]
fn window_of_thirty_days() {
    let g = 500;
    let case = Case { day: g, ..Case::supplier() };
    for (day, debt) in [(g - 31, 0), (g - 30, 80), (g - 1, 80), (g, 0), (g + 1, 0)] {
        assert_eq!(trading_of(&[(day, 17, 80)], case), debt);
        assert_eq!(trading_of(&[(day, 19, 80)], case), debt);
    }
    // Before day 0 there is nothing.
    let case = Case { day: 2, ..Case::supplier() };
    assert_eq!(trading_of(&[(0, 17, 8), (1, 19, 5)], case), 13);
    assert_eq!(trading_of(&[(0, 17, 8)], Case { day: 0, ..case }), 0);
    assert_eq!(trading_of(&[(36_523, 17, 8)], Case { day: 36_524, ..case }), 8);
}

#[test]
fn latest_k_days_of_each_market() {
    let g = 500;
    let case = Case { day: g, ..Case::supplier() };
    // k 3: the fourth day back is not reached.
    let days = [(g - 1, 17, 1), (g - 5, 17, 10), (g - 9, 17, 100), (g - 20, 17, 1_000)];
    assert_eq!(trading_of(&days, case), 111);
    for h in 0..=2 {
        assert_eq!(trading_of(&days, Case { nonbusiness: h, ..case }), 111);
    }
    assert_eq!(trading_of(&days, Case { nonbusiness: 3, ..case }), 1_111);
    // Each market chooses for itself; the day g − 20 is chosen by intraday alone,
    // so its day-ahead money does not count.
    let mut both = days.to_vec();
    both.extend([(g - 20, 19, 50_000), (g - 20, 20, 20_000)]);
    assert_eq!(trading_of(&both, case), 111 + 30_000);
    // A day chosen by both: the net is over both.
    let both = [(g - 1, 17, 100), (g - 1, 20, 60), (g - 2, 18, 500), (g - 2, 19, 300)];
    assert_eq!(trading_of(&both, case), 40);
}

#[test]
fn days_are_chosen_before_they_are_netted() {
    let g = 500;
    let case = Case { day: g, ..Case::supplier() };
    // g − 1 nets to nothing, but is one of the three.
    let days = [(g - 1, 17, 70), (g - 1, 18, 70), (g - 2, 17, 1), (g - 3, 17, 2), (g - 4, 17, 4)];
    assert_eq!(trading_of(&days, case), 3);
    // A zero money entry chooses nothing.
    let days = [(g - 1, 17, 0), (g - 2, 17, 1), (g - 3, 17, 2), (g - 4, 17, 4)];
    assert_eq!(trading_of(&days, case), 7);
}

#[test]
fn withdrawn_money_does_not_count() {
    let mut words = book_with(3, 110, 600_000);
    posted(&mut words, 1, 9, 17, 0, 70);
    posted(&mut words, 1, 9, 18, 0, 20);
    posted(&mut words, 2, 9, 17, 0, 1_000);
    let case = Case { party: 1, day: 10, ..Case::supplier() };
    assert_eq!(collateral(&words, &case).trading, 50);
    assert_eq!(withdraw(&mut words, 1), 0);
    assert_eq!(collateral(&words, &case).trading, 70);
    assert_eq!(withdraw(&mut words, 0), 0);
    assert_eq!(collateral(&words, &case).trading, 0);
}

#[test]
fn trading_factors() {
    let g = 500;
    let case = Case { day: g, ..Case::supplier() };
    let one = [(g - 1, 17, 1)];
    assert_eq!(trading_of(&one, case), 1);
    assert_eq!(trading_of(&one, Case { defaults: 1, ..case }), 2); // 84 / 80
    assert_eq!(trading_of(&one, Case { defaults: 20, ..case }), 2);
    assert_eq!(trading_of(&one, Case { defaults: 30, ..case }), 3); // 200 / 80
    let eighty = [(g - 1, 17, 80)];
    // Before a holiday three quarters, but only with k above 3.
    for (h, trading) in [(0, 80), (2, 80), (3, 60), (29, 60)] {
        let case = Case { holiday: 1, nonbusiness: h, ..case };
        assert_eq!(trading_of(&eighty, case), trading);
        let case = Case { holiday: 0, ..case };
        assert_eq!(trading_of(&eighty, case), 80);
    }
    // Trading above the margin is the larger.
    assert_eq!(trading_of(&[(g - 1, 19, 20_000_001)], case), 20_000_001);
}

#[test]
fn largest_trading() {
    let mut words = book_with(3_072, 110, 600_000);
    for i in 0..3_072 {
        posted(&mut words, 1, 499 - i % 30, 17, 0, 10_000_000_000_000);
    }
    let case = Case { party: 1, day: 500, nonbusiness: 29, defaults: 30, ..Case::supplier() };
    assert_eq!(collateral(&words, &case).trading, 30_720_000_000_000_000 / 2 * 5);
}

#[test]
fn months_of_a_case() {
    let words = book_with(0, 110, 600_000);
    let case = Case {
        party: 1,
        rk: 100,
        months: [
            Month { aosmf: 10, aedm: -3_000 },
            Month { aosmf: 1_000, aedm: 5 },
            Month { aosmf: u64::MAX, aedm: i64::MIN },
        ],
        ..Case::supplier()
    };
    let imbalance = |case: Case| {
        let answer = collateral(&words, &case);
        assert_eq!(answer.answer, 0);
        answer.imbalance
    };
    assert_eq!(imbalance(Case { used: 0, ..case }), 0);
    assert_eq!(imbalance(Case { used: 1, ..case }), 30);
    // The highest price and the lowest volume need not be of one month.
    assert_eq!(imbalance(Case { used: 2, ..case }), 3_000);
    assert_eq!(collateral(&words, &Case { used: 3, ..case }).answer, 12);
    assert_eq!(imbalance(Case { used: 2, responsible: 0, ..case }), 0);
    assert_eq!(imbalance(Case { used: 2, rk: 0, ..case }), 0);
    let mut clear = case;
    clear.months[0].aedm = 0;
    assert_eq!(imbalance(Case { used: 2, ..clear }), 0);
    let largest = Month { aosmf: 1_000_000, aedm: -14_900_000_000 };
    let case = Case { rk: 500, used: 3, months: [largest; 3], ..case };
    assert_eq!(imbalance(case), 74_500_000_000_000);
}

#[test]
fn party_not_responsible_for_its_group() {
    let words = book_with(0, 110, 600_000);
    let case = Case {
        party: 1,
        rk: 100,
        used: 1,
        months: [Month { aosmf: 1_000, aedm: -1_000 }; 3],
        rt: 77,
        yt: 10,
        score: 1,
        best: 1,
        ..Case::supplier()
    };
    let whole = Collateral {
        answer: 0,
        margin: 20_000_000,
        trading: 0,
        imbalance: 1_000,
        risk: 77,
        yek: 2,
        total: 20_001_079,
    };
    assert_eq!(collateral(&words, &case), whole);
    let none = Collateral { imbalance: 0, risk: 0, total: 20_000_002, ..whole };
    assert_eq!(collateral(&words, &Case { responsible: 0, ..case }), none);
}

#[test]
fn yek_edges() {
    let words = book_with(0, 110, 600_000);
    let yek = |yt, score, best| {
        let case = Case { party: 1, yt, score, best, ..Case::supplier() };
        collateral(&words, &case).yek
    };
    assert_eq!(yek(1_000, 0, 3), 1_000); // no consent
    assert_eq!(yek(1_000, 8, 10), 200); // 5 × 2 equals M
    assert_eq!(yek(1_000, 7, 10), 300);
    assert_eq!(yek(1, 1, 1), 1); // a fifth, rounded up
    assert_eq!(yek(0, 0, 1), 0);
    assert_eq!(yek(100_000_000_000_000, 0, 10_000), 100_000_000_000_000);
    assert_eq!(yek(100_000_000_000_000, 10_000, 10_000), 20_000_000_000_000);
}

#[test]
fn causes_of_collateral() {
    let words = book_with(0, 110, 600_000);
    let good = Case { party: 1, ..Case::supplier() };
    let cause = |case: Case| {
        let answer = collateral(&words, &case);
        assert_eq!(answer, Collateral { answer: answer.answer, ..Collateral::default() });
        answer.answer
    };
    let bad = Case { licence: 3, ..good };
    assert_eq!(collateral(&words[..1], &Case { party: 0, ..bad }).answer, 1);
    assert_eq!(cause(Case { party: 0, day: 36_525, ..bad }), 3);
    assert_eq!(cause(Case { party: 1_000, ..bad }), 3);
    assert_eq!(cause(Case { day: 36_525, ..bad }), 4);
    assert_eq!(cause(bad), 12);
    assert_eq!(cause(Case { capacity: 100_000_001, ..good }), 12);
    assert_eq!(cause(Case { nonbusiness: 30, ..good }), 12);
    assert_eq!(cause(Case { holiday: 2, ..good }), 12);
    assert_eq!(cause(Case { defaults: 31, ..good }), 12);
    assert_eq!(cause(Case { responsible: 2, ..good }), 12);
    assert_eq!(cause(Case { used: 4, ..good }), 12);
    assert_eq!(cause(Case { rk: 501, ..good }), 12);
    assert_eq!(cause(Case { rt: 1_000_000_000_000_001, ..good }), 12);
    assert_eq!(cause(Case { rt: 1_000_000_000_000_001, responsible: 0, ..good }), 12);
    assert_eq!(cause(Case { yt: 100_000_000_000_001, ..good }), 12);
    assert_eq!(cause(Case { best: 0, ..good }), 12);
    assert_eq!(cause(Case { best: 10_001, ..good }), 12);
    assert_eq!(cause(Case { best: 3, score: 4, ..good }), 12);
    for used in 1..=3 {
        for month in [
            Month { aosmf: 1_000_001, aedm: 0 },
            Month { aosmf: 0, aedm: 14_900_000_001 },
            Month { aosmf: 0, aedm: -14_900_000_001 },
            Month { aosmf: 0, aedm: i64::MIN },
        ] {
            let mut case = Case { used, ..good };
            case.months[used as usize - 1] = month;
            assert_eq!(cause(case), 12);
            assert_eq!(collateral(&words, &Case { used: used - 1, ..case }).answer, 0);
        }
    }
}

// Control

/// 1 sells 2 what it does not have; 2 sells on to 3, and 3 to 4.
fn chain(words: &mut [u32], day: u32) {
    posted(words, 1, day, 6, 2, 100);
    posted(words, 2, day, 6, 3, 100);
    posted(words, 3, day, 6, 4, 100);
}

fn statuses(words: &[u32]) -> Vec<u32> {
    (0..count(words).count).map(|i| entry(words, i).status).collect()
}

fn controlled(first: u32, second: u32, cancelled: u32) -> Controlled {
    Controlled { answer: 0, first, second, cancelled }
}

#[test]
fn a_lost_purchase_is_not_of_the_first_pass() {
    let mut words = book_with(10, 100, 0);
    chain(&mut words, 40);
    assert_eq!(control(&mut words, 40), controlled(1, 0, 1));
    assert_eq!(statuses(&words), [2, 0, 0, 0]);
    // 2 now lacks its cover, but was no buyer of a repeated pair.
    assert_eq!(day_ahead(&words, 2, 40).balance, 10_000);
    assert_eq!(control(&mut words, 40), Controlled { answer: 8, ..Controlled::default() });
}

#[test]
fn repeated_pair_on_two_days_of_a_month() {
    // Days 31 to 59 are February 2000.
    for (other, repeated) in [(31, true), (30, false), (59, true), (60, false)] {
        let day = if other < 45 { 59 } else { 31 };
        let mut words = book_with(20, 100, 0);
        posted(&mut words, 1, other, 6, 2, 100);
        chain(&mut words, day);
        assert_eq!(control(&mut words, other), controlled(1, 0, 1));
        let second = if repeated { 1 } else { 0 };
        assert_eq!(control(&mut words, day), controlled(1, second, 1 + second));
        // No third pass: 3 keeps its sale to 4 although its cover is gone.
        let on = if repeated { 2 } else { 0 };
        assert_eq!(statuses(&words), [2, 2, on, 0, 0, 0]);
    }
}

#[test]
fn a_repeated_pair_needs_its_own_two_days() {
    // 1 was cancelled against 5 on the other day, 6 against 2: neither repeats (1, 2).
    let mut words = book_with(20, 100, 0);
    posted(&mut words, 1, 41, 6, 5, 100);
    posted(&mut words, 6, 41, 6, 2, 100);
    chain(&mut words, 40);
    assert_eq!(control(&mut words, 41), controlled(2, 0, 2));
    assert_eq!(control(&mut words, 40), controlled(1, 0, 1));
    // Two cancelled entries of one day are no repetition either.
    let mut words = book_with(20, 100, 0);
    posted(&mut words, 1, 40, 6, 2, 50);
    chain(&mut words, 40);
    posted(&mut words, 2, 40, 6, 5, 50);
    assert_eq!(control(&mut words, 40), controlled(1, 0, 2));
}

#[test]
fn detected_in_both_passes() {
    let mut words = book_with(20, 100, 0);
    // (2, 1) repeats; 1 is detected by its day-ahead sale whatever it bought.
    posted(&mut words, 2, 39, 6, 1, 10);
    posted(&mut words, 2, 40, 6, 1, 10);
    posted(&mut words, 1, 40, 1, 0, 1_000);
    posted(&mut words, 1, 40, 6, 3, 10);
    assert_eq!(control(&mut words, 39), controlled(1, 0, 1));
    assert_eq!(control(&mut words, 40), controlled(2, 1, 2));
    assert_eq!(statuses(&words), [2, 2, 0, 2, 0, 0]);
}

#[test]
fn a_buyer_of_two_repeated_pairs_counts_once() {
    let mut words = book_with(20, 100, 0);
    for seller in [1, 2] {
        posted(&mut words, seller, 39, 6, 3, 10);
        posted(&mut words, seller, 40, 6, 3, 10);
    }
    posted(&mut words, 3, 40, 6, 4, 5);
    posted(&mut words, 3, 40, 6, 5, 15);
    assert_eq!(control(&mut words, 39), controlled(2, 0, 2));
    assert_eq!(control(&mut words, 40), controlled(2, 1, 4));
}

#[test]
fn what_a_control_leaves_alone() {
    let mut words = book_with(20, 100, 0);
    posted(&mut words, 1, 40, 6, 2, 100); // goes
    posted(&mut words, 1, 40, 6, 0, 100); // an export
    posted(&mut words, 1, 40, 1, 0, 100); // no bilateral sale
    posted(&mut words, 1, 41, 6, 2, 100); // another day
    posted(&mut words, 1, 40, 6, 2, 100); // withdrawn
    posted(&mut words, 3, 40, 1, 0, 1); // detected without a bilateral sale
    posted(&mut words, 4, 40, 2, 0, 1); // intraday: not of the day-ahead balance
    assert_eq!(withdraw(&mut words, 4), 0);
    assert_eq!(control(&mut words, 40), controlled(2, 0, 1));
    assert_eq!(statuses(&words), [2, 0, 0, 0, 1, 0, 0, 0]);
    assert_eq!(withdraw(&mut words, 0), 10);
}

#[test]
fn an_amount_of_zero_is_cancelled_too() {
    let mut words = book_with(9, 100, 0);
    posted(&mut words, 1, 40, 6, 2, 0);
    posted(&mut words, 1, 40, 1, 0, 1);
    assert_eq!(control(&mut words, 40), controlled(1, 0, 1));
}

#[test]
fn closed_day() {
    let mut words = book_with(9, 100, 0);
    posted(&mut words, 1, 40, 6, 2, 0);
    posted(&mut words, 1, 40, 6, 0, 0);
    posted(&mut words, 1, 41, 6, 2, 0);
    assert_eq!(control(&mut words, 40), controlled(0, 0, 0));
    post_refused(&mut words, 8, (3, 40, 6, 4, 1));
    post_refused(&mut words, 7, (3, 40, 6, 4, 1_000_000_001));
    let before = words.clone();
    assert_eq!(withdraw(&mut words, 0), 8);
    assert_eq!(words, before);
    posted(&mut words, 3, 40, 6, 0, 1);
    posted(&mut words, 3, 40, 1, 0, 1);
    posted(&mut words, 3, 41, 6, 4, 1);
    assert_eq!(withdraw(&mut words, 1), 0);
    assert_eq!(withdraw(&mut words, 2), 0);
}

#[test]
fn causes_of_a_control() {
    let mut words = book_with(1, 110, 600_000);
    assert_eq!(control(&mut words, 36_525).answer, 4);
    assert_eq!(control(&mut words, u32::MAX).answer, 4);
    assert_eq!(control(&mut words, 3), controlled(0, 0, 0));
    // Full now: a closed day is 8, an open one 9.
    assert_eq!(control(&mut words, 3).answer, 8);
    assert_eq!(control(&mut words, 4).answer, 9);
    assert_eq!(control(&mut words, 36_525).answer, 4);
    post_refused(&mut words, 8, (1, 3, 6, 2, 1));
    words[1] = 0;
    assert_eq!(control(&mut words, 36_525).answer, 1);
}

// The day file

fn read(words: &mut [u32], file: &[u32]) -> (u32, u32) {
    let before = words.to_vec();
    let answer = read_file(words, &bytes(file));
    if answer.answer != 0 {
        assert_eq!(answer.posted, 0);
        assert_eq!(words, before);
    }
    (answer.answer, answer.posted)
}

#[test]
fn files_without_lines() {
    let mut words = book_with(0, 110, 600_000);
    assert_eq!(read(&mut words, &[]), (0, 0));
    assert_eq!(read(&mut words, &[0x1000_0001, 0x2000_0000]), (0, 0));
    assert_eq!(read(&mut words, &[0x1000_0000, 0x2000_FFFF]), (3, 0));
    assert_eq!(read(&mut words, &[0x1000_03E8, 0x2000_0000]), (3, 0));
    assert_eq!(read(&mut words, &[0x1000_0001, 0x2000_8EAD]), (4, 0));
    assert_eq!(balance_output(&[]), b"party day ahead delivery\n");
    let file = bytes(&[0x1000_0007, 0x2000_0003, 0x1000_0002, 0x2000_0009]);
    let text = "party day ahead delivery\n2 9 -50000000 -50000000\n7 3 -50000000 -50000000\n";
    assert_eq!(balance_output(&file), text.as_bytes());
}

#[test]
fn shapes_of_a_file() {
    let good = [0x1001_0001, 0x2000_0000, 0x3000_0001, 0x4000_0001, 0x5000_0000];
    let mut words = book_with(1, 110, 600_000);
    for length in 0..=20 {
        let answer = read_file(&mut words.clone(), &bytes(&good)[..length]);
        let expected = if length == 0 || length == 20 { 0 } else { 2 };
        assert_eq!(answer.answer, expected);
    }
    for (place, word) in [
        (0, 0x2001_0001),
        (0, 0x1002_0001), // a line more than there is
        (0, 0x1000_0001), // a line less
        (1, 0x3000_0000),
        (2, 0x3100_0001), // status bits
        (2, 0x3200_0001),
        (2, 0x3300_0001),
        (2, 0x3400_0001), // spare bits
        (2, 0x3800_0001),
        (2, 0x4000_0001),
        (3, 0x5000_0001),
        (4, 0x5001_0000),
        (4, 0x5800_0000),
        (4, 0x4000_0000),
    ] {
        let mut file = good;
        file[place] = word;
        assert_eq!(read(&mut words, &file), (2, 0), "{place} {word:x}");
    }
    // The shape comes before any line.
    let mut file = good.to_vec();
    file[0] = 0x1001_0000;
    assert_eq!(read(&mut words, &file), (3, 0));
    file.push(0x1000_0001);
    assert_eq!(read(&mut words, &file), (2, 0));
    assert_eq!(balance_output(&bytes(&file)), b"refused 2\n");
    assert!(named(&bytes(&file)).is_empty());
    // A book that is none comes before the shape.
    words[0] = 0;
    assert_eq!(read(&mut words, &file), (1, 0));
}

#[test]
fn file_lengths() {
    let mut words = book_with(3_072, 110, 600_000);
    // 8,192 blocks without lines are 65,536 bytes.
    let empty = [0x1000_0001, 0x2000_0000].repeat(8_192);
    assert_eq!(read(&mut words, &empty), (0, 0));
    let longer = [0x1000_0001, 0x2000_0000].repeat(8_193);
    assert_eq!(read(&mut words, &longer), (2, 0));
    assert_eq!(balance_output(&bytes(&longer)), b"refused 2\n");
    let line = [0x3000_0001, 0x4000_0001, 0x5000_0000];
    let block = |lines: usize| {
        let mut block = vec![0x1000_0001 | (lines as u32) << 16, 0x2000_0000];
        block.extend(line.repeat(lines));
        block
    };
    assert_eq!(read(&mut words.clone(), &block(3_072)), (0, 3_072));
    assert_eq!(read(&mut words, &block(3_073)), (9, 0));
    assert_eq!(read(&mut words, &block(4_095)), (9, 0));
    assert_eq!(balance_output(&bytes(&block(4_095))), b"refused 9\n");
}

#[test]
fn first_faulty_line_in_file_order() {
    let mut words = book_with(1, 110, 600_000);
    let amount = [0x4000_0000, 0x5000_0004]; // 2^30, above 10^9
    let wrong_amount = [0x1001_0001, 0x2000_0000, 0x3000_0001, amount[0], amount[1]];
    let wrong_party = [0x1001_0000, 0x2000_0000, 0x3000_0001, 0x4000_0000, 0x5000_0000];
    let wrong_day = [0x1000_0001, 0x2FFF_FFFF];
    let joined = |parts: &[&[u32]]| parts.concat();
    assert_eq!(read(&mut words, &joined(&[&wrong_amount, &wrong_party, &wrong_day])), (7, 0));
    assert_eq!(read(&mut words, &joined(&[&wrong_party, &wrong_day, &wrong_amount])), (3, 0));
    assert_eq!(read(&mut words, &joined(&[&wrong_day, &wrong_party, &wrong_amount])), (4, 0));
    // Two lines, of which the second is wrong, in a book with one place: 5 before 9.
    let two = [
        0x1002_0001,
        0x2000_0000,
        0x3000_0001,
        0x4000_0000,
        0x5000_0000,
        0x3000_0015,
        0x4000_0000,
        0x5000_0000,
    ];
    assert_eq!(read(&mut words, &two), (5, 0));
    let mut fine = two;
    fine[5] = 0x3000_0002;
    assert_eq!(read(&mut words, &fine), (9, 0));
    let mut own = two;
    own[5] = 0x3000_0106;
    assert_eq!(read(&mut words, &own), (6, 0));
}

#[test]
fn files_and_closed_days() {
    let mut words = book_with(3, 110, 600_000);
    assert_eq!(control(&mut words, 7).answer, 0);
    let sale = [0x1001_0001, 0x2000_0007, 0x3000_0206, 0x4000_0001, 0x5000_0000];
    assert_eq!(read(&mut words, &sale), (8, 0));
    let mut export = sale;
    export[2] = 0x3000_0006;
    assert_eq!(read(&mut words, &export), (0, 1));
    let mut other_day = sale;
    other_day[1] = 0x2000_0008;
    assert_eq!(read(&mut words, &other_day), (0, 1));
    assert_eq!(words[8..13], [0x1000_0001, 0x2000_0007, 0x3000_0006, 0x4000_0001, 0x5000_0000]);
    assert_eq!(read(&mut words, &other_day), (9, 0));
    assert_eq!(read(&mut words, &sale), (8, 0));
}

#[test]
fn named_parties_once_each() {
    // 5 sells to 3 on day 2 twice, exports on day 1; 3 is named without lines on day 2.
    let file = bytes(&[
        0x1002_0005,
        0x2000_0002,
        0x3000_0306,
        0x4000_0001,
        0x5000_0000,
        0x3000_0306,
        0x4000_0002,
        0x5000_0000,
        0x1001_0005,
        0x2000_0001,
        0x3000_0006,
        0x4000_0003,
        0x5000_0000,
        0x1000_0003,
        0x2000_0002,
    ]);
    assert_eq!(named(&file), [(3, 2), (5, 1), (5, 2)]);
    let text = "party day ahead delivery\n3 2 -50000000 -50000000\n5 1 -50000000 -50000000\n\
                5 2 -49999700 -49999700\n";
    assert_eq!(balance_output(&file), text.as_bytes());
}

// The sales ceiling

#[test]
fn ceiling_edges() {
    let most = 1_000_000_000;
    let answer = |o, n, v, g| {
        let c = ceiling(o, n, v, g);
        (c.answer, c.recordable)
    };
    assert_eq!(answer(25_000, 0, 0, 0), (0, 1));
    assert_eq!(answer(25_001, 0, 0, 0), (0, 0));
    assert_eq!(answer(25_000, 16_667, 0, 0), (0, 1)); // 50,001 / 2
    assert_eq!(answer(25_001, 16_667, 0, 0), (0, 0));
    assert_eq!(answer(25_001, 16_667, 1, 0), (0, 1));
    assert_eq!(answer(most, most, most, most), (0, 1));
    assert_eq!(answer(most, 0, 0, most), (0, 1));
    assert_eq!(answer(most, 0, 0, 999_975_000), (0, 1));
    assert_eq!(answer(most, 0, 0, 999_974_999), (0, 0));
    assert_eq!(answer(most + 1, 0, 0, 0), (12, 0));
    assert_eq!(answer(0, most + 1, 0, 0), (12, 0));
    assert_eq!(answer(0, 0, most + 1, 0), (12, 0));
    assert_eq!(answer(0, 0, 0, u32::MAX), (12, 0));
}

// The first day of a month

/// Document 02, T-08. A century from 2100 on has 100 × 365 + 24 = 36,524 days.
#[test]
fn first_days() {
    for (month, day) in [
        (0, 0),
        (2, 60),
        (12, 366),
        (1_199, 36_494),
        (1_200, 36_525),
        (1_202, 36_584), // March 2100: 31 + 28 days on
        (1_212, 36_890),
        (1_250, 38_045), // March 2104: 36,525 + 4 × 365 + 31 + 29
        (2_400, 73_049),
        (2_402, 73_108),
        (3_600, 109_573),
        (3_602, 109_632),
        (4_788, 145_732),
        (4_799, 146_066),
    ] {
        assert_eq!(first_day(month), FirstDayAnswer { answer: 0, day }, "{month}");
    }
    for month in [4_800, 4_801, 6_000, 65_536, u32::MAX] {
        assert_eq!(first_day(month), FirstDayAnswer { answer: 12, day: 0 }, "{month}");
    }
    // Each month begins where the one before ends, to the end of 2399.
    let mut day = 0;
    for month in 0..4_800 {
        assert_eq!(first_day(month).day, day, "{month}");
        day += calendar::days_of_month(2000 + month / 12, 1 + month % 12);
    }
    assert_eq!(day, 146_097);
}

// The month report (document 02, T-01); a month of two parties is in figures.rs

fn refused_report(answer: u32) -> MonthReport {
    MonthReport { answer, ..MonthReport::default() }
}

/// Entries on the first and last day of a month and on the days beside them, of 10, 200, 3,000 and
/// 40,000: just those of 200 and 3,000 are the month's.
#[test]
fn first_and_last_day_of_a_month() {
    for (month, first, days) in [
        (0_u32, 0_u32, 31_usize),
        (1, 31, 29), // February 2000
        (2, 60, 31),
        (3, 91, 30),
        (11, 335, 31),
        (12, 366, 31),
        (13, 397, 28), // February 2001
        (14, 425, 31),
        (49, 1_492, 29), // February 2004: 366 + 3 × 365 + 31
        (1_188, 36_160, 31),
        (1_189, 36_191, 28), // February 2099
        (1_198, 36_464, 30),
        (1_199, 36_494, 31), // to the last day, 36,524
    ] {
        let mut words = book_with(4, 110, 600_000);
        if first > 0 {
            posted(&mut words, 1, first - 1, 1, 0, 10);
        }
        posted(&mut words, 999, first, 1, 0, 200);
        posted(&mut words, 2, first + days as u32 - 1, 1, 0, 3_000);
        if month < 1_199 {
            posted(&mut words, 3, first + days as u32, 1, 0, 40_000);
        }
        let mut stated =
            MonthReport { month, first_day: first, days: days as u32, ..refused_report(0) };
        stated.lines[0][0] = 200;
        stated.lines[days - 1][0] = 3_000;
        stated.lines[days][0] = 3_200;
        assert_eq!(month_report(&words, month), stated, "{month}");
        // The months beside it have the other entries, at their ends.
        if month > 0 {
            let before = month_report(&words, month - 1);
            let line = before.days as usize;
            assert_eq!((before.lines[line - 1][0], before.lines[line][0]), (10, 10), "{month}");
        }
        if month < 1_199 {
            let after = month_report(&words, month + 1);
            let line = after.days as usize;
            assert_eq!((after.lines[0][0], after.lines[line][0]), (40_000, 40_000), "{month}");
        }
    }
}

/// The 1,200 months follow one another; an empty book has their lines, all of zeros.
#[test]
fn reports_of_an_empty_book() {
    let words = book_with(0, 110, 600_000);
    let mut lengths = [0; 4];
    let mut day = 0;
    for month in 0..1_200 {
        let report = month_report(&words, month);
        let stated = MonthReport { month, first_day: day, days: report.days, ..refused_report(0) };
        assert_eq!(report, stated, "{month}");
        day += report.days;
        lengths[report.days as usize - 28] += 1;
    }
    assert_eq!(day, 36_525);
    // Of 100 Februaries 25 are of leap years; 4 months of a year have 30 days, 7 have 31.
    assert_eq!(lengths, [75, 25, 400, 700]);
}

/// 1 for what is no book, then 12 for a month above 1,199.
#[test]
fn refused_reports() {
    let mut words = book_with(1, 110, 600_000);
    posted(&mut words, 1, 0, 1, 0, 5);
    for month in [1_200, 1_201, 2_400, 4_799, 65_535, 65_536, 1 << 31, u32::MAX] {
        assert_eq!(month_report(&words, month), refused_report(12), "{month}");
        assert_eq!(month_report(&words[..7], month), refused_report(1), "{month}");
    }
    assert_eq!(month_report(&words, 1_199).answer, 0);
    for length in [0, 2, 3, 7] {
        assert_eq!(month_report(&words[..length], 0), refused_report(1), "{length}");
    }
    words[0] = 0;
    assert_eq!(month_report(&words, 0), refused_report(1));
    assert_eq!(month_report(&words, 1_200), refused_report(1));
}

/// Type t has amount 2^t, t days after the first: types 1 to 20 stand at their number less 1, type 22 last.
#[test]
fn each_type_has_its_place() {
    let mut words = book_with(42, 110, 600_000);
    let types: Vec<u32> = (1..=20).chain([22]).collect();
    for &t in &types {
        let other = if t == 6 { 7 } else { 0 };
        posted(&mut words, 5, 60 + t, t, other, 1 << t);
    }
    let mut stated = MonthReport { month: 2, first_day: 60, days: 31, ..refused_report(0) };
    for (place, &t) in types.iter().enumerate() {
        stated.lines[t as usize][place] = 1 << t;
        stated.lines[31][place] = 1 << t;
    }
    assert_eq!(month_report(&words, 2), stated);
    // The same once more by another party, and an export: type 6 is summed with it.
    for &t in &types {
        posted(&mut words, 999, 60 + t, t, 0, 1 << t);
    }
    stated.lines.iter_mut().flatten().for_each(|sum| *sum *= 2);
    assert_eq!(month_report(&words, 2), stated);
}

/// Withdrawn and cancelled entries and marks count nowhere, sales to parties and exports in type 6.
#[test]
fn what_a_report_counts() {
    let mut words = book_with(20, 100, 0);
    posted(&mut words, 1, 40, 6, 2, 1); // cancelled
    posted(&mut words, 1, 40, 6, 0, 20); // an export
    posted(&mut words, 1, 40, 6, 0, 300); // an export withdrawn
    posted(&mut words, 2, 41, 6, 1, 4_000);
    posted(&mut words, 2, 41, 6, 1, 50_000); // withdrawn
    posted(&mut words, 2, 41, 22, 0, 600_000); // withdrawn
    for number in [2, 4, 5] {
        assert_eq!(withdraw(&mut words, number), 0);
    }
    let both = |lines: [u64; 2], total: u64, words: &[u32]| {
        let mut stated = MonthReport { month: 1, first_day: 31, days: 29, ..refused_report(0) };
        stated.lines[9][5] = lines[0];
        stated.lines[10][5] = lines[1];
        stated.lines[29][5] = total;
        assert_eq!(month_report(words, 1), stated);
    };
    both([21, 4_000], 4_021, &words);
    assert_eq!(control(&mut words, 40), controlled(1, 0, 1));
    both([20, 4_000], 4_020, &words);
    assert_eq!(statuses(&words), [2, 0, 1, 0, 1, 1, 0]);
    // Marks of a day without entries and of another month.
    assert_eq!(control(&mut words, 42), controlled(0, 0, 0));
    assert_eq!(control(&mut words, 60), controlled(0, 0, 0));
    both([20, 4_000], 4_020, &words);
    assert_eq!(month_report(&words, 2).lines, refused_report(0).lines);
}

/// 3,072 entries of 10^13 kuruş: 30,720,000,000,000,000 in one line or over all days of a month.
#[test]
fn largest_sums_of_a_report() {
    let full = |entry_type: u32, other: u32, day: fn(u32) -> u32| {
        let most = most_of(entry_type).unwrap();
        let mut book = Book { coefficient: 110, tolerance: 0, entries: Vec::new() };
        for i in 0..3_072 {
            let counterparty = if i % 2 == 0 { other } else { 0 };
            let (party, day) = (1 + i % 900, day(i));
            let (status, amount) = (STANDING, most);
            book.entries.push(Entry { party, day, entry_type, counterparty, status, amount });
        }
        let mut words = book_with(3_072, 110, 0);
        encode(&book, &mut words);
        month_report(&words, 1_199)
    };
    for (t, place, other, most) in [
        (20, 19, 0, 10_000_000_000_000),
        (17, 16, 0, 10_000_000_000_000),
        (1, 0, 0, 1_000_000_000),
        (6, 5, 950, 1_000_000_000),
        (22, 20, 0, 1_000_000_000),
    ] {
        let mut stated =
            MonthReport { month: 1_199, first_day: 36_494, days: 31, ..refused_report(0) };
        stated.lines[31][place] = 3_072 * most;
        let mut of_one_day = stated;
        of_one_day.lines[30][place] = 3_072 * most;
        assert_eq!(full(t, other, |_| 36_524), of_one_day);
        // 3,072 is 99 × 31 + 3: the first three days have one more.
        for day in 0..31 {
            stated.lines[day][place] = if day < 3 { 100 * most } else { 99 * most };
        }
        assert_eq!(full(t, other, |i| 36_494 + i % 31), stated);
    }
    assert_eq!(3_072 * 10_000_000_000_000_u64, 30_720_000_000_000_000);
}

/// The words behind the last entry are none of the report's, an entry's words neither.
#[test]
fn a_report_ends_with_the_last_entry() {
    let mut words = book_with(2, 110, 600_000);
    posted(&mut words, 1, 0, 1, 0, 10);
    let before = month_report(&words, 0);
    posted(&mut words, 1, 0, 1, 0, 200);
    assert_eq!(month_report(&words, 0).lines[31][0], 210);
    words[0] -= 1;
    assert_eq!(month_report(&words, 0), before);
    assert_eq!(before.lines[31][0], 10);
}

// The program "month" (document 02, T-01)

/// Lines of zeros for each day of a month and for the month itself.
fn printed_zeros(month: u32, first: u32, days: u32) -> Vec<u8> {
    let line = |number: u32| format!("{number}{}\n", " 0".repeat(21));
    (first..first + days).chain([month]).map(line).collect::<String>().into_bytes()
}

#[test]
fn months_of_an_empty_file() {
    for (digits, month, first, days) in [
        ("0", 0, 0, 31),
        ("1", 1, 31, 29),
        ("3", 3, 91, 30),
        ("13", 13, 397, 28),
        ("1199", 1_199, 36_494, 31),
        // Leading zeros are digits.
        ("00", 0, 0, 31),
        ("0013", 13, 397, 28),
        ("0000000000000000000000000000000000001199", 1_199, 36_494, 31),
        ("0000000000000000000000000000000000000000", 0, 0, 31),
    ] {
        let stated = printed_zeros(month, first, days);
        assert_eq!(month_output(&[], &[digits]), stated, "{digits}");
    }
}

#[test]
fn arguments_that_name_no_month() {
    let wrong: [&[&str]; 24] = [
        &[],
        &["0", "0"],
        &["0", ""],
        &["", "0"],
        &["1", "2", "3"],
        &[""],
        &["+0"],
        &["-0"],
        &["-1"],
        &[" 0"],
        &["0 "],
        &["1 2"],
        &["0\n"],
        &["\t0"],
        &["0x0"],
        &["1a"],
        &["1.0"],
        &["1_199"],
        &["\u{FF11}"],
        &["1200"],
        &["4294967296"],                               // 2^32
        &["18446744073709551616"],                     // 2^64
        &["340282366920938463463374607431768211456"],  // 2^128
        &["1000000000000000000000000000000000000000"], // forty digits
    ];
    let refused = [0x1000_0000, 0x2000_0000]; // party 0
    for arguments in wrong {
        assert_eq!(month_output(&[], arguments), b"refused 12\n", "{arguments:?}");
        // The file's own refusal comes first.
        assert_eq!(month_output(&bytes(&refused), arguments), b"refused 3\n", "{arguments:?}");
        assert_eq!(month_output(&[7], arguments), b"refused 2\n", "{arguments:?}");
    }
    assert_eq!(month_output(&bytes(&refused), &["0"]), b"refused 3\n");
}
