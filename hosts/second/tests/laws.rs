//! Laws of document 01 over drawn lists: the ledger of demand 3, the order of
//! two books, and the words after the last entry; and those of document 02's
//! month report.

use second::*;

/// A small generator of numbers (splitmix64).
struct Draw(u64);

impl Draw {
    fn next(&mut self) -> u64 {
        self.0 = self.0.wrapping_add(0x9E37_79B9_7F4A_7C15);
        let mut z = self.0;
        z = (z ^ (z >> 30)).wrapping_mul(0xBF58_476D_1CE4_E5B9);
        z = (z ^ (z >> 27)).wrapping_mul(0x94D0_49BB_1331_11EB);
        z ^ (z >> 31)
    }

    fn below(&mut self, bound: u64) -> u64 {
        self.next() % bound
    }
}

/// The ledger: fed the number of words lent and the calls' figures, never the words.
struct Ledger {
    room: usize,
    records: Vec<Entry>,
}

impl Ledger {
    fn new(words: usize) -> Ledger {
        Ledger { room: ((words - 3) / 5).min(3_072), records: Vec::new() }
    }

    fn post(&mut self, e: Entry) -> Posted {
        let cause = fault(e.party, e.day, e.entry_type, e.counterparty, e.amount);
        if cause != 0 {
            return Posted { answer: cause, number: 0 };
        }
        if self.records.len() == self.room {
            return Posted { answer: 9, number: 0 };
        }
        self.records.push(e);
        Posted { answer: 0, number: self.records.len() as u32 - 1 }
    }

    fn withdraw(&mut self, number: u32) -> u32 {
        match self.records.get_mut(number as usize) {
            Some(record) if record.status == STANDING => {
                record.status = WITHDRAWN;
                0
            }
            _ => 10,
        }
    }
}

fn drawn_record(draw: &mut Draw) -> Entry {
    // A program and its updates meet more often.
    let entry_type = match draw.below(8) {
        0 => 12,
        1 => 22,
        _ => draw.below(24) as u32,
    };
    let counterparty = if entry_type == 6 || draw.below(8) == 0 { draw.below(5) as u32 } else { 0 };
    Entry {
        party: draw.below(5) as u32,
        day: 30 + draw.below(4) as u32,
        entry_type,
        counterparty,
        status: STANDING,
        amount: drawn_amount(draw, entry_type),
    }
}

/// The limit of a volume or of money (02, T-02 and T-06).
fn most(entry_type: u32) -> u64 {
    if entry_type <= 16 || entry_type == 22 {
        1_000_000_000
    } else {
        10_000_000_000_000
    }
}

fn drawn_amount(draw: &mut Draw, entry_type: u32) -> u64 {
    let most = most(entry_type);
    match draw.below(6) {
        0 => 0,
        1 => most + draw.below(2),
        2 => draw.below(10),
        _ => draw.below(1_000_000),
    }
}

fn is_sale(e: &Entry, party: u32) -> bool {
    e.party == party && (1..=6).contains(&e.entry_type)
}

fn is_cover(e: &Entry, party: u32) -> bool {
    let own = matches!(e.entry_type, 7..=16 | 22) && e.party == party;
    own || (e.entry_type == 6 && e.counterparty == party)
}

#[test]
fn lists_are_answered_as_the_ledger_answers_and_balances_keep_their_order() {
    let mut draw = Draw(1);
    let mut ordered = 0;
    let mut updated = 0;
    let mut ordered_money = 0;
    let mut equal = 0;
    for _ in 0..3_000 {
        let words = 3 + draw.below(60) as usize;
        let (r, tm) = (draw.below(1_001) as u32, draw.below(1_000_000) as u32);
        let mut first = vec![draw.next() as u32; words];
        let mut second = vec![draw.next() as u32; words];
        assert_eq!(open(&mut first, r, tm), 0);
        assert_eq!(open(&mut second, r, tm), 0);
        let mut ledgers = [Ledger::new(words), Ledger::new(words)];
        for _ in 0..draw.below(25) {
            if draw.below(5) == 0 {
                let number = draw.below(14) as u32;
                let a = withdraw(&mut first, number);
                let b = withdraw(&mut second, number);
                assert_eq!(a, ledgers[0].withdraw(number));
                assert_eq!(b, ledgers[1].withdraw(number));
                assert_eq!(a, b);
                continue;
            }
            let one = drawn_record(&mut draw);
            let mut two = one;
            let most = most(one.entry_type);
            if one.amount <= most && draw.below(3) == 0 {
                // Another legal amount; smaller sales and larger cover are drawn more often.
                two.amount = match draw.below(4) {
                    0 => drawn_amount(&mut draw, one.entry_type).min(most),
                    _ if one.entry_type <= 6 || one.entry_type % 2 == 1 => one.amount / 2,
                    _ => (one.amount + draw.below(100)).min(most),
                };
            }
            let posts = [(one, &mut first), (two, &mut second)];
            let mut answers = Vec::new();
            for (i, (e, words)) in posts.into_iter().enumerate() {
                let answer = post(words, e.party, e.day, e.entry_type, e.counterparty, e.amount);
                assert_eq!(answer, ledgers[i].post(e));
                answers.push(answer);
            }
            assert_eq!(answers[0], answers[1]);
        }
        // Each book ends with its ledger's records.
        for (words, ledger) in [(&first, &ledgers[0]), (&second, &ledgers[1])] {
            let book = decode(words).unwrap();
            assert_eq!((book.coefficient, book.tolerance), (r, tm));
            assert_eq!(book.entries, ledger.records);
        }
        let pairs: Vec<(Entry, Entry)> = ledgers[0]
            .records
            .iter()
            .copied()
            .zip(ledgers[1].records.iter().copied())
            .filter(|(a, _)| a.status == STANDING)
            .collect();
        for party in 1..=5 {
            for day in 30..34 {
                let of_day: Vec<_> = pairs.iter().filter(|(a, _)| a.day == day).collect();
                let no_worse = of_day.iter().all(|(a, b)| {
                    (!is_sale(a, party) || b.amount <= a.amount)
                        && (!is_cover(a, party) || b.amount >= a.amount)
                });
                if no_worse {
                    ordered += 1;
                    let ahead = (day_ahead(&first, party, day), day_ahead(&second, party, day));
                    assert!(ahead.1.balance <= ahead.0.balance);
                    let delivered = (delivery(&first, party, day), delivery(&second, party, day));
                    assert!(delivered.1.balance <= delivered.0.balance);
                    // A larger update alone that betters delivery, and day-ahead not.
                    let changed: Vec<_> = of_day.iter().filter(|(a, b)| a != b).collect();
                    let updates = changed.iter().all(|(a, _)| a.entry_type == 22);
                    if updates && delivered.1.balance < delivered.0.balance {
                        updated += 1;
                        assert_eq!(ahead.0, ahead.1);
                    }
                }
            }
            let named = |e: &Entry| e.party == party || e.counterparty == party;
            if pairs.iter().all(|(a, b)| !named(a) || a == b) {
                equal += 1;
                for day in 30..36 {
                    assert_eq!(day_ahead(&first, party, day), day_ahead(&second, party, day));
                    assert_eq!(delivery(&first, party, day), delivery(&second, party, day));
                    let case = Case { party, day, ..Case::supplier() };
                    assert_eq!(collateral(&first, &case), collateral(&second, &case));
                }
            }
            let sum = |which: usize, day: u32, entry_type: u32| -> u64 {
                pairs
                    .iter()
                    .map(|(a, b)| if which == 0 { a } else { b })
                    .filter(|e| e.party == party && e.day == day && e.entry_type == entry_type)
                    .map(|e| e.amount)
                    .sum()
            };
            let money = (30..34).all(|day| {
                (17..=20).all(|entry_type| {
                    let (a, b) = (sum(0, day, entry_type), sum(1, day, entry_type));
                    let purchase = entry_type % 2 == 1;
                    (a == 0) == (b == 0) && if purchase { b <= a } else { b >= a }
                })
            });
            if money {
                ordered_money += 1;
                let day = 30 + draw.below(6) as u32;
                let nonbusiness = draw.below(5) as u32;
                let case = Case { party, day, nonbusiness, ..Case::supplier() };
                let case = Case { used: 1, rk: 110, licence: 2, capacity: 1, ..case };
                let month = |price: u32| {
                    let answer = month_step(&[price], &[-1_000], 1, &[0], 0);
                    [Month { aosmf: answer.aosmf, aedm: answer.aedm }; 3]
                };
                let price = draw.below(1_000) as u32;
                let higher = Case { months: month(price + draw.below(3) as u32), ..case };
                let lower = Case { months: month(price), ..case };
                let total = (collateral(&first, &higher), collateral(&second, &lower));
                assert!(total.1.total <= total.0.total);
            }
        }
    }
    assert!(ordered > 5_000 && ordered_money > 2_000, "{ordered} {ordered_money}");
    assert!(equal > 2_000 && updated > 100, "{equal} {updated}");
}

#[test]
fn words_after_the_last_entry_are_never_read() {
    let mut draw = Draw(2);
    for _ in 0..500 {
        let mut one = vec![0; 3 + draw.below(60) as usize];
        open(&mut one, 100, 1_000);
        for _ in 0..draw.below(10) {
            let e = drawn_record(&mut draw);
            post(&mut one, e.party, e.day, e.entry_type, e.counterparty, e.amount);
        }
        if draw.below(3) == 0 {
            control(&mut one, 31);
        }
        let used = 3 + 5 * count(&one).count as usize;
        let mut other = one.clone();
        for word in &mut other[used..] {
            *word = draw.next() as u32;
        }
        let behind = (one[used..].to_vec(), other[used..].to_vec());
        let day = 30 + draw.below(4) as u32;
        assert_eq!(day_ahead(&one, 1, day), day_ahead(&other, 1, day));
        let written = match draw.below(3) {
            0 => {
                assert_eq!(withdraw(&mut one, 0), withdraw(&mut other, 0));
                0
            }
            1 => {
                let answer = control(&mut one, day);
                assert_eq!(answer, control(&mut other, day));
                if answer.answer == 0 {
                    5
                } else {
                    0
                }
            }
            _ => {
                let answer = post(&mut one, 1, day, 6, 2, 10);
                assert_eq!(answer, post(&mut other, 1, day, 6, 2, 10));
                if answer.answer == 0 {
                    5
                } else {
                    0
                }
            }
        };
        assert_eq!(one[..used + written], other[..used + written]);
        assert_eq!(one[used + written..], behind.0[written..]);
        assert_eq!(other[used + written..], behind.1[written..]);
    }
}

/// A book of entries about a month's ends, some withdrawn, some cancelled by controls.
fn drawn_month(draw: &mut Draw, month: u32) -> Vec<u32> {
    let first = first_day(month).day;
    let days = first_day(month + 1).day - first;
    let mut words = vec![0; 3 + 5 * 60];
    open(&mut words, 100, draw.below(3) as u32 * 1_000);
    let day = |draw: &mut Draw| match draw.below(6) {
        0 => first.saturating_sub(1),
        1 => (first + days).min(LAST_DAY),
        2 => first,
        3 => first + days - 1,
        _ => first + draw.below(u64::from(days)) as u32,
    };
    for number in 0..draw.below(100) {
        let e = drawn_record(draw);
        let party = [1, 2, 3, 998, 999][draw.below(5) as usize];
        let other = [0, 1, 2, 3, 998, 999][draw.below(6) as usize];
        let (entry_type, counterparty) = match draw.below(2) {
            0 => (6, other),
            _ => (e.entry_type, e.counterparty),
        };
        let day = day(draw);
        post(&mut words, party, day, entry_type, counterparty, e.amount);
        if draw.below(6) == 0 {
            withdraw(&mut words, draw.below(number + 1) as u32);
        }
        if draw.below(12) == 0 {
            control(&mut words, day);
        }
    }
    words
}

/// Document 02, T-01: each total is the sum over the book's standing records of its type in the month,
/// and that of bilateral sales is all parties' bilateral purchases (B) plus exports. Each line is the
/// parties' tallies, and the totals are those of the lines.
#[test]
fn totals_of_a_month_report() {
    let mut draw = Draw(3);
    let (mut cancelled, mut exported, mut bought) = (0, 0, 0);
    for round in 0..50 {
        let month = match round {
            0 => 0,
            1 => 1_199,
            2 => 1,
            _ => draw.below(1_200) as u32,
        };
        let words = drawn_month(&mut draw, month);
        let report = month_report(&words, month);
        assert_eq!(report.answer, 0);
        let first = first_day(month).day;
        let after = first_day(month + 1).day;
        assert_eq!((report.first_day, report.days), (first, after - first));
        let (lines, totals) = report.lines.split_at(report.days as usize);
        let records = decode(&words).unwrap().entries;
        let of_month = |e: &&Entry| e.status == STANDING && e.day >= first && e.day < after;
        let sum = |of: &dyn Fn(&Entry) -> bool| -> u64 {
            records.iter().filter(of_month).filter(|e| of(e)).map(|e| e.amount).sum()
        };
        for place in 0..21 {
            let entry_type = if place < 20 { place as u32 + 1 } else { 22 };
            assert_eq!(totals[0][place], sum(&|e| e.entry_type == entry_type));
            assert_eq!(totals[0][place], lines.iter().map(|line| line[place]).sum());
        }
        assert!(totals[1..].iter().flatten().all(|sum| *sum == 0));

        // The purchases and the volumes of parties 1 to 999, day by day.
        let mut purchases = 0;
        for (day, line) in (first..after).zip(lines) {
            let (mut sums, mut of_day) = ([0; 17], 0);
            for party in 1..=LAST_PARTY {
                let tally = tally(&words, party, day);
                of_day += tally.bought;
                sums.iter_mut().zip(tally.sums).for_each(|(sum, own)| *sum += own);
            }
            let exports = sum(&|e| e.day == day && e.entry_type == 6 && e.counterparty == 0);
            assert_eq!(line[5], of_day + exports);
            sums[5] += exports;
            assert_eq!(line[..16], sums[..16]);
            assert_eq!(line[20], sums[16]);
            purchases += of_day;
        }
        let exports = sum(&|e| e.entry_type == 6 && e.counterparty == 0);
        assert_eq!(totals[0][5], purchases + exports);
        cancelled += records.iter().filter(|e| e.status == CANCELLED).count();
        exported += usize::from(exports > 0);
        bought += usize::from(purchases > 0);
    }
    assert!(cancelled > 20 && exported > 20 && bought > 20, "{cancelled} {exported} {bought}");
}
