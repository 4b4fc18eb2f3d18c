// A Rust host: the same steps as example.c.
#[repr(C)]
struct Posted {
    answer: u32,
    number: u32,
}

#[repr(C)]
struct Counted {
    answer: u32,
    count: u32,
}

#[repr(C)]
struct Balance {
    answer: u32,
    balance: i64,
}

#[repr(C)]
struct Collateral {
    answer: u32,
    margin: u64,
    trading: u64,
    imbalance: u64,
    risk: u64,
    yek: u64,
    total: u64,
}

#[allow(dead_code)]
extern "C" {
    fn fanzsoreb_version() -> u32;
    fn fanzsoreb_open_default_words(book: *mut u32, words: usize) -> u32;
    fn fanzsoreb_post_words(
        book: *mut u32, words: usize, party: u32, day: u32, entry_type: u32, counterparty: u32, amount: u64,
    ) -> Posted;
    fn fanzsoreb_count_words(book: *const u32, words: usize) -> Counted;
    fn fanzsoreb_day_ahead_words(book: *const u32, words: usize, party: u32, day: u32) -> Balance;
    fn fanzsoreb_delivery_words(book: *const u32, words: usize, party: u32, day: u32) -> Balance;
    fn fanzsoreb_detected(balance: i64) -> u32;
    #[allow(clippy::too_many_arguments)]
    fn fanzsoreb_collateral_words(
        book: *const u32, words: usize, party: u32, day: u32, licence: u32, capacity: u64, nonbusiness: u32,
        holiday: u32, defaults: u32, responsible: u32, aosmf1: u64, aedm1: i64, aosmf2: u64, aedm2: i64,
        aosmf3: u64, aedm3: i64, used: u32, rk: u32, rt: u64, yt: u64, score: u32, best: u32,
    ) -> Collateral;
}

// A book that owns its words. Every call may be made with any figures.
struct Book(Vec<u32>);

impl Book {
    fn open() -> (Book, u32) {
        let mut words = vec![0u32; 15363];
        let answer = unsafe { fanzsoreb_open_default_words(words.as_mut_ptr(), words.len()) };
        (Book(words), answer)
    }

    fn post(&mut self, party: u32, day: u32, entry_type: u32, counterparty: u32, amount: u64) -> Posted {
        unsafe { fanzsoreb_post_words(self.0.as_mut_ptr(), self.0.len(), party, day, entry_type, counterparty, amount) }
    }

    fn count(&self) -> u32 {
        unsafe { fanzsoreb_count_words(self.0.as_ptr(), self.0.len()).count }
    }

    fn balances(&self, party: u32, day: u32) -> (i64, i64) {
        let (at, words) = (self.0.as_ptr(), self.0.len());
        let ahead = unsafe { fanzsoreb_day_ahead_words(at, words, party, day) };
        let delivery = unsafe { fanzsoreb_delivery_words(at, words, party, day) };
        (ahead.balance, delivery.balance)
    }

    // A plain supplier's collateral with a YEK amount and a credit score.
    fn collateral(&self, party: u32, day: u32, yt: u64, score: u32, best: u32) -> Collateral {
        unsafe {
            fanzsoreb_collateral_words(
                self.0.as_ptr(), self.0.len(), party, day, 0, 0, 0, 0, 0, 1, 0, 0, 0, 0, 0, 0, 0, 0, 0, yt, score, best,
            )
        }
    }
}

fn main() {
    let (mut book, opened) = Book::open();
    println!("version {}, open {}", unsafe { fanzsoreb_version() }, opened);
    let sale = book.post(1, 9000, 6, 2, 700000);
    let program = book.post(1, 9000, 12, 0, 500000);
    println!("entries {} and {} of {}", sale.number, program.number, book.count());
    for party in 1..=2 {
        let (ahead, delivery) = book.balances(party, 9000);
        let word = if unsafe { fanzsoreb_detected(ahead) } == 1 { "detected" } else { "clear" };
        println!("party {}: day-ahead {}, delivery {}, {}", party, ahead, delivery, word);
    }
    let c = book.collateral(1, 9001, 1000, 1, 3);
    println!("margin {}, YEK {}, total {}", c.margin, c.yek, c.total);
    let refused = book.post(1000, 9000, 1, 0, 1);
    println!("refused {}: party outside 1 to 999", refused.answer);
}
