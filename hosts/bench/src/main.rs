// Each call of the engine, on words and on bytes, beside plain Rust of the same algorithm class, in place and copying:
// the same inputs, in one run. Answers and books are compared before a row is printed.
mod books;
mod engine;
mod measure;

use books::{Drawn, Tables, DAY, FULL, MONTH};
use engine::{fanzsoreb_ceiling, fanzsoreb_first_day, fanzsoreb_month, fanzsoreb_month_words};
use measure::{round, shortest, Side};
use peers::{copying, in_place};

const SIZES: [usize; 5] = [0, 25, 100, 768, 3072];

struct Row {
    name: &'static str,
    size: usize,
    // words, bytes, in place, copying, in nanoseconds
    times: [f64; 4],
}

fn bytes(words: &mut [u32]) -> &mut [u8] {
    // every u32 is four bytes of any values
    unsafe { std::slice::from_raw_parts_mut(words.as_mut_ptr().cast(), 4 * words.len()) }
}

// The books of a row.
struct Books {
    size: usize,
    drawn: Vec<Drawn>,
    // how many words a call may change
    changed: usize,
    // how often a round makes each call
    turns: usize,
}

impl Books {
    fn written(size: usize, drawn: Vec<Drawn>) -> Books {
        Books { size, drawn, changed: FULL.min(3 + 5 * (size + 1)), turns: 1 }
    }

    // A call that changes nothing can be made again.
    fn read(size: usize, drawn: Vec<Drawn>) -> Books {
        Books { turns: if size == 0 { 8 } else { 1 }, ..Books::written(size, drawn) }
    }

    // An opening leaves the same book each time: of 2 ns each, so many are made that the timer's grain is no part of it.
    fn opened(size: usize) -> Books {
        let drawn = books::books(size);
        Books { turns: 2048 / drawn.len(), ..Books::written(size, drawn) }
    }

    fn lent(&self) -> Vec<Vec<u32>> {
        let full = |d: &Drawn| {
            let mut words = vec![0; FULL];
            words[..d.words.len()].copy_from_slice(&d.words);
            words
        };
        self.drawn.iter().map(full).collect()
    }

    // A round on books as drawn: what a call may change is put back outside the time, and so is in the cache.
    fn round<R: Clone + Default>(
        &self,
        lent: &mut [Vec<u32>],
        call: impl Fn(&mut [u32], &Drawn) -> R,
    ) -> (f64, Vec<R>) {
        for (words, drawn) in lent.iter_mut().zip(&self.drawn) {
            let kept = drawn.words.len().min(self.changed);
            words[..kept].copy_from_slice(&drawn.words[..kept]);
            words[kept..self.changed].fill(0);
        }
        round(lent.len(), self.turns, |i| call(&mut lent[i], &self.drawn[i]))
    }

    fn row<R: Clone + Default + PartialEq>(
        &self,
        name: &'static str,
        words: impl Fn(&mut [u32], &Drawn) -> R,
        in_bytes: impl Fn(&mut [u8], &Drawn) -> R,
        in_place: impl Fn(&mut [u32], &Drawn) -> R,
        copying: impl Fn(&mut [u8], &Drawn) -> R,
    ) -> Row {
        let sides: [Side<Vec<Vec<u32>>, R>; 4] = [
            &|lent| self.round(lent, &words),
            &|lent| self.round(lent, |b, d| in_bytes(bytes(b), d)),
            &|lent| self.round(lent, &in_place),
            &|lent| self.round(lent, |b, d| copying(bytes(b), d)),
        ];
        let times = shortest(name, &mut self.lent(), sides);
        Row { name, size: self.size, times }
    }
}

// A call's figures on each side; those of Rust are after them where they differ.
macro_rules! row {
    ($books:expr, $name:expr, $call:ident; $d:pat => $($given:expr),*) => {
        row!($books, $name, $call; $d => $($given),*; $($given),*)
    };
    ($books:expr, $name:expr, $call:ident; $d:pat => $($given:expr),*; $($rust:expr),*) => {
        $books.row(
            $name,
            |b, $d| unsafe { engine::words::$call(b.as_mut_ptr(), b.len(), $($given),*) },
            |b, $d| unsafe { engine::bytes::$call(b.as_mut_ptr(), b.len(), $($given),*) },
            |b, $d| in_place::$call(b, $($rust),*),
            |b, $d| copying::$call(b, $($rust),*),
        )
    };
}

fn reading(size: usize) -> Vec<Row> {
    let books = Books::read(size, books::books(size));
    let months = Books::read(size, books::months(size));
    vec![
        row!(books, "is it a book", is_book; _ =>),
        row!(books, "number of entries", count; _ =>),
        row!(books, "one entry", entry; d => d.number),
        row!(books, "tally", tally; d => d.party, DAY),
        row!(books, "day-ahead balance", day_ahead; d => d.party, DAY),
        row!(books, "delivery balance", delivery; d => d.party, DAY),
        // a plain supplier's
        row!(books, "collateral", collateral;
            d => d.party, DAY, 0, 0, 0, 0, 0, 1, 0, 0, 0, 0, 0, 0, 0, 0, 0, 0, 0, 1; d.party, DAY),
        row!(months, "month report", month_report; _ => MONTH),
    ]
}

fn writing(size: usize) -> Vec<Row> {
    let books = Books::written(size, books::books(size));
    let with_room = Books::written(size.min(3071), books::books(size.min(3071)));
    let files = Books::written(size, books::files(size));
    vec![
        row!(Books::opened(size), "open", open; _ => 105, 500_000),
        row!(with_room, "post", post; d => d.party, DAY, 6, 1 + d.party % 999, 5),
        row!(books, "withdraw", withdraw; d => d.number),
        row!(with_room, "control", control; _ => DAY),
        row!(files, "day file", read_file; d => d.file.as_ptr(), d.file.len(); &d.file),
    ]
}

fn month(hours: usize, rows: u32) -> Row {
    let tables = books::tables(hours, rows);
    let (n, turns) = (tables.len(), 1 + 10_000 / (hours * rows as usize + 10));
    let words = |i: usize| {
        let Tables { prices: p, imbalance: v, dm: d, .. } = &tables[i];
        let (p, hours, v, figures) = (p.as_ptr(), p.len(), v.as_ptr(), v.len());
        unsafe { fanzsoreb_month_words(p, hours, v, figures, rows, d.as_ptr(), d.len(), 0) }
    };
    let bytes = |i: usize| {
        let [p, v, d] = &tables[i].bytes;
        let (p, p_length, v, v_length) = (p.as_ptr(), p.len(), v.as_ptr(), v.len());
        unsafe { fanzsoreb_month(p, p_length, v, v_length, rows, d.as_ptr(), d.len(), 0) }
    };
    let in_place = |i: usize| {
        let Tables { prices, imbalance, dm, .. } = &tables[i];
        in_place::month(prices, imbalance, rows, dm, 0)
    };
    let copying = |i: usize| {
        let [prices, imbalance, dm] = &tables[i].bytes;
        copying::month(prices, imbalance, rows, dm, 0)
    };
    let sides: [Side<_, _>; 4] = [
        &|_| round(n, turns, words),
        &|_| round(n, turns, bytes),
        &|_| round(n, turns, in_place),
        &|_| round(n, turns, copying),
    ];
    let times = shortest("month step", &mut (), sides);
    Row { name: "month step (figures)", size: hours * rows as usize, times }
}

fn print_rows(rows: &[Row]) {
    println!("| Call | Entries | Words, µs | Bytes, µs | Rust in place, µs | Rust copying, µs | Words / in place | Bytes / in place |");
    println!("|---|---|---|---|---|---|---|---|");
    for Row { name, size, times } in rows {
        let [w, b, i, c] = times.map(|t| t / 1000.0);
        let (words, bytes) = (w / i, b / i);
        println!(
            "| {name} | {size} | {w:.3} | {b:.3} | {i:.3} | {c:.3} | {words:.2} | {bytes:.2} |"
        );
    }
}

// The engine's time at each size over its time at 25 entries.
fn print_growth(rows: &[Row]) {
    println!("\n| Call | Words: 25 | 100 | 768 | 3,072 | Bytes: 25 | 100 | 768 | 3,072 |\n|---|---|---|---|---|---|---|---|---|");
    for first in rows.iter().filter(|r| r.size == 25) {
        print!("| {} |", first.name);
        for side in 0..2 {
            for r in rows.iter().filter(|r| r.name == first.name && r.size > 0) {
                print!(" {:.2} |", r.times[side] / first.times[side]);
            }
        }
        println!();
    }
}

// A thousand calls on figures alone.
fn print_figures<R: Clone + Default + PartialEq>(
    name: &str,
    engine: impl Fn(usize) -> R,
    rust: impl Fn(usize) -> R,
) {
    let sides: [Side<_, _>; 2] = [&|_| round(1000, 1, &engine), &|_| round(1000, 1, &rust)];
    let [engine, rust] = shortest(name, &mut (), sides);
    println!("| {name} | {engine:.2} | {rust:.2} | {:.2} |", engine / rust);
}

fn main() {
    let mut rows = Vec::new();
    for size in SIZES {
        rows.extend(reading(size));
        rows.extend(writing(size));
    }
    rows.extend([(0, 1), (745, 1), (745, 16), (745, 64)].map(|(hours, rows)| month(hours, rows)));
    print_rows(&rows);
    print_growth(&rows);

    let mut d = books::Draw::new(0);
    let offers: Vec<u32> = (0..1000).map(|_| d.next(1_000_000_000)).collect();
    let months: Vec<u32> = (0..1000).map(|_| d.next(4_800)).collect();
    println!("\n| Call | Engine, µs | Rust, µs | Ratio |\n|---|---|---|---|");
    print_figures(
        "1,000 sales ceilings",
        |i| unsafe { fanzsoreb_ceiling(offers[i], offers[i] / 2, offers[i] / 3, offers[i] / 5) },
        |i| in_place::ceiling(offers[i], offers[i] / 2, offers[i] / 3, offers[i] / 5),
    );
    print_figures(
        "1,000 first days",
        |i| unsafe { fanzsoreb_first_day(months[i]) },
        |i| in_place::first_day(months[i]),
    );
}
