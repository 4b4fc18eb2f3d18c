// The shortest round of each side: rounds of all sides in turn, so that a busy machine disturbs them alike.
use std::hint::black_box;
use std::time::{Duration, Instant};

// At least so long for each side, and at least so many rounds.
const TIME: Duration = Duration::from_millis(40);
const ROUNDS: usize = 64;

fn nanoseconds(began: Instant) -> f64 {
    began.elapsed().as_nanos() as f64
}

// What taking a time takes.
fn of_the_timer() -> f64 {
    (0..20).map(|_| nanoseconds(Instant::now())).fold(f64::INFINITY, f64::min)
}

// One round: the calls 0 to n - 1, `turns` times over. Its nanoseconds a call, and the answers.
pub fn round<R: Clone + Default>(
    n: usize,
    turns: usize,
    mut call: impl FnMut(usize) -> R,
) -> (f64, Vec<R>) {
    let mut answers = vec![R::default(); n];
    let timer = of_the_timer();
    let began = Instant::now();
    for _ in 0..turns {
        for (i, answer) in black_box(&mut answers).iter_mut().enumerate() {
            *answer = call(i);
        }
    }
    ((nanoseconds(began) - timer) / (n * turns) as f64, answers)
}

// A round so many frames further down: where the stack lies is drawn by the system for each run, and a short call may
// take twice as long at one place as at another.
fn further_down(frames: usize, round: &mut dyn FnMut() -> f64) -> f64 {
    let _frame = black_box([0u8; 48]);
    match frames {
        0 => round(),
        _ => black_box(further_down(frames - 1, round)),
    }
}

pub type Side<'a, S, R> = &'a dyn Fn(&mut S) -> (f64, Vec<R>);

// The shortest time of each side. Before that they are compared: the answers, and what the calls leave.
pub fn shortest<S: Clone + PartialEq, R: PartialEq, const N: usize>(
    row: &str,
    lent: &mut S,
    sides: [Side<S, R>; N],
) -> [f64; N] {
    let (_, answers) = sides[0](lent);
    let left = lent.clone();
    for (k, side) in sides.iter().enumerate() {
        assert!(side(lent).1 == answers && *lent == left, "{row}: side {k} differs");
    }
    let (mut best, mut rounds, began) = ([f64::INFINITY; N], 0, Instant::now());
    while rounds < ROUNDS || began.elapsed() < TIME * N as u32 {
        for (best, side) in best.iter_mut().zip(sides) {
            *best = best.min(further_down(rounds % ROUNDS, &mut || side(lent).0));
        }
        rounds += 1;
    }
    best
}
