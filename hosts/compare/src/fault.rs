//! What is printed when the engine does not come back: a touched guard page, an
//! abort, a call without end. The last line is still a count.

use std::sync::atomic::{AtomicBool, AtomicU64, AtomicUsize, Ordering::Relaxed};

static SEED: AtomicU64 = AtomicU64::new(0);
static ROUND: AtomicU64 = AtomicU64::new(0);
static STEP: AtomicU64 = AtomicU64::new(0);
static CALL: AtomicUsize = AtomicUsize::new(0);
static CALL_LENGTH: AtomicUsize = AtomicUsize::new(0);
static WORDS: AtomicBool = AtomicBool::new(false);
static PASSED: AtomicU64 = AtomicU64::new(0);
static FAILED: AtomicU64 = AtomicU64::new(0);

/// The round that is about to be run.
pub fn at_round(seed: u64, call: &'static str, round: u64) {
    SEED.store(seed, Relaxed);
    CALL.store(call.as_ptr() as usize, Relaxed);
    CALL_LENGTH.store(call.len(), Relaxed);
    ROUND.store(round, Relaxed);
    STEP.store(0, Relaxed);
}

/// Whether the call that is about to be made is the one on words.
pub fn lends(words: bool) {
    WORDS.store(words, Relaxed);
}

/// One more call of the round has been compared.
pub fn counted(failed: bool) {
    STEP.fetch_add(1, Relaxed);
    if failed {
        FAILED.fetch_add(1, Relaxed);
    } else {
        PASSED.fetch_add(1, Relaxed);
    }
}

#[cfg(target_os = "linux")]
mod signals {
    use super::*;

    extern "C" {
        fn sigaction(signal: i32, new: *const Action, old: *mut Action) -> i32;
        fn write(file: i32, bytes: *const u8, length: usize) -> isize;
        fn _exit(status: i32) -> !;
        fn alarm(seconds: u32) -> u32;
    }

    #[repr(C)]
    struct Action {
        handler: usize,
        mask: [u64; 16],
        flags: i32,
        restorer: usize,
    }

    const ON_STACK: i32 = 0x0800_0000;
    /// Illegal instruction, trap, abort, bus, arithmetic, segment, alarm.
    const SIGNALS: [i32; 7] = [4, 5, 6, 7, 8, 11, 14];

    /// A text put together without memory of its own.
    struct Text {
        bytes: [u8; 512],
        length: usize,
    }

    impl Text {
        fn text(&mut self, text: &[u8]) {
            for byte in text {
                if self.length < self.bytes.len() {
                    self.bytes[self.length] = *byte;
                    self.length += 1;
                }
            }
        }

        fn number(&mut self, mut number: u64) {
            let mut digits = [0; 20];
            let mut at = 20;
            loop {
                at -= 1;
                digits[at] = b'0' + (number % 10) as u8;
                number /= 10;
                if number == 0 {
                    break;
                }
            }
            self.text(&digits[at..]);
        }
    }

    extern "C" fn tell(signal: i32) {
        let (at, length) = (CALL.load(Relaxed), CALL_LENGTH.load(Relaxed));
        let call = if at == 0 {
            b"(none yet)"
        } else {
            unsafe { std::slice::from_raw_parts(at as *const u8, length) }
        };
        let mut text = Text { bytes: [0; 512], length: 0 };
        text.text(b"\nDIFFERENCE the engine did not come back (signal ");
        text.number(signal as u64);
        text.text(b"): call ");
        text.text(call);
        if WORDS.load(Relaxed) {
            text.text(b" on words");
        }
        text.text(b", seed ");
        text.number(SEED.load(Relaxed));
        text.text(b", round ");
        text.number(ROUND.load(Relaxed));
        text.text(b", step ");
        text.number(STEP.load(Relaxed));
        text.text(b"\n  again, with its inputs: compare --call ");
        text.text(call);
        text.text(b" --seed ");
        text.number(SEED.load(Relaxed));
        text.text(b" --only ");
        text.number(ROUND.load(Relaxed));
        text.text(b"\n");
        text.number(PASSED.load(Relaxed));
        text.text(b" passed, ");
        text.number(FAILED.load(Relaxed) + 1);
        text.text(b" failed\n");
        unsafe {
            write(1, text.bytes.as_ptr(), text.length);
            _exit(1);
        }
    }

    pub fn watch() {
        let action = Action {
            handler: tell as extern "C" fn(i32) as usize,
            mask: [0; 16],
            flags: ON_STACK,
            restorer: 0,
        };
        for signal in SIGNALS {
            unsafe {
                sigaction(signal, &action, std::ptr::null_mut());
            }
        }
    }

    pub fn limit(seconds: u32) {
        unsafe {
            alarm(seconds);
        }
    }
}

#[cfg(not(target_os = "linux"))]
mod signals {
    pub fn watch() {}
    pub fn limit(_seconds: u32) {}
}

pub use signals::{limit, watch};
