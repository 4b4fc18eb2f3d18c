//! Memory to lend to the engine.
//!
//! An arena lies between two pages that nobody may touch. A lent slice stands
//! flush with the page behind it, flush with the page before it, or between
//! with any alignment; the bytes around it are canaries. A read or write past
//! either page's edge ends the run, a write to a canary is found afterwards.

/// Where in its arena a slice stands.
#[derive(Clone, Copy, Debug)]
pub enum Place {
    Front,
    Back,
    /// So many bytes further than the canaries before it.
    Between(usize),
}

const CANARIES: usize = 96;
const MOST_SHIFT: usize = 16;

pub struct Arena {
    pages: Pages,
    at: usize,
    length: usize,
}

fn canary(at: usize) -> u8 {
    (at.wrapping_mul(0x9E37) >> 5) as u8 ^ 0xA5
}

impl Arena {
    /// An arena for slices of at most so many bytes.
    pub fn new(most: usize) -> Arena {
        let mut arena =
            Arena { pages: Pages::new(most + 2 * CANARIES + MOST_SHIFT), at: 0, length: 0 };
        let whole = arena.pages.bytes_mut();
        for (at, byte) in whole.iter_mut().enumerate() {
            *byte = canary(at);
        }
        arena
    }

    /// Puts a slice into the arena; what stood there before becomes canaries again.
    pub fn lend(&mut self, bytes: &[u8], place: Place) {
        let (at, length) = (self.at, self.length);
        let whole = self.pages.bytes_mut();
        let last = whole.len() - bytes.len();
        for i in at..at + length {
            whole[i] = canary(i);
        }
        self.at = match place {
            Place::Front => 0,
            Place::Back => last,
            Place::Between(shift) => CANARIES + shift.min(MOST_SHIFT),
        };
        self.length = bytes.len();
        whole[self.at..self.at + bytes.len()].copy_from_slice(bytes);
    }

    pub fn bytes(&self) -> &[u8] {
        &self.pages.bytes()[self.at..self.at + self.length]
    }

    pub fn bytes_mut(&mut self) -> &mut [u8] {
        let (at, length) = (self.at, self.length);
        &mut self.pages.bytes_mut()[at..at + length]
    }

    /// The first canary near the slice that is not what it was, counted from
    /// the slice's first byte. It is mended, so that it is told once.
    pub fn broken_canary(&mut self) -> Option<isize> {
        let (at, end) = (self.at, self.at + self.length);
        let whole = self.pages.bytes_mut();
        let before = at.saturating_sub(CANARIES)..at;
        let behind = end..(end + CANARIES).min(whole.len());
        let mut first = None;
        for i in before.chain(behind) {
            if whole[i] != canary(i) {
                whole[i] = canary(i);
                if first.is_none() {
                    first = Some(i as isize - at as isize);
                }
            }
        }
        first
    }
}

#[cfg(target_os = "linux")]
mod pages {
    use std::ffi::c_void;

    extern "C" {
        fn mmap(
            at: *mut c_void,
            length: usize,
            protection: i32,
            flags: i32,
            file: i32,
            offset: i64,
        ) -> *mut c_void;
        fn mprotect(at: *mut c_void, length: usize, protection: i32) -> i32;
        fn munmap(at: *mut c_void, length: usize) -> i32;
        fn sysconf(name: i32) -> i64;
    }

    const NONE: i32 = 0;
    const READ_WRITE: i32 = 1 | 2;
    const PRIVATE_ANONYMOUS: i32 = 0x02 | 0x20;
    const PAGE_SIZE: i32 = 30;

    /// Whole pages with an untouchable page on either side.
    pub struct Pages {
        base: *mut u8,
        page: usize,
        length: usize,
    }

    impl Pages {
        pub fn new(most: usize) -> Pages {
            unsafe {
                let page = sysconf(PAGE_SIZE) as usize;
                let length = most.div_ceil(page) * page;
                let whole = length + 2 * page;
                let base = mmap(std::ptr::null_mut(), whole, NONE, PRIVATE_ANONYMOUS, -1, 0);
                assert!(base as isize != -1, "no memory");
                let inner = base.cast::<u8>().add(page);
                assert_eq!(mprotect(inner.cast(), length, READ_WRITE), 0);
                Pages { base: base.cast(), page, length }
            }
        }

        pub fn bytes(&self) -> &[u8] {
            unsafe { std::slice::from_raw_parts(self.base.add(self.page), self.length) }
        }

        pub fn bytes_mut(&mut self) -> &mut [u8] {
            unsafe { std::slice::from_raw_parts_mut(self.base.add(self.page), self.length) }
        }
    }

    impl Drop for Pages {
        fn drop(&mut self) {
            unsafe {
                munmap(self.base.cast(), self.length + 2 * self.page);
            }
        }
    }
}

#[cfg(not(target_os = "linux"))]
mod pages {
    /// Canaries only, where pages cannot be guarded.
    pub struct Pages(Vec<u8>);

    impl Pages {
        pub fn new(most: usize) -> Pages {
            Pages(vec![0; most])
        }

        pub fn bytes(&self) -> &[u8] {
            &self.0
        }

        pub fn bytes_mut(&mut self) -> &mut [u8] {
            &mut self.0
        }
    }
}

use pages::Pages;
