//! Counts of what was compared, a line for each call.

use crate::call::{Answer, Call};
use crate::met::met;
use std::collections::BTreeMap;
use std::fmt;

/// The counts of one call.
#[derive(Default)]
pub struct Counts {
    pub compared: u64,
    pub failed: u64,
    accepted: u64,
    refused: BTreeMap<u32, u64>,
    met: BTreeMap<&'static str, u64>,
}

impl Counts {
    /// A comparison without a difference.
    pub fn alike(&mut self, call: &Call, book: &[u8], answer: &Answer) {
        self.compared += 1;
        match answer.cause() {
            0 => self.accepted += 1,
            cause => *self.refused.entry(cause).or_insert(0) += 1,
        }
        for label in met(call, book, answer) {
            *self.met.entry(label).or_insert(0) += 1;
        }
    }

    /// A comparison of the program's output.
    pub fn alike_output(&mut self, cause: u32) {
        self.compared += 1;
        match cause {
            0 => self.accepted += 1,
            cause => *self.refused.entry(cause).or_insert(0) += 1,
        }
    }

    pub fn different(&mut self) {
        self.compared += 1;
        self.failed += 1;
    }

    /// The causes that were seen.
    #[cfg(test)]
    pub fn causes(&self) -> impl Iterator<Item = u32> + '_ {
        self.refused.keys().copied()
    }

    /// How often this was met.
    #[cfg(test)]
    pub fn met(&self, label: &str) -> u64 {
        self.met.get(label).copied().unwrap_or(0)
    }

    pub fn passed(&self) -> u64 {
        self.compared - self.failed
    }
}

impl fmt::Display for Counts {
    fn fmt(&self, out: &mut fmt::Formatter) -> fmt::Result {
        write!(out, "{} compared, {} accepted", self.compared, self.accepted)?;
        if !self.refused.is_empty() {
            let parts: Vec<String> =
                self.refused.iter().map(|(cause, n)| format!("{cause}: {n}")).collect();
            write!(out, "; refused by {}", parts.join(", "))?;
        }
        if !self.met.is_empty() {
            let parts: Vec<String> =
                self.met.iter().map(|(label, n)| format!("{label} {n}")).collect();
            write!(out, "; {}", parts.join(", "))?;
        }
        if self.failed > 0 {
            write!(out, "; DIFFERENT {}", self.failed)?;
        }
        Ok(())
    }
}
