//! Counts cases, prints one line for each group and the first failures whole.

use crate::rng::Rng;
use std::time::Instant;

/// Failures beyond this number are counted but not printed.
const PRINTED: usize = 8;

pub struct Tally {
    pub passed: usize,
    pub failed: usize,
    pub seed: u64,
    /// Prints nothing and is content with the first failure.
    hunting: bool,
}

impl Tally {
    pub fn new(seed: u64) -> Tally {
        Tally { passed: 0, failed: 0, seed, hunting: false }
    }

    /// For a hunt after a planted fault.
    pub fn hunting(seed: u64) -> Tally {
        Tally { passed: 0, failed: 0, seed, hunting: true }
    }

    /// Whether a hunt has found what it was after.
    pub fn is_over(&self) -> bool {
        self.hunting && self.failed > 0
    }

    /// A source of random numbers that the seed and the title fix.
    pub fn rng(&self, title: &str) -> Rng {
        let mixed = title.bytes().fold(self.seed, |mixed, byte| (mixed ^ byte as u64).wrapping_mul(0x100_0000_01B3));
        Rng::new(mixed)
    }

    pub fn group(&mut self, title: &str, cases: impl FnOnce(&mut Tally)) {
        if self.is_over() {
            return;
        }
        let (passed, failed, since) = (self.passed, self.failed, Instant::now());
        cases(self);
        let (passed, failed) = (self.passed - passed, self.failed - failed);
        if !self.hunting && passed + failed > 0 {
            let seconds = since.elapsed().as_secs_f64();
            println!("{title}: {passed} passed, {failed} failed ({seconds:.1} s)");
        }
    }

    pub fn skip(&self, title: &str, why: &str) {
        if !self.hunting {
            println!("{title}: skipped, {why}");
        }
    }

    /// One case.
    pub fn check(&mut self, held: bool, report: impl FnOnce() -> String) {
        if held {
            self.passed += 1;
            return;
        }
        self.failed += 1;
        if !self.hunting && self.failed <= PRINTED {
            println!("FAILED (seed {}) {}", self.seed, report());
        }
    }

    /// One case that two answers are the same.
    pub fn same<T: PartialEq + std::fmt::Debug>(&mut self, title: &str, expected: &T, found: &T) {
        self.check(expected == found, || format!("{title}\n  expected: {expected:?}\n  found:    {found:?}"));
    }

    /// Whether a failure would still be printed, so that it is worth the
    /// time to make it small.
    pub fn prints_failures(&self) -> bool {
        !self.hunting && self.failed < PRINTED
    }
}

/// Bytes as text, with escapes; a long run of one byte is told by its
/// length, and what is too long is cut.
pub fn shown(bytes: &[u8]) -> String {
    let (longest, long_run) = (800, 24);
    let mut text = String::new();
    for run in bytes.chunk_by(|one, other| one == other) {
        if run.len() >= long_run {
            text += &format!("<{} times {}>", run.len(), run[..1].escape_ascii());
        } else {
            text += &run.escape_ascii().to_string();
        }
        if text.len() > longest {
            return format!("\"{text}...\" ({} bytes)", bytes.len());
        }
    }
    format!("\"{text}\"")
}

/// Bytes in hexadecimal; long ones are cut.
pub fn hex(bytes: &[u8]) -> String {
    let longest = 200;
    let digits: Vec<String> = bytes.iter().take(longest).map(|byte| format!("{byte:02X}")).collect();
    let more = if bytes.len() > longest { " ..." } else { "" };
    format!("{}{more} ({} bytes)", digits.join(" "), bytes.len())
}
