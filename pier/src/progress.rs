//! A line that tells how far a long input is, written over itself.

use crate::files;
use crate::words::count;
use std::io::{self, IsTerminal};
use std::time::{Duration, Instant};

pub struct Progress {
    plans: usize,
    bytes: u64,
    length: Option<u64>,
    shown: bool,
    due: Option<Instant>,
}

impl Progress {
    const PAUSE: Duration = Duration::from_millis(500);

    /// Asked for, it is shown at once and always; otherwise from half a second
    /// on, where standard error is a terminal and replies go elsewhere.
    pub fn new(length: Option<u64>, asked: bool) -> Progress {
        let terminal = io::stderr().is_terminal() && !io::stdout().is_terminal();
        let due = if asked { Some(Instant::now()) } else { terminal.then(|| Instant::now() + Self::PAUSE) };
        Progress { plans: 0, bytes: 0, length, shown: false, due }
    }

    pub fn judged(&mut self, plans: usize, bytes: usize) {
        self.plans += plans;
        self.bytes += bytes as u64;
        if self.due.is_some_and(|due| Instant::now() >= due) {
            files::complain(&format!("\r{}", self.line()));
            self.shown = true;
            self.due = Some(Instant::now() + Self::PAUSE);
        }
    }

    fn line(&self) -> String {
        let plans = count(self.plans, "plan");
        match self.length {
            Some(length) if length > 0 => format!("{plans} judged, {} %", (self.bytes.min(length) * 100) / length),
            _ => format!("{plans} judged"),
        }
    }

    pub fn end(&self) {
        if self.shown {
            files::complain(&format!("\r{}\n", self.line()));
        }
    }
}

#[cfg(test)]
mod tests {
    use super::*;

    #[test]
    fn progress_in_words() {
        let mut progress = Progress { plans: 0, bytes: 0, length: Some(6), shown: false, due: None };
        progress.judged(1, 3);
        assert_eq!(progress.line(), "1 plan judged, 50 %");
        progress.length = None;
        assert_eq!(progress.line(), "1 plan judged");
    }
}
