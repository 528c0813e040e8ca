//! Makes a failing input small: parts are taken out while it still fails.

use std::time::{Duration, Instant};

/// No input is worth more time than this.
const PATIENCE: Duration = Duration::from_secs(8);

/// The smallest input found. `fails` is asked at most `tries` times.
pub fn shrink(input: &[u8], tries: usize, fails: impl FnMut(&[u8]) -> bool) -> Vec<u8> {
    let mut search = Search { best: input.to_vec(), left: tries, until: Instant::now() + PATIENCE, fails };
    loop {
        let before = search.best.len();
        search.without_parts(|input| input.split_inclusive(|&byte| byte == b'\n').map(<[u8]>::to_vec).collect());
        search.without_parts(|input| input.iter().map(|&byte| vec![byte]).collect());
        search.without_brackets();
        if search.best.len() == before || search.is_over() {
            return search.best;
        }
    }
}

struct Search<F> {
    best: Vec<u8>,
    left: usize,
    until: Instant,
    fails: F,
}

impl<F: FnMut(&[u8]) -> bool> Search<F> {
    fn is_over(&self) -> bool {
        self.left == 0 || Instant::now() > self.until
    }

    /// Takes the smaller input where it still fails.
    fn attempt(&mut self, smaller: Vec<u8>) -> bool {
        if self.is_over() {
            return false;
        }
        self.left -= 1;
        let still = (self.fails)(&smaller);
        if still {
            self.best = smaller;
        }
        still
    }

    /// Runs of parts go, long runs first.
    fn without_parts(&mut self, parts_of: fn(&[u8]) -> Vec<Vec<u8>>) {
        let mut parts = parts_of(&self.best);
        let mut run = parts.len().div_ceil(2);
        while run > 0 && !self.is_over() {
            let mut from = 0;
            while from < parts.len() && !self.is_over() {
                let until = (from + run).min(parts.len());
                let kept = [&parts[..from], &parts[until..]].concat();
                if self.attempt(kept.concat()) {
                    parts = kept;
                } else {
                    from += run;
                }
            }
            run /= 2;
        }
    }

    /// A bracket goes together with one behind it.
    fn without_brackets(&mut self) {
        let mut open = 0;
        while open < self.best.len() && !self.is_over() {
            let input = self.best.clone();
            let mut closing = (open + 1..input.len()).filter(|&place| input[open] == b'(' && input[place] == b')');
            let taken = closing
                .any(|close| self.attempt([&input[..open], &input[open + 1..close], &input[close + 1..]].concat()));
            if !taken {
                open += 1;
            }
        }
    }
}
