//! The proved functions, and the only `unsafe` of this program.
//!
//! They come from the static library `capi`. A slice is passed as its pointer
//! and then its length; the number of a refusal, or 0, is handed back, and the
//! rest of the answer stands in three lent numbers. The feature `reference`
//! puts the second program of ../tests in their place.

/// What loading answers.
#[derive(Clone, Copy, PartialEq, Eq, Debug)]
pub enum Loaded {
    Card { letters: usize, states: usize },
    Refused(u64),
}

/// What judging answers. `Unfinished` has the fewest letters after which the plan
/// is allowed; `UnknownLetter` is refusal 27 with the letters before it.
#[derive(Clone, Copy, PartialEq, Eq, Debug)]
pub enum Judged {
    Allowed,
    Unfinished(u64),
    Hopeless(u64),
    UnknownLetter { before: u64 },
    Refused(u64),
}

/// What the search for the shortest stretch that lies inside no allowed plan
/// answers; places are counted from 0.
#[derive(Clone, Copy, PartialEq, Eq, Debug)]
pub enum Shortest {
    /// The whole plan lies inside some allowed plan.
    None,
    At {
        start: usize,
        length: usize,
    },
    UnknownLetter {
        before: u64,
    },
    Refused(u64),
}

/// How many of all plans of a length get each reply.
#[derive(Clone, Copy, PartialEq, Eq, Debug)]
pub struct Figures {
    pub allowed: u64,
    pub unfinished: u64,
    pub hopeless: u64,
}

/// What compiling answers.
#[derive(Clone, PartialEq, Eq, Debug)]
pub enum Compiled {
    Card { bytes: Vec<u8>, peak: u64 },
    Refused { number: u64, line: u64 },
}

/// The longest card: 26 letters and 120 states.
pub const LONGEST_CARD: usize = 12 + 26 + 120 + 26 * 120;
/// The longest book.
pub const LONGEST_BOOK: usize = 16_384;

pub fn load(card: &[u8]) -> Loaded {
    let mut out = [0; 3];
    match (entries::load(card, &mut out), out) {
        (0, [letters, states, _]) => Loaded::Card { letters: letters as usize, states: states as usize },
        (number, _) => Loaded::Refused(number),
    }
}

/// A reply's numbers: refusal or 0, verdict, the letters owed or a place.
pub const REPLY: usize = 3;

fn judged(reply: [u64; REPLY]) -> Judged {
    match reply {
        [0, 1, _] => Judged::Allowed,
        [0, 0, owed] => Judged::Unfinished(owed),
        [0, _, place] => Judged::Hopeless(place),
        [27, _, before] => Judged::UnknownLetter { before },
        [number, ..] => Judged::Refused(number),
    }
}

/// The replies of one call.
pub struct Replies<'a>(std::slice::ChunksExact<'a, u64>);

impl Iterator for Replies<'_> {
    type Item = Judged;

    fn next(&mut self) -> Option<Judged> {
        self.0.next().map(|reply| judged([reply[0], reply[1], reply[2]]))
    }

    fn size_hint(&self) -> (usize, Option<usize>) {
        self.0.size_hint()
    }
}

impl ExactSizeIterator for Replies<'_> {}

/// Judges the plans of `plans`, one a line, as far as there is room for replies:
/// the bytes of those that were judged, and the replies; or the card's refusal.
pub fn judge_lines<'a>(card: &[u8], plans: &'a [u8], replies: &'a mut [u64]) -> Result<(&'a [u8], Replies<'a>), u64> {
    let mut out = [0; 3];
    match (entries::judge_lines(card, plans, replies, &mut out), out) {
        (0, [judged, bytes, _]) => {
            Ok((&plans[..bytes as usize], Replies(replies[..REPLY * judged as usize].chunks_exact(REPLY))))
        }
        (number, _) => Err(number),
    }
}

/// The shortest stretch of a plan that lies inside no allowed plan, of equal ones
/// the leftmost. The card is tested in each call.
pub fn shortest(card: &[u8], plan: &[u8]) -> Shortest {
    let mut out = [0; 3];
    match (entries::shortest(card, plan, &mut out), out) {
        (0, [0, ..]) => Shortest::None,
        (0, [_, start, length]) => Shortest::At { start: start as usize, length: length as usize },
        (27, [_, before, _]) => Shortest::UnknownLetter { before },
        (number, _) => Shortest::Refused(number),
    }
}

/// Counts all plans of so many letters, by reply; or the refusal of the card, or
/// of the length. The card is tested in each call.
pub fn count(card: &[u8], length: usize) -> Result<Figures, u64> {
    let mut out = [0; 3];
    match (entries::count(card, length, &mut out), out) {
        (0, [allowed, unfinished, hopeless]) => Ok(Figures { allowed, unfinished, hopeless }),
        (number, _) => Err(number),
    }
}

/// Compiles with buffers that are enough for every book; `None` where this
/// build holds no compiler.
pub fn compile(text: &[u8]) -> Option<Compiled> {
    let mut card = vec![0; LONGEST_CARD];
    let mut out = [0; 3];
    Some(match (entries::compile(text, &mut card, &mut out)?, out) {
        (0, [_, length, peak]) => {
            card.truncate(length as usize);
            Compiled::Card { bytes: card, peak }
        }
        (number, [line, ..]) => Compiled::Refused { number, line },
    })
}

/// Judges one plan without a line end.
#[cfg(test)]
pub fn judge(card: &[u8], plan: &[u8]) -> Judged {
    let line = [plan, b"\n"].concat();
    let mut replies = [0; REPLY];
    let (_, mut judged) = judge_lines(card, &line, &mut replies).expect("a card");
    judged.next().expect("a reply")
}

#[cfg(not(feature = "reference"))]
mod entries {
    extern "C" {
        fn pier_load(card: *const u8, card_length: usize, out: &mut [u64; 3]) -> u64;
        fn pier_judge_lines(
            card: *const u8,
            card_length: usize,
            plans: *const u8,
            plans_length: usize,
            replies: *mut u64,
            replies_length: usize,
            out: &mut [u64; 3],
        ) -> u64;
        fn pier_shortest(
            card: *const u8,
            card_length: usize,
            plan: *const u8,
            plan_length: usize,
            out: &mut [u64; 3],
        ) -> u64;
        fn pier_count(card: *const u8, card_length: usize, letters: usize, out: &mut [u64; 3]) -> u64;
        #[cfg(feature = "compile")]
        fn pier_compile(
            text: *const u8,
            text_length: usize,
            card: *mut u8,
            card_length: usize,
            low: *mut u8,
            low_length: usize,
            high: *mut u8,
            high_length: usize,
            registers: *mut u8,
            registers_length: usize,
            stack: *mut u8,
            stack_length: usize,
            rows: *mut u8,
            rows_length: usize,
            table: *mut u16,
            table_length: usize,
            work: *mut u16,
            work_length: usize,
            code: *mut u8,
            code_length: usize,
            out: &mut [u64; 3],
        ) -> u64;
    }

    /// What each work buffer is lent, in bytes: none needs more.
    #[cfg(feature = "compile")]
    const LENT: usize = 65_536;

    pub fn load(card: &[u8], out: &mut [u64; 3]) -> u64 {
        unsafe { pier_load(card.as_ptr(), card.len(), out) }
    }

    pub fn judge_lines(card: &[u8], plans: &[u8], replies: &mut [u64], out: &mut [u64; 3]) -> u64 {
        unsafe {
            pier_judge_lines(
                card.as_ptr(),
                card.len(),
                plans.as_ptr(),
                plans.len(),
                replies.as_mut_ptr(),
                replies.len(),
                out,
            )
        }
    }

    pub fn shortest(card: &[u8], plan: &[u8], out: &mut [u64; 3]) -> u64 {
        unsafe { pier_shortest(card.as_ptr(), card.len(), plan.as_ptr(), plan.len(), out) }
    }

    pub fn count(card: &[u8], length: usize, out: &mut [u64; 3]) -> u64 {
        unsafe { pier_count(card.as_ptr(), card.len(), length, out) }
    }

    #[cfg(not(feature = "compile"))]
    pub fn compile(_text: &[u8], _card: &mut [u8], _out: &mut [u64; 3]) -> Option<u64> {
        None
    }

    #[cfg(feature = "compile")]
    pub fn compile(text: &[u8], card: &mut [u8], out: &mut [u64; 3]) -> Option<u64> {
        let mut low = vec![0u8; LENT];
        let mut high = vec![0u8; LENT];
        let mut registers = vec![0u8; LENT];
        let mut stack = vec![0u8; LENT];
        let mut rows = vec![0u8; LENT];
        let mut table = vec![0u16; LENT / 2];
        let mut work = vec![0u16; LENT / 2];
        let mut code = vec![0u8; LENT];
        let number = unsafe {
            pier_compile(
                text.as_ptr(),
                text.len(),
                card.as_mut_ptr(),
                card.len(),
                low.as_mut_ptr(),
                low.len(),
                high.as_mut_ptr(),
                high.len(),
                registers.as_mut_ptr(),
                registers.len(),
                stack.as_mut_ptr(),
                stack.len(),
                rows.as_mut_ptr(),
                rows.len(),
                table.as_mut_ptr(),
                table.len(),
                work.as_mut_ptr(),
                work.len(),
                code.as_mut_ptr(),
                code.len(),
                out,
            )
        };
        Some(number)
    }
}

#[cfg(feature = "reference")]
mod entries {
    use reference::board::{self, Refused, Verdict};
    use reference::census;
    use reference::compile::{compile as reference_compile, Lent};
    use reference::factor;

    /// The number handed back, and three numbers in `out`.
    fn put(out: &mut [u64; 3], number: u64, values: [u64; 3]) -> u64 {
        *out = values;
        number
    }

    pub fn load(card: &[u8], out: &mut [u64; 3]) -> u64 {
        match board::load(card) {
            Ok(bodies) => put(out, 0, [bodies.letters.len() as u64, bodies.states() as u64, 0]),
            Err(number) => put(out, number.into(), [0; 3]),
        }
    }

    pub fn judge_lines(card: &[u8], plans: &[u8], replies: &mut [u64], out: &mut [u64; 3]) -> u64 {
        if let Err(number) = board::load(card) {
            return put(out, number.into(), [0; 3]);
        }
        *out = [0; 3];
        for (line, reply) in plans.split_inclusive(|&byte| byte == b'\n').zip(replies.chunks_exact_mut(super::REPLY)) {
            reply.copy_from_slice(&match board::judge(card, line.strip_suffix(b"\n").unwrap_or(line)) {
                Ok(Verdict::Allowed) => [0, 1, 0],
                Ok(Verdict::Unfinished(owed)) => [0, 0, owed as u64],
                Ok(Verdict::Hopeless(place)) => [0, 2, place as u64],
                Err(Refused::Card(number)) => [number.into(), 0, 0],
                Err(Refused::ForeignLetter { before }) => [27, 0, before as u64],
            });
            *out = [out[0] + 1, out[1] + line.len() as u64, 0];
        }
        0
    }

    pub fn shortest(card: &[u8], plan: &[u8], out: &mut [u64; 3]) -> u64 {
        match factor::shortest(card, plan) {
            Ok(None) => put(out, 0, [0; 3]),
            Ok(Some((start, length))) => put(out, 0, [1, start as u64, length as u64]),
            Err(Refused::Card(number)) => put(out, number.into(), [0; 3]),
            Err(Refused::ForeignLetter { before }) => put(out, 27, [0, before as u64, 0]),
        }
    }

    pub fn count(card: &[u8], length: usize, out: &mut [u64; 3]) -> u64 {
        match census::count(card, length) {
            Ok(figures) => put(out, 0, figures.numbers()),
            Err(number) => put(out, number.into(), [0; 3]),
        }
    }

    pub fn compile(text: &[u8], card: &mut [u8], out: &mut [u64; 3]) -> Option<u64> {
        Some(match reference_compile(text, &Lent { bench: Vec::new(), card: card.len() }) {
            Ok(accepted) => {
                card[..accepted.card.len()].copy_from_slice(&accepted.card);
                put(out, 0, [0, accepted.card.len() as u64, accepted.peak as u64])
            }
            Err(refusal) => put(out, refusal.number.into(), [refusal.line as u64, 0, 0]),
        })
    }
}
