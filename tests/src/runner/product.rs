//! The product's static library: the one file to adapt when names or
//! buffers change. A slice is passed as its pointer and then its length, `out`
//! as a pointer to three numbers; the number of a refusal, or 0, is handed back.
//!
//! Linked with the features `product-board` and `product-compile`; without
//! them both entries are absent and their comparisons are skipped.

use crate::entry::{BoardEntry, CompileEntry};

/// Nothing that a library would answer by chance.
#[cfg(any(feature = "product-board", feature = "product-compile"))]
const UNSET: u64 = 0xDEAD_BEEF_DEAD_BEEF;

/// An answer's number and the three numbers of `out`; and whether a number
/// just beside `out` was written.
#[cfg(any(feature = "product-board", feature = "product-compile"))]
fn answer(call: impl FnOnce(*mut [u64; 3]) -> u64) -> ([u64; 4], bool) {
    answer_over([UNSET; 3], call)
}

/// The same where `out` holds given numbers before the call.
#[cfg(any(feature = "product-board", feature = "product-compile"))]
fn answer_over(held: [u64; 3], call: impl FnOnce(*mut [u64; 3]) -> u64) -> ([u64; 4], bool) {
    let mut lent = [[UNSET; 3], held, [UNSET; 3]];
    let number = call(lent.as_mut_ptr().wrapping_add(1));
    let [before, [first, second, third], behind] = lent;
    ([number, first, second, third], before != [UNSET; 3] || behind != [UNSET; 3])
}

#[cfg(feature = "product-board")]
mod board {
    use super::{answer, answer_over};
    use crate::entry::{BoardEntry, Counted, Judged, Loaded, Shortest, Stepped};
    use reference::census::Figures;

    extern "C" {
        fn pier_load(card: *const u8, card_length: usize, out: *mut [u64; 3]) -> u64;
        fn pier_step(card: *const u8, card_length: usize, state: usize, letter: u8, out: *mut [u64; 3]) -> u64;
        fn pier_judge(
            card: *const u8,
            card_length: usize,
            plan: *const u8,
            plan_length: usize,
            out: *mut [u64; 3],
        ) -> u64;
        fn pier_shortest(
            card: *const u8,
            card_length: usize,
            plan: *const u8,
            plan_length: usize,
            out: *mut [u64; 3],
        ) -> u64;
        fn pier_count(card: *const u8, card_length: usize, letters: usize, out: *mut [u64; 3]) -> u64;
    }

    extern "C" {
        fn pier_judge_lines(
            card: *const u8,
            card_length: usize,
            lines: *const u8,
            lines_length: usize,
            replies: *mut u64,
            replies_length: usize,
            out: *mut [u64; 3],
        ) -> u64;
    }

    /// The number and `out`; and the replies, of which so many were lent, with
    /// some behind them that must stay as they are.
    pub fn judge_lines(card: &[u8], lines: &[u8], replies: &mut [u64], lent: usize) -> Option<[u64; 4]> {
        let (card_length, lines_length) = (card.len(), lines.len());
        let replies = replies[..].as_mut_ptr();
        match answer(|out| unsafe {
            pier_judge_lines(card.as_ptr(), card_length, lines.as_ptr(), lines_length, replies, lent, out)
        }) {
            (numbers, false) => Some(numbers),
            (_, true) => None,
        }
    }

    pub struct Board;

    impl BoardEntry for Board {
        fn load(&self, card: &[u8]) -> Loaded {
            match answer(|out| unsafe { pier_load(card.as_ptr(), card.len(), out) }) {
                ([0, letters, states, 0], false) => Loaded::Card { letters, states },
                ([number, 0, 0, 0], false) => Loaded::Refused(number),
                (numbers, _) => Loaded::Unknown(numbers),
            }
        }

        /// out: the next state, its marks byte, what is owed there; refused,
        /// three zeros.
        fn step(&self, card: &[u8], state: usize, letter: u8) -> Stepped {
            match answer(|out| unsafe { pier_step(card.as_ptr(), card.len(), state, letter, out) }) {
                ([0, state, marks, owed], false) => Stepped::To { state, marks, owed },
                ([number, 0, 0, 0], false) => Stepped::Refused(number),
                (numbers, _) => Stepped::Unknown(numbers),
            }
        }

        /// out: verdict, count, 0; with number 0 the verdict is a marks byte
        /// (1 allowed, 0 unfinished, 2 hopeless) and the count what is owed,
        /// or the place of hopeless; with number 27 it is the letters before
        /// the foreign one.
        fn judge(&self, card: &[u8], plan: &[u8]) -> Judged {
            match answer(|out| unsafe { pier_judge(card.as_ptr(), card.len(), plan.as_ptr(), plan.len(), out) }) {
                ([0, 1, 0, 0], false) => Judged::Allowed,
                ([0, 0, owed, 0], false) if owed > 0 => Judged::Unfinished(owed),
                ([0, 2, place, 0], false) => Judged::Hopeless(place),
                ([27, 0, before, 0], false) => Judged::ForeignLetter { before },
                ([number, 0, 0, 0], false) if number > 0 => Judged::Refused(number),
                (numbers, _) => Judged::Unknown(numbers),
            }
        }

        /// out: 0, 0, 0 for none or 1, start, length; with number 27 it is
        /// 0, the letters before the foreign one, 0.
        fn shortest(&self, card: &[u8], plan: &[u8], held: [u64; 3]) -> Shortest {
            let (card_length, plan_length) = (card.len(), plan.len());
            match answer_over(held, |out| unsafe {
                pier_shortest(card.as_ptr(), card_length, plan.as_ptr(), plan_length, out)
            }) {
                ([0, 0, 0, 0], false) => Shortest::None,
                ([0, 1, start, length], false) => Shortest::At { start, length },
                ([27, 0, before, 0], false) => Shortest::ForeignLetter { before },
                ([number, 0, 0, 0], false) => Shortest::Refused(number),
                (numbers, _) => Shortest::Unknown(numbers),
            }
        }

        /// out: allowed, unfinished, hopeless; refused, three zeros.
        fn count(&self, card: &[u8], length: usize, held: [u64; 3]) -> Counted {
            match answer_over(held, |out| unsafe { pier_count(card.as_ptr(), card.len(), length, out) }) {
                ([0, allowed, unfinished, hopeless], false) => Counted::Of(Figures { allowed, unfinished, hopeless }),
                ([number, 0, 0, 0], false) => Counted::Refused(number),
                (numbers, _) => Counted::Unknown(numbers),
            }
        }
    }
}

#[cfg(feature = "product-compile")]
mod compile {
    use super::answer;
    use crate::entry::{Buffer, CompileEntry, Compiled, Request};
    use crate::rng::Rng;

    /// The entry types of the work buffers, in the order of the call.
    type B0 = u8;
    type B1 = u8;
    type B2 = u8;
    type B3 = u8;
    type B4 = u8;
    type B5 = u16;
    type B6 = u16;
    type B7 = u8;

    /// Their documented lengths, in entries.
    const NEEDED: [usize; 8] = [43_706, 43_706, 10_086, 63_878, 62_464, 14_336, 6_720, 32_832];

    extern "C" {
        fn pier_compile(
            text: *const u8,
            text_length: usize,
            card: *mut u8,
            card_length: usize,
            b0: *mut B0,
            b0_length: usize,
            b1: *mut B1,
            b1_length: usize,
            b2: *mut B2,
            b2_length: usize,
            b3: *mut B3,
            b3_length: usize,
            b4: *mut B4,
            b4_length: usize,
            b5: *mut B5,
            b5_length: usize,
            b6: *mut B6,
            b6_length: usize,
            b7: *mut B7,
            b7_length: usize,
            out: *mut [u64; 3],
        ) -> u64;
    }

    pub struct Compiler;

    /// Entries past each lent slice that must stay as they are.
    const GUARD: usize = 64;

    /// A slice to lend, with guarded entries behind it.
    struct Lent<T> {
        entries: Vec<T>,
        before: Vec<T>,
        length: usize,
    }

    impl<T: Copy + PartialEq> Lent<T> {
        fn new(length: usize, mut fill: impl FnMut() -> T) -> Lent<T> {
            let entries: Vec<T> = (0..length + GUARD).map(|_| fill()).collect();
            Lent { before: entries.clone(), entries, length }
        }

        fn spilled(&self) -> bool {
            self.entries[self.length..] != self.before[self.length..]
        }
    }

    impl CompileEntry for Compiler {
        fn bench(&self) -> Vec<Buffer> {
            let widths = [
                size_of::<B0>(),
                size_of::<B1>(),
                size_of::<B2>(),
                size_of::<B3>(),
                size_of::<B4>(),
                size_of::<B5>(),
                size_of::<B6>(),
                size_of::<B7>(),
            ];
            NEEDED.into_iter().zip(widths).map(|(needed, width)| Buffer { needed, width }).collect()
        }

        fn compile(&self, request: &Request) -> Compiled {
            let mut rng = Rng::new(request.rubbish);
            let lengths = &request.bench;
            let mut b0 = Lent::new(lengths[0], || rng.next() as B0);
            let mut b1 = Lent::new(lengths[1], || rng.next() as B1);
            let mut b2 = Lent::new(lengths[2], || rng.next() as B2);
            let mut b3 = Lent::new(lengths[3], || rng.next() as B3);
            let mut b4 = Lent::new(lengths[4], || rng.next() as B4);
            let mut b5 = Lent::new(lengths[5], || rng.next() as B5);
            let mut b6 = Lent::new(lengths[6], || rng.next() as B6);
            let mut b7 = Lent::new(lengths[7], || rng.next() as B7);
            let mut bytes = request.card_before().into_iter();
            let mut card = Lent::new(request.card_length, || bytes.next().unwrap_or(0xA5));
            let ([number, line, length, peak], beside) = answer(|out| unsafe {
                pier_compile(
                    request.text.as_ptr(),
                    request.text.len(),
                    card.entries.as_mut_ptr(),
                    card.length,
                    b0.entries.as_mut_ptr(),
                    b0.length,
                    b1.entries.as_mut_ptr(),
                    b1.length,
                    b2.entries.as_mut_ptr(),
                    b2.length,
                    b3.entries.as_mut_ptr(),
                    b3.length,
                    b4.entries.as_mut_ptr(),
                    b4.length,
                    b5.entries.as_mut_ptr(),
                    b5.length,
                    b6.entries.as_mut_ptr(),
                    b6.length,
                    b7.entries.as_mut_ptr(),
                    b7.length,
                    out,
                )
            });
            let spilled = beside
                || b0.spilled()
                || b1.spilled()
                || b2.spilled()
                || b3.spilled()
                || b4.spilled()
                || b5.spilled()
                || b6.spilled()
                || b7.spilled()
                || card.spilled();
            card.entries.truncate(card.length);
            Compiled { number, line, length, peak, card_buffer: card.entries, spilled }
        }
    }
}

/// The library's board, where it is linked.
pub fn board() -> Option<Box<dyn BoardEntry>> {
    #[cfg(feature = "product-board")]
    return Some(Box::new(board::Board));
    #[cfg(not(feature = "product-board"))]
    None
}

/// Many plans at once: card, lines, replies, how many of them are lent.
pub type JudgeLines = fn(&[u8], &[u8], &mut [u64], usize) -> Option<[u64; 4]>;

/// The library's board for many plans, where it is linked.
pub fn judge_lines() -> Option<JudgeLines> {
    #[cfg(feature = "product-board")]
    return Some(board::judge_lines);
    #[cfg(not(feature = "product-board"))]
    None
}

/// The library's compiler, where it is linked.
pub fn compiler() -> Option<Box<dyn CompileEntry>> {
    #[cfg(feature = "product-compile")]
    return Some(Box::new(compile::Compiler));
    #[cfg(not(feature = "product-compile"))]
    None
}
