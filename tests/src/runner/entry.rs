//! The product's entries as the comparisons call them, and what they answer.
//!
//! The reference answers through the same traits; so does every planted
//! fault that the comparisons have to find.

use crate::rng::Rng;
use reference::board::{self, Bodies, Landing, Refused, Verdict};
use reference::census::{self, Figures};
use reference::compile::{self, Accepted, Lent};
use reference::factor;
use reference::mounted::Mounted;
use reference::refusal::Refusal;
use std::cell::RefCell;
use std::collections::HashMap;

/// What loading answers. `Unknown`, here and below, is an answer of no agreed
/// form.
#[derive(Clone, PartialEq, Eq, Debug)]
pub enum Loaded {
    Card {
        letters: u64,
        states: u64,
    },
    Refused(u64),
    #[allow(dead_code)]
    Unknown([u64; 4]),
}

/// What one step answers. A mounted board's answers, here and below, have
/// nothing in place of what is owed.
#[derive(Clone, PartialEq, Eq, Debug)]
pub enum Stepped<Owed = u64> {
    To {
        state: u64,
        marks: u64,
        owed: Owed,
    },
    Refused(u64),
    #[allow(dead_code)]
    Unknown([u64; 4]),
}

/// What judging answers.
#[derive(Clone, PartialEq, Eq, Debug)]
pub enum Judged<Owed = u64> {
    Allowed,
    Unfinished(Owed),
    Hopeless(u64),
    Refused(u64),
    ForeignLetter {
        before: u64,
    },
    #[allow(dead_code)]
    Unknown([u64; 4]),
}

/// What the search for the shortest stretch answers.
#[derive(Clone, PartialEq, Eq, Debug)]
pub enum Shortest {
    None,
    At {
        start: u64,
        length: u64,
    },
    Refused(u64),
    ForeignLetter {
        before: u64,
    },
    #[allow(dead_code)]
    Unknown([u64; 4]),
}

/// What counting the plans of a length answers.
#[derive(Clone, PartialEq, Eq, Debug)]
pub enum Counted {
    Of(Figures),
    Refused(u64),
    #[allow(dead_code)]
    Unknown([u64; 4]),
}

impl Stepped {
    pub fn less_its_number(self) -> Stepped<()> {
        match self {
            Stepped::To { state, marks, .. } => Stepped::To { state, marks, owed: () },
            Stepped::Refused(number) => Stepped::Refused(number),
            Stepped::Unknown(numbers) => Stepped::Unknown(numbers),
        }
    }
}

impl Judged {
    pub fn less_its_number(self) -> Judged<()> {
        match self {
            Judged::Allowed => Judged::Allowed,
            Judged::Unfinished(_) => Judged::Unfinished(()),
            Judged::Hopeless(place) => Judged::Hopeless(place),
            Judged::Refused(number) => Judged::Refused(number),
            Judged::ForeignLetter { before } => Judged::ForeignLetter { before },
            Judged::Unknown(numbers) => Judged::Unknown(numbers),
        }
    }
}

pub trait BoardEntry {
    fn load(&self, card: &[u8]) -> Loaded;
    fn step(&self, card: &[u8], state: usize, letter: u8) -> Stepped;
    fn judge(&self, card: &[u8], plan: &[u8]) -> Judged;
    /// `held`, here and below, is what `out` holds before the call.
    fn shortest(&self, card: &[u8], plan: &[u8], held: [u64; 3]) -> Shortest;
    fn count(&self, card: &[u8], length: usize, held: [u64; 3]) -> Counted;
}

/// What `out` holds before the calls, in turn.
pub const HELD: [[u64; 3]; 5] = [[u64::MAX; 3], [0; 3], [1, 0, 0], [1, 1, 2], [0, 3, 1]];

/// A mounted board.
pub trait MountedEntry {
    fn load(&self, card: &[u8]) -> Loaded;
    fn step(&self, card: &[u8], state: usize, letter: u8) -> Stepped<()>;
    fn judge(&self, card: &[u8], plan: &[u8]) -> Judged<()>;
    fn shortest(&self, card: &[u8], plan: &[u8]) -> Shortest;
}

/// One work buffer: how many entries it needs, and the bytes of an entry.
#[derive(Clone, Copy, PartialEq, Eq, Debug)]
pub struct Buffer {
    pub needed: usize,
    pub width: usize,
}

/// One call of the compiler. Buffers hold rubbish before it.
#[derive(Clone, PartialEq, Eq, Debug)]
pub struct Request {
    pub text: Vec<u8>,
    /// Entries lent for each work buffer.
    pub bench: Vec<usize>,
    pub card_length: usize,
    pub rubbish: u64,
}

impl Request {
    /// What the card buffer holds before the call.
    pub fn card_before(&self) -> Vec<u8> {
        Rng::new(self.rubbish ^ 0xCA2D).bytes(self.card_length)
    }
}

/// What compiling answers: the numbers and the whole card buffer after it.
#[derive(Clone, PartialEq, Eq, Debug)]
pub struct Compiled {
    pub number: u64,
    pub line: u64,
    pub length: u64,
    pub peak: u64,
    pub card_buffer: Vec<u8>,
    /// Bytes just outside a lent buffer were written.
    pub spilled: bool,
}

pub trait CompileEntry {
    fn bench(&self) -> Vec<Buffer>;
    fn compile(&self, request: &Request) -> Compiled;
}

/// The reference behind both traits.
pub struct Reference {
    pub bench: Vec<Buffer>,
}

impl BoardEntry for Reference {
    fn load(&self, card: &[u8]) -> Loaded {
        loaded(board::load(card))
    }

    fn step(&self, card: &[u8], state: usize, letter: u8) -> Stepped {
        stepped(board::step(card, state, letter), |owed| owed as u64)
    }

    fn judge(&self, card: &[u8], plan: &[u8]) -> Judged {
        judged(board::judge(card, plan), |owed| owed as u64)
    }

    fn shortest(&self, card: &[u8], plan: &[u8], _: [u64; 3]) -> Shortest {
        shortest(factor::shortest(card, plan))
    }

    fn count(&self, card: &[u8], length: usize, _: [u64; 3]) -> Counted {
        counted(census::count(card, length))
    }
}

impl MountedEntry for Mounted {
    fn load(&self, card: &[u8]) -> Loaded {
        loaded(Mounted::load(*self, card))
    }

    fn step(&self, card: &[u8], state: usize, letter: u8) -> Stepped<()> {
        stepped(Mounted::step(*self, card, state, letter), |owed| owed)
    }

    fn judge(&self, card: &[u8], plan: &[u8]) -> Judged<()> {
        judged(Mounted::judge(*self, card, plan), |owed| owed)
    }

    fn shortest(&self, card: &[u8], plan: &[u8]) -> Shortest {
        shortest(Mounted::shortest(*self, card, plan))
    }
}

fn loaded(result: Result<Bodies, u8>) -> Loaded {
    match result {
        Ok(bodies) => Loaded::Card { letters: bodies.letters.len() as u64, states: bodies.states() as u64 },
        Err(number) => Loaded::Refused(number.into()),
    }
}

fn stepped<Found, Owed>(result: Result<Landing<Found>, u8>, owed: impl Fn(Found) -> Owed) -> Stepped<Owed> {
    match result {
        Ok(landing) => {
            Stepped::To { state: landing.state as u64, marks: landing.marks.into(), owed: owed(landing.owed) }
        }
        Err(number) => Stepped::Refused(number.into()),
    }
}

fn judged<Found, Owed>(result: Result<Verdict<Found>, Refused>, owed: impl Fn(Found) -> Owed) -> Judged<Owed> {
    match result {
        Ok(Verdict::Allowed) => Judged::Allowed,
        Ok(Verdict::Unfinished(found)) => Judged::Unfinished(owed(found)),
        Ok(Verdict::Hopeless(place)) => Judged::Hopeless(place as u64),
        Err(Refused::Card(number)) => Judged::Refused(number.into()),
        Err(Refused::ForeignLetter { before }) => Judged::ForeignLetter { before: before as u64 },
    }
}

fn shortest(result: Result<Option<(usize, usize)>, Refused>) -> Shortest {
    match result {
        Ok(None) => Shortest::None,
        Ok(Some((start, length))) => Shortest::At { start: start as u64, length: length as u64 },
        Err(Refused::Card(number)) => Shortest::Refused(number.into()),
        Err(Refused::ForeignLetter { before }) => Shortest::ForeignLetter { before: before as u64 },
    }
}

fn counted(result: Result<Figures, u8>) -> Counted {
    match result {
        Ok(figures) => Counted::Of(figures),
        Err(number) => Counted::Refused(number.into()),
    }
}

impl CompileEntry for Reference {
    fn bench(&self) -> Vec<Buffer> {
        self.bench.clone()
    }

    fn compile(&self, request: &Request) -> Compiled {
        let needed = self.bench.iter().map(|buffer| buffer.needed);
        let lent = Lent { bench: needed.zip(request.bench.iter().copied()).collect(), card: request.card_length };
        answer(request, remembered(&request.text, lent))
    }
}

type Outcome = Result<Accepted, Refusal>;

thread_local! {
    static ANSWERS: RefCell<HashMap<(Vec<u8>, Lent), Outcome>> = RefCell::new(HashMap::new());
}

/// The reference's result. It is remembered, since every hunt after a planted
/// fault asks for the same ones.
fn remembered(text: &[u8], lent: Lent) -> Outcome {
    const MOST: usize = 4000;
    let key = (text.to_vec(), lent);
    if let Some(outcome) = ANSWERS.with_borrow(|answers| answers.get(&key).cloned()) {
        return outcome;
    }
    let outcome = compile::compile(text, &key.1);
    ANSWERS.with_borrow_mut(|answers| {
        if answers.len() >= MOST {
            answers.clear();
        }
        answers.insert(key, outcome.clone());
    });
    outcome
}

/// A result of the reference as the numbers and the buffer that are due.
pub fn answer(request: &Request, result: Outcome) -> Compiled {
    let mut card_buffer = request.card_before();
    let (number, line, length, peak) = match result {
        Ok(accepted) => {
            card_buffer[..accepted.card.len()].copy_from_slice(&accepted.card);
            (0, 0, accepted.card.len() as u64, accepted.peak as u64)
        }
        Err(refusal) => (refusal.number.into(), refusal.line as u64, 0, 0),
    };
    Compiled { number, line, length, peak, card_buffer, spilled: false }
}
