//! Wrong mounted boards. Each is the reference's with one fault; the comparison
//! beside a new board has to find every one of them.

use crate::compare_mounted::{self, Kind};
use crate::entry::{BoardEntry, Judged, Loaded, MountedEntry, Reference, Shortest, Stepped};
use reference::board;
use reference::mounted::{Mounted, BEFORE_W2, BEFORE_W3};

type Load = fn(&[u8], Loaded) -> Loaded;
type Step = fn(&[u8], usize, u8, Stepped<()>) -> Stepped<()>;
type Judge = fn(&[u8], &[u8], Judged<()>) -> Judged<()>;

/// The reference's answers, changed afterwards.
pub struct Planted {
    pub name: &'static str,
    pub kind: Kind,
    right: Mounted,
    load: Load,
    step: Step,
    judge: Judge,
}

static REFERENCE: Reference = Reference { bench: Vec::new() };

impl MountedEntry for Planted {
    fn load(&self, card: &[u8]) -> Loaded {
        (self.load)(card, MountedEntry::load(&self.right, card))
    }

    fn step(&self, card: &[u8], state: usize, letter: u8) -> Stepped<()> {
        (self.step)(card, state, letter, MountedEntry::step(&self.right, card, state, letter))
    }

    fn judge(&self, card: &[u8], plan: &[u8]) -> Judged<()> {
        (self.judge)(card, plan, MountedEntry::judge(&self.right, card, plan))
    }

    fn shortest(&self, card: &[u8], plan: &[u8]) -> Shortest {
        MountedEntry::shortest(&self.right, card, plan)
    }
}

/// No fault: the comparison may find nothing.
pub fn right() -> [Planted; 2] {
    let before_w3 = Planted {
        name: "no fault",
        kind: compare_mounted::BEFORE_W3,
        right: BEFORE_W3,
        load: |_, found| found,
        step: |_, _, _, found| found,
        judge: |_, _, found| found,
    };
    let before_w2 = Planted { kind: compare_mounted::BEFORE_W2, right: BEFORE_W2, ..before_w3 };
    [before_w2, before_w3]
}

/// Whether the card passes test 21 and has no letters.
fn has_no_letters(card: &[u8]) -> bool {
    board::bodies(card).is_ok_and(|bodies| bodies.letters.is_empty())
}

/// Faults of the boards that want a letter.
fn before_w2() -> Vec<Planted> {
    let right = || right().into_iter().next().expect("the first of two");
    let load = |name, load| Planted { name, load, ..right() };
    let step = |name, step| Planted { name, step, ..right() };
    let judge = |name, judge| Planted { name, judge, ..right() };
    vec![
        load("loads a card without letters", |card, _| REFERENCE.load(card)),
        step("27 for a card without letters", |card, state, letter, _| {
            MountedEntry::step(&BEFORE_W3, card, state, letter)
        }),
        judge("judges by a card without letters", |card, plan, _| REFERENCE.judge(card, plan).less_its_number()),
        load("22 for a card without letters", |card, found| match found {
            Loaded::Refused(21) if has_no_letters(card) => Loaded::Refused(22),
            other => other,
        }),
        load("refuses a card of one letter", |_, found| match found {
            Loaded::Card { letters: 1, .. } => Loaded::Refused(21),
            other => other,
        }),
        load("21 for all refused cards", |_, found| match found {
            Loaded::Refused(_) => Loaded::Refused(21),
            other => other,
        }),
    ]
}

/// Faults of the boards whose step has no number.
fn before_w3() -> Vec<Planted> {
    let right = || right().into_iter().next_back().expect("the second of two");
    let load = |name, load| Planted { name, load, ..right() };
    let step = |name, step| Planted { name, step, ..right() };
    let judge = |name, judge| Planted { name, judge, ..right() };
    vec![
        load("refuses a card without letters", |card, found| match has_no_letters(card) {
            true => Loaded::Refused(21),
            false => found,
        }),
        step("steps as today", |card, state, letter, _| REFERENCE.step(card, state, letter).less_its_number()),
        step("tests all moves", |card, _, _, found| match board::bodies(card) {
            Ok(bodies) if matches!(found, Stepped::To { .. }) => {
                let astray = bodies.moves.iter().any(|&target| target as usize >= bodies.states());
                if astray {
                    Stepped::Refused(23)
                } else {
                    found
                }
            }
            _ => found,
        }),
        step("28 before 27", |card, state, _, found| match board::bodies(card) {
            Ok(bodies) if found == Stepped::Refused(27) && state >= bodies.states() => Stepped::Refused(28),
            _ => found,
        }),
        step("the last of a letter's columns", |card, state, letter, found| match board::bodies(card) {
            Ok(bodies) if matches!(found, Stepped::To { .. }) => {
                let column = bodies.letters.iter().rposition(|&known| known == letter).expect("on the card");
                let target = bodies.target(state, column);
                match bodies.marks.get(target) {
                    Some(&marks) => Stepped::To { state: target as u64, marks: marks.into(), owed: () },
                    None => Stepped::Refused(23),
                }
            }
            _ => found,
        }),
        step("only a to z are letters", |card, _, letter, found| {
            if board::bodies(card).is_ok() && !letter.is_ascii_lowercase() {
                Stepped::Refused(27)
            } else {
                found
            }
        }),
        step("only marks that are some", |_, _, _, found| match found {
            Stepped::To { marks: 3.., .. } => Stepped::Refused(25),
            other => other,
        }),
        judge("unfinished is allowed", |_, _, found| match found {
            Judged::Unfinished(()) => Judged::Allowed,
            other => other,
        }),
        judge("hopeless one letter late", |_, _, found| match found {
            Judged::Hopeless(place) => Judged::Hopeless(place + 1),
            other => other,
        }),
    ]
}

pub fn all() -> Vec<Planted> {
    [before_w2(), before_w3()].into_iter().flatten().collect()
}
