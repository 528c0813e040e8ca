//! The board by document 01 and W3: the card's tests, one step, judging.

use crate::card::{marks_byte, CONTENTS_LENGTH, MOST_LETTERS, MOST_STATES};
use crate::distance::fewest;
use crate::machine::Machine;
use crate::minimise::representatives;
use crate::refusal::*;
use std::ops::RangeInclusive;

/// The three bodies of bytes that pass test 21.
#[derive(Clone, Copy, PartialEq, Eq, Debug)]
pub struct Bodies<'c> {
    pub letters: &'c [u8],
    pub marks: &'c [u8],
    pub moves: &'c [u8],
}

impl Bodies<'_> {
    pub fn states(&self) -> usize {
        self.marks.len()
    }

    pub fn target(&self, state: usize, column: usize) -> usize {
        self.moves[state * self.letters.len() + column] as usize
    }
}

/// Unfinished carries what is owed: the plan isn't allowed, some continuation
/// of so many letters is, and none of fewer. So it is at least 1.
#[derive(Clone, Copy, PartialEq, Eq, Debug)]
pub enum Verdict<Owed = usize> {
    Allowed,
    Unfinished(Owed),
    Hopeless(usize),
}

/// Where a step lands: the state, its marks byte, and what is owed there, 0
/// where that byte isn't 0.
#[derive(Clone, Copy, PartialEq, Eq, Debug)]
pub struct Landing<Owed = usize> {
    pub state: usize,
    pub marks: u8,
    pub owed: Owed,
}

/// Judging's refusal; 27 carries the letters before the first foreign one.
#[derive(Clone, Copy, PartialEq, Eq, Debug)]
pub enum Refused {
    Card(u8),
    ForeignLetter { before: usize },
}

/// Test 21 of today's boards: a card may have no letters.
pub fn bodies(card: &[u8]) -> Result<Bodies<'_>, u8> {
    contents(card, 0..=MOST_LETTERS)
}

/// Test 21 where a card may have so many letters.
pub fn contents(card: &[u8], letters: RangeInclusive<usize>) -> Result<Bodies<'_>, u8> {
    if card.len() < CONTENTS_LENGTH {
        return Err(CONTENTS);
    }
    let number = |index: usize| u16::from_le_bytes([card[2 * index], card[2 * index + 1]]) as usize;
    let (m, n) = (number(1), number(3));
    let expected = [CONTENTS_LENGTH, m, CONTENTS_LENGTH + m, n, CONTENTS_LENGTH + m + n, n * m];
    let as_expected = (0..6).all(|index| number(index) == expected[index]);
    let sizes = letters.contains(&m) && (1..=MOST_STATES).contains(&n);
    if !as_expected || !sizes || card.len() != CONTENTS_LENGTH + m + n + n * m {
        return Err(CONTENTS);
    }
    let (letters, rest) = card[CONTENTS_LENGTH..].split_at(m);
    let (marks, moves) = rest.split_at(n);
    Ok(Bodies { letters, marks, moves })
}

/// Tests 21 to 26 in turn.
pub fn load(card: &[u8]) -> Result<Bodies<'_>, u8> {
    let bodies = bodies(card)?;
    let letters = bodies.letters;
    if !letters.iter().all(u8::is_ascii_lowercase) || !letters.windows(2).all(|pair| pair[0] < pair[1]) {
        return Err(LETTERS);
    }
    if bodies.moves.iter().any(|&target| target as usize >= bodies.states()) {
        return Err(ASTRAY);
    }
    let machine = machine(&bodies);
    if machine.numbered() != machine {
        return Err(NUMBERING);
    }
    if (0..bodies.states()).any(|state| bodies.marks[state] != marks_byte(&machine, state)) {
        return Err(MARKS);
    }
    if representatives(&machine).iter().enumerate().any(|(state, &same_as)| state != same_as) {
        return Err(TWINS);
    }
    Ok(bodies)
}

/// The machine that a card's moves and marks make, once no move is astray.
pub fn machine(bodies: &Bodies<'_>) -> Machine {
    let columns = bodies.letters.len();
    Machine {
        symbols: columns,
        next: (0..bodies.states()).map(|state| (0..columns).map(|c| bodies.target(state, c)).collect()).collect(),
        accepting: bodies.marks.iter().map(|&byte| byte == 1).collect(),
    }
}

/// The card's tests, then the letter, then the state; then one step.
pub fn step(card: &[u8], state: usize, letter: u8) -> Result<Landing, u8> {
    let bodies = load(card)?;
    let column = bodies.letters.iter().position(|&known| known == letter).ok_or(FOREIGN_LETTER)?;
    if state >= bodies.states() {
        return Err(NO_STATE);
    }
    let target = bodies.target(state, column);
    let marks = bodies.marks[target];
    let owed =
        if marks == 0 { fewest(&machine(&bodies))[target].expect("marks 0 says that some letters do") } else { 0 };
    Ok(Landing { state: target, marks, owed })
}

/// The card's tests, then all letters: the bodies and each letter's column.
pub fn tested<'c>(card: &'c [u8], plan: &[u8]) -> Result<(Bodies<'c>, Vec<usize>), Refused> {
    let bodies = load(card).map_err(Refused::Card)?;
    let mut columns = Vec::with_capacity(plan.len());
    for (before, letter) in plan.iter().enumerate() {
        match bodies.letters.iter().position(|known| known == letter) {
            Some(column) => columns.push(column),
            None => return Err(Refused::ForeignLetter { before }),
        }
    }
    Ok((bodies, columns))
}

/// The card's tests, then all letters, then the plan.
pub fn judge(card: &[u8], plan: &[u8]) -> Result<Verdict, Refused> {
    let (bodies, columns) = tested(card, plan)?;
    let machine = machine(&bodies);
    Ok(verdict(&machine, &fewest(&machine), &columns))
}

/// The verdict on a plan's columns by a loaded card's machine, with the fewest
/// letters that are owed in each of its states.
pub fn verdict(machine: &Machine, fewest: &[Option<usize>], columns: &[usize]) -> Verdict {
    let mut state = 0;
    for (place, &column) in columns.iter().enumerate() {
        if fewest[state].is_none() {
            return Verdict::Hopeless(place);
        }
        state = machine.next[state][column];
    }
    match fewest[state] {
        Some(0) => Verdict::Allowed,
        Some(owed) => Verdict::Unfinished(owed),
        None => Verdict::Hopeless(columns.len()),
    }
}
