//! Boards that were mounted before: their verdict carries no number, and their
//! step tests no more of a card than it needs. The older ones have a test 21
//! that takes 1 to 26 letters. All else they answer as today's boards do.

use crate::board::{self, Bodies, Landing, Refused, Verdict};
use crate::card::MOST_LETTERS;
use crate::factor;
use crate::refusal::*;

#[derive(Clone, Copy, PartialEq, Eq, Debug)]
pub struct Mounted {
    least_letters: usize,
}

/// From before there were cards without letters.
pub const BEFORE_W2: Mounted = Mounted { least_letters: 1 };

/// From before verdicts and steps had a number.
pub const BEFORE_W3: Mounted = Mounted { least_letters: 0 };

impl Mounted {
    /// Test 21.
    pub fn bodies(self, card: &[u8]) -> Result<Bodies<'_>, u8> {
        board::contents(card, self.least_letters..=MOST_LETTERS)
    }

    pub fn load(self, card: &[u8]) -> Result<Bodies<'_>, u8> {
        self.bodies(card)?;
        board::load(card)
    }

    /// One step on any bytes that pass test 21: this one move is tested, and
    /// the marks byte is handed back as it stands.
    pub fn step(self, card: &[u8], state: usize, letter: u8) -> Result<Landing<()>, u8> {
        let bodies = self.bodies(card)?;
        let column = bodies.letters.iter().position(|&known| known == letter).ok_or(FOREIGN_LETTER)?;
        if state >= bodies.states() {
            return Err(NO_STATE);
        }
        let target = bodies.target(state, column);
        if target >= bodies.states() {
            return Err(ASTRAY);
        }
        Ok(Landing { state: target, marks: bodies.marks[target], owed: () })
    }

    pub fn judge(self, card: &[u8], plan: &[u8]) -> Result<Verdict<()>, Refused> {
        self.bodies(card).map_err(Refused::Card)?;
        let (bodies, columns) = board::tested(card, plan)?;
        let machine = board::machine(&bodies);
        let hopeful: Vec<bool> = (0..machine.states()).map(|state| machine.can_accept_from(state)).collect();
        let mut state = 0;
        for place in 0..=columns.len() {
            if !hopeful[state] {
                return Ok(Verdict::Hopeless(place));
            }
            if let Some(&column) = columns.get(place) {
                state = machine.next[state][column];
            }
        }
        Ok(if machine.accepting[state] { Verdict::Allowed } else { Verdict::Unfinished(()) })
    }

    pub fn shortest(self, card: &[u8], plan: &[u8]) -> Result<Option<(usize, usize)>, Refused> {
        self.bodies(card).map_err(Refused::Card)?;
        factor::shortest(card, plan)
    }
}
