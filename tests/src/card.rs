//! A machine over letters written as a card.

use crate::machine::Machine;

pub const CONTENTS_LENGTH: usize = 12;
pub const MOST_LETTERS: usize = 26;
pub const MOST_STATES: usize = 120;
/// The shortest card there is: no letters, one state.
pub const SHORTEST: usize = CONTENTS_LENGTH + 1;
/// The longest card there is.
pub const LONGEST: usize = CONTENTS_LENGTH + MOST_LETTERS + MOST_STATES + MOST_LETTERS * MOST_STATES;

/// The card of a machine over these letters: the states that some plan
/// reaches, numbered by first arrival.
pub fn write(letters: &[u8], machine: &Machine) -> Vec<u8> {
    assert_eq!(letters.len(), machine.symbols, "one symbol for each letter");
    let machine = machine.numbered();
    let marks: Vec<u8> = (0..machine.states()).map(|state| marks_byte(&machine, state)).collect();
    let moves: Vec<u8> = machine.next.iter().flatten().map(|&target| target as u8).collect();
    lay_out(letters, &marks, &moves)
}

/// 1 where a plan may end, 2 where no continuation is allowed, else 0.
pub fn marks_byte(machine: &Machine, state: usize) -> u8 {
    if machine.accepting[state] {
        1
    } else if machine.can_accept_from(state) {
        0
    } else {
        2
    }
}

/// Contents, then bodies; the bodies may be anything.
pub fn lay_out(letters: &[u8], marks: &[u8], moves: &[u8]) -> Vec<u8> {
    let mut bytes = Vec::new();
    let mut offset = CONTENTS_LENGTH;
    for body in [letters, marks, moves] {
        bytes.extend((offset as u16).to_le_bytes());
        bytes.extend((body.len() as u16).to_le_bytes());
        offset += body.len();
    }
    for body in [letters, marks, moves] {
        bytes.extend(body);
    }
    bytes
}
