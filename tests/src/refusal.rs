//! The numbers of document 01's table "What stops a book or a card", and W6's. 10
//! (no rule) occurs no longer.

pub const LONG_BOOK: u8 = 1;
pub const SHORT_BENCH: u8 = 2;
pub const NESTED: u8 = 3;
pub const CROWD_OF_CONTEXTS: u8 = 4;
pub const SPOILED_LINE: u8 = 5;
pub const STRANGER: u8 = 6;
pub const TAKEN: u8 = 7;
pub const CROWDED: u8 = 8;
pub const OVERSIZE: u8 = 9;
pub const SHORT_CARD: u8 = 11;

pub const CONTENTS: u8 = 21;
pub const LETTERS: u8 = 22;
pub const ASTRAY: u8 = 23;
pub const NUMBERING: u8 = 24;
pub const MARKS: u8 = 25;
pub const TWINS: u8 = 26;
pub const FOREIGN_LETTER: u8 = 27;
pub const NO_STATE: u8 = 28;

pub const PAST_COUNTING: u8 = 31;

/// A book's refusal: the number and its line (0 where no line is to blame).
#[derive(Clone, Copy, PartialEq, Eq, Debug)]
pub struct Refusal {
    pub number: u8,
    pub line: usize,
}

impl Refusal {
    pub fn at(number: u8, line: usize) -> Refusal {
        Refusal { number, line }
    }

    /// For the numbers that name no line: 1, 2 and 11.
    pub fn of_book(number: u8) -> Refusal {
        Refusal { number, line: 0 }
    }
}
