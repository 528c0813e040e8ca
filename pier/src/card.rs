//! Cards: reading a file, the loaded table, marks and letters in words.

use crate::proved::{self, Judged, Loaded};
use crate::words::count_or_no;
use crate::{files, refusal, Failure};
use std::collections::BTreeMap;
use std::path::Path;

pub const PLAN_MAY_END: u8 = 1;
pub const HOPELESS: u8 = 2;

/// What a marks byte means.
pub fn mark(byte: u8) -> &'static str {
    match byte {
        PLAN_MAY_END => "may end",
        HOPELESS => "hopeless",
        _ => "on the way",
    }
}

/// A file's bytes that a board loads.
pub fn read(path: &Path) -> Result<Vec<u8>, Failure> {
    let bytes = bytes(path)?;
    match proved::load(&bytes) {
        Loaded::Card { .. } => Ok(bytes),
        Loaded::Refused(number) => Err(refused(path, &bytes, number)),
    }
}

/// A file's bytes: enough that a card too long is seen to be.
pub fn bytes(path: &Path) -> Result<Vec<u8>, Failure> {
    files::read(path, proved::LONGEST_CARD + 1)
}

/// Why a card is refused. A book begins with `:`, a card with its 12.
pub fn refused(path: &Path, bytes: &[u8], number: u64) -> Failure {
    let look = match bytes {
        [b':', ..] => Some("it begins with :, as a book does; pier compile makes its card, pier try needs none"),
        [] => Some("the file is empty; if it is a book, pier compile makes its card"),
        _ => None,
    };
    told(path, number, look)
}

/// A refusal in words, and what to look at.
pub fn told(path: &Path, number: u64, look: Option<&str>) -> Failure {
    let refusal = refusal::of(number);
    let name = files::shown(path);
    let look = look.map_or(String::new(), |look| format!("  look at: {look}\n"));
    Failure::Refused(format!(
        "{name}: refused {number} ({}): {}\n{look}  advice: {}\n",
        refusal.word, refusal.when, refusal.advice
    ))
}

/// The bytes of a file's card, and its table.
pub fn with_table(path: &Path) -> Result<(Vec<u8>, Table), Failure> {
    let bytes = bytes(path)?;
    match Table::of(&bytes) {
        Ok(table) => Ok((bytes, table)),
        Err(number) => Err(refused(path, &bytes, number)),
    }
}

/// Is this a card that loads and has no letters?
pub fn is_without_letters(card: &[u8]) -> bool {
    matches!(proved::load(card), Loaded::Card { letters: 0, .. })
}

pub struct Table {
    pub letters: Vec<u8>,
    pub marks: Vec<u8>,
    /// For each state the next state of each letter.
    pub moves: Vec<Vec<usize>>,
    /// For each state the fewest letters to one where a plan may end; none where
    /// it is hopeless.
    pub owed: Vec<Option<usize>>,
    /// The card's length.
    pub bytes: usize,
}

impl Table {
    /// The table of a file's card.
    pub fn read(path: &Path) -> Result<Table, Failure> {
        with_table(path).map(|(_, table)| table)
    }

    /// The table of a card that loads, or the number by which it is refused.
    /// Letters, marks and moves are read where the layout puts them; what is owed
    /// is asked of the proved judging.
    pub fn of(card: &[u8]) -> Result<Table, u64> {
        const CONTENTS: usize = 12;
        let (m, n) = match proved::load(card) {
            Loaded::Card { letters, states } => (letters, states),
            Loaded::Refused(number) => return Err(number),
        };
        let (letters, rest) = card[CONTENTS..].split_at(m);
        let (marks, moves) = rest.split_at(n);
        let row = |state| moves[state * m..][..m].iter().map(|&next| next.into()).collect();
        let moves: Vec<Vec<usize>> = (0..n).map(row).collect();
        let owed = owed(card, &arrivals(letters, &moves))?;
        Ok(Table { letters: letters.to_vec(), marks: marks.to_vec(), moves, owed, bytes: card.len() })
    }

    /// What a state's mark means, on the way with the letters owed.
    pub fn mark(&self, state: usize) -> String {
        let word = mark(self.marks[state]);
        match self.owed[state] {
            Some(owed @ 1..) => format!("{word} {owed}"),
            _ => word.into(),
        }
    }

    /// Is some state on the way?
    pub fn owes(&self) -> bool {
        self.owed.iter().any(|owed| matches!(owed, Some(1..)))
    }

    /// The arrows of a picture: letters with the same two ends share one.
    pub fn arrows(&self) -> BTreeMap<(usize, usize), Vec<u8>> {
        let mut arrows: BTreeMap<_, Vec<u8>> = BTreeMap::new();
        for (state, row) in self.moves.iter().enumerate() {
            for (&next, &letter) in row.iter().zip(&self.letters) {
                arrows.entry((state, next)).or_default().push(letter);
            }
        }
        arrows
    }

    /// The hopeless state, of which a card has one at most.
    pub fn hopeless(&self) -> Option<usize> {
        self.marks.iter().position(|&mark| mark == HOPELESS)
    }

    /// The state that a picture leaves out: the hopeless one of a card that is not
    /// small, since nearly every state has an arrow to it.
    pub fn left_out(&self, all: bool) -> Option<usize> {
        const SMALL: usize = 8;
        self.hopeless().filter(|_| !all && self.marks.len() >= SMALL)
    }

    /// What belongs on the card's envelope.
    pub fn envelope(&self) -> String {
        let letters = self.letters.len();
        let states = self.marks.len();
        format!("letters {letters}{}\nstates  {states}\nbytes   {}\n", bracketed(&self.letters), self.bytes)
    }

    /// The letters in words: 2 letters (a b), or no letters.
    pub fn counted_letters(&self) -> String {
        count_or_no(self.letters.len(), "letter") + &bracketed(&self.letters)
    }
}

/// A plan that leads to each state. States are numbered by first arrival, so the
/// rows of moves meet a state's first move when those below it have their plans.
fn arrivals(letters: &[u8], moves: &[Vec<usize>]) -> Vec<Vec<u8>> {
    let mut plans = vec![Vec::new()];
    for (state, row) in moves.iter().enumerate() {
        for (&next, &letter) in row.iter().zip(letters) {
            if next == plans.len() {
                plans.push([&plans[state][..], &[letter]].concat());
            }
        }
    }
    plans
}

/// The letters owed after each of these plans, none where it is hopeless.
fn owed(card: &[u8], plans: &[Vec<u8>]) -> Result<Vec<Option<usize>>, u64> {
    let lines: Vec<u8> = plans.iter().flat_map(|plan| [plan, &b"\n"[..]].concat()).collect();
    let mut replies = vec![0; proved::REPLY * plans.len()];
    let (_, replies) = proved::judge_lines(card, &lines, &mut replies)?;
    let owed = |judged| match judged {
        Judged::Allowed => Some(0),
        Judged::Unfinished(owed) => Some(owed as usize),
        _ => None,
    };
    Ok(replies.map(owed).collect())
}

/// The letters in a row, with spaces.
pub fn spaced(letters: &[u8]) -> String {
    letters.iter().map(|&letter| (letter as char).to_string()).collect::<Vec<_>>().join(" ")
}

/// The letters in brackets behind their number; nothing where there are none.
fn bracketed(letters: &[u8]) -> String {
    match letters {
        [] => String::new(),
        _ => format!(" ({})", spaced(letters)),
    }
}

/// Letters on an arrow: neighbours of the alphabet as a range, as in a-c e.
pub fn label(letters: &[u8]) -> String {
    let mut parts: Vec<(u8, u8)> = Vec::new();
    for &letter in letters {
        match parts.last_mut() {
            Some((_, last)) if *last + 1 == letter => *last = letter,
            _ => parts.push((letter, letter)),
        }
    }
    let part = |&(first, last): &(u8, u8)| match last - first {
        0 => format!("{}", first as char),
        _ => format!("{}-{}", first as char, last as char),
    };
    parts.iter().map(part).collect::<Vec<_>>().join(" ")
}

#[cfg(test)]
pub const FIRST_CARD: [u8; 23] = [0x0C, 0, 2, 0, 0x0E, 0, 3, 0, 0x11, 0, 6, 0, 0x61, 0x62, 1, 1, 2, 1, 2, 1, 0, 2, 2];

#[cfg(test)]
pub fn first() -> Table {
    Table::of(&FIRST_CARD).expect("it loads")
}

/// The card of `:ab`, `>a / .* _ .*b.*b.*`: two b behind every a.
#[cfg(test)]
pub const OWING_CARD: [u8; 23] = [0x0C, 0, 2, 0, 0x0E, 0, 3, 0, 0x11, 0, 6, 0, 0x61, 0x62, 1, 0, 0, 1, 0, 1, 2, 1, 0];

#[cfg(test)]
pub fn owing() -> Table {
    Table::of(&OWING_CARD).expect("it loads")
}

/// The card without letters: one state with this mark.
#[cfg(test)]
pub fn without_letters(mark: u8) -> [u8; 13] {
    [0x0C, 0, 0, 0, 0x0C, 0, 1, 0, 0x0D, 0, 0, 0, mark]
}

#[cfg(test)]
mod tests {
    use super::*;

    #[test]
    fn the_first_paper_card_is_taken_apart() {
        let table = first();
        assert_eq!(table.letters, b"ab");
        assert_eq!(table.marks, [1, 1, 2]);
        assert_eq!(table.moves, [[1, 2], [1, 0], [2, 2]]);
        assert_eq!(table.owed, [Some(0), Some(0), None]);
        assert!(!table.owes() && [0, 1, 2].map(|state| table.mark(state)) == ["may end", "may end", "hopeless"]);
        assert_eq!(table.envelope(), "letters 2 (a b)\nstates  3\nbytes   23\n");
        assert_eq!(Table::of(b"x").err(), Some(21));
    }

    #[test]
    fn a_card_that_owes_is_taken_apart() {
        let table = owing();
        assert_eq!(table.moves, [[1, 0], [1, 2], [1, 0]]);
        assert_eq!(table.owed, [Some(0), Some(2), Some(1)]);
        assert!(
            table.owes() && [0, 1, 2].map(|state| table.mark(state)) == ["may end", "on the way 2", "on the way 1"]
        );
    }

    #[test]
    fn a_card_without_letters_is_taken_apart() {
        for mark in [PLAN_MAY_END, HOPELESS] {
            let card = without_letters(mark);
            let table = Table::of(&card).expect("it loads");
            assert!(is_without_letters(&card) && table.letters.is_empty() && table.arrows().is_empty());
            assert_eq!((&table.marks[..], &table.moves[..]), (&[mark][..], &[vec![]][..]));
            assert_eq!(table.envelope(), "letters 0\nstates  1\nbytes   13\n");
            assert_eq!(table.counted_letters(), "no letters");
        }
        assert!(!is_without_letters(&FIRST_CARD) && !is_without_letters(b""));
        assert_eq!(first().counted_letters(), "2 letters (a b)");
        assert_eq!(Table::of(&without_letters(0)).err(), Some(25));
    }

    #[test]
    fn labels_are_written_one_way() {
        assert_eq!(label(b"abce"), "a-c e");
        assert_eq!(label(b"ab"), "a-b");
        assert_eq!(label(b"az"), "a z");
    }

    #[test]
    fn a_book_given_as_a_card_is_told() {
        let Failure::Refused(message) = refused(Path::new("x.book"), b":ab\n>a\n", 21) else { panic!() };
        assert!(message.contains("as a book does"), "{message}");
    }
}
