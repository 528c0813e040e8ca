//! Every byte in 24 places of a book. Of the bytes from 0x80 up, which are
//! stray (W5), the results are worked out by hand.

use crate::examples::{refused, Example};

/// A text with a place for one byte: what stands before and behind it, and the
/// refusal that is due if the byte is stray.
struct Place {
    title: &'static str,
    before: &'static str,
    behind: &'static str,
    due: (u8, usize),
}

const PLACES: [Place; 24] = [
    place("a text of its own", "", "", 5, 1),
    place("the text's first byte", "", "ab\n>a\n", 5, 1),
    place("before line 1's colon", "", ":ab\n>a\n", 5, 1),
    place("the only letter of line 1", ":", "\n>a\n", 5, 1),
    place("between letters of line 1", ":a", "b\n>a\n", 5, 1),
    place("the last letter of line 1", ":ab", "\n>a\n", 5, 1),
    place("a line of its own", ":ab\n", "\n>a\n", 5, 2),
    place("a last line of its own, without its end", ":ab\n>a\n", "", 5, 3),
    place("the first byte of a line", ":ab\n", "a\n", 5, 2),
    place("the first byte of a line with a context", ":ab\n", "b / .*a _ .*\n", 5, 2),
    place("the first byte of a definition's line", ":ab\n", "Aa\n>A\n", 5, 2),
    place("the name of a definition", ":ab\n=", "a\n>a\n", 5, 2),
    place("all of a definition", ":ab\n=A", "\n>a\n", 5, 2),
    place("all of a pattern", ":ab\n>", "\n", 5, 2),
    place("in a chain", ":ab\n>a", "b\n", 5, 2),
    place("in a choice", ":ab\n>a|", "|b\n", 5, 2),
    place("in brackets", ":ab\n>(", ")a\n", 5, 2),
    place("behind a bracket", ":ab\n>(a", "\n", 5, 2),
    place("behind a space", ":ab\n>a ", " b\n", 5, 2),
    place("on a left side", ":ab\n<b / .*", " _ .*\n", 5, 2),
    place("before a line end", ":ab\n^b / a _ .*", "\n", 5, 2),
    place("behind a stranger", ":ab\n>c", "\n", 5, 2),
    place("before five brackets", ":ab\n>", "(((((\n", 3, 2),
    place("before five underscores", ":ab\n>", "_____\n", 4, 2),
];

const fn place(title: &'static str, before: &'static str, behind: &'static str, number: u8, line: usize) -> Place {
    Place { title, before, behind, due: (number, line) }
}

impl Place {
    fn with(&self, byte: u8) -> Vec<u8> {
        [self.before.as_bytes(), &[byte], self.behind.as_bytes()].concat()
    }
}

/// The bytes from 0x80 up, each in each place.
pub fn high() -> Vec<Example> {
    let each = |byte| {
        PLACES.iter().map(move |place| {
            let (number, line) = place.due;
            refused(place.title, place.with(byte), number, line)
        })
    };
    (0x80..=0xFF).flat_map(each).collect()
}

/// The bytes below 0x80, each in each place.
pub fn low() -> Vec<(&'static str, Vec<u8>)> {
    let each = |byte| PLACES.iter().map(move |place| (place.title, place.with(byte)));
    (0x00..=0x7F).flat_map(each).collect()
}
