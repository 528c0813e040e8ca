//! What the two programs print, by the reference.

use crate::examples::{EVERYTHING_CARD, FIRST_CARD, NO_LETTERS_CARD, NO_LETTERS_NOTHING_CARD};
use crate::sister_examples::{NO_A_FIRST_CARD, NO_B_BEHIND_A_CARD};
use reference::board::{judge, Refused, Verdict};
use reference::compile::{compile, Lent};

/// The plans of an input: one a line, and the bytes after the last line end
/// where there are some.
pub fn plans(input: &[u8]) -> Vec<&[u8]> {
    let mut plans: Vec<&[u8]> = input.split(|&byte| byte == b'\n').collect();
    if plans.last().is_some_and(|last| last.is_empty()) {
        plans.pop();
    }
    plans
}

/// The judging program's lines; no card counts as no bytes.
pub fn verdicts(card: Option<&[u8]>, input: &[u8]) -> Vec<u8> {
    let card = card.unwrap_or(&[]);
    let mut output = Vec::new();
    for plan in plans(input) {
        let line = match judge(card, plan) {
            Ok(Verdict::Allowed) => "allowed\n".to_string(),
            Ok(Verdict::Unfinished(owed)) => format!("unfinished {owed}\n"),
            Ok(Verdict::Hopeless(place)) => format!("hopeless {place}\n"),
            Err(Refused::Card(number)) => format!("refused {number}\n"),
            Err(Refused::ForeignLetter { .. }) => "refused 27\n".to_string(),
        };
        output.extend(line.bytes());
    }
    output
}

/// The compiling program's card or line.
pub fn card_or_line(text: &[u8]) -> Vec<u8> {
    match compile(text, &Lent::plenty()) {
        Ok(accepted) => accepted.card,
        Err(refusal) => format!("refused {} line {}\n", refusal.number, refusal.line).into_bytes(),
    }
}

type Bytes = &'static [u8];

/// Cards, inputs and outputs that document 01 writes out, or that follow at
/// once.
pub fn written_out() -> Vec<(Option<Bytes>, Bytes, Bytes)> {
    vec![
        (Some(FIRST_CARD), b"ab\nabb\n\n", b"allowed\nhopeless 3\nallowed\n"),
        (Some(FIRST_CARD), b"", b""),
        (Some(FIRST_CARD), b"\n", b"allowed\n"),
        (Some(FIRST_CARD), b"ab", b"allowed\n"),
        (Some(FIRST_CARD), b"\nb", b"allowed\nhopeless 1\n"),
        (Some(FIRST_CARD), b"ab\r\n", b"refused 27\n"),
        (Some(FIRST_CARD), b"ab \n ab\n", b"refused 27\nrefused 27\n"),
        (None, b"ab\n\n", b"refused 21\nrefused 21\n"),
        (None, b"", b""),
        (Some(b""), b"ab\n", b"refused 21\n"),
        (Some(A_THEN_B_CARD), b"a\nab\n\naba", b"unfinished 1\nallowed\nallowed\nunfinished 1\n"),
        (Some(JUST_TWELVE_CARD), b"\na\naa\naaa\n", b"unfinished 12\nunfinished 11\nunfinished 10\nunfinished 9\n"),
        (Some(JUST_TWELVE_CARD), b"aaaaaaaaaaaa\naaaaaaaaaaa", b"allowed\nunfinished 1\n"),
        (Some(JUST_TWELVE_CARD), b"aaaaaaaaaaaaaa\nb\n", b"hopeless 13\nrefused 27\n"),
        (Some(NO_LETTERS_CARD), b"", b""),
        (Some(NO_LETTERS_CARD), b"\n", b"allowed\n"),
        (Some(NO_LETTERS_CARD), b"\n\na\n\nb", b"allowed\nallowed\nrefused 27\nallowed\nrefused 27\n"),
        (Some(NO_LETTERS_CARD), b" \n\r\n", b"refused 27\nrefused 27\n"),
        (Some(NO_LETTERS_NOTHING_CARD), b"\na\n", b"hopeless 0\nrefused 27\n"),
        (Some(&[0x0C, 0, 0, 0, 0x0C, 0, 1, 0, 0x0D, 0, 0, 0, 0]), b"\na\n", b"refused 25\nrefused 25\n"),
        (Some(&[0x0C, 0, 0, 0, 0x0C, 0, 2, 0, 0x0E, 0, 0, 0, 1, 2]), b"\na\n", b"refused 24\nrefused 24\n"),
    ]
}

/// The card of `:ab`, `>a / .* _ .*b.*`.
const A_THEN_B_CARD: Bytes = &[0x0C, 0, 2, 0, 0x0E, 0, 2, 0, 0x10, 0, 4, 0, 0x61, 0x62, 1, 0, 1, 0, 1, 0];

/// Twelve letters a are a plan, and nothing else is.
const JUST_TWELVE_CARD: Bytes = &[
    0x0C, 0, 1, 0, 0x0D, 0, 14, 0, 0x1B, 0, 14, 0, 0x61, 0, 0, 0, 0, 0, 0, 0, 0, 0, 0, 0, 0, 1, 2, 1, 2, 3, 4, 5, 6, 7,
    8, 9, 10, 11, 12, 13, 13,
];

/// Texts, and what the compiling program prints for them.
pub fn compiled_out() -> Vec<(Bytes, Bytes)> {
    vec![
        (b":ab\n>b / .*a _ .*\n", FIRST_CARD),
        (b"", NO_LETTERS_CARD),
        (b":ab\n", EVERYTHING_CARD),
        (b":ab\n=Aa+\n", EVERYTHING_CARD),
        (b":ab\n<b / .*a _ .*\n", NO_B_BEHIND_A_CARD),
        (b":ab\n^b / a _ .*\n", NO_A_FIRST_CARD),
        (b":ab\n>a\n^b\n", b"refused 5 line 3\n"),
        (b":ab", b"refused 5 line 1\n"),
        (b":", b"refused 5 line 1\n"),
        (b":\n", b"refused 5 line 1\n"),
        (b"\n", b"refused 5 line 1\n"),
        (b":ab\n>a\n\n", b"refused 5 line 3\n"),
    ]
}
