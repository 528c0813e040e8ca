//! Cards, steps and plans with the answers that are due by document 01.

use crate::entry::{Judged, Loaded, Stepped};
use crate::examples::{EVERYTHING_CARD, FIRST_CARD, NOTHING_CARD, NO_A_CARD, NO_LETTERS_CARD, NO_LETTERS_NOTHING_CARD};
use reference::card::lay_out;

/// Counts up by its first letter, begins again by another; the last state is
/// the only accepting one.
pub fn chain(letters: &[u8], states: usize) -> Vec<u8> {
    let mut marks = vec![0; states];
    marks[states - 1] = 1;
    let mut moves = Vec::new();
    for state in 0..states {
        moves.push((state + 1).min(states - 1) as u8);
        moves.resize((state + 1) * letters.len(), 0);
    }
    lay_out(letters, &marks, &moves)
}

/// After an even number of letters one more is owed.
pub fn even() -> Vec<u8> {
    lay_out(b"a", &[0, 1], &[1, 0])
}

/// The card of `:ab`, `>a / .* _ .*b.*b.*`.
fn two_bs() -> Vec<u8> {
    lay_out(b"ab", &[1, 0, 0], &[1, 0, 1, 2, 1, 0])
}

/// Only a's, and before them b or aab. One letter is owed at the start, two
/// behind a, one behind aa.
pub fn near_and_far() -> Vec<u8> {
    lay_out(b"ab", &[0, 0, 1, 0, 2], &[1, 2, 3, 4, 2, 4, 4, 2, 4, 4])
}

/// A card and what loading answers.
pub fn loads() -> Vec<(&'static str, Vec<u8>, Loaded)> {
    let refused = Loaded::Refused;
    let changed = |place: usize, byte: u8| {
        let mut card = FIRST_CARD.to_vec();
        card[place] = byte;
        card
    };
    let all_letters: Vec<u8> = (b'a'..=b'z').collect();
    let beyond_z: Vec<u8> = (b'a'..=b'{').collect();
    let mut list = vec![
        ("the first card", FIRST_CARD.to_vec(), Loaded::Card { letters: 2, states: 3 }),
        ("no a at all", NO_A_CARD.to_vec(), Loaded::Card { letters: 2, states: 2 }),
        ("nothing", NOTHING_CARD.to_vec(), Loaded::Card { letters: 2, states: 1 }),
        ("everything", EVERYTHING_CARD.to_vec(), Loaded::Card { letters: 2, states: 1 }),
        ("the longest card", chain(&all_letters, 120), Loaded::Card { letters: 26, states: 120 }),
        ("120 states over one letter", chain(b"a", 120), Loaded::Card { letters: 1, states: 120 }),
        ("one letter, z", chain(b"z", 2), Loaded::Card { letters: 1, states: 2 }),
        ("no letters", NO_LETTERS_CARD.to_vec(), Loaded::Card { letters: 0, states: 1 }),
        ("no letters, nothing", NO_LETTERS_NOTHING_CARD.to_vec(), Loaded::Card { letters: 0, states: 1 }),
        // 21
        ("no bytes", Vec::new(), refused(21)),
        ("one byte", vec![0x0C], refused(21)),
        ("eleven bytes", FIRST_CARD[..11].to_vec(), refused(21)),
        ("contents alone", FIRST_CARD[..12].to_vec(), refused(21)),
        ("a byte too few", FIRST_CARD[..FIRST_CARD.len() - 1].to_vec(), refused(21)),
        ("a byte too many", [FIRST_CARD, &[0]].concat(), refused(21)),
        ("the card twice", FIRST_CARD.repeat(2), refused(21)),
        ("letters elsewhere", changed(0, 0x0D), refused(21)),
        ("letters elsewhere, high byte", changed(1, 1), refused(21)),
        ("more letters", changed(2, 3), refused(21)),
        ("letters' high byte", changed(3, 1), refused(21)),
        ("marks elsewhere", changed(4, 0x0D), refused(21)),
        ("marks elsewhere, high byte", changed(5, 1), refused(21)),
        ("fewer marks", changed(6, 2), refused(21)),
        ("marks' high byte", changed(7, 1), refused(21)),
        ("moves elsewhere", changed(8, 0x12), refused(21)),
        ("moves elsewhere, high byte", changed(9, 1), refused(21)),
        ("fewer moves", changed(10, 5), refused(21)),
        ("moves' high byte", changed(11, 1), refused(21)),
        ("no states", lay_out(b"ab", &[], &[]), refused(21)),
        ("no letters, no states", lay_out(b"", &[], &[]), refused(21)),
        ("no letters, a byte too few", NO_LETTERS_CARD[..12].to_vec(), refused(21)),
        ("no letters, a byte too many", [NO_LETTERS_CARD, &[0]].concat(), refused(21)),
        ("no letters, the card twice", NO_LETTERS_CARD.repeat(2), refused(21)),
        ("no letters, a move", lay_out(b"", &[1], &[0]), refused(21)),
        ("no letters, 121 states", lay_out(b"", &[1; 121], &[]), refused(21)),
        ("no letters, but one counted", [&[0x0C, 0, 1], &NO_LETTERS_CARD[3..]].concat(), refused(21)),
        ("27 letters", chain(&beyond_z, 2), refused(21)),
        ("121 states", chain(b"a", 121), refused(21)),
        ("121 states over 26 letters", chain(&all_letters, 121), refused(21)),
        ("256 states", lay_out(b"a", &[1; 256], &[0; 256]), refused(21)),
        ("moves for one state less", lay_out(b"ab", &[1, 1, 2], &[1, 2, 1, 0]), refused(21)),
        ("zeros", vec![0; 23], refused(21)),
        // 22
        ("falling letters", lay_out(b"ba", &[1], &[0, 0]), refused(22)),
        ("a letter twice", lay_out(b"aa", &[1], &[0, 0]), refused(22)),
        ("a large letter", lay_out(b"Ab", &[1], &[0, 0]), refused(22)),
        ("byte 0x60", lay_out(b"`b", &[1], &[0, 0]), refused(22)),
        ("byte 0x7B", lay_out(b"a{", &[1], &[0, 0]), refused(22)),
        ("byte 0", lay_out(b"\0", &[1], &[0]), refused(22)),
        ("byte 255", lay_out(b"a\xff", &[1], &[0, 0]), refused(22)),
        ("letters before moves", lay_out(b"aa", &[9], &[7, 7]), refused(22)),
        // 23
        ("a move to n", lay_out(b"ab", &[1, 2], &[1, 2, 1, 1]), refused(23)),
        ("a move to 255", lay_out(b"ab", &[1, 2], &[1, 0, 1, 255]), refused(23)),
        ("a move of a state not reached", lay_out(b"a", &[1, 1], &[0, 2]), refused(23)),
        ("moves before numbering", lay_out(b"ab", &[1, 1, 1], &[2, 3, 1, 1, 1, 1]), refused(23)),
        // 24
        ("2 before 1", lay_out(b"ab", &[1, 0, 2], &[2, 1, 0, 0, 2, 2]), refused(24)),
        ("a state not reached", lay_out(b"ab", &[1, 2], &[0, 0, 1, 1]), refused(24)),
        ("reached only from a state not reached", lay_out(b"a", &[1, 1, 1], &[0, 2, 1]), refused(24)),
        ("numbering before marks", lay_out(b"ab", &[9, 9, 9], &[2, 1, 0, 0, 2, 2]), refused(24)),
        ("a jump over 1", lay_out(b"ab", &[1, 0, 2, 2], &[0, 2, 1, 3, 3, 3, 3, 3]), refused(24)),
        ("no letters, two states", lay_out(b"", &[1, 2], &[]), refused(24)),
        ("no letters, two alike", lay_out(b"", &[1, 1], &[]), refused(24)),
        ("no letters, two states, wrong marks", lay_out(b"", &[0, 9], &[]), refused(24)),
        ("no letters, 120 states", lay_out(b"", &[1; 120], &[]), refused(24)),
        // 25
        ("marks 3", changed(14, 3), refused(25)),
        ("marks 255", changed(15, 255), refused(25)),
        ("dead marked 0", changed(16, 0), refused(25)),
        ("alive marked 2", lay_out(b"a", &[2, 1], &[1, 1]), refused(25)),
        ("alive marked 3", lay_out(b"a", &[3, 1], &[1, 1]), refused(25)),
        ("nothing marked 0", lay_out(b"a", &[0], &[0]), refused(25)),
        ("no letters, marks 0", lay_out(b"", &[0], &[]), refused(25)),
        ("no letters, marks 3", lay_out(b"", &[3], &[]), refused(25)),
        ("no letters, marks 255", lay_out(b"", &[255], &[]), refused(25)),
        ("marks before twins", lay_out(b"a", &[1, 1, 3], &[1, 2, 2]), refused(25)),
        // 26
        ("two alike", lay_out(b"a", &[1, 1], &[1, 1]), refused(26)),
        ("two dead", lay_out(b"ab", &[1, 2, 2], &[1, 2, 1, 1, 2, 2]), refused(26)),
        ("two that swap", lay_out(b"a", &[1, 1], &[1, 0]), refused(26)),
        ("six for three", lay_out(b"a", &[1, 0, 0, 1, 0, 0], &[1, 2, 3, 4, 5, 0]), refused(26)),
    ];
    for place in 12..14 {
        list.push(("a letter changed to 0", changed(place, 0), refused(22)));
    }
    list
}

/// A card, a state, a letter, and what one step answers.
type Step<Owed = u64> = (&'static str, Vec<u8>, usize, u8, Stepped<Owed>);

/// On the first card of "Ten days on paper", where a plan is allowed or hopeless: the same on all boards, with what they say where nothing is owed.
fn first_card_steps<Owed: Copy>(none: Owed) -> Vec<Step<Owed>> {
    let to = |state, marks| Stepped::To { state, marks, owed: none };
    let list = [
        ("a from the start", 0, b'a', to(1, 1)),
        ("b from the start", 0, b'b', to(2, 2)),
        ("a from 1", 1, b'a', to(1, 1)),
        ("b from 1", 1, b'b', to(0, 1)),
        ("a from the dead state", 2, b'a', to(2, 2)),
        ("the letter before the state", 99, b'z', Stepped::Refused(27)),
        ("the letter before state n", 3, b'c', Stepped::Refused(27)),
        ("state n", 3, b'a', Stepped::Refused(28)),
        ("the greatest state", usize::MAX, b'b', Stepped::Refused(28)),
        ("state 256", 256, b'a', Stepped::Refused(28)),
        ("a letter not on the card", 0, b'c', Stepped::Refused(27)),
        ("byte 0", 0, 0, Stepped::Refused(27)),
        ("byte 255", 0, 255, Stepped::Refused(27)),
        ("a large letter", 0, b'A', Stepped::Refused(27)),
    ];
    list.into_iter().map(|(title, state, letter, due)| (title, FIRST_CARD.to_vec(), state, letter, due)).collect()
}

pub fn steps() -> Vec<Step> {
    let to = |state, marks| Stepped::To { state, marks, owed: 0 };
    let owing = |state, owed| Stepped::To { state, marks: 0, owed };
    let refused = Stepped::Refused;
    let (no_letters, all_letters): (_, Vec<u8>) = (|| NO_LETTERS_CARD.to_vec(), (b'a'..=b'z').collect());
    let mut list = first_card_steps(0);
    list.extend([
        // The card of `:ab`, `>a / .* _ .*b.*`.
        ("an a that wants a b", lay_out(b"ab", &[1, 0], &[1, 0, 1, 0]), 0, b'a', owing(1, 1)),
        ("its b", lay_out(b"ab", &[1, 0], &[1, 0, 1, 0]), 1, b'b', to(0, 1)),
        ("two are owed behind an a", two_bs(), 0, b'a', owing(1, 2)),
        ("and one behind a b", two_bs(), 1, b'b', owing(2, 1)),
        ("and none behind two", two_bs(), 2, b'b', to(0, 1)),
        ("and two behind one and an a", two_bs(), 2, b'a', owing(1, 2)),
        ("more owed than before", near_and_far(), 0, b'a', owing(1, 2)),
        ("less owed than before", near_and_far(), 1, b'a', owing(3, 1)),
        ("nothing owed any more", near_and_far(), 3, b'b', to(2, 1)),
        ("a letter that leaves no hope", near_and_far(), 1, b'b', to(4, 2)),
        ("a letter too many", near_and_far(), 2, b'b', to(4, 2)),
        ("one or none", even(), 1, b'a', owing(0, 1)),
        ("118 are owed", chain(b"a", 120), 0, b'a', owing(1, 118)),
        ("119 are owed again", chain(b"ab", 120), 60, b'b', owing(0, 119)),
        ("one is owed", chain(&all_letters, 120), 117, b'a', owing(118, 1)),
        ("none of 119 is owed", chain(&all_letters, 120), 118, b'a', to(119, 1)),
        ("no letters", no_letters(), 0, b'a', refused(27)),
        ("no letters, byte 0", no_letters(), 0, 0, refused(27)),
        ("no letters, state n", no_letters(), 1, b'a', refused(27)),
        ("no letters, the greatest state", no_letters(), usize::MAX, b'z', refused(27)),
        ("no letters, nothing", NO_LETTERS_NOTHING_CARD.to_vec(), 0, b'a', refused(27)),
        ("no letters, marks 1 as a letter", no_letters(), 0, 1, refused(27)),
    ]);
    // The card goes before letter and state.
    for (title, card, due) in loads() {
        if let Loaded::Refused(number) = due {
            for (state, letter) in [(0, b'a'), (1, b'b'), (0, b'?'), (999, b'a'), (usize::MAX, 0)] {
                list.push((title, card.clone(), state, letter, refused(number)));
            }
        }
    }
    list
}

/// On boards that were mounted before steps had a number.
pub fn mounted_steps() -> Vec<Step<()>> {
    let to = |state, marks| Stepped::To { state, marks, owed: () };
    let refused = Stepped::Refused;
    let bad_letters = || lay_out(b"AA", &[9, 255], &[1, 0, 0, 1]);
    let mut list = first_card_steps(());
    list.extend([
        ("no card", Vec::new(), 0, b'a', refused(21)),
        ("the card before letter and state", FIRST_CARD[..22].to_vec(), 99, b'z', refused(21)),
        ("a byte too many", [FIRST_CARD, &[0]].concat(), 0, b'a', refused(21)),
        ("letters that are none", bad_letters(), 0, b'A', to(1, 255)),
        ("the first column of a letter twice", bad_letters(), 1, b'A', to(0, 9)),
        ("falling letters, first column", lay_out(b"ba", &[7, 8], &[1, 0, 0, 1]), 0, b'b', to(1, 8)),
        ("a letter twice, second column astray", lay_out(b"aa", &[7], &[0, 9]), 0, b'a', to(0, 7)),
        ("a letter twice, first column astray", lay_out(b"aa", &[7], &[9, 0]), 0, b'a', refused(23)),
        ("this move astray", lay_out(b"ab", &[1, 2], &[2, 0, 1, 1]), 0, b'a', refused(23)),
        ("another move astray", lay_out(b"ab", &[1, 2], &[2, 0, 1, 1]), 0, b'b', to(0, 1)),
        ("a move to 255", lay_out(b"a", &[1], &[255]), 0, b'a', refused(23)),
        ("the state before the move", lay_out(b"a", &[1], &[255]), 1, b'a', refused(28)),
        ("the letter before the move", lay_out(b"a", &[1], &[255]), 0, b'b', refused(27)),
        ("marks handed back as they are", lay_out(b"a", &[1, 9], &[1, 0]), 0, b'a', to(1, 9)),
        ("a state not reached", lay_out(b"ab", &[1, 2], &[0, 0, 1, 1]), 1, b'a', to(1, 2)),
        ("two alike", lay_out(b"a", &[1, 1], &[1, 1]), 1, b'a', to(1, 1)),
        ("no letters", NO_LETTERS_CARD.to_vec(), 0, b'a', refused(27)),
        ("no letters, byte 0", NO_LETTERS_CARD.to_vec(), 0, 0, refused(27)),
        ("no letters, state n", NO_LETTERS_CARD.to_vec(), 1, b'a', refused(27)),
        ("no letters, the greatest state", NO_LETTERS_CARD.to_vec(), usize::MAX, b'z', refused(27)),
        ("no letters, nothing", NO_LETTERS_NOTHING_CARD.to_vec(), 0, b'a', refused(27)),
        ("no letters, marks 1 as a letter", NO_LETTERS_CARD.to_vec(), 0, 1, refused(27)),
        ("no letters, two states", lay_out(b"", &[1, 1], &[]), 1, b'a', refused(27)),
        ("no letters, wrong marks", lay_out(b"", &[9], &[]), 0, b'a', refused(27)),
        ("no letters, no states", lay_out(b"", &[], &[]), 0, b'a', refused(21)),
        ("no letters, a byte too many", [NO_LETTERS_CARD, &[0]].concat(), 0, b'a', refused(21)),
    ]);
    list
}

/// A card, a plan, and what judging answers.
pub fn judgings() -> Vec<(&'static str, Vec<u8>, Vec<u8>, Judged)> {
    let first = || FIRST_CARD.to_vec();
    let list: Vec<(&'static str, Vec<u8>, &[u8], Judged)> = vec![
        ("the empty plan", first(), b"", Judged::Allowed),
        ("ab", first(), b"ab", Judged::Allowed),
        ("abb", first(), b"abb", Judged::Hopeless(3)),
        ("b", first(), b"b", Judged::Hopeless(1)),
        ("later letters don't matter", first(), b"bbaab", Judged::Hopeless(1)),
        ("letters before the verdict", first(), b"bbbbc", Judged::ForeignLetter { before: 4 }),
        ("a space", first(), b"a b", Judged::ForeignLetter { before: 1 }),
        ("the first of two foreign letters", first(), b"abzazb", Judged::ForeignLetter { before: 2 }),
        ("a foreign letter first", first(), b"zab", Judged::ForeignLetter { before: 0 }),
        ("a line end", first(), b"ab\n", Judged::ForeignLetter { before: 2 }),
        ("a carriage return", first(), b"ab\r", Judged::ForeignLetter { before: 2 }),
        ("byte 0", first(), b"\0", Judged::ForeignLetter { before: 0 }),
        ("a large letter", first(), b"aB", Judged::ForeignLetter { before: 1 }),
        ("nothing is allowed", NOTHING_CARD.to_vec(), b"", Judged::Hopeless(0)),
        ("nothing is allowed, letters", NOTHING_CARD.to_vec(), b"ab", Judged::Hopeless(0)),
        ("nothing is allowed, foreign", NOTHING_CARD.to_vec(), b"abc", Judged::ForeignLetter { before: 2 }),
        ("everything is allowed", EVERYTHING_CARD.to_vec(), b"abba", Judged::Allowed),
        ("unfinished", even(), b"aa", Judged::Unfinished(1)),
        ("unfinished at once", even(), b"", Judged::Unfinished(1)),
        ("one owed at the start", near_and_far(), b"", Judged::Unfinished(1)),
        ("two owed behind one letter", near_and_far(), b"a", Judged::Unfinished(2)),
        ("one owed behind two letters", near_and_far(), b"aa", Judged::Unfinished(1)),
        ("none owed behind three", near_and_far(), b"aab", Judged::Allowed),
        ("letters before what is owed", near_and_far(), b"aac", Judged::ForeignLetter { before: 2 }),
        ("two owed", two_bs(), b"a", Judged::Unfinished(2)),
        ("one owed", two_bs(), b"ab", Judged::Unfinished(1)),
        ("two owed again", two_bs(), b"aba", Judged::Unfinished(2)),
        ("119 owed", chain(b"ab", 120), b"", Judged::Unfinished(119)),
        ("119 owed again", chain(b"ab", 120), b"aaab", Judged::Unfinished(119)),
        ("117 owed", chain(b"ab", 120), b"baa", Judged::Unfinished(117)),
        ("the card before letters", FIRST_CARD[..22].to_vec(), b"z", Judged::Refused(21)),
        ("no card", Vec::new(), b"", Judged::Refused(21)),
        ("letters of the card", lay_out(b"ba", &[1], &[0, 0]), b"a", Judged::Refused(22)),
        ("a move astray", lay_out(b"ab", &[1, 2], &[1, 2, 1, 1]), b"c", Judged::Refused(23)),
        ("numbering", lay_out(b"ab", &[1, 2], &[0, 0, 1, 1]), b"", Judged::Refused(24)),
        ("marks", lay_out(b"a", &[0], &[0]), b"a", Judged::Refused(25)),
        ("twins", lay_out(b"a", &[1, 1], &[1, 1]), b"a", Judged::Refused(26)),
        ("no letters", NO_LETTERS_CARD.to_vec(), b"", Judged::Allowed),
        ("no letters, a letter", NO_LETTERS_CARD.to_vec(), b"a", Judged::ForeignLetter { before: 0 }),
        ("no letters, two letters", NO_LETTERS_CARD.to_vec(), b"ab", Judged::ForeignLetter { before: 0 }),
        ("no letters, byte 0", NO_LETTERS_CARD.to_vec(), b"\0", Judged::ForeignLetter { before: 0 }),
        ("no letters, nothing", NO_LETTERS_NOTHING_CARD.to_vec(), b"", Judged::Hopeless(0)),
        ("no letters, nothing, a letter", NO_LETTERS_NOTHING_CARD.to_vec(), b"a", Judged::ForeignLetter { before: 0 }),
        ("no letters, two states", lay_out(b"", &[1, 2], &[]), b"", Judged::Refused(24)),
        ("no letters, two states, a letter", lay_out(b"", &[1, 2], &[]), b"a", Judged::Refused(24)),
        ("no letters, marks 0", lay_out(b"", &[0], &[]), b"", Judged::Refused(25)),
        ("no letters, marks 3, a letter", lay_out(b"", &[3], &[]), b"a", Judged::Refused(25)),
        ("no letters, no states", lay_out(b"", &[], &[]), b"", Judged::Refused(21)),
    ];
    list.into_iter().map(|(title, card, plan, due)| (title, card, plan.to_vec(), due)).collect()
}
