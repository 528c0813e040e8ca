//! Cards and plans with the shortest stretch that lies inside no allowed plan.

use crate::entry::Shortest;
use crate::examples::{EVERYTHING_CARD, FIRST_CARD, NOTHING_CARD, NO_A_CARD, NO_LETTERS_CARD, NO_LETTERS_NOTHING_CARD};
use reference::card::lay_out;

/// At most one a.
pub fn one_a() -> Vec<u8> {
    lay_out(b"ab", &[1, 1, 2], &[1, 0, 2, 1, 2, 2])
}

pub fn only_ab() -> Vec<u8> {
    lay_out(b"ab", &[0, 0, 2, 1], &[1, 2, 2, 3, 2, 2, 2, 2])
}

pub fn four_at_most() -> Vec<u8> {
    lay_out(b"a", &[1, 1, 1, 1, 1, 2], &[1, 2, 3, 4, 5, 5])
}

/// A card, a plan, and what is due.
pub fn all() -> Vec<(&'static str, Vec<u8>, Vec<u8>, Shortest)> {
    let at = |start, length| Shortest::At { start, length };
    let foreign = |before| Shortest::ForeignLetter { before };
    let (none, refused) = (|| Shortest::None, Shortest::Refused);
    // b only right behind an a, so the only stretch that can't be is bb.
    let first = || FIRST_CARD.to_vec();
    let (no_a, nothing, everything) = (NO_A_CARD.to_vec(), NOTHING_CARD.to_vec(), EVERYTHING_CARD.to_vec());
    let (no_letters, no_plan) = (|| NO_LETTERS_CARD.to_vec(), || NO_LETTERS_NOTHING_CARD.to_vec());
    // A plan begins with a; what comes then is free.
    let a_first = || lay_out(b"ab", &[0, 1, 2], &[1, 2, 1, 1, 2, 2]);
    let only_empty = || lay_out(b"a", &[1, 2], &[1, 1]);
    let even = || lay_out(b"a", &[1, 0], &[1, 0]);
    let just_four = || lay_out(b"a", &[0, 0, 0, 0, 1, 2], &[1, 2, 3, 4, 5, 5]);
    let no_aaa_no_bb = || lay_out(b"ab", &[1, 1, 1, 1, 2], &[1, 2, 3, 2, 1, 4, 4, 2, 4, 4]);
    // 118 a's, then only b's; so a b comes from one state alone. The dead state
    // is the second to be reached.
    let late_b = || {
        let mut moves: Vec<u8> = vec![1, 2, 3, 2, 2, 2];
        moves.extend((4..120).flat_map(|next| [next, 2]));
        moves.extend([2, 119]);
        let mut marks = [0; 120];
        (marks[2], marks[119]) = (2, 1);
        lay_out(b"ab", &marks, &moves)
    };
    // a and b by turns, an a first.
    let turns = || lay_out(b"ab", &[1, 1, 2], &[1, 2, 2, 0, 2, 2]);
    let list: Vec<(&'static str, Vec<u8>, &[u8], Shortest)> = vec![
        ("the empty plan", first(), b"", none()),
        ("allowed", first(), b"abaab", none()),
        ("hopeless, but b lies inside ab", first(), b"b", none()),
        ("hopeless at once, nothing to blame", first(), b"baab", none()),
        ("the whole plan", first(), b"bb", at(0, 2)),
        ("at the end", first(), b"abb", at(1, 2)),
        ("at the beginning", first(), b"bba", at(0, 2)),
        ("in the middle", first(), b"aabbaa", at(2, 2)),
        ("the leftmost of two", first(), b"abbabb", at(1, 2)),
        ("the leftmost of two that share a letter", first(), b"abbb", at(1, 2)),
        ("one letter over and over", first(), b"bbbbbbbb", at(0, 2)),
        ("one letter over and over, allowed", first(), b"aaaaaaaa", none()),
        ("behind the place where judging ends", first(), b"babb", at(2, 2)),
        ("no a: one letter", no_a.clone(), b"a", at(0, 1)),
        ("no a: the first of three", no_a.clone(), b"bbabaa", at(2, 1)),
        ("no a: none", no_a, b"bbb", none()),
        ("nothing is allowed, the empty plan", nothing.clone(), b"", at(0, 0)),
        ("nothing is allowed, letters", nothing.clone(), b"ab", at(0, 0)),
        ("nothing is allowed, foreign", nothing, b"abc", foreign(2)),
        ("everything is allowed", everything.clone(), b"abba", none()),
        ("everything is allowed, the empty plan", everything, b"", none()),
        ("no letters, the empty plan", no_letters(), b"", none()),
        ("no letters, a letter", no_letters(), b"a", foreign(0)),
        ("no letters, three letters", no_letters(), b"aba", foreign(0)),
        ("no letters and nothing is allowed", no_plan(), b"", at(0, 0)),
        ("no letters and nothing is allowed, a letter", no_plan(), b"a", foreign(0)),
        ("a first: allowed", a_first(), b"ab", none()),
        ("a first: hopeless, nothing to blame", a_first(), b"bbb", none()),
        ("a first: unfinished", a_first(), b"", none()),
        ("ab: itself", only_ab(), b"ab", none()),
        ("ab: unfinished", only_ab(), b"a", none()),
        ("ab: its end", only_ab(), b"b", none()),
        ("ab: twice", only_ab(), b"abab", at(1, 2)),
        ("ab: an a before", only_ab(), b"aab", at(0, 2)),
        ("ab: a b behind", only_ab(), b"abb", at(1, 2)),
        ("ab: turned round", only_ab(), b"ba", at(0, 2)),
        ("the empty plan alone: itself", only_empty(), b"", none()),
        ("the empty plan alone: a letter", only_empty(), b"a", at(0, 1)),
        ("the empty plan alone: letters", only_empty(), b"aaa", at(0, 1)),
        ("even: unfinished", even(), b"aaa", none()),
        ("even: allowed", even(), b"aaaa", none()),
        ("four at most: four", four_at_most(), b"aaaa", none()),
        ("four at most: five", four_at_most(), b"aaaaa", at(0, 5)),
        ("four at most: nine", four_at_most(), b"aaaaaaaaa", at(0, 5)),
        ("just four: unfinished", just_four(), b"aa", none()),
        ("just four: four", just_four(), b"aaaa", none()),
        ("just four: six", just_four(), b"aaaaaa", at(0, 5)),
        ("a shorter one later", no_aaa_no_bb(), b"aaabb", at(3, 2)),
        ("a shorter one earlier", no_aaa_no_bb(), b"bbaaa", at(0, 2)),
        ("the longer kind alone", no_aaa_no_bb(), b"aabaaab", at(3, 3)),
        ("one a: between its two", one_a(), b"babbbab", at(1, 5)),
        ("one a: the shorter of two", one_a(), b"abbbabba", at(4, 4)),
        ("one a: the leftmost of two", one_a(), b"ababa", at(0, 3)),
        ("one a: hopeless from the second", one_a(), b"abba", at(0, 4)),
        ("one a: none", one_a(), b"bbabb", none()),
        ("late b: b's", late_b(), b"bbb", none()),
        ("late b: from the last state but one", late_b(), b"abb", none()),
        ("late b: an a behind", late_b(), b"aabba", at(3, 2)),
        ("late b: too many a's", late_b(), &[b'a'; 130], at(0, 119)),
        ("turns: hopeless, nothing to blame", turns(), b"bababa", none()),
        ("turns: twice the same", turns(), b"babaab", at(3, 2)),
        ("letters before the stretch", first(), b"bbbbc", foreign(4)),
        ("the first of two foreign letters", first(), b"abzazb", foreign(2)),
        ("a foreign letter first", first(), b"zbb", foreign(0)),
        ("a line end", first(), b"ab\n", foreign(2)),
        ("a large letter", first(), b"aB", foreign(1)),
        ("byte 0", first(), b"\0", foreign(0)),
        ("the card before letters", FIRST_CARD[..22].to_vec(), b"z", refused(21)),
        ("no card", Vec::new(), b"", refused(21)),
        ("letters of the card", lay_out(b"ba", &[1], &[0, 0]), b"a", refused(22)),
        ("a move astray", lay_out(b"ab", &[1, 2], &[1, 2, 1, 1]), b"c", refused(23)),
        ("numbering", lay_out(b"ab", &[1, 2], &[0, 0, 1, 1]), b"", refused(24)),
        ("marks", lay_out(b"a", &[0], &[0]), b"a", refused(25)),
        ("marks, a foreign letter", lay_out(b"a", &[0], &[0]), b"b", refused(25)),
        ("twins", lay_out(b"a", &[1, 1], &[1, 1]), b"a", refused(26)),
        ("twins, both dead", lay_out(b"ab", &[1, 2, 2], &[1, 2, 1, 1, 2, 2]), b"", refused(26)),
        ("no letters, no states", lay_out(b"", &[], &[]), b"", refused(21)),
        ("no letters, a byte too many", [NO_LETTERS_CARD, &[0]].concat(), b"", refused(21)),
        ("no letters, two states", lay_out(b"", &[1, 2], &[]), b"", refused(24)),
        ("no letters, two states, a letter", lay_out(b"", &[2, 2], &[]), b"a", refused(24)),
        ("no letters, marks 0", lay_out(b"", &[0], &[]), b"", refused(25)),
        ("no letters, marks 3, a letter", lay_out(b"", &[3], &[]), b"a", refused(25)),
    ];
    list.into_iter().map(|(title, card, plan, due)| (title, card, plan.to_vec(), due)).collect()
}
