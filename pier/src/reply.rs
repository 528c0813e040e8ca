//! The replies in words, and what explains them.

use crate::proved::{Judged, Shortest};
use crate::words::count;

const ALLOWED_LINE: &str = "allowed\n";
pub const ALLOWED: &str = ALLOWED_LINE.trim_ascii_end();
pub const UNFINISHED: &str = "unfinished";
pub const HOPELESS: &str = "hopeless";
pub const REFUSED: &str = "refused";
pub const NONE: &str = "none";
pub const STRETCH: &str = "stretch";

/// What is said of a hopeless plan without a stretch: it lies inside some allowed
/// plan, though not at its beginning.
const NO_STRETCH: &str = "no stretch: could stand later in a day";

const FOREIGN_LETTER: u64 = 27;

/// The reply as the judging program prints it, without a line end.
pub fn push(out: &mut Vec<u8>, judged: Judged) {
    let (word, number) = match judged {
        Judged::Allowed => (ALLOWED, None),
        Judged::Unfinished(owed) => (UNFINISHED, Some(owed)),
        Judged::Hopeless(place) => (HOPELESS, Some(place)),
        Judged::UnknownLetter { .. } => (REFUSED, Some(FOREIGN_LETTER)),
        Judged::Refused(number) => (REFUSED, Some(number)),
    };
    out.extend_from_slice(word.as_bytes());
    match number {
        None => {}
        Some(number @ 0..=9) => out.extend_from_slice(&[b' ', b'0' + number as u8]),
        Some(number) => out.extend_from_slice(format!(" {number}").as_bytes()),
    }
}

/// The same with a line end; of a million replies most are this one.
#[inline]
pub fn push_line(out: &mut Vec<u8>, judged: Judged) {
    match judged {
        Judged::Allowed => out.extend_from_slice(ALLOWED_LINE.as_bytes()),
        _ => {
            push(out, judged);
            out.push(b'\n');
        }
    }
}

/// What is owed, in words, behind the reply to an unfinished plan.
pub fn push_owed(out: &mut Vec<u8>, owed: u64) {
    out.extend_from_slice(format!("at least {}", count(owed as usize, "more letter")).as_bytes());
}

/// The shortest stretch in words.
pub fn push_shortest(out: &mut Vec<u8>, found: Shortest) {
    let words = match found {
        Shortest::None => return out.extend_from_slice(NONE.as_bytes()),
        Shortest::At { start, length } => format!("{STRETCH} {start} {length}"),
        Shortest::UnknownLetter { .. } => format!("{REFUSED} {FOREIGN_LETTER}"),
        Shortest::Refused(number) => format!("{REFUSED} {number}"),
    };
    out.extend_from_slice(words.as_bytes());
}

/// The same behind the reply to a hopeless plan.
pub fn push_blame(out: &mut Vec<u8>, found: Shortest) {
    match found {
        Shortest::None => out.extend_from_slice(NO_STRETCH.as_bytes()),
        found => push_shortest(out, found),
    }
}

/// The plan with a sign at the reply's place: `!` behind the letters that are
/// hopeless, `?` before a letter that is not on the card.
pub fn push_plan(out: &mut Vec<u8>, plan: &[u8], judged: Judged) {
    match judged {
        Judged::Hopeless(place) => push_signs(out, plan, &[(place as usize, b'!')]),
        Judged::UnknownLetter { before } => push_signs(out, plan, &[(before as usize, b'?')]),
        _ => push_signs(out, plan, &[]),
    }
}

/// The plan with its stretch in square brackets, or `?` before a letter that is
/// not on the card.
pub fn push_bracketed(out: &mut Vec<u8>, plan: &[u8], found: Shortest) {
    match found {
        Shortest::At { start, length } => push_signs(out, plan, &[(start, b'['), (start + length, b']')]),
        Shortest::UnknownLetter { before } => push_signs(out, plan, &[(before as usize, b'?')]),
        _ => push_signs(out, plan, &[]),
    }
}

/// The plan with signs at rising places.
fn push_signs(out: &mut Vec<u8>, plan: &[u8], signs: &[(usize, u8)]) {
    let plan = shown(plan);
    let mut from = 0;
    for &(place, sign) in signs {
        out.extend_from_slice(&plan[from..place]);
        out.push(sign);
        from = place;
    }
    out.extend_from_slice(&plan[from..]);
}

/// A plan as it is shown.
pub fn shown(plan: &[u8]) -> &[u8] {
    if plan.is_empty() {
        b"(empty)"
    } else {
        plan
    }
}

#[cfg(test)]
mod tests {
    use super::*;
    use crate::card::{FIRST_CARD, OWING_CARD};
    use crate::proved;

    fn explained_by(card: &[u8], plan: &[u8]) -> String {
        let judged = proved::judge(card, plan);
        let mut out = Vec::new();
        push_plan(&mut out, plan, judged);
        out.push(b'\t');
        push(&mut out, judged);
        String::from_utf8(out).unwrap()
    }

    fn explained(plan: &[u8]) -> String {
        explained_by(&FIRST_CARD, plan)
    }

    #[test]
    fn replies_of_a_card_that_owes() {
        assert_eq!(explained_by(&OWING_CARD, b"a"), "a\tunfinished 2");
        assert_eq!(explained_by(&OWING_CARD, b"ab"), "ab\tunfinished 1");
        assert_eq!(explained_by(&OWING_CARD, b"abb"), "abb\tallowed");
        let mut out = Vec::new();
        push_line(&mut out, Judged::Unfinished(119));
        assert_eq!(out, b"unfinished 119\n");
    }

    #[test]
    fn what_is_owed_in_words() {
        for (owed, words) in [(1, "at least 1 more letter"), (2, "at least 2 more letters")] {
            let mut out = Vec::new();
            push_owed(&mut out, owed);
            assert_eq!(out, words.as_bytes());
        }
    }

    #[test]
    fn replies_of_the_first_paper_card() {
        assert_eq!(explained(b"ab"), "ab\tallowed");
        assert_eq!(explained(b"bab"), "b!ab\thopeless 1");
        assert_eq!(explained(b"abb"), "abb!\thopeless 3");
        assert_eq!(explained(b"abc"), "ab?c\trefused 27");
        assert_eq!(explained(b""), "(empty)\tallowed");
        assert_eq!(explained(&b"ab".repeat(60)[1..]), format!("b!{}\thopeless 1", "ab".repeat(59)));
        let mut out = Vec::new();
        push(&mut out, Judged::Hopeless(123_456));
        push(&mut out, Judged::Refused(21));
        assert_eq!(out, b"hopeless 123456refused 21");
    }

    fn bracketed(card: &[u8], plan: &[u8]) -> String {
        let found = proved::shortest(card, plan);
        let mut out = Vec::new();
        push_bracketed(&mut out, plan, found);
        for push in [push_shortest, push_blame] {
            out.push(b'\t');
            push(&mut out, found);
        }
        String::from_utf8(out).unwrap()
    }

    #[test]
    fn stretches_of_the_first_paper_card_and_of_one_that_allows_nothing() {
        assert_eq!(bracketed(&FIRST_CARD, b"bab"), format!("bab\tnone\t{NO_STRETCH}"));
        assert_eq!(bracketed(&FIRST_CARD, b"babbabb"), "ba[bb]abb\tstretch 2 2\tstretch 2 2");
        assert_eq!(bracketed(&FIRST_CARD, b"abc"), "ab?c\trefused 27\trefused 27");
        assert_eq!(bracketed(&FIRST_CARD, b""), format!("(empty)\tnone\t{NO_STRETCH}"));
        assert_eq!(bracketed(&FIRST_CARD[1..], b"ab"), "ab\trefused 21\trefused 21");
        const NOTHING: [u8; 15] = [0x0C, 0, 1, 0, 0x0D, 0, 1, 0, 0x0E, 0, 1, 0, 0x61, 2, 0];
        assert_eq!(bracketed(&NOTHING, b"aa"), "[]aa\tstretch 0 0\tstretch 0 0");
        assert_eq!(bracketed(&NOTHING, b""), "[](empty)\tstretch 0 0\tstretch 0 0");
    }
}
