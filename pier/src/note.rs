//! Notes for slips that compile: a side that describes a whole stretch of the
//! day, an obliging rule whose middle may end anywhere, a book that allows every
//! plan, or none, a book without a rule or without anything. They are guesses, not
//! proved.

use crate::compile::Made;
use crate::{card, files, hint};
use std::path::Path;

const MOUNTED: &str = "boards mounted before there were cards without letters refuse it by 21";

/// The notes on an accepted book, a line each.
pub fn notes(book: &Path, made: &Made) -> String {
    let mut notes = sides(&made.text);
    notes.extend(whole(&made.text, &made.table.marks));
    notes.iter().map(|note| line(book, note)).collect()
}

/// The note on a card that loads here and not on every board.
pub fn of_card(path: &Path, card: &[u8]) -> String {
    if card::is_without_letters(card) {
        line(path, MOUNTED)
    } else {
        String::new()
    }
}

fn line(path: &Path, note: &str) -> String {
    format!("{}: note: {note}\n", files::shown(path))
}

/// A note on the book as a whole, by its text and its card's marks.
fn whole(text: &[u8], marks: &[u8]) -> Option<String> {
    match marks {
        _ if text.is_empty() => Some(format!(
            "this book is empty: its card has no letters, and only the empty plan can be judged; {MOUNTED}"
        )),
        [card::HOPELESS] => Some("this book allows no plan at all, not even the empty one".into()),
        [card::PLAN_MAY_END] if !has_rule(text) => {
            Some("this book has no rule (a line that begins with >, < or ^): it allows every plan".into())
        }
        [card::PLAN_MAY_END] => Some("this book allows every plan: its rules rule out nothing".into()),
        _ => None,
    }
}

fn has_rule(text: &[u8]) -> bool {
    text.split(|&byte| byte == b'\n').any(hint::is_rule)
}

/// What of an expression matters here. `open`: some alternative has at one of its
/// ends a part such as `.*`, `!(..)` or `@`, which tells that its writer thought
/// of the rest of the day. `wild`: it holds such a part or a `.` somewhere.
#[derive(Clone, Copy, Default)]
struct Shape {
    open: bool,
    wild: bool,
}

/// The definitions so far, by capital letter.
type Names = [Shape; 26];

/// The notes on the rules, line by line.
fn sides(text: &[u8]) -> Vec<String> {
    let mut names = Names::default();
    let mut notes = Vec::new();
    for line in 2.. {
        let Some((bytes, _)) = hint::line_of(text, line) else { break };
        let bytes: Vec<u8> = bytes.iter().copied().filter(|&byte| byte != b' ').collect();
        match bytes[..] {
            [b'=', name, ref meaning @ ..] => names[usize::from(name - b'A')] = choice(&mut Cursor(meaning), &names),
            [sign, ref rule @ ..] if hint::is_rule(&bytes) => {
                notes.extend(of_rule(sign, rule, &names).map(|note| format!("line {line}: {note}")))
            }
            _ => {}
        }
    }
    notes
}

/// A note for each side that is closed at both ends; in an obliging rule with a
/// closed pattern also for each side that lets the middle begin or end anywhere.
fn of_rule<'a>(sign: u8, rule: &'a [u8], names: &'a Names) -> impl Iterator<Item = String> + 'a {
    let open = |part: &[u8]| choice(&mut Cursor(part), names).open;
    let mut parts = rule.split(|&byte| byte == b'/');
    let obliged = !open(parts.next().unwrap_or_default()) && sign == b'^';
    let sides = parts.flat_map(|context| context.split(|&byte| byte == b'_').zip([Side::Left, Side::Right]));
    sides.filter_map(move |(side, which)| match open(side) {
        false => Some(which.closed(side, if sign == b'^' { "middle" } else { "pattern" })),
        true => which.loose(side).filter(|_| obliged),
    })
}

#[derive(Clone, Copy)]
enum Side {
    Left,
    Right,
}

impl Side {
    fn closed(self, side: &[u8], middle: &str) -> String {
        let text = String::from_utf8_lossy(side);
        let part = if side.iter().any(|byte| b"|&-".contains(byte)) { format!("({text})") } else { text.to_string() };
        let (which, place, wider) = match self {
            Side::Left => ("left", "before", format!(".*{part}")),
            Side::Right => ("right", "behind", format!("{part}.*")),
        };
        format!(
            "the {which} side {text} describes the whole rest of the day {place} the {middle}; \
             write {wider} if more may stand there"
        )
    }

    /// On a side that is open towards the middle.
    fn loose(self, side: &[u8]) -> Option<String> {
        const EVERY: &str = "so every middle must be of the pattern, however short or long";
        let text = String::from_utf8_lossy(side);
        match self {
            Side::Left if side.ends_with(b".*") => Some(format!(
                "the left side {text} lets the middle begin anywhere, {EVERY}; end it with what comes before, \
                 or write @ for the beginning of the day"
            )),
            Side::Right if side.starts_with(b".*") => Some(format!(
                "the right side {text} lets the middle end anywhere, {EVERY}; begin it with what comes next, \
                 or write @ for the end of the day"
            )),
            _ => None,
        }
    }
}

/// The bytes that are still to read. The book was accepted, so they are of its form.
struct Cursor<'a>(&'a [u8]);

impl Cursor<'_> {
    /// Takes the next byte, if it is one of these.
    fn take(&mut self, signs: &[u8]) -> Option<u8> {
        let (&first, rest) = self.0.split_first()?;
        signs.contains(&first).then(|| {
            self.0 = rest;
            first
        })
    }
}

fn either(a: Shape, b: Shape) -> Shape {
    Shape { open: a.open || b.open, wild: a.wild || b.wild }
}

fn choice(cursor: &mut Cursor, names: &Names) -> Shape {
    let mut shape = chain(cursor, names);
    while cursor.take(b"|&-").is_some() {
        shape = either(shape, chain(cursor, names));
    }
    shape
}

fn chain(cursor: &mut Cursor, names: &Names) -> Shape {
    let first = item(cursor, names);
    let (mut last, mut wild) = (first, first.wild);
    while cursor.0.first().is_some_and(|next| !b"|&-)".contains(next)) {
        last = item(cursor, names);
        wild |= last.wild;
    }
    Shape { open: first.open || last.open, wild }
}

fn item(cursor: &mut Cursor, names: &Names) -> Shape {
    let mut not = false;
    while cursor.take(b"!").is_some() {
        not = true;
    }
    let mut shape = atom(cursor, names);
    while let Some(sign) = cursor.take(b"*+?") {
        shape.open |= shape.wild && sign != b'?';
    }
    either(shape, Shape { open: not, wild: not })
}

fn atom(cursor: &mut Cursor, names: &Names) -> Shape {
    let Some((&first, rest)) = cursor.0.split_first() else { return Shape::default() };
    cursor.0 = rest;
    match first {
        b'(' => {
            let shape = choice(cursor, names);
            cursor.take(b")");
            shape
        }
        b'A'..=b'Z' => names[usize::from(first - b'A')],
        b'@' => Shape { open: true, wild: true },
        _ => Shape { open: false, wild: first == b'.' },
    }
}

#[cfg(test)]
mod tests {
    use super::*;

    fn of(rule: &str) -> Vec<String> {
        sides(format!(":abc\n=A ab\n=B .*a\n=C (b|c)*\n{rule}\n").as_bytes())
    }

    #[test]
    fn a_book_as_a_whole_is_noted() {
        for (text, marks, words) in [
            ("", &[1][..], "this book is empty"),
            (":ab\n", &[1], "has no rule"),
            (":ab\n=A ab\n", &[1], "has no rule"),
            (":ab\n=A ab\n>A / .* _ .*\n", &[1], "rule out nothing"),
            (":ab\n>@ / a _ .*\n", &[2], "no plan at all"),
        ] {
            assert!(whole(text.as_bytes(), marks).is_some_and(|note| note.contains(words)), "{text}");
        }
        assert_eq!(whole(b":ab\n>a\n", &[1, 2]), None);
        assert!(sides(b"").is_empty() && sides(b":ab\n").is_empty());
        assert!(has_rule(b":ab\n=A a\n<A / .*b _ .*\n") && has_rule(b":ab\n^(ab)* / @ _ @\n"));
    }

    #[test]
    fn a_card_without_letters_is_noted() {
        let path = Path::new("x.card");
        let noted = of_card(path, &card::without_letters(card::PLAN_MAY_END));
        assert!(noted.starts_with("x.card: note: boards mounted before"), "{noted}");
        assert_eq!(of_card(path, &card::FIRST_CARD), "");
    }

    #[test]
    fn closed_sides_are_noted() {
        for (rule, side) in [
            (">b / a _ .*", "the left side a "),
            (">b / .*a _ c", "the right side c "),
            (">b / .* _ a|bc", "write (a|bc).* if"),
            (">b / A _ .*", "the left side A "),
            (">b / C _ .*", "write .*C if"),
            (">b / .* _ .* / .* _ a", "the right side a "),
            (">b / .. _ .*", "the left side .. "),
            ("<b / a _ .*", "before the pattern; write .*a if"),
            ("^b.* / .*a _ @ / a _ @", "before the middle; write .*a if"),
        ] {
            let notes = of(rule);
            assert!(
                notes.len() == 1 && notes[0].starts_with("line 5: ") && notes[0].contains(side),
                "{rule} {notes:?}"
            );
        }
        assert_eq!(of(">b / a _ c").len(), 2);
    }

    #[test]
    fn loose_sides_of_an_obliging_rule_are_noted() {
        for (rule, side) in [
            ("^b / .*a _ .*", "the right side .* lets the middle end anywhere"),
            ("^C / .*a.* _ b.*", "the left side .*a.* lets the middle begin anywhere"),
            ("^A / .*a _ .*c.*", "begin it with what comes next, or write @"),
        ] {
            let notes = of(rule);
            assert!(
                notes.len() == 1 && notes[0].starts_with("line 5: ") && notes[0].contains(side),
                "{rule} {notes:?}"
            );
        }
        assert_eq!(of("^a / .* _ .*").len(), 2);
    }

    #[test]
    fn open_sides_are_not() {
        for rule in [
            ">b",
            ">b / .*a _ c.*",
            ">b / a.* _ .*c",
            ">b / @ _ @",
            ">b / B _ .+",
            ">b / C|.*aC _ .*",
            ">b / !(.*a.*) _ .*a!(b)",
            ">b / (...)* _ (.*a)",
            "<b / .*a _ .*",
            "^A / @ _ @",
            "^C|.*a.* / .*a _ a.*",
            "^b.* / .*a _ @",
            "^.*b.* / .*a _ .*",
        ] {
            assert!(of(rule).is_empty(), "{rule} {:?}", of(rule));
        }
    }
}
