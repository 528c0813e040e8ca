//! Where to look in a refused line. The number and the line are the proved
//! compiler's; this is only a guess at the byte, and not proved.

use crate::stray;

/// A place in the line, counted from 0, and what is wrong there.
#[derive(Clone, PartialEq, Eq, Debug)]
pub struct Hint {
    pub column: Option<usize>,
    pub text: String,
}

/// Does a card begin so? Its letters stand at byte 12.
pub fn is_card(text: &[u8]) -> bool {
    text.starts_with(&[12, 0])
}

fn at(column: usize, text: impl Into<String>) -> Option<Hint> {
    Some(Hint { column: Some(column), text: text.into() })
}

fn whole(text: impl Into<String>) -> Option<Hint> {
    Some(Hint { column: None, text: text.into() })
}

/// The line's bytes without its end, and whether it has one.
pub fn line_of(text: &[u8], line: usize) -> Option<(&[u8], bool)> {
    let mut lines = text.split_inclusive(|&byte| byte == b'\n');
    let found = lines.nth(line.checked_sub(1)?)?;
    Some(match found.split_last() {
        Some((b'\n', rest)) => (rest, true),
        _ => (found, false),
    })
}

/// What to look at for refusals 3 to 7.
pub fn hint(text: &[u8], number: u64, line: usize) -> Option<Hint> {
    let (bytes, ended) = line_of(text, line)?;
    match number {
        5 if line == 1 && is_card(text) => whole(
            "these bytes begin as a card does; pier judge, stretch, count, show, draw, page, compare and check take cards",
        ),
        3 => at(fifth_bracket(bytes)?, "the fifth open bracket"),
        4 => at(positions(bytes, b'_').nth(4)?, "the fifth _"),
        5 if bytes.contains(&b'\r') => at(
            positions(bytes, b'\r').next()?,
            "byte 0x0D: save the book with plain line ends (0x0A alone), not those of Windows",
        ),
        5 if !ended => whole("the last line lacks its line end: end the file with a newline"),
        5 if line == 1 => first_line(bytes),
        5 => later_line(bytes),
        6 => stranger(text, bytes, line),
        7 => taken(text, bytes, line),
        _ => None,
    }
}

fn positions(bytes: &[u8], sign: u8) -> impl Iterator<Item = usize> + '_ {
    bytes.iter().enumerate().filter(move |&(_, &byte)| byte == sign).map(|(column, _)| column)
}

fn fifth_bracket(bytes: &[u8]) -> Option<usize> {
    let mut open = 0i64;
    bytes.iter().position(|&byte| {
        open += i64::from(byte == b'(') - i64::from(byte == b')');
        open > 4
    })
}

fn first_line(bytes: &[u8]) -> Option<Hint> {
    const WITHOUT: &str = "a book without letters is a file of no bytes";
    if bytes.is_empty() {
        return whole(format!("line 1 is empty: write : and the port's letters, as in :ab; {WITHOUT}"));
    }
    if let Some(words) = stray::character(bytes, 0) {
        return at(0, words);
    }
    if bytes[0] != b':' {
        return whole("line 1 is : and the port's letters, as in :ab");
    }
    if bytes.len() == 1 {
        return whole(format!("line 1 names no letter: write 1 to 26 of them behind the :, as in :ab; {WITHOUT}"));
    }
    if let Some(column) = bytes.iter().skip(1).position(|byte| !byte.is_ascii_lowercase()) {
        let column = column + 1;
        let what = stray::character(bytes, column).map_or(String::new(), |words| format!("{words}; "));
        return at(column, format!("{what}line 1 holds only letters a to z behind the :, and no spaces"));
    }
    let column = bytes.windows(2).skip(1).position(|pair| pair[0] >= pair[1])?;
    at(column + 2, "the letters of line 1 stand in the order of the alphabet, each once")
}

fn later_line(bytes: &[u8]) -> Option<Hint> {
    match bytes.first() {
        None => return whole("an empty line: take it out (a book has no blank lines)"),
        Some(b' ') => return at(0, "a line may not begin with a space"),
        Some(b'\t') => return at(0, "a tab: a line may not begin with a space or a tab"),
        Some(_) => {}
    }
    if let Some((column, words)) = stray::operator(bytes).filter(|_| stray::is_sign(bytes[0])) {
        return at(column, words);
    }
    if bytes[0] != b'=' && !is_rule(bytes) {
        return at(0, "a line below line 1 begins with = (a definition), or >, < or ^ (a rule); there are no comments");
    }
    if let Some(column) = bytes.iter().position(|&byte| !stray::is_sign(byte)) {
        return at(column, stray::words(bytes, column));
    }
    if let Some(column) = bytes.iter().skip(1).position(|byte| b":=><^".contains(byte)) {
        let power = match bytes[column + 1] {
            b'^' => "; a repetition is written *, + or ?, or the part as often as it stands",
            _ => "",
        };
        return at(column + 1, format!("this sign stands only at the beginning of a line{power}"));
    }
    let definition = if bytes[0] == b'=' { definition(bytes) } else { None };
    definition.or_else(|| unbalanced(bytes)).or_else(|| contexts(bytes)).or_else(|| gap(bytes)).or_else(|| alone(bytes))
}

/// A definition's name, and that it has no contexts.
fn definition(bytes: &[u8]) -> Option<Hint> {
    match name_of(bytes) {
        Some((_, b'A'..=b'Z')) => {}
        Some((column, name @ b'a'..=b'z')) => {
            let capital = name.to_ascii_uppercase() as char;
            return at(column, format!("a name is one capital letter: write ={capital}, then what it means"));
        }
        Some((column, _)) => return at(column, "a definition is = and one capital letter, then what it means"),
        None => return whole("a definition is = and one capital letter, then what it means, as in =A ab"),
    }
    let column = bytes.iter().position(|byte| b"/_".contains(byte))?;
    at(column, "a definition has no contexts; only a rule has")
}

/// Does a rule begin so?
pub fn is_rule(line: &[u8]) -> bool {
    line.first().is_some_and(|sign| b"><^".contains(sign))
}

/// The first place where a letter, a name, `.`, `@` or a bracket is missing.
fn gap(bytes: &[u8]) -> Option<Hint> {
    let first = if bytes[0] == b'=' { name_of(bytes)?.0 + 1 } else { 1 };
    let mut missing = true;
    for (column, &byte) in bytes.iter().enumerate().skip(first) {
        match byte {
            b' ' => {}
            b'(' | b'!' => missing = true,
            b')' | b'*' | b'+' | b'?' if !missing => {}
            b'|' | b'&' | b'-' | b'/' | b'_' if !missing => missing = true,
            _ if byte.is_ascii_alphabetic() || b".@".contains(&byte) => missing = false,
            _ => return at(column, "something is missing before this sign (the empty plan is written @)"),
        }
    }
    at(bytes.len(), "something is missing at the end (the empty plan is written @)").filter(|_| missing)
}

/// A forbidding or obliging rule without a context.
fn alone(bytes: &[u8]) -> Option<Hint> {
    let text = match bytes[0] {
        b'<' => "a rule with < needs a context: write / .* _ .* behind it if the pattern may never stand",
        b'^' => "a rule with ^ needs a context: write / @ _ @ behind it if the pattern is the whole day",
        _ => return None,
    };
    at(bytes.len(), text)
}

fn unbalanced(bytes: &[u8]) -> Option<Hint> {
    let mut open = Vec::new();
    for (column, &byte) in bytes.iter().enumerate() {
        match byte {
            b'(' => open.push(column),
            b')' if open.pop().is_none() => return at(column, "a bracket closes that was not opened"),
            _ => {}
        }
    }
    open.last().and_then(|&column| at(column, "this bracket is not closed"))
}

/// In a rule `/` and `_` take turns, outside brackets.
fn contexts(bytes: &[u8]) -> Option<Hint> {
    let mut due = b'/';
    let mut depth = 0i64;
    for (column, &byte) in bytes.iter().enumerate() {
        depth += i64::from(byte == b'(') - i64::from(byte == b')');
        if byte != b'/' && byte != b'_' {
            continue;
        }
        if depth != 0 {
            return at(column, "a context can't stand in brackets");
        }
        if byte != due {
            return at(column, "a context is / left _ right: / and _ take turns");
        }
        due = if byte == b'/' { b'_' } else { b'/' };
    }
    match due {
        b'_' => whole("the last context lacks its _ and right side: a context is / left _ right"),
        _ => None,
    }
}

/// The place of the byte after `=` and spaces, and the byte.
fn name_of(bytes: &[u8]) -> Option<(usize, u8)> {
    let column = bytes.iter().skip(1).position(|&byte| byte != b' ')? + 1;
    Some((column, bytes[column]))
}

/// The line above that defines a name.
fn defined(text: &[u8], name: u8, below: usize) -> Option<usize> {
    (2..below).find(|&line| {
        line_of(text, line).is_some_and(|(bytes, _)| {
            bytes.first() == Some(&b'=') && name_of(bytes).is_some_and(|(_, found)| found == name)
        })
    })
}

fn stranger(text: &[u8], bytes: &[u8], line: usize) -> Option<Hint> {
    let letters = line_of(text, 1)?.0.get(1..)?;
    let skipped = if bytes.first() == Some(&b'=') { name_of(bytes)?.0 } else { 0 };
    let unknown = |byte: u8| match byte {
        b'a'..=b'z' => !letters.contains(&byte),
        b'A'..=b'Z' => defined(text, byte, line).is_none(),
        _ => false,
    };
    let column = skipped + 1 + bytes.iter().skip(skipped + 1).position(|&byte| unknown(byte))?;
    let sign = bytes[column] as char;
    if sign.is_ascii_lowercase() {
        return at(column, format!("{sign} is not among the letters of line 1"));
    }
    let joined = if column == skipped + 1 && skipped > 0 { "; a name is one capital letter alone" } else { "" };
    at(column, format!("{sign} is not defined on a line above{joined}"))
}

fn taken(text: &[u8], bytes: &[u8], line: usize) -> Option<Hint> {
    let (column, name) = name_of(bytes)?;
    at(column, format!("{} is defined on line {}", name as char, defined(text, name, line)?))
}

/// The line as it is shown: at most 100 bytes around the place, stray bytes as
/// \xNN, and below it an arrow at the place.
pub fn picture(line: usize, bytes: &[u8], column: Option<usize>) -> String {
    const MOST: usize = 100;
    let first = column.map_or(0, |column| (column + 20).saturating_sub(MOST));
    let last = bytes.len().min(first + MOST);
    let mut shown = String::from(if first > 0 { "..." } else { "" });
    let mut arrow = 0;
    for (place, &byte) in bytes.iter().enumerate().take(last).skip(first) {
        if Some(place) == column {
            arrow = shown.len();
        }
        match byte {
            0x20..=0x7E => shown.push(byte as char),
            _ => shown.push_str(&format!("\\x{byte:02X}")),
        }
    }
    if column == Some(last) {
        arrow = shown.len();
    }
    if last < bytes.len() {
        shown.push_str("...");
    }
    let label = format!("  {line} | ");
    match column {
        Some(_) => format!("{label}{shown}\n{}^\n", " ".repeat(label.len() + arrow)),
        None => format!("{label}{shown}\n"),
    }
}

#[cfg(test)]
mod tests {
    use super::*;

    fn of(text: &str, number: u64, line: usize) -> (Option<usize>, String) {
        let hint = hint(text.as_bytes(), number, line).expect("a hint");
        (hint.column, hint.text)
    }

    #[test]
    fn each_common_error_is_named_at_its_place() {
        let cases: [(&str, u64, usize, Option<usize>, &str); 42] = [
            ("\n", 5, 1, None, "line 1 is empty"),
            (":ab\n>(((((a)))))\n", 3, 2, Some(5), "fifth open"),
            (":ab\n>a/a_a/a_a/a_a/a_a/a_a\n", 4, 2, Some(20), "fifth _"),
            (":ab\r\n>a\r\n", 5, 1, Some(3), "0x0D"),
            (":ab\n>a", 5, 2, None, "newline"),
            ("ab\n", 5, 1, None, "line 1 is :"),
            (":\n", 5, 1, None, "names no letter"),
            (":ab \n", 5, 1, Some(3), "no spaces"),
            (":aba\n", 5, 1, Some(3), "each once"),
            (":ab\n\n>a\n", 5, 2, None, "empty line"),
            (":ab\n >a\n", 5, 2, Some(0), "begin with a space"),
            (":ab\n# a\n", 5, 2, Some(0), "no comments"),
            (":ab\n>a1\n", 5, 2, Some(2), "a digit"),
            ("\u{FEFF}:ab\n>a\n", 5, 1, Some(0), "byte-order mark"),
            (":a\tb\n>a\n", 5, 1, Some(2), "a tab"),
            (":ab\n\t>a\n", 5, 2, Some(0), "begin with a space or a tab"),
            (":ab\n>a\t/ a _ b\n", 5, 2, Some(2), "a tab"),
            (":ab\n>.*\u{2013}a\n", 5, 2, Some(3), "long dash"),
            (":ab\n>[ab]\n", 5, 2, Some(1), "round"),
            (":ab\n=N1 ab\n", 5, 2, Some(2), "behind a name"),
            ("\u{C}\0\u{2}\0\n", 5, 1, None, "as a card does"),
            (":ab\n>a>b\n", 5, 2, Some(2), "beginning"),
            (":ab\n<a/b_<b\n", 5, 2, Some(5), "beginning"),
            (":ab\n^a^b/b_b\n", 5, 2, Some(2), "a repetition is written"),
            (":ab\n<a\n", 5, 2, Some(2), "< needs a context: write / .* _ .*"),
            (":ab\n^c*\n", 5, 2, Some(3), "^ needs a context: write / @ _ @"),
            (":ab\n<a|\n", 5, 2, Some(3), "at the end"),
            (":ab\n^a/b\n", 5, 2, None, "lacks its _"),
            (":ab\n<c/a_b\n", 6, 2, Some(1), "c is not among"),
            (":ab\nb => a _ b\n", 5, 2, Some(2), "=> is written >"),
            (":ab\n<= b / a _ b\n", 5, 2, Some(0), "<= is written ^"),
            (":ab\n>b /<= a _ b\n", 5, 2, Some(3), "/<= is written <"),
            (":ab\n# b => a\n", 5, 2, Some(0), "no comments"),
            (":ab\n=n ab\n", 5, 2, Some(1), "write =N"),
            (":ab\n=A a_b\n", 5, 2, Some(4), "no contexts"),
            (":ab\n>(a\n", 5, 2, Some(1), "not closed"),
            (":ab\n>a)\n", 5, 2, Some(2), "not opened"),
            (":ab\n>a/b\n", 5, 2, None, "lacks its _"),
            (":ab\n>a|\n", 5, 2, Some(3), "at the end"),
            (":ab\n=C aD\n", 6, 2, Some(4), "D is not defined"),
            (":ab\n=CD a\n", 6, 2, Some(2), "one capital letter alone"),
            (":ab\n=A a\n=A b\n", 7, 3, Some(1), "line 2"),
        ];
        for (text, number, line, column, words) in cases {
            let (found, said) = of(text, number, line);
            assert_eq!(found, column, "{text:?}: {said}");
            assert!(said.contains(words), "{text:?}: {said}");
        }
        assert_eq!(of(":ab\n>ac\n", 6, 2), (Some(2), "c is not among the letters of line 1".into()));
        assert_eq!(of(":ab\n>a/(b_b)\n", 5, 2).0, Some(5));
        assert_eq!(of(":ab\n>a_b\n", 5, 2).0, Some(2));
        for (text, column) in
            [(":ab\n>a||b\n", 3), (":ab\n>()a\n", 2), (":ab\n>a/_b\n", 3), (":ab\n>!*a\n", 2), (":ab\n=A\n", 2)]
        {
            assert_eq!(of(text, 5, 2).0, Some(column), "{text:?}");
        }
    }

    #[test]
    fn a_place_far_in_the_line_is_shown() {
        let bytes = [b"a".repeat(500), b"\t".to_vec(), b"b".repeat(500)].concat();
        let picture = picture(2, &bytes, Some(500));
        let (line, arrow) = picture.split_once('\n').unwrap();
        assert_eq!(line.find("\\x09"), arrow.find('^'));
        assert!(line.len() < 130);
    }

    /// Random texts: each refusal by 3 to 7 has a hint, inside its line.
    #[test]
    fn every_refused_line_has_a_hint() {
        use crate::proved::{compile, Compiled};
        let signs = b"ab ab AB c.@!*+?|&-()/_\n\n=><^:1\r\xFF";
        let mut seed = 1u64;
        let mut refused = [0; 8];
        for round in 0..6000 {
            let mut text = b":ab\n".to_vec();
            text.push(b"><^"[round % 3]);
            for _ in 0..30 {
                seed = seed.wrapping_mul(6364136223846793005).wrapping_add(1442695040888963407);
                text.push(signs[(seed >> 33) as usize % signs.len()]);
                if text.ends_with(b"\n") && seed >> 62 != 0 {
                    text.extend_from_slice([&b">"[..], b"<", b"^", b"=A"][(seed >> 60) as usize % 4]);
                }
            }
            if let Some(Compiled::Refused { number: number @ 3..=7, line }) = compile(&text) {
                refused[number as usize] += 1;
                let hint = hint(&text, number, line as usize).unwrap_or_else(|| panic!("{number} {text:?}"));
                let bytes = line_of(&text, line as usize).expect("the line").0;
                assert!(hint.column.is_none_or(|column| column <= bytes.len()));
                picture(line as usize, bytes, hint.column);
            }
        }
        assert!(refused[5] > 1000 && refused[6] > 10, "{refused:?}");
    }
}
