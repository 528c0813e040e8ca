//! Bytes that no book holds: what each is, and what to write.

/// Characters of more than one byte, and the control bytes, that editors put in.
const CHARACTERS: [(&[u8], &str); 13] = [
    (b"\xEF\xBB\xBF", "a byte-order mark (bytes EF BB BF): save the book as plain text without it"),
    (b"\xFF\xFE", "the mark of UTF-16: save the book as plain text (ASCII or UTF-8)"),
    (b"\xFE\xFF", "the mark of UTF-16: save the book as plain text (ASCII or UTF-8)"),
    (b"\t", "a tab: write spaces"),
    (b"\xC2\xA0", "a space that doesn't break (bytes C2 A0): write a plain space"),
    (b"\xE2\x80\x92", "a long dash: write -, the plain minus of the keyboard"),
    (b"\xE2\x80\x93", "a long dash: write -, the plain minus of the keyboard"),
    (b"\xE2\x80\x94", "a long dash: write -, the plain minus of the keyboard"),
    (b"\xE2\x88\x92", "a minus sign of typesetting: write -, the plain minus of the keyboard"),
    (b"\xE2\x88\x97", "a star of typesetting: write *, the plain star of the keyboard"),
    (b"\xC3\x97", "a multiplication sign: write *, the plain star of the keyboard"),
    (b"\xE2\x80\xA6", "three dots in one character: write . for each event"),
    (b"\0", "byte 0x00: this is no plain text; save the book as ASCII or UTF-8"),
];

/// Signs of other notations.
const SIGNS: [(&[u8], &str); 9] = [
    (b"[]", "brackets are round, ( and )"),
    (b"{}", "brackets are round, ( and ), and a part that stands n times is written n times"),
    (b"#", "there are no comments: keep the text about a book in a file beside it"),
    (b"~", "everything else is written !"),
    (b"\"'`", "letters stand without quotation marks"),
    (b",", "alternatives are written |, contexts begin with /"),
    (b";", "nothing stands at the end of a line"),
    (b"\\", "there is no escaping: letters are a to z"),
    (b"$", "the end of the day is written @ on the right side"),
];

/// The signs of two-level rules, the longer ones first.
const OPERATORS: [(&[u8], &str); 4] = [
    (b"/<=", "/<= is written <: the line begins with <, then pattern / left _ right"),
    (b"<=>", "<=> is two lines: one begins with >, one with ^, then pattern / left _ right"),
    (b"=>", "=> is written >: the line begins with >, then pattern / left _ right"),
    (b"<=", "<= is written ^: the line begins with ^, then pattern / left _ right"),
];

/// May this byte stand in a book, apart from line ends?
pub fn is_sign(byte: u8) -> bool {
    byte.is_ascii_alphabetic() || b" :=><^/_|&-!*+?.@()".contains(&byte)
}

/// The first sign of a two-level rule in the line, and what to write. No book holds one.
pub fn operator(bytes: &[u8]) -> Option<(usize, &'static str)> {
    (0..bytes.len()).find_map(|column| {
        let found = OPERATORS.iter().find(|(operator, _)| bytes[column..].starts_with(operator));
        found.map(|&(_, words)| (column, words))
    })
}

/// A character that an editor put in, if one stands at this place.
pub fn character(bytes: &[u8], column: usize) -> Option<&'static str> {
    let found = CHARACTERS.iter().find(|(character, _)| bytes[column..].starts_with(character));
    found.map(|&(_, words)| words)
}

/// What the byte at this place is, and what to write.
pub fn words(bytes: &[u8], column: usize) -> String {
    if let Some(words) = character(bytes, column) {
        return words.into();
    }
    let byte = bytes[column];
    let after_name = column > 0 && bytes[column - 1].is_ascii_uppercase();
    if let Some((_, words)) = SIGNS.iter().find(|(signs, _)| signs.contains(&byte)) {
        return format!("{} is no sign of the language: {words}", byte as char);
    }
    match byte {
        b'0'..=b'9' if after_name => "a digit behind a name: a name is one capital letter and nothing more".into(),
        b'0'..=b'9' => {
            "a digit: events are the letters a to z, and a part that stands n times is written n times".into()
        }
        0x21..=0x7E => format!("{} is no sign of the language", byte as char),
        0x80.. => format!("byte 0x{byte:02X}: a book is plain ASCII text, without accents or signs of other scripts"),
        _ => format!("byte 0x{byte:02X} is no sign of the language"),
    }
}

#[cfg(test)]
mod tests {
    use super::*;

    #[test]
    fn each_stray_byte_is_named() {
        let cases: [(&[u8], usize, &str); 12] = [
            (b"\xEF\xBB\xBF:ab", 0, "byte-order mark"),
            (b">a\t/", 2, "a tab: write spaces"),
            (b">a\xE2\x80\x93b", 2, "long dash"),
            (b">a\xE2\x80\x94b", 2, "long dash"),
            (b">[ab]", 1, "[ is no sign of the language: brackets are round"),
            (b">a{2}", 2, "{ is no sign of the language: brackets are round"),
            (b">A1", 2, "behind a name"),
            (b">a1", 2, "a digit:"),
            (b">a%", 2, "% is no sign"),
            (b">\xC3\xA4", 1, "0xC3: a book is plain ASCII"),
            (b">a\x07", 2, "0x07 is no sign"),
            (b">a\xC2\xA0b", 2, "plain space"),
        ];
        for (bytes, column, expected) in cases {
            assert!(!is_sign(bytes[column]));
            let found = words(bytes, column);
            assert!(found.contains(expected), "{found}");
        }
    }

    #[test]
    fn signs_of_two_level_rules_are_named() {
        for (line, column, expected) in [
            ("b => a _ c", 2, "=> is written >"),
            ("b <= a _ c", 2, "<= is written ^"),
            ("b /<= a _ c", 2, "/<= is written <"),
            ("b <=> a _ c", 2, "<=> is two lines"),
            (">b/a_c=>b", 6, "=> is written >"),
        ] {
            let (found, words) = operator(line.as_bytes()).expect("an operator");
            assert!(found == column && words.starts_with(expected), "{line}: {words}");
        }
        assert_eq!(operator(b"<b / a _ c"), None);
    }
}
