//! The reader: a text is split into lines, a line into its parts.
//!
//! Each level of the grammar is one cut of a row of bytes at the signs that
//! stand outside brackets. Spaces are taken out first: they may stand before
//! every byte but the first, so their places say nothing.

use crate::refusal::*;
use crate::syntax::*;

/// The longest text that is no long book.
pub const LONGEST_TEXT: usize = 16_384;
/// The highest bracket count that isn't nested.
pub const DEEPEST: i64 = 4;
/// The most bytes `_` in a line.
pub const MOST_CONTEXTS: usize = 4;

/// The bytes of one line and whether 0x0A followed them.
#[derive(Clone, Copy, PartialEq, Eq, Debug)]
pub struct RawLine<'t> {
    pub bytes: &'t [u8],
    pub ended: bool,
}

/// Bytes up to each 0x0A are a line; bytes after the last one are a line too.
pub fn lines(text: &[u8]) -> Vec<RawLine<'_>> {
    let mut found = Vec::new();
    let mut rest = text;
    while let Some(end) = rest.iter().position(|&byte| byte == b'\n') {
        found.push(RawLine { bytes: &rest[..end], ended: true });
        rest = &rest[end + 1..];
    }
    if !rest.is_empty() {
        found.push(RawLine { bytes: rest, ended: false });
    }
    found
}

/// What the lines above have made known.
#[derive(Clone, Default, Debug)]
pub struct Known {
    pub alphabet: Vec<u8>,
    pub names: Vec<u8>,
}

/// Tests 3 to 7 of one line, in their order.
pub fn read_line(raw: RawLine<'_>, is_first: bool, known: &Known) -> Result<Line, u8> {
    if highest_count(raw.bytes) > DEEPEST {
        return Err(NESTED);
    }
    if raw.bytes.iter().filter(|&&byte| byte == b'_').count() > MOST_CONTEXTS {
        return Err(CROWD_OF_CONTEXTS);
    }
    let form = if is_first { alphabet(raw.bytes) } else { later_line(raw.bytes) };
    let line = match form {
        Some(line) if raw.ended => line,
        _ => return Err(SPOILED_LINE),
    };
    let strangers = match &line {
        Line::Alphabet(_) => false,
        Line::Definition(_, body) => stranger_in(body, known),
        Line::Rule(rule) => {
            stranger_in(&rule.pattern, known)
                || rule.contexts.iter().any(|(l, r)| stranger_in(l, known) || stranger_in(r, known))
        }
    };
    if strangers {
        return Err(STRANGER);
    }
    if let Line::Definition(name, _) = &line {
        if known.names.contains(name) {
            return Err(TAKEN);
        }
    }
    Ok(line)
}

/// The whole text through tests 1 and 3 to 7, without any stage. A text of no
/// bytes has no line and no letter.
pub fn read_book(text: &[u8]) -> Result<Book, Refusal> {
    if text.len() > LONGEST_TEXT {
        return Err(Refusal::of_book(LONG_BOOK));
    }
    let mut known = Known::default();
    let mut read = Vec::new();
    for (index, raw) in lines(text).into_iter().enumerate() {
        let line = read_line(raw, index == 0, &known).map_err(|number| Refusal::at(number, index + 1))?;
        learn(&line, &mut known);
        read.push(line);
    }
    Ok(Book { alphabet: known.alphabet, lines: read })
}

/// A line that stands makes its alphabet or its name known to those below.
pub fn learn(line: &Line, known: &mut Known) {
    match line {
        Line::Alphabet(letters) => known.alphabet = letters.clone(),
        Line::Definition(name, _) => known.names.push(*name),
        Line::Rule(_) => {}
    }
}

/// The highest value that the bracket count takes along the line.
fn highest_count(bytes: &[u8]) -> i64 {
    let mut count = 0;
    let mut highest = 0;
    for byte in bytes {
        count += match byte {
            b'(' => 1,
            b')' => -1,
            _ => 0,
        };
        highest = highest.max(count);
    }
    highest
}

fn alphabet(bytes: &[u8]) -> Option<Line> {
    let letters = bytes.strip_prefix(b":")?;
    let rising = letters.windows(2).all(|pair| pair[0] < pair[1]);
    let all_letters = letters.iter().all(u8::is_ascii_lowercase);
    if letters.is_empty() || !rising || !all_letters {
        return None;
    }
    Some(Line::Alphabet(letters.to_vec()))
}

fn later_line(bytes: &[u8]) -> Option<Line> {
    let (sign, after) = bytes.split_first()?;
    let packed: Vec<u8> = after.iter().copied().filter(|&byte| byte != b' ').collect();
    match sign {
        b'=' => {
            let (name, body) = packed.split_first()?;
            if !name.is_ascii_uppercase() {
                return None;
            }
            Some(Line::Definition(*name, choice(body)?))
        }
        _ => {
            let kind = RuleKind::of_sign(*sign)?;
            let mut parts = packed.split(|&byte| byte == b'/');
            let pattern = choice(parts.next()?)?;
            let contexts = parts.map(context).collect::<Option<Vec<_>>>()?;
            (contexts.len() >= kind.fewest_contexts()).then_some(Line::Rule(Rule { kind, pattern, contexts }))
        }
    }
}

fn context(bytes: &[u8]) -> Option<(Choice, Choice)> {
    let sides: Vec<&[u8]> = bytes.split(|&byte| byte == b'_').collect();
    match sides[..] {
        [left, right] => Some((choice(left)?, choice(right)?)),
        _ => None,
    }
}

fn choice(bytes: &[u8]) -> Option<Choice> {
    let parts = cut_outside_brackets(bytes, |byte| byte == b'|')?;
    let blends = parts.into_iter().map(|(_, part)| blend(part));
    Some(Choice(blends.collect::<Option<Vec<_>>>()?))
}

fn blend(bytes: &[u8]) -> Option<Blend> {
    let mut parts = cut_outside_brackets(bytes, |byte| byte == b'&' || byte == b'-')?.into_iter();
    let (_, head) = parts.next()?;
    let first = chain(head)?;
    let mut rest = Vec::new();
    for (sign, part) in parts {
        let cross = if sign == Some(b'&') { Cross::Intersection } else { Cross::Difference };
        rest.push((cross, chain(part)?));
    }
    Some(Blend { first, rest })
}

/// The parts between the wanted signs outside brackets, each with the sign
/// before it. None where a bracket has no partner.
fn cut_outside_brackets(bytes: &[u8], wanted: fn(u8) -> bool) -> Option<Vec<(Option<u8>, &[u8])>> {
    let mut parts = Vec::new();
    let mut open = 0usize;
    let mut sign = None;
    let mut from = 0;
    for (place, &byte) in bytes.iter().enumerate() {
        match byte {
            b'(' => open += 1,
            b')' => open = open.checked_sub(1)?,
            _ if open == 0 && wanted(byte) => {
                parts.push((sign, &bytes[from..place]));
                sign = Some(byte);
                from = place + 1;
            }
            _ => {}
        }
    }
    if open != 0 {
        return None;
    }
    parts.push((sign, &bytes[from..]));
    Some(parts)
}

fn chain(bytes: &[u8]) -> Option<Chain> {
    let mut items = Vec::new();
    let mut rest = bytes;
    while !rest.is_empty() {
        let (next, after) = item(rest)?;
        items.push(next);
        rest = after;
    }
    if items.is_empty() {
        return None;
    }
    Some(Chain(items))
}

fn item(bytes: &[u8]) -> Option<(Item, &[u8])> {
    let complements = bytes.iter().take_while(|&&byte| byte == b'!').count();
    let (atom, after) = atom(&bytes[complements..])?;
    let suffixes: Vec<Suffix> = after.iter().map_while(|&byte| suffix(byte)).collect();
    let rest = &after[suffixes.len()..];
    Some((Item { complements, atom, suffixes }, rest))
}

fn suffix(byte: u8) -> Option<Suffix> {
    match byte {
        b'*' => Some(Suffix::Star),
        b'+' => Some(Suffix::Plus),
        b'?' => Some(Suffix::Optional),
        _ => None,
    }
}

fn atom(bytes: &[u8]) -> Option<(Atom, &[u8])> {
    let (&byte, after) = bytes.split_first()?;
    let found = match byte {
        b'a'..=b'z' => Atom::Letter(byte),
        b'A'..=b'Z' => Atom::Name(byte),
        b'.' => Atom::AnyLetter,
        b'@' => Atom::EmptyWord,
        b'(' => {
            let end = partner(after)?;
            return Some((Atom::Group(choice(&after[..end])?), &after[end + 1..]));
        }
        _ => return None,
    };
    Some((found, after))
}

/// Where the bracket closes that was opened just before these bytes.
fn partner(bytes: &[u8]) -> Option<usize> {
    let mut open = 1;
    for (place, byte) in bytes.iter().enumerate() {
        match byte {
            b'(' => open += 1,
            b')' => open -= 1,
            _ => {}
        }
        if open == 0 {
            return Some(place);
        }
    }
    None
}

fn stranger_in(choice: &Choice, known: &Known) -> bool {
    choice.0.iter().any(|blend| {
        chain_has_stranger(&blend.first, known) || blend.rest.iter().any(|(_, chain)| chain_has_stranger(chain, known))
    })
}

fn chain_has_stranger(chain: &Chain, known: &Known) -> bool {
    chain.0.iter().any(|item| match &item.atom {
        Atom::Letter(letter) => !known.alphabet.contains(letter),
        Atom::Name(name) => !known.names.contains(name),
        Atom::AnyLetter | Atom::EmptyWord => false,
        Atom::Group(inner) => stranger_in(inner, known),
    })
}
