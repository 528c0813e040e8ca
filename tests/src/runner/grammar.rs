//! Document 01's grammar tried out directly, as a check on the reader.
//!
//! A row of bytes is a choice when it can be split into a choice, `|` and a
//! blend at some place, and so on for every level; all places are tried. The
//! answer is the fully bracketed form. Slow, so for short lines only.

use reference::syntax::*;
use std::collections::HashMap;

#[derive(Clone, Copy, PartialEq, Eq, Hash)]
enum Level {
    Choice,
    Blend,
    Chain,
    Item,
    Starred,
    Atom,
}

/// Fully bracketed forms of the pieces of one row of bytes.
struct Pieces<'b> {
    bytes: &'b [u8],
    known: HashMap<(Level, usize, usize), Option<String>>,
}

impl Pieces<'_> {
    fn form(&mut self, level: Level, from: usize, to: usize) -> Option<String> {
        if from >= to {
            return None;
        }
        if let Some(known) = self.known.get(&(level, from, to)) {
            return known.clone();
        }
        let found = match level {
            Level::Choice => self.split(from, to, b"|", Level::Choice, Level::Blend),
            Level::Blend => self.split(from, to, b"&-", Level::Blend, Level::Chain),
            Level::Chain => self.row(from, to),
            Level::Item if self.bytes[from] == b'!' => {
                self.form(Level::Item, from + 1, to).map(|inner| format!("[!{inner}]"))
            }
            Level::Item => self.form(Level::Starred, from, to),
            Level::Starred => match self.bytes[to - 1] {
                sign @ (b'*' | b'+' | b'?') => {
                    let inner = self.form(Level::Starred, from, to - 1);
                    inner.map(|inner| format!("[{inner}{}]", sign as char))
                }
                _ => self.form(Level::Atom, from, to),
            },
            Level::Atom => self.atom(from, to),
        };
        self.known.insert((level, from, to), found.clone());
        found
    }

    /// One right part, or a left part, a sign and a right part.
    fn split(&mut self, from: usize, to: usize, signs: &[u8], left: Level, right: Level) -> Option<String> {
        if let Some(whole) = self.form(right, from, to) {
            return Some(whole);
        }
        (from + 1..to).find_map(|place| {
            if !signs.contains(&self.bytes[place]) {
                return None;
            }
            let after = self.form(right, place + 1, to)?;
            let before = self.form(left, from, place)?;
            Some(format!("[{before}{}{after}]", self.bytes[place] as char))
        })
    }

    /// One item, or a row and an item.
    fn row(&mut self, from: usize, to: usize) -> Option<String> {
        if let Some(whole) = self.form(Level::Item, from, to) {
            return Some(whole);
        }
        (from + 1..to).find_map(|place| {
            let after = self.form(Level::Item, place, to)?;
            let before = self.form(Level::Chain, from, place)?;
            Some(format!("[{before}{after}]"))
        })
    }

    fn atom(&mut self, from: usize, to: usize) -> Option<String> {
        let byte = self.bytes[from];
        if to == from + 1 {
            let single = byte.is_ascii_alphabetic() || byte == b'.' || byte == b'@';
            return single.then(|| (byte as char).to_string());
        }
        if byte == b'(' && self.bytes[to - 1] == b')' {
            return self.form(Level::Choice, from + 1, to - 1);
        }
        None
    }
}

/// The bracketed form of a choice that has no spaces.
pub fn choice_form(bytes: &[u8]) -> Option<String> {
    Pieces { bytes, known: HashMap::new() }.form(Level::Choice, 0, bytes.len())
}

/// A later line as its sign and the bracketed forms of its choices.
pub fn line_form(line: &[u8]) -> Option<Vec<String>> {
    let packed: Vec<u8> =
        line.iter().enumerate().filter(|&(place, &byte)| place == 0 || byte != b' ').map(|(_, &byte)| byte).collect();
    match packed.first()? {
        b'=' if packed.get(1)?.is_ascii_uppercase() => {
            Some(vec![format!("={}", packed[1] as char), choice_form(&packed[2..])?])
        }
        sign @ (b'>' | b'<' | b'^') => {
            let parts = rule_form(&packed[1..])?;
            let is_whole = *sign == b'>' || parts.len() > 1;
            is_whole.then(|| [vec![(*sign as char).to_string()], parts].concat())
        }
        _ => None,
    }
}

/// A choice, then a slash, a choice, an underscore, a choice for each
/// context; the last context is split off at every place where it may begin.
fn rule_form(bytes: &[u8]) -> Option<Vec<String>> {
    if let Some(pattern) = choice_form(bytes) {
        return Some(vec![pattern]);
    }
    (0..bytes.len()).rev().filter(|&slash| bytes[slash] == b'/').find_map(|slash| {
        (slash + 1..bytes.len()).filter(|&under| bytes[under] == b'_').find_map(|under| {
            let left = choice_form(&bytes[slash + 1..under])?;
            let right = choice_form(&bytes[under + 1..])?;
            let before = rule_form(&bytes[..slash])?;
            Some([before, vec![left, right]].concat())
        })
    })
}

/// The reader's tree in the same bracketed form.
pub fn tree_form(line: &Line) -> Vec<String> {
    match line {
        Line::Alphabet(letters) => vec![String::from_utf8_lossy(letters).into()],
        Line::Definition(name, body) => vec![format!("={}", *name as char), choice(body)],
        Line::Rule(rule) => {
            let sign = match rule.kind {
                RuleKind::Restricts => ">",
                RuleKind::Forbids => "<",
                RuleKind::Obliges => "^",
            };
            let mut parts = vec![sign.to_string(), choice(&rule.pattern)];
            for (left, right) in &rule.contexts {
                parts.push(choice(left));
                parts.push(choice(right));
            }
            parts
        }
    }
}

fn choice(tree: &Choice) -> String {
    let forms: Vec<String> = tree.0.iter().map(blend).collect();
    forms.into_iter().reduce(|before, after| format!("[{before}|{after}]")).unwrap_or_default()
}

fn blend(tree: &Blend) -> String {
    tree.rest.iter().fold(chain(&tree.first), |before, (cross, after)| {
        let sign = match cross {
            Cross::Intersection => '&',
            Cross::Difference => '-',
        };
        format!("[{before}{sign}{}]", chain(after))
    })
}

fn chain(tree: &Chain) -> String {
    let forms: Vec<String> = tree.0.iter().map(item).collect();
    forms.into_iter().reduce(|before, after| format!("[{before}{after}]")).unwrap_or_default()
}

fn item(tree: &Item) -> String {
    let mut form = match &tree.atom {
        Atom::Letter(byte) | Atom::Name(byte) => (*byte as char).to_string(),
        Atom::AnyLetter => ".".into(),
        Atom::EmptyWord => "@".into(),
        Atom::Group(inner) => choice(inner),
    };
    for suffix in &tree.suffixes {
        let sign = match suffix {
            Suffix::Star => '*',
            Suffix::Plus => '+',
            Suffix::Optional => '?',
        };
        form = format!("[{form}{sign}]");
    }
    for _ in 0..tree.complements {
        form = format!("[!{form}]");
    }
    form
}

/// Tests 1 and 3 to 7 of a text once more: its refusal as (number, line).
pub fn refusal(text: &[u8]) -> Option<(u8, usize)> {
    if text.len() > 16_384 {
        return Some((1, 0));
    }
    let mut letters: Vec<u8> = Vec::new();
    let mut names: Vec<u8> = Vec::new();
    for (index, whole) in text.split_inclusive(|&byte| byte == b'\n').enumerate() {
        let refused = |number| Some((number, index + 1));
        let line = whole.strip_suffix(b"\n");
        let bytes = line.unwrap_or(whole);
        let opened_beyond = (0..=bytes.len()).any(|end| {
            let count = |sign: u8| bytes[..end].iter().filter(|&&byte| byte == sign).count();
            count(b'(') > count(b')') + 4
        });
        if opened_beyond {
            return refused(3);
        }
        if bytes.iter().filter(|&&byte| byte == b'_').count() >= 5 {
            return refused(4);
        }
        if index == 0 {
            let rising = (1..bytes.len().max(1))
                .all(|at| bytes[at] >= b'a' && bytes[at] <= b'z' && (at == 1 || bytes[at - 1] < bytes[at]));
            if line.is_none() || bytes.len() < 2 || bytes[0] != b':' || !rising {
                return refused(5);
            }
            letters = bytes[1..].to_vec();
            continue;
        }
        if line.is_none() || line_form(bytes).is_none() {
            return refused(5);
        }
        let mut said: Vec<u8> = bytes[1..].iter().copied().filter(|&byte| byte != b' ').collect();
        let defined = if bytes[0] == b'=' { Some(said.remove(0)) } else { None };
        let strange = |byte: &u8| match byte {
            b'a'..=b'z' => !letters.contains(byte),
            b'A'..=b'Z' => !names.contains(byte),
            _ => false,
        };
        if said.iter().any(strange) {
            return refused(6);
        }
        match defined {
            Some(name) if names.contains(&name) => return refused(7),
            Some(name) => names.push(name),
            None => {}
        }
    }
    None
}
