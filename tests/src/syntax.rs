//! A book as a tree that follows document 01's grammar level by level.
//!
//! Only brackets nest; signs before and behind an atom are kept as a count
//! and a list, so the tree is never deeper than the brackets are.

/// Blends separated by `|`; one at least.
#[derive(Clone, PartialEq, Eq, Debug)]
pub struct Choice(pub Vec<Blend>);

/// Chains separated by `&` or `-`, taken left to right.
#[derive(Clone, PartialEq, Eq, Debug)]
pub struct Blend {
    pub first: Chain,
    pub rest: Vec<(Cross, Chain)>,
}

#[derive(Clone, Copy, PartialEq, Eq, Debug)]
pub enum Cross {
    Intersection,
    Difference,
}

/// Items in a row; one at least.
#[derive(Clone, PartialEq, Eq, Debug)]
pub struct Chain(pub Vec<Item>);

/// An atom, its suffixes in order, then its complements.
#[derive(Clone, PartialEq, Eq, Debug)]
pub struct Item {
    pub complements: usize,
    pub atom: Atom,
    pub suffixes: Vec<Suffix>,
}

#[derive(Clone, Copy, PartialEq, Eq, Debug)]
pub enum Suffix {
    Star,
    Plus,
    Optional,
}

#[derive(Clone, PartialEq, Eq, Debug)]
pub enum Atom {
    Letter(u8),
    Name(u8),
    AnyLetter,
    EmptyWord,
    Group(Choice),
}

/// What a rule says of a cut whose middle is in its pattern, or whose sides
/// are both in one of its contexts.
#[derive(Clone, Copy, PartialEq, Eq, Debug)]
pub enum RuleKind {
    /// `>`: the first only together with the second.
    Restricts,
    /// `<`: the two never together.
    Forbids,
    /// `^`: the second only together with the first.
    Obliges,
}

impl RuleKind {
    pub const ALL: [RuleKind; 3] = [RuleKind::Restricts, RuleKind::Forbids, RuleKind::Obliges];

    /// The first byte of such a line.
    pub fn sign(self) -> u8 {
        match self {
            RuleKind::Restricts => b'>',
            RuleKind::Forbids => b'<',
            RuleKind::Obliges => b'^',
        }
    }

    pub fn of_sign(sign: u8) -> Option<RuleKind> {
        RuleKind::ALL.into_iter().find(|kind| kind.sign() == sign)
    }

    pub fn fewest_contexts(self) -> usize {
        match self {
            RuleKind::Restricts => 0,
            RuleKind::Forbids | RuleKind::Obliges => 1,
        }
    }
}

/// A pattern and its contexts (left, right).
#[derive(Clone, PartialEq, Eq, Debug)]
pub struct Rule {
    pub kind: RuleKind,
    pub pattern: Choice,
    pub contexts: Vec<(Choice, Choice)>,
}

#[derive(Clone, PartialEq, Eq, Debug)]
pub enum Line {
    Alphabet(Vec<u8>),
    Definition(u8, Choice),
    Rule(Rule),
}

/// A book whose lines passed tests 3 to 7; it need not have a rule, or a line.
#[derive(Clone, PartialEq, Eq, Debug)]
pub struct Book {
    pub alphabet: Vec<u8>,
    pub lines: Vec<Line>,
}

impl Book {
    pub fn rules(&self) -> impl Iterator<Item = &Rule> {
        self.lines.iter().filter_map(|line| match line {
            Line::Rule(rule) => Some(rule),
            _ => None,
        })
    }
}
