//! What a book means, by trying every cut of one word.
//!
//! For a word w an expression is asked about every piece w[i..j] at once.
//! The answers are combined exactly as document 01's first section says; no
//! automaton is made.

use crate::syntax::*;
use std::collections::BTreeMap;

/// The longest word that may be asked about.
pub const LONGEST_WORD: usize = 62;

/// Row i has bit j when the piece from place i to place j is in the set.
#[derive(Clone, PartialEq, Eq, Debug)]
pub struct Pieces(Vec<u64>);

impl Pieces {
    fn from_fn(length: usize, holds: impl Fn(usize, usize) -> bool) -> Pieces {
        let row = |i: usize| (i..=length).filter(|&j| holds(i, j)).fold(0, |bits, j| bits | 1 << j);
        Pieces((0..=length).map(row).collect())
    }

    fn length(&self) -> usize {
        self.0.len() - 1
    }

    pub fn holds(&self, i: usize, j: usize) -> bool {
        self.0[i] >> j & 1 == 1
    }

    fn both(&self, other: &Pieces, combine: impl Fn(bool, bool) -> bool) -> Pieces {
        Pieces::from_fn(self.length(), |i, j| combine(self.holds(i, j), other.holds(i, j)))
    }

    fn concatenation(&self, other: &Pieces) -> Pieces {
        Pieces::from_fn(self.length(), |i, j| (i..=j).any(|k| self.holds(i, k) && other.holds(k, j)))
    }

    /// Any number of pieces in a row. An empty piece adds nothing, so the
    /// first piece of a row may be taken to be not empty.
    fn star(&self) -> Pieces {
        let length = self.length();
        let mut rows = vec![0u64; length + 1];
        for i in (0..=length).rev() {
            rows[i] = 1 << i;
            for k in i + 1..=length {
                if self.holds(i, k) {
                    rows[i] |= rows[k];
                }
            }
        }
        Pieces(rows)
    }
}

/// The expressions' meaning for the pieces of one word.
pub struct Word<'w> {
    word: &'w [u8],
    names: BTreeMap<u8, Pieces>,
}

impl<'w> Word<'w> {
    pub fn new(word: &'w [u8]) -> Word<'w> {
        assert!(word.len() <= LONGEST_WORD, "a word too long for this way");
        Word { word, names: BTreeMap::new() }
    }

    pub fn define(&mut self, name: u8, body: &Choice) {
        let pieces = self.choice(body);
        self.names.insert(name, pieces);
    }

    pub fn choice(&self, choice: &Choice) -> Pieces {
        let mut blends = choice.0.iter().map(|blend| self.blend(blend));
        let first = blends.next().expect("a choice has a blend");
        blends.fold(first, |so_far, next| so_far.both(&next, |a, b| a || b))
    }

    fn blend(&self, blend: &Blend) -> Pieces {
        blend.rest.iter().fold(self.chain(&blend.first), |so_far, (cross, chain)| {
            let next = self.chain(chain);
            match cross {
                Cross::Intersection => so_far.both(&next, |a, b| a && b),
                Cross::Difference => so_far.both(&next, |a, b| a && !b),
            }
        })
    }

    fn chain(&self, chain: &Chain) -> Pieces {
        let mut items = chain.0.iter().map(|item| self.item(item));
        let first = items.next().expect("a chain has an item");
        items.fold(first, |so_far, next| so_far.concatenation(&next))
    }

    fn item(&self, item: &Item) -> Pieces {
        let mut pieces = self.atom(&item.atom);
        for suffix in &item.suffixes {
            pieces = match suffix {
                Suffix::Star => pieces.star(),
                Suffix::Plus => pieces.concatenation(&pieces.star()),
                Suffix::Optional => pieces.both(&self.empty_word(), |a, b| a || b),
            };
        }
        for _ in 0..item.complements {
            pieces = pieces.both(&pieces, |a, _| !a);
        }
        pieces
    }

    fn atom(&self, atom: &Atom) -> Pieces {
        let length = self.word.len();
        match atom {
            Atom::Letter(letter) => Pieces::from_fn(length, |i, j| j == i + 1 && self.word[i] == *letter),
            Atom::AnyLetter => Pieces::from_fn(length, |i, j| j == i + 1),
            Atom::EmptyWord => self.empty_word(),
            Atom::Name(name) => self.names[name].clone(),
            Atom::Group(inner) => self.choice(inner),
        }
    }

    fn empty_word(&self) -> Pieces {
        Pieces::from_fn(self.word.len(), |i, j| i == j)
    }

    /// Every cut into v, x, y is as the rule's kind wants it: x in the pattern
    /// or not, v and y the two sides of one context or not.
    pub fn obeys(&self, rule: &Rule) -> bool {
        let end = self.word.len();
        let pattern = self.choice(&rule.pattern);
        let contexts: Vec<_> = rule.contexts.iter().map(|(l, r)| (self.choice(l), self.choice(r))).collect();
        (0..=end).all(|i| {
            (i..=end).all(|j| {
                let called = pattern.holds(i, j);
                let fits = contexts.iter().any(|(left, right)| left.holds(0, i) && right.holds(j, end));
                match rule.kind {
                    RuleKind::Restricts => !called || fits,
                    RuleKind::Forbids => !(called && fits),
                    RuleKind::Obliges => !fits || called,
                }
            })
        })
    }
}

/// Whether the book allows the word.
pub fn allows(book: &Book, word: &[u8]) -> bool {
    if !word.iter().all(|letter| book.alphabet.contains(letter)) {
        return false;
    }
    let mut meaning = Word::new(word);
    for line in &book.lines {
        match line {
            Line::Alphabet(_) => {}
            Line::Definition(name, body) => meaning.define(*name, body),
            Line::Rule(rule) => {
                if !meaning.obeys(rule) {
                    return false;
                }
            }
        }
    }
    true
}

/// All words over the alphabet up to a length, shorter ones first.
pub fn words(alphabet: &[u8], longest: usize) -> Vec<Vec<u8>> {
    (0..=longest).flat_map(|length| words_of(alphabet, length)).collect()
}

/// All words of just this length, each once.
pub fn words_of<T: Copy>(alphabet: &[T], length: usize) -> Vec<Vec<T>> {
    let one_longer = |words: Vec<Vec<T>>, _| {
        let with_each = |word: &Vec<T>| alphabet.iter().map(|&letter| [&word[..], &[letter]].concat()).collect();
        words.iter().flat_map::<Vec<Vec<T>>, _>(with_each).collect()
    };
    (0..length).fold(vec![Vec::new()], one_longer)
}
