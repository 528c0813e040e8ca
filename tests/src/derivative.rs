//! What a book means for plans of every length, by derivatives.
//!
//! An expression is kept in a normal form (unions and intersections as sets
//! of parts), so it has finitely many derivatives. A rule's derivative keeps
//! three things: the contexts' left sides after the letters read, the middles
//! that have begun (by which left sides held at their beginning), and what the
//! letters still to come must be. A middle that counts is one in the pattern;
//! for `^`, one that isn't. No mark is needed.

use crate::machine::{explore, Machine, TooMany};
use crate::syntax::*;
use std::cell::RefCell;
use std::collections::{BTreeMap, BTreeSet, HashMap};

/// An expression by its number in the store.
pub type Id = usize;

#[derive(Clone, PartialEq, Eq, Hash, Debug)]
enum Expression {
    Nothing,
    EmptyWord,
    Letter(u8),
    AnyLetter,
    Concatenation(Id, Id),
    Star(Id),
    Union(BTreeSet<Id>),
    Intersection(BTreeSet<Id>),
    Complement(Id),
}

/// All expressions met so far, each once.
#[derive(Default)]
struct Store {
    nodes: Vec<(Expression, bool)>,
    numbers: HashMap<Expression, Id>,
    derivatives: HashMap<(Id, u8), Id>,
}

impl Store {
    fn add(&mut self, expression: Expression) -> Id {
        if let Some(&id) = self.numbers.get(&expression) {
            return id;
        }
        let nullable = match &expression {
            Expression::Nothing | Expression::Letter(_) | Expression::AnyLetter => false,
            Expression::EmptyWord | Expression::Star(_) => true,
            Expression::Concatenation(a, b) => self.nullable(*a) && self.nullable(*b),
            Expression::Union(parts) => parts.iter().any(|&part| self.nullable(part)),
            Expression::Intersection(parts) => parts.iter().all(|&part| self.nullable(part)),
            Expression::Complement(a) => !self.nullable(*a),
        };
        self.nodes.push((expression.clone(), nullable));
        self.numbers.insert(expression, self.nodes.len() - 1);
        self.nodes.len() - 1
    }

    fn nullable(&self, id: Id) -> bool {
        self.nodes[id].1
    }

    fn nothing(&mut self) -> Id {
        self.add(Expression::Nothing)
    }

    fn everything(&mut self) -> Id {
        let nothing = self.nothing();
        self.add(Expression::Complement(nothing))
    }

    fn empty_word(&mut self) -> Id {
        self.add(Expression::EmptyWord)
    }

    fn complement(&mut self, a: Id) -> Id {
        match self.nodes[a].0 {
            Expression::Complement(inner) => inner,
            _ => self.add(Expression::Complement(a)),
        }
    }

    fn star(&mut self, a: Id) -> Id {
        match self.nodes[a].0 {
            Expression::Nothing | Expression::EmptyWord => self.empty_word(),
            Expression::Star(_) => a,
            _ => self.add(Expression::Star(a)),
        }
    }

    fn concatenation(&mut self, a: Id, b: Id) -> Id {
        match (self.nodes[a].0.clone(), &self.nodes[b].0) {
            (Expression::Nothing, _) | (_, Expression::Nothing) => self.nothing(),
            (Expression::EmptyWord, _) => b,
            (_, Expression::EmptyWord) => a,
            (Expression::Concatenation(first, second), _) => {
                let rest = self.concatenation(second, b);
                self.concatenation(first, rest)
            }
            _ => self.add(Expression::Concatenation(a, b)),
        }
    }

    fn union(&mut self, parts: impl IntoIterator<Item = Id>) -> Id {
        let (nothing, everything) = (self.nothing(), self.everything());
        let mut flat = BTreeSet::new();
        for part in parts {
            match &self.nodes[part].0 {
                Expression::Union(inner) => flat.extend(inner),
                _ => {
                    flat.insert(part);
                }
            }
        }
        flat.remove(&nothing);
        if flat.contains(&everything) {
            return everything;
        }
        match flat.len() {
            0 => nothing,
            1 => *flat.first().expect("one part"),
            _ => self.add(Expression::Union(flat)),
        }
    }

    fn intersection(&mut self, parts: impl IntoIterator<Item = Id>) -> Id {
        let (nothing, everything) = (self.nothing(), self.everything());
        let mut flat = BTreeSet::new();
        for part in parts {
            match &self.nodes[part].0 {
                Expression::Intersection(inner) => flat.extend(inner),
                _ => {
                    flat.insert(part);
                }
            }
        }
        flat.remove(&everything);
        if flat.contains(&nothing) {
            return nothing;
        }
        match flat.len() {
            0 => everything,
            1 => *flat.first().expect("one part"),
            _ => self.add(Expression::Intersection(flat)),
        }
    }

    /// What may follow the letter.
    fn derivative(&mut self, id: Id, letter: u8) -> Id {
        if let Some(&known) = self.derivatives.get(&(id, letter)) {
            return known;
        }
        let result = match self.nodes[id].0.clone() {
            Expression::Nothing | Expression::EmptyWord => self.nothing(),
            Expression::Letter(own) if own != letter => self.nothing(),
            Expression::Letter(_) | Expression::AnyLetter => self.empty_word(),
            Expression::Concatenation(a, b) => {
                let in_first = self.derivative(a, letter);
                let first = self.concatenation(in_first, b);
                if self.nullable(a) {
                    let second = self.derivative(b, letter);
                    self.union([first, second])
                } else {
                    first
                }
            }
            Expression::Star(a) => {
                let once = self.derivative(a, letter);
                self.concatenation(once, id)
            }
            Expression::Union(parts) => {
                let parts: Vec<Id> = parts.into_iter().map(|part| self.derivative(part, letter)).collect();
                self.union(parts)
            }
            Expression::Intersection(parts) => {
                let parts: Vec<Id> = parts.into_iter().map(|part| self.derivative(part, letter)).collect();
                self.intersection(parts)
            }
            Expression::Complement(a) => {
                let inner = self.derivative(a, letter);
                self.complement(inner)
            }
        };
        self.derivatives.insert((id, letter), result);
        result
    }
}

/// A rule with its sides in the store.
struct StoredRule {
    kind: RuleKind,
    /// The middles that count.
    middles: Id,
    lefts: Vec<Id>,
    rights: Vec<Id>,
}

/// Where a rule stands after some letters.
#[derive(Clone, PartialEq, Eq, PartialOrd, Ord, Debug)]
struct Standing {
    /// The left sides' derivatives.
    lefts: Vec<Id>,
    /// Middles begun, by the contexts whose left side held there.
    begun: BTreeMap<Vec<usize>, Id>,
    /// What the rest of the plan must be.
    due: Id,
}

/// A book by derivatives.
pub struct Derivatives {
    store: RefCell<Store>,
    alphabet: Vec<u8>,
    rules: Vec<StoredRule>,
}

impl Derivatives {
    pub fn of(book: &Book) -> Derivatives {
        let mut store = Store::default();
        let mut names = BTreeMap::new();
        let mut rules = Vec::new();
        for line in &book.lines {
            match line {
                Line::Alphabet(_) => {}
                Line::Definition(name, body) => {
                    let id = choice(&mut store, &names, body);
                    names.insert(*name, id);
                }
                Line::Rule(rule) => {
                    let pattern = choice(&mut store, &names, &rule.pattern);
                    rules.push(StoredRule {
                        kind: rule.kind,
                        middles: match rule.kind {
                            RuleKind::Restricts | RuleKind::Forbids => pattern,
                            RuleKind::Obliges => store.complement(pattern),
                        },
                        lefts: rule.contexts.iter().map(|(l, _)| choice(&mut store, &names, l)).collect(),
                        rights: rule.contexts.iter().map(|(_, r)| choice(&mut store, &names, r)).collect(),
                    })
                }
            }
        }
        Derivatives { store: RefCell::new(store), alphabet: book.alphabet.clone(), rules }
    }

    /// The machine of the book's derivatives over its letters.
    pub fn machine(&self, most: usize) -> Result<Machine, TooMany> {
        let start: Vec<Standing> = self
            .rules
            .iter()
            .map(|rule| {
                let due = self.store.borrow_mut().everything();
                self.at_this_place(rule, Standing { lefts: rule.lefts.clone(), begun: BTreeMap::new(), due })
            })
            .collect();
        explore(
            self.alphabet.len(),
            most,
            start,
            |standings, symbol| {
                let letter = self.alphabet[symbol];
                self.rules.iter().zip(standings).map(|(rule, standing)| self.after(rule, standing, letter)).collect()
            },
            |standings| standings.iter().all(|standing| self.store.borrow().nullable(standing.due)),
        )
    }

    /// A middle may begin here, and one that is complete here lays on the rest
    /// of the plan that one of its contexts' right sides holds it; for `<` and
    /// `^`, that none does.
    fn at_this_place(&self, rule: &StoredRule, mut standing: Standing) -> Standing {
        let store = &mut *self.store.borrow_mut();
        let held: Vec<usize> =
            (0..standing.lefts.len()).filter(|&index| store.nullable(standing.lefts[index])).collect();
        let before = standing.begun.get(&held).copied();
        let begun = store.union(before.into_iter().chain([rule.middles]));
        standing.begun.insert(held, begun);
        for (contexts, &middles) in &standing.begun {
            if store.nullable(middles) {
                let rights: Vec<Id> = contexts.iter().map(|&index| rule.rights[index]).collect();
                let one_of_them = store.union(rights);
                let laid_on = match rule.kind {
                    RuleKind::Restricts => one_of_them,
                    RuleKind::Forbids | RuleKind::Obliges => store.complement(one_of_them),
                };
                standing.due = store.intersection([standing.due, laid_on]);
            }
        }
        standing
    }

    fn after(&self, rule: &StoredRule, standing: &Standing, letter: u8) -> Standing {
        let moved = {
            let store = &mut *self.store.borrow_mut();
            let nothing = store.nothing();
            let begun = standing.begun.iter().map(|(contexts, &id)| (contexts.clone(), store.derivative(id, letter)));
            let begun: BTreeMap<Vec<usize>, Id> = begun.filter(|&(_, id)| id != nothing).collect();
            Standing {
                lefts: standing.lefts.iter().map(|&id| store.derivative(id, letter)).collect(),
                begun,
                due: store.derivative(standing.due, letter),
            }
        };
        self.at_this_place(rule, moved)
    }
}

type Names = BTreeMap<u8, Id>;

fn choice(store: &mut Store, names: &Names, tree: &Choice) -> Id {
    let parts: Vec<Id> = tree.0.iter().map(|part| blend(store, names, part)).collect();
    store.union(parts)
}

fn blend(store: &mut Store, names: &Names, tree: &Blend) -> Id {
    let mut so_far = chain(store, names, &tree.first);
    for (cross, part) in &tree.rest {
        let next = chain(store, names, part);
        let with = match cross {
            Cross::Intersection => next,
            Cross::Difference => store.complement(next),
        };
        so_far = store.intersection([so_far, with]);
    }
    so_far
}

fn chain(store: &mut Store, names: &Names, tree: &Chain) -> Id {
    let parts: Vec<Id> = tree.0.iter().map(|part| item(store, names, part)).collect();
    let empty_word = store.empty_word();
    parts.into_iter().rev().fold(empty_word, |rest, part| store.concatenation(part, rest))
}

fn item(store: &mut Store, names: &Names, tree: &Item) -> Id {
    let mut id = match &tree.atom {
        Atom::Letter(letter) => store.add(Expression::Letter(*letter)),
        Atom::AnyLetter => store.add(Expression::AnyLetter),
        Atom::EmptyWord => store.empty_word(),
        Atom::Name(name) => names[name],
        Atom::Group(inner) => choice(store, names, inner),
    };
    for suffix in &tree.suffixes {
        let starred = store.star(id);
        let empty_word = store.empty_word();
        id = match suffix {
            Suffix::Star => starred,
            Suffix::Plus => store.concatenation(id, starred),
            Suffix::Optional => store.union([empty_word, id]),
        };
    }
    for _ in 0..tree.complements {
        id = store.complement(id);
    }
    id
}
