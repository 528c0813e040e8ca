//! The compiler by document 01: tests and stages line by line, in order.

use crate::card;
use crate::machine::{given, Machine, TooMany};
use crate::minimise::minimise;
use crate::reader::{self, Known, LONGEST_TEXT};
use crate::refusal::*;
use crate::stages;
use crate::syntax::*;
use std::collections::BTreeMap;

/// What a stage and a kept machine may have.
#[derive(Clone, Copy, PartialEq, Eq, Debug)]
pub struct Limits {
    pub sets: usize,
    pub states: usize,
}

pub const LIMITS: Limits = Limits { sets: 512, states: 120 };

/// One stage as it was made.
#[derive(Clone, PartialEq, Eq, Debug)]
pub struct Stage {
    pub operation: &'static str,
    pub sets: usize,
    pub states: usize,
}

/// Makes stages and keeps a record of them.
pub struct Workshop {
    pub symbols: usize,
    pub limits: Limits,
    pub stages: Vec<Stage>,
    alphabet: Vec<u8>,
    names: BTreeMap<u8, Machine>,
}

pub type Made = Result<Machine, u8>;

impl Workshop {
    pub fn new(alphabet: &[u8], limits: Limits) -> Workshop {
        Workshop {
            symbols: alphabet.len() + 1,
            limits,
            stages: Vec::new(),
            alphabet: alphabet.to_vec(),
            names: BTreeMap::new(),
        }
    }

    /// The most sets that one stage made.
    pub fn peak(&self) -> usize {
        self.stages.iter().map(|stage| stage.sets).max().unwrap_or(0)
    }

    fn keep(&mut self, operation: &'static str, sets: Result<Machine, TooMany>) -> Made {
        let sets = sets.map_err(|TooMany| CROWDED)?;
        let smallest = minimise(&sets);
        self.stages.push(Stage { operation, sets: sets.states(), states: smallest.states() });
        if smallest.states() > self.limits.states {
            return Err(OVERSIZE);
        }
        Ok(smallest)
    }

    pub fn union(&mut self, a: &Machine, b: &Machine) -> Made {
        self.keep("|", stages::pairs(a, b, self.limits.sets, |a, b| a || b))
    }

    pub fn intersection(&mut self, a: &Machine, b: &Machine) -> Made {
        self.keep("&", stages::pairs(a, b, self.limits.sets, |a, b| a && b))
    }

    pub fn difference(&mut self, a: &Machine, b: &Machine) -> Made {
        self.keep("-", stages::pairs(a, b, self.limits.sets, |a, b| a && !b))
    }

    pub fn concatenation(&mut self, a: &Machine, b: &Machine) -> Made {
        self.keep("join", stages::concatenation(a, b, self.limits.sets))
    }

    pub fn star(&mut self, a: &Machine) -> Made {
        self.keep("*", stages::star(a, self.limits.sets))
    }

    pub fn erase(&mut self, u: &Machine) -> Made {
        self.keep("erase", stages::erase(u, self.limits.sets))
    }

    /// Several machines joined left to right.
    pub fn joined(&mut self, parts: &[&Machine]) -> Made {
        let (first, rest) = parts.split_first().expect("something to join");
        let mut so_far = (*first).clone();
        for part in rest {
            so_far = self.concatenation(&so_far, part)?;
        }
        Ok(so_far)
    }

    pub fn define(&mut self, name: u8, body: &Choice) -> Result<(), u8> {
        let machine = self.choice(body)?;
        self.names.insert(name, machine);
        Ok(())
    }

    pub fn choice(&mut self, choice: &Choice) -> Made {
        let (first, rest) = choice.0.split_first().expect("a choice has a blend");
        let mut so_far = self.blend(first)?;
        for blend in rest {
            let next = self.blend(blend)?;
            so_far = self.union(&so_far, &next)?;
        }
        Ok(so_far)
    }

    fn blend(&mut self, blend: &Blend) -> Made {
        let mut so_far = self.chain(&blend.first)?;
        for (cross, chain) in &blend.rest {
            let next = self.chain(chain)?;
            so_far = match cross {
                Cross::Intersection => self.intersection(&so_far, &next)?,
                Cross::Difference => self.difference(&so_far, &next)?,
            };
        }
        Ok(so_far)
    }

    fn chain(&mut self, chain: &Chain) -> Made {
        let (first, rest) = chain.0.split_first().expect("a chain has an item");
        let mut so_far = self.item(first)?;
        for item in rest {
            let next = self.item(item)?;
            so_far = self.concatenation(&so_far, &next)?;
        }
        Ok(so_far)
    }

    fn item(&mut self, item: &Item) -> Made {
        let mut made = self.atom(&item.atom)?;
        for suffix in &item.suffixes {
            made = match suffix {
                Suffix::Star => self.star(&made)?,
                Suffix::Plus => {
                    let starred = self.star(&made)?;
                    self.concatenation(&made, &starred)?
                }
                Suffix::Optional => self.union(&given::empty_word(self.symbols), &made)?,
            };
        }
        for _ in 0..item.complements {
            made = self.difference(&given::all_words(self.symbols), &made)?;
        }
        Ok(made)
    }

    fn atom(&mut self, atom: &Atom) -> Made {
        match atom {
            Atom::Letter(letter) => {
                let index = self.alphabet.iter().position(|known| known == letter).expect("no stranger");
                Ok(given::letter(self.symbols, index))
            }
            Atom::AnyLetter => Ok(given::any_letter(self.symbols)),
            Atom::EmptyWord => Ok(given::empty_word(self.symbols)),
            Atom::Name(name) => Ok(self.names[name].clone()),
            Atom::Group(inner) => self.choice(inner),
        }
    }
}

/// What is to be erased; none before the first context of `<` and `^`.
pub type Marked = Result<Option<Machine>, u8>;

/// The parts of a rule's recipe.
impl Workshop {
    /// p; for `^`, q = `.*-p` in its place.
    pub fn middles(&mut self, rule: &Rule) -> Made {
        let p = self.choice(&rule.pattern)?;
        match rule.kind {
            RuleKind::Restricts | RuleKind::Forbids => Ok(p),
            RuleKind::Obliges => self.difference(&given::all_words(self.symbols), &p),
        }
    }

    /// For `>`, X = `.*` M p M `.*`.
    pub fn before_contexts(&mut self, kind: RuleKind, p: &Machine) -> Marked {
        let (all, mark) = (given::all_words(self.symbols), given::mark(self.symbols));
        match kind {
            RuleKind::Restricts => self.joined(&[&all, &mark, p, &mark, &all]).map(Some),
            RuleKind::Forbids | RuleKind::Obliges => Ok(None),
        }
    }

    /// For `>`, those so far minus a context's l M p M r; for `<` and `^`, from
    /// the second on, `|` of those so far with it.
    pub fn with_context(&mut self, kind: RuleKind, so_far: Option<Machine>, fitting: Machine) -> Marked {
        match (kind, so_far) {
            (_, None) => Ok(Some(fitting)),
            (RuleKind::Restricts, Some(so_far)) => self.difference(&so_far, &fitting).map(Some),
            (RuleKind::Forbids | RuleKind::Obliges, Some(so_far)) => self.union(&so_far, &fitting).map(Some),
        }
    }

    /// E = erase; `.*-E`.
    pub fn excluding(&mut self, marked: Option<Machine>) -> Made {
        let e = self.erase(&marked.expect("`<` and `^` have a context"))?;
        self.difference(&given::all_words(self.symbols), &e)
    }
}

/// How the machine of one rule's allowed plans is made.
pub type RuleRecipe = fn(&mut Workshop, &Rule) -> Made;

/// The recipe of document 01 and, for `<` and `^`, of W4.
pub fn rule(workshop: &mut Workshop, rule: &Rule) -> Made {
    let mark = given::mark(workshop.symbols);
    let p = workshop.middles(rule)?;
    let mut marked = workshop.before_contexts(rule.kind, &p)?;
    for (left, right) in &rule.contexts {
        let l = workshop.choice(left)?;
        let r = workshop.choice(right)?;
        let fitting = workshop.joined(&[&l, &mark, &p, &mark, &r])?;
        marked = workshop.with_context(rule.kind, marked, fitting)?;
    }
    workshop.excluding(marked)
}

/// An accepted book.
#[derive(Clone, PartialEq, Eq, Debug)]
pub struct Accepted {
    pub card: Vec<u8>,
    pub peak: usize,
}

/// The buffers that a caller lends: work buffers as (needed, lent) lengths,
/// and the card buffer's length.
#[derive(Clone, PartialEq, Eq, Hash, Debug)]
pub struct Lent {
    pub bench: Vec<(usize, usize)>,
    pub card: usize,
}

impl Lent {
    /// Enough for every book.
    pub fn plenty() -> Lent {
        Lent { bench: Vec::new(), card: card::LONGEST }
    }
}

/// Compiles by document 01.
pub fn compile(text: &[u8], lent: &Lent) -> Result<Accepted, Refusal> {
    compile_by(text, lent, LIMITS, rule).0
}

/// The same with every stage that was made.
pub fn compile_traced(text: &[u8]) -> (Result<Accepted, Refusal>, Vec<Stage>) {
    compile_by(text, &Lent::plenty(), LIMITS, rule)
}

/// The same with limits and a recipe of the caller's.
pub fn compile_by(
    text: &[u8],
    lent: &Lent,
    limits: Limits,
    recipe: RuleRecipe,
) -> (Result<Accepted, Refusal>, Vec<Stage>) {
    if text.len() > LONGEST_TEXT {
        return (Err(Refusal::of_book(LONG_BOOK)), Vec::new());
    }
    if lent.bench.iter().any(|&(needed, given)| given < needed) {
        return (Err(Refusal::of_book(SHORT_BENCH)), Vec::new());
    }
    let mut workshop = Workshop::new(&[], limits);
    let result = all_lines(text, limits, recipe, &mut workshop).and_then(|book| {
        let card = card::write(&workshop.alphabet, &book.without_last_symbol());
        if card.len() > lent.card {
            return Err(Refusal::of_book(SHORT_CARD));
        }
        Ok(Accepted { card, peak: workshop.peak() })
    });
    (result, workshop.stages)
}

/// The book's machine: `.*`, which a text of no bytes has too, met by each rule.
fn all_lines(text: &[u8], limits: Limits, recipe: RuleRecipe, workshop: &mut Workshop) -> Result<Machine, Refusal> {
    let mut known = Known::default();
    let mut book = None;
    for (index, raw) in reader::lines(text).into_iter().enumerate() {
        let refused = |number| Refusal::at(number, index + 1);
        let line = reader::read_line(raw, index == 0, &known).map_err(refused)?;
        reader::learn(&line, &mut known);
        match &line {
            Line::Alphabet(letters) => *workshop = Workshop::new(letters, limits),
            Line::Definition(name, body) => workshop.define(*name, body).map_err(refused)?,
            Line::Rule(rule) => {
                let allowed = recipe(workshop, rule).map_err(refused)?;
                let so_far = book.unwrap_or_else(|| given::all_words(workshop.symbols));
                book = Some(workshop.intersection(&so_far, &allowed).map_err(refused)?);
            }
        }
    }
    Ok(book.unwrap_or_else(|| given::all_words(workshop.symbols)))
}
