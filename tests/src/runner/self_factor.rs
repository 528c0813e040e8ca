//! The reference's shortest stretch against results worked out by hand and
//! against the stretches of all short plans that are allowed.

use crate::effort::Effort;
use crate::entry::{BoardEntry, Reference};
use crate::factor_examples;
use crate::random_books;
use crate::random_cards;
use crate::tally::{hex, shown, Tally};
use reference::board;
use reference::compile::{compile, Lent};
use reference::factor::shortest;
use reference::pieces::{allows, words};
use reference::reader;
use std::collections::BTreeSet;

/// One of so many random cards and books at least is small enough to be tried.
const CARDS_TRIED: usize = 4;
const BOOKS_TRIED: usize = 8;

pub fn run(tally: &mut Tally, effort: Effort) {
    if effort.fixed {
        tally.group("reference: stretches worked out by hand", |tally| {
            let reference = Reference { bench: Vec::new() };
            for (title, card, plan, due) in factor_examples::all() {
                tally.same(title, &due, &reference.shortest(&card, &plan, [0; 3]));
            }
        });
        tally.group("reference: stretches on every small card", |tally| {
            for (letters, states) in random_cards::SMALL {
                for card in random_cards::all_small(letters, states) {
                    by_allowed_plans(tally, &card);
                }
            }
        });
    }
    tally.group("reference: stretches of the plans that a card allows", |tally| {
        let mut rng = tally.rng("stretches of a card's plans");
        let cards = effort.of(400);
        let tried = (0..cards).filter(|_| by_allowed_plans(tally, &random_cards::strict(&mut rng, 4))).count();
        tally.check(tried * CARDS_TRIED >= cards, || format!("{tried} of {cards} cards were tried"));
    });
    tally.group("reference: stretches of the plans that a book allows", |tally| {
        let mut rng = tally.rng("stretches of a book's plans");
        let books = effort.of(200);
        let tried = (0..books).filter(|_| by_meaning(tally, &random_books::book(&mut rng))).count();
        tally.check(tried * BOOKS_TRIED >= books, || format!("{tried} of {books} books were tried"));
    });
}

/// The longest plan over so many letters, where so many letters stand before
/// and behind it; none where even those around 3 letters are too many to try.
fn longest_plan(letters: usize, around: usize, most: usize) -> Option<usize> {
    let tried = |length: usize| letters.checked_pow((length + 2 * around) as u32).unwrap_or(usize::MAX);
    (3..=8).rev().find(|&length| tried(length) <= most)
}

/// Whether the card was tried: it loads, and its plans are not too many.
fn by_allowed_plans(tally: &mut Tally, card: &[u8]) -> bool {
    let Ok(bodies) = board::load(card) else { return false };
    let machine = board::machine(&bodies);
    let Some(longest) = longest_plan(bodies.letters.len(), bodies.states(), 4096) else { return false };
    let column = |letter: &u8| bodies.letters.iter().position(|known| known == letter).expect("a letter of the card");
    let allowed = |plan: &[u8]| machine.accepts(&plan.iter().map(column).collect::<Vec<usize>>());
    let wrong = wrong_stretch(card, bodies.letters, longest, bodies.states(), allowed);
    tally.check(wrong.is_none(), || format!("{}: {wrong:?}", hex(card)));
    true
}

/// The same with no automaton but for the answer itself.
fn by_meaning(tally: &mut Tally, text: &[u8]) -> bool {
    let (Ok(accepted), Ok(book)) = (compile(text, &Lent::plenty()), reader::read_book(text)) else { return false };
    let Ok(bodies) = board::load(&accepted.card) else { return false };
    let Some(longest) = longest_plan(book.alphabet.len(), bodies.states(), 1024) else { return false };
    let wrong = wrong_stretch(&accepted.card, &book.alphabet, longest, bodies.states(), |plan| allows(&book, plan));
    tally.check(wrong.is_none(), || format!("{}: {wrong:?}", shown(text)));
    true
}

/// A plan with a wrong answer. Letters before and behind a stretch need not be
/// more than there are states.
fn wrong_stretch(
    card: &[u8],
    letters: &[u8],
    longest: usize,
    around: usize,
    allowed: impl Fn(&[u8]) -> bool,
) -> Option<String> {
    let mut inside = BTreeSet::new();
    for plan in words(letters, longest + 2 * around).into_iter().filter(|plan| allowed(plan)) {
        for start in 0..=around.min(plan.len()) {
            for end in start.max(plan.len().saturating_sub(around))..=plan.len().min(start + longest) {
                inside.insert(plan[start..end].to_vec());
            }
        }
    }
    let is_due = |plan: &[u8], found: Option<(usize, usize)>| match found {
        None => inside.contains(plan),
        Some((start, length)) => {
            let lies_inside = |start: usize, length: usize| inside.contains(&plan[start..start + length]);
            start + length <= plan.len()
                && !lies_inside(start, length)
                && (0..start).all(|start| lies_inside(start, length))
                && (0..length).all(|length| (0..=plan.len() - length).all(|start| lies_inside(start, length)))
        }
    };
    words(letters, longest).into_iter().find_map(|plan| match shortest(card, &plan) {
        Ok(found) if is_due(&plan, found) => None,
        other => Some(format!("plan {} gives {other:?}", shown(&plan))),
    })
}
