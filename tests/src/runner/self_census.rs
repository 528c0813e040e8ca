//! The reference's counts against results worked out by hand, against listings
//! of all plans, each judged, and against the meaning of books: by every cut of
//! every plan, and by derivatives with all plans counted from their beginning.

use crate::census_examples::{self, LAST};
use crate::effort::Effort;
use crate::entry::{BoardEntry, Reference};
use crate::extra_books;
use crate::random_books;
use crate::random_cards::{self, LENGTHS};
use crate::tally::{hex, shown, Tally};
use reference::board::{self, Verdict};
use reference::census::{all_plans, count, Figures};
use reference::compile::{compile, Lent};
use reference::derivative::Derivatives;
use reference::distance::fewest;
use reference::machine::Machine;
use reference::pieces::{allows, words, words_of, LONGEST_WORD};
use reference::reader;
use std::collections::BTreeSet;

/// The most plans that are listed.
const LISTED: u64 = 5000;

/// One of so many random books at least is small enough for all its plans, or
/// has few enough derivatives.
const BOOKS_TRIED: usize = 8;
const BOOKS_DERIVED: usize = 2;

pub fn run(tally: &mut Tally, effort: Effort) {
    if effort.fixed {
        fixed(tally);
    }
    tally.group("reference: counts by listing, random cards", |tally| {
        let mut rng = tally.rng("counts by listing");
        for case in 0..effort.of(200) {
            let card = match case % 4 {
                0 => random_cards::good(&mut rng),
                1 => random_cards::far(&mut rng),
                2 => random_cards::rounds(&mut rng),
                _ => random_cards::strict(&mut rng, 8),
            };
            by_listing(tally, &card, (0..=12).chain(LENGTHS));
        }
    });
    tally.group("reference: counts by every cut of a book's plans", |tally| {
        let mut rng = tally.rng("counts by every cut");
        let books = effort.of(250);
        let tried = (0..books).filter(|_| by_meaning(tally, &random_books::book(&mut rng))).count();
        tally.check(tried * BOOKS_TRIED >= books, || format!("{tried} of {books} books were tried"));
    });
    tally.group("reference: counts by derivatives of a book", |tally| {
        let mut rng = tally.rng("counts by derivatives");
        let books = effort.of(400);
        let tried = (0..books).filter(|_| by_derivatives(tally, &random_books::book(&mut rng))).count();
        tally.check(tried * BOOKS_DERIVED >= books, || format!("{tried} of {books} books were tried"));
    });
}

fn fixed(tally: &mut Tally) {
    tally.group("reference: counts worked out by hand", |tally| {
        let reference = Reference { bench: Vec::new() };
        for (title, card, length, due) in census_examples::all() {
            tally.same(&format!("{title}, {length} letters"), &due, &reference.count(&card, length, [0; 3]));
        }
    });
    tally.group("reference: what is past counting", past_counting);
    tally.group("reference: counts by listing, every small card", |tally| {
        for (letters, states) in random_cards::SMALL {
            for card in random_cards::all_small(letters, states) {
                by_listing(tally, &card, 0..=6);
            }
        }
    });
    tally.group("reference: counts by derivatives of further books", |tally| {
        for (_, text) in extra_books::all() {
            by_derivatives(tally, &text);
        }
    });
}

/// The last length that counts is that of the table. No number of plans is just
/// the greatest of 64 bits: to refuse what reaches it is to refuse what exceeds it.
fn past_counting(tally: &mut Tally) {
    for (letters, &(last, plans)) in LAST.iter().enumerate() {
        tally.same(&format!("plans of {last} of {letters} letters"), &Some(plans), &all_plans(letters, last));
        for length in (last + 1..=last + 70).chain(LENGTHS.into_iter().filter(|&length| length > last)) {
            tally.same(&format!("plans of {length} of {letters} letters"), &None, &all_plans(letters, length));
        }
        let reaches = (0..=last).find(|&length| all_plans(letters, length) == Some(u64::MAX));
        tally.same(&format!("a power of {letters}"), &None, &reaches);
    }
}

/// All plans of each of these lengths, where they are few, are listed without
/// repeats and judged; where they count at all, the three figures sum to them.
fn by_listing(tally: &mut Tally, card: &[u8], lengths: impl IntoIterator<Item = usize>) {
    let Ok(bodies) = board::load(card) else { return };
    let machine = board::machine(&bodies);
    let owed = fewest(&machine);
    let columns: Vec<usize> = (0..machine.symbols).collect();
    for length in lengths {
        let Some(plans) = all_plans(columns.len(), length) else { continue };
        let found = count(card, length);
        let mut right = found.is_ok_and(|figures| figures.sum() == plans.into());
        if plans <= LISTED {
            let all = words_of(&columns, length);
            let listed = Figures::listed(all.iter().map(|plan| board::verdict(&machine, &owed, plan)));
            right &= found == Ok(listed) && all.windows(2).all(|pair| pair[0] < pair[1]);
        }
        tally.check(right, || format!("{length} letters on {}: {found:?}", hex(card)));
    }
}

/// With no automaton but for the answer itself. Whether the book was tried: it
/// is accepted, and its plans are not too many.
fn by_meaning(tally: &mut Tally, text: &[u8]) -> bool {
    let (Ok(accepted), Ok(book)) = (compile(text, &Lent::plenty()), reader::read_book(text)) else { return false };
    let Ok(bodies) = board::load(&accepted.card) else { return false };
    // Where a plan can be continued to an allowed one, fewer letters than there
    // are states do it.
    let further = bodies.states() - 1;
    let plans = |length: usize| book.alphabet.len().checked_pow(length as u32).filter(|_| length <= LONGEST_WORD);
    let is_small = |longest: &usize| plans(longest + further).is_some_and(|plans| plans <= 1024);
    let Some(longest) = (2..=7).rev().find(is_small) else { return false };
    let plans = words(&book.alphabet, longest + further);
    let allowed: BTreeSet<&[u8]> = plans.iter().map(|plan| &plan[..]).filter(|plan| allows(&book, plan)).collect();
    let begins: BTreeSet<&[u8]> = allowed.iter().flat_map(|plan| (0..=plan.len()).map(|end| &plan[..end])).collect();
    let verdict = |plan: &[u8]| match (allowed.contains(plan), begins.contains(plan)) {
        (true, _) => Verdict::Allowed,
        (false, true) => Verdict::Unfinished(1),
        (false, false) => Verdict::Hopeless(0),
    };
    for length in 0..=longest {
        let due = Figures::listed(plans.iter().filter(|plan| plan.len() == length).map(|plan| verdict(plan)));
        tally.same(&format!("{length} letters, {}", shown(text)), &Ok(due), &count(&accepted.card, length));
    }
    true
}

/// Plans of all lengths that count, from their beginning on a machine that no
/// stage made. Whether the book was tried: it is accepted, and its derivatives
/// are not too many.
fn by_derivatives(tally: &mut Tally, text: &[u8]) -> bool {
    let (Ok(accepted), Ok(book)) = (compile(text, &Lent::plenty()), reader::read_book(text)) else { return false };
    let Ok(machine) = Derivatives::of(&book).machine(600) else { return false };
    for length in LENGTHS.into_iter().filter(|&length| all_plans(machine.symbols, length).is_some()) {
        let due = by_arrivals(&machine, length);
        tally.same(&format!("{length} letters, {}", shown(text)), &Ok(due), &count(&accepted.card, length));
    }
    true
}

/// By how many words of this length lead to each state.
fn by_arrivals(machine: &Machine, length: usize) -> Figures {
    let mut arrivals = vec![0u64; machine.states()];
    arrivals[0] = 1;
    for _ in 0..length {
        let before = std::mem::replace(&mut arrivals, vec![0; machine.states()]);
        for (state, words) in before.into_iter().enumerate() {
            for &target in &machine.next[state] {
                arrivals[target] += words;
            }
        }
    }
    let owed = fewest(machine);
    let ending = |is_end: fn(Option<usize>) -> bool| {
        arrivals.iter().zip(&owed).filter(|(_, owed)| is_end(**owed)).map(|(words, _)| words).sum()
    };
    Figures {
        allowed: ending(|owed| owed == Some(0)),
        unfinished: ending(|owed| owed.is_some_and(|letters| letters > 0)),
        hopeless: ending(|owed| owed.is_none()),
    }
}
