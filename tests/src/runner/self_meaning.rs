//! The reference's cards against the meaning of their books.
//!
//! Short plans are tried one by one by the definition; plans of every length
//! by derivatives. Neither way makes a stage.

use crate::effort::Effort;
use crate::extra_books;
use crate::grammar;
use crate::random_books;
use crate::random_cards;
use crate::rng::Rng;
use crate::shrink::shrink;
use crate::tally::{shown, Tally};
use reference::board::{self, Verdict};
use reference::card;
use reference::compile::{compile, Lent};
use reference::derivative::Derivatives;
use reference::machine::Machine;
use reference::minimise::{minimise, minimise_by_reversal};
use reference::pieces::{allows, words};
use reference::reader;
use std::collections::BTreeSet;

pub fn run(tally: &mut Tally, effort: Effort) {
    tally.group("reference: cards by derivatives", |tally| {
        let mut rng = tally.rng("cards by derivatives");
        for case in 0..effort.of(2000) {
            let text = random_books::book(&mut rng);
            card_by_derivatives(tally, &text, case);
        }
    });
    tally.group("reference: further books by derivatives", |tally| {
        if !effort.fixed {
            return;
        }
        for (name, text) in extra_books::all() {
            // Where the derivatives are too many, short plans have to do.
            let agrees = agrees_by_derivatives(&text).unwrap_or_else(|| wrong_by_short_plans(&text).is_none());
            tally.check(agrees, || format!("{name}: its card isn't that of its meaning"));
        }
    });
    tally.group("reference: cards by trying all short plans", |tally| {
        let mut rng = tally.rng("all short plans");
        for case in 0..effort.of(400) {
            let text = random_books::book(&mut rng);
            short_plans(tally, &text, case);
        }
    });
    tally.group("reference: what is owed by derivatives", |tally| {
        let mut rng = tally.rng("what is owed by derivatives");
        let (mut owing, books) = (0, effort.of(1000));
        for case in 0..books {
            let text = random_books::book(&mut rng);
            let Some((wrong, owed)) = wrong_by_derivatives(&mut rng, &text) else { continue };
            owing += owed;
            tally.check(wrong.is_none(), || format!("case {case}: {}: {wrong:?}", shown(&text)));
        }
        tally.check(owing >= books / 20, || format!("letters are owed to {owing} plans of {books} books"));
    });
    tally.group("reference: the reader by the grammar", |tally| {
        let mut rng = tally.rng("the grammar");
        for case in 0..effort.of(2000) {
            let text = match case % 3 {
                0 => random_books::soup(&mut rng),
                _ => random_books::book(&mut rng),
            };
            let text = if case % 3 == 2 { random_books::damaged(&mut rng, &text) } else { text };
            reading(tally, &text);
        }
    });
    tally.group("reference: smallest machines by reversal", |tally| {
        let mut rng = tally.rng("reversal");
        for case in 0..effort.of(2000) {
            smallest(tally, &mut rng, case);
        }
    });
}

/// None where the derivatives are too many to list.
fn agrees_by_derivatives(text: &[u8]) -> Option<bool> {
    let accepted = compile(text, &Lent::plenty()).ok()?;
    let book = reader::read_book(text).ok()?;
    let machine = Derivatives::of(&book).machine(600).ok()?;
    Some(card::write(&book.alphabet, &minimise(&machine)) == accepted.card)
}

fn card_by_derivatives(tally: &mut Tally, text: &[u8], case: usize) {
    let Some(agrees) = agrees_by_derivatives(text) else { return };
    tally.check(agrees, || {
        let small = shrink(text, 2000, |text| agrees_by_derivatives(text) == Some(false));
        format!("case {case}: stages and derivatives give two cards for {}", shown(&small))
    });
}

/// What is wrong with the book's card, as far as short plans show it.
fn wrong_by_short_plans(text: &[u8]) -> Option<String> {
    let accepted = compile(text, &Lent::plenty()).ok()?;
    let book = reader::read_book(text).ok()?;
    let bodies = match board::load(&accepted.card) {
        Ok(bodies) => bodies,
        Err(number) => return Some(format!("its card is refused with {number}")),
    };
    let machine = board::machine(&bodies);
    let longest = match book.alphabet.len() {
        1 => 12,
        2 => 7,
        3 => 5,
        4..=8 => 3,
        _ => 2,
    };
    let all = words(&book.alphabet, longest);
    let allowed: Vec<bool> = all.iter().map(|word| allows(&book, word)).collect();
    for (word, &due) in all.iter().zip(&allowed) {
        let verdict = match board::judge(&accepted.card, word) {
            Ok(verdict) => verdict,
            Err(refused) => return Some(format!("judging {} gives {refused:?}", shown(word))),
        };
        let right = match verdict {
            Verdict::Allowed => due,
            // No allowed plan that was tried is reached by fewer letters.
            Verdict::Unfinished(owed) => {
                let fewer = |other: &[u8]| other.starts_with(word) && other.len() < word.len() + owed;
                let by_fewer = all.iter().zip(&allowed).any(|(other, &due)| due && fewer(other));
                !due && !by_fewer && witness(&book, &machine, word) == Some(owed)
            }
            Verdict::Hopeless(place) => {
                let dead = &word[..place];
                let allowed_beyond = all.iter().zip(&allowed).any(|(word, &due)| due && word.starts_with(dead));
                let alive_before = place == 0 || witness(&book, &machine, &word[..place - 1]).is_some();
                !allowed_beyond && alive_before
            }
        };
        if !right {
            return Some(format!("plan {} is judged {verdict:?}", shown(word)));
        }
    }
    None
}

/// The letters of the card's shortest way from this beginning to an accepting
/// state, where it makes a plan that the definition allows.
fn witness(book: &reference::syntax::Book, machine: &Machine, beginning: &[u8]) -> Option<usize> {
    let from = machine.run(0, &columns(book, beginning));
    let mut ways: Vec<(usize, Vec<u8>)> = vec![(from, beginning.to_vec())];
    let mut seen = vec![false; machine.states()];
    seen[from] = true;
    let mut done = 0;
    while done < ways.len() {
        let (state, word) = ways[done].clone();
        if machine.accepting[state] {
            // Longer ones can't be asked; the card's claim then stands alone.
            let allowed = word.len() > reference::pieces::LONGEST_WORD || allows(book, &word);
            return allowed.then_some(word.len() - beginning.len());
        }
        for (symbol, &target) in machine.next[state].iter().enumerate() {
            if !seen[target] {
                seen[target] = true;
                let mut longer = word.clone();
                longer.push(book.alphabet[symbol]);
                ways.push((target, longer));
            }
        }
        done += 1;
    }
    None
}

fn columns(book: &reference::syntax::Book, word: &[u8]) -> Vec<usize> {
    let column = |letter: &u8| book.alphabet.iter().position(|known| known == letter).expect("a letter of the book");
    word.iter().map(column).collect()
}

/// A plan whose verdict isn't the one that the book's derivatives give; and how
/// many of some plans are owed letters.
fn wrong_by_derivatives(rng: &mut Rng, text: &[u8]) -> Option<(Option<String>, usize)> {
    let accepted = compile(text, &Lent::plenty()).ok()?;
    let book = reader::read_book(text).ok()?;
    let machine = Derivatives::of(&book).machine(600).ok()?;
    let mut owing = 0;
    for _ in 0..8 {
        let plan = random_cards::far_plan(rng, &accepted.card);
        if plan.iter().any(|letter| !book.alphabet.contains(letter)) {
            continue;
        }
        let due = by_rising_length(&machine, &columns(&book, &plan));
        let found = board::judge(&accepted.card, &plan);
        owing += usize::from(matches!(due, Verdict::Unfinished(_)));
        if found != Ok(due) {
            return Some((Some(format!("plan {}: {due:?} is due, {found:?} is found", shown(&plan))), owing));
        }
    }
    Some((None, owing))
}

/// The verdict by the states that all continuations of no letter, of one, of
/// two and so on lead to. Longer ones than there are states lead nowhere new.
fn by_rising_length(machine: &Machine, plan: &[usize]) -> Verdict {
    let fewest = |plan: &[usize]| {
        let mut led_to = BTreeSet::from([machine.run(0, plan)]);
        (0..machine.states()).find(|_| {
            let ends = led_to.iter().any(|&state| machine.accepting[state]);
            led_to = led_to.iter().flat_map(|&state| machine.next[state].iter().copied()).collect();
            ends
        })
    };
    match (fewest(plan), (0..=plan.len()).find(|&place| fewest(&plan[..place]).is_none())) {
        (Some(0), _) => Verdict::Allowed,
        (Some(owed), _) => Verdict::Unfinished(owed),
        (None, place) => Verdict::Hopeless(place.expect("the whole plan's place")),
    }
}

fn short_plans(tally: &mut Tally, text: &[u8], case: usize) {
    if compile(text, &Lent::plenty()).is_err() {
        return;
    }
    let wrong = wrong_by_short_plans(text);
    tally.check(wrong.is_none(), || {
        let small = shrink(text, 500, |text| wrong_by_short_plans(text).is_some());
        format!("case {case}: {}: {:?}", shown(&small), wrong_by_short_plans(&small))
    });
}

/// The reader's refusal and trees against the grammar tried out directly.
fn reading(tally: &mut Tally, text: &[u8]) {
    if text.split(|&byte| byte == b'\n').any(|line| line.len() > 90) {
        return;
    }
    let agrees = |text: &[u8]| match (reader::read_book(text), grammar::refusal(text)) {
        (Err(refusal), Some(due)) => (refusal.number, refusal.line) == due,
        (Ok(book), None) => {
            let lines = reader::lines(text);
            book.lines
                .iter()
                .zip(&lines)
                .skip(1)
                .all(|(line, raw)| grammar::line_form(raw.bytes) == Some(grammar::tree_form(line)))
        }
        _ => false,
    };
    tally.check(agrees(text), || {
        let small = shrink(text, 2000, |text| !agrees(text));
        format!(
            "{}\n  grammar: {:?}\n  reader:  {:?}",
            shown(&small),
            grammar::refusal(&small),
            reader::read_book(&small)
        )
    });
}

fn smallest(tally: &mut Tally, rng: &mut Rng, case: usize) {
    let (symbols, states) = (rng.between(1, 3), rng.between(1, 9));
    let machine = random_cards::machine(rng, symbols, states);
    let filled = minimise(&machine.numbered());
    let Ok(reversed) = minimise_by_reversal(&machine, 4000) else { return };
    tally.check(filled == reversed, || format!("case {case}: {machine:?}\n  {filled:?}\n  {reversed:?}"));
}
