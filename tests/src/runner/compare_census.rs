//! The product's counts against the reference, and its answers against each
//! other and against its judging.

use crate::board_examples::{chain, even};
use crate::census_examples::{self, letters, one_state, LAST};
use crate::effort::Effort;
use crate::entry::{BoardEntry, Counted, Judged, Reference, HELD};
use crate::examples::{self, FIRST_CARD, NO_LETTERS_CARD};
use crate::extra_books;
use crate::last_case;
use crate::limits;
use crate::random_books;
use crate::random_cards::{self, LENGTHS};
use crate::rng::Rng;
use crate::tally::{hex, shown, Tally};
use reference::board::{self, Bodies, Verdict};
use reference::card::{self, MOST_LETTERS, MOST_STATES};
use reference::census::{all_plans, Figures};
use reference::compile::{compile, Lent};
use reference::machine::Machine;
use reference::pieces::words_of;
use std::cell::Cell;

/// All plans of a length are judged, too, where their number by the card's bytes
/// is at most this.
const JUDGED: u64 = 20_000;

/// A card that loads, and for each letter the card of what may stand behind it.
struct Known<'c> {
    card: &'c [u8],
    letters: &'c [u8],
    behind: Vec<Vec<u8>>,
}

struct Comparison<'p> {
    product: &'p dyn BoardEntry,
    reference: Reference,
    effort: Effort,
    calls: Cell<usize>,
}

pub fn run(tally: &mut Tally, product: &dyn BoardEntry, effort: Effort) {
    let comparison = Comparison::new(product, effort);
    if effort.fixed {
        examples(tally, product, effort);
        comparison.fixed(tally);
    }
    comparison.random(tally);
    relations(tally, product, effort);
}

/// Results worked out by hand.
pub fn examples(tally: &mut Tally, product: &dyn BoardEntry, effort: Effort) {
    let comparison = Comparison::new(product, effort);
    tally.group("counts: examples", |tally| {
        for (title, card, length, due) in census_examples::all() {
            for held in HELD {
                if tally.is_over() {
                    return;
                }
                let found = comparison.found(&card, length, held);
                tally.same(&format!("{title}, {length} letters, out {held:?}"), &due, &found);
            }
        }
    });
}

/// What the product's own answers owe each other, on cards that load.
pub fn relations(tally: &mut Tally, product: &dyn BoardEntry, effort: Effort) {
    let comparison = Comparison::new(product, effort);
    if effort.fixed {
        tally.group("counts: answers against each other, small cards", |tally| {
            for (letters, states) in random_cards::SMALL {
                for card in random_cards::all_small(letters, states) {
                    comparison.relate(tally, &card);
                }
            }
        });
        tally.group("counts: answers against each other, many states", |tally| {
            for count in 1..=3 {
                comparison.relate(tally, &chain(&letters(count), MOST_STATES));
            }
        });
        tally.group("counts: answers against each other, known books", |tally| {
            for card in known_cards() {
                comparison.relate(tally, &card);
            }
        });
    }
    tally.group("counts: answers against each other, random books", |tally| {
        let mut rng = tally.rng("counts: answers against each other, random books");
        for _ in 0..effort.of(250) {
            comparison.relate(tally, &random_card(&mut rng));
        }
    });
    tally.group("counts: answers against each other, random cards", |tally| {
        let mut rng = tally.rng("counts: answers against each other, random cards");
        for _ in 0..effort.of(150) {
            comparison.relate(tally, &random_cards::strict(&mut rng, 120));
        }
    });
}

impl<'p> Comparison<'p> {
    fn new(product: &'p dyn BoardEntry, effort: Effort) -> Comparison<'p> {
        Comparison { product, reference: Reference { bench: Vec::new() }, effort, calls: Cell::new(0) }
    }

    fn fixed(&self, tally: &mut Tally) {
        tally.group("counts: every small card", |tally| {
            for (letters, states) in random_cards::SMALL {
                for card in random_cards::all_small(letters, states) {
                    let lengths = if board::load(&card).is_ok() { &LENGTHS[..] } else { &[0, 1, 4096, 4097] };
                    self.compare_all(tally, &card, lengths.iter().copied());
                }
            }
        });
        tally.group("counts: every number of letters", |tally| {
            for (count, (last, _)) in LAST.into_iter().enumerate() {
                for card in [one_state(count, 1), one_state(count, 2), chain(&letters(count), 2)] {
                    self.compare_all(tally, &card, (last - 2..last + 5).chain(0..4));
                }
            }
        });
        tally.group("counts: one length after the other", |tally| {
            for card in [NO_LETTERS_CARD, &even()] {
                self.compare_all(tally, card, (0..300).chain(4000..4200));
            }
            self.compare_all(tally, &chain(b"a", MOST_STATES), (100..130).chain(4090..4100));
            self.compare_all(tally, FIRST_CARD, 0..70);
        });
        tally.group("counts: every byte of a card changed", |tally| self.changed_bytes(tally));
        tally.group("counts: cards of known books", |tally| {
            for card in known_cards() {
                self.compare_all(tally, &card, LENGTHS);
            }
        });
        tally.group("counts: the largest cards", |tally| {
            let longest = card_of(&limits::longest_card_book()).expect("an accepted book");
            self.compare_all(tally, &longest, LENGTHS);
            for letters in [letters(MOST_LETTERS), letters(2), letters(1)] {
                self.compare_all(tally, &chain(&letters, MOST_STATES), LENGTHS);
            }
        });
    }

    fn changed_bytes(&self, tally: &mut Tally) {
        for card in [FIRST_CARD, NO_LETTERS_CARD] {
            for (place, byte) in (0..card.len()).flat_map(|place| (0..=255).map(move |byte| (place, byte))) {
                let mut card = card.to_vec();
                card[place] = byte;
                self.compare_all(tally, &card, [2, 64, 4097]);
            }
        }
    }

    fn random(&self, tally: &mut Tally) {
        type Make = fn(&mut Rng) -> Vec<u8>;
        let kinds: [(&str, usize, Make); 9] = [
            ("counts: random cards", 800, |rng| random_cards::strict(rng, 8)),
            ("counts: damaged cards", 3000, |rng| {
                let good = if rng.once_in(4) { random_cards::good(rng) } else { random_cards::strict(rng, 8) };
                random_cards::damaged(rng, &good)
            }),
            ("counts: loose cards", 3000, random_cards::loose),
            ("counts: any bytes", 2000, |rng| {
                let length = rng.below(40);
                rng.bytes(length)
            }),
            ("counts: larger cards", 150, |rng| random_cards::strict(rng, 120)),
            ("counts: cards of the board's tests", 400, random_cards::good),
            ("counts: cards with much owed", 50, random_cards::far),
            ("counts: many states over one letter", 100, random_cards::rounds),
            ("counts: cards of random books", 400, random_card),
        ];
        for (title, usual, make) in kinds {
            tally.group(title, |tally| {
                let mut rng = tally.rng(title);
                for _ in 0..self.effort.of(usual) {
                    let card = make(&mut rng);
                    self.compare_all(tally, &card, random_cards::lengths(&mut rng, &card));
                }
            });
        }
    }

    /// On a card that loads, for each of the lengths.
    fn relate(&self, tally: &mut Tally, card: &[u8]) {
        let Ok(bodies) = board::load(card) else { return };
        let letters = bodies.letters;
        let known = Known { card, letters, behind: (0..letters.len()).map(|column| behind(&bodies, column)).collect() };
        for length in LENGTHS {
            if tally.is_over() {
                return;
            }
            let found = self.found(card, length, self.held());
            let wrong = self.wrong_relation(&known, length, &found);
            tally.check(wrong.is_none(), || {
                format!("plans of {length} letters by {}: {found:?}, but {wrong:?}", hex(card))
            });
        }
    }

    /// What doesn't go with this answer.
    fn wrong_relation(&self, known: &Known, length: usize, found: &Counted) -> Option<String> {
        let (figures, plans) = match (found, all_plans(known.letters.len(), length)) {
            (Counted::Of(figures), Some(plans)) => (*figures, plans),
            (Counted::Refused(31), None) => return None,
            (_, plans) => return Some(format!("all plans are {plans:?}")),
        };
        if figures.sum() != plans.into() {
            return Some(format!("all plans are {plans}"));
        }
        if plans.saturating_mul(known.card.len() as u64) <= JUDGED {
            let verdicts = words_of(known.letters, length).into_iter().map(|plan| self.verdict(known.card, &plan));
            let listed = verdicts.collect::<Option<Vec<Verdict<u64>>>>().map(Figures::listed);
            if listed != Some(figures) {
                return Some(format!("judging them gives {listed:?}"));
            }
        }
        let sums = self.by_first_letter(known, length.checked_sub(1)?);
        (sums != Some(figures.numbers().map(u128::from))).then(|| format!("letter by letter {sums:?}"))
    }

    /// The sums of the figures for the rest of a plan, behind each letter.
    fn by_first_letter(&self, known: &Known, rest: usize) -> Option<[u128; 3]> {
        known.behind.iter().try_fold([0; 3], |sums: [u128; 3], card| {
            let Counted::Of(figures) = self.found(card, rest, self.held()) else { return None };
            let numbers = figures.numbers();
            Some([0, 1, 2].map(|kind| sums[kind] + u128::from(numbers[kind])))
        })
    }

    fn held(&self) -> [u64; 3] {
        self.calls.set(self.calls.get() + 1);
        HELD[self.calls.get() % HELD.len()]
    }

    fn found(&self, card: &[u8], length: usize, held: [u64; 3]) -> Counted {
        last_case::note(|| format!("plans of {length} letters by {}, out {held:?}", hex(card)));
        self.product.count(card, length, held)
    }

    fn verdict(&self, card: &[u8], plan: &[u8]) -> Option<Verdict<u64>> {
        last_case::note(|| format!("judging {} by {}", shown(plan), hex(card)));
        match self.product.judge(card, plan) {
            Judged::Allowed => Some(Verdict::Allowed),
            Judged::Unfinished(owed) => Some(Verdict::Unfinished(owed)),
            Judged::Hopeless(place) => Some(Verdict::Hopeless(place as usize)),
            _ => None,
        }
    }

    fn compare_all(&self, tally: &mut Tally, card: &[u8], lengths: impl IntoIterator<Item = usize>) {
        for length in lengths {
            self.compare(tally, card, length);
        }
    }

    fn compare(&self, tally: &mut Tally, card: &[u8], length: usize) {
        if tally.is_over() {
            return;
        }
        let held = self.held();
        let differs = |length: usize| self.found(card, length, held) != self.reference.count(card, length, held);
        let failed = differs(length);
        tally.check(!failed, || {
            let least = (0..length.min(70)).find(|&length| differs(length)).unwrap_or(length);
            let (reference, product) = (self.reference.count(card, least, held), self.found(card, least, held));
            let call = format!("plans of {least} letters by {}, out {held:?}", hex(card));
            format!("{call}\n  reference: {reference:?}\n  product:   {product:?}")
        });
    }
}

/// The cards of books that are accepted.
fn known_cards() -> impl Iterator<Item = Vec<u8>> {
    let further = extra_books::all().into_iter().map(|(_, text)| text);
    let texts = examples::quick().into_iter().map(|example| example.text).chain(further);
    texts.filter_map(|text| card_of(&text))
}

/// That of a random book; no bytes where the book is refused.
fn random_card(rng: &mut Rng) -> Vec<u8> {
    card_of(&random_books::book(rng)).unwrap_or_default()
}

fn card_of(text: &[u8]) -> Option<Vec<u8>> {
    compile(text, &Lent::plenty()).ok().map(|accepted| accepted.card)
}

/// The card that begins where this letter leads.
fn behind(bodies: &Bodies, column: usize) -> Vec<u8> {
    let (machine, first) = (board::machine(bodies), bodies.target(0, column));
    let swapped = |state: usize| match state {
        0 => first,
        _ if state == first => 0,
        _ => state,
    };
    let row = |state: usize| machine.next[swapped(state)].iter().map(|&target| swapped(target)).collect();
    let behind = Machine {
        symbols: machine.symbols,
        next: (0..machine.states()).map(row).collect(),
        accepting: (0..machine.states()).map(|state| machine.accepting[swapped(state)]).collect(),
    };
    card::write(bodies.letters, &behind)
}
