//! The product's shortest stretch against the reference, and its answers
//! against each other and against its judging.

use crate::board_examples;
use crate::effort::Effort;
use crate::entry::{BoardEntry, Judged, Reference, Shortest, HELD};
use crate::examples::{
    self, EVERYTHING_CARD, FIRST_CARD, NOTHING_CARD, NO_A_CARD, NO_LETTERS_CARD, NO_LETTERS_NOTHING_CARD,
};
use crate::extra_books;
use crate::factor_examples;
use crate::last_case;
use crate::random_books;
use crate::random_cards;
use crate::rng::Rng;
use crate::shrink::shrink;
use crate::tally::{hex, shown, Tally};
use reference::board;
use reference::compile::{compile, Lent};
use reference::pieces::words;
use std::cell::Cell;

struct Comparison<'p> {
    product: &'p dyn BoardEntry,
    reference: Reference,
    effort: Effort,
    calls: Cell<usize>,
}

pub fn run(tally: &mut Tally, product: &dyn BoardEntry, effort: Effort) {
    let comparison = Comparison::new(product, effort);
    if effort.fixed {
        comparison.fixed(tally);
    }
    comparison.random(tally);
    relations(tally, product, effort);
}

/// What the product's own answers owe each other, on the cards of books.
pub fn relations(tally: &mut Tally, product: &dyn BoardEntry, effort: Effort) {
    let comparison = Comparison::new(product, effort);
    if effort.fixed {
        tally.group("stretch: answers against each other, known books", |tally| {
            let mut rng = tally.rng("stretch: known books");
            for example in examples::quick() {
                comparison.book(tally, &mut rng, &example.text);
            }
            for (_, text) in extra_books::all() {
                comparison.book(tally, &mut rng, &text);
            }
        });
    }
    tally.group("stretch: answers against each other, random books", |tally| {
        let mut rng = tally.rng("stretch: random books");
        for _ in 0..effort.of(1000) {
            let text = random_books::book(&mut rng);
            comparison.book(tally, &mut rng, &text);
        }
    });
}

impl<'p> Comparison<'p> {
    fn new(product: &'p dyn BoardEntry, effort: Effort) -> Comparison<'p> {
        Comparison { product, reference: Reference { bench: Vec::new() }, effort, calls: Cell::new(0) }
    }

    fn fixed(&self, tally: &mut Tally) {
        tally.group("stretch: examples", |tally| {
            for (title, card, plan, due) in factor_examples::all() {
                for held in HELD {
                    tally.same(&format!("{title}, out {held:?}"), &due, &self.found(&card, &plan, held));
                }
            }
        });
        tally.group("stretch: every plan on small cards", |tally| {
            for (letters, states) in random_cards::SMALL {
                for card in random_cards::all_small(letters, states) {
                    let longest = if board::load(&card).is_ok() { 5 } else { 1 };
                    for plan in words(letters, longest) {
                        self.compare(tally, &card, &plan);
                    }
                    self.compare(tally, &card, b"az");
                }
            }
        });
        tally.group("stretch: foreign letters", |tally| self.foreign_letters(tally));
        tally.group("stretch: cards that don't load", |tally| {
            for (_, card, _) in board_examples::loads() {
                for plan in [&b""[..], b"a", b"abba", b"zz", b"a\0"] {
                    self.compare(tally, &card, plan);
                }
            }
            for (card, plan) in [(FIRST_CARD, &b"abb"[..]), (NO_LETTERS_CARD, b"")] {
                for place in 0..card.len() {
                    for byte in 0..=255 {
                        let mut card = card.to_vec();
                        card[place] = byte;
                        self.compare(tally, &card, plan);
                        self.compare(tally, &card, &[plan, b"A"].concat());
                    }
                }
            }
        });
        tally.group("stretch: long plans", |tally| self.long_plans(tally));
    }

    fn random(&self, tally: &mut Tally) {
        type Make = fn(&mut Rng) -> Vec<u8>;
        let kinds: [(&str, usize, usize, Make); 6] = [
            ("stretch: random cards", 10_000, 12, |rng| random_cards::strict(rng, 8)),
            ("stretch: larger cards", 800, 60, |rng| random_cards::strict(rng, 120)),
            ("stretch: cards of the board's tests", 500, 20, random_cards::good),
            ("stretch: damaged cards", 6000, 12, |rng| {
                let good = if rng.once_in(4) { random_cards::good(rng) } else { random_cards::strict(rng, 8) };
                random_cards::damaged(rng, &good)
            }),
            ("stretch: loose cards", 8000, 12, random_cards::loose),
            ("stretch: any bytes", 2000, 12, |rng| {
                let length = rng.below(40);
                rng.bytes(length)
            }),
        ];
        for (title, usual, longest, make) in kinds {
            tally.group(title, |tally| {
                let mut rng = tally.rng(title);
                for _ in 0..self.effort.of(usual) {
                    let card = make(&mut rng);
                    for _ in 0..4 {
                        let plan = random_cards::searched_plan(&mut rng, &card, longest);
                        self.compare(tally, &card, &plan);
                    }
                }
            });
        }
        tally.group("stretch: large cards and long plans", |tally| {
            let mut rng = tally.rng("stretch: large cards and long plans");
            for _ in 0..self.effort.of(100) {
                let card = random_cards::strict(&mut rng, 120);
                let plan = random_cards::searched_plan(&mut rng, &card, 400);
                self.compare(tally, &card, &plan);
            }
        });
    }

    /// At every place of short plans, alone and before others.
    fn foreign_letters(&self, tally: &mut Tally) {
        let one_a = factor_examples::one_a();
        for card in [FIRST_CARD, NOTHING_CARD, EVERYTHING_CARD, &one_a, NO_LETTERS_CARD, NO_LETTERS_NOTHING_CARD] {
            for length in 1..=12 {
                for place in 0..length {
                    for byte in [0, b'\n', b'A', b'`', b'c', b'z', b'{', 0xE1, 0xFF] {
                        let mut plan = b"abba".repeat(3)[..length].to_vec();
                        plan[place] = byte;
                        self.compare(tally, card, &plan);
                        plan[length - 1] = b'?';
                        self.compare(tally, card, &plan);
                    }
                }
            }
            for byte in 0..=255 {
                self.compare(tally, card, &[b'b', byte, b'b']);
            }
        }
    }

    /// Too long for the reference: what is due is seen in the letters.
    fn long_plans(&self, tally: &mut Tally) {
        for length in [255, 256, 257, 65_535, 65_536, 65_537, 1_000_000] {
            let plain = b"ab".repeat(length)[..length].to_vec();
            for place in [0, 2, length / 4 * 2, length - 1] {
                // On the first card only bb can't be, on the second only a.
                let mut plan = plain.clone();
                plan[place] = b'b';
                let twice = plan.windows(2).position(|pair| pair == b"bb");
                self.due(tally, FIRST_CARD, &plan, at(twice, 2));
                plan.fill(b'b');
                plan[place] = b'a';
                self.due(tally, NO_A_CARD, &plan, at(Some(place), 1));
                self.due(tally, NOTHING_CARD, &plan, at(Some(0), 0));
                self.due(tally, EVERYTHING_CARD, &plan, Shortest::None);
                self.due(tally, &factor_examples::one_a(), &plan, Shortest::None);
                plan[place] = b'c';
                self.due(tally, FIRST_CARD, &plan, Shortest::ForeignLetter { before: place as u64 });
            }
            // From one a to the next, where that is shortest.
            let bs = |count: usize| vec![b'b'; count];
            for (first, second, due) in [(length, length, 3), (length, length - 1, 4 + length), (length - 1, length, 3)]
            {
                let plan = [&b"bbba"[..], &bs(first), b"a", &bs(second), b"ab"].concat();
                self.due(tally, &factor_examples::one_a(), &plan, at(Some(due), first.min(second) + 2));
            }
        }
    }

    /// A few plans of a book that is accepted.
    fn book(&self, tally: &mut Tally, rng: &mut Rng, text: &[u8]) {
        if tally.is_over() {
            return;
        }
        let Ok(accepted) = compile(text, &Lent::plenty()) else { return };
        for _ in 0..6 {
            let plan = random_cards::searched_plan(rng, &accepted.card, 16);
            let wrong = self.wrong_relation(rng, &accepted.card, &plan);
            tally.check(wrong.is_none(), || format!("{}, plan {}: {wrong:?}", shown(text), shown(&plan)));
        }
    }

    /// The first answer that doesn't go with the one for this plan.
    fn wrong_relation(&self, rng: &mut Rng, card: &[u8], plan: &[u8]) -> Option<String> {
        let found = self.found(card, plan, self.held());
        match (&found, self.judged(card, plan)) {
            (Shortest::None, Judged::Hopeless(_) | Judged::Allowed | Judged::Unfinished(_)) => {
                let from = rng.below(plan.len() + 1);
                let until = rng.between(from, plan.len());
                self.differs(card, &plan[from..until], |part| *part == Shortest::None)
            }
            (&Shortest::At { start, length }, Judged::Hopeless(_)) => {
                let end = start.checked_add(length).filter(|&end| end <= plan.len() as u64);
                let Some(end) = end else { return Some(format!("{found:?} isn't in it")) };
                self.wrong_stretch(rng, card, plan, (start as usize, end as usize))
            }
            (Shortest::ForeignLetter { before }, Judged::ForeignLetter { before: judged }) if *before == judged => None,
            (_, judged) => Some(format!("judging says {judged:?}")),
        }
        .map(|wrong| format!("{found:?}, but {wrong}"))
    }

    /// The first answer that doesn't go with this stretch, from a place to one.
    fn wrong_stretch(&self, rng: &mut Rng, card: &[u8], plan: &[u8], (from, end): (usize, usize)) -> Option<String> {
        let (stretch, length) = (&plan[from..end], (end - from) as u64);
        let [before, behind] = [6, 6].map(|most| random_cards::searched_plan(rng, card, most));
        let around = [&before, stretch, &behind].concat();
        let may_be = match self.judged(card, &around) {
            Judged::Hopeless(_) | Judged::ForeignLetter { .. } => None,
            other => Some(format!("{} is {other:?}", shown(&around))),
        };
        let is_none = |found: &Shortest| *found == Shortest::None;
        let is_longer = |found: &Shortest, than: u64| match found {
            Shortest::At { length, .. } => *length > than,
            other => is_none(other),
        };
        may_be
            .or_else(|| self.differs(card, stretch, |found| *found == at(Some(0), stretch.len())))
            .or_else(|| self.differs(card, &plan[..end], |found| *found == at(Some(from), stretch.len())))
            .or_else(|| match end {
                0 => None,
                _ => self.differs(card, &plan[..end - 1], |found| is_longer(found, length)),
            })
            .or_else(|| match length {
                0 => None,
                _ => self.differs(card, &plan[from + 1..], |found| is_longer(found, length - 1)),
            })
            .or_else(|| proper_parts(stretch).find_map(|part| self.differs(card, part, is_none)))
    }

    /// What the product says of a part of the plan, where that isn't right.
    fn differs(&self, card: &[u8], part: &[u8], is_right: impl Fn(&Shortest) -> bool) -> Option<String> {
        let found = self.found(card, part, self.held());
        (!is_right(&found)).then(|| format!("the part {} gives {found:?}", shown(part)))
    }

    fn held(&self) -> [u64; 3] {
        self.calls.set(self.calls.get() + 1);
        HELD[self.calls.get() % HELD.len()]
    }

    fn found(&self, card: &[u8], plan: &[u8], held: [u64; 3]) -> Shortest {
        last_case::note(|| format!("the shortest stretch of {} by {}, out {held:?}", shown(plan), hex(card)));
        self.product.shortest(card, plan, held)
    }

    fn judged(&self, card: &[u8], plan: &[u8]) -> Judged {
        last_case::note(|| format!("judging {} by {}", shown(plan), hex(card)));
        self.product.judge(card, plan)
    }

    fn due(&self, tally: &mut Tally, card: &[u8], plan: &[u8], due: Shortest) {
        if tally.is_over() {
            return;
        }
        let found = self.found(card, plan, self.held());
        tally.same(&format!("the shortest stretch of {} by {}", shown(plan), hex(card)), &due, &found);
    }

    fn compare(&self, tally: &mut Tally, card: &[u8], plan: &[u8]) {
        if tally.is_over() {
            return;
        }
        let held = self.held();
        let differs = |plan: &[u8]| self.found(card, plan, held) != self.reference.shortest(card, plan, held);
        let failed = differs(plan);
        let small = if failed && tally.prints_failures() { shrink(plan, 500, differs) } else { plan.to_vec() };
        tally.check(!failed, || {
            let (reference, product) = (self.reference.shortest(card, &small, held), self.found(card, &small, held));
            let call = format!("the shortest stretch of {} by {}, out {held:?}", shown(&small), hex(card));
            format!("{call}\n  reference: {reference:?}\n  product:   {product:?}")
        });
    }
}

fn at(start: Option<usize>, length: usize) -> Shortest {
    start.map_or(Shortest::None, |start| Shortest::At { start: start as u64, length: length as u64 })
}

/// All that are unbroken; of long ones those without the first or last letter,
/// which the others lie in.
fn proper_parts(stretch: &[u8]) -> impl Iterator<Item = &[u8]> {
    let shortest = if stretch.len() > 12 { stretch.len() - 1 } else { 0 };
    (shortest..stretch.len()).flat_map(move |length| stretch.windows(length.max(1)).map(move |part| &part[..length]))
}
