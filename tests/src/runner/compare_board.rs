//! The product's board against the reference.

use crate::board_examples::{self, chain};
use crate::effort::Effort;
use crate::entry::{BoardEntry, Judged, Loaded, Reference, Stepped};
use crate::examples::{self, Due};
use crate::last_case;
use crate::random_cards;
use crate::rng::Rng;
use crate::shrink::shrink;
use crate::tally::{hex, shown, Tally};
use reference::board;
use reference::compile::{compile, Lent};
use reference::pieces::words;

struct Comparison<'p> {
    product: &'p dyn BoardEntry,
    reference: Reference,
    effort: Effort,
}

pub fn run(tally: &mut Tally, product: &dyn BoardEntry, effort: Effort) {
    let comparison = Comparison { product, reference: Reference { bench: Vec::new() }, effort };
    if effort.fixed {
        comparison.fixed(tally);
    }
    comparison.random(tally);
    relations(tally, product, effort);
}

/// What the product's own replies and steps owe each other.
pub fn relations(tally: &mut Tally, product: &dyn BoardEntry, effort: Effort) {
    let comparison = Comparison { product, reference: Reference { bench: Vec::new() }, effort };
    if effort.fixed {
        tally.group("board: what is owed on small cards, by all continuations", |tally| {
            for (letters, states) in random_cards::SMALL {
                for card in random_cards::all_small(letters, states) {
                    comparison.continuations(tally, &card, letters, states);
                }
            }
        });
        tally.group("board: what is owed on a chain, letter by letter", |tally| {
            for plan in ["", "b", "aab", &examples::a(20), &examples::a(119)] {
                comparison.letter_by_letter(tally, &chain(b"ab", 120), plan.as_bytes());
            }
        });
    }
    tally.group("board: what is owed, letter by letter", |tally| {
        let mut rng = tally.rng("board: what is owed, letter by letter");
        for _ in 0..effort.of(1000) {
            let card = if rng.once_in(2) { random_cards::good(&mut rng) } else { random_cards::far(&mut rng) };
            let plan = random_cards::far_plan(&mut rng, &card);
            comparison.letter_by_letter(tally, &card, &plan[..plan.len().min(8)]);
            comparison.letter_by_letter(tally, &card, &plan);
        }
    });
}

impl Comparison<'_> {
    fn fixed(&self, tally: &mut Tally) {
        tally.group("board: examples", |tally| self.examples(tally));
        tally.group("board: every byte value as a letter", |tally| {
            for letter in 0..=255 {
                for card in [examples::FIRST_CARD, examples::NO_LETTERS_CARD, examples::NO_LETTERS_NOTHING_CARD] {
                    for state in [0, 1, 2, 3, 255, 256, usize::MAX] {
                        self.step(tally, card, state, letter);
                    }
                    self.judge(tally, card, &[b'a', letter, b'b']);
                    self.judge(tally, card, &[letter]);
                }
            }
        });
        tally.group("board: every byte of a card changed", |tally| {
            for card in [examples::FIRST_CARD, examples::NO_LETTERS_CARD] {
                for place in 0..card.len() {
                    for byte in 0..=255 {
                        let mut card = card.to_vec();
                        card[place] = byte;
                        self.load(tally, &card);
                        self.judge(tally, &card, b"");
                        for (state, letter) in [(0, b'a'), (1, b'b'), (3, b'a'), (0, b'?'), (3, b'?')] {
                            self.step(tally, &card, state, letter);
                        }
                    }
                }
            }
        });
        tally.group("board: every small card", |tally| {
            for (letters, states) in random_cards::SMALL {
                for card in random_cards::all_small(letters, states) {
                    self.load(tally, &card);
                    self.all_steps(tally, &card, states);
                    if board::load(&card).is_ok() {
                        for plan in words(letters, 4) {
                            self.judge(tally, &card, &plan);
                        }
                    }
                }
            }
        });
        tally.group("board: long plans", |tally| self.long_plans(tally));
        tally.group("board: chains", |tally| self.chains(tally));
    }

    fn random(&self, tally: &mut Tally) {
        tally.group("board: random cards", |tally| {
            let mut rng = tally.rng("board: random cards");
            for _ in 0..self.effort.of(1500) {
                let card = random_cards::good(&mut rng);
                self.all_three(tally, &mut rng, &card);
            }
        });
        tally.group("board: cards with much owed", |tally| {
            let mut rng = tally.rng("board: cards with much owed");
            for _ in 0..self.effort.of(1500) {
                let card = random_cards::far(&mut rng);
                self.all_three(tally, &mut rng, &card);
            }
        });
        tally.group("board: damaged cards", |tally| {
            let mut rng = tally.rng("board: damaged cards");
            for _ in 0..self.effort.of(6000) {
                let good = random_cards::good(&mut rng);
                let card = random_cards::damaged(&mut rng, &good);
                self.all_three(tally, &mut rng, &card);
            }
        });
        tally.group("board: loose cards", |tally| {
            let mut rng = tally.rng("board: loose cards");
            for _ in 0..self.effort.of(8000) {
                let card = random_cards::loose(&mut rng);
                self.all_three(tally, &mut rng, &card);
            }
        });
        tally.group("board: any bytes", |tally| {
            let mut rng = tally.rng("board: any bytes");
            for _ in 0..self.effort.of(2000) {
                let length = rng.below(40);
                let card = rng.bytes(length);
                self.all_three(tally, &mut rng, &card);
            }
        });
    }

    fn examples(&self, tally: &mut Tally) {
        for (title, card, due) in board_examples::loads() {
            tally.same(title, &due, &self.loaded(&card));
        }
        for (title, card, state, letter, due) in board_examples::steps() {
            tally.same(title, &due, &self.stepped(&card, state, letter));
        }
        for (title, card, plan, due) in board_examples::judgings() {
            tally.same(title, &due, &self.judged(&card, &plan));
        }
        for example in examples::quick() {
            if tally.is_over() {
                return;
            }
            let Due::Accepted { verdicts, .. } = &example.due else { continue };
            let Ok(accepted) = compile(&example.text, &Lent::plenty()) else { continue };
            self.load(tally, &accepted.card);
            for (plan, _) in verdicts {
                self.judge(tally, &accepted.card, plan.as_bytes());
            }
        }
    }

    /// Every step from every state and from the next two numbers, by the
    /// letters up to d.
    fn all_steps(&self, tally: &mut Tally, card: &[u8], states: usize) {
        for state in 0..states + 2 {
            for letter in b'a'..=b'd' {
                self.step(tally, card, state, letter);
            }
        }
    }

    /// One letter less is owed at each state of a chain, from 119 on.
    fn chains(&self, tally: &mut Tally) {
        let all_letters: Vec<u8> = (b'a'..=b'z').collect();
        for (letters, states) in [(&b"a"[..], 1), (b"a", 2), (b"a", 11), (b"a", 120), (b"ab", 101), (b"abc", 120)] {
            let card = chain(letters, states);
            self.all_steps(tally, &card, states);
            for length in 0..states + 2 {
                self.judge(tally, &card, examples::a(length).as_bytes());
            }
        }
        let longest = chain(&all_letters, 120);
        for length in [0, 1, 18, 19, 20, 60, 108, 109, 110, 117, 118, 119, 120] {
            self.judge(tally, &longest, examples::a(length).as_bytes());
            self.judge(tally, &longest, (examples::a(length) + "z").as_bytes());
            for letter in *b"ayz" {
                self.step(tally, &longest, length, letter);
            }
        }
    }

    /// Some continuation of as many letters as are owed is allowed, none of
    /// fewer; without hope none is of as many letters as there are states.
    fn continuations(&self, tally: &mut Tally, card: &[u8], letters: &[u8], states: usize) {
        if tally.is_over() || !matches!(self.loaded(card), Loaded::Card { .. }) {
            return;
        }
        let all = words(letters, states);
        for plan in words(letters, 2) {
            let allowed = all.iter().filter(|rest| self.judged(card, &[&plan[..], rest].concat()) == Judged::Allowed);
            let fewest = allowed.map(|rest| rest.len() as u64).min();
            let judged = self.judged(card, &plan);
            tally.check(fewest == letters_owed(&judged), || {
                format!("judging {} by {}: {judged:?}, but {fewest:?} by all continuations", shown(&plan), hex(card))
            });
        }
    }

    /// One letter less is owed behind the best letter. A step says the same of
    /// where it lands as judging does of the plan.
    fn letter_by_letter(&self, tally: &mut Tally, card: &[u8], plan: &[u8]) {
        if tally.is_over() {
            return;
        }
        let Ok(bodies) = board::bodies(card) else { return };
        let judged = self.judged(card, plan);
        let behind = |letter: &u8| letters_owed(&self.judged(card, &[plan, &[*letter]].concat()));
        let best = bodies.letters.iter().filter_map(behind).min();
        let fits = match letters_owed(&judged) {
            None => best.is_none(),
            Some(0) => true,
            Some(owed) => best == Some(owed - 1),
        };
        tally.check(fits, || {
            format!("judging {} by {}: {judged:?}, but behind one letter {best:?}", shown(plan), hex(card))
        });
        let Some((&last, before)) = plan.split_last() else { return };
        let state = before.iter().try_fold(0, |state, &letter| match self.stepped(card, state, letter) {
            Stepped::To { state, .. } => Some(state as usize),
            _ => None,
        });
        let stepped = state.map(|state| self.stepped(card, state, last));
        let fits = match stepped {
            Some(Stepped::To { marks: 0, owed, .. }) => judged == Judged::Unfinished(owed),
            Some(Stepped::To { marks: 1, owed: 0, .. }) => judged == Judged::Allowed,
            Some(Stepped::To { marks: 2, owed: 0, .. }) => matches!(judged, Judged::Hopeless(_)),
            _ => false,
        };
        tally.check(fits, || {
            format!("judging {} by {}: {judged:?}, but step by step {stepped:?}", shown(plan), hex(card))
        });
    }

    fn long_plans(&self, tally: &mut Tally) {
        for length in [255, 256, 257, 65_535, 65_536, 65_537, 1_000_000] {
            let plain = b"ab".repeat(length)[..length].to_vec();
            self.judge(tally, examples::FIRST_CARD, &plain);
            for (place, byte) in
                [(0, b'b'), (length / 2, b'b'), (length - 1, b'b'), (length - 1, b'c'), (length / 2, 0)]
            {
                let mut plan = plain.clone();
                plan[place] = byte;
                self.judge(tally, examples::FIRST_CARD, &plan);
                plan.fill(b'a');
                plan[place] = byte;
                self.judge(tally, examples::NO_A_CARD, &plan);
                self.judge(tally, examples::NOTHING_CARD, &plan);
                self.judge(tally, &chain(b"ab", 120), &plan);
            }
        }
    }

    /// Loading, some steps and some plans on one card.
    fn all_three(&self, tally: &mut Tally, rng: &mut Rng, card: &[u8]) {
        self.load(tally, card);
        let (letters, states) = match board::bodies(card) {
            Ok(bodies) => (bodies.letters.to_vec(), bodies.states()),
            Err(_) => (b"ab".to_vec(), 3),
        };
        for _ in 0..3 {
            let state = match rng.below(6) {
                0 => rng.below(300),
                1 | 2 => rng.below(states.min(4)),
                _ => rng.below(states),
            };
            let letter = if rng.once_in(6) { rng.next() as u8 } else { random_cards::letter(rng, &letters) };
            self.step(tally, card, state, letter);
        }
        for _ in 0..3 {
            let plan = random_cards::plan(rng, &letters);
            self.judge(tally, card, &plan);
        }
        let plan = random_cards::far_plan(rng, card);
        self.judge(tally, card, &plan);
    }

    fn loaded(&self, card: &[u8]) -> Loaded {
        last_case::note(|| format!("loading {}", hex(card)));
        self.product.load(card)
    }

    fn stepped(&self, card: &[u8], state: usize, letter: u8) -> Stepped {
        last_case::note(|| format!("a step from state {state} with letter {letter} on {}", hex(card)));
        self.product.step(card, state, letter)
    }

    fn judged(&self, card: &[u8], plan: &[u8]) -> Judged {
        last_case::note(|| format!("judging {} by {}", shown(plan), hex(card)));
        self.product.judge(card, plan)
    }

    fn load(&self, tally: &mut Tally, card: &[u8]) {
        if tally.is_over() {
            return;
        }
        let differs = |card: &[u8]| self.loaded(card) != self.reference.load(card);
        let failed = differs(card);
        let small = if failed && tally.prints_failures() { shrink(card, 500, differs) } else { card.to_vec() };
        tally.check(!failed, || {
            let (reference, product) = (self.reference.load(&small), self.loaded(&small));
            format!("loading {}\n  reference: {reference:?}\n  product:   {product:?}", hex(&small))
        });
    }

    fn step(&self, tally: &mut Tally, card: &[u8], state: usize, letter: u8) {
        if tally.is_over() {
            return;
        }
        let (reference, product) = (self.reference.step(card, state, letter), self.stepped(card, state, letter));
        tally.check(reference == product, || {
            let call = format!("a step from state {state} with letter {letter} on {}", hex(card));
            format!("{call}\n  reference: {reference:?}\n  product:   {product:?}")
        });
    }

    fn judge(&self, tally: &mut Tally, card: &[u8], plan: &[u8]) {
        if tally.is_over() {
            return;
        }
        let differs = |plan: &[u8]| self.judged(card, plan) != self.reference.judge(card, plan);
        let failed = differs(plan);
        let small = if failed && tally.prints_failures() { shrink(plan, 500, differs) } else { plan.to_vec() };
        tally.check(!failed, || {
            let (reference, product) = (self.reference.judge(card, &small), self.judged(card, &small));
            let call = format!("judging {} by {}", shown(&small), hex(card));
            format!("{call}\n  reference: {reference:?}\n  product:   {product:?}")
        });
    }
}

/// None where there is no hope, or no verdict.
fn letters_owed(judged: &Judged) -> Option<u64> {
    match judged {
        Judged::Allowed => Some(0),
        Judged::Unfinished(owed) => Some(*owed),
        _ => None,
    }
}
