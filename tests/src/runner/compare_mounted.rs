//! A mounted board beside today's. Its replies are today's less their number;
//! so are its steps on a card that loads. On a card that doesn't, today's step
//! answers as loading does. One from before cards without letters refuses them
//! by 21.

use crate::board_examples;
use crate::by_format;
use crate::effort::Effort;
use crate::entry::{BoardEntry, Judged, Loaded, MountedEntry, Shortest, Stepped};
use crate::factor_examples;
use crate::last_case;
use crate::random_cards;
use crate::rng::Rng;
use crate::tally::{hex, shown, Tally};
use reference::board;

/// Which mounted board.
#[derive(Clone, Copy)]
pub struct Kind {
    pub name: &'static str,
    /// The letters that its cards have at least.
    pub least: usize,
}

pub const BEFORE_W2: Kind = Kind { name: "mounted before W2", least: by_format::ONE_LETTER };
pub const BEFORE_W3: Kind = Kind { name: "mounted before W3", least: by_format::NO_LETTERS };

pub fn run(tally: &mut Tally, new: &dyn BoardEntry, mounted: &dyn MountedEntry, kind: Kind, effort: Effort) {
    let pair = Pair { new, mounted, kind };
    if effort.fixed {
        tally.group(&format!("{}: examples", kind.name), |tally| pair.examples(tally));
        tally.group(&format!("{}: every small card", kind.name), |tally| {
            let mut rng = tally.rng("mounted: every small card");
            for (letters, states) in random_cards::SMALL {
                for card in random_cards::all_small(letters, states) {
                    pair.all(tally, &mut rng, &card);
                }
            }
        });
    }
    type Make = fn(&mut Rng) -> Vec<u8>;
    let kinds: [(&str, usize, Make); 5] = [
        ("random cards", 1000, random_cards::good),
        ("cards with much owed", 300, random_cards::far),
        ("damaged cards", 3000, |rng| {
            let good = random_cards::good(rng);
            random_cards::damaged(rng, &good)
        }),
        ("loose cards", 3000, random_cards::loose),
        ("any bytes", 1000, |rng| {
            let length = rng.below(40);
            rng.bytes(length)
        }),
    ];
    for (title, usual, make) in kinds {
        let title = format!("{}: {title}", kind.name);
        tally.group(&title, |tally| {
            let mut rng = tally.rng(&title);
            for _ in 0..effort.of(usual) {
                let card = make(&mut rng);
                pair.all(tally, &mut rng, &card);
            }
        });
    }
}

struct Pair<'p> {
    new: &'p dyn BoardEntry,
    mounted: &'p dyn MountedEntry,
    kind: Kind,
}

impl Pair<'_> {
    fn examples(&self, tally: &mut Tally) {
        for (_, card, _) in board_examples::loads() {
            self.load(tally, &card);
        }
        for (_, card, state, letter, _) in board_examples::steps() {
            self.step(tally, &card, state, letter);
        }
        for (_, card, state, letter, _) in board_examples::mounted_steps() {
            self.step(tally, &card, state, letter);
        }
        for (_, card, plan, _) in board_examples::judgings() {
            self.judge(tally, &card, &plan);
        }
        for (_, card, plan, _) in factor_examples::all() {
            self.shortest(tally, &card, &plan);
        }
    }

    /// Loading, some steps and a plan on one card.
    fn all(&self, tally: &mut Tally, rng: &mut Rng, card: &[u8]) {
        self.load(tally, card);
        let (letters, states) = match board::bodies(card) {
            Ok(bodies) => (bodies.letters.to_vec(), bodies.states()),
            Err(_) => (b"ab".to_vec(), 3),
        };
        self.step(tally, card, rng.below(states), random_cards::letter(rng, &letters));
        self.step(tally, card, rng.between(states, states + 1), random_cards::letter(rng, &letters));
        self.step(tally, card, rng.below(states + 2), rng.next() as u8);
        let plan = random_cards::searched_plan(rng, card, 12);
        self.judge(tally, card, &plan);
        self.shortest(tally, card, &plan);
    }

    fn load(&self, tally: &mut Tally, card: &[u8]) {
        let call = || format!("loading {}", hex(card));
        let due = || if self.refuses(card) { Loaded::Refused(21) } else { self.new.load(card) };
        compare(tally, call, due, || self.mounted.load(card));
    }

    /// Beside the new step where the card loads, else by the words of the old
    /// one; there the new step gives loading's number.
    fn step(&self, tally: &mut Tally, card: &[u8], state: usize, letter: u8) {
        let call = || format!("a step from state {state} with letter {letter} on {}", hex(card));
        let loaded = self.new.load(card);
        let due = || match loaded {
            _ if self.refuses(card) => Stepped::Refused(21),
            Loaded::Card { .. } => self.new.step(card, state, letter).less_its_number(),
            _ => by_format::old_step(card, self.kind.least, state, letter),
        };
        compare(tally, call, due, || self.mounted.step(card, state, letter));
        if let Loaded::Refused(number) = loaded {
            compare(tally, call, || Stepped::Refused(number), || self.new.step(card, state, letter));
        }
    }

    fn judge(&self, tally: &mut Tally, card: &[u8], plan: &[u8]) {
        let call = || format!("judging {} by {}", shown(plan), hex(card));
        let due = || match self.refuses(card) {
            true => Judged::Refused(21),
            false => self.new.judge(card, plan).less_its_number(),
        };
        compare(tally, call, due, || self.mounted.judge(card, plan));
    }

    fn shortest(&self, tally: &mut Tally, card: &[u8], plan: &[u8]) {
        let call = || format!("the shortest stretch of {} by {}", shown(plan), hex(card));
        let due = || match self.refuses(card) {
            true => Shortest::Refused(21),
            false => self.new.shortest(card, plan, [0; 3]),
        };
        compare(tally, call, due, || self.mounted.shortest(card, plan));
    }

    /// m = 0, whatever else the bytes are, on a board that wants a letter.
    fn refuses(&self, card: &[u8]) -> bool {
        self.kind.least > 0 && card.get(2..4) == Some(&[0, 0])
    }
}

fn compare<T: PartialEq + std::fmt::Debug>(
    tally: &mut Tally,
    call: impl Fn() -> String,
    due: impl FnOnce() -> T,
    found: impl FnOnce() -> T,
) {
    if tally.is_over() {
        return;
    }
    last_case::note(&call);
    let (due, found) = (due(), found());
    tally.check(due == found, || format!("{}\n  due:   {due:?}\n  found: {found:?}", call()));
}
