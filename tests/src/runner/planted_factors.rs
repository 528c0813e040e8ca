//! Wrong searches for the shortest stretch. Each is one pass over the plan from
//! right to left with one fault; the comparisons have to find every one of them.

use crate::entry::{BoardEntry, Counted, Judged, Loaded, Reference, Shortest, Stepped};
use reference::board::{self, Bodies, Refused};

/// The pass, piece by piece. For every state it keeps the least place up to
/// which the letters lead to a dead state, or `NEVER`.
#[derive(Clone, Copy)]
struct Pass {
    is_dead: fn(&Bodies, usize) -> bool,
    /// Whether the stretch begins in this one of so many states.
    begins: fn(usize, usize) -> bool,
    /// Of two states' places the one that counts.
    later: fn(usize, usize) -> usize,
    /// A dead state's place with the letter at this one, and its place so far.
    dead_place: fn(usize, usize) -> usize,
    /// Whether a stretch of this length goes before one found further right.
    goes_first: fn(usize, usize) -> bool,
    /// Letters at the beginning and at the end that aren't looked at.
    first: usize,
    last: usize,
}

const NEVER: usize = usize::MAX;

const RIGHT: Pass = Pass {
    is_dead: |bodies, state| bodies.marks[state] == 2,
    begins: |_, _| true,
    later: usize::max,
    dead_place: |place, _| place,
    goes_first: |length, best| length <= best,
    first: 0,
    last: 0,
};

impl Pass {
    fn shortest(&self, bodies: &Bodies, columns: &[usize]) -> Option<(usize, usize)> {
        let states = bodies.states();
        let end = columns.len().saturating_sub(self.last);
        let is_dead: Vec<bool> = (0..states).map(|state| (self.is_dead)(bodies, state)).collect();
        if is_dead[0] {
            return Some((0, 0));
        }
        let mut places: Vec<usize> = is_dead.iter().map(|&dead| if dead { end } else { NEVER }).collect();
        let mut before = places.clone();
        let mut best: Option<(usize, usize)> = None;
        for place in (self.first.min(end)..end).rev() {
            std::mem::swap(&mut places, &mut before);
            for state in 0..states {
                places[state] = match is_dead[state] {
                    true => (self.dead_place)(place, before[state]),
                    false => before[bodies.target(state, columns[place])],
                };
            }
            let begins = (0..states).filter(|&state| (self.begins)(state, states));
            let last = begins.map(|state| places[state]).reduce(self.later).unwrap_or(NEVER);
            if last != NEVER && best.is_none_or(|(_, length)| (self.goes_first)(last - place, length)) {
                best = Some((place, last - place));
            }
        }
        best
    }

    fn answer(&self, card: &[u8], plan: &[u8]) -> Shortest {
        match board::tested(card, plan) {
            Ok((bodies, columns)) => shortest(self.shortest(&bodies, &columns)),
            Err(Refused::Card(number)) => Shortest::Refused(number.into()),
            Err(Refused::ForeignLetter { before }) => Shortest::ForeignLetter { before: before as u64 },
        }
    }
}

fn shortest(found: Option<(usize, usize)>) -> Shortest {
    found.map_or(Shortest::None, |(start, length)| Shortest::At { start: start as u64, length: length as u64 })
}

/// A card, a plan, what `out` held and what the pass finds.
type Change = fn(&[u8], &[u8], [u64; 3], Shortest) -> Shortest;

pub struct Planted {
    pub name: &'static str,
    /// Found by the product's own answers alone, without the reference.
    pub contradicts: bool,
    /// Only found in a plan that is longer than the random ones.
    pub only_long: bool,
    pass: Pass,
    change: Change,
}

const REFERENCE: Reference = Reference { bench: Vec::new() };

impl BoardEntry for Planted {
    fn load(&self, card: &[u8]) -> Loaded {
        REFERENCE.load(card)
    }

    fn step(&self, card: &[u8], state: usize, letter: u8) -> Stepped {
        REFERENCE.step(card, state, letter)
    }

    fn judge(&self, card: &[u8], plan: &[u8]) -> Judged {
        REFERENCE.judge(card, plan)
    }

    fn shortest(&self, card: &[u8], plan: &[u8], held: [u64; 3]) -> Shortest {
        (self.change)(card, plan, held, self.pass.answer(card, plan))
    }

    fn count(&self, card: &[u8], length: usize, held: [u64; 3]) -> Counted {
        REFERENCE.count(card, length, held)
    }
}

/// No fault: the comparisons may find nothing.
pub fn right() -> Planted {
    Planted { name: "no fault", contradicts: false, only_long: false, pass: RIGHT, change: |_, _, _, found| found }
}

fn pass(name: &'static str, pass: Pass) -> Planted {
    Planted { name, pass, ..right() }
}

fn change(name: &'static str, change: Change) -> Planted {
    Planted { name, change, ..right() }
}

impl Planted {
    fn contradicts(self) -> Planted {
        Planted { contradicts: true, ..self }
    }

    fn only_long(self) -> Planted {
        Planted { only_long: true, ..self }
    }
}

/// Another answer where a stretch was found.
fn moved(found: Shortest, to: impl FnOnce(u64, u64) -> (u64, u64)) -> Shortest {
    match found {
        Shortest::At { start, length } => {
            let (start, length) = to(start, length);
            Shortest::At { start, length }
        }
        other => other,
    }
}

fn is_hopeless(card: &[u8], plan: &[u8]) -> bool {
    matches!(REFERENCE.judge(card, plan), Judged::Hopeless(_))
}

fn is_known(card: &[u8], letter: &u8) -> bool {
    board::bodies(card).is_ok_and(|bodies| bodies.letters.contains(letter))
}

fn has_no_letters(card: &[u8]) -> bool {
    board::bodies(card).is_ok_and(|bodies| bodies.letters.is_empty())
}

pub fn all() -> Vec<Planted> {
    [in_the_pass(), in_the_answer(), in_the_tests(), without_letters()].into_iter().flatten().collect()
}

fn in_the_pass() -> Vec<Planted> {
    vec![
        pass("dead from one state is enough", Pass { later: usize::min, ..RIGHT }).contradicts(),
        pass("the rightmost of equal ones", Pass { goes_first: |length, best| length < best, ..RIGHT }).contradicts(),
        pass("the longest", Pass { goes_first: |length, best| length >= best, ..RIGHT }).contradicts(),
        pass("the leftmost, however long", Pass { goes_first: |_, _| true, ..RIGHT }).contradicts(),
        pass("the rightmost, however long", Pass { goes_first: |_, _| false, ..RIGHT }).contradicts(),
        pass("only state 0 as beginning", Pass { begins: |state, _| state == 0, ..RIGHT }).contradicts(),
        pass("state 0 never as beginning", Pass { begins: |state, _| state != 0, ..RIGHT }).contradicts(),
        pass("the last state never as beginning", Pass { begins: |state, n| state + 1 != n, ..RIGHT }),
        pass("only 64 states as beginnings", Pass { begins: |state, _| state < 64, ..RIGHT }),
        pass("unfinished states taken as dead", Pass { is_dead: |bodies, state| bodies.marks[state] != 1, ..RIGHT })
            .contradicts(),
        pass("allowed states taken as dead", Pass { is_dead: |bodies, state| bodies.marks[state] == 1, ..RIGHT })
            .contradicts(),
        pass("no state taken as dead", Pass { is_dead: |_, _| false, ..RIGHT }),
        pass("only the last state can be dead", {
            let is_dead = |bodies: &Bodies, state: usize| state + 1 == bodies.states() && bodies.marks[state] == 2;
            Pass { is_dead, ..RIGHT }
        }),
        pass("only state 1 can be dead", {
            let is_dead = |bodies: &Bodies, state: usize| state < 2 && bodies.marks[state] == 2;
            Pass { is_dead, ..RIGHT }
        }),
        pass("the greatest place kept instead of the least", Pass { dead_place: |_, place| place, ..RIGHT })
            .contradicts(),
        pass("dead one letter later", Pass { dead_place: |place, _| place + 1, ..RIGHT }).contradicts(),
        pass("the first letter isn't looked at", Pass { first: 1, ..RIGHT }).contradicts(),
        pass("the last letter isn't looked at", Pass { last: 1, ..RIGHT }).contradicts(),
    ]
}

fn in_the_answer() -> Vec<Planted> {
    vec![
        change("start one late", |_, _, _, found| moved(found, |start, length| (start + 1, length))).contradicts(),
        change("start one early", |_, _, _, found| moved(found, |start, length| (start.saturating_sub(1), length)))
            .contradicts(),
        change("start counted from 1", |_, _, _, found| match found {
            Shortest::At { length: 0, .. } => found,
            other => moved(other, |start, length| (start + 1, length)),
        })
        .contradicts(),
        change("length one too long", |_, _, _, found| moved(found, |start, length| (start, length + 1))).contradicts(),
        change("length one short", |_, _, _, found| moved(found, |start, length| (start, length.saturating_sub(1))))
            .contradicts(),
        change("the end for the length", |_, _, _, found| moved(found, |start, length| (start, start + length)))
            .contradicts(),
        change("the end for the start", |_, _, _, found| moved(found, |start, length| (start + length, length)))
            .contradicts(),
        change("start and length swapped", |_, _, _, found| moved(found, |start, length| (length, start)))
            .contradicts(),
        change("places in 8 bits", |_, _, _, found| moved(found, |start, length| (start & 255, length & 255)))
            .only_long(),
        change("places in 16 bits", |_, _, _, found| moved(found, |start, length| (start & 65_535, length & 65_535)))
            .only_long(),
        change("lengths in 16 bits", |_, _, _, found| moved(found, |start, length| (start, length & 65_535)))
            .only_long(),
        change("plans below 65,536 only", |card, plan, _, _| RIGHT.answer(card, &plan[..plan.len().min(65_535)]))
            .only_long(),
        change("none for an empty stretch", |_, _, _, found| match found {
            Shortest::At { length: 0, .. } => Shortest::None,
            other => other,
        }),
        change("the first letter for an empty stretch", |_, plan, _, found| match found {
            Shortest::At { length: 0, .. } if !plan.is_empty() => Shortest::At { start: 0, length: 1 },
            other => other,
        })
        .contradicts(),
        change("an empty stretch at the plan's end", |_, plan, _, found| match found {
            Shortest::At { length: 0, .. } => Shortest::At { start: plan.len() as u64, length: 0 },
            other => other,
        })
        .contradicts(),
        change("an empty stretch for an empty plan", |_, plan, _, found| match found {
            Shortest::None if plan.is_empty() => Shortest::At { start: 0, length: 0 },
            other => other,
        })
        .contradicts(),
        change("none for one letter", |_, _, _, found| match found {
            Shortest::At { length: 1, .. } => Shortest::None,
            other => other,
        }),
        change("none for the whole plan", |_, plan, _, found| match found {
            Shortest::At { length, .. } if length == plan.len() as u64 => Shortest::None,
            other => other,
        })
        .contradicts(),
        change("none where the plan is hopeless", |card, plan, _, found| match found {
            Shortest::At { .. } if is_hopeless(card, plan) => Shortest::None,
            other => other,
        }),
        change("always a stretch where the plan is hopeless", |card, plan, _, found| match found {
            Shortest::None if is_hopeless(card, plan) => Shortest::At { start: 0, length: plan.len() as u64 },
            other => other,
        })
        .contradicts(),
        change("ends where judging says hopeless", |card, plan, _, found| match REFERENCE.judge(card, plan) {
            Judged::Hopeless(place) => moved(found, |_, length| (place.saturating_sub(length), length)),
            _ => found,
        })
        .contradicts(),
        change("none always", |_, _, _, found| match found {
            Shortest::At { .. } => Shortest::None,
            other => other,
        }),
        change("out not written for none", |_, _, held, found| match found {
            Shortest::None if held != [0; 3] => Shortest::Unknown([0, held[0], held[1], held[2]]),
            other => other,
        })
        .contradicts(),
        change("begins with the length in out", |_, _, held, found| match found {
            Shortest::At { length, .. } if held[0] == 1 && held[2] < length => {
                Shortest::At { start: held[1], length: held[2] }
            }
            other => other,
        })
        .contradicts(),
    ]
}

fn in_the_tests() -> Vec<Planted> {
    vec![
        change("27 before 21 to 26", |card, plan, _, found| {
            match plan.iter().position(|letter| !is_known(card, letter)) {
                Some(before) => Shortest::ForeignLetter { before: before as u64 },
                None => found,
            }
        }),
        change("27 with count 0", |_, _, _, found| match found {
            Shortest::ForeignLetter { .. } => Shortest::ForeignLetter { before: 0 },
            other => other,
        })
        .contradicts(),
        change("counts the foreign letter too", |_, _, _, found| match found {
            Shortest::ForeignLetter { before } => Shortest::ForeignLetter { before: before + 1 },
            other => other,
        })
        .contradicts(),
        change("the last foreign letter", |card, plan, _, found| match found {
            Shortest::ForeignLetter { .. } => {
                let last = plan.iter().rposition(|letter| !is_known(card, letter)).expect("a foreign one");
                Shortest::ForeignLetter { before: last as u64 }
            }
            other => other,
        }),
        change("the stretch before the letters", |card, plan, _, found| match found {
            Shortest::ForeignLetter { before } => match RIGHT.answer(card, &plan[..before as usize]) {
                Shortest::None => found,
                other => other,
            },
            other => other,
        })
        .contradicts(),
        change("an empty stretch before the letters", |card, _, _, found| match (&found, board::load(card)) {
            (Shortest::ForeignLetter { .. }, Ok(bodies)) if bodies.marks[0] == 2 => {
                Shortest::At { start: 0, length: 0 }
            }
            _ => found,
        })
        .contradicts(),
        change("stops at a foreign letter", |card, plan, _, found| match found {
            Shortest::ForeignLetter { before } => RIGHT.answer(card, &plan[..before as usize]),
            other => other,
        })
        .contradicts(),
        change("no test of the card", |_, _, _, found| match found {
            Shortest::Refused(22..=26) => Shortest::None,
            other => other,
        }),
        change("no test of the numbering", |_, _, _, found| match found {
            Shortest::Refused(24) => Shortest::None,
            other => other,
        }),
        change("no test for twins", |_, _, _, found| match found {
            Shortest::Refused(26) => Shortest::None,
            other => other,
        }),
        change("21 for all that a card is refused for", |_, _, _, found| match found {
            Shortest::Refused(_) => Shortest::Refused(21),
            other => other,
        }),
    ]
}

/// Faults on a card without letters.
fn without_letters() -> Vec<Planted> {
    vec![
        change("refuses a card without letters", |card, _, _, found| match has_no_letters(card) {
            true => Shortest::Refused(21),
            false => found,
        })
        .contradicts(),
        change("none without letters", |card, _, _, found| match found {
            Shortest::At { .. } if has_no_letters(card) => Shortest::None,
            other => other,
        }),
        change("an empty stretch without letters", |card, _, _, found| match found {
            Shortest::None if has_no_letters(card) => Shortest::At { start: 0, length: 0 },
            other => other,
        })
        .contradicts(),
        change("none for letters where the card has none", |card, _, _, found| match found {
            Shortest::ForeignLetter { .. } if has_no_letters(card) => Shortest::None,
            other => other,
        })
        .contradicts(),
        change("one letter where the card has none", |card, _, _, found| match found {
            Shortest::ForeignLetter { before } if has_no_letters(card) => Shortest::At { start: before, length: 1 },
            other => other,
        })
        .contradicts(),
    ]
}
