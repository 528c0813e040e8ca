//! Wrong counters. Each is one pass over the letters of a length, with how many
//! plans lead to each state, and one fault; the comparisons have to find every
//! one of them.

use crate::entry::{BoardEntry, Counted, Judged, Loaded, Reference, Shortest, Stepped};
use reference::board::{self, Bodies};
use reference::census::{words_ending, Figures, LONGEST};

/// The pass, piece by piece.
#[derive(Clone, Copy)]
struct Pass {
    /// Whether plans of this length over so many letters are past counting.
    is_past: fn(usize, usize) -> bool,
    /// The letters that are taken for a length.
    taken: fn(usize) -> usize,
    /// How many plans without a letter lead to this state.
    start: fn(&Bodies, usize) -> u64,
    /// How often this state is led on by the letter of this column.
    times: fn(&Bodies, usize, usize) -> u64,
    target: fn(&Bodies, usize, usize) -> usize,
    sum: fn(u64, u64) -> u64,
    /// What stays of a state's plans when a letter is taken.
    stays: fn(u64) -> u64,
    /// The states' plans are taken from the numbers that are being made.
    in_place: bool,
    figures: fn(&Bodies, &[u64]) -> [u64; 3],
}

const RIGHT: Pass = Pass {
    is_past: |letters, length| length > LONGEST || exceeds(letters, length, GREATEST),
    taken: |length| length,
    start: |_, state| (state == 0).into(),
    times: |_, _, _| 1,
    target: |bodies, state, column| bodies.target(state, column),
    // No sum is past 64 bits where all plans aren't.
    sum: u64::wrapping_add,
    stays: |_| 0,
    in_place: false,
    figures: by_marks,
};

const GREATEST: u128 = u64::MAX as u128;

/// Whether this power is over a limit.
fn exceeds(letters: usize, length: usize, limit: u128) -> bool {
    let one_more = |power: u128, _| Some(power * letters as u128).filter(|&power| power <= limit);
    (0..length).try_fold(1, one_more).is_none()
}

/// The plans that lead to marks 1, 0 and 2.
fn by_marks(bodies: &Bodies, plans: &[u64]) -> [u64; 3] {
    [1, 0, 2].map(|marks| ending(plans, |state| bodies.marks[state] == marks))
}

fn ending(plans: &[u64], is_end: impl Fn(usize) -> bool) -> u64 {
    (0..plans.len()).filter(|&state| is_end(state)).fold(0, |sum, state| sum.wrapping_add(plans[state]))
}

impl Pass {
    fn figures(&self, bodies: &Bodies, length: usize) -> [u64; 3] {
        let states = 0..bodies.states();
        let mut plans: Vec<u64> = states.clone().map(|state| (self.start)(bodies, state)).collect();
        for _ in 0..(self.taken)(length) {
            let before = plans.clone();
            if !self.in_place {
                plans.iter_mut().for_each(|number| *number = (self.stays)(*number));
            }
            for state in states.clone() {
                let number = if self.in_place { std::mem::take(&mut plans[state]) } else { before[state] };
                for column in 0..bodies.letters.len() {
                    for _ in 0..(self.times)(bodies, state, column) {
                        let target = (self.target)(bodies, state, column);
                        plans[target] = (self.sum)(plans[target], number);
                    }
                }
            }
        }
        (self.figures)(bodies, &plans)
    }

    fn answer(&self, card: &[u8], length: usize) -> Counted {
        match board::load(card) {
            Ok(bodies) if (self.is_past)(bodies.letters.len(), length) => Counted::Refused(31),
            Ok(bodies) => of(self.figures(&bodies, length)),
            Err(number) => Counted::Refused(number.into()),
        }
    }
}

fn of([allowed, unfinished, hopeless]: [u64; 3]) -> Counted {
    Counted::Of(Figures { allowed, unfinished, hopeless })
}

/// A card, a length, what `out` held and what the pass finds.
type Change = fn(&[u8], usize, [u64; 3], Counted) -> Counted;

pub struct Planted {
    pub name: &'static str,
    pass: Pass,
    change: Change,
}

const REFERENCE: Reference = Reference { bench: Vec::new() };

impl BoardEntry for Planted {
    fn load(&self, card: &[u8]) -> Loaded {
        REFERENCE.load(card)
    }

    fn step(&self, card: &[u8], state: usize, letter: u8) -> Stepped {
        REFERENCE.step(card, state, letter)
    }

    fn judge(&self, card: &[u8], plan: &[u8]) -> Judged {
        REFERENCE.judge(card, plan)
    }

    fn shortest(&self, card: &[u8], plan: &[u8], held: [u64; 3]) -> Shortest {
        REFERENCE.shortest(card, plan, held)
    }

    fn count(&self, card: &[u8], length: usize, held: [u64; 3]) -> Counted {
        (self.change)(card, length, held, self.pass.answer(card, length))
    }
}

/// No fault: the comparisons may find nothing.
pub fn right() -> Planted {
    pass("no fault", RIGHT)
}

fn pass(name: &'static str, pass: Pass) -> Planted {
    Planted { name, pass, change: |_, _, _, found| found }
}

fn figures(name: &'static str, figures: fn(&Bodies, &[u64]) -> [u64; 3]) -> Planted {
    pass(name, Pass { figures, ..RIGHT })
}

fn limit(name: &'static str, is_past: fn(usize, usize) -> bool) -> Planted {
    pass(name, Pass { is_past, ..RIGHT })
}

fn change(name: &'static str, change: Change) -> Planted {
    Planted { name, change, ..right() }
}

/// Faults that the counter's own answers contradict.
pub fn on_loaded_cards() -> Vec<Planted> {
    let lists = [in_the_pass(), in_sums(), in_the_figures(), in_the_limits(), in_the_length(), in_the_answer()];
    lists.into_iter().flatten().chain(without_letters()).collect()
}

fn in_the_pass() -> Vec<Planted> {
    vec![
        pass("one letter too many", Pass { taken: |length| length + 1, ..RIGHT }),
        pass("one letter too few", Pass { taken: |length| length.saturating_sub(1), ..RIGHT }),
        pass("one plan for every state at the start", Pass { start: |_, _| 1, ..RIGHT }),
        pass("begins in state 1", {
            Pass { start: |bodies, state| (state == 1.min(bodies.states() - 1)).into(), ..RIGHT }
        }),
        pass("begins in the last state", {
            Pass { start: |bodies, state| (state + 1 == bodies.states()).into(), ..RIGHT }
        }),
        pass("the first letter twice", Pass { times: |_, _, column| if column == 0 { 2 } else { 1 }, ..RIGHT }),
        pass("the first letter left out", Pass { times: |_, _, column| (column > 0).into(), ..RIGHT }),
        pass("the last letter left out", {
            Pass { times: |bodies, _, column| (column + 1 < bodies.letters.len()).into(), ..RIGHT }
        }),
        pass("nothing behind an allowed plan", {
            Pass { times: |bodies, state, _| (bodies.marks[state] != 1).into(), ..RIGHT }
        }),
        pass("nothing behind an unfinished plan", {
            Pass { times: |bodies, state, _| (bodies.marks[state] != 0).into(), ..RIGHT }
        }),
        pass("nothing behind a hopeless plan", {
            Pass { times: |bodies, state, _| (bodies.marks[state] != 2).into(), ..RIGHT }
        }),
        pass("only 64 states", {
            Pass { times: |bodies, state, column| (bodies.target(state, column) < 64).into(), ..RIGHT }
        }),
        pass("only 119 states", {
            Pass { times: |bodies, state, column| (bodies.target(state, column) < 119).into(), ..RIGHT }
        }),
        pass("moves read letter by letter", {
            Pass { target: |bodies, state, column| bodies.moves[column * bodies.states() + state].into(), ..RIGHT }
        }),
        pass("plans of up to so many letters", Pass { stays: |number| number, ..RIGHT }),
        pass("one row of numbers for two", Pass { in_place: true, ..RIGHT }),
    ]
}

fn in_sums() -> Vec<Planted> {
    let sum = |name, sum| pass(name, Pass { sum, ..RIGHT });
    let unlimited = Pass { is_past: |_, length| length > LONGEST, ..RIGHT };
    vec![
        pass("sums that wrap at 2 to the 64", unlimited),
        pass("sums that stay at the greatest", Pass { sum: u64::saturating_add, ..unlimited }),
        sum("sums in 32 bits", |one, other| one.wrapping_add(other) & u64::from(u32::MAX)),
        sum("sums that stay at the greatest of 32 bits", |one, other| one.wrapping_add(other).min(u32::MAX.into())),
        sum("sums in 63 bits", |one, other| one.wrapping_add(other) & (u64::MAX >> 1)),
        sum("sums of 53 bits and a power", |one, other| (one as f64 + other as f64) as u64),
        sum("states instead of plans", u64::max),
    ]
}

fn in_the_figures() -> Vec<Planted> {
    vec![
        figures("hopeless by byte 0, unfinished the rest", |bodies, plans| {
            let [allowed, unfinished, hopeless] = by_marks(bodies, plans);
            [allowed, hopeless, unfinished]
        }),
        figures("allowed and hopeless swapped", |bodies, plans| {
            let [allowed, unfinished, hopeless] = by_marks(bodies, plans);
            [hopeless, unfinished, allowed]
        }),
        figures("allowed and unfinished swapped", |bodies, plans| {
            let [allowed, unfinished, hopeless] = by_marks(bodies, plans);
            [unfinished, allowed, hopeless]
        }),
        figures("unfinished is all less allowed", |bodies, plans| {
            let [allowed, unfinished, hopeless] = by_marks(bodies, plans);
            [allowed, unfinished + hopeless, hopeless]
        }),
        figures("hopeless is all less allowed", |bodies, plans| {
            let [allowed, unfinished, hopeless] = by_marks(bodies, plans);
            [allowed, unfinished, unfinished + hopeless]
        }),
        figures("never unfinished", |bodies, plans| {
            let [allowed, unfinished, hopeless] = by_marks(bodies, plans);
            [allowed, 0, unfinished + hopeless]
        }),
        figures("never hopeless", |bodies, plans| {
            let [allowed, unfinished, hopeless] = by_marks(bodies, plans);
            [allowed, unfinished + hopeless, 0]
        }),
        figures("unfinished is allowed too", |bodies, plans| {
            let [allowed, unfinished, hopeless] = by_marks(bodies, plans);
            [allowed + unfinished, unfinished, hopeless]
        }),
        figures("only state 0 is allowed", |bodies, plans| {
            let [_, unfinished, hopeless] = by_marks(bodies, plans);
            [ending(plans, |state| state == 0 && bodies.marks[0] == 1), unfinished, hopeless]
        }),
        figures("only the last state is hopeless", |bodies, plans| {
            let [allowed, unfinished, _] = by_marks(bodies, plans);
            let is_end = |state: usize| state + 1 == bodies.states() && bodies.marks[state] == 2;
            [allowed, unfinished, ending(plans, is_end)]
        }),
        figures("state 0 is never hopeless", |bodies, plans| {
            let [allowed, unfinished, _] = by_marks(bodies, plans);
            [allowed, unfinished, ending(plans, |state| state > 0 && bodies.marks[state] == 2)]
        }),
    ]
}

fn in_the_limits() -> Vec<Planted> {
    vec![
        limit("4,095 letters at most", |letters, length| length > 4095 || exceeds(letters, length, GREATEST)),
        limit("4,097 letters at most", |letters, length| length > 4097 || exceeds(letters, length, GREATEST)),
        limit("63 letters at most", |letters, length| length > 63 || exceeds(letters, length, GREATEST)),
        pass("any length where plans are few", {
            let is_past = |letters, length: usize| exceeds(letters, length.min(5000), GREATEST);
            Pass { is_past, taken: |length| length.min(5000), ..RIGHT }
        }),
        limit("past 2 to the 32", |letters, length| length > LONGEST || exceeds(letters, length, 1 << 32)),
        limit("2 to the 63 and more", |letters, length| length > LONGEST || exceeds(letters, length, (1 << 63) - 1)),
        limit("past 2 to the 63", |letters, length| length > LONGEST || exceeds(letters, length, 1 << 63)),
        limit("past 2 to the 64", |letters, length| length > LONGEST || exceeds(letters, length, 1 << 64)),
        limit("more than 19 digits", |letters, length| {
            length > LONGEST || exceeds(letters, length, 10u128.pow(19) - 1)
        }),
        limit("the plans of one letter more", |letters, length| {
            length > LONGEST || exceeds(letters, length + 1, GREATEST)
        }),
        limit("the plans of one letter less", |letters, length| {
            length > LONGEST || exceeds(letters, length.saturating_sub(1), GREATEST)
        }),
        limit("past where a product is smaller than before", |letters, length| {
            let one_more = |power: u64, _| Some(power.wrapping_mul(letters as u64)).filter(|&more| more >= power);
            length > LONGEST || letters > 0 && (0..length).try_fold(1, one_more).is_none()
        }),
        change("past where a figure is", |card, length, _, found| match (&found, board::load(card)) {
            (Counted::Refused(31), Ok(bodies))
                if length <= LONGEST && !exceeds(bodies.letters.len(), length, 1 << 90) =>
            {
                let ending =
                    |marks| words_ending(&board::machine(&bodies), length, |state| bodies.marks[state] == marks);
                let figures = [1, 0, 2].map(ending);
                match figures.iter().all(|&figure| figure <= GREATEST) {
                    true => of(figures.map(|figure| figure as u64)),
                    false => found,
                }
            }
            _ => found,
        }),
    ]
}

fn in_the_length() -> Vec<Planted> {
    vec![
        change("the length in 32 bits", |card, length, _, _| RIGHT.answer(card, length as u32 as usize)),
        change("the length in 16 bits", |card, length, _, _| RIGHT.answer(card, length as u16 as usize)),
        change("the length in 8 bits", |card, length, _, found| match found {
            Counted::Of(_) => RIGHT.answer(card, length as u8 as usize),
            other => other,
        }),
        change("the length with a sign", |card, length, _, _| RIGHT.answer(card, (length as isize).max(0) as usize)),
        change("no plan of length 0", |_, length, _, found| match found {
            Counted::Of(_) if length == 0 => of([0; 3]),
            other => other,
        }),
        change("the empty plan is allowed", |_, length, _, found| match found {
            Counted::Of(_) if length == 0 => of([1, 0, 0]),
            other => other,
        }),
        change("length 0 is past counting", |_, length, _, found| match found {
            Counted::Of(_) if length == 0 => Counted::Refused(31),
            other => other,
        }),
    ]
}

fn in_the_answer() -> Vec<Planted> {
    vec![
        change("out not cleared where it is past counting", |_, _, held, found| match found {
            Counted::Refused(31) => kept(31, held),
            other => other,
        }),
        change("out not written where there is no plan", |_, _, [allowed, unfinished, hopeless], found| match found {
            Counted::Of(figures) if figures.sum() == 0 => of([allowed, unfinished, hopeless]),
            other => other,
        }),
        change("adds to what out held", |_, _, held, found| match found {
            Counted::Of(figures) => {
                let numbers = figures.numbers();
                of([0, 1, 2].map(|place| numbers[place].wrapping_add(held[place])))
            }
            other => other,
        }),
        change("allowed alone is written", |_, _, held, found| match found {
            Counted::Of(figures) => of([figures.allowed, held[1], held[2]]),
            other => other,
        }),
        change("figures beside 31", |card, length, _, found| match (&found, board::load(card)) {
            (Counted::Refused(31), Ok(bodies)) => kept(31, RIGHT.figures(&bodies, length.min(LONGEST))),
            _ => found,
        }),
        change("0 where it is past counting", |_, _, _, found| match found {
            Counted::Refused(31) => of([0; 3]),
            other => other,
        }),
    ]
}

/// A refusal's number beside what `out` holds then.
fn kept(number: u64, [first, second, third]: [u64; 3]) -> Counted {
    match [first, second, third] {
        [0, 0, 0] => Counted::Refused(number),
        _ => Counted::Unknown([number, first, second, third]),
    }
}

fn without_letters() -> Vec<Planted> {
    vec![
        change("one plan of every length without letters", |card, length, _, found| match found {
            Counted::Of(_) if has_no_letters(card) && length > 0 => RIGHT.answer(card, 0),
            other => other,
        }),
        change("a hopeless plan of every length without letters", |card, length, _, found| match found {
            Counted::Of(_) if has_no_letters(card) && length > 0 => of([0, 0, 1]),
            other => other,
        }),
        change("no plan of length 0 without letters", |card, _, _, found| match found {
            Counted::Of(_) if has_no_letters(card) => of([0; 3]),
            other => other,
        }),
        change("past counting without letters", |card, length, _, found| match found {
            Counted::Of(_) if has_no_letters(card) && length > 0 => Counted::Refused(31),
            other => other,
        }),
        change("no plan of any length without letters", |card, length, _, found| match found {
            Counted::Refused(31) if has_no_letters(card) && length > LONGEST => of([0; 3]),
            other => other,
        }),
        change("refuses a card without letters", |card, _, _, found| match has_no_letters(card) {
            true => Counted::Refused(21),
            false => found,
        }),
    ]
}

fn has_no_letters(card: &[u8]) -> bool {
    board::bodies(card).is_ok_and(|bodies| bodies.letters.is_empty())
}

/// Faults on cards that don't load.
pub fn on_refused_cards() -> Vec<Planted> {
    vec![
        change("past 4,096 before the card", |_, length, _, found| match length > LONGEST {
            true => Counted::Refused(31),
            false => found,
        }),
        change("all plans before 22 to 26", |card, length, _, found| match board::bodies(card) {
            Ok(bodies) if (RIGHT.is_past)(bodies.letters.len(), length) => Counted::Refused(31),
            _ => found,
        }),
        change("past counting before twins", |card, length, _, found| match board::bodies(card) {
            Ok(bodies) if found == Counted::Refused(26) && (RIGHT.is_past)(bodies.letters.len(), length) => {
                Counted::Refused(31)
            }
            _ => found,
        }),
        change("out not cleared where a card is refused", |_, _, held, found| match found {
            Counted::Refused(number @ 21..=26) => kept(number, held),
            other => other,
        }),
        change("no test of the card", |_, _, _, found| match found {
            Counted::Refused(22..=26) => of([0; 3]),
            other => other,
        }),
        change("no test of the numbering", |_, _, _, found| match found {
            Counted::Refused(24) => of([0; 3]),
            other => other,
        }),
        change("no test of marks", |_, _, _, found| match found {
            Counted::Refused(25) => of([0; 3]),
            other => other,
        }),
        change("no test for twins", |_, _, _, found| match found {
            Counted::Refused(26) => of([0; 3]),
            other => other,
        }),
        change("21 for all that a card is refused for", |_, _, _, found| match found {
            Counted::Refused(22..=26) => Counted::Refused(21),
            other => other,
        }),
        change("31 for all that a card is refused for", |_, _, _, found| match found {
            Counted::Refused(_) => Counted::Refused(31),
            other => other,
        }),
    ]
}
