//! Wrong boards. Each is the reference with one fault; the comparisons have to
//! find every one of them.

use crate::by_format;
use crate::entry::{BoardEntry, Counted, Judged, Loaded, Reference, Shortest, Stepped};
use reference::board::{self, Bodies};
use reference::card;
use reference::distance::fewest;

type Load = fn(&[u8], Loaded) -> Loaded;
type Step = fn(&[u8], usize, u8, Stepped) -> Stepped;
type Judge = fn(&[u8], &[u8], Judged) -> Judged;

/// The reference's answers, changed afterwards.
pub struct Planted {
    pub name: String,
    load: Load,
    step: Step,
    judge: Judge,
    owed: Owed,
    owed_in_steps: Owed,
}

/// What is said to be owed, on a loaded card, in a state of marks 0. `left` is
/// the state before the last letter, `right` what is due.
type Owed = fn(&Bodies, At) -> u64;

#[derive(Clone, Copy)]
struct At {
    left: usize,
    state: usize,
    letters: usize,
    right: u64,
}

static REFERENCE: Reference = Reference { bench: Vec::new() };

impl BoardEntry for Planted {
    fn load(&self, card: &[u8]) -> Loaded {
        (self.load)(card, REFERENCE.load(card))
    }

    fn step(&self, card: &[u8], left: usize, letter: u8) -> Stepped {
        let mut found = REFERENCE.step(card, left, letter);
        if let (Ok(bodies), Stepped::To { state, marks: 0, owed }) = (board::load(card), &mut found) {
            *owed = (self.owed_in_steps)(&bodies, At { left, state: *state as usize, letters: 1, right: *owed });
        }
        (self.step)(card, left, letter, found)
    }

    fn judge(&self, card: &[u8], plan: &[u8]) -> Judged {
        let mut found = REFERENCE.judge(card, plan);
        if let (Ok((bodies, columns)), Judged::Unfinished(owed)) = (board::tested(card, plan), &mut found) {
            let after = |columns: &[usize]| board::machine(&bodies).run(0, columns);
            let (left, state) = (after(&columns[..columns.len().saturating_sub(1)]), after(&columns));
            *owed = (self.owed)(&bodies, At { left, state, letters: columns.len(), right: *owed });
        }
        (self.judge)(card, plan, found)
    }

    fn shortest(&self, card: &[u8], plan: &[u8], held: [u64; 3]) -> Shortest {
        REFERENCE.shortest(card, plan, held)
    }

    fn count(&self, card: &[u8], length: usize, held: [u64; 3]) -> Counted {
        REFERENCE.count(card, length, held)
    }
}

/// No fault: the comparisons may find nothing.
pub fn right() -> Planted {
    Planted {
        name: "no fault".into(),
        load: |_, found| found,
        step: |_, _, _, found| found,
        judge: |_, _, found| found,
        owed: |_, at| at.right,
        owed_in_steps: |_, at| at.right,
    }
}

fn load(name: &str, load: Load) -> Planted {
    Planted { name: name.into(), load, ..right() }
}

fn step(name: &str, step: Step) -> Planted {
    Planted { name: name.into(), step, ..right() }
}

fn judge(name: &str, judge: Judge) -> Planted {
    Planted { name: name.into(), judge, ..right() }
}

/// A number as it stands for the state, 0 where there is none.
fn number_of(bodies: &Bodies, state: usize) -> u64 {
    fewest(&board::machine(bodies))[state].map_or(0, |owed| owed as u64)
}

/// What is owed behind each of the letters, where there is hope.
fn behind_letters(bodies: &Bodies, state: usize) -> Vec<u64> {
    let fewest = fewest(&board::machine(bodies));
    let behind = |column| fewest[bodies.target(state, column)].map(|owed| owed as u64);
    (0..bodies.letters.len()).filter_map(behind).collect()
}

/// The letters of the first way that is found to a state, each letter tried to
/// its end before the next.
fn in_depth(bodies: &Bodies, state: usize, is_end: fn(u8) -> bool) -> u64 {
    fn search(bodies: &Bodies, state: usize, is_end: fn(u8) -> bool, seen: &mut [bool]) -> Option<u64> {
        seen[state] = true;
        (0..bodies.letters.len()).map(|column| bodies.target(state, column)).find_map(|target| match seen[target] {
            _ if is_end(bodies.marks[target]) => Some(1),
            true => None,
            false => search(bodies, target, is_end, seen).map(|rest| rest + 1),
        })
    }
    search(bodies, state, is_end, &mut vec![false; bodies.states()]).unwrap_or(0)
}

/// Wrong numbers, each in judging and in a step.
fn wrong_numbers() -> Vec<(&'static str, Owed)> {
    vec![
        ("one letter less owed", |_, at| at.right - 1),
        ("one letter more owed", |_, at| at.right + 1),
        ("no number", |_, _| 0),
        ("always one letter owed", |_, _| 1),
        ("what the state before owed", |bodies, at| number_of(bodies, at.left)),
        ("what the start owes", |bodies, _| number_of(bodies, 0)),
        ("letters to where there is hope", |bodies, at| in_depth(bodies, at.state, |marks| marks != 2)),
        ("the longer way", |bodies, at| behind_letters(bodies, at.state).into_iter().max().unwrap_or(0) + 1),
        ("the first letter's way", |bodies, at| behind_letters(bodies, at.state).first().unwrap_or(&0) + 1),
        ("the last letter's way", |bodies, at| behind_letters(bodies, at.state).last().unwrap_or(&0) + 1),
        ("the first way in depth", |bodies, at| in_depth(bodies, at.state, |marks| marks == 1)),
        ("the letters so far are counted too", |_, at| at.right + at.letters as u64),
        ("at most 118 letters owed", |_, at| at.right.min(118)),
        ("at most 99 letters owed", |_, at| at.right.min(99)),
        ("the number of states where a way is long", |bodies, at| match at.right {
            0..=9 => at.right,
            _ => bodies.states() as u64,
        }),
        ("the state's number", |_, at| at.state as u64),
    ]
}

/// Faults in what is owed. The board's own answers contradict each other.
pub fn in_numbers() -> Vec<Planted> {
    let both = |(name, owed): (&str, Owed)| {
        let in_judging = Planted { name: format!("judging: {name}"), owed, ..right() };
        [in_judging, Planted { name: format!("a step: {name}"), owed_in_steps: owed, ..right() }]
    };
    wrong_numbers().into_iter().flat_map(both).collect()
}

/// Those, and faults in where a number stands and in what a step tests for it.
pub fn owing() -> Vec<Planted> {
    let mut list = in_numbers();
    list.extend([
        judge("a number for what is allowed", |_, _, found| match found {
            Judged::Allowed => Judged::Unknown([0, 1, 1, 0]),
            other => other,
        }),
        judge("unfinished with a place", |_, plan, found| match found {
            Judged::Unfinished(owed) => Judged::Unknown([0, 0, owed, plan.len() as u64 + 1]),
            other => other,
        }),
        judge("the number in the last place", |_, _, found| match found {
            Judged::Unfinished(owed) => Judged::Unknown([0, 0, 0, owed]),
            other => other,
        }),
        step("a number with marks 1", |_, _, _, found| match found {
            Stepped::To { state, marks: 1, .. } => Stepped::To { state, marks: 1, owed: 1 },
            other => other,
        }),
        step("a number with marks 2", |_, _, _, found| match found {
            Stepped::To { state, marks: 2, .. } => Stepped::To { state, marks: 2, owed: 1 },
            other => other,
        }),
        step("what the state before owed, whatever the marks", |card, left, _, found| {
            match (found, board::load(card)) {
                (Stepped::To { state, marks: marks @ 1.., .. }, Ok(bodies)) => {
                    Stepped::To { state, marks, owed: number_of(&bodies, left) }
                }
                (other, _) => other,
            }
        }),
        step("28 before 27", |card, state, _, found| match board::bodies(card) {
            Ok(bodies) if found == Stepped::Refused(27) && state >= bodies.states() => Stepped::Refused(28),
            _ => found,
        }),
        step("27 before the card", |card, _, letter, found| match (&found, board::bodies(card)) {
            (Stepped::Refused(22..=26), Ok(bodies)) if !bodies.letters.contains(&letter) => Stepped::Refused(27),
            _ => found,
        }),
        step("28 before the card", |card, state, _, found| match (&found, board::bodies(card)) {
            (Stepped::Refused(22..=26), Ok(bodies)) if state >= bodies.states() => Stepped::Refused(28),
            _ => found,
        }),
        step("21 and 22, then 27 and 28", |card, state, letter, found| match found {
            Stepped::Refused(23..=26) => by_old_step(card, state, letter, found),
            other => other,
        }),
        step("no more tests than before", |card, state, letter, found| match found {
            Stepped::Refused(22..=26) => by_old_step(card, state, letter, found),
            other => other,
        }),
        step("23 for this move before 22", |card, state, letter, found| {
            let astray = by_format::old_step(card, by_format::NO_LETTERS, state, letter) == Stepped::Refused(23);
            if found == Stepped::Refused(22) && astray {
                Stepped::Refused(23)
            } else {
                found
            }
        }),
        step("23 for this move only", |card, state, letter, found| match found {
            Stepped::Refused(23) => by_old_step(card, state, letter, found),
            other => other,
        }),
        step("no test of marks", |card, state, letter, found| match found {
            Stepped::Refused(25) => by_old_step(card, state, letter, found),
            other => other,
        }),
        step("no test for twins", |card, state, letter, found| match found {
            Stepped::Refused(26) => by_old_step(card, state, letter, found),
            other => other,
        }),
        step("21 for all that a card is refused for", |_, _, _, found| match found {
            Stepped::Refused(22..=26) => Stepped::Refused(21),
            other => other,
        }),
    ]);
    list
}

/// The answer of a mounted board, with no number.
fn by_old_step(card: &[u8], state: usize, letter: u8, found: Stepped) -> Stepped {
    match by_format::old_step(card, by_format::NO_LETTERS, state, letter) {
        Stepped::To { state, marks, .. } => Stepped::To { state, marks, owed: 0 },
        Stepped::Refused(number) => Stepped::Refused(number),
        Stepped::Unknown(_) => found,
    }
}

/// Whether the card passes test 21 and has no letters.
fn has_no_letters(card: &[u8]) -> bool {
    board::bodies(card).is_ok_and(|bodies| bodies.letters.is_empty())
}

/// A card that a refusal should have stopped.
fn taken(card: &[u8]) -> Loaded {
    match board::bodies(card) {
        Ok(bodies) => Loaded::Card { letters: bodies.letters.len() as u64, states: bodies.states() as u64 },
        Err(_) => Loaded::Card { letters: 0, states: 0 },
    }
}

pub fn all() -> Vec<Planted> {
    [on_any_card(), without_letters(), owing()].into_iter().flatten().collect()
}

/// Faults in what a card without letters is answered.
pub fn without_letters() -> Vec<Planted> {
    vec![
        load("refuses to load without letters", |card, found| match found {
            Loaded::Card { .. } if has_no_letters(card) => Loaded::Refused(21),
            other => other,
        }),
        load("21 for all that has no letters", |card, found| match found {
            Loaded::Refused(_) if has_no_letters(card) => Loaded::Refused(21),
            other => other,
        }),
        load("loads two states without letters", |card, found| match board::bodies(card) {
            Ok(bodies) if has_no_letters(card) && bodies.states() == 2 => taken(card),
            _ => found,
        }),
        load("wants a plan without letters", |card, found| match board::bodies(card) {
            Ok(bodies) if has_no_letters(card) && bodies.marks == [2] => Loaded::Refused(25),
            _ => found,
        }),
        load("loads marks 0 without letters", |card, found| match board::bodies(card) {
            Ok(bodies) if has_no_letters(card) && bodies.marks == [0] => taken(card),
            _ => found,
        }),
        load("doesn't test marks without letters", |card, found| match found {
            Loaded::Refused(25) if has_no_letters(card) => taken(card),
            other => other,
        }),
        load("counts one letter where there is none", |_, found| match found {
            Loaded::Card { letters: 0, states } => Loaded::Card { letters: 1, states },
            other => other,
        }),
        step("refuses to step without letters", |card, _, _, found| match found {
            Stepped::Refused(27) if has_no_letters(card) => Stepped::Refused(21),
            other => other,
        }),
        step("steps to state 0 without letters", |card, state, _, found| match board::bodies(card) {
            Ok(bodies) if bodies.letters.is_empty() && state == 0 => {
                Stepped::To { state: 0, marks: bodies.marks[0].into(), owed: 0 }
            }
            _ => found,
        }),
        step("28 first without letters", |card, state, _, found| match board::bodies(card) {
            Ok(bodies) if bodies.letters.is_empty() && state >= bodies.states() => Stepped::Refused(28),
            _ => found,
        }),
        judge("refuses to judge without letters", |card, _, found| match found {
            Judged::Allowed | Judged::Hopeless(_) if has_no_letters(card) => Judged::Refused(21),
            other => other,
        }),
        judge("allows every plan without letters", |card, _, found| match found {
            Judged::ForeignLetter { .. } if has_no_letters(card) => Judged::Allowed,
            other => other,
        }),
        judge("allows the empty plan without letters", |card, _, found| match found {
            Judged::Hopeless(0) if has_no_letters(card) => Judged::Allowed,
            other => other,
        }),
        judge("hopeless before 27 without letters", |card, _, found| match board::load(card) {
            Ok(bodies) if bodies.letters.is_empty() && bodies.marks == [2] => Judged::Hopeless(0),
            _ => found,
        }),
    ]
}

fn on_any_card() -> Vec<Planted> {
    vec![
        load("loads everything", |card, _| taken(card)),
        load("refuses everything", |_, _| Loaded::Refused(21)),
        load("takes a tail", |card, found| {
            let length = found.clone();
            match (length, card.len()) {
                (Loaded::Refused(21), 24..) => REFERENCE.load(&card[..card.len() - 1]),
                _ => found,
            }
        }),
        load("doesn't test letters", |card, found| if found == Loaded::Refused(22) { taken(card) } else { found }),
        load("doesn't test moves", |card, found| if found == Loaded::Refused(23) { taken(card) } else { found }),
        load("doesn't test numbering", |card, found| if found == Loaded::Refused(24) { taken(card) } else { found }),
        load("doesn't test marks", |card, found| if found == Loaded::Refused(25) { taken(card) } else { found }),
        load("doesn't test twins", |card, found| if found == Loaded::Refused(26) { taken(card) } else { found }),
        load("moves before letters", |card, found| match board::bodies(card) {
            Ok(bodies) if found == Loaded::Refused(22) => {
                let astray = bodies.moves.iter().any(|&target| target as usize >= bodies.states());
                if astray {
                    Loaded::Refused(23)
                } else {
                    found
                }
            }
            _ => found,
        }),
        load("marks before numbering", |card, found| match board::bodies(card) {
            Ok(bodies) if found == Loaded::Refused(24) && bodies.marks.iter().any(|&byte| byte > 2) => {
                Loaded::Refused(25)
            }
            _ => found,
        }),
        load("only tests that all states are reached", |card, found| {
            if found != Loaded::Refused(24) {
                return found;
            }
            let Ok(bodies) = board::bodies(card) else { return found };
            let all_reached = board::machine(&bodies).numbered().states() == bodies.states();
            if all_reached {
                taken(card)
            } else {
                found
            }
        }),
        load("lets a dead state be marked 0", |card, found| match board::bodies(card) {
            Ok(bodies) if found == Loaded::Refused(25) => {
                let machine = board::machine(&bodies);
                let fits = |state: usize| {
                    let due = card::marks_byte(&machine, state);
                    bodies.marks[state] == due || (due == 2 && bodies.marks[state] == 0)
                };
                if (0..bodies.states()).all(fits) {
                    taken(card)
                } else {
                    found
                }
            }
            _ => found,
        }),
        load("127 states at most", |card, found| {
            let states = card.get(6).copied().unwrap_or(0);
            if found == Loaded::Refused(21) && states == 121 && card.len() > 200 {
                taken(card)
            } else {
                found
            }
        }),
        load("119 states at most", |_, found| match found {
            Loaded::Card { states: 120, .. } => Loaded::Refused(21),
            other => other,
        }),
        load("25 letters at most", |_, found| match found {
            Loaded::Card { letters: 26, .. } => Loaded::Refused(21),
            other => other,
        }),
        load("letters and states swapped", |_, found| match found {
            Loaded::Card { letters, states } => Loaded::Card { letters: states, states: letters },
            other => other,
        }),
        step("stays in its state", |_, state, _, found| match found {
            Stepped::To { marks, owed, .. } => Stepped::To { state: state as u64, marks, owed },
            other => other,
        }),
        step("the marks of the old state", |card, left, _, found| match (found, board::bodies(card)) {
            (Stepped::To { state, owed, .. }, Ok(bodies)) => {
                Stepped::To { state, marks: bodies.marks[left].into(), owed }
            }
            (other, _) => other,
        }),
        step("states below 256 only", |card, state, letter, _| REFERENCE.step(card, state & 255, letter)),
        step("no test of the card's length", |card, state, letter, found| match found {
            Stepped::Refused(21) if card.len() > 23 => REFERENCE.step(&card[..card.len() - 1], state, letter),
            other => other,
        }),
        judge("hopeless 0 always", |_, _, _| Judged::Hopeless(0)),
        judge("never hopeless", |_, _, found| match found {
            Judged::Hopeless(_) => Judged::Unfinished(1),
            other => other,
        }),
        judge("hopeless one letter late", |_, _, found| match found {
            Judged::Hopeless(place) => Judged::Hopeless(place + 1),
            other => other,
        }),
        judge("hopeless one letter early", |_, _, found| match found {
            Judged::Hopeless(place) => Judged::Hopeless(place.saturating_sub(1)),
            other => other,
        }),
        judge("hopeless at the plan's end", |_, plan, found| match found {
            Judged::Hopeless(_) => Judged::Hopeless(plan.len() as u64),
            other => other,
        }),
        judge("never hopeless at place 0", |_, _, found| match found {
            Judged::Hopeless(0) => Judged::Hopeless(1),
            other => other,
        }),
        judge("unfinished is allowed", |_, _, found| match found {
            Judged::Unfinished(_) => Judged::Allowed,
            other => other,
        }),
        judge("the verdict before the letters", |card, plan, found| match found {
            Judged::ForeignLetter { before } => match REFERENCE.judge(card, &plan[..before as usize]) {
                Judged::Hopeless(place) => Judged::Hopeless(place),
                _ => found,
            },
            other => other,
        }),
        judge("counts the foreign letter too", |_, _, found| match found {
            Judged::ForeignLetter { before } => Judged::ForeignLetter { before: before + 1 },
            other => other,
        }),
        judge("the last foreign letter", |card, plan, found| match (found, board::bodies(card)) {
            (Judged::ForeignLetter { .. }, Ok(bodies)) => {
                let last = plan.iter().rposition(|letter| !bodies.letters.contains(letter)).expect("a foreign one");
                Judged::ForeignLetter { before: last as u64 }
            }
            (other, _) => other,
        }),
        judge("letters before the card", |card, plan, found| match (&found, board::bodies(card)) {
            (Judged::Refused(_), Ok(bodies)) => match plan.iter().position(|letter| !bodies.letters.contains(letter)) {
                Some(before) => Judged::ForeignLetter { before: before as u64 },
                None => found,
            },
            _ => found,
        }),
        judge("judges without testing the card", |card, _, found| match (&found, board::bodies(card)) {
            (Judged::Refused(24..=26), Ok(_)) => Judged::Allowed,
            _ => found,
        }),
        judge("plans below 65,536 only", |card, plan, _| REFERENCE.judge(card, &plan[..plan.len().min(65_535)])),
    ]
}
