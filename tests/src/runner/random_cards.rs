//! Random cards: good ones, damaged ones, and every small one; plans for them,
//! and lengths of plans.

use crate::rng::Rng;
use reference::board;
use reference::card;
use reference::machine::{explore, Machine};
use reference::minimise::minimise;

/// A random machine; not all its states need be reached.
pub fn machine(rng: &mut Rng, symbols: usize, states: usize) -> Machine {
    let near = rng.once_in(2);
    let next = (0..states)
        .map(|state| {
            let target = |rng: &mut Rng| if near { (state + rng.below(3)) % states } else { rng.below(states) };
            (0..symbols).map(|_| target(rng)).collect()
        })
        .collect();
    let few = rng.between(1, 6);
    let accepting = (0..states).map(|_| rng.once_in(few)).collect();
    Machine { symbols, next, accepting }
}

/// Some letters, rising.
pub fn letters(rng: &mut Rng, count: usize) -> Vec<u8> {
    let mut all: Vec<u8> = (b'a'..=b'z').collect();
    while all.len() > count {
        let gone = rng.below(all.len());
        all.remove(gone);
    }
    all
}

/// One of these numbers of letters, now and then none.
fn letter_count(rng: &mut Rng, some: &[usize]) -> usize {
    if rng.once_in(12) {
        return 0;
    }
    *rng.pick(some)
}

/// A card that loads.
pub fn good(rng: &mut Rng) -> Vec<u8> {
    let symbols = letter_count(rng, &[1, 2, 2, 2, 3, 3, 5, 26]);
    let states = *rng.pick(&[1, 2, 3, 4, 5, 8, 16, 40, 120]);
    let mut smallest = minimise(&machine(rng, symbols, states));
    if symbols > 0 && rng.once_in(4) {
        smallest = with_dead_state(rng, &smallest);
    }
    card::write(&letters(rng, symbols), &smallest)
}

/// The same machine with one more way to die, kept small and numbered.
fn with_dead_state(rng: &mut Rng, machine: &Machine) -> Machine {
    let mut changed = machine.clone();
    if changed.states() < card::MOST_STATES {
        let dead = changed.states();
        changed.next.push(vec![dead; changed.symbols]);
        changed.accepting.push(false);
        let (state, symbol) = (rng.below(dead), rng.below(changed.symbols));
        changed.next[state][symbol] = dead;
    }
    minimise(&changed)
}

/// A card that loads, of at most so many states, at least 3; most have letters
/// in a row that no allowed plan has.
pub fn strict(rng: &mut Rng, most: usize) -> Vec<u8> {
    let symbols = letter_count(rng, &[1, 2, 2, 2, 3, 3, 5]);
    let states = rng.between(1, most);
    let machine = match rng.below(10) {
        _ if symbols == 0 => machine(rng, symbols, states),
        0..=2 => dying(rng, symbols, states),
        3..=5 => avoiding(rng, symbols, most),
        6 => counting(rng, symbols, most),
        7 | 8 => spelling(rng, symbols, most),
        _ => machine(rng, symbols, states),
    };
    card::write(&letters(rng, symbols), &minimise(&machine.numbered()))
}

/// Some moves lead to a dead state, the last one.
fn dying(rng: &mut Rng, symbols: usize, states: usize) -> Machine {
    let mut machine = machine(rng, symbols, states);
    let (dead, few) = (states - 1, rng.between(2, 6));
    for target in machine.next.iter_mut().flatten() {
        if rng.once_in(few) {
            *target = dead;
        }
    }
    machine.next[dead].fill(dead);
    machine.accepting[dead] = false;
    machine
}

/// A few words may not occur. A state is the longest end of what came so far
/// that is the beginning of such a word.
fn avoiding(rng: &mut Rng, symbols: usize, most: usize) -> Machine {
    let count = rng.between(1, (most / 3).min(3));
    let longest = (most - 1) / count;
    let word = |rng: &mut Rng| (0..rng.between(1, longest)).map(|_| rng.below(symbols)).collect();
    let words: Vec<Vec<usize>> = (0..count).map(|_| word(rng)).collect();
    let step = |end: &Option<Vec<usize>>, symbol: usize| {
        let mut end = [end.as_ref()?, &[symbol][..]].concat();
        if words.iter().any(|word| end.ends_with(word)) {
            return None;
        }
        while !words.iter().any(|word| word.starts_with(&end)) {
            end.remove(0);
        }
        Some(end)
    };
    let every = rng.between(1, 3);
    let accepting = |end: &Option<Vec<usize>>| end.as_ref().is_some_and(|end| end.len() % every == 0);
    explore(symbols, most, Some(Vec::new()), step, accepting).expect("no more ends than letters in the words")
}

/// The first letter may come only so often, all in all or since the last.
fn counting(rng: &mut Rng, symbols: usize, most: usize) -> Machine {
    let dead = rng.between(1, most - 1);
    let again = rng.once_in(2);
    let step = |&count: &usize, symbol: usize| match symbol {
        _ if count == dead => dead,
        0 => count + 1,
        _ if again && symbol + 1 == symbols => 0,
        _ => count,
    };
    let least = rng.below(dead);
    explore(symbols, most, 0, step, |&count| count != dead && count >= least).expect("counts up to the dead one")
}

/// One word, once or over and over. A state is the number of its letters.
fn spelling(rng: &mut Rng, symbols: usize, most: usize) -> Machine {
    let length = rng.between(1, most - 2);
    let word: Vec<usize> = (0..length).map(|_| rng.below(symbols)).collect();
    let again = rng.once_in(2);
    let step = |state: &Option<usize>, symbol: usize| match state {
        &Some(state) if word.get(state) == Some(&symbol) => Some(if again { (state + 1) % length } else { state + 1 }),
        _ => None,
    };
    let end = if again { 0 } else { length };
    explore(symbols, most, Some(0), step, |&state| state == Some(end)).expect("a state for each letter and two more")
}

/// A card that loads and has a state or two where a plan may end, far from the
/// first: one letter leads a state on, the others back, or to a dead state.
pub fn far(rng: &mut Rng) -> Vec<u8> {
    let symbols = *rng.pick(&[1, 1, 2, 2, 3, 26]);
    let states = *rng.pick(&[2, 3, 4, 6, 12, 40, 120, 120]);
    let deadly = rng.once_in(4);
    let next = (0..states)
        .map(|state| {
            let on = rng.below(symbols);
            let target = |rng: &mut Rng, symbol: usize| match symbol {
                _ if deadly && state + 1 == states => state,
                _ if symbol == on => (state + 1) % states,
                _ if deadly && rng.once_in(6) => states - 1,
                _ if rng.once_in(2) => 0,
                _ => rng.below(state + 1),
            };
            (0..symbols).map(|symbol| target(rng, symbol)).collect()
        })
        .collect();
    let mut accepting = vec![false; states];
    accepting[if deadly { states - 2 } else { states - 1 }] = true;
    if rng.once_in(4) {
        accepting[rng.below(states)] = true;
    }
    let machine = Machine { symbols, next, accepting };
    card::write(&letters(rng, symbols), &minimise(&machine.numbered()))
}

/// A card that loads, over one letter, that leads through up to 120 states and
/// then round some of them.
pub fn rounds(rng: &mut Rng) -> Vec<u8> {
    let states = if rng.once_in(2) { card::MOST_STATES } else { rng.between(1, card::MOST_STATES) };
    let back = rng.below(states);
    let next = (0..states).map(|state| vec![if state + 1 < states { state + 1 } else { back }]).collect();
    let few = rng.between(2, 40);
    let accepting = (0..states).map(|_| rng.once_in(few)).collect();
    card::write(&letters(rng, 1), &minimise(&Machine { symbols: 1, next, accepting }))
}

/// A plan by letters that lead on to states not met yet, where there are some,
/// up to some length; so it comes to states that are far from the first.
pub fn far_plan(rng: &mut Rng, card: &[u8]) -> Vec<u8> {
    let Ok(bodies) = board::load(card) else { return plan(rng, b"ab") };
    if bodies.letters.is_empty() {
        return Vec::new();
    }
    let mut met = vec![false; bodies.states()];
    let (mut state, mut plan) = (0, Vec::new());
    for _ in 0..rng.below(bodies.states() + 1) {
        met[state] = true;
        let fresh: Vec<usize> = (0..bodies.letters.len())
            .filter(|&column| !met[bodies.target(state, column)] && bodies.marks[bodies.target(state, column)] != 2)
            .collect();
        let column = if fresh.is_empty() { rng.below(bodies.letters.len()) } else { *rng.pick(&fresh) };
        plan.push(bodies.letters[column]);
        state = bodies.target(state, column);
    }
    plan
}

/// A good card with a few bytes changed, added or taken out.
pub fn damaged(rng: &mut Rng, good: &[u8]) -> Vec<u8> {
    let mut bytes = good.to_vec();
    for _ in 0..*rng.pick(&[1, 1, 1, 1, 2, 3]) {
        damage(rng, &mut bytes);
    }
    bytes
}

fn damage(rng: &mut Rng, bytes: &mut Vec<u8>) {
    if bytes.is_empty() {
        bytes.push(rng.next() as u8);
        return;
    }
    let place = rng.below(bytes.len());
    match rng.below(12) {
        0..=2 => bytes[place] = rng.below(4) as u8,
        3 => bytes[place] = bytes[place].wrapping_add(1),
        4 => bytes[place] = bytes[place].wrapping_sub(1),
        5 => bytes[place] ^= 1 << rng.below(8),
        6 => bytes[place] = rng.next() as u8,
        7 => {
            let other = rng.below(bytes.len());
            bytes.swap(place, other);
        }
        8 => {
            let other = rng.below(bytes.len());
            bytes[place] = bytes[other];
        }
        9 => bytes.truncate(place),
        10 => bytes.push(rng.next() as u8),
        _ => {
            bytes.remove(place);
        }
    }
}

/// Bodies of the right lengths with any small values.
pub fn loose(rng: &mut Rng) -> Vec<u8> {
    let letters_count = letter_count(rng, &[1, 2, 3]);
    // Without letters no state but the first is reached.
    let states = rng.between(1, if letters_count == 0 { 2 } else { 5 });
    let mut row = letters(rng, letters_count);
    if letters_count > 0 && rng.once_in(4) {
        let (place, other) = (rng.below(letters_count), rng.below(letters_count));
        row[place] = if rng.once_in(2) { row[other] } else { *rng.pick(b"aAz`{\0\xff") };
    }
    let highest = if rng.once_in(4) { states + 1 } else { states };
    let marks: Vec<u8> = (0..states).map(|_| *rng.pick(&[0, 0, 1, 1, 1, 2, 2, 3])).collect();
    let moves: Vec<u8> = (0..states * letters_count).map(|_| rng.below(highest) as u8).collect();
    card::lay_out(&row, &marks, &moves)
}

/// The letters and states of the small cards that are tried one and all.
pub const SMALL: [(&[u8], usize); 9] =
    [(b"", 1), (b"", 2), (b"", 3), (b"a", 1), (b"a", 2), (b"a", 3), (b"ab", 1), (b"ab", 2), (b"abc", 1)];

/// Every card of so many letters and states whose marks are below 4 and
/// whose moves are at most the number of states.
pub fn all_small(letters: &[u8], states: usize) -> Vec<Vec<u8>> {
    let mut cards = Vec::new();
    let moves_count = states * letters.len();
    for marks_number in 0..4usize.pow(states as u32) {
        let marks: Vec<u8> = (0..states).map(|place| (marks_number >> (2 * place) & 3) as u8).collect();
        for moves_number in 0..(states + 1).pow(moves_count as u32) {
            let mut rest = moves_number;
            let moves: Vec<u8> = (0..moves_count)
                .map(|_| {
                    let target = rest % (states + 1);
                    rest /= states + 1;
                    target as u8
                })
                .collect();
            cards.push(card::lay_out(letters, &marks, &moves));
        }
    }
    cards
}

/// A letter of these; where there is none, any byte.
pub fn letter(rng: &mut Rng, letters: &[u8]) -> u8 {
    if letters.is_empty() {
        return rng.next() as u8;
    }
    *rng.pick(letters)
}

/// A plan over the card's letters, sometimes with a foreign byte in it. Where
/// there are none, the empty plan or one of foreign letters.
pub fn plan(rng: &mut Rng, letters: &[u8]) -> Vec<u8> {
    if letters.is_empty() && rng.once_in(2) {
        return Vec::new();
    }
    let length = *rng.pick(&[0, 1, 2, 3, 4, 6, 9, 14, 40]);
    let mut plan: Vec<u8> = (0..length).map(|_| letter(rng, letters)).collect();
    spoil(rng, &mut plan, 5);
    plan
}

/// A plan of at most so many letters for a search in it: any letters, one over
/// and over, or letters that avoid dead states from some state on.
pub fn searched_plan(rng: &mut Rng, card: &[u8], most: usize) -> Vec<u8> {
    let bodies = match board::bodies(card) {
        Ok(bodies) if !bodies.letters.is_empty() => bodies,
        Ok(_) => return plan(rng, b""),
        Err(_) => return plan(rng, b"ab"),
    };
    let length = rng.below(most + 1);
    let (kind, careless) = (rng.below(6), rng.between(2, 12));
    let repeated = *rng.pick(bodies.letters);
    let mut state = rng.below(bodies.states());
    let mut plan = Vec::with_capacity(length);
    while plan.len() < length {
        let alive = |&column: &usize| bodies.marks.get(bodies.target(state, column)).is_some_and(|&marks| marks != 2);
        let columns: Vec<usize> = (0..bodies.letters.len()).filter(alive).collect();
        let column = match kind {
            0 => bodies.letters.iter().position(|&letter| letter == repeated).expect("one of them"),
            2.. if !columns.is_empty() && !rng.once_in(careless) => *rng.pick(&columns),
            _ => rng.below(bodies.letters.len()),
        };
        plan.push(bodies.letters[column]);
        state = bodies.target(state, column);
        if bodies.marks.get(state).is_none_or(|&marks| marks == 2) {
            state = rng.below(bodies.states());
        }
    }
    spoil(rng, &mut plan, 10);
    plan
}

/// Lengths of plans: few letters, the last that count for some numbers of
/// letters and the first that don't, and the greatest.
pub const LENGTHS: [usize; 19] =
    [0, 1, 2, 3, 4, 5, 12, 13, 14, 40, 41, 63, 64, 4095, 4096, 4097, 1 << 32, 1 << 63, usize::MAX];

/// Some lengths for a card; where it loads, these too.
pub fn lengths(rng: &mut Rng, card: &[u8]) -> Vec<usize> {
    let mut lengths: Vec<usize> = (0..3).map(|_| length(rng)).collect();
    if board::load(card).is_ok() {
        lengths.extend(LENGTHS);
    }
    lengths
}

/// Any length, now and then with bits that a narrower number would lose.
fn length(rng: &mut Rng) -> usize {
    let more = *rng.pick(&[0, 0, 0, 0, 1 << 16, 1 << 32]);
    match rng.below(4) {
        0 => *rng.pick(&LENGTHS),
        1 => more + rng.below(8),
        2 => more + rng.below(70),
        _ => more + rng.below(4200),
    }
}

/// Once in so many times one or two bytes become others, most of them foreign.
fn spoil(rng: &mut Rng, plan: &mut [u8], times: usize) {
    if !plan.is_empty() && rng.once_in(times) {
        for _ in 0..rng.between(1, 2) {
            let place = rng.below(plan.len());
            plan[place] = if rng.once_in(2) { rng.next() as u8 } else { *rng.pick(b"abcz AZ\r\n\0`{") };
        }
    }
}
