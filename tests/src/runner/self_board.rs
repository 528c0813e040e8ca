//! The reference's board against trying all short words on a card: its tests,
//! and how much is owed.

use crate::board_examples;
use crate::effort::Effort;
use crate::random_cards;
use crate::tally::{hex, shown, Tally};
use reference::board::{self, Bodies, Verdict};
use reference::card;
use reference::minimise::minimise;
use reference::pieces::words;

pub fn run(tally: &mut Tally, effort: Effort) {
    tally.group("reference: every small card", |tally| {
        for (letters, states) in random_cards::SMALL {
            for card in random_cards::all_small(letters, states) {
                loading(tally, &card);
            }
        }
    });
    tally.group("reference: loose and damaged cards", |tally| {
        let mut rng = tally.rng("loose cards");
        for case in 0..effort.of(20_000) {
            let card = match case % 4 {
                0 => random_cards::loose(&mut rng),
                1 => small_good(&mut rng),
                _ => {
                    let good = small_good(&mut rng);
                    random_cards::damaged(&mut rng, &good)
                }
            };
            loading(tally, &card);
        }
    });
    tally.group("reference: what is owed on every small card", |tally| {
        for (letters, states) in random_cards::SMALL {
            for card in random_cards::all_small(letters, states) {
                owing(tally, &card);
            }
        }
    });
    tally.group("reference: what is owed on random small cards", |tally| {
        let mut rng = tally.rng("what is owed on random small cards");
        let cards = effort.of(2000);
        let owing = (0..cards).filter(|_| owing(tally, &small_good(&mut rng))).count();
        tally.check(owing * 20 >= cards, || format!("letters are owed on {owing} of {cards} cards"));
    });
    tally.group("reference: what is owed on chains", |tally| {
        for states in 1..=card::MOST_STATES {
            let card = board_examples::chain(b"ab", states);
            for length in 0..states {
                let due = match states - 1 - length {
                    0 => Verdict::Allowed,
                    owed => Verdict::Unfinished(owed),
                };
                let found = board::judge(&card, &b"a".repeat(length));
                tally.same(&format!("{length} letters on a chain of {states} states"), &Ok(due), &found);
            }
        }
    });
    tally.group("reference: a card loads when it is a smallest machine's", |tally| {
        let mut rng = tally.rng("smallest machine's card");
        for case in 0..effort.of(1500) {
            let good = random_cards::good(&mut rng);
            tally.check(board::load(&good).is_ok(), || format!("case {case}: a good card: {}", hex(&good)));
            let card = random_cards::damaged(&mut rng, &good);
            let loads = board::load(&card).is_ok();
            tally.check(loads == is_own_card(&card), || format!("case {case}: {}", hex(&card)));
        }
    });
}

fn small_good(rng: &mut crate::rng::Rng) -> Vec<u8> {
    let symbols = rng.below(3);
    let states = rng.between(1, 5);
    let machine = random_cards::machine(rng, symbols, states);
    card::write(&random_cards::letters(rng, symbols), &minimise(&machine.numbered()))
}

/// Whether the bytes are those written for the smallest machine with the
/// same plans.
fn is_own_card(card: &[u8]) -> bool {
    let Ok(bodies) = board::bodies(card) else { return false };
    let letters_rise = bodies.letters.windows(2).all(|pair| pair[0] < pair[1]);
    if !letters_rise || !bodies.letters.iter().all(u8::is_ascii_lowercase) {
        return false;
    }
    if bodies.moves.iter().any(|&target| target as usize >= bodies.states()) {
        return false;
    }
    let machine = board::machine(&bodies).numbered();
    card::write(bodies.letters, &minimise(&machine)) == card
}

fn loading(tally: &mut Tally, card: &[u8]) {
    let due = tests_by_words(card);
    let found = board::load(card).err();
    tally.check(due == found, || format!("{}\n  by words: {due:?}\n  by the board: {found:?}", hex(card)));
}

/// Every state's number by all continuations of its plans, in judging and in
/// steps that land there; whether the card loads and letters are owed in some
/// state. Only for small cards.
fn owing(tally: &mut Tally, card: &[u8]) -> bool {
    let Ok(bodies) = board::load(card) else { return false };
    let letters = bodies.letters;
    let is_allowed = |plan: &[u8]| bodies.marks[state_after(&bodies, plan)] == 1;
    // Fewer letters than there are states lead to every state, and on to one
    // where a plan may end.
    let continuations = words(letters, bodies.states());
    let mut some = false;
    let mut arrived = vec![false; bodies.states()];
    for plan in words(letters, bodies.states() - 1) {
        let state = state_after(&bodies, &plan);
        if std::mem::replace(&mut arrived[state], true) {
            continue;
        }
        let allowed = continuations.iter().filter(|rest| is_allowed(&[&plan[..], rest].concat()));
        let lengths: Vec<usize> = allowed.map(|rest| rest.len()).collect();
        let right = match board::judge(card, &plan) {
            Ok(Verdict::Allowed) => lengths.contains(&0),
            Ok(Verdict::Unfinished(owed)) => {
                some = true;
                lengths.contains(&owed) && lengths.iter().all(|&length| length >= owed && length >= 1)
            }
            Ok(Verdict::Hopeless(_)) => lengths.is_empty(),
            Err(_) => false,
        };
        tally.check(right, || format!("plan {} by {}", shown(&plan), hex(card)));
        for &letter in letters {
            let longer = [&plan[..], &[letter]].concat();
            let due = match board::judge(card, &longer) {
                Ok(Verdict::Allowed) => (1, 0),
                Ok(Verdict::Unfinished(owed)) => (0, owed),
                _ => (2, 0),
            };
            let found = board::step(card, state, letter);
            let right =
                found.is_ok_and(|to| (to.state, to.marks, to.owed) == (state_after(&bodies, &longer), due.0, due.1));
            tally.check(right, || format!("a step from state {state} with letter {letter} on {}", hex(card)));
        }
    }
    some
}

fn state_after(bodies: &Bodies, plan: &[u8]) -> usize {
    plan.iter().fold(0, |state, letter| {
        let column = bodies.letters.iter().position(|known| known == letter).expect("a letter of the card");
        bodies.moves[state * bodies.letters.len() + column].into()
    })
}

/// Tests 21 to 26 by short words from every state. Only for small cards.
fn tests_by_words(card: &[u8]) -> Option<u8> {
    let Some(bodies) = bodies_by_bytes(card) else { return Some(21) };
    let letters = bodies.letters;
    for (place, letter) in letters.iter().enumerate() {
        if !(0x61..=0x7A).contains(letter) || letters[..place].iter().any(|earlier| earlier >= letter) {
            return Some(22);
        }
    }
    let n = bodies.states();
    if bodies.moves.iter().any(|&target| usize::from(target) >= n) {
        return Some(23);
    }
    assert!(n <= 6 && letters.len() <= 3, "a small card");
    let after = |state: usize, word: &[u8]| {
        word.iter().fold(state, |state, letter| {
            let column = letters.iter().position(|known| known == letter).expect("a letter of the card");
            bodies.moves[state * letters.len() + column] as usize
        })
    };
    // A state is reached, told apart or alive by a word shorter than n.
    let all = words(letters, n - 1);
    let mut arrivals: Vec<usize> = Vec::new();
    for word in &all {
        let state = after(0, word);
        if !arrivals.contains(&state) {
            arrivals.push(state);
        }
    }
    if arrivals != (0..n).collect::<Vec<usize>>() {
        return Some(24);
    }
    let ends_well = |state: usize, word: &[u8]| bodies.marks[after(state, word)] == 1;
    for state in 0..n {
        let due = match (bodies.marks[state], all.iter().any(|word| ends_well(state, word))) {
            (1, _) => 1,
            (_, true) => 0,
            (_, false) => 2,
        };
        if bodies.marks[state] != due {
            return Some(25);
        }
    }
    for high in 0..n {
        for low in 0..high {
            if all.iter().all(|word| ends_well(low, word) == ends_well(high, word)) {
                return Some(26);
            }
        }
    }
    None
}

/// Test 21 written out byte by byte.
fn bodies_by_bytes(card: &[u8]) -> Option<Bodies<'_>> {
    if card.len() < 13 {
        return None;
    }
    let (m, n) = (card[2] as usize, card[6] as usize);
    let low = |number: usize| (number % 256) as u8;
    let high = |number: usize| (number / 256) as u8;
    let (marks_at, moves_at) = (12 + m, 12 + m + n);
    let contents =
        [12, 0, low(m), 0, low(marks_at), 0, low(n), 0, low(moves_at), high(moves_at), low(n * m), high(n * m)];
    if !(0..=26).contains(&m) || !(1..=120).contains(&n) || card[..12] != contents || card.len() != moves_at + n * m {
        return None;
    }
    Some(Bodies { letters: &card[12..marks_at], marks: &card[marks_at..moves_at], moves: &card[moves_at..] })
}
