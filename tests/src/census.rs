//! How many plans of a length are allowed, unfinished and hopeless, counted from
//! their ends backwards.

use crate::board::{self, Verdict};
use crate::machine::Machine;
use crate::refusal::PAST_COUNTING;

/// The greatest length whose plans are counted.
pub const LONGEST: usize = 4096;

#[derive(Clone, Copy, PartialEq, Eq, Debug)]
pub struct Figures {
    pub allowed: u64,
    pub unfinished: u64,
    pub hopeless: u64,
}

impl Figures {
    /// How many of a listing's verdicts are of each kind.
    pub fn listed<Owed>(verdicts: impl IntoIterator<Item = Verdict<Owed>>) -> Figures {
        let mut figures = Figures { allowed: 0, unfinished: 0, hopeless: 0 };
        for verdict in verdicts {
            match verdict {
                Verdict::Allowed => figures.allowed += 1,
                Verdict::Unfinished(_) => figures.unfinished += 1,
                Verdict::Hopeless(_) => figures.hopeless += 1,
            }
        }
        figures
    }

    /// In the order of their names.
    pub fn numbers(self) -> [u64; 3] {
        [self.allowed, self.unfinished, self.hopeless]
    }

    pub fn sum(self) -> u128 {
        self.numbers().into_iter().map(u128::from).sum()
    }
}

/// The card's tests, then whether its plans of this length are past counting,
/// then the plans.
pub fn count(card: &[u8], length: usize) -> Result<Figures, u8> {
    let bodies = board::load(card)?;
    all_plans(bodies.letters.len(), length).ok_or(PAST_COUNTING)?;
    let machine = board::machine(&bodies);
    let hopeful: Vec<bool> = (0..machine.states()).map(|state| machine.can_accept_from(state)).collect();
    let ending = |is_end: &dyn Fn(usize) -> bool| {
        u64::try_from(words_ending(&machine, length, is_end)).expect("no more than all plans")
    };
    Ok(Figures {
        allowed: ending(&|state| machine.accepting[state]),
        unfinished: ending(&|state| hopeful[state] && !machine.accepting[state]),
        hopeless: ending(&|state| !hopeful[state]),
    })
}

/// How many plans of this length there are over so many letters, one of length
/// 0 also over none. None where they are past counting.
pub fn all_plans(letters: usize, length: usize) -> Option<u64> {
    if length > LONGEST {
        return None;
    }
    (0..length).try_fold(1u64, |plans, _| plans.checked_mul(letters as u64))
}

/// How many words of this length lead from state 0 to such a state: for every
/// state those of no symbol, of one, of two and so on.
pub fn words_ending(machine: &Machine, length: usize, is_end: impl Fn(usize) -> bool) -> u128 {
    let of_none: Vec<u128> = (0..machine.states()).map(|state| is_end(state).into()).collect();
    let of_one_more = |rest: Vec<u128>, _| {
        let from = |row: &Vec<usize>| row.iter().map(|&target| rest[target]).sum();
        machine.next.iter().map(from).collect()
    };
    (0..length).fold(of_none, of_one_more)[0]
}
