//! The sets of document 01's stages, made literally.
//!
//! Every function gives the machine of the sets that are reached, so its
//! number of states is the number of sets the stage makes.

use crate::machine::{explore, Machine, TooMany};
use std::collections::BTreeSet;

/// `|`, `&`, `-`: a set is a pair reached from (0, 0).
pub fn pairs(a: &Machine, b: &Machine, most: usize, accept: fn(bool, bool) -> bool) -> Result<Machine, TooMany> {
    explore(
        a.symbols,
        most,
        (0, 0),
        |&(i, j), symbol| (a.next[i][symbol], b.next[j][symbol]),
        |&(i, j)| accept(a.accepting[i], b.accepting[j]),
    )
}

/// A state of A or of B.
#[derive(Clone, Copy, PartialEq, Eq, PartialOrd, Ord, Debug)]
enum Side {
    Left(usize),
    Right(usize),
}

/// AB: sets of states of A and B together.
pub fn concatenation(a: &Machine, b: &Machine, most: usize) -> Result<Machine, TooMany> {
    use Side::{Left, Right};
    let gain = |mut set: BTreeSet<Side>| {
        if set.iter().any(|&member| matches!(member, Left(state) if a.accepting[state])) {
            set.insert(Right(0));
        }
        set
    };
    explore(
        a.symbols,
        most,
        gain(BTreeSet::from([Left(0)])),
        |set, symbol| {
            gain(
                set.iter()
                    .map(|&member| match member {
                        Left(state) => Left(a.next[state][symbol]),
                        Right(state) => Right(b.next[state][symbol]),
                    })
                    .collect(),
            )
        },
        |set| set.iter().any(|&member| matches!(member, Right(state) if b.accepting[state])),
    )
}

/// A state of A, or the extra e without moves.
#[derive(Clone, Copy, PartialEq, Eq, PartialOrd, Ord, Debug)]
enum Starred {
    Extra,
    State(usize),
}

/// `A*`: states of A and e.
pub fn star(a: &Machine, most: usize) -> Result<Machine, TooMany> {
    use Starred::{Extra, State};
    explore(
        a.symbols,
        most,
        BTreeSet::from([Extra, State(0)]),
        |set, symbol| {
            let mut moved: BTreeSet<Starred> = set
                .iter()
                .filter_map(|&member| match member {
                    Extra => None,
                    State(state) => Some(State(a.next[state][symbol])),
                })
                .collect();
            if moved.iter().any(|&member| matches!(member, State(state) if a.accepting[state])) {
                moved.insert(Extra);
                moved.insert(State(0));
            }
            moved
        },
        |set| set.contains(&Extra),
    )
}

/// Erase U: members may move by marks unseen; a mark that is seen leads to
/// the empty set. The mark is the last symbol.
pub fn erase(u: &Machine, most: usize) -> Result<Machine, TooMany> {
    let mark = u.symbols - 1;
    let gain = |set: BTreeSet<usize>| {
        let mut whole = set.clone();
        for mut state in set {
            // One mark or more, until nothing new comes.
            loop {
                state = u.next[state][mark];
                if !whole.insert(state) {
                    break;
                }
            }
        }
        whole
    };
    explore(
        u.symbols,
        most,
        gain(BTreeSet::from([0])),
        |set, symbol| {
            if symbol == mark {
                BTreeSet::new()
            } else {
                gain(set.iter().map(|&state| u.next[state][symbol]).collect())
            }
        },
        |set| set.iter().any(|&state| u.accepting[state]),
    )
}
