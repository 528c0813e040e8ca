//! The samples' expected replies once more, from what the books mean: allowed by
//! trying every cut of the plan, what is owed by trying every continuation,
//! shorter ones first, hopeless by derivatives, rule by rule, the shortest stretch
//! by trying every stretch from every state, the counts by listing every plan. No
//! stage and no card is made here.

#![cfg(feature = "reference")]

use reference::derivative::Derivatives;
use reference::machine::{explore, Machine};
use reference::minimise::minimise;
use reference::pieces;
use reference::reader::read_book;
use reference::syntax::{Book, Line, Rule};
use std::fs;
use std::path::Path;

/// Each rule by its derivatives, and then all of them side by side.
fn machine(book: &Book) -> Machine {
    let alone = |kept: &Rule| {
        let kept_line = |line: &&Line| !matches!(line, Line::Rule(rule) if rule != kept);
        let lines = book.lines.iter().filter(kept_line).cloned().collect();
        let derivatives = Derivatives::of(&Book { alphabet: book.alphabet.clone(), lines });
        minimise(&derivatives.machine(1_000).ok().expect("few derivatives"))
    };
    let rules: Vec<Machine> = book.rules().map(alone).collect();
    let step = |states: &Vec<usize>, symbol: usize| {
        rules.iter().zip(states).map(|(rule, &state)| rule.next[state][symbol]).collect()
    };
    let accepting = |states: &Vec<usize>| rules.iter().zip(states).all(|(rule, &state)| rule.accepting[state]);
    explore(book.alphabet.len(), 10_000, vec![0; rules.len()], step, accepting).ok().expect("few states")
}

fn columns(book: &Book, plan: &[u8]) -> Option<Vec<usize>> {
    plan.iter().map(|letter| book.alphabet.iter().position(|known| known == letter)).collect()
}

fn reply(book: &Book, machine: &Machine, plan: &[u8]) -> String {
    let Some(columns) = columns(book, plan) else {
        return "refused 27".into();
    };
    let hopeless = |place: &usize| !machine.can_accept_from(machine.run(0, &columns[..*place]));
    match (0..=columns.len()).find(hopeless) {
        Some(place) => {
            assert!(!pieces::allows(book, plan));
            format!("hopeless {place}")
        }
        None => match owed(book, plan) {
            0 => "allowed".into(),
            owed => format!("unfinished {owed}"),
        },
    }
}

/// Each plan with each letter behind it.
fn longer(book: &Book, plans: &[Vec<u8>]) -> Vec<Vec<u8>> {
    plans.iter().flat_map(|plan| book.alphabet.iter().map(move |&letter| [&plan[..], &[letter]].concat())).collect()
}

/// The fewest letters after which a plan that is not hopeless is allowed.
fn owed(book: &Book, plan: &[u8]) -> usize {
    let mut plans = vec![plan.to_vec()];
    for letters in 0.. {
        if plans.iter().any(|plan| pieces::allows(book, plan)) {
            return letters;
        }
        plans = longer(book, &plans);
    }
    unreachable!("some continuation is allowed")
}

fn stretch(book: &Book, machine: &Machine, plan: &[u8]) -> String {
    let Some(columns) = columns(book, plan) else {
        return "refused 27".into();
    };
    let inside = |letters| (0..machine.states()).any(|state| machine.can_accept_from(machine.run(state, letters)));
    for length in 0..=columns.len() {
        for start in 0..=columns.len() - length {
            if !inside(&columns[start..start + length]) {
                return format!("stretch {start} {length}");
            }
        }
    }
    "none".into()
}

/// How many plans of a length are allowed, unfinished and hopeless, by listing
/// them all; none where they are too many to list.
fn figures(book: &Book, machine: &Machine, length: u32) -> Option<[usize; 3]> {
    const MANY: usize = 5_000;
    book.alphabet.len().checked_pow(length).filter(|&plans| plans <= MANY)?;
    let mut figures = [0; 3];
    for plan in (0..length).fold(vec![Vec::new()], |plans, _| longer(book, &plans)) {
        let columns = columns(book, &plan).expect("letters of the book");
        let hopeful = machine.can_accept_from(machine.run(0, &columns));
        match (pieces::allows(book, &plan), hopeful) {
            (true, true) => figures[0] += 1,
            (false, true) => figures[1] += 1,
            (false, false) => figures[2] += 1,
            (true, false) => panic!("allowed and hopeless"),
        }
    }
    Some(figures)
}

#[test]
fn expected_replies_are_what_the_books_mean() {
    let folder = Path::new(env!("CARGO_MANIFEST_DIR")).join("../samples");
    let (mut books, mut with_stretches, mut owing, mut lengths) = (0, 0, 0, 0);
    for entry in fs::read_dir(&folder).expect("the samples") {
        let path = entry.expect("a file").path();
        if !path.extension().is_some_and(|found| found == "book") {
            continue;
        }
        books += 1;
        let book = read_book(&fs::read(&path).unwrap()).expect("a well-formed book");
        let machine = machine(&book);
        let plans = fs::read(path.with_extension("plans")).expect("its plans");
        let plans: Vec<&[u8]> = plans.strip_suffix(b"\n").unwrap().split(|&byte| byte == b'\n').collect();
        let compare = |expected: String, found: fn(&Book, &Machine, &[u8]) -> String| {
            assert_eq!(plans.len(), expected.lines().count(), "{}", path.display());
            for (plan, expected) in plans.iter().zip(expected.lines()) {
                let found = found(&book, &machine, plan);
                assert_eq!(found, expected, "{} {}", path.display(), String::from_utf8_lossy(plan));
            }
        };
        let replies = fs::read_to_string(path.with_extension("expected")).expect("its replies");
        owing += replies.lines().filter(|line| ["unfinished 2", "unfinished 3"].contains(line)).count();
        compare(replies, reply);
        if let Ok(stretches) = fs::read_to_string(path.with_extension("stretches")) {
            with_stretches += 1;
            compare(stretches, stretch);
        }
        for line in fs::read_to_string(path.with_extension("counts")).unwrap_or_default().lines() {
            let numbers: Vec<usize> = line.split(' ').map(|number| number.parse().expect("a number")).collect();
            if let Some(figures) = figures(&book, &machine, numbers[0] as u32) {
                lengths += 1;
                assert_eq!(figures, numbers[1..], "{} {}", path.display(), numbers[0]);
            }
        }
    }
    assert!(books >= 6 && with_stretches >= 3 && owing >= 3 && lengths >= 20);
}
