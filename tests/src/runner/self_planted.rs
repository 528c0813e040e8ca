//! Every planted fault is found, and nothing is found where none is.

use crate::acting;
use crate::compare_board;
use crate::compare_census;
use crate::compare_compile;
use crate::compare_factor;
use crate::compare_lines;
use crate::compare_mounted;
use crate::compare_programs;
use crate::effort::Effort;
use crate::entry::{BoardEntry, Reference};
use crate::planted_boards;
use crate::planted_census;
use crate::planted_compilers;
use crate::planted_factors;
use crate::planted_lines;
use crate::planted_mounted;
use crate::planted_recipes;
use crate::product::JudgeLines;
use crate::program::Program;
use crate::random_books;
use crate::tally::Tally;
use reference::card;
use reference::compile::{compile_by, Lent, LIMITS};
use reference::derivative::Derivatives;
use reference::minimise::minimise;
use reference::reader;

/// Planted faults are looked for with the same cases in every run.
const SEED: u64 = 1;

/// A hunt by random cases alone.
const RANDOM: Effort = Effort { fixed: false, ..Effort::HUNT };

pub fn run(tally: &mut Tally) {
    tally.group("reference: faults planted in compilers are found", |tally| {
        let hunt = |planted: &planted_compilers::Planted, effort: Effort| {
            let mut found = Tally::hunting(SEED);
            compare_compile::run(&mut found, planted, effort);
            found.failed
        };
        tally.same("a compiler without a fault", &0, &hunt(&planted_compilers::right(), Effort::HUNT));
        for planted in planted_compilers::all() {
            tally.check(hunt(&planted, Effort::HUNT) > 0, || format!("not found: {}", planted.name));
        }
        for planted in planted_compilers::of_kinds() {
            tally.check(hunt(&planted, RANDOM) > 0, || format!("not found by random cases: {}", planted.name));
        }
    });
    tally.group("reference: faults planted in boards are found", |tally| {
        tally.same("a board without a fault", &0, &hunt(compare_board::run, &planted_boards::right(), Effort::HUNT));
        for planted in planted_boards::all() {
            let found = hunt(compare_board::run, &planted, Effort::HUNT) > 0;
            tally.check(found, || format!("not found: {}", planted.name));
        }
        for planted in [planted_boards::without_letters(), planted_boards::owing()].into_iter().flatten() {
            let found = hunt(compare_board::run, &planted, RANDOM) > 0;
            tally.check(found, || format!("not found by random cases: {}", planted.name));
        }
        for planted in planted_boards::in_numbers() {
            let found = hunt(compare_board::relations, &planted, Effort::HUNT) > 0;
            tally.check(found, || format!("not found by answers against each other: {}", planted.name));
        }
    });
    tally.group("reference: faults planted in mounted boards are found", |tally| {
        let hunt = |planted: &planted_mounted::Planted, effort: Effort| {
            let mut found = Tally::hunting(SEED);
            compare_mounted::run(&mut found, &Reference { bench: Vec::new() }, planted, planted.kind, effort);
            found.failed
        };
        for planted in planted_mounted::right() {
            tally.same("a mounted board without a fault", &0, &hunt(&planted, Effort::HUNT));
        }
        for planted in planted_mounted::all() {
            tally.check(hunt(&planted, Effort::HUNT) > 0, || format!("not found: {}", planted.name));
            tally.check(hunt(&planted, RANDOM) > 0, || format!("not found by random cases: {}", planted.name));
        }
    });
    tally.group("reference: faults planted in boards for many plans are found", |tally| {
        let hunt = |planted: JudgeLines| {
            let mut found = Tally::hunting(SEED);
            compare_lines::run(&mut found, planted, Effort::HUNT);
            found.failed
        };
        tally.same("many plans without a fault", &0, &hunt(planted_lines::right));
        for (name, planted) in planted_lines::all() {
            tally.check(hunt(planted) > 0, || format!("not found: {name}"));
        }
    });
    tally.group("reference: faults planted in the search for a stretch are found", stretches);
    tally.group("reference: faults planted in counters are found", counts);
    tally.group("reference: faults planted in programs are found", |tally| {
        let Ok(own) = std::env::current_exe() else { return };
        let acting = |part: &str, fault: &str| Program {
            path: own.clone(),
            arguments: vec!["--act".into(), part.into(), fault.into()],
        };
        for fault in acting::JUDGING {
            let mut found = Tally::hunting(SEED);
            compare_programs::judge(&mut found, &acting("judge", fault), Effort::HUNT);
            tally.check((found.failed > 0) == (*fault != "none"), || format!("judging program: {fault}"));
        }
        for fault in acting::COMPILING {
            let mut found = Tally::hunting(SEED);
            compare_programs::compiler(&mut found, &acting("compile", fault), Effort::HUNT);
            tally.check((found.failed > 0) == (*fault != "none"), || format!("compiling program: {fault}"));
        }
        let mut found = Tally::hunting(SEED);
        compare_programs::both(&mut found, &acting("compile", "none"), &acting("judge", "none"), Effort::HUNT);
        tally.same("both programs without a fault", &0, &found.failed);
    });
    tally.group("reference: wrong recipes are found by derivatives", wrong_recipes);
}

/// One of a board's comparisons.
type Compare = fn(&mut Tally, &dyn BoardEntry, Effort);

fn hunt(compare: Compare, planted: &dyn BoardEntry, effort: Effort) -> usize {
    let mut found = Tally::hunting(SEED);
    compare(&mut found, planted, effort);
    found.failed
}

/// Each by the whole comparison; where it can be, also by the random cases
/// alone and by what the answers owe each other.
fn stretches(tally: &mut Tally) {
    tally.same("a search without a fault", &0, &hunt(compare_factor::run, &planted_factors::right(), Effort::HUNT));
    for planted in planted_factors::all() {
        let name = planted.name;
        tally.check(hunt(compare_factor::run, &planted, Effort::HUNT) > 0, || format!("not found: {name}"));
        if !planted.only_long {
            let found = hunt(compare_factor::run, &planted, RANDOM) > 0;
            tally.check(found, || format!("not found by random cases: {name}"));
        }
        if planted.contradicts {
            let found = hunt(compare_factor::relations, &planted, Effort::HUNT) > 0;
            tally.check(found, || format!("not found by answers against each other: {name}"));
        }
    }
}

/// Each by the examples and by the random cases alone; those that are faults on a
/// card that loads also by what the answers owe each other.
fn counts(tally: &mut Tally) {
    tally.same("a counter without a fault", &0, &hunt(compare_census::run, &planted_census::right(), Effort::HUNT));
    let (loaded, refused) = (planted_census::on_loaded_cards(), planted_census::on_refused_cards());
    for planted in loaded.iter().chain(&refused) {
        let name = planted.name;
        tally.check(hunt(compare_census::examples, planted, RANDOM) > 0, || format!("not found by examples: {name}"));
        let found = hunt(compare_census::run, planted, RANDOM) > 0;
        tally.check(found, || format!("not found by random cases: {name}"));
    }
    for planted in &loaded {
        let found = hunt(compare_census::relations, planted, Effort::HUNT) > 0;
        tally.check(found, || format!("not found by answers against each other: {}", planted.name));
    }
}

fn wrong_recipes(tally: &mut Tally) {
    for (name, recipe) in planted_recipes::wrong_meanings() {
        let mut rng = tally.rng(name);
        let found = (0..2000).any(|_| {
            let text = random_books::book(&mut rng);
            let Ok(accepted) = compile_by(&text, &Lent::plenty(), LIMITS, recipe).0 else { return false };
            let Ok(book) = reader::read_book(&text) else { return false };
            let Ok(machine) = Derivatives::of(&book).machine(500) else { return false };
            card::write(&book.alphabet, &minimise(&machine)) != accepted.card
        });
        tally.check(found, || format!("not found: {name}"));
    }
}
