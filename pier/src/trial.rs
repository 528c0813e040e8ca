//! `pier try`: a book and plans, without a card's file.

use crate::arguments::{Arguments, Choice};
use crate::command::Command;
use crate::{compile, files, judge, note, Done};

pub const COMMAND: Command = Command {
    name: "try",
    about: "judge plans by a book, without a card",
    files: &["BOOK", "[PLANS]"],
    output: None,
    choices: &[Choice::Explain, Choice::Strict, Choice::Progress],
    more: "\
Compiles a book and judges plans by its card, which is kept nowhere. Refusals
and notes are those of pier compile, replies and what explains them those of
pier judge.
",
    run,
};

pub fn run(arguments: &Arguments) -> Done {
    let plans = judge::plans_of(arguments)?;
    let book = &arguments.files[0];
    let made = compile::compile(book)?;
    files::complain(&note::notes(book, &made));
    judge::judge(&made.card, plans, arguments)
}
