//! `pier guide`: the guide, which is part of the program.

use crate::arguments::Arguments;
use crate::command::Command;
use crate::{files, Done, Status};

pub const COMMAND: Command = Command {
    name: "guide",
    about: "print the guide: how to write a book",
    files: &[],
    output: None,
    choices: &[],
    more: "\
Prints docs/GUIDE.md as it was when this pier was built: how to write a book,
what refusals look like, how to stay below the limits.
",
    run,
};

const GUIDE: &str = include_str!("../../docs/GUIDE.md");

pub fn run(_: &Arguments) -> Done {
    files::print(GUIDE.as_bytes()).map(|()| Status::Fine)
}
