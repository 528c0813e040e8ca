//! `pier help`: all commands, or one.

use crate::arguments::Arguments;
use crate::command::{self, Command, COMMANDS, STATUS};
use crate::{files, words, Done, Failure, Status};

pub const COMMAND: Command = Command {
    name: "help",
    about: "more about one command",
    files: &["[COMMAND]"],
    output: None,
    choices: &[],
    more: "\
Prints what there is, or with the name of a command more about that one, as does
pier COMMAND --help.
",
    run,
};

pub fn run(arguments: &Arguments) -> Done {
    let text = match arguments.files.first() {
        None => all(),
        Some(name) => named(&name.to_string_lossy())?.help(),
    };
    files::print(text.as_bytes()).map(|()| Status::Fine)
}

/// The command of this name, or who was meant.
pub fn named(name: &str) -> Result<&'static Command, Failure> {
    let meant = || match words::nearest(name, COMMANDS.iter().map(|command| command.name)) {
        Some(meant) => Failure::Usage(format!("no command {name}; did you mean pier {meant}?")),
        None => Failure::Usage(format!("no command {name}")),
    };
    command::find(name).ok_or_else(meant)
}

pub fn all() -> String {
    let mut text = String::from("usage: pier COMMAND ...\n\n");
    for command in &COMMANDS {
        text += &format!("  {:<32}{}\n", command.short(), command.about);
    }
    text + "
A file name - is standard input, or after -o (--output) standard output; behind
-- no word is an option. An output that is one of the inputs is refused.
" + STATUS
        + "How to write a book: pier guide.\n"
}

#[cfg(test)]
mod tests {
    use super::*;

    #[test]
    fn every_command_is_listed_and_fits_a_terminal() {
        for command in &COMMANDS {
            assert!(all().contains(&format!("  {}", command.short())), "{}", command.name);
            for line in all().lines().chain(command.help().lines()) {
                assert!(line.chars().count() <= 80, "{line}");
            }
        }
    }
}
