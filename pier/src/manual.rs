//! `pier manual`: the manual page, made of the table of commands.

use crate::arguments::Arguments;
use crate::command::{Command, COMMANDS, STATUS};
use crate::{files, Done, Status};

pub const COMMAND: Command = Command {
    name: "manual",
    about: "print the manual page, for man",
    files: &[],
    output: None,
    choices: &[],
    more: "\
Prints the manual page, which pier/build --install puts where man finds it.
",
    run,
};

pub fn run(_: &Arguments) -> Done {
    files::print(text().as_bytes()).map(|()| Status::Fine)
}

fn text() -> String {
    let mut text = format!(".TH PIER 1 \"\" \"pier {}\" \"\"\n", env!("CARGO_PKG_VERSION"));
    text += ".SH NAME\npier \\- port books, cards and plans\n.SH SYNOPSIS\n";
    for command in &COMMANDS {
        text += &format!(".B {}\n.br\n", plain(&command.usage()));
    }
    text += ".SH DESCRIPTION\nA book holds a port's rules; its card is what a board on the pier judges plans by.\n\
             The compiling, loading, judging, the search for a stretch and the counting of plans are proved functions;\n\
             reading, writing and words are not.\n\
             A file name \\- is standard input, or after \\-o (\\-\\-output) standard output; behind \\-\\- no word is\n\
             an option. An output that is one of the inputs is refused.\n.SH COMMANDS\n";
    for command in &COMMANDS {
        text += &format!(".SS {}\n.nf\n{}", plain(&command.usage()), plain(command.more));
        for choice in command.choices {
            text += &plain(&format!("  {:<12}{}\n", choice.spelled(), choice.about()));
        }
        text += ".fi\n";
    }
    text + ".SH EXIT STATUS\n" + &plain(STATUS.trim_start_matches("Status: "))
}

/// Lines of text for the page: no line begins a request, no sign is an escape.
fn plain(text: &str) -> String {
    let line = |line: &str| {
        let line = line.replace('\\', "\\e").replace('-', "\\-");
        if line.starts_with(['.', '\'']) {
            format!("\\&{line}")
        } else {
            line
        }
    };
    text.split('\n').map(line).collect::<Vec<_>>().join("\n")
}

#[cfg(test)]
mod tests {
    use super::*;

    #[test]
    fn every_command_and_choice_is_there() {
        let text = text();
        for command in &COMMANDS {
            assert!(text.contains(&format!(".SS pier {}", command.name)), "{}", command.name);
            for choice in command.choices {
                assert!(text.contains(&plain(choice.spelled())), "{choice:?}");
            }
        }
        assert_eq!(plain(".x\n'y -o \\"), "\\&.x\n\\&'y \\-o \\e");
    }
}
