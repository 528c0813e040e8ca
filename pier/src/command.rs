//! The commands: their names, words and files. Help, manual page and completion
//! are made of this table.

use crate::arguments::{Arguments, Choice};
use crate::{
    check, compare, compile, completion, count, draw, guide, help, judge, manual, page, show, stretch, trial, version,
    Done,
};

pub struct Command {
    pub name: &'static str,
    /// What it does, in a line.
    pub about: &'static str,
    /// Its files in order, or other words; those in square brackets may be left out.
    pub files: &'static [&'static str],
    /// What `-o` names, where it must.
    pub output: Option<&'static str>,
    pub choices: &'static [Choice],
    /// What more there is to say.
    pub more: &'static str,
    pub run: fn(&Arguments) -> Done,
}

pub const COMMANDS: [Command; 15] = [
    compile::COMMAND,
    trial::COMMAND,
    judge::COMMAND,
    stretch::COMMAND,
    count::COMMAND,
    show::COMMAND,
    draw::COMMAND,
    page::COMMAND,
    compare::COMMAND,
    check::COMMAND,
    guide::COMMAND,
    help::COMMAND,
    version::COMMAND,
    manual::COMMAND,
    completion::COMMAND,
];

/// What every command's status means.
pub const STATUS: &str = "\
Status: 0 done, 1 a refusal or a difference, 2 wrong usage or a file that can't
be read or written.
";

impl Command {
    /// The least and most files.
    pub fn bounds(&self) -> (usize, usize) {
        (self.files.iter().filter(|name| !name.starts_with('[')).count(), self.files.len())
    }

    /// The command and its files, without its choices.
    pub fn short(&self) -> String {
        let mut words = vec!["pier", self.name];
        words.extend(self.files);
        words.extend(self.output.iter().flat_map(|output| ["-o", output]));
        words.join(" ")
    }

    pub fn usage(&self) -> String {
        let choices: String = self.choices.iter().map(|choice| format!(" [{}]", choice.spelled())).collect();
        self.short() + &choices
    }

    pub fn help(&self) -> String {
        let mut text = format!("usage: {}\n\n{}", self.usage(), self.more);
        for choice in self.choices {
            text += &format!("  {:<12}{}\n", choice.spelled(), choice.about());
        }
        text + STATUS
    }
}

pub fn find(name: &str) -> Option<&'static Command> {
    COMMANDS.iter().find(|command| name == command.name)
}
