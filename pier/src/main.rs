//! `pier`: the office's command over the proved compiler and board.
//!
//! It reads files, calls the proved functions (`proved`), and prints what they
//! answer. What it adds (words for the numbers, hints, pictures) is small and
//! not proved.

mod arguments;
mod arrow;
mod card;
mod check;
mod command;
mod compare;
mod compile;
mod completion;
mod count;
mod dot;
mod draw;
mod files;
mod guide;
mod help;
mod hint;
mod judge;
mod layout;
mod manual;
mod note;
mod page;
mod pipe;
mod plans;
mod progress;
mod proved;
mod refusal;
mod reply;
mod route;
mod show;
mod stray;
mod stretch;
mod svg;
mod tally;
mod trial;
mod version;
mod words;

use arguments::Arguments;
use std::ffi::OsString;
use std::process::ExitCode;

/// Why a command stops early.
#[derive(Debug)]
pub enum Failure {
    /// Wrong usage: the message and the command, status 2.
    Usage(String),
    /// A file can't be read or written, or a part is missing: status 2.
    Trouble(String),
    /// A book or card was refused, and this tells it: status 1.
    Refused(String),
    /// The reader of our output went away: no message, status 0.
    Closed,
}

/// A command that ran: 0, or 1 for a refusal or a difference.
#[derive(Clone, Copy, PartialEq, Eq, Debug)]
pub enum Status {
    Fine,
    Refused,
}

pub type Done = Result<Status, Failure>;

fn main() -> ExitCode {
    let words: Vec<OsString> = std::env::args_os().skip(1).collect();
    match dispatch(&words) {
        Ok(Status::Fine) | Err(Failure::Closed) => ExitCode::SUCCESS,
        Ok(Status::Refused) => ExitCode::from(1),
        Err(Failure::Refused(message)) => {
            files::complain(&message);
            ExitCode::from(1)
        }
        Err(Failure::Usage(message)) => {
            let known = words.first().and_then(|name| command::find(&name.to_string_lossy()));
            let help = known.map_or(String::new(), |command| format!(" {}", command.name));
            files::complain(&format!("pier: {message}\nTry: pier{help} --help\n"));
            ExitCode::from(2)
        }
        Err(Failure::Trouble(message)) => {
            files::complain(&format!("pier: {message}\n"));
            ExitCode::from(2)
        }
    }
}

fn dispatch(words: &[OsString]) -> Done {
    let Some((name, rest)) = words.split_first() else {
        return Err(Failure::Usage("which command?".into()));
    };
    let command = match name.to_string_lossy().as_ref() {
        "--help" | "-h" => &help::COMMAND,
        "--version" | "-V" => &version::COMMAND,
        name => help::named(name)?,
    };
    if rest.iter().take_while(|word| *word != "--").any(|word| word == "--help" || word == "-h") {
        return files::print(command.help().as_bytes()).map(|()| Status::Fine);
    }
    let arguments = Arguments::parse(command, rest)?;
    if let Some(output) = &arguments.output {
        files::refuse_input_as_output(&arguments.files, output)?;
    }
    (command.run)(&arguments)
}
