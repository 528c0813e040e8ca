//! `pier check`: load's answer in words.

use crate::arguments::Arguments;
use crate::card;
use crate::command::Command;
use crate::proved::{self, Loaded};
use crate::words::{count, count_or_no};
use crate::{files, note, Done, Status};

pub const COMMAND: Command = Command {
    name: "check",
    about: "would a board load this card?",
    files: &["CARD"],
    output: None,
    choices: &[],
    more: "\
Tells whether a board would load this card. It does so exactly when the bytes
are the numbered smallest machine of some set of plans, with 0 to 26 letters and
1 to 120 states. Otherwise the number and its meaning are printed.
Boards mounted before there were cards without letters refuse these by 21; where
the card is one of them, a note says so.
",
    run,
};

pub fn run(arguments: &Arguments) -> Done {
    let path = &arguments.files[0];
    let bytes = card::bytes(path)?;
    match proved::load(&bytes) {
        Loaded::Card { letters, states } => {
            let (letters, states) = (count_or_no(letters, "letter"), count(states, "state"));
            let text = format!("{}: loads, with {letters} and {states}\n", files::shown(path));
            files::print(text.as_bytes())?;
            files::complain(&note::of_card(path, &bytes));
            Ok(Status::Fine)
        }
        Loaded::Refused(number) => Err(card::refused(path, &bytes, number)),
    }
}
