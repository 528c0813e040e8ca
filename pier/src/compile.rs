//! `pier compile`: a book becomes a card, or a refusal in words.

use crate::arguments::Arguments;
use crate::card::Table;
use crate::command::Command;
use crate::proved::{self, Compiled, LONGEST_BOOK};
use crate::{files, hint, note, refusal, Done, Failure, Status};
use std::path::Path;

pub const COMMAND: Command = Command {
    name: "compile",
    about: "turn a port's book into a card",
    files: &["BOOK"],
    output: Some("CARD"),
    choices: &[],
    more: "\
Turns a port's book into a card and prints its envelope: letters, states, bytes,
and the peak (the most sets that one stage made, of 512 that it may make).
A book that is refused leaves CARD as it was; the message has the number, the
trade word, the line, and what to look at. CARD is written whole or not at all.
Notes on standard error tell of slips that compile. A book without a rule allows
every plan; an empty book's card has no letters, and judges the empty plan only.
",
    run,
};

/// The most sets that a stage may make.
const MOST_SETS: usize = 512;

/// An accepted book, and what it became.
pub struct Made {
    pub text: Vec<u8>,
    pub card: Vec<u8>,
    pub table: Table,
    pub peak: u64,
}

pub fn run(arguments: &Arguments) -> Done {
    let book = &arguments.files[0];
    let output = arguments.output()?;
    let made = compile(book)?;
    let envelope = envelope(&made);
    if files::is_dash(output) {
        files::print(&made.card)?;
        files::complain(&envelope);
    } else {
        files::write(output, &made.card)?;
        files::print(envelope.as_bytes())?;
    }
    files::complain(&note::notes(book, &made));
    Ok(Status::Fine)
}

/// The card of a book's file, or the refusal in words.
pub fn compile(book: &Path) -> Result<Made, Failure> {
    let text = files::read(book, LONGEST_BOOK + 1)?;
    match proved::compile(&text) {
        None => Err(Failure::Trouble("this pier was built over a library without a compiler".into())),
        Some(Compiled::Refused { number, line }) => Err(Failure::Refused(refused(book, &text, number, line as usize))),
        Some(Compiled::Card { bytes, peak }) => {
            let table = Table::of(&bytes).map_err(|number| {
                Failure::Trouble(format!("the new card is refused by {number}: please report this"))
            })?;
            Ok(Made { text, card: bytes, table, peak })
        }
    }
}

fn envelope(made: &Made) -> String {
    format!("{}peak    {} of {MOST_SETS}\n", made.table.envelope(), made.peak)
}

/// The message: where, the number and its word, the line, what to look at.
fn refused(book: &Path, text: &[u8], number: u64, line: usize) -> String {
    let entry = refusal::of(number);
    let place = if line == 0 { String::new() } else { format!(", line {line}") };
    let mut message = format!("{}: refused {number} ({}){place}: {}\n", files::shown(book), entry.word, entry.when);
    let hint = hint::hint(text, number, line);
    if let Some((bytes, _)) = hint::line_of(text, line).filter(|_| !hint::is_card(text)) {
        message += &hint::picture(line, bytes, hint.as_ref().and_then(|hint| hint.column));
    }
    if let Some(hint) = hint {
        message += &format!("  look at: {}\n", hint.text);
    }
    message + &format!("  advice: {}\n", entry.advice)
}

#[cfg(test)]
mod tests {
    use super::*;

    #[test]
    fn a_refusal_has_its_number_word_line_and_place() {
        let message = refused(Path::new("x.book"), b":ab\n>a / .*c _ .*\n", 6, 2);
        let expected = "\
x.book: refused 6 (stranger), line 2: a letter that line 1 lacks, or a name not defined above
  2 | >a / .*c _ .*
             ^
  look at: c is not among the letters of line 1
  advice: add the letter to line 1, or define the name on a line above
";
        assert_eq!(message, expected);
        assert!(refused(Path::new("x"), b":ab\n", 1, 0).starts_with("x: refused 1 (long book): the text"));
    }
}
