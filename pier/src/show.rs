//! `pier show`: a card's envelope and its table of moves.

use crate::arguments::Arguments;
use crate::card::Table;
use crate::command::Command;
use crate::{files, Done, Status};

pub const COMMAND: Command = Command {
    name: "show",
    about: "print a card's envelope and moves",
    files: &["CARD"],
    output: None,
    choices: &[],
    more: "\
Prints a card's envelope and its table: a line for each state, with what its
mark means and the next state for each letter. A plan starts in state 0.
  may end       the plan so far is allowed
  on the way K  not yet; with K more letters it can be allowed, with fewer not
  hopeless      no continuation is allowed
",
    run,
};

pub fn run(arguments: &Arguments) -> Done {
    let table = Table::read(&arguments.files[0])?;
    files::print(text(&table).as_bytes()).map(|()| Status::Fine)
}

/// The least width of the marks.
const WIDTH: usize = 10;

fn text(table: &Table) -> String {
    let marks: Vec<String> = (0..table.marks.len()).map(|state| table.mark(state)).collect();
    let width = marks.iter().map(String::len).fold(WIDTH, usize::max);
    let letters = table.letters.iter().map(|&letter| format!(" {:>3}", letter as char));
    let mut text = table.envelope() + "\n" + &line("state", "mark", width, letters);
    for (state, row) in table.moves.iter().enumerate() {
        let row = row.iter().map(|next| format!(" {next:>3}"));
        text += &line(&state.to_string(), &marks[state], width, row);
    }
    text
}

/// A line of the table; without letters it ends with the mark.
fn line(state: &str, mark: &str, width: usize, cells: impl Iterator<Item = String>) -> String {
    format!("{state:>5} {mark:<width$}{}", cells.collect::<String>()).trim_end().to_string() + "\n"
}

#[cfg(test)]
mod tests {
    use super::*;
    use crate::card;

    #[test]
    fn the_first_paper_card() {
        let table = card::first();
        let expected = "\
letters 2 (a b)
states  3
bytes   23

state mark         a   b
    0 may end      1   2
    1 may end      1   0
    2 hopeless     2   2
";
        assert_eq!(text(&table), expected);
    }

    #[test]
    fn a_card_that_owes() {
        let expected = "\
letters 2 (a b)
states  3
bytes   23

state mark           a   b
    0 may end        1   0
    1 on the way 2   1   2
    2 on the way 1   1   0
";
        assert_eq!(text(&card::owing()), expected);
    }

    #[test]
    fn a_card_without_letters() {
        let table = Table::of(&card::without_letters(card::HOPELESS)).expect("it loads");
        let expected = "\
letters 0
states  1
bytes   13

state mark
    0 hopeless
";
        assert_eq!(text(&table), expected);
    }
}
