//! `pier draw`: a card as a picture.

use crate::arguments::{Arguments, Choice};
use crate::card::Table;
use crate::command::Command;
use crate::{dot, files, svg, Done, Status};
use std::path::Path;

pub const COMMAND: Command = Command {
    name: "draw",
    about: "draw a card",
    files: &["CARD"],
    output: Some("FILE.svg"),
    choices: &[Choice::All],
    more: "\
Draws a card as a picture (FILE.svg), or writes the picture as text for Graphviz
(FILE.dot, or - for standard output). No other ending is taken.
  arrow without a beginning   the start, state 0
  double ring                 the plan may end here
  single ring                 on the way: allowed only if it goes on; +K below
                              the state's number: by K letters at least
  grey box                    hopeless: no continuation is allowed
From 8 states on the hopeless state and its arrows are left out: a letter
without an arrow leads there. Letters on an arrow that are neighbours in the
alphabet are written as a range: a-c is a, b and c.
",
    run,
};

pub fn run(arguments: &Arguments) -> Done {
    let path = &arguments.files[0];
    let output = arguments.output()?;
    files::require_ending(output, &["svg", "dot"])?;
    let table = Table::read(path)?;
    let all = arguments.has(Choice::All);
    let caption = caption(&table, path, all);
    let text = if output.extension().is_some_and(|found| found == "svg") {
        svg::text(&table, &caption, all)
    } else {
        dot::text(&table, &caption, all)
    };
    files::deliver(output, text.as_bytes()).map(|()| Status::Fine)
}

/// The picture's name, and what its signs mean.
fn caption(table: &Table, path: &Path, all: bool) -> String {
    let name = path.file_name().unwrap_or_default().to_string_lossy();
    format!("{name}. {}", legend(table, all))
}

pub fn legend(table: &Table, all: bool) -> String {
    let hopeless = match (table.hopeless(), table.left_out(all)) {
        (None, _) => "",
        (_, None) => "; grey box: hopeless",
        _ => "; no arrow: hopeless",
    };
    let owed = if table.owes() { ", +K: K more letters at least" } else { "" };
    format!("Double ring: the plan may end; single ring: on the way{owed}{hopeless}")
}
