//! `pier version`: the product, the kit that proved it, the kinds of card and
//! rule that it knows.

use crate::arguments::Arguments;
use crate::command::Command;
use crate::{files, Done, Status};

pub const COMMAND: Command = Command {
    name: "version",
    about: "product, kit, kinds of card and rule",
    files: &[],
    output: None,
    choices: &[],
    more: "\
Prints the product's version, the Rattle kit that proved the library in it, and
which kinds of card and rule it knows, as does pier --version.
",
    run,
};

/// The kinds of card.
pub const CARDS: &[&str] = &["of 0 to 26 letters and 1 to 120 states"];
/// The kinds of rule, by the sign that begins the line.
pub const RULES: &[&str] =
    &["> (the pattern only in its contexts)", "< (never in its contexts)", "^ (nothing else in its contexts)"];

/// The kit's own line, which `build` hands over.
fn kit() -> &'static str {
    match option_env!("PIER_KIT") {
        _ if cfg!(feature = "reference") => "none: the second program answers, and nothing is proved",
        Some(kit) => kit,
        None => "unknown",
    }
}

pub fn run(_: &Arguments) -> Done {
    let text = format!(
        "pier {}\nkit   {}\ncards {}\nrules {}\n",
        env!("CARGO_PKG_VERSION"),
        kit(),
        CARDS.join("; "),
        RULES.join("; ")
    );
    files::print(text.as_bytes()).map(|()| Status::Fine)
}
