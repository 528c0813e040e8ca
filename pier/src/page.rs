//! `pier page`: a card as one page for a browser.

use crate::arguments::Arguments;
use crate::card::{self, Table};
use crate::command::Command;
use crate::svg::{self, escaped};
use crate::{draw, files, reply, Done, Status};

pub const COMMAND: Command = Command {
    name: "page",
    about: "write a card as a page for a browser",
    files: &["CARD"],
    output: Some("FILE.html"),
    choices: &[],
    more: "\
Writes one page that needs nothing else, and no network: the envelope, the table
of moves, the picture, and a box in which a plan is judged letter by letter by
the table on the page. FILE.html#PLAN opens it with a plan.
",
    run,
};

const PAGE: &str = include_str!("page.html");

pub fn run(arguments: &Arguments) -> Done {
    let path = &arguments.files[0];
    let output = arguments.output()?;
    files::require_ending(output, &["html"])?;
    let table = Table::read(path)?;
    let name = path.file_name().unwrap_or_default().to_string_lossy();
    files::deliver(output, page(&table, &name).as_bytes()).map(|()| Status::Fine)
}

/// The page's text, each place filled once; what is filled in holds no place.
fn page(table: &Table, name: &str) -> String {
    let parts = [
        ("name", escaped(name)),
        ("envelope", envelope(table)),
        ("picture", svg::inline(table)),
        ("plan", plan(table).into()),
        ("legend", legend(table)),
        ("table", rows(table)),
        ("version", env!("CARGO_PKG_VERSION").into()),
        ("card", data(table)),
        ("words", words()),
    ];
    let mut page = PAGE.to_string();
    for (place, part) in parts {
        page = page.replace(&format!("{{{{{place}}}}}"), &part.replace("{{", "{ {"));
    }
    page
}

fn envelope(table: &Table) -> String {
    let lines = table.envelope();
    let pairs = lines.lines().filter_map(|line| line.split_once(' '));
    pairs.map(|(what, value)| format!("<dt>{what}</dt><dd>{}</dd>", value.trim())).collect()
}

/// What the box for a plan asks for.
fn plan(table: &Table) -> &'static str {
    match table.letters[..] {
        [] => "nothing: this card has no letters, and judges the empty plan only",
        _ => "letters of this card, in a row",
    }
}

/// What stands below the picture.
fn legend(table: &Table) -> String {
    let arrows = match table.letters[..] {
        [] => "The card has no letters, so there are no moves.",
        _ => "A range such as a-c on an arrow is a, b and c.",
    };
    format!("{}. {arrows}", draw::legend(table, false))
}

fn rows(table: &Table) -> String {
    let heads: String = table.letters.iter().map(|&letter| format!("<th>{}</th>", letter as char)).collect();
    let mut text = format!("<tr><th>state</th><th class=\"mark\">mark</th>{heads}</tr>\n");
    for (state, row) in table.moves.iter().enumerate() {
        let class = if table.marks[state] == card::HOPELESS { " class=\"hopeless\"" } else { "" };
        let cells: String = row.iter().map(|next| format!("<td>{next}</td>")).collect();
        text += &format!(
            "<tr id=\"row{state}\"{class}><th>{state}</th><td class=\"mark\">{}</td>{cells}</tr>\n",
            table.mark(state)
        );
    }
    text
}

/// The card for the page's script.
fn data(table: &Table) -> String {
    let letters: String = table.letters.iter().map(|&letter| letter as char).collect();
    let owed: Vec<usize> = table.owed.iter().map(|owed| owed.unwrap_or(0)).collect();
    format!(
        "{{ letters: \"{letters}\", marks: {:?}, may_end: {}, hopeless: {}, moves: {:?}, owed: {owed:?} }}",
        table.marks,
        card::PLAN_MAY_END,
        card::HOPELESS,
        table.moves
    )
}

fn words() -> String {
    format!(
        "{{ allowed: {:?}, unfinished: {:?}, hopeless: {:?}, refused: {:?} }}",
        reply::ALLOWED,
        reply::UNFINISHED,
        reply::HOPELESS,
        reply::REFUSED
    )
}

#[cfg(test)]
mod tests {
    use super::*;

    #[test]
    fn every_place_is_filled_and_nothing_is_loaded() {
        let table = card::first();
        let page = page(&table, "a<{{card}}");
        assert!(!page.contains("{{"), "{page}");
        assert!(page.contains("<title>a&lt;{ {card}}</title>"));
        assert!(page.contains("letters: \"ab\", marks: [1, 1, 2]"));
        assert!(page.contains("moves: [[1, 2], [1, 0], [2, 2]]"));
        assert!(page.contains("<dt>letters</dt><dd>2 (a b)</dd>"));
        for word in ["src=", "href=", "@import", "http-equiv=\"refresh\""] {
            assert!(!page.contains(word), "{word}");
        }
    }

    #[test]
    fn what_is_owed_is_on_the_page() {
        let page = page(&card::owing(), "owing.card");
        for part in [
            "moves: [[1, 0], [1, 2], [1, 0]], owed: [0, 2, 1] }",
            "<td class=\"mark\">on the way 2</td>",
            "single ring: on the way, +K: K more letters at least. ",
        ] {
            assert!(page.contains(part), "{part}");
        }
    }

    #[test]
    fn a_card_without_letters_says_so() {
        let table = Table::of(&card::without_letters(card::PLAN_MAY_END)).expect("it loads");
        let page = page(&table, "none.card");
        for part in [
            "<dt>letters</dt><dd>0</dd>",
            "placeholder=\"nothing: this card has no letters",
            "The card has no letters, so there are no moves.",
            "letters: \"\", marks: [1], may_end: 1, hopeless: 2, moves: [[]]",
            "<td class=\"mark\">may end</td></tr>",
        ] {
            assert!(page.contains(part), "{part}");
        }
        assert!(!page.contains("such as a-c"));
    }
}
