//! A card's picture as text for Graphviz.

use crate::card::{self, Table};

/// Arrows to the hopeless state are pale.
pub fn text(table: &Table, caption: &str, all: bool) -> String {
    let left_out = table.left_out(all);
    let caption: String = caption.chars().filter(|c| !c.is_control() && !"\"\\".contains(*c)).collect();
    let mut text = format!("digraph card {{\n  rankdir=LR;\n  label=\"{caption}\";\n");
    text += "  node [fontname=\"sans-serif\"];\n  edge [fontname=\"sans-serif\"];\n";
    text += "  start [shape=point, style=invis];\n  start -> 0;\n";
    for (state, &owed) in table.owed.iter().enumerate().filter(|&(state, _)| Some(state) != left_out) {
        text += &match owed {
            Some(0) => format!("  {state} [shape=doublecircle];\n"),
            Some(owed) => format!("  {state} [shape=circle, label=\"{state}\\n+{owed}\"];\n"),
            None => format!("  {state} [shape=box, style=filled, fillcolor=grey, label=\"{state} hopeless\"];\n"),
        };
    }
    for ((state, next), letters) in table.arrows() {
        if left_out.is_some_and(|hidden| next == hidden) {
            continue;
        }
        let pale = if table.marks[next] == card::HOPELESS { ", color=grey60, fontcolor=grey40" } else { "" };
        text += &format!("  {state} -> {next} [label=\"{}\"{pale}];\n", card::label(&letters));
    }
    text + "}\n"
}

#[cfg(test)]
mod tests {
    use super::*;

    #[test]
    fn the_first_paper_card() {
        let table = card::first();
        let text = text(&table, "a\"b", false);
        for part in [
            "label=\"ab\"",
            "start -> 0;",
            "0 [shape=doublecircle]",
            "2 [shape=box, style=filled",
            "0 -> 1 [label=\"a\"];",
            "0 -> 2 [label=\"b\", color=grey60, fontcolor=grey40];",
            "1 -> 0 [label=\"b\"];",
            "2 -> 2 [label=\"a-b\"",
        ] {
            assert!(text.contains(part), "{part} in {text}");
        }
    }

    #[test]
    fn a_state_on_the_way_says_what_is_owed() {
        let text = text(&card::owing(), "", false);
        for part in [
            "  0 [shape=doublecircle];",
            "  1 [shape=circle, label=\"1\\n+2\"];",
            "  2 [shape=circle, label=\"2\\n+1\"];",
        ] {
            assert!(text.contains(part), "{part} in {text}");
        }
    }

    #[test]
    fn a_card_without_letters_has_the_start_alone() {
        let table = Table::of(&card::without_letters(card::PLAN_MAY_END)).expect("it loads");
        let text = text(&table, "", false);
        assert!(text.contains("start -> 0;\n  0 [shape=doublecircle];\n}"), "{text}");
    }
}
