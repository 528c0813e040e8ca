//! A card's picture as SVG, with what it needs in itself.

use crate::arrow::{Anchor, BAR, RADIUS};
use crate::card::{self, Table};
use crate::layout::Layout;
use crate::route::{self, Picture};

const STYLE: &str = "\
text{font:13px sans-serif;fill:#222}\
.state circle{fill:#fff;stroke:#222;stroke-width:1.4}\
.state rect{fill:#ccc;stroke:#888}\
.state text{text-anchor:middle}\
.state .owed{font-size:11px}\
.arrow{fill:none;stroke:#222;stroke-width:1.2;marker-end:url(#head)}\
.label{fill:#05386b;paint-order:stroke;stroke:#fff;stroke-width:4px}\
.mid{text-anchor:middle}\
.end{text-anchor:end}\
.pale .arrow{stroke:#aaa;marker-end:url(#pale)}\
.pale .label{fill:#777}\
.now circle,.now rect{fill:#ffe08a}";

const CAPTION: f64 = 40.0;

/// For a file of its own: a white ground and a caption.
pub fn text(table: &Table, caption: &str, all: bool) -> String {
    let picture = route::picture(&Layout::of(table, all));
    let width = picture.width.max(caption.chars().count() as f64 * 6.6 + 2.0 * 24.0);
    let height = picture.height + CAPTION;
    let mut text = opened(width, height);
    text += "<rect width=\"100%\" height=\"100%\" fill=\"#fff\"/>\n";
    text += &body(table, &picture);
    text += &format!("<text x=\"24\" y=\"{:.1}\">{}</text>\n</svg>\n", height - 14.0, escaped(caption));
    text
}

/// For a page: without ground and caption.
pub fn inline(table: &Table) -> String {
    let picture = route::picture(&Layout::of(table, false));
    opened(picture.width, picture.height + 12.0) + &body(table, &picture) + "</svg>\n"
}

fn opened(width: f64, height: f64) -> String {
    let head = |name: &str, colour: &str| {
        format!(
            "<marker id=\"{name}\" viewBox=\"0 0 10 10\" refX=\"9\" refY=\"5\" markerWidth=\"8\" markerHeight=\"8\" \
             orient=\"auto\"><path d=\"M0,1 L10,5 L0,9 z\" fill=\"{colour}\"/></marker>"
        )
    };
    format!(
        "<svg xmlns=\"http://www.w3.org/2000/svg\" width=\"{width:.0}\" height=\"{height:.0}\" \
         viewBox=\"0 0 {width:.0} {height:.0}\">\n<style>{STYLE}</style>\n<defs>{}{}</defs>\n",
        head("head", "#222"),
        head("pale", "#aaa")
    )
}

fn body(table: &Table, picture: &Picture) -> String {
    let mut text = String::new();
    for arrow in &picture.arrows {
        let group = if arrow.pale { "<g class=\"pale\">" } else { "<g>" };
        let label = match arrow.anchor {
            Anchor::Start => "label",
            Anchor::Middle => "label mid",
            Anchor::End => "label end",
        };
        text += &format!(
            "{group}<path class=\"arrow\" d=\"{}\"/><text class=\"{label}\" x=\"{:.1}\" y=\"{:.1}\">{}</text></g>\n",
            arrow.path, arrow.at.0, arrow.at.1, arrow.label
        );
    }
    for (&state, &(x, y)) in &picture.states {
        if state == 0 {
            text += &format!("<path class=\"arrow\" d=\"M{:.1},{y:.1} H{:.1}\"/>\n", x - RADIUS - 36.0, x - RADIUS);
        }
        text += &node(table, state, x, y);
    }
    if let (Some((left, top, width)), Some(state)) = (picture.bar, table.hopeless()) {
        text += &format!(
            "<g class=\"state\" id=\"state{state}\"><rect x=\"{left:.1}\" y=\"{top:.1}\" width=\"{width:.1}\" \
             height=\"{BAR}\"/><text x=\"{:.1}\" y=\"{:.1}\">{state} {}</text></g>\n",
            left + width / 2.0,
            top + BAR / 2.0 + 4.5,
            card::mark(card::HOPELESS)
        );
    }
    text
}

fn node(table: &Table, state: usize, x: f64, y: f64) -> String {
    let circle = |radius: f64| format!("<circle cx=\"{x:.1}\" cy=\"{y:.1}\" r=\"{radius}\"/>");
    let sign = |down: f64| format!("<text x=\"{x:.1}\" y=\"{:.1}\">{state}</text>", y + down);
    let shape = match table.owed[state] {
        Some(0) => circle(RADIUS) + &circle(RADIUS - 4.0) + &sign(4.5),
        Some(owed) => format!(
            "{}{}<text class=\"owed\" x=\"{x:.1}\" y=\"{:.1}\">+{owed}</text>",
            circle(RADIUS),
            sign(0.0),
            y + 12.0
        ),
        None => format!(
            "<rect x=\"{:.1}\" y=\"{:.1}\" width=\"{}\" height=\"{}\"/>{}",
            x - RADIUS,
            y - RADIUS,
            2.0 * RADIUS,
            2.0 * RADIUS,
            sign(4.5)
        ),
    };
    format!("<g class=\"state\" id=\"state{state}\"><title>state {state}: {}</title>{shape}</g>\n", table.mark(state))
}

/// A text between tags.
pub fn escaped(text: &str) -> String {
    text.chars()
        .filter(|c| !c.is_control())
        .map(|c| match c {
            '<' => "&lt;".into(),
            '>' => "&gt;".into(),
            '&' => "&amp;".into(),
            '"' => "&quot;".into(),
            _ => c.to_string(),
        })
        .collect()
}

#[cfg(test)]
mod tests {
    use super::*;

    #[test]
    fn the_first_paper_card() {
        let table = card::first();
        let text = text(&table, "a<b", false);
        for part in ["<svg xmlns", "id=\"state0\"", "id=\"state2\"><rect", ">2 hopeless<", ">a-b<", ">a&lt;b<"] {
            assert!(text.contains(part), "{part} in {text}");
        }
        assert_eq!(text.matches("<path class=\"arrow\"").count(), 1 + table.arrows().len());
    }

    #[test]
    fn a_state_on_the_way_says_what_is_owed() {
        let text = text(&card::owing(), "", false);
        for part in ["<title>state 1: on the way 2<", ">+2</text>", "<title>state 2: on the way 1<", ">+1</text>"] {
            assert_eq!(text.matches(part).count(), 1, "{part} in {text}");
        }
    }

    #[test]
    fn a_card_without_letters_has_the_start_alone() {
        let table = Table::of(&card::without_letters(card::HOPELESS)).expect("it loads");
        let text = text(&table, "", false);
        assert!(text.contains("<title>state 0: hopeless</title><rect"), "{text}");
        assert_eq!(text.matches("<path class=\"arrow\"").count(), 1);
        assert!(!text.contains("NaN") && !text.contains("inf"), "{text}");
    }
}
