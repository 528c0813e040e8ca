//! `pier compare`: did a season change anything? It proposes no plan.

use crate::arguments::Arguments;
use crate::card;
use crate::command::Command;
use crate::plans::{self, Plans};
use crate::proved::Judged;
use crate::words::count;
use crate::{files, reply, Done, Failure, Status};
use std::path::Path;

pub const COMMAND: Command = Command {
    name: "compare",
    about: "did the season change anything?",
    files: &["OLD", "NEW", "[PLANS]"],
    output: None,
    choices: &[],
    more: "\
Tells whether two cards are the same bytes, with letters, states and bytes of
each, and which letters came and went. Cards are smallest and numbered in one
way, so two cards with the same letters are the same bytes exactly when their
books allow the same plans. With PLANS, one a line, it lists those whose reply
changed, and how many; the status is then 1 where one did. It proposes no plan.
",
    run,
};

pub fn run(arguments: &Arguments) -> Done {
    if arguments.files.iter().filter(|path| files::is_dash(path)).count() > 1 {
        return Err(Failure::Usage("only one of the files can be standard input".into()));
    }
    let mut cards = Vec::new();
    let mut text = String::new();
    for path in &arguments.files[..2] {
        let (bytes, table) = card::with_table(path)?;
        text += &format!(
            "{}: {}, {}, {}\n",
            files::shown(path),
            table.counted_letters(),
            count(table.marks.len(), "state"),
            count(bytes.len(), "byte")
        );
        cards.push((bytes, table));
    }
    let [(old, old_table), (new, new_table)] = &cards[..] else { unreachable!("two cards") };
    text += &verdict(old == new, &old_table.letters, &new_table.letters);
    files::print(text.as_bytes())?;
    let same = match arguments.files.get(2) {
        None => old == new,
        Some(path) => changed(old, new, path)? == 0,
    };
    Ok(if same { Status::Fine } else { Status::Refused })
}

fn verdict(same: bool, old: &[u8], new: &[u8]) -> String {
    if same {
        return "same: nothing changed, every plan gets the same reply\n".into();
    }
    if old.is_empty() && new.is_empty() {
        return "different: both have no letters, and the empty plan is judged differently\n".into();
    }
    if old == new {
        return "different: the letters are the same, and some plan is judged differently\n".into();
    }
    let missing = |from: &[u8], known: &[u8]| {
        let missing: Vec<u8> = from.iter().copied().filter(|letter| !known.contains(letter)).collect();
        if missing.is_empty() {
            "none".into()
        } else {
            card::spaced(&missing)
        }
    };
    format!("different: letters that came: {}; letters that went: {}\n", missing(new, old), missing(old, new))
}

/// Lists the plans whose reply changed, and counts them.
fn changed(old: &[u8], new: &[u8], path: &Path) -> Result<usize, Failure> {
    let mut plans = Plans::open(path)?;
    let (mut old_room, mut new_room) = (plans::room(), plans::room());
    let (mut all, mut changed) = (0, 0);
    let mut out = Vec::new();
    while let Some(mut rest) = plans.next()? {
        while !rest.is_empty() {
            let (judged, before) = plans::judge(old, rest, &mut old_room)?;
            let (_, after) = plans::judge(new, rest, &mut new_room)?;
            for (plan, (before, after)) in plans::lines(judged).zip(before.zip(after)) {
                all += 1;
                changed += usize::from(push_change(&mut out, plan, before, after));
            }
            files::print(&out)?;
            out.clear();
            rest = &rest[judged.len()..];
        }
    }
    let text =
        format!("{changed} of {} changed {} reply\n", count(all, "plan"), if changed == 1 { "its" } else { "their" });
    files::print(text.as_bytes()).map(|()| changed)
}

/// The plan and its two replies, where these are not the same words.
fn push_change(out: &mut Vec<u8>, plan: &[u8], before: Judged, after: Judged) -> bool {
    let words = [before, after].map(|judged| {
        let mut words = Vec::new();
        reply::push(&mut words, judged);
        words
    });
    if words[0] != words[1] {
        for part in [reply::shown(plan), b"\t", &words[0], b" -> ", &words[1], b"\n"] {
            out.extend_from_slice(part);
        }
    }
    words[0] != words[1]
}

#[cfg(test)]
mod tests {
    use super::*;

    #[test]
    fn the_answers() {
        assert!(verdict(true, b"a", b"a").starts_with("same"));
        assert!(verdict(false, b"a", b"a").contains("judged differently"));
        assert_eq!(verdict(false, b"abc", b"bd"), "different: letters that came: d; letters that went: a c\n");
        assert_eq!(verdict(false, b"a", b"ab"), "different: letters that came: b; letters that went: none\n");
        assert_eq!(verdict(false, b"", b"ab"), "different: letters that came: a b; letters that went: none\n");
        assert!(verdict(true, b"", b"").starts_with("same"));
        assert!(verdict(false, b"", b"").contains("both have no letters, and the empty plan"));
    }

    #[test]
    fn a_change_is_one_of_words() {
        let mut out = Vec::new();
        let foreign = |before| Judged::UnknownLetter { before };
        assert!(!push_change(&mut out, b"ab", foreign(0), foreign(1)));
        assert!(push_change(&mut out, b"", Judged::Allowed, Judged::Hopeless(0)));
        assert!(!push_change(&mut out, b"a", Judged::Unfinished(1), Judged::Unfinished(1)));
        assert!(push_change(&mut out, b"a", Judged::Unfinished(1), Judged::Unfinished(2)));
        assert_eq!(out, b"(empty)\tallowed -> hopeless 0\na\tunfinished 1 -> unfinished 2\n");
    }
}
