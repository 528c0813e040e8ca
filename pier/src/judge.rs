//! `pier judge`: plans, one a line, and the board's reply to each.

use crate::arguments::{Arguments, Choice};
use crate::command::Command;
use crate::proved::{self, Judged, Replies};
use crate::tally::{Kind, Tally};
use crate::{card, files, plans, reply, Done, Failure};
use std::path::{Path, PathBuf};

pub const COMMAND: Command = Command {
    name: "judge",
    about: "judge plans, one a line",
    files: &["CARD", "[PLANS]"],
    output: None,
    choices: &[Choice::Explain, Choice::Strict, Choice::Progress],
    more: "\
Judges plans, one a line, from the file PLANS or from standard input, and prints
a reply for each:
  allowed       the book allows the plan
  unfinished K  not yet; with K more letters it can be allowed, with fewer not
  hopeless K    no allowed plan begins with the first K letters
  refused 27    a letter that is not on the card
An empty line is the empty plan. --explain sets a ! behind the first K letters
of a hopeless plan, and a ? before a letter that is not on the card. Behind the
reply to an unfinished plan stands in words how much is owed; behind that to a
hopeless plan stands what pier stretch finds in it, or that there is no stretch:
the plan lies inside some allowed plan, only not at its beginning.
From 10 plans on a last line, on standard error, counts the replies.
Boards mounted before replies told what is owed print unfinished alone.
",
    run,
};

pub fn run(arguments: &Arguments) -> Done {
    let plans = plans_of(arguments)?;
    let card = card::read(&arguments.files[0])?;
    judge(&card, plans, arguments)
}

/// The plans behind a card or book; both can't be standard input.
pub fn plans_of(arguments: &Arguments) -> Result<&Path, Failure> {
    let plans = arguments.files.get(1).map_or(Path::new("-"), PathBuf::as_path);
    if files::is_dash(&arguments.files[0]) && files::is_dash(plans) {
        return Err(Failure::Usage("only one of the files can be standard input".into()));
    }
    Ok(plans)
}

/// Judges all plans of a file by a card that loads.
pub fn judge(card: &[u8], path: &Path, arguments: &Arguments) -> Done {
    let mut tally = Tally::of(&[Kind::Allowed, Kind::Unfinished, Kind::Hopeless], card);
    plans::each(card, path, arguments.has(Choice::Progress), |out, bytes, replies| {
        if arguments.has(Choice::Explain) {
            explain(out, card, bytes, replies, &mut tally);
        } else {
            answer(out, bytes, replies, &mut tally);
        }
    })?;
    files::complain(&tally.message());
    Ok(tally.status(arguments.has(Choice::Strict)))
}

/// The replies of one call as lines. A plan is looked for only where it must be
/// told in words.
fn answer(out: &mut Vec<u8>, bytes: &[u8], replies: Replies, tally: &mut Tally) {
    for (place, judged) in replies.enumerate() {
        note(tally, judged, || plans::lines(bytes).nth(place).unwrap_or_default());
        reply::push_line(out, judged);
    }
}

/// The same with each plan before its reply; behind that of an unfinished one how
/// much is owed, behind that of a hopeless one the letters to blame.
fn explain(out: &mut Vec<u8>, card: &[u8], bytes: &[u8], replies: Replies, tally: &mut Tally) {
    for (plan, judged) in plans::lines(bytes).zip(replies) {
        note(tally, judged, || plan);
        reply::push_plan(out, plan, judged);
        out.push(b'\t');
        reply::push(out, judged);
        match judged {
            Judged::Unfinished(owed) => {
                out.push(b'\t');
                reply::push_owed(out, owed);
            }
            Judged::Hopeless(_) => {
                out.push(b'\t');
                reply::push_blame(out, proved::shortest(card, plan));
            }
            _ => {}
        }
        out.push(b'\n');
    }
}

#[inline]
fn note<'a>(tally: &mut Tally, judged: Judged, plan: impl FnOnce() -> &'a [u8]) {
    match judged {
        Judged::Allowed => tally.note(Kind::Allowed),
        Judged::Unfinished(_) => tally.note(Kind::Unfinished),
        Judged::Hopeless(_) => tally.note(Kind::Hopeless),
        Judged::UnknownLetter { before } => tally.note_foreign(before, plan),
        Judged::Refused(number) => tally.note_refused(number),
    }
}
