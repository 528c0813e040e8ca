//! `pier stretch`: plans, one a line, and of each the shortest stretch that lies
//! inside no allowed plan.

use crate::arguments::{Arguments, Choice};
use crate::command::Command;
use crate::proved::{self, Judged, Shortest};
use crate::tally::{Kind, Tally};
use crate::{card, files, judge, plans, reply, Done};

pub const COMMAND: Command = Command {
    name: "stretch",
    about: "find the letters to blame, plan by plan",
    files: &["CARD", "[PLANS]"],
    output: None,
    choices: &[Choice::Explain, Choice::WithoutStretch, Choice::Progress],
    more: "\
Finds in each plan, one a line, from the file PLANS or from standard input, the
shortest stretch of letters in a row that lies inside no allowed plan, wherever
it may stand there; of equal ones the leftmost. It prints for each plan:
  none                  the whole plan lies inside some allowed plan
  stretch START LENGTH  START letters stand before it; every shorter stretch of
                        this plan lies inside some allowed plan
  refused 27            a letter that is not on the card
An empty line is the empty plan. Where the card allows nothing, the stretch is
empty: stretch 0 0. --explain sets the stretch in square brackets, and a ?
before a letter that is not on the card. From 10 plans on a last line, on
standard error, counts the replies.
",
    run,
};

pub fn run(arguments: &Arguments) -> Done {
    let path = judge::plans_of(arguments)?;
    let card = card::read(&arguments.files[0])?;
    let mut tally = Tally::of(&[Kind::None, Kind::Stretch], &card);
    plans::each(&card, path, arguments.has(Choice::Progress), |out, bytes, replies| {
        for (plan, judged) in plans::lines(bytes).zip(replies) {
            let found = shortest(&card, plan, judged);
            note(&mut tally, plan, found);
            if arguments.has(Choice::Explain) {
                reply::push_bracketed(out, plan, found);
                out.push(b'\t');
            }
            reply::push_shortest(out, found);
            out.push(b'\n');
        }
    })?;
    files::complain(&tally.message());
    Ok(tally.status(arguments.has(Choice::WithoutStretch)))
}

/// A plan that is allowed or unfinished lies at the beginning of an allowed one;
/// the others are searched, with a test of the card each.
fn shortest(card: &[u8], plan: &[u8], judged: Judged) -> Shortest {
    match judged {
        Judged::Allowed | Judged::Unfinished(_) => Shortest::None,
        _ => proved::shortest(card, plan),
    }
}

fn note(tally: &mut Tally, plan: &[u8], found: Shortest) {
    match found {
        Shortest::None => tally.note(Kind::None),
        Shortest::At { .. } => tally.note(Kind::Stretch),
        Shortest::UnknownLetter { before } => tally.note_foreign(before, || plan),
        Shortest::Refused(number) => tally.note_refused(number),
    }
}
