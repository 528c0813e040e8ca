//! The reference's mounted boards: beside the new one, by the words of FORMAT.md,
//! and on the cards of texts that are accepted.

use crate::by_format;
use crate::compare_mounted;
use crate::effort::Effort;
use crate::entry::Reference;
use crate::examples;
use crate::limits;
use crate::random_books;
use crate::tally::{shown, Tally};
use reference::board;
use reference::compile::{compile, Lent};
use reference::mounted::{BEFORE_W2, BEFORE_W3};

pub fn run(tally: &mut Tally, effort: Effort) {
    for (mounted, kind) in [(BEFORE_W2, compare_mounted::BEFORE_W2), (BEFORE_W3, compare_mounted::BEFORE_W3)] {
        compare_mounted::run(tally, &Reference { bench: Vec::new() }, &mounted, kind, effort);
        if effort.fixed {
            by_format::mounted(tally, &mounted, kind);
        }
    }
    if effort.fixed {
        tally.group("mounted: cards of known texts", |tally| {
            for example in examples::quick() {
                text(tally, &example.text);
            }
            text(tally, &limits::longest_card_book());
        });
    }
    tally.group("mounted: cards of random texts", |tally| {
        let mut rng = tally.rng("mounted: cards of random texts");
        for _ in 0..effort.of(1000) {
            text(tally, &random_books::book(&mut rng));
            text(tally, &random_books::soup(&mut rng));
        }
    });
}

/// The card of a text loads on the mounted boards too; but that of a text
/// without a byte is refused by 21 on the older ones.
fn text(tally: &mut Tally, text: &[u8]) {
    let Ok(accepted) = compile(text, &Lent::plenty()) else { return };
    let new = board::load(&accepted.card);
    let older = if text.is_empty() { Err(21) } else { new };
    for (due, mounted) in [(older, BEFORE_W2), (new, BEFORE_W3)] {
        let found = mounted.load(&accepted.card);
        tally.check(new.is_ok() && due == found, || {
            format!("the card of {}: due {due:?}, {mounted:?} {found:?}", shown(text))
        });
    }
}
