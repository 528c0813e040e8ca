//! Many plans at once: the product against the reference's plans, each judged
//! by itself.

use crate::board_examples::{chain, even};
use crate::effort::Effort;
use crate::examples::{FIRST_CARD, NO_LETTERS_CARD, NO_LETTERS_NOTHING_CARD};
use crate::expected_output::plans;
use crate::product::JudgeLines;
use crate::random_cards;
use crate::tally::{hex, shown, Tally};
use reference::board::{bodies, judge, load, Refused, Verdict};

/// Numbers past the lent ones that must stay as they are.
const GUARD: usize = 4;

pub fn run(tally: &mut Tally, product: JudgeLines, effort: Effort) {
    if effort.fixed {
        tally.group("lines: every room", |tally| {
            let (chain, even) = (chain(b"ab", 120), even());
            for lines in [&b""[..], b"\n", b"\n\n", b"ab", b"ab\n", b"ab\nabb\n\nb", b"a\rb\nzz\n\n", b"\nab\n\n"] {
                for room in 0..16 {
                    for card in [FIRST_CARD, &FIRST_CARD[..22], NO_LETTERS_CARD, NO_LETTERS_NOTHING_CARD, &chain, &even]
                    {
                        compare(tally, product, card, lines, room);
                    }
                }
            }
        });
    }
    tally.group("lines: random cards and bytes", |tally| {
        let mut rng = tally.rng("lines: random cards and bytes");
        for _ in 0..effort.of(3000) {
            let good = if rng.once_in(4) { random_cards::far(&mut rng) } else { random_cards::good(&mut rng) };
            let card = if rng.once_in(4) { random_cards::damaged(&mut rng, &good) } else { good };
            let letters = bodies(&card).map(|bodies| bodies.letters.to_vec()).unwrap_or(b"ab".to_vec());
            let mut lines = Vec::new();
            for _ in 0..rng.below(8) {
                lines.extend(random_cards::plan(&mut rng, &letters));
                if !rng.once_in(8) {
                    lines.push(b'\n');
                }
            }
            if rng.once_in(3) {
                let length = rng.below(20);
                lines.extend(rng.bytes(length));
            }
            let room = rng.below(30);
            compare(tally, product, &card, &lines, room);
        }
    });
}

/// The number and `out`, and the replies behind the call.
pub fn due(card: &[u8], lines: &[u8], room: usize, mut replies: Vec<u64>) -> ([u64; 4], Vec<u64>) {
    if let Err(number) = load(card) {
        return ([number.into(), 0, 0, 0], replies);
    }
    let all = plans(lines);
    let judged = &all[..all.len().min(room / 3)];
    for (plan, reply) in judged.iter().zip(replies.chunks_exact_mut(3)) {
        reply.copy_from_slice(&match judge(card, plan) {
            Ok(Verdict::Allowed) => [0, 1, 0],
            Ok(Verdict::Unfinished(owed)) => [0, 0, owed as u64],
            Ok(Verdict::Hopeless(place)) => [0, 2, place as u64],
            Err(Refused::ForeignLetter { before }) => [27, 0, before as u64],
            Err(Refused::Card(number)) => [number.into(), 0, 0],
        });
    }
    let bytes: usize = judged.iter().map(|plan| plan.len() + 1).sum();
    ([0, judged.len() as u64, bytes.min(lines.len()) as u64, 0], replies)
}

fn compare(tally: &mut Tally, product: JudgeLines, card: &[u8], lines: &[u8], room: usize) {
    if tally.is_over() {
        return;
    }
    let before: Vec<u64> = (0..room + GUARD).map(|place| 0xABCD_0000 + place as u64).collect();
    let mut replies = before.clone();
    let numbers = product(card, lines, &mut replies, room);
    let (due_numbers, due_replies) = due(card, lines, room, before);
    tally.check(numbers == Some(due_numbers) && replies == due_replies, || {
        format!(
            "lines {} on {}, room {room}: due {due_numbers:?} {due_replies:?}, found {numbers:?} {replies:?}",
            shown(lines),
            hex(card)
        )
    });
}
