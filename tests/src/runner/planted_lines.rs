//! Wrong boards for many plans at once. Each is the reference with one fault; the
//! comparison has to find every one of them.

use crate::compare_lines::due;
use crate::product::JudgeLines;
use reference::board;

/// No fault: the comparison may find nothing.
pub fn right(card: &[u8], lines: &[u8], replies: &mut [u64], lent: usize) -> Option<[u64; 4]> {
    let (numbers, after) = due(card, lines, lent, replies.to_vec());
    replies.copy_from_slice(&after);
    Some(numbers)
}

/// Whether the card loads and has no letters.
fn has_no_letters(card: &[u8]) -> bool {
    board::load(card).is_ok_and(|bodies| bodies.letters.is_empty())
}

/// The replies for unfinished plans made from what the first of them owes and
/// what each does.
fn owing(
    card: &[u8],
    lines: &[u8],
    replies: &mut [u64],
    lent: usize,
    reply: fn(u64, u64) -> [u64; 3],
) -> Option<[u64; 4]> {
    let numbers = right(card, lines, replies, lent)?;
    let mut first = None;
    for found in replies[..3 * numbers[1] as usize].chunks_exact_mut(3) {
        if let [0, 0, owed] = *found {
            found.copy_from_slice(&reply(*first.get_or_insert(owed), owed));
        }
    }
    Some(numbers)
}

pub fn all() -> Vec<(&'static str, JudgeLines)> {
    vec![
        ("refuses a card without letters", |card, lines, replies, lent| match has_no_letters(card) {
            true => Some([21, 0, 0, 0]),
            false => right(card, lines, replies, lent),
        }),
        ("no plans without letters", |card, lines, replies, lent| match has_no_letters(card) {
            true => Some([0, 0, lines.len() as u64, 0]),
            false => right(card, lines, replies, lent),
        }),
        ("an empty line is no plan without letters", |card, lines, replies, lent| {
            let others = lines.split_inclusive(|&byte| byte == b'\n').filter(|line| *line != b"\n");
            match has_no_letters(card) {
                true => right(card, &others.collect::<Vec<_>>().concat(), replies, lent),
                false => right(card, lines, replies, lent),
            }
        }),
        ("allows every plan without letters", |card, lines, replies, lent| {
            let numbers = right(card, lines, replies, lent)?;
            if has_no_letters(card) {
                for reply in replies[..3 * numbers[1] as usize].chunks_exact_mut(3) {
                    reply.copy_from_slice(&[0, 1, 0]);
                }
            }
            Some(numbers)
        }),
        ("unfinished without its number", |card, lines, replies, lent| {
            owing(card, lines, replies, lent, |_, _| [0, 0, 0])
        }),
        ("one letter less owed", |card, lines, replies, lent| {
            owing(card, lines, replies, lent, |_, owed| [0, 0, owed - 1])
        }),
        ("the number in the verdict's place", |card, lines, replies, lent| {
            owing(card, lines, replies, lent, |_, owed| [0, owed, 0])
        }),
        ("what the first unfinished plan owes", |card, lines, replies, lent| {
            owing(card, lines, replies, lent, |first, _| [0, 0, first])
        }),
        ("one number more than there is room for", |card, lines, replies, lent| {
            let numbers = right(card, lines, replies, lent)?;
            if numbers[0] == 0 {
                replies[lent] = 0;
            }
            Some(numbers)
        }),
        ("a plan behind the last line end", |card, lines, replies, lent| match lines.ends_with(b"\n") {
            true => right(card, &[lines, b"\n"].concat(), replies, lent),
            false => right(card, lines, replies, lent),
        }),
    ]
}
