//! A loader and a step made from the words of docs/FORMAT.md alone, held against
//! a board on every small card and on damaged ones. They share no code with the
//! product or with the reference.

use crate::compare_mounted::Kind;
use crate::entry::{BoardEntry, Loaded, MountedEntry, Stepped};
use crate::last_case;
use crate::tally::{hex, Tally};

/// "In what follows m is the number of letters (0 to 26) and n the number of
/// states (1 to 120)."
struct Card<'b> {
    m: usize,
    n: usize,
    letters: &'b [u8],
    marks: &'b [u8],
    moves: &'b [u8],
}

impl Card<'_> {
    /// "The next state for state s and the letter in column c (0 for the
    /// first letter) is the byte at 12 + m + n + s × m + c."
    fn next(&self, s: usize, c: usize) -> usize {
        self.moves[s * self.m + c].into()
    }

    /// "1 where a plan may end".
    fn may_end(&self, s: usize) -> bool {
        self.marks[s] == 1
    }
}

/// The least m: of today's boards, and of those mounted before there were
/// cards without letters.
pub const NO_LETTERS: usize = 0;
pub const ONE_LETTER: usize = 1;

/// "A board tests a card in this order and answers with the first number that
/// applies."
fn load(bytes: &[u8], least: usize) -> Result<(usize, usize), u64> {
    let card = contents(bytes, least).ok_or(21u64)?;
    if !rising(card.letters) {
        Err(22)
    } else if card.moves.iter().any(|&to| usize::from(to) >= card.n) {
        // "a move leads to n or above"
        Err(23)
    } else if !numbered(&card) {
        Err(24)
    } else if !marked(&card) {
        Err(25)
    } else if twins(&card) {
        Err(26)
    } else {
        Ok((card.m, card.n))
    }
}

/// "21 to 26, the card is tested as in loading; 27, the letter is not among the
/// card's letters; 28, the state is n or above. Otherwise it gives the next
/// state, its marks byte and, where this byte is 0, how much is owed there".
fn step(bytes: &[u8], state: usize, letter: u8) -> Stepped {
    if let Err(number) = load(bytes, NO_LETTERS) {
        return Stepped::Refused(number);
    }
    let card = contents(bytes, NO_LETTERS).expect("loaded");
    let Some(c) = (0..card.m).find(|&c| card.letters[c] == letter) else { return Stepped::Refused(27) };
    if state >= card.n {
        return Stepped::Refused(28);
    }
    let to = card.next(state, c);
    let owed = if card.marks[to] == 0 { owed(&card, to) } else { 0 };
    Stepped::To { state: to as u64, marks: card.marks[to].into(), owed }
}

/// "some continuation of K letters is allowed, and none of fewer": all rows of 0
/// letters, of 1, of 2 and so on are tried, until one leads to byte 1.
fn owed(card: &Card, state: usize) -> u64 {
    let mut led_to = vec![false; card.n];
    led_to[state] = true;
    for length in 0..card.n {
        let states: Vec<usize> = (0..card.n).filter(|&s| led_to[s]).collect();
        if states.iter().any(|&s| card.may_end(s)) {
            return length as u64;
        }
        led_to = (0..card.n).map(|to| states.iter().any(|&s| (0..card.m).any(|c| card.next(s, c) == to))).collect();
    }
    unreachable!("marks 0, and no row of letters leads to byte 1")
}

/// A mounted board's, in this order: "21; 27; 28; 23, where this one move leads
/// to n or above. On a card that does not load it takes the first column of a
/// repeated letter, and hands the marks byte back as it stands".
pub fn old_step(bytes: &[u8], least: usize, state: usize, letter: u8) -> Stepped<()> {
    let Some(card) = contents(bytes, least) else { return Stepped::Refused(21) };
    let Some(c) = (0..card.m).find(|&c| card.letters[c] == letter) else { return Stepped::Refused(27) };
    if state >= card.n {
        return Stepped::Refused(28);
    }
    match card.next(state, c) {
        to if to < card.n => Stepped::To { state: to as u64, marks: card.marks[to].into(), owed: () },
        _ => Stepped::Refused(23),
    }
}

/// 21: "there are under 12 bytes, or the length is not 12 + m + n + n × m, or
/// one of the six numbers is not as in the layout, or m is not 0 to 26 .., or
/// n is not 1 to 120." Mounted boards take m from 1.
fn contents(bytes: &[u8], least: usize) -> Option<Card<'_>> {
    if bytes.len() < 12 {
        return None;
    }
    // "The six numbers of the contents have two bytes each, the low byte
    // first."
    let number = |at: usize| usize::from(bytes[at]) + 256 * usize::from(bytes[at + 1]);
    let (m, n) = (number(2), number(6));
    if bytes.len() != 12 + m + n + n * m || !(least..=26).contains(&m) || !(1..=120).contains(&n) {
        return None;
    }
    let layout = [12, m, 12 + m, n, 12 + m + n, n * m];
    if (0..6).any(|i| number(2 * i) != layout[i]) {
        return None;
    }
    Some(Card { m, n, letters: &bytes[12..12 + m], marks: &bytes[12 + m..12 + m + n], moves: &bytes[12 + m + n..] })
}

/// "m bytes, 0x61 to 0x7A (a to z), strictly rising".
fn rising(letters: &[u8]) -> bool {
    let within = letters.iter().all(|letter| (0x61..=0x7A).contains(letter));
    within && (1..letters.len()).all(|i| letters[i - 1] < letters[i])
}

/// "State 0 is seen from the start. The rows of moves are read in the order of
/// their states, each row from its first byte to its last; a move either leads
/// to a state that has been seen, or to the least number that has not, which is
/// then seen. Before state p's row is read, p must have been seen."
fn numbered(card: &Card) -> bool {
    let mut seen = vec![false; card.n];
    seen[0] = true;
    for p in 0..card.n {
        if !seen[p] {
            return false;
        }
        for c in 0..card.m {
            let to = card.next(p, c);
            let least = seen.iter().position(|&seen| !seen);
            if !seen[to] && Some(to) != least {
                return false;
            }
            seen[to] = true;
        }
    }
    true
}

/// "Byte 1 is taken as given; a state without byte 1 must have 0 if a state
/// with byte 1 can be reached from it, and 2 if none can; any other byte is
/// refused".
fn marked(card: &Card) -> bool {
    (0..card.n).all(|s| {
        let due = match reached(s, |s, c| card.next(s, c), card.m).into_iter().any(|s| card.may_end(s)) {
            true => 0,
            false => 2,
        };
        card.may_end(s) || card.marks[s] == due
    })
}

/// "two states allow the same continuations: the same rows of letters lead
/// from both to byte 1".
fn twins(card: &Card) -> bool {
    let alike = |pair: (usize, usize)| {
        let pairs = reached(pair, |(p, q), c| (card.next(p, c), card.next(q, c)), card.m);
        pairs.into_iter().all(|(p, q)| card.may_end(p) == card.may_end(q))
    };
    (0..card.n).any(|q| (0..q).any(|p| alike((p, q))))
}

/// Where rows of letters lead, the empty one too.
fn reached<T: Copy + PartialEq>(from: T, next: impl Fn(T, usize) -> T, columns: usize) -> Vec<T> {
    let mut found = vec![from];
    let mut at = 0;
    while at < found.len() {
        for c in 0..columns {
            let to = next(found[at], c);
            if !found.contains(&to) {
                found.push(to);
            }
        }
        at += 1;
    }
    found
}

/// Bytes laid out as in the table, whatever the bodies hold.
fn laid_out(letters: &[u8], marks: &[u8], moves: &[u8]) -> Vec<u8> {
    let (m, n) = (letters.len(), marks.len());
    let numbers = [12, m, 12 + m, n, 12 + m + n, moves.len()];
    let contents = numbers.into_iter().flat_map(|number| [(number % 256) as u8, (number / 256) as u8]);
    contents.chain([letters, marks, moves].concat()).collect()
}

/// "The first card on paper".
const FIRST: [u8; 23] = [
    0x0C, 0x00, 0x02, 0x00, 0x0E, 0x00, 0x03, 0x00, 0x11, 0x00, 0x06, 0x00, 0x61, 0x62, 0x01, 0x01, 0x02, 0x01, 0x02,
    0x01, 0x00, 0x02, 0x02,
];

pub fn run(tally: &mut Tally, board: &dyn BoardEntry) {
    tally.group("board: the loader of FORMAT.md, its own cards", |tally| {
        let card = |marks: &[u8], moves: &[u8]| laid_out(b"a", marks, moves);
        let no_letters = |marks: &[u8]| laid_out(b"", marks, b"");
        let cards = [
            (FIRST.to_vec(), Ok((2, 3))),
            (no_letters(&[1]), Ok((0, 1))),
            (no_letters(&[2]), Ok((0, 1))),
            (no_letters(&[]), Err(21)),
            ([no_letters(&[1]), b"x".to_vec()].concat(), Err(21)),
            (no_letters(&[1, 2]), Err(24)),
            (no_letters(&[0]), Err(25)),
            (no_letters(&[3]), Err(25)),
            (card(&[1], &[0]), Ok((1, 1))),
            ([card(&[1], &[0]), b"x".to_vec()].concat(), Err(21)),
            (laid_out(b"A", &[1], &[0]), Err(22)),
            (card(&[1], &[1]), Err(23)),
            (card(&[1, 2], &[0, 1]), Err(24)),
            (card(&[0], &[0]), Err(25)),
            (card(&[1, 1], &[1, 0]), Err(26)),
        ];
        for (card, due) in cards {
            tally.same(&hex(&card), &due, &load(&card, NO_LETTERS));
            compare_both(tally, board, &card);
        }
        // "at least 13 and at most 3,278"
        let lengths = [no_letters(&[1]).len(), laid_out(&[b'a'; 26], &[1; 120], &[0; 26 * 120]).len()];
        tally.same("the lengths of the shortest card and the longest", &[13, 3278], &lengths);
    });
    tally.group("board: the loader and the step of FORMAT.md, every small card", |tally| {
        small(&[b"", b"a", b"ab"], |card| compare_both(tally, board, card));
    });
    tally.group("board: the loader and the step of FORMAT.md, damaged cards", |tally| {
        damaged(|card| compare_both(tally, board, card));
    });
}

/// The same for a mounted board.
pub fn mounted(tally: &mut Tally, board: &dyn MountedEntry, kind: Kind) {
    tally.group(&format!("reference: a board {} by FORMAT.md, every small card", kind.name), |tally| {
        small(&[b"", b"a"], |card| compare_mounted(tally, board, kind.least, card));
    });
    tally.group(&format!("reference: a board {} by FORMAT.md, damaged cards", kind.name), |tally| {
        damaged(|card| compare_mounted(tally, board, kind.least, card));
    });
}

fn small(rows: &[&[u8]], mut each: impl FnMut(&[u8])) {
    for letters in rows {
        for n in 1..=3 {
            every(n, 4, |marks| {
                last_case::note(|| format!("loading a card of {} letters with marks {marks:?}", letters.len()));
                every(n * letters.len(), n + 1, |moves| each(&laid_out(letters, marks, moves)))
            });
        }
    }
}

/// Every row of so many numbers below a bound.
fn every(length: usize, bound: usize, mut each: impl FnMut(&[u8])) {
    let mut row = vec![0; length];
    loop {
        each(&row);
        let Some(place) = row.iter().position(|&byte| usize::from(byte) + 1 < bound) else { return };
        row[..place].fill(0);
        row[place] += 1;
    }
}

fn damaged(mut each: impl FnMut(&[u8])) {
    let alphabet: Vec<u8> = (b'a'..=b'z').collect();
    // In state s every letter leads to s + 1, in the last to itself.
    let chain = |letters: &[u8], n: usize| {
        let marks: Vec<u8> = (0..n).map(|s| if s + 1 == n { 1 } else { 0 }).collect();
        let moves: Vec<u8> = (0..n).flat_map(|s| vec![(s + 1).min(n - 1) as u8; letters.len()]).collect();
        laid_out(letters, &marks, &moves)
    };
    for card in [FIRST.to_vec(), chain(b"", 1), chain(b"a", 1), chain(b"q", 2), chain(b"bcz", 4), chain(&alphabet, 3)] {
        last_case::note(|| format!("loading, damaged, {}", hex(&card)));
        for place in 0..card.len() {
            for byte in 0..=255 {
                let mut card = card.clone();
                card[place] = byte;
                each(&card);
            }
        }
        for length in 0..card.len() {
            each(&card[..length]);
        }
        for more in [1, 2, 12, card.len()] {
            each(&[&card[..], &card[..more]].concat());
        }
        // The contents' numbers, two at a time.
        for (one, other) in (0..6).flat_map(|one| (0..one).map(move |other| (one, other))) {
            every(2, 9, |steps| {
                let mut card = card.clone();
                card[2 * one] = card[2 * one].wrapping_add(steps[0]).wrapping_sub(4);
                card[2 * other] = card[2 * other].wrapping_add(steps[1]).wrapping_sub(4);
                each(&card);
            });
        }
    }
    last_case::note(|| "loading cards of many letters and states".to_string());
    // Lengths and counts at and past their bounds, laid out in agreement.
    for m in [0, 1, 2, 25, 26, 27, 255, 256] {
        for n in [0, 1, 2, 119, 120, 121, 255, 256, 257] {
            let letters: Vec<u8> = (0..m).map(|c| b'a'.wrapping_add(c as u8)).collect();
            each(&laid_out(&letters, &vec![1; n], &vec![0; n * m]));
            if n > 0 {
                each(&chain(&letters, n));
            }
        }
    }
    let bytes = [0, 0x0A, b' ', b'A', 0x60, b'a', b'b', b'y', b'z', 0x7B, 0x80, 0xE1, 0xFF];
    every(3, bytes.len(), |row| {
        let letters: Vec<u8> = row.iter().map(|&place| bytes[usize::from(place)]).collect();
        for count in 1..=3 {
            each(&chain(&letters[..count], 2));
        }
    });
}

fn compare_both(tally: &mut Tally, board: &dyn BoardEntry, card: &[u8]) {
    compare(tally, || format!("loading {}", hex(card)), due(card, NO_LETTERS), board.load(card));
    for (state, letter) in stepped_on(card) {
        let call = || format!("a step from state {state} with letter {letter} on {}", hex(card));
        compare(tally, call, step(card, state, letter), board.step(card, state, letter));
    }
}

fn compare_mounted(tally: &mut Tally, board: &dyn MountedEntry, least: usize, card: &[u8]) {
    compare(tally, || format!("loading {}", hex(card)), due(card, least), board.load(card));
    for (state, letter) in stepped_on(card) {
        let call = || format!("a step from state {state} with letter {letter} on {}", hex(card));
        compare(tally, call, old_step(card, least, state, letter), board.step(card, state, letter));
    }
}

/// Two steps for a card, from a state and by a letter that its bytes choose.
fn stepped_on(card: &[u8]) -> [(usize, u8); 2] {
    let sum: usize = card.iter().map(|&byte| usize::from(byte)).sum();
    [(sum % 3, b'a' + (sum % 2) as u8), (sum / 3 % 5, b'a' + (sum / 15 % 4) as u8)]
}

fn due(card: &[u8], least: usize) -> Loaded {
    match load(card, least) {
        Ok((m, n)) => Loaded::Card { letters: m as u64, states: n as u64 },
        Err(number) => Loaded::Refused(number),
    }
}

fn compare<T: PartialEq + std::fmt::Debug>(tally: &mut Tally, call: impl Fn() -> String, due: T, found: T) {
    tally.check(due == found, || format!("{}\n  by FORMAT.md: {due:?}\n  by the board: {found:?}", call()));
}
