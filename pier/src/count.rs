//! `pier count`: of all plans of a length, how many get each reply; for a range of
//! lengths a table with shares.

use crate::arguments::Arguments;
use crate::command::Command;
use crate::proved::{self, Figures, Loaded};
use crate::reply::{ALLOWED, HOPELESS, UNFINISHED};
use crate::words::count_or_no;
use crate::{card, files, Done, Failure, Status};
use std::ops::RangeInclusive;
use std::path::Path;

/// The word that is no file.
pub const LENGTHS: &str = "K[..L]";

pub const COMMAND: Command = Command {
    name: "count",
    about: "how many plans of a length are allowed",
    files: &["CARD", LENGTHS],
    output: None,
    choices: &[],
    more: "\
Counts all plans of K letters over the card's letters, and prints how many are
allowed, unfinished and hopeless, a line each:
  allowed A     A of them are allowed
  unfinished U  U are not yet; with more letters they can be allowed
  hopeless H    H are hopeless: no allowed plan begins with one
For K..L a table is printed: for each length from K to L the number of all plans
(the card's number of letters to the power of the length), the three figures,
and behind each its share of all plans, rounded to the nearest hundredth of a
percent. 0.00% is none and 100.00% is all; - where there is no plan.
Plans of over 4,096 letters, and over 18,446,744,073,709,551,615 plans, are past
counting (refused 31); a table ends before them.
",
    run,
};

const PAST_COUNTING: u64 = 31;
/// The most letters of plans that are counted.
const MOST_LETTERS: u32 = 4_096;

pub fn run(arguments: &Arguments) -> Done {
    let path = &arguments.files[0];
    let lengths = Lengths::of(&arguments.files[1].to_string_lossy())?;
    let card = card::bytes(path)?;
    match lengths {
        Lengths::One(length) => {
            let figures = proved::count(&card, length).map_err(|number| refused(path, &card, number))?;
            files::print(text(figures).as_bytes())?;
        }
        Lengths::Range(lengths) => {
            let (rows, number) = counted(&card, lengths);
            files::print(table(&rows).as_bytes())?;
            number.map_or(Ok(()), |number| Err(refused(path, &card, number)))?;
        }
    }
    Ok(Status::Fine)
}

#[derive(PartialEq, Eq, Debug)]
enum Lengths {
    One(usize),
    Range(RangeInclusive<usize>),
}

impl Lengths {
    fn of(word: &str) -> Result<Lengths, Failure> {
        if let Some(length) = length(word) {
            return Ok(Lengths::One(length));
        }
        if let Some((first, last)) = word.split_once("..") {
            if let (Some(from), Some(to)) = (length(first), length(last)) {
                let backwards = || Failure::Usage(format!("{word} runs backwards: write {last}..{first}"));
                return (from <= to).then_some(Lengths::Range(from..=to)).ok_or_else(backwards);
            }
        }
        Err(Failure::Usage(format!(
            "{word} is no length; write a number, as in pier count CARD 5, or a range, as in pier count CARD 0..5"
        )))
    }
}

/// A length in digits. One that is too great for a number here is past counting,
/// as is the greatest number.
fn length(word: &str) -> Option<usize> {
    let digits = !word.is_empty() && word.bytes().all(|byte| byte.is_ascii_digit());
    digits.then(|| word.parse().unwrap_or(usize::MAX))
}

/// The figures of each length, up to the first that is refused, and its number.
fn counted(card: &[u8], lengths: RangeInclusive<usize>) -> (Vec<(usize, Figures)>, Option<u64>) {
    let mut rows = Vec::new();
    for length in lengths {
        match proved::count(card, length) {
            Ok(figures) => rows.push((length, figures)),
            Err(number) => return (rows, Some(number)),
        }
    }
    (rows, None)
}

fn text(figures: Figures) -> String {
    let Figures { allowed, unfinished, hopeless } = figures;
    format!("{ALLOWED} {allowed}\n{UNFINISHED} {unfinished}\n{HOPELESS} {hopeless}\n")
}

const COLUMNS: usize = 8;
const HEADS: [&str; COLUMNS] = ["length", "plans", ALLOWED, "share", UNFINISHED, "share", HOPELESS, "share"];

/// The rows below their heads, each column as wide as its widest cell; nothing
/// where there are no rows.
fn table(rows: &[(usize, Figures)]) -> String {
    if rows.is_empty() {
        return String::new();
    }
    let mut lines = vec![HEADS.map(String::from)];
    lines.extend(rows.iter().map(|&(length, figures)| row(length, figures)));
    let width = |column: usize| lines.iter().map(|cells| cells[column].len()).max().unwrap_or(0);
    let widths: [usize; COLUMNS] = std::array::from_fn(width);
    let line = |cells: &[String; COLUMNS]| {
        let padded = cells.iter().zip(widths).map(|(cell, width)| format!("{cell:>width$}"));
        padded.collect::<Vec<_>>().join("  ") + "\n"
    };
    lines.iter().map(line).collect()
}

fn row(length: usize, figures: Figures) -> [String; COLUMNS] {
    let Figures { allowed, unfinished, hopeless } = figures;
    let plans = u128::from(allowed) + u128::from(unfinished) + u128::from(hopeless);
    let share = |part| share(part, plans);
    [
        length.to_string(),
        plans.to_string(),
        allowed.to_string(),
        share(allowed),
        unfinished.to_string(),
        share(unfinished),
        hopeless.to_string(),
        share(hopeless),
    ]
}

/// A part of the whole in percent, rounded to the nearest hundredth, a half up; but
/// only none is 0.00%, and only all 100.00%.
fn share(part: u64, whole: u128) -> String {
    let part = u128::from(part);
    if whole == 0 {
        return "-".into();
    }
    match (2 * 10_000 * part + whole) / (2 * whole) {
        0 if part > 0 => "<0.01%".into(),
        10_000 if part < whole => ">99.99%".into(),
        hundredths => format!("{}.{:02}%", hundredths / 100, hundredths % 100),
    }
}

/// Why there are no figures: the card is refused, or the length.
fn refused(path: &Path, card: &[u8], number: u64) -> Failure {
    match (number, proved::load(card)) {
        (PAST_COUNTING, Loaded::Card { letters, .. }) => {
            let most = longest(letters);
            let letters = count_or_no(letters, "letter");
            let look = format!("on a card with {letters}, plans of up to {most} letters can be counted");
            card::told(path, number, Some(&look))
        }
        _ => card::refused(path, card, number),
    }
}

/// The greatest length that can be counted with so many letters.
fn longest(letters: usize) -> u32 {
    let counts = |length: &u32| (letters as u64).checked_pow(*length).is_some();
    (0..=MOST_LETTERS).rev().find(counts).unwrap_or(0)
}

#[cfg(test)]
mod tests {
    use super::*;
    use crate::card::{without_letters, FIRST_CARD, OWING_CARD, PLAN_MAY_END};

    #[test]
    fn lengths_and_ranges() {
        let of = |word| Lengths::of(word).ok();
        assert_eq!(of("5"), Some(Lengths::One(5)));
        assert_eq!(of("007"), Some(Lengths::One(7)));
        assert_eq!(of("0..5"), Some(Lengths::Range(0..=5)));
        assert_eq!(of("5..5"), Some(Lengths::Range(5..=5)));
        assert_eq!(of("18446744073709551616"), Some(Lengths::One(usize::MAX)));
        assert_eq!(of("3..99999999999999999999"), Some(Lengths::Range(3..=usize::MAX)));
        for word in
            ["", "x", "-5", "+5", "5.", "5..", "..5", "..", "1...5", "1-5", "4,096", "5 ", "0x10", "1..2..3", "٣"]
        {
            let Err(Failure::Usage(message)) = Lengths::of(word) else { panic!("{word}") };
            assert!(message.starts_with(&format!("{word} is no length; write")), "{message}");
        }
        let Err(Failure::Usage(message)) = Lengths::of("5..3") else { panic!() };
        assert_eq!(message, "5..3 runs backwards: write 3..5");
    }

    #[test]
    fn shares_are_rounded_to_the_nearest_hundredth() {
        for (part, whole, expected) in [
            (0, 3, "0.00%"),
            (1, 3, "33.33%"),
            (2, 3, "66.67%"),
            (3, 3, "100.00%"),
            (1, 20_000, "0.01%"),
            (1, 20_001, "<0.01%"),
            (19_999, 20_000, ">99.99%"),
            (19_998, 20_000, "99.99%"),
            (3, 800, "0.38%"),
            (u64::MAX, u128::from(u64::MAX), "100.00%"),
            (u64::MAX - 1, u128::from(u64::MAX), ">99.99%"),
            (1 << 63, 1 << 64, "50.00%"),
            (0, 0, "-"),
        ] {
            assert_eq!(share(part, whole), expected, "{part} of {whole}");
        }
    }

    #[test]
    fn the_greatest_length_by_the_number_of_letters() {
        for (letters, length) in [(0, 4_096), (1, 4_096), (2, 63), (3, 40), (4, 31), (5, 27), (10, 19), (26, 13)] {
            assert_eq!(longest(letters), length);
        }
        for letters in 2..=26 {
            let power = |length| (letters as u128).pow(length);
            let length = longest(letters);
            assert!(power(length) <= u128::from(u64::MAX) && power(length + 1) > u128::from(u64::MAX));
        }
    }

    #[test]
    fn figures_of_the_first_paper_card_and_of_one_without_letters() {
        assert_eq!(proved::count(&FIRST_CARD, 2).map(text), Ok("allowed 2\nunfinished 0\nhopeless 2\n".into()));
        assert_eq!(proved::count(&FIRST_CARD[1..], 5_000), Err(21));
        assert_eq!(proved::count(&FIRST_CARD, 64), Err(31));
        let none = without_letters(PLAN_MAY_END);
        assert_eq!(proved::count(&none, 0), Ok(Figures { allowed: 1, unfinished: 0, hopeless: 0 }));
        assert_eq!(proved::count(&none, 4_096), Ok(Figures { allowed: 0, unfinished: 0, hopeless: 0 }));
        assert_eq!(proved::count(&none, usize::MAX), Err(31));
    }

    #[test]
    fn a_table() {
        let (rows, number) = counted(&OWING_CARD, 0..=4);
        let expected = "\
length  plans  allowed    share  unfinished   share  hopeless  share
     0      1        1  100.00%           0   0.00%         0  0.00%
     1      2        1   50.00%           1  50.00%         0  0.00%
     2      4        1   25.00%           3  75.00%         0  0.00%
     3      8        2   25.00%           6  75.00%         0  0.00%
     4     16        4   25.00%          12  75.00%         0  0.00%
";
        assert_eq!((table(&rows).as_str(), number), (expected, None));
        let (rows, number) = counted(&OWING_CARD, 63..=usize::MAX);
        assert_eq!((rows.len(), number), (1, Some(31)));
        assert_eq!(table(&[]), "");
    }
}
