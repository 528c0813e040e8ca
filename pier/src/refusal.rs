//! The table of refusals in words: trade word, when it is given, what to do. 10
//! is given no longer.

pub struct Refusal {
    pub number: u64,
    pub word: &'static str,
    pub when: &'static str,
    pub advice: &'static str,
}

const TABLE: [Refusal; 19] = [
    entry(1, "long book", "the text is over 16,384 bytes", "shorten the book: give repeated parts a name (=A ...)"),
    entry(
        2,
        "short bench",
        "a lent work buffer is too short",
        "this program lends enough; it was built against another library",
    ),
    entry(3, "nested", "over 4 brackets are open at once", "move the inner part to a definition of its own (=A ...)"),
    entry(
        4,
        "crowd of contexts",
        "over 4 signs _ in the line",
        "write the alternatives of one side with |, if the other side is the same",
    ),
    entry(5, "spoiled line", "the line is not of its form", "see \"The form of a line\" in pier guide"),
    entry(
        6,
        "stranger",
        "a letter that line 1 lacks, or a name not defined above",
        "add the letter to line 1, or define the name on a line above",
    ),
    entry(7, "taken", "the name is defined above", "take another name"),
    entry(8, "crowded", "a stage needs over 512 sets", "see \"Staying below the limits\" in pier guide"),
    entry(
        9,
        "oversize",
        "the smallest machine of a stage has over 120 states",
        "see \"Staying below the limits\" in pier guide",
    ),
    entry(
        11,
        "short card",
        "the lent card buffer is shorter than the card",
        "this program lends enough; it was built against another library",
    ),
    entry(
        21,
        "contents",
        "the length or the first 12 bytes are not those of a card",
        "is it the right file, and did it arrive whole?",
    ),
    entry(
        22,
        "letters",
        "the letters are not strictly rising from a to z",
        "the bytes were damaged or made by another program",
    ),
    entry(
        23,
        "astray",
        "a move leads to a state that the card lacks",
        "the bytes were damaged or made by another program",
    ),
    entry(
        24,
        "numbering",
        "the states are not numbered by first arrival, or one is never reached",
        "the bytes were damaged or made by another program",
    ),
    entry(
        25,
        "marks",
        "a marks byte is not what the moves make it",
        "the bytes were damaged or made by another program",
    ),
    entry(
        26,
        "twins",
        "two states allow the same continuations",
        "the card is not the smallest; it was made by another program",
    ),
    entry(
        27,
        "foreign letter",
        "a letter that is not on the card",
        "correct the plan, or use the card of its own port",
    ),
    entry(28, "no state", "a state that the card lacks", "ask for a state that the card has"),
    entry(
        31,
        "past counting",
        "plans of over 4,096 letters, or over 18,446,744,073,709,551,615 plans",
        "ask for shorter plans",
    ),
];

const UNKNOWN: Refusal =
    entry(0, "unknown", "no number of the table", "this program was built against another library");

const fn entry(number: u64, word: &'static str, when: &'static str, advice: &'static str) -> Refusal {
    Refusal { number, word, when, advice }
}

pub fn of(number: u64) -> &'static Refusal {
    TABLE.iter().find(|entry| entry.number == number).unwrap_or(&UNKNOWN)
}

#[cfg(test)]
mod tests {
    use super::*;

    #[test]
    fn every_number_of_the_table_has_its_word() {
        for number in (1..=9).chain([11]).chain(21..=28).chain([31]) {
            assert_eq!(of(number).number, number);
        }
        assert_eq!((of(10).word, of(12).word), ("unknown", "unknown"));
        assert_eq!((of(5).word, of(26).word, of(31).word), ("spoiled line", "twins", "past counting"));
    }
}
