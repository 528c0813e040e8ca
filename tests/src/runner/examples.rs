//! Books with the results that are due, worked out by hand from document 01.

use crate::sister_examples;
use reference::board::Verdict::{self, Allowed, Hopeless, Unfinished};

/// What is due for a book; what isn't stated isn't compared.
#[derive(Clone, PartialEq, Eq, Debug)]
pub enum Due {
    Refused { number: u8, line: usize },
    Accepted { peak: Option<usize>, card: Option<Vec<u8>>, verdicts: Vec<(&'static str, Verdict)> },
}

#[derive(Clone, Debug)]
pub struct Example {
    pub title: &'static str,
    pub text: Vec<u8>,
    pub due: Due,
}

impl Example {
    pub fn peak(mut self, count: usize) -> Example {
        if let Due::Accepted { peak, .. } = &mut self.due {
            *peak = Some(count);
        }
        self
    }

    pub fn card(mut self, bytes: &[u8]) -> Example {
        if let Due::Accepted { card, .. } = &mut self.due {
            *card = Some(bytes.to_vec());
        }
        self
    }

    pub fn verdict(mut self, plan: &'static str, verdict: Verdict) -> Example {
        if let Due::Accepted { verdicts, .. } = &mut self.due {
            verdicts.push((plan, verdict));
        }
        self
    }
}

pub fn accepted(title: &'static str, text: impl AsRef<[u8]>) -> Example {
    let due = Due::Accepted { peak: None, card: None, verdicts: Vec::new() };
    Example { title, text: text.as_ref().to_vec(), due }
}

pub fn refused(title: &'static str, text: impl AsRef<[u8]>, number: u8, line: usize) -> Example {
    Example { title, text: text.as_ref().to_vec(), due: Due::Refused { number, line } }
}

/// So many letters a written out.
pub fn a(count: usize) -> String {
    "a".repeat(count)
}

/// An expression that is crowded over `:a`.
pub fn crowd() -> String {
    format!("({})*&({})*", a(23), a(24))
}

/// The card of `:ab`, `>b / .*a _ .*`.
pub const FIRST_CARD: &[u8] = &[
    0x0C, 0x00, 0x02, 0x00, 0x0E, 0x00, 0x03, 0x00, 0x11, 0x00, 0x06, 0x00, 0x61, 0x62, 0x01, 0x01, 0x02, 0x01, 0x02,
    0x01, 0x00, 0x02, 0x02,
];

/// The card of `:ab`, `>a`.
pub const NO_A_CARD: &[u8] = &[
    0x0C, 0x00, 0x02, 0x00, 0x0E, 0x00, 0x02, 0x00, 0x10, 0x00, 0x04, 0x00, 0x61, 0x62, 0x01, 0x02, 0x01, 0x00, 0x01,
    0x01,
];

/// The card over a, b that allows no plan.
pub const NOTHING_CARD: &[u8] =
    &[0x0C, 0x00, 0x02, 0x00, 0x0E, 0x00, 0x01, 0x00, 0x0F, 0x00, 0x02, 0x00, 0x61, 0x62, 0x02, 0x00, 0x00];

/// The card over a, b that allows every plan.
pub const EVERYTHING_CARD: &[u8] =
    &[0x0C, 0x00, 0x02, 0x00, 0x0E, 0x00, 0x01, 0x00, 0x0F, 0x00, 0x02, 0x00, 0x61, 0x62, 0x01, 0x00, 0x00];

/// The card over a, b that allows the empty plan alone.
pub const ONLY_EMPTY_CARD: &[u8] = &[
    0x0C, 0x00, 0x02, 0x00, 0x0E, 0x00, 0x02, 0x00, 0x10, 0x00, 0x04, 0x00, 0x61, 0x62, 0x01, 0x02, 0x01, 0x01, 0x01,
    0x01,
];

/// The card of a text of no bytes: no letters, and the empty plan allowed.
pub const NO_LETTERS_CARD: &[u8] = &[0x0C, 0x00, 0x00, 0x00, 0x0C, 0x00, 0x01, 0x00, 0x0D, 0x00, 0x00, 0x00, 0x01];

/// Its like that allows no plan.
pub const NO_LETTERS_NOTHING_CARD: &[u8] =
    &[0x0C, 0x00, 0x00, 0x00, 0x0C, 0x00, 0x01, 0x00, 0x0D, 0x00, 0x00, 0x00, 0x02];

/// The card over z that allows every plan.
pub const EVERY_Z_CARD: &[u8] =
    &[0x0C, 0x00, 0x01, 0x00, 0x0D, 0x00, 0x01, 0x00, 0x0E, 0x00, 0x01, 0x00, 0x7A, 0x01, 0x00];

/// "Ten days on paper".
pub fn paper() -> Vec<Example> {
    vec![
        accepted("b only behind an a", ":ab\n>b / .*a _ .*\n")
            .card(FIRST_CARD)
            .verdict("ab", Allowed)
            .verdict("abb", Hopeless(3))
            .verdict("b", Hopeless(1))
            .verdict("", Allowed),
        accepted("no a at all", ":ab\n>a\n")
            .card(NO_A_CARD)
            .verdict("", Allowed)
            .verdict("bb", Allowed)
            .verdict("a", Hopeless(1))
            .verdict("ba", Hopeless(2)),
        accepted("two marks are due", ":ab\n>a|ab / @ _ b\n").card(NO_A_CARD),
        accepted("the empty plan has a call at place 0", ":ab\n>@ / a _ .*\n")
            .card(NOTHING_CARD)
            .verdict("", Hopeless(0))
            .verdict("a", Hopeless(0))
            .verdict("bab", Hopeless(0)),
        accepted("a anywhere", ":ab\n>a / .* _ .*\n").card(EVERYTHING_CARD).verdict("abba", Allowed),
        accepted("a before a later b", ":ab\n>a / .* _ .*b.*\n").verdict("a", Unfinished(1)).verdict("ab", Allowed),
        accepted("both sides of the same context", ":abc\n>b / a _ a / c _ c\n")
            .verdict("aba", Allowed)
            .verdict("ab", Unfinished(1))
            .verdict("abc", Hopeless(3)),
        accepted("118 letters in a row", format!(":a\n=A{}\n>a\n", a(118))),
        refused("119 letters in a row", format!(":a\n=A{}\n>a\n", a(119)), 9, 2),
        refused("22 times 23", format!(":a\n=A({})*&({})*\n>a\n", a(22), a(23)), 9, 2),
        refused("23 times 24", format!(":a\n=A({})*&({})*\n>a\n", a(23), a(24)), 8, 2),
    ]
}

/// How a text is read, line by line and byte by byte.
pub fn reading() -> Vec<Example> {
    vec![
        refused("brackets in line 1", ":(((((\n", 3, 1),
        refused("underscores in line 1", ":_____\n", 4, 1),
        refused("five underscores in a definition", ":ab\n=A_____\n", 4, 2),
        refused("four underscores in a definition", ":ab\n=A____\n", 5, 2),
        refused("five contexts", ":ab\n>a/a_a/a_a/a_a/a_a/a_a\n", 4, 2),
        accepted("four contexts", ":ab\n>a/a_a/a_a/a_a/a_a\n"),
        refused("five contexts without slashes", ":ab\n>a_a_a_a_a_a\n", 4, 2),
        refused("the bracket count below 0", ":ab\n>)(((((\n", 5, 2),
        accepted("four brackets", ":ab\n>((((a))))\n").peak(7),
        refused("five brackets", ":ab\n>(((((a)))))\n", 3, 2),
        accepted("brackets one after another", ":ab\n>(a)(a)(a)(a)(a)(a)\n"),
        refused("brackets behind a stray byte", ":ab\n>~(((((\n", 3, 2),
        refused("brackets behind a stray first byte", ":ab\n~(((((\n", 3, 2),
        refused("brackets and underscores", ":ab\n>_____(((((\n", 3, 2),
        refused("brackets without the line's end", ":ab\n>(((((", 3, 2),
        refused("underscores without the line's end", ":ab\n>_____", 4, 2),
        refused("a stranger without the line's end", ":ab\n>c", 5, 2),
        refused("a good rule without the line's end", ":ab\n>a", 5, 2),
        refused("spaces in place of the line's end", ":ab\n>a  ", 5, 2),
        refused("no line end at all", ":ab", 5, 1),
        refused("a colon alone, without end", ":", 5, 1),
        accepted("no line behind the last end", ":ab\n>a\n").card(NO_A_CARD).peak(7),
        refused("a space behind the last end", ":ab\n>a\n ", 5, 3),
        refused("a blank line", ":ab\n\n>a\n", 5, 2),
        refused("a blank line at the end", ":ab\n>a\n\n", 5, 3),
        refused("a line end alone", "\n", 5, 1),
        accepted("spaces around a letter", ":ab\n>  a  \n").card(NO_A_CARD),
        accepted("spaces around a name", ":ab\n= A a\n> A\n").card(NO_A_CARD),
        accepted("a space before a sign", ":ab\n>a *\n").card(NOTHING_CARD),
        accepted("spaces everywhere", ":ab\n> b  /  . *  a  _  . *  \n").card(FIRST_CARD),
        refused("a space before a line", ":ab\n >a\n", 5, 2),
        refused("a space behind line 1", ":ab \n>a\n", 5, 1),
        refused("a space in line 1", ":a b\n>a\n", 5, 1),
        refused("a space before line 1", " :ab\n>a\n", 5, 1),
        refused("a line of spaces", ":ab\n   \n>a\n", 5, 2),
        refused("carriage returns", ":ab\r\n>a\r\n", 5, 1),
        refused("a carriage return in a rule", ":ab\n>a\r\n", 5, 2),
        refused("a tab", ":ab\n>a\t\n", 5, 2),
        refused("byte 0", ":ab\n>a\0\n", 5, 2),
        refused("byte 127", ":ab\n>a\x7f\n", 5, 2),
        refused("byte 128", b":ab\n>a\x80\n", 5, 2),
        refused("byte 255", b":ab\n>a\xff\n", 5, 2),
        refused("a letter with its eighth bit", b":ab\n>\xe1\n", 5, 2),
        refused("a space with its eighth bit", b":ab\n>a\xa0\n", 5, 2),
        refused("a line end with its eighth bit", b":ab\x8a>a\n", 5, 1),
        refused("a stranger before a taken name", ":ab\n=Aa\n=Ac\n", 6, 3),
        refused("a name in its own line", ":ab\n=AA\n", 6, 2),
        refused("a taken name in its own line", ":ab\n=Aa\n=AA\n", 7, 3),
        refused("a taken name", ":ab\n=Aa\n=Ab\n>A\n", 7, 3),
        refused("a name defined below", ":ab\n>A\n=Aa\n", 6, 2),
        refused("a stranger in a pattern", ":ab\n>c\n", 6, 2),
        refused("a stranger on the left", ":ab\n>a/c_b\n", 6, 2),
        refused("a stranger on the right", ":ab\n>a/b_c\n", 6, 2),
        refused("a stranger in brackets", ":ab\n>a/b_(a|!(b-c*))\n", 6, 2),
        refused("a spoiled line with a stranger", ":ab\n>c|\n", 5, 2),
        refused("a spoiled line with a taken name", ":ab\n=Aa\n=A(\n", 5, 3),
        refused("a stranger behind a long chain", format!(":a\n=A {} b\n", a(119)), 6, 2),
        refused("a taken name before a long chain", format!(":a\n=Aa\n=A {}\n", a(119)), 7, 3),
        refused("stages before the next line", format!(":a\n=A {}\n>(((((\n", a(119)), 9, 2),
        refused("a definition that is never used", format!(":a\n=A {}\n>a\n", a(119)), 9, 2),
        refused("a digit", ":ab\n=A1a\n>a\n", 5, 2),
        refused("a digit as a letter", ":a1\n>a\n", 5, 1),
        refused("a line that begins with a letter", ":ab\na\n", 5, 2),
        refused("empty brackets", ":ab\n>()\n", 5, 2),
        refused("an empty pattern", ":ab\n>\n", 5, 2),
        refused("nothing behind |", ":ab\n>a|\n", 5, 2),
        refused("nothing before |", ":ab\n>|a\n", 5, 2),
        refused("nothing behind &", ":ab\n>a&\n", 5, 2),
        refused("nothing before -", ":ab\n>-a\n", 5, 2),
        refused("an empty left side", ":ab\n>a/_b\n", 5, 2),
        refused("an empty right side", ":ab\n>a/b_\n", 5, 2),
        refused("an empty definition", ":ab\n=A\n", 5, 2),
        refused("a definition without a name", ":ab\n=a\n", 5, 2),
        refused("an equals sign alone", ":ab\n=\n", 5, 2),
        refused("a context without a right side", ":ab\n>a/b\n", 5, 2),
        refused("a context with three sides", ":ab\n>a/b_b_b\n", 5, 2),
        refused("a context in brackets", ":ab\n>a/(b_b)\n", 5, 2),
        refused("a slash in brackets", ":ab\n>(a/b_b)\n", 5, 2),
        refused("a context in a definition", ":ab\n=Aa/b_b\n", 5, 2),
        refused("two contexts without a slash", ":ab\n>a/b_b b_b\n", 5, 2),
        refused("a slash too many", ":ab\n>a//b_b\n", 5, 2),
        refused("a star without an item", ":ab\n>*a\n", 5, 2),
        refused("a complement of a star", ":ab\n>!*a\n", 5, 2),
        refused("a complement of nothing", ":ab\n>a!\n", 5, 2),
        refused("a bracket not closed", ":ab\n>(a\n", 5, 2),
        refused("a bracket not opened", ":ab\n>a)\n", 5, 2),
        refused("brackets the wrong way round", ":ab\n>)a(\n", 5, 2),
        accepted("a complement behind a letter", ":ab\n>a!b\n"),
        refused("a second alphabet", ":ab\n:ab\n>a\n", 5, 2),
        refused("no alphabet", ">a\n", 5, 1),
        refused("an empty alphabet", ":\n>a\n", 5, 1),
        refused("a falling alphabet", ":ba\n>a\n", 5, 1),
        refused("a letter twice", ":aa\n>a\n", 5, 1),
        refused("a name in the alphabet", ":Aa\n>a\n", 5, 1),
        accepted("26 letters", ":abcdefghijklmnopqrstuvwxyz\n>a\n"),
        refused("27 letters", ":abcdefghijklmnopqrstuvwxyza\n>a\n", 5, 1),
        refused("a letter that the alphabet leaves out", ":az\n>m\n", 6, 2),
        refused("a colon alone", ":\n", 5, 1),
        refused("a colon alone, then a line end", ":\n\n", 5, 1),
        refused("a colon and a space", ": \n", 5, 1),
        refused("an empty alphabet with a definition", ":\n=A@\n", 5, 1),
        refused("an empty alphabet with a rule of no letters", ":\n>@/@_@\n", 5, 1),
        refused("two line ends", "\n\n", 5, 1),
        refused("a space alone", " ", 5, 1),
        refused("byte 0 alone", "\0", 5, 1),
        refused("a line end before line 1", "\n:ab\n", 5, 1),
        refused("16,385 bytes", format!(":ab\n>a{}\n", " ".repeat(16_385 - 7)), 1, 0),
        accepted("16,384 bytes", format!(":ab\n>a{}\n", " ".repeat(16_384 - 7))).card(NO_A_CARD),
        refused("16,385 bytes of nothing", "\0".repeat(16_385), 1, 0),
        refused("16,384 bytes of nothing", "\0".repeat(16_384), 5, 1),
        refused("16,384 line ends", "\n".repeat(16_384), 5, 1),
        refused("a spoiled line far down", format!(":ab\n{}>\n", ">a\n".repeat(300)), 5, 302),
    ]
}

/// Texts without rules: everything is allowed, and the peak is that of the
/// definitions.
pub fn ruleless() -> Vec<Example> {
    let alphabet = b"abcdefghijklmnopqrstuvwxyz";
    let contents = [0x0C, 0x00, 0x1A, 0x00, 0x26, 0x00, 0x01, 0x00, 0x27, 0x00, 0x1A, 0x00];
    let every_letter = [&contents[..], alphabet, &[0x01], &[0x00; 26]].concat();
    vec![
        accepted("no bytes", "").card(NO_LETTERS_CARD).peak(0).verdict("", Allowed),
        accepted("no rule", ":ab\n").card(EVERYTHING_CARD).peak(0).verdict("", Allowed).verdict("abba", Allowed),
        accepted("no rule, one letter", ":z\n").card(EVERY_Z_CARD).peak(0).verdict("zzz", Allowed),
        accepted("no rule, 26 letters", [b":", &alphabet[..], b"\n"].concat()).card(&every_letter).peak(0),
        accepted("a definition without a stage", ":ab\n=Aa\n").card(EVERYTHING_CARD).peak(0),
        accepted("a letter in brackets", ":ab\n=A(a)\n").card(EVERYTHING_CARD).peak(0),
        accepted("every given machine", ":ab\n=A.\n=B@\n=Cb\n=DC\n").card(EVERYTHING_CARD).peak(0),
        accepted("a complement defined", ":ab\n=A!@\n").card(EVERYTHING_CARD).peak(3),
        accepted("a star defined", ":ab\n=A.*\n").card(EVERYTHING_CARD).peak(4),
        accepted("a plus defined", ":ab\n=Aa+\n").card(EVERYTHING_CARD).peak(5),
        accepted("a question mark defined", ":ab\n=Aa?\n").card(EVERYTHING_CARD).peak(3),
        accepted("the greatest of three peaks is first", ":ab\n=Aa+\n=B.*\n=C!@\n").card(EVERYTHING_CARD).peak(5),
        accepted("the greatest of three peaks is last", ":ab\n=A!@\n=B.*\n=Ca+\n").card(EVERYTHING_CARD).peak(5),
        accepted("a definition of no plan", ":ab\n=Aa-a\n").card(EVERYTHING_CARD).verdict("a", Allowed),
        accepted("120 states defined", format!(":a\n=A{}\n", a(118))).verdict("a", Allowed),
        refused("121 states defined", format!(":a\n=A{}\n", a(119)), 9, 2),
        refused("a crowd defined", format!(":a\n=Aa\n=B{}\n", crowd()), 8, 3),
        refused("no rule and no line end", ":ab\n=Aa", 5, 2),
        refused("no rule and a blank line", ":ab\n=Aa\n\n", 5, 3),
        refused("no rule and a stranger", ":ab\n=Ac\n", 6, 2),
        refused("no rule and a taken name", ":ab\n=Aa\n=Aa\n", 7, 3),
    ]
}

/// The order of the stages, their counts and what they allow.
pub fn staging() -> Vec<Example> {
    vec![
        refused("X before the contexts", format!(":a\n>{}/{}_a\n", a(117), crowd()), 9, 2),
        refused("both sides before the joins", format!(":a\n>{}/{}_{}\n", a(60), a(60), crowd()), 8, 2),
        refused("a context before the next one", format!(":a\n>{}/{}_a/{}_a\n", a(60), a(60), crowd()), 9, 2),
        accepted("joined from the left", ":ab\n>a\n").peak(7),
        accepted("contexts taken off one by one", ":abc\n>b / a _ a / c _ c\n").peak(16),
        accepted("the empty set counts", ":ab\n>a...b\n").peak(41),
        refused("120 states by letters and one by the mark", format!(":a\n=A({})*|({})*\n>a\n", a(8), a(15)), 9, 2),
        accepted("119 states by letters and one by the mark", format!(":a\n=A({})*|({})*\n>a\n", a(7), a(17))),
        refused("the left operand first: oversize", format!(":a\n=A {}|{}\n", a(119), crowd()), 9, 2),
        refused("the left operand first: crowded", format!(":a\n=A {}|{}\n", crowd(), a(119)), 8, 2),
        accepted("an unused definition has the peak", format!(":a\n=A({})*|({})*\n>a\n", a(5), a(7))).peak(36),
        accepted("a complement of 119 states has 120", format!(":a\n=A{}\n=B!A\n>a\n", a(117))),
        refused("a complement of 120 states has 121", format!(":a\n=A{}\n=B!A\n>a\n", a(118)), 9, 3),
        refused("two complements are two stages", format!(":a\n=A{}\n=B!!A\n>a\n", a(118)), 9, 3),
        refused("crowded in a group", format!(":a\n>a({})\n", crowd()), 8, 2),
        refused("crowded on the left", format!(":a\n>a/{}_a\n", crowd()), 8, 2),
        refused("crowded on the right", format!(":a\n>a/a_{}\n", crowd()), 8, 2),
        refused("crowded in the second context", format!(":a\n>a/a_a/{}_a\n", crowd()), 8, 2),
        refused("crowded in the third line", format!(":a\n>a\n=A{}\n", crowd()), 8, 3),
        accepted("a pattern without a plan", ":ab\n>a&b\n").card(EVERYTHING_CARD),
        accepted("a context at the very ends", ":ab\n>a / @ _ b\n")
            .verdict("ab", Allowed)
            .verdict("a", Unfinished(1))
            .verdict("ba", Hopeless(2))
            .verdict("aba", Hopeless(3)),
        accepted("every rule counts", ":ab\n>a\n>b\n")
            .verdict("", Allowed)
            .verdict("a", Hopeless(1))
            .verdict("b", Hopeless(1)),
        accepted("overlapping calls all count", ":ab\n>aba / .* _ @\n")
            .verdict("aba", Allowed)
            .verdict("ababa", Hopeless(4)),
        accepted("no extension of contexts", ":ab\n>b / a _ @\n").verdict("ab", Allowed).verdict("aab", Hopeless(3)),
        accepted("each of four contexts", ":abcde\n>e / a _ a / b _ b / c _ c / d _ d\n")
            .verdict("aea", Allowed)
            .verdict("beb", Allowed)
            .verdict("cec", Allowed)
            .verdict("ded", Allowed)
            .verdict("aeb", Hopeless(3))
            .verdict("dea", Hopeless(3))
            .verdict("de", Unfinished(1))
            .verdict("e", Hopeless(1)),
        accepted("a name inside a name", ":ab\n=Aa\n=BA\n=CB\n>C\n").card(NO_A_CARD),
        accepted("a rule above a definition", ":ab\n>b / .*a _ .*\n=Ab\n>A / .*a _ .*\n").card(FIRST_CARD),
    ]
}

/// Plans to which several letters are owed.
pub fn owing() -> Vec<Example> {
    vec![
        accepted("three b's some time behind an a", ":ab\n>a / .* _ .*bbb.*\n")
            .verdict("", Allowed)
            .verdict("a", Unfinished(3))
            .verdict("aa", Unfinished(3))
            .verdict("ab", Unfinished(2))
            .verdict("abb", Unfinished(1))
            .verdict("abba", Unfinished(3))
            .verdict("abbb", Allowed)
            .verdict("abbba", Unfinished(3)),
        accepted("one day alone, or none", ":ab\n>.+-aaaaa / .+ _ .* / .* _ .+\n")
            .verdict("", Allowed)
            .verdict("a", Unfinished(4))
            .verdict("aa", Unfinished(3))
            .verdict("aaaa", Unfinished(1))
            .verdict("aaaaa", Allowed)
            .verdict("aaaaaa", Hopeless(6))
            .verdict("aab", Hopeless(3)),
        accepted("the shorter of two ways counts", ":ab\n>.+-(aaaa|abb) / .+ _ .* / .* _ .+\n")
            .verdict("", Allowed)
            .verdict("a", Unfinished(2))
            .verdict("aa", Unfinished(2))
            .verdict("ab", Unfinished(1))
            .verdict("abb", Allowed)
            .verdict("aaaa", Allowed),
        accepted("all days but one", ":ab\n>ab / .+ _ .* / .* _ .+\n")
            .verdict("", Allowed)
            .verdict("ab", Unfinished(1))
            .verdict("aba", Allowed),
        accepted("whole weeks", format!(":a\n>.+-({})* / .+ _ .* / .* _ .+\n", a(7)))
            .verdict("", Allowed)
            .verdict("a", Unfinished(6))
            .verdict("aaaaaa", Unfinished(1))
            .verdict("aaaaaaa", Allowed)
            .verdict("aaaaaaaa", Unfinished(6)),
        accepted("two rules that want letters", ":abc\n>a / .* _ .*b.*\n>b / .* _ .*cc\n")
            .verdict("c", Allowed)
            .verdict("a", Unfinished(3))
            .verdict("ab", Unfinished(2))
            .verdict("abc", Unfinished(1))
            .verdict("abcca", Unfinished(3))
            .verdict("abcc", Allowed),
    ]
}

/// All books above and those of the two sister kinds; those below take their
/// time.
pub fn quick() -> Vec<Example> {
    [paper(), reading(), ruleless(), staging(), owing(), sister_examples::all()].concat()
}

/// Books of thousands of stages.
pub fn many_stages() -> Vec<Example> {
    vec![
        accepted("many plus signs", format!(":a\n>a{}\n", "+".repeat(16_378))).peak(8),
        accepted("many complements", format!(":ab\n>{}a\n", "!".repeat(16_377))).peak(8),
    ]
}

/// Expressions that mean the same, and expressions that don't.
pub fn binding() -> Vec<(&'static str, &'static str, bool)> {
    vec![
        ("!ab", "(!a)b", true),
        ("!ab", "!(ab)", false),
        ("!a*", "!(a*)", true),
        ("!a*", "(!a)*", false),
        ("a!b", "a(!b)", true),
        ("!!a", "a", true),
        ("!a?", "!(a|@)", true),
        ("ab*", "a(b*)", true),
        ("ab*", "(ab)*", false),
        ("a|bc", "a|(bc)", true),
        ("a|b&b", "a|(b&b)", true),
        ("a|b&b", "(a|b)&b", false),
        ("a&b|a", "(a&b)|a", true),
        (".-a-b", "(.-a)-b", true),
        (".-a-b", ".-(a-b)", false),
        (".-a&b", "(.-a)&b", true),
        (".-a&b", ".-(a&b)", false),
        (".&a-a", "(.&a)-a", true),
        ("a-ab|a", "(a-(ab))|a", true),
        ("a**", "a*", true),
        ("a+?", "a*", true),
        ("a?+", "a*", true),
        ("a+", "aa*", true),
        ("@+", "@", true),
        ("a?", "@|a", true),
        (".", "a|b|c", true),
        (".*", "!(a&b)", true),
        ("a-a", "b-b", true),
    ]
}

/// A book, one of its stages by its place in the order, its operation, and
/// the sets it makes.
pub fn counts() -> Vec<(String, usize, &'static str, usize)> {
    vec![
        // Joining `.*` and M over a, b.
        (":ab\n>a\n".into(), 0, "join", 5),
        (format!(":a\n=A({})*&({})*\n", a(22), a(23)), 45, "&", 507),
        (":ab\n=A!@\n".into(), 0, "-", 3),
        (":ab\n=A.*\n".into(), 0, "*", 4),
        (":ab\n=Aa+\n".into(), 1, "join", 5),
        (":ab\n=Aa?\n".into(), 0, "|", 3),
        // q over a, b; then `|` of two contexts.
        (":ab\n^a/a_b/b_a\n".into(), 0, "-", 4),
        (":ab\n^a/a_b/b_a\n".into(), 9, "|", 14),
        (":ab\n<a/a_b/b_a\n".into(), 8, "|", 12),
        (":ab\n<@/@-@_@\n".into(), 5, "erase", 2),
    ]
}
