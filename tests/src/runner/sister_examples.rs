//! Books with forbidding and obliging rules, worked out by hand from W4.

use crate::examples::{
    a, accepted, crowd, refused, Example, EVERYTHING_CARD, NOTHING_CARD, NO_A_CARD, ONLY_EMPTY_CARD,
};
use reference::board::Verdict::{Allowed, Hopeless, Unfinished};

/// The card of `:ab`, `<b / .*a _ .*`.
pub const NO_B_BEHIND_A_CARD: &[u8] = &[
    0x0C, 0x00, 0x02, 0x00, 0x0E, 0x00, 0x03, 0x00, 0x11, 0x00, 0x06, 0x00, 0x61, 0x62, 0x01, 0x01, 0x02, 0x01, 0x00,
    0x01, 0x02, 0x02, 0x02,
];

/// The card of `:ab`, `^b / a _ .*`.
pub const NO_A_FIRST_CARD: &[u8] = &[
    0x0C, 0x00, 0x02, 0x00, 0x0E, 0x00, 0x03, 0x00, 0x11, 0x00, 0x06, 0x00, 0x61, 0x62, 0x01, 0x02, 0x01, 0x01, 0x02,
    0x01, 0x01, 0x02, 0x02,
];

/// The card of `:ab`, `<a/b_b`.
const NOT_BAB_CARD: &[u8] = &[
    0x0C, 0x00, 0x02, 0x00, 0x0E, 0x00, 0x05, 0x00, 0x13, 0x00, 0x0A, 0x00, 0x61, 0x62, 0x01, 0x01, 0x01, 0x01, 0x00,
    0x01, 0x02, 0x01, 0x01, 0x03, 0x01, 0x01, 0x04, 0x01, 0x01,
];

/// All of them.
pub fn all() -> Vec<Example> {
    [reading(), meaning(), staging()].concat()
}

/// How lines that begin with `<` and `^` are read, and the signs elsewhere.
fn reading() -> Vec<Example> {
    vec![
        refused("< without a context", ":ab\n<a\n", 5, 2),
        refused("^ without a context", ":ab\n^a\n", 5, 2),
        refused("< without a context, a stranger in it", ":ab\n<c\n", 5, 2),
        refused("^ without a context, an unknown name in it", ":ab\n^A\n", 5, 2),
        refused("a stranger in a pattern of <", ":ab\n<c/a_b\n", 6, 2),
        refused("a stranger in a pattern of ^", ":ab\n^c/a_b\n", 6, 2),
        refused("a stranger on the left of <", ":ab\n<a/c_b\n", 6, 2),
        refused("a stranger on the right of ^", ":ab\n^a/a_b/b_c\n", 6, 2),
        refused("a name defined below <", ":ab\n<A/a_b\n=Aa\n", 6, 2),
        accepted("a name in <", ":ab\n=Aa\n<A/.*_.*\n").card(NO_A_CARD),
        accepted("a name in ^", ":ab\n=Ab\n=B.*a\n^A/B_.*\n").card(NO_A_CARD),
        refused("a sign alone: <", ":ab\n<\n", 5, 2),
        refused("a sign alone: ^", ":ab\n^\n", 5, 2),
        refused("an empty pattern of <", ":ab\n</a_b\n", 5, 2),
        refused("an empty left side of ^", ":ab\n^a/_b\n", 5, 2),
        refused("an empty right side of <", ":ab\n<a/b_\n", 5, 2),
        refused("a context of ^ without a right side", ":ab\n^a/b\n", 5, 2),
        refused("a second context of < cut short", ":ab\n<a/a_b/a\n", 5, 2),
        refused("a context of < with three sides", ":ab\n<a/b_b_b\n", 5, 2),
        refused("a context of ^ without a slash", ":ab\n^a_b\n", 5, 2),
        refused("a context of < in brackets", ":ab\n<(a/b_b)\n", 5, 2),
        refused("< without its end", ":ab\n<a/b_b", 5, 2),
        refused("^ without its end, a stranger in it", ":ab\n^c/b_b", 5, 2),
        refused("< without a context in the third line", ":ab\n>a\n<a\n", 5, 3),
        refused("five contexts of <", ":ab\n<a/a_a/a_a/a_a/a_a/a_a\n", 4, 2),
        accepted("four contexts of <", ":ab\n<a/a_a/a_a/a_a/a_a\n"),
        accepted("four contexts of ^", ":ab\n^a/a_a/a_a/a_a/a_a\n"),
        refused("five underscores and no context", ":ab\n^_____\n", 4, 2),
        refused("five brackets in <", ":ab\n<(((((a)))))\n", 3, 2),
        refused("five brackets and no context in ^", ":ab\n^(((((\n", 3, 2),
        accepted("spaces in <", ":ab\n<  b /. *  a _  . *  \n").card(NO_B_BEHIND_A_CARD),
        accepted("spaces in ^", ":ab\n^  b /. *  a _  . *  \n").card(NO_A_CARD),
        refused("a space before <", ":ab\n <a/b_b\n", 5, 2),
        refused("a space before ^", ":ab\n ^a/b_b\n", 5, 2),
        refused("< in a pattern", ":ab\n>a<b\n", 5, 2),
        refused("^ in a pattern", ":ab\n>a^b/a_b\n", 5, 2),
        refused("two signs: ><", ":ab\n><a/b_b\n", 5, 2),
        refused("two signs: <<", ":ab\n<<a/b_b\n", 5, 2),
        refused("two signs: <>", ":ab\n<>a/b_b\n", 5, 2),
        refused("two signs: <^", ":ab\n<^a/b_b\n", 5, 2),
        refused("two signs: ^<", ":ab\n^<a/b_b\n", 5, 2),
        refused("two signs with a space", ":ab\n^ ^a/b_b\n", 5, 2),
        refused("< on a side", ":ab\n<a/<_b\n", 5, 2),
        refused("^ behind a side", ":ab\n<a/b_b^\n", 5, 2),
        refused("< in place of a slash", ":ab\n^a<b_b\n", 5, 2),
        refused("< in brackets", ":ab\n>(<a)\n", 5, 2),
        refused("< in a definition", ":ab\n=A<a\n", 5, 2),
        refused("^ in a definition", ":ab\n=Aa^\n", 5, 2),
        refused("< as a name", ":ab\n=<a\n", 5, 2),
        refused("< in line 1", ":a<\n", 5, 1),
        refused("^ in line 1", ":^a\n", 5, 1),
        refused("< for line 1", "<a/b_b\n", 5, 1),
        refused("^ for line 1", "^ab\n", 5, 1),
    ]
}

/// What the two kinds allow, alone and beside the other rules.
fn meaning() -> Vec<Example> {
    vec![
        accepted("no b behind an a", ":ab\n<b / .*a _ .*\n")
            .card(NO_B_BEHIND_A_CARD)
            .peak(8)
            .verdict("", Allowed)
            .verdict("bba", Allowed)
            .verdict("ab", Hopeless(2))
            .verdict("baab", Hopeless(4)),
        accepted("behind an a even the empty middle has to be a b", ":ab\n^b / .*a _ .*\n").card(NO_A_CARD).peak(9),
        accepted("the same behind a first a", ":ab\n^b / a _ .*\n")
            .card(NO_A_FIRST_CARD)
            .peak(9)
            .verdict("", Allowed)
            .verdict("ba", Allowed)
            .verdict("a", Hopeless(1)),
        accepted("one day is forbidden", ":ab\n<a/b_b\n")
            .card(NOT_BAB_CARD)
            .peak(8)
            .verdict("bab", Unfinished(1))
            .verdict("babb", Allowed),
        accepted("two days are forbidden", ":ab\n<a/a_b/b_a\n")
            .peak(12)
            .verdict("aab", Unfinished(1))
            .verdict("baa", Unfinished(1))
            .verdict("aaa", Allowed)
            .verdict("bab", Allowed),
        accepted("a day from a to b, or b to a, has one a between", ":ab\n^a/a_b/b_a\n")
            .peak(14)
            .verdict("aab", Allowed)
            .verdict("baa", Allowed)
            .verdict("ab", Unfinished(1))
            .verdict("bba", Unfinished(1))
            .verdict("aabb", Unfinished(1))
            .verdict("aba", Allowed),
        accepted("an empty middle is forbidden", ":ab\n<@ / a _ b\n")
            .peak(7)
            .verdict("ab", Unfinished(1))
            .verdict("a", Allowed)
            .verdict("aab", Allowed),
        accepted("the whole day is one of two", ":ab\n^ab|ba / @ _ @\n")
            .verdict("", Unfinished(2))
            .verdict("b", Unfinished(1))
            .verdict("ab", Allowed)
            .verdict("aa", Hopeless(2))
            .verdict("aba", Hopeless(3)),
        accepted("what follows a d has a u", ":dux\n^.*u.* / .*d _ @\n")
            .verdict("", Allowed)
            .verdict("xu", Allowed)
            .verdict("d", Unfinished(1))
            .verdict("dux", Allowed)
            .verdict("dud", Unfinished(1)),
        accepted("each of four contexts of <", ":abcde\n<e / a _ a / b _ b / c _ c / d _ d\n")
            .verdict("aea", Unfinished(1))
            .verdict("beb", Unfinished(1))
            .verdict("cec", Unfinished(1))
            .verdict("ded", Unfinished(1))
            .verdict("aeb", Allowed)
            .verdict("aeae", Allowed),
        accepted("each of four contexts of ^", ":abcde\n^e / a _ a / b _ b / c _ c / d _ d\n")
            .verdict("aea", Allowed)
            .verdict("aa", Unfinished(1))
            .verdict("bcb", Unfinished(1))
            .verdict("cc", Unfinished(1))
            .verdict("dbd", Unfinished(1))
            .verdict("ded", Allowed)
            .verdict("abd", Allowed),
        accepted("no middle is forbidden", ":ab\n<a&b / .* _ .*\n").card(EVERYTHING_CARD),
        accepted("no middle will do", ":ab\n^a&b / .* _ .*\n").card(NOTHING_CARD).verdict("", Hopeless(0)),
        accepted("every middle is forbidden", ":ab\n<.* / .* _ .*\n").card(NOTHING_CARD),
        accepted("every middle will do", ":ab\n^.* / .* _ .*\n").card(EVERYTHING_CARD),
        accepted("the whole day is empty", ":ab\n^@ / @ _ @\n").card(ONLY_EMPTY_CARD).verdict("", Allowed),
        accepted("every middle is empty", ":ab\n^@ / .* _ .*\n").card(ONLY_EMPTY_CARD).verdict("a", Hopeless(1)),
        accepted("the three kinds in one book", ":abc\n>b / .*a _ .*\n<c / .*b.* _ .*\n^.*c.* / .*a _ @\n")
            .verdict("", Allowed)
            .verdict("c", Allowed)
            .verdict("a", Unfinished(1))
            .verdict("ac", Allowed)
            .verdict("b", Hopeless(1))
            .verdict("ab", Hopeless(2))
            .verdict("acb", Hopeless(3)),
    ]
}

/// The order of the stages and their counts.
fn staging() -> Vec<Example> {
    let crowd = crowd();
    vec![
        refused("p before the contexts of <", format!(":a\n<{}/{crowd}_a\n", a(119)), 9, 2),
        refused("p fits, then the contexts of <", format!(":a\n<{}/{crowd}_a\n", a(118)), 8, 2),
        refused("q before the contexts", format!(":a\n^{}/{crowd}_a\n", a(118)), 9, 2),
        refused("q fits, then the contexts", format!(":a\n^{}/{crowd}_a\n", a(117)), 8, 2),
        refused("both sides of < before the joins", format!(":a\n<{}/{}_{crowd}\n", a(60), a(60)), 8, 2),
        refused("both sides of ^ before the joins", format!(":a\n^{}/{}_{crowd}\n", a(60), a(60)), 8, 2),
        refused("a context of < before the next one", format!(":a\n<{}/{}_a/{crowd}_a\n", a(60), a(60)), 9, 2),
        refused("a context of ^ before the next one", format!(":a\n^{}/{}_a/{crowd}_a\n", a(60), a(60)), 9, 2),
        refused("| of < before the third context", format!(":a\n<@/@_{}/{}_@/{crowd}_a\n", a(80), a(80)), 9, 2),
        refused("| of ^ before the third context", format!(":a\n^.+/@_{}/{}_@/{crowd}_a\n", a(80), a(80)), 9, 2),
        refused("a crowded pattern of ^", format!(":a\n^{crowd}/a_a\n"), 8, 2),
        refused("an oversize q in the third line", format!(":a\n<a/a_a\n^{}/a_a\n", a(118)), 9, 3),
        accepted("q counts", ":ab\n^a / @-@ _ @\n").card(EVERYTHING_CARD).peak(4),
        accepted("q is made from the given .*", ":ab\n^@ / @-@ _ @\n").card(EVERYTHING_CARD).peak(3),
        accepted("the fewest sets that a rule makes", ":ab\n<@ / @-@ _ @\n").card(EVERYTHING_CARD).peak(2),
        accepted("contexts united from the left", ":ab\n<@ / a _ b / b _ a / .* _ .*\n").card(NOTHING_CARD).peak(12),
        accepted("contexts united from the left, the other way round", ":ab\n<@ / .* _ .* / b _ a / a _ b\n")
            .card(NOTHING_CARD)
            .peak(9),
        accepted("no < makes X", ":ab\n<a / .* _ .*\n").card(NO_A_CARD).peak(7),
    ]
}

/// Two books, and whether they have the same card.
pub fn alike() -> Vec<(&'static str, &'static str, bool)> {
    vec![
        (":ab\n<b / .*a _ .*\n", ":ab\n>b / b* _ .*\n", true),
        (":ab\n^ab / @ _ @\n", ":ab\n>!(ab) / .+ _ .* / .* _ .+\n", true),
        (":ab\n<a / .* _ .*\n", ":ab\n>a\n", true),
        (":ab\n^b / .*a _ .*\n", ":ab\n>a\n", true),
        (":dux\n^.*u.* / .*d _ @\n", ":dux\n>d / .* _ .*u.*\n", true),
        (":ab\n^a / a _ b\n", ":ab\n<!a / a _ b\n", true),
        (":ab\n<a / a _ b\n", ":ab\n^!a / a _ b\n", true),
        (":ab\n<b / .*a _ .*\n", ":ab\n^!(.*ab.*) / @ _ @\n", true),
        (":ab\n^a / a _ b / b _ a\n", ":ab\n^!(a(!a)b|b(!a)a) / @ _ @\n", true),
        (":ab\n<a / b _ b\n", ":ab\n>a / b _ b\n", false),
        (":ab\n<a / b _ b\n", ":ab\n^a / b _ b\n", false),
        (":ab\n^a / b _ b\n", ":ab\n>a / b _ b\n", false),
        (":ab\n<a / a _ b / b _ a\n", ":ab\n<a / b _ a / a _ b\n", true),
        (":ab\n<a / a _ b / b _ a\n", ":ab\n<a / a _ b\n<a / b _ a\n", true),
        (":ab\n^a / a _ b / b _ a\n", ":ab\n^a / a _ b\n^a / b _ a\n", true),
        (":abc\n>b / a _ a / c _ c\n", ":abc\n>b / a _ a\n>b / c _ c\n", false),
        (":ab\n<a / a _ b / b _ a\n", ":ab\n<a / a|b _ a|b\n", false),
        (":ab\n^a / a _ b / b _ a\n", ":ab\n^a / a|b _ a|b\n", false),
        (":ab\n<a|b / a _ b\n", ":ab\n<a / a _ b\n<b / a _ b\n", true),
        (":ab\n^a|b / a _ b\n", ":ab\n^a / a _ b\n^b / a _ b\n", false),
        (":ab\n>b / .*a _ .*\n<b / .*a _ .*\n", ":ab\n>b\n", true),
        (
            ":abc\n>b / .*a _ .*\n<c / .*b.* _ .*\n^.*c.* / .*a _ @\n",
            ":abc\n^.*c.* / .*a _ @\n<c / .*b.* _ .*\n>b / .*a _ .*\n",
            true,
        ),
        (":abc\n>b / .*a _ .*\n<c / .*b.* _ .*\n^.*c.* / .*a _ @\n", ":abc\n>b\n>a / .* _ .*c.*\n", true),
    ]
}

/// Books, and the operations of their stages in order.
pub fn operations() -> Vec<(&'static str, &'static str)> {
    vec![
        (":ab\n>a/b_b\n", "join join join join join join join join - erase - &"),
        (":ab\n<a/b_b\n", "join join join join erase - &"),
        (":ab\n^a/b_b\n", "- join join join join erase - &"),
        (":ab\n<a/b_b/a_a\n", "join join join join join join join join | erase - &"),
        (":ab\n^ab/b_b/a_a\n", "join - join join join join join join join join | erase - &"),
        (":ab\n<a/b?_b/a_a/a_a*\n", "| join join join join join join join join | * join join join join | erase - &"),
    ]
}
