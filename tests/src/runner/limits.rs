//! Books that stand just inside a limit or just outside it.

use crate::examples::a;
use reference::card;

/// What the stage that comes nearest to a limit makes.
#[derive(Clone, Copy, PartialEq, Eq, Debug)]
pub enum Nearest {
    Sets(&'static str, usize),
    States(&'static str, usize),
}

#[derive(Clone, Debug)]
pub struct Limit {
    pub text: Vec<u8>,
    pub nearest: Nearest,
}

/// Words in which the number of letters x is a multiple of the count.
fn multiple(count: usize, x: char, y: char) -> String {
    let spread = vec![x.to_string(); count].join(&format!("{y}*"));
    format!("({y}|{spread})*")
}

/// Up to 512 sets and over it in each kind of stage (over it is crowded), 120
/// and 121 states (the second is oversize).
pub fn stages() -> Vec<Limit> {
    use Nearest::{Sets, States};
    let defined = |left: String, right: String| format!(":ab\n=A{left}\n=B{right}\n=CA&B\n");
    let pair = |left: String, right: String| defined(left, right) + ">a\n";
    let counted = |p: usize, x, y| multiple(p, x, y);
    let whole_days = |p, q| format!(":a\n{}{}", whole_day(p), whole_day(q));
    let listed = vec![
        (pair(counted(17, 'a', 'b') + "aa", counted(26, 'b', 'a') + "b"), Sets("&", 511)),
        (pair(counted(18, 'a', 'b') + "a", counted(26, 'b', 'a') + "b"), Sets("&", 512)),
        (pair("b".to_string() + &counted(17, 'a', 'b') + "a", counted(26, 'b', 'a') + "b"), Sets("&", 513)),
        (defined(counted(17, 'a', 'b') + "aa", counted(26, 'b', 'a') + "b"), Sets("&", 511)),
        (defined(counted(18, 'a', 'b') + "a", counted(26, 'b', 'a') + "b"), Sets("&", 512)),
        (defined("b".to_string() + &counted(17, 'a', 'b') + "a", counted(26, 'b', 'a') + "b"), Sets("&", 513)),
        (format!(":a\n=A({})*&({})*\n>a\n", a(17), a(30)), Sets("&", 511)),
        (format!(":a\n=A({})*&({})*\n>a\n", a(7), a(73)), Sets("&", 512)),
        (format!(":a\n=A({})*&({})*\n>a\n", a(19), a(27)), Sets("&", 514)),
        (format!(":a\n=A({})*|({})*\n>a\n", a(7), a(73)), Sets("|", 512)),
        (format!(":a\n=A({})*-({})*\n>a\n", a(7), a(73)), Sets("-", 512)),
        (whole_days(17, 30), Sets("&", 511)),
        (whole_days(7, 73), Sets("&", 512)),
        (whole_days(19, 27), Sets("&", 514)),
        (format!(":a\n>aa/({})*_.*/({})*_.*\n", a(7), a(71)), Sets("-", 510)),
        (format!(":a\n>a/({})*_.*/({})*_.*\n", a(8), a(63)), Sets("-", 514)),
        (":ab\n=A(.(b|(b....)*)(.&a)(bbb)*)*\n>a\n".into(), Sets("*", 511)),
        (":ab\n>((a!(aaaa)(aaabb)*)*bbbbb....)*\n".into(), Sets("*", 512)),
        (":ab\n=A(((a&b)|b)bbbb!(..)b....aaa)*\n>a\n".into(), Sets("*", 513)),
        (":ab\n>a.....((ba)*&((a|b))*)/.*bbb_.aaaaa.*\n".into(), Sets("erase", 511)),
        (":ab\n>(...|b).....ab\n".into(), Sets("erase", 512)),
        (":ab\n>(b....((b|b))*.b)*\n".into(), Sets("erase", 513)),
        (":ab\n=A(!(a)b)*.\n=B!(..)aaaaaa.....\n=CAB\n>a\n".into(), Sets("join", 511)),
        (":ab\n=A((aaabbbbbb)*bbbba)*\n=B(..|b)......\n=CA.*B\n>a\n".into(), Sets("join", 512)),
        (":ab\n=A(!(baaa)|(.|a))\n=B(.|(((b|....))*|aaaa)).\n=CAB\n>a\n".into(), Sets("join", 513)),
        (format!(":a\n=A{}\n>a\n", a(118)), States("join", 120)),
        (format!(":a\n=A{}\n>a\n", a(119)), States("join", 121)),
        (format!(":a\n=A{}\n", a(118)), States("join", 120)),
        (format!(":a\n=A{}\n", a(119)), States("join", 121)),
        (format!(":a\n=A({})*|({})*\n>a\n", a(7), a(17)), States("|", 120)),
        (format!(":a\n=A({})*|({})*\n>a\n", a(8), a(15)), States("|", 121)),
        (":ab\n>ab((.|b)|bbbb)aaaa(aaa|bbbbbb)\n>ba.(b|aaa)ab(aaaaaa|bb)/.*aaaabbb_....b.*\n".into(), States("&", 120)),
        (":ab\n>aaaaaab(!(!(.....)))*/.*(.|.)_!(a).*\n>a.....baa.\n".into(), States("&", 121)),
        (":ab\n=A((.....bb|a))*\n>a\n".into(), States("*", 120)),
        (":ab\n=A(.....(b|..)aaa)*\n>a\n".into(), States("*", 121)),
        (":ab\n>(aaaaaaaaaaa|!(bbb)aa.....)/.*aaaaaaa_bbbb.*\n".into(), States("-", 120)),
        (":ab\n>!(.....)(bbbb|a)baaa/.*bbbbb._aaaaaaa.*\n".into(), States("-", 121)),
        (format!(":a\n<@/({})*_@/({})*_@\n", a(8), a(63)), Sets("|", 511)),
        (format!(":a\n<@/({})*_a/({})*_@\n", a(8), a(63)), Sets("|", 512)),
        (format!(":a\n<@/({})*_@/({})*_@\n", a(22), a(23)), Sets("|", 513)),
        (format!(":a\n^a/({})*_@/({})*_@\n", a(6), a(83)), Sets("|", 511)),
        (format!(":a\n^@/({})*_@/({})*_@\n", a(9), a(56)), Sets("|", 514)),
        (format!(":a\n^{}/@-@_@\n", a(117)), States("-", 120)),
        (format!(":a\n^{}/@-@_@\n", a(118)), States("-", 121)),
        (":ab\n=Aaaa....aa\n=Ba..bba\n>AB\n".into(), States("erase", 120)),
        (":ab\n>a.....ab(bbbbb|a)\n".into(), States("erase", 121)),
    ];
    listed.into_iter().map(|(text, nearest): (String, _)| Limit { text: text.into_bytes(), nearest }).collect()
}

/// A rule that the whole day is a multiple of so many letters a.
fn whole_day(count: usize) -> String {
    format!(">@/@_({})*/.+_.*\n", a(count))
}

/// The book with the longest card there is.
pub fn longest_card_book() -> Vec<u8> {
    let text = format!(":abcdefghijklmnopqrstuvwxyz\n{}{}", whole_day(7), whole_day(17));
    text.into_bytes()
}

/// A book with many stages of 512 sets each.
pub fn many_crowds() -> Vec<u8> {
    let text = format!(":ab\n=A(a!(aaaa)(aaabb)*)*bbbbb....\n>{}\n", vec!["A*"; 40].join("|"));
    text.into_bytes()
}

pub const LONGEST_CARD: usize = card::LONGEST;

/// Well-formed texts of an exact length.
pub fn long_texts(length: usize) -> Vec<Vec<u8>> {
    let filled = |head: &str, fill: &str, tail: &str| {
        let mut text = head.as_bytes().to_vec();
        while text.len() + tail.len() + fill.len() <= length {
            text.extend(fill.bytes());
        }
        while text.len() + tail.len() < length {
            text.push(b' ');
        }
        text.extend(tail.bytes());
        text
    };
    vec![
        filled(":ab\n>a", " ", "\n"),
        filled(":ab\n>a", "|a", "\n"),
        filled(":ab\n>", "!", "a\n"),
        filled(":ab\n>a", "*", "\n"),
        filled(":ab\n>a", "?", "\n"),
        filled(":ab\n>b/.*a_.*", "&.*", "\n"),
        filled(":ab\n>a", "\n>b/.*a_.*", "\n"),
        filled(":ab\n>a", "\n>a", "\n"),
        filled(":ab\n<a/b_b", "|b", "\n"),
        filled(":ab\n>a", "\n<b/.*a_.*\n^.*b.*/@_@", "\n"),
        filled(":ab\n=Aa\n>A", "|(A)", "\n"),
        filled(":ab\n=Aa", " ", "\n"),
        filled(":ab\n=A", "!", "a\n"),
    ]
}
