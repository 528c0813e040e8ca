//! Cards and lengths with how many plans are allowed, unfinished and hopeless.

use crate::board_examples::{self, chain, even, near_and_far};
use crate::entry::{Counted, Loaded};
use crate::examples::{
    EVERYTHING_CARD, FIRST_CARD, NOTHING_CARD, NO_A_CARD, NO_LETTERS_CARD, NO_LETTERS_NOTHING_CARD, ONLY_EMPTY_CARD,
};
use crate::factor_examples::{four_at_most, one_a, only_ab};
use reference::card::{lay_out, MOST_LETTERS};
use reference::census::Figures;
use reference::compile::{compile, Lent};

/// A card, a length, and what is due.
pub type Example = (String, Vec<u8>, usize, Counted);

/// For 0 to 26 letters the greatest length that isn't past counting, and all
/// plans of that length.
pub const LAST: [(usize, u64); MOST_LETTERS + 1] = [
    (4096, 0),
    (4096, 1),
    (63, 9_223_372_036_854_775_808),
    (40, 12_157_665_459_056_928_801),
    (31, 4_611_686_018_427_387_904),
    (27, 7_450_580_596_923_828_125),
    (24, 4_738_381_338_321_616_896),
    (22, 3_909_821_048_582_988_049),
    (21, 9_223_372_036_854_775_808),
    (20, 12_157_665_459_056_928_801),
    (19, 10_000_000_000_000_000_000),
    (18, 5_559_917_313_492_231_481),
    (17, 2_218_611_106_740_436_992),
    (17, 8_650_415_919_381_337_933),
    (16, 2_177_953_337_809_371_136),
    (16, 6_568_408_355_712_890_625),
    (15, 1_152_921_504_606_846_976),
    (15, 2_862_423_051_509_815_793),
    (15, 6_746_640_616_477_458_432),
    (15, 15_181_127_029_874_798_299),
    (14, 1_638_400_000_000_000_000),
    (14, 3_243_919_932_521_508_681),
    (14, 6_221_821_273_427_820_544),
    (14, 11_592_836_324_538_749_809),
    (13, 876_488_338_465_357_824),
    (13, 1_490_116_119_384_765_625),
    (13, 2_481_152_873_203_736_576),
];

const ALL_OF_63: u64 = LAST[2].1;
const ALL_OF_40: u64 = LAST[3].1;

/// So many letters, from a on.
pub fn letters(count: usize) -> Vec<u8> {
    (b'a'..).take(count).collect()
}

/// Every plan over so many letters is allowed, or none is.
pub fn one_state(count: usize, marks: u8) -> Vec<u8> {
    lay_out(&letters(count), &[marks], &vec![0; count])
}

pub fn all() -> Vec<Example> {
    [on_cards(), of_books(), up_to_the_last(), without_letters(), on_refused_cards()].concat()
}

fn of(allowed: u64, unfinished: u64, hopeless: u64) -> Counted {
    Counted::Of(Figures { allowed, unfinished, hopeless })
}

fn past() -> Counted {
    Counted::Refused(31)
}

/// A card, and what is due by length.
type OnCard<'c> = (&'c str, &'c [u8], &'c [(usize, Counted)]);

fn examples(list: &[OnCard]) -> Vec<Example> {
    let of_card = |&(title, card, dues): &OnCard| {
        dues.iter().map(|(length, due)| (title.into(), card.to_vec(), *length, due.clone())).collect::<Vec<Example>>()
    };
    list.iter().flat_map(of_card).collect()
}

fn on_cards() -> Vec<Example> {
    examples(&[
        // An allowed plan of k letters is one of k - 1 with an a behind it, or one
        // of k - 2 with ab: 1, 1, 2, 3, 5, 8 and so on. The others have a b that
        // stands wrong.
        (
            "b only right behind an a",
            FIRST_CARD,
            &[
                (0, of(1, 0, 0)),
                (1, of(1, 0, 1)),
                (2, of(2, 0, 2)),
                (3, of(3, 0, 5)),
                (4, of(5, 0, 11)),
                (5, of(8, 0, 24)),
                (63, of(10_610_209_857_723, 0, ALL_OF_63 - 10_610_209_857_723)),
                (64, past()),
                (4096, past()),
                (4097, past()),
                (1 << 16, past()),
                (1 << 32, past()),
                (1 << 63, past()),
                (usize::MAX, past()),
            ],
        ),
        (
            "only b's",
            NO_A_CARD,
            &[(0, of(1, 0, 0)), (1, of(1, 0, 1)), (5, of(1, 0, 31)), (63, of(1, 0, ALL_OF_63 - 1))],
        ),
        ("nothing", NOTHING_CARD, &[(0, of(0, 0, 1)), (1, of(0, 0, 2)), (63, of(0, 0, ALL_OF_63)), (64, past())]),
        ("everything", EVERYTHING_CARD, &[(0, of(1, 0, 0)), (1, of(2, 0, 0)), (63, of(ALL_OF_63, 0, 0)), (64, past())]),
        ("the empty plan", ONLY_EMPTY_CARD, &[(0, of(1, 0, 0)), (1, of(0, 0, 2)), (2, of(0, 0, 4))]),
        ("ab alone", &only_ab(), &[(0, of(0, 1, 0)), (1, of(0, 1, 1)), (2, of(1, 0, 3)), (3, of(0, 0, 8))]),
        // b or aab, and then a's: of k letters one plan from k = 1 on and one
        // more from k = 3 on. Unfinished are the empty plan, a and aa.
        (
            "near and far",
            &near_and_far(),
            &[
                (0, of(0, 1, 0)),
                (1, of(1, 1, 0)),
                (2, of(1, 1, 2)),
                (3, of(2, 0, 6)),
                (4, of(2, 0, 14)),
                (63, of(2, 0, ALL_OF_63 - 2)),
            ],
        ),
        // No a, or one at k places.
        ("one a at most", &one_a(), &[(3, of(4, 0, 4)), (5, of(6, 0, 26)), (63, of(64, 0, ALL_OF_63 - 64))]),
        // The plans that end with an a are a third.
        (
            "an a at the end",
            &chain(b"abc", 2),
            &[
                (0, of(0, 1, 0)),
                (1, of(1, 2, 0)),
                (2, of(3, 6, 0)),
                (40, of(ALL_OF_40 / 3, ALL_OF_40 / 3 * 2, 0)),
                (41, past()),
            ],
        ),
        // Of 19 letters one; the plans that end with another are over 2 to the 63.
        (
            "one of 19 letters at the end",
            &chain(&letters(19), 2),
            &[(2, of(19, 342, 0)), (15, of(799_006_685_782_884_121, 14_382_120_344_091_914_178, 0)), (16, past())],
        ),
        ("119 a's at the end", &chain(b"ab", 120), &[(3, of(0, 8, 0)), (63, of(0, ALL_OF_63, 0)), (64, past())]),
        (
            "119 letters or more",
            &chain(b"a", 120),
            &[(0, of(0, 1, 0)), (63, of(0, 1, 0)), (118, of(0, 1, 0)), (119, of(1, 0, 0)), (4096, of(1, 0, 0))],
        ),
        (
            "an odd number of letters",
            &even(),
            &[
                (0, of(0, 1, 0)),
                (1, of(1, 0, 0)),
                (64, of(0, 1, 0)),
                (65, of(1, 0, 0)),
                (255, of(1, 0, 0)),
                (256, of(0, 1, 0)),
                (4095, of(1, 0, 0)),
                (4096, of(0, 1, 0)),
                (4097, past()),
                (65_537, past()),
                ((1 << 32) + 1, past()),
                (usize::MAX, past()),
            ],
        ),
        ("four letters at most", &four_at_most(), &[(4, of(1, 0, 0)), (5, of(0, 0, 1)), (4096, of(0, 0, 1))]),
    ])
}

/// The cards are the reference's.
fn of_books() -> Vec<Example> {
    let card = |text: &str| compile(text.as_bytes(), &Lent::plenty()).expect("an accepted book").card;
    let (behind, around) = (":ab\n>a / .* _ .*b.*\n", ":abc\n>b / a _ a / c _ c\n");
    examples(&[
        // Every a has a b somewhere behind it when the last letter isn't an a: of
        // k >= 1 letters those with a b at the end are allowed, one half; the
        // others are unfinished, for a b behind them is enough.
        (
            behind,
            &card(behind),
            &[
                (0, of(1, 0, 0)),
                (1, of(1, 1, 0)),
                (2, of(2, 2, 0)),
                (3, of(4, 4, 0)),
                (4, of(8, 8, 0)),
                (63, of(ALL_OF_63 / 2, ALL_OF_63 / 2, 0)),
                (64, past()),
            ],
        ),
        // All plans of a's and c's, and with a b only aba and cbc; so ab and cb
        // are unfinished. Of 40 letters 2 to the 40 have no b.
        (
            around,
            &card(around),
            &[
                (0, of(1, 0, 0)),
                (1, of(2, 0, 1)),
                (2, of(4, 2, 3)),
                (3, of(10, 0, 17)),
                (4, of(16, 0, 65)),
                (40, of(1_099_511_627_776, 0, ALL_OF_40 - 1_099_511_627_776)),
                (41, past()),
            ],
        ),
    ])
}

/// For every number of letters, from 1 on, one letter more is past counting.
fn up_to_the_last() -> Vec<Example> {
    let of_count = |(count, &(last, plans)): (usize, &(usize, u64))| {
        let (everything, nothing) = (one_state(count, 1), one_state(count, 2));
        examples(&[
            (&format!("everything over {count} letters"), &everything, &[(last, of(plans, 0, 0)), (last + 1, past())]),
            (&format!("nothing over {count} letters"), &nothing, &[(last, of(0, 0, plans)), (last + 1, past())]),
        ])
    };
    LAST.iter().enumerate().skip(1).flat_map(of_count).collect()
}

fn without_letters() -> Vec<Example> {
    let of_card = |title, card, of_length_0| {
        let none = || of(0, 0, 0);
        let dues = [
            (0, of_length_0),
            (1, none()),
            (5, none()),
            (4096, none()),
            (4097, past()),
            (1 << 32, past()),
            (usize::MAX, past()),
        ];
        examples(&[(title, card, &dues)])
    };
    let allowed = of_card("no letters", NO_LETTERS_CARD, of(1, 0, 0));
    let hopeless = of_card("no letters, nothing", NO_LETTERS_NOTHING_CARD, of(0, 0, 1));
    [allowed, hopeless].concat()
}

/// The card goes before the length.
fn on_refused_cards() -> Vec<Example> {
    let of_card = |(title, card, loaded): (&str, Vec<u8>, Loaded)| {
        let Loaded::Refused(number) = loaded else { return Vec::new() };
        let refused = || Counted::Refused(number);
        examples(&[(title, &card, &[(0, refused()), (64, refused()), (4097, refused()), (usize::MAX, refused())])])
    };
    board_examples::loads().into_iter().flat_map(of_card).collect()
}
