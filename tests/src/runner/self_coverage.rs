//! The random cases meet every refusal and every kind of verdict.

use crate::grammar;
use crate::random_books;
use crate::random_cards;
use crate::tally::Tally;
use reference::board::{self, Landing, Refused, Verdict};
use reference::census::{self, Figures, LONGEST};
use reference::compile::{compile, Lent};
use reference::factor::shortest;
use std::collections::BTreeMap;

type Met = BTreeMap<String, usize>;

pub fn run(tally: &mut Tally) {
    tally.group("reference: random cases meet every answer", |tally| {
        let books = books(tally);
        let accepted = ["accepted", "accepted, no bytes", "accepted, no rule", "accepted, no rule and no peak"];
        let kinds = ["some plans, only >", "some plans, only <", "some plans, only ^", "some plans, kinds mixed"];
        let sisters =
            ["sister 3", "sister 4", "sister 5", "sister 6", "sister 8", "sister 9", "sister without context"];
        for answer in [&accepted[..], &kinds, &sisters, &["3", "4", "5", "6", "7", "8", "9", "11"]].concat() {
            tally.check(books.get(answer).is_some_and(|&times| times >= 5), || format!("books: {answer} in {books:?}"));
        }
        tally.check(!books.contains_key("10"), || format!("books: 10 in {books:?}"));
        let cards = cards(tally);
        for answer in [
            "loaded",
            "load 21",
            "load 22",
            "load 23",
            "load 24",
            "load 25",
            "load 26",
            "step 21",
            "step 22",
            "step 23",
            "step 24",
            "step 25",
            "step 26",
            "step 27",
            "step 28",
            "stepped to marks 1",
            "stepped to marks 2",
            "stepped to 1 owed",
            "stepped to 2 owed",
            "stepped to 3 to 9 owed",
            "stepped to 10 to 99 owed",
            "stepped to 100 to 119 owed",
            "allowed",
            "unfinished, 1 owed",
            "unfinished, 2 owed",
            "unfinished, 3 to 9 owed",
            "unfinished, 10 to 99 owed",
            "unfinished, 100 to 119 owed",
            "hopeless",
            "hopeless 0",
            "foreign",
            "no letters, loaded",
            "no letters, load 24",
            "no letters, load 25",
            "no letters, step 27",
            "no letters, allowed",
            "no letters, hopeless 0",
            "no letters, foreign",
        ] {
            tally.check(cards.get(answer).is_some_and(|&times| times >= 5), || format!("cards: {answer} in {cards:?}"));
        }
        let factors = factors(tally);
        for answer in [
            "none, allowed",
            "none, unfinished",
            "none, hopeless",
            "empty",
            "length 1",
            "length 2",
            "length 3",
            "length 4",
            "length 5",
            "length 6 or more",
            "the whole plan",
            "not at the beginning",
            "behind the hopeless place",
            "ends before the plan does",
            "one as long further right",
            "a longer one further left",
            "foreign",
            "no letters, none",
            "no letters, empty",
            "no letters, foreign",
            "no letters, refused",
            "refused 21",
            "refused 22",
            "refused 23",
            "refused 24",
            "refused 25",
            "refused 26",
        ] {
            let times = factors.get(answer).copied().unwrap_or(0);
            tally.check(times >= 5, || format!("stretches: {answer} in {factors:?}"));
        }
        let counts = counts(tally);
        for answer in [
            "length 0",
            "all allowed",
            "all unfinished",
            "all hopeless",
            "some of each kind",
            "past 2 to the 63 allowed",
            "past 2 to the 63 unfinished",
            "past 2 to the 63 hopeless",
            "over 64 letters",
            "past counting, over 4,096 letters",
            "past counting, too many plans",
            "no letters, length 0",
            "no letters, no plan",
            "no letters, past counting",
            "refused 21",
            "refused 22",
            "refused 23",
            "refused 24",
            "refused 25",
            "refused 26",
            "refused 21, over 4,096 letters",
            "refused 22, over 4,096 letters",
            "refused 23, over 4,096 letters",
            "refused 24, over 4,096 letters",
            "refused 25, over 4,096 letters",
            "refused 26, over 4,096 letters",
        ] {
            let times = counts.get(answer).copied().unwrap_or(0);
            tally.check(times >= 5, || format!("counts: {answer} in {counts:?}"));
        }
    });
}

fn count(met: &mut Met, answer: impl Into<String>) {
    *met.entry(answer.into()).or_default() += 1;
}

fn books(tally: &Tally) -> Met {
    let mut met = Met::new();
    let mut rng = tally.rng("books that meet every answer");
    for case in 0..3000 {
        let text = match case % 3 {
            0 => random_books::soup(&mut rng),
            1 => random_books::book(&mut rng),
            _ => {
                let good = random_books::book(&mut rng);
                random_books::damaged(&mut rng, &good)
            }
        };
        let card = if rng.once_in(4) { rng.below(200) } else { 4000 };
        match compile(&text, &Lent { bench: Vec::new(), card }) {
            Ok(accepted) => {
                count(&mut met, kind(&text, accepted.peak));
                // Neither every plan nor none.
                if board::bodies(&accepted.card).is_ok_and(|bodies| bodies.states() > 1) {
                    count(&mut met, format!("some plans, {}", rule_kinds(&text)));
                }
            }
            Err(refusal) => {
                count(&mut met, refusal.number.to_string());
                let line = text.split(|&byte| byte == b'\n').nth(refusal.line.wrapping_sub(1)).unwrap_or(b"");
                if line.starts_with(b"<") || line.starts_with(b"^") {
                    count(&mut met, format!("sister {}", refusal.number));
                    if refusal.number == 5 && is_rule_without_context(line) {
                        count(&mut met, "sister without context");
                    }
                }
            }
        }
    }
    met
}

/// What kind of text was accepted.
fn kind(text: &[u8], peak: usize) -> &'static str {
    let has_rule = rule_kinds(text) != "no rule";
    match (text.is_empty(), has_rule, peak) {
        (true, ..) => "accepted, no bytes",
        (_, true, _) => "accepted",
        (_, false, 0) => "accepted, no rule and no peak",
        (_, false, _) => "accepted, no rule",
    }
}

/// The kinds of an accepted text's rules.
fn rule_kinds(text: &[u8]) -> &'static str {
    let begins = |sign: u8| text.split(|&byte| byte == b'\n').any(|line| line.first() == Some(&sign));
    match (begins(b'>'), begins(b'<'), begins(b'^')) {
        (false, false, false) => "no rule",
        (true, false, false) => "only >",
        (false, true, false) => "only <",
        (false, false, true) => "only ^",
        _ => "kinds mixed",
    }
}

/// Whether the line's choice would do for a rule `>`.
fn is_rule_without_context(line: &[u8]) -> bool {
    grammar::line_form(&[b">", &line[1..]].concat()).is_some_and(|parts| parts.len() == 2)
}

/// About how many letters are owed.
fn about(owed: usize) -> &'static str {
    match owed {
        0 => "none",
        1 => "1",
        2 => "2",
        3..=9 => "3 to 9",
        10..=99 => "10 to 99",
        100..=119 => "100 to 119",
        _ => "too many",
    }
}

/// Cards without letters are counted by themselves.
fn of_letters(letters: &[u8]) -> String {
    if letters.is_empty() { "no letters, " } else { "" }.into()
}

fn cards(tally: &Tally) -> Met {
    let mut met = Met::new();
    let mut rng = tally.rng("cards that meet every answer");
    for case in 0..4000 {
        let good = random_cards::good(&mut rng);
        let card = match case % 4 {
            0 => random_cards::loose(&mut rng),
            1 => good,
            2 => random_cards::far(&mut rng),
            _ => random_cards::damaged(&mut rng, &good),
        };
        let letters = board::bodies(&card).map_or(b"ab".to_vec(), |bodies| bodies.letters.to_vec());
        let mut count = |answer: String| count(&mut met, of_letters(&letters) + &answer);
        match board::load(&card) {
            Ok(_) => count("loaded".into()),
            Err(number) => count(format!("load {number}")),
        }
        let letter = if rng.once_in(6) { rng.next() as u8 } else { random_cards::letter(&mut rng, &letters) };
        match board::step(&card, rng.below(8), letter) {
            Ok(Landing { marks: 0, owed, .. }) => count(format!("stepped to {} owed", about(owed))),
            Ok(Landing { marks, owed: 0, .. }) => count(format!("stepped to marks {marks}")),
            Ok(landing) => count(format!("{landing:?}")),
            Err(number) => count(format!("step {number}")),
        }
        let plan = if rng.once_in(2) {
            random_cards::far_plan(&mut rng, &card)
        } else {
            random_cards::plan(&mut rng, &letters)
        };
        match board::judge(&card, &plan) {
            Ok(Verdict::Allowed) => count("allowed".into()),
            Ok(Verdict::Unfinished(owed)) => count(format!("unfinished, {} owed", about(owed))),
            Ok(Verdict::Hopeless(0)) => count("hopeless 0".into()),
            Ok(Verdict::Hopeless(_)) => count("hopeless".into()),
            Err(Refused::ForeignLetter { .. }) => count("foreign".into()),
            Err(Refused::Card(_)) => {}
        }
    }
    met
}

fn factors(tally: &Tally) -> Met {
    let mut met = Met::new();
    let mut rng = tally.rng("stretches that meet every answer");
    for case in 0..4000 {
        let strict = random_cards::strict(&mut rng, 8);
        let card = match case % 4 {
            0 => random_cards::loose(&mut rng),
            1 => random_cards::damaged(&mut rng, &strict),
            _ => strict,
        };
        let plan = random_cards::searched_plan(&mut rng, &card, 12);
        if board::bodies(&card).is_ok_and(|bodies| bodies.letters.is_empty()) {
            let answer = match shortest(&card, &plan) {
                Ok(None) => "no letters, none",
                Ok(Some(_)) => "no letters, empty",
                Err(Refused::ForeignLetter { .. }) => "no letters, foreign",
                Err(Refused::Card(_)) => "no letters, refused",
            };
            count(&mut met, answer);
            continue;
        }
        match (shortest(&card, &plan), board::judge(&card, &plan)) {
            (Ok(None), Ok(Verdict::Allowed)) => count(&mut met, "none, allowed"),
            (Ok(None), Ok(Verdict::Unfinished(_))) => count(&mut met, "none, unfinished"),
            (Ok(None), Ok(Verdict::Hopeless(_))) => count(&mut met, "none, hopeless"),
            (Ok(Some(found)), Ok(Verdict::Hopeless(place))) => stretch(&mut met, &card, &plan, found, place),
            (Err(Refused::ForeignLetter { .. }), _) => count(&mut met, "foreign"),
            (Err(Refused::Card(number)), _) => count(&mut met, format!("refused {number}")),
            (found, judged) => count(&mut met, format!("{found:?} beside {judged:?}")),
        }
    }
    met
}

fn stretch(met: &mut Met, card: &[u8], plan: &[u8], (start, length): (usize, usize), hopeless: usize) {
    match length {
        0 => return count(met, "empty"),
        1..=5 => count(met, format!("length {length}")),
        _ => count(met, "length 6 or more"),
    }
    let found_in = |part: &[u8]| shortest(card, part).ok().flatten().map(|(_, length)| length);
    let tells = [
        ("the whole plan", length == plan.len()),
        ("not at the beginning", start > 0),
        ("behind the hopeless place", start >= hopeless),
        ("ends before the plan does", start + length < plan.len()),
        ("one as long further right", found_in(&plan[start + 1..]) == Some(length)),
        ("a longer one further left", found_in(&plan[..start + length - 1]).is_some()),
    ];
    for (answer, _) in tells.into_iter().filter(|(_, told)| *told) {
        count(met, answer);
    }
}

fn counts(tally: &Tally) -> Met {
    let mut met = Met::new();
    let mut rng = tally.rng("counts that meet every answer");
    for case in 0..1000 {
        let strict = random_cards::strict(&mut rng, 8);
        let card = match case % 4 {
            0 => random_cards::loose(&mut rng),
            1 => random_cards::damaged(&mut rng, &strict),
            2 => random_cards::good(&mut rng),
            _ => strict,
        };
        let has_letters = board::bodies(&card).is_ok_and(|bodies| !bodies.letters.is_empty());
        for length in random_cards::lengths(&mut rng, &card) {
            let is_long = length > LONGEST;
            match census::count(&card, length) {
                Ok(figures) if has_letters => figures_met(&mut met, figures, length),
                Ok(_) if length == 0 => count(&mut met, "no letters, length 0"),
                Ok(_) => count(&mut met, "no letters, no plan"),
                Err(31) if !has_letters => count(&mut met, "no letters, past counting"),
                Err(31) if is_long => count(&mut met, "past counting, over 4,096 letters"),
                Err(31) => count(&mut met, "past counting, too many plans"),
                Err(number) if is_long => count(&mut met, format!("refused {number}, over 4,096 letters")),
                Err(number) => count(&mut met, format!("refused {number}")),
            }
        }
    }
    met
}

fn figures_met(met: &mut Met, figures: Figures, length: usize) {
    let Figures { allowed, unfinished, hopeless } = figures;
    let past = |figure: u64| figure > 1 << 63;
    let tells = [
        ("length 0", length == 0),
        ("all allowed", unfinished + hopeless == 0),
        ("all unfinished", allowed + hopeless == 0),
        ("all hopeless", allowed + unfinished == 0),
        ("some of each kind", allowed > 0 && unfinished > 0 && hopeless > 0),
        ("past 2 to the 63 allowed", past(allowed)),
        ("past 2 to the 63 unfinished", past(unfinished)),
        ("past 2 to the 63 hopeless", past(hopeless)),
        ("over 64 letters", length > 64),
    ];
    for (answer, _) in tells.into_iter().filter(|(_, told)| *told) {
        count(met, answer);
    }
}
