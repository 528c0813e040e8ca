//! The reference against results worked out by hand.

use crate::board_examples;
use crate::byte_examples;
use crate::entry::{BoardEntry, MountedEntry, Reference};
use crate::examples::{self, Due, Example};
use crate::limits::{self, Nearest};
use crate::sister_examples;
use crate::tally::{shown, Tally};
use reference::board::{self, Verdict};
use reference::card;
use reference::compile::{compile, compile_by, compile_traced, rule, Lent, Limits, Stage, Workshop, LIMITS};
use reference::mounted::BEFORE_W3;
use reference::reader;
use reference::refusal::Refusal;
use reference::syntax::Line;

pub fn run(tally: &mut Tally) {
    tally.group("reference: examples of document 01", |tally| all(tally, examples::paper()));
    tally.group("reference: how a text is read", |tally| all(tally, examples::reading()));
    tally.group("reference: bytes from 0x80 up", |tally| all(tally, byte_examples::high()));
    tally.group("reference: texts without rules", |tally| all(tally, examples::ruleless()));
    tally.group("reference: how much is owed", |tally| all(tally, examples::owing()));
    tally.group("reference: forbidding and obliging rules", |tally| {
        all(tally, sister_examples::all());
        alike(tally);
        operations(tally);
    });
    tally.group("reference: how stages are made", |tally| {
        all(tally, examples::staging());
        all(tally, examples::many_stages());
        counts(tally);
        binding(tally);
    });
    tally.group("reference: limits from both sides", stage_limits);
    tally.group("reference: long texts and long cards", long_texts_and_cards);
    tally.group("reference: lent buffers", lent_buffers);
    tally.group("reference: cards, steps and plans", boards);
}

fn all(tally: &mut Tally, list: Vec<Example>) {
    for example in list {
        one(tally, &example);
    }
}

fn one(tally: &mut Tally, example: &Example) {
    let found = compile(&example.text, &Lent::plenty());
    let title = format!("{}: {}", example.title, shown(&example.text));
    match &example.due {
        Due::Refused { number, line } => tally.same(&title, &Err(Refusal::at(*number, *line)), &found),
        Due::Accepted { peak, card, verdicts } => match found {
            Err(refusal) => tally.check(false, || format!("{title}\n  expected: accepted\n  found:    {refusal:?}")),
            Ok(accepted) => {
                tally.check(board::load(&accepted.card).is_ok(), || format!("{title}: its card doesn't load"));
                if let Some(peak) = peak {
                    tally.same(&format!("{title}, peak"), peak, &accepted.peak);
                }
                if let Some(card) = card {
                    tally.same(&format!("{title}, card"), card, &accepted.card);
                }
                for (plan, verdict) in verdicts {
                    let judged = board::judge(&accepted.card, plan.as_bytes());
                    tally.same(&format!("{title}, plan {plan}"), &Ok(*verdict), &judged);
                }
            }
        },
    }
}

fn counts(tally: &mut Tally) {
    tally.same("brackets make no stage", &Vec::new(), &compile_traced(b":ab\n=A((a))\n").1);
    for (text, index, operation, sets) in examples::counts() {
        let (_, stages) = compile_traced(text.as_bytes());
        let found = stages.get(index).map(|stage| (stage.operation, stage.sets));
        tally.same(&format!("sets of stage {index} of {}", shown(text.as_bytes())), &Some((operation, sets)), &found);
    }
}

/// Books compared by their cards.
fn alike(tally: &mut Tally) {
    let card = |text: &str| compile(text.as_bytes(), &Lent::plenty()).expect("an accepted example").card;
    for (left, right, same) in sister_examples::alike() {
        tally.check((card(left) == card(right)) == same, || format!("{left:?} and {right:?}: same is {same}"));
    }
}

fn operations(tally: &mut Tally) {
    for (text, due) in sister_examples::operations() {
        let (_, stages) = compile_traced(text.as_bytes());
        let found: Vec<&str> = stages.iter().map(|stage| stage.operation).collect();
        tally.same(&format!("stages of {text:?}"), &due.to_string(), &found.join(" "));
    }
}

/// Expressions over a, b, c, compared by their smallest machines.
fn binding(tally: &mut Tally) {
    let machine = |expression: &str| {
        let text = format!(":abc\n=A{expression}\n>a\n");
        let book = reader::read_book(text.as_bytes()).expect("a well-formed example");
        let Line::Definition(_, body) = &book.lines[1] else { unreachable!("line 2 is a definition") };
        Workshop::new(&book.alphabet, LIMITS).choice(body).expect("a small example")
    };
    for (left, right, same) in examples::binding() {
        tally.check((machine(left) == machine(right)) == same, || format!("{left} and {right}: same is {same}"));
    }
}

/// The stage of the book that comes nearest, with room above both limits.
fn nearest(stages: &[Stage], wanted: Nearest) -> Option<Nearest> {
    match wanted {
        Nearest::Sets(..) => {
            stages.iter().max_by_key(|stage| stage.sets).map(|stage| Nearest::Sets(stage.operation, stage.sets))
        }
        Nearest::States(..) => {
            let most = stages.iter().map(|stage| stage.states).max()?;
            let first = stages.iter().find(|stage| stage.states == most)?;
            Some(Nearest::States(first.operation, first.states))
        }
    }
}

fn stage_limits(tally: &mut Tally) {
    for limit in limits::stages() {
        let title = shown(&limit.text);
        // What the book needs, whatever the limits say.
        let room = match limit.nearest {
            Nearest::Sets(..) => Limits { sets: 600, states: 120 },
            Nearest::States(..) => Limits { sets: 512, states: 121 },
        };
        let (_, stages) = compile_by(&limit.text, &Lent::plenty(), room, rule);
        tally.same(&format!("{title}, with room"), &Some(limit.nearest), &nearest(&stages, limit.nearest));
        // What document 01 answers.
        let answer = compile(&limit.text, &Lent::plenty());
        match limit.nearest {
            Nearest::Sets(_, sets) if sets > 512 => {
                tally.same(&title, &Some(8), &answer.err().map(|refusal| refusal.number));
            }
            Nearest::Sets(_, sets) => {
                let fits = match &answer {
                    Ok(accepted) => accepted.peak == sets,
                    Err(refusal) => refusal.number == 9,
                };
                tally.check(fits, || format!("{title}: {answer:?}"));
            }
            Nearest::States(_, states) if states > 120 => {
                tally.same(&title, &Some(9), &answer.err().map(|refusal| refusal.number));
            }
            Nearest::States(..) => tally.check(answer.is_ok(), || format!("{title}: {answer:?}")),
        }
    }
}

fn long_texts_and_cards(tally: &mut Tally) {
    for text in limits::long_texts(reader::LONGEST_TEXT) {
        tally.same("the length of a long text", &reader::LONGEST_TEXT, &text.len());
        let found = compile(&text, &Lent::plenty());
        tally.check(found.is_ok(), || format!("{}: {:?}", shown(&text), found.as_ref().err()));
    }
    for text in limits::long_texts(reader::LONGEST_TEXT + 1) {
        let found = compile(&text, &Lent::plenty());
        tally.same(&shown(&text), &Err(Refusal::of_book(1)), &found);
    }
    let crowds = compile_traced(&limits::many_crowds()).1;
    let greatest = crowds.iter().filter(|stage| stage.sets == LIMITS.sets).count();
    tally.check(greatest >= 40, || format!("{greatest} stages of 512 sets"));
    match compile(&limits::longest_card_book(), &Lent::plenty()) {
        Err(refusal) => tally.check(false, || format!("the book of the longest card: {refusal:?}")),
        Ok(accepted) => {
            tally.same("the longest card's length", &limits::LONGEST_CARD, &accepted.card.len());
            let states = board::load(&accepted.card).map(|bodies| bodies.states());
            tally.same("the longest card's states", &Ok(card::MOST_STATES), &states);
            // Whole multiples of 7 and of 17 letters a.
            for (count, due) in [(0, Verdict::Allowed), (1, Verdict::Unfinished(118)), (120, Verdict::Unfinished(118))]
            {
                let judged = board::judge(&accepted.card, examples::a(count).as_bytes());
                tally.same(&format!("{count} letters on the longest card"), &Ok(due), &judged);
            }
        }
    }
}

/// Numbers 1, 2 and 11 and their order.
fn lent_buffers(tally: &mut Tally) {
    let good = b":ab\n>a\n";
    let card_length = examples::NO_A_CARD.len();
    let short = vec![(10, 10), (20, 19)];
    let enough = vec![(10, 10), (20, 20)];
    let cases = vec![
        ("enough of everything", good.to_vec(), enough.clone(), card_length, None),
        ("more than enough", good.to_vec(), vec![(10, 11), (20, 9999)], 9999, None),
        ("a short bench", good.to_vec(), short.clone(), card_length, Some(2)),
        ("an empty bench", good.to_vec(), vec![(10, 0), (20, 20)], card_length, Some(2)),
        ("a long book on a short bench", vec![b' '; 16_385], short.clone(), 0, Some(1)),
        ("no bytes on a short bench", Vec::new(), short.clone(), 0, Some(2)),
        ("no bytes on a short bench, room for the card", Vec::new(), short.clone(), card::SHORTEST, Some(2)),
        ("no bytes, the card buffer exact", Vec::new(), enough.clone(), 13, None),
        ("no bytes, the card buffer one short", Vec::new(), enough.clone(), 12, Some(11)),
        ("no bytes and no card buffer", Vec::new(), enough.clone(), 0, Some(11)),
        ("a spoiled line on a short bench", b">".to_vec(), short.clone(), 0, Some(2)),
        ("no rule, the card buffer exact", b":ab\n".to_vec(), enough.clone(), 17, None),
        ("no rule, the card buffer one short", b":ab\n".to_vec(), enough.clone(), 16, Some(11)),
        ("no rule and no card buffer", b":ab\n".to_vec(), enough.clone(), 0, Some(11)),
        ("a definition and no card buffer", b":ab\n=Aa+\n".to_vec(), enough.clone(), 0, Some(11)),
        ("no card buffer", good.to_vec(), enough.clone(), 0, Some(11)),
        ("a card buffer one short", good.to_vec(), enough.clone(), card_length - 1, Some(11)),
        ("a short card and a short bench", good.to_vec(), short, 0, Some(2)),
    ];
    for (title, text, bench, card, due) in cases {
        let found = compile(&text, &Lent { bench, card });
        let expected = due.map(Refusal::of_book);
        tally.same(title, &expected, &found.err());
    }
}

fn boards(tally: &mut Tally) {
    let reference = Reference { bench: Vec::new() };
    for (title, card, due) in board_examples::loads() {
        tally.same(title, &due, &reference.load(&card));
    }
    for (title, card, state, letter, due) in board_examples::steps() {
        tally.same(title, &due, &reference.step(&card, state, letter));
    }
    for (title, card, state, letter, due) in board_examples::mounted_steps() {
        tally.same(title, &due, &MountedEntry::step(&BEFORE_W3, &card, state, letter));
    }
    for (title, card, plan, due) in board_examples::judgings() {
        tally.same(title, &due, &reference.judge(&card, &plan));
    }
}
