//! Wrong compilers. Each is the reference with one fault; the comparisons
//! have to find every one of them.

use crate::entry::{answer, Buffer, CompileEntry, Compiled, Reference, Request};
use crate::planted_recipes;
use reference::board;
use reference::card;
use reference::compile::{compile_by, rule, Lent, Limits, RuleRecipe, LIMITS};
use reference::reader;
use reference::syntax::RuleKind;

/// A compiler whose answer is worked out by a function.
pub struct Planted {
    pub name: &'static str,
    compile: Box<dyn Fn(&Request) -> Compiled>,
}

/// Work buffers that a planted compiler asks for.
fn bench() -> Vec<Buffer> {
    vec![Buffer { needed: 100, width: 2 }, Buffer { needed: 50, width: 1 }, Buffer { needed: 200, width: 4 }]
}

fn faultless(request: &Request) -> Compiled {
    Reference { bench: bench() }.compile(request)
}

impl CompileEntry for Planted {
    fn bench(&self) -> Vec<Buffer> {
        bench()
    }

    fn compile(&self, request: &Request) -> Compiled {
        (self.compile)(request)
    }
}

/// No fault: the comparisons may find nothing.
pub fn right() -> Planted {
    Planted { name: "no fault", compile: Box::new(faultless) }
}

/// Another text is compiled.
fn text(name: &'static str, change: fn(&[u8]) -> Vec<u8>) -> Planted {
    let compile = move |request: &Request| faultless(&Request { text: change(&request.text), ..request.clone() });
    Planted { name, compile: Box::new(compile) }
}

/// The answer is changed afterwards.
fn after(name: &'static str, change: fn(&Request, Compiled) -> Compiled) -> Planted {
    Planted { name, compile: Box::new(move |request| change(request, faultless(request))) }
}

/// Other limits or another recipe for a rule.
fn stages(name: &'static str, limits: Limits, recipe: RuleRecipe) -> Planted {
    let compile = move |request: &Request| answer(request, compile_by(&request.text, &lent(request), limits, recipe).0);
    Planted { name, compile: Box::new(compile) }
}

fn lent(request: &Request) -> Lent {
    let needed = bench().into_iter().map(|buffer| buffer.needed);
    Lent { bench: needed.zip(request.bench.iter().copied()).collect(), card: request.card_length }
}

/// The card changed, where there is one and it still fits.
fn card_changed(name: &'static str, change: fn(&[u8]) -> Vec<u8>) -> Planted {
    let compile = move |request: &Request| {
        let mut found = faultless(request);
        if found.number == 0 {
            let card = change(&found.card_buffer[..found.length as usize]);
            if card.len() <= found.card_buffer.len() {
                found.card_buffer = request.card_before();
                found.card_buffer[..card.len()].copy_from_slice(&card);
                found.length = card.len() as u64;
            }
        }
        found
    };
    Planted { name, compile: Box::new(compile) }
}

fn refused(request: &Request, number: u64, line: u64) -> Compiled {
    Compiled { number, line, length: 0, peak: 0, card_buffer: request.card_before(), spilled: false }
}

fn lines_of(text: &[u8]) -> Vec<Vec<u8>> {
    text.split_inclusive(|&byte| byte == b'\n').map(<[u8]>::to_vec).collect()
}

pub fn all() -> Vec<Planted> {
    [texts(), bytes(), answers(), ruleless(), sisters(), limits(), recipes(), cards(), buffers()]
        .into_iter()
        .flatten()
        .collect()
}

fn texts() -> Vec<Planted> {
    vec![
        text("compiles only the first rule", |text| {
            let mut rules = 0;
            let kept = lines_of(text).into_iter().filter(|line| {
                let is_rule = RuleKind::of_sign(line[0]).is_some();
                rules += usize::from(is_rule);
                !is_rule || rules == 1
            });
            kept.collect::<Vec<_>>().concat()
        }),
        text("forgives a missing line end", |text| {
            let mut text = text.to_vec();
            if !text.is_empty() && !text.ends_with(b"\n") {
                text.push(b'\n');
            }
            text
        }),
        text("sees an empty line behind the last end", |text| [text, b"\n"].concat()),
        text("forgives blank lines", |text| {
            lines_of(text).into_iter().filter(|line| line != b"\n").collect::<Vec<_>>().concat()
        }),
        text("forgives carriage returns", |text| text.iter().copied().filter(|&byte| byte != b'\r').collect()),
        text("takes a tab for a space", |text| {
            text.iter().map(|&byte| if byte == b'\t' { b' ' } else { byte }).collect()
        }),
        text("lets spaces begin a line", |text| {
            let lines = lines_of(text).into_iter().map(|line| line.trim_ascii_start().to_vec());
            lines.map(|line| if line.is_empty() { b"\n".to_vec() } else { line }).collect::<Vec<_>>().concat()
        }),
        text("lets spaces into line 1", |text| {
            let mut lines = lines_of(text);
            if let Some(first) = lines.first_mut() {
                first.retain(|&byte| byte != b' ');
            }
            lines.concat()
        }),
        text("knows no spaces", |text| text.iter().map(|&byte| if byte == b' ' { b'~' } else { byte }).collect()),
        text("a plus is a star", |text| text.iter().map(|&byte| if byte == b'+' { b'*' } else { byte }).collect()),
        text("a minus is an and", |text| text.iter().map(|&byte| if byte == b'-' { b'&' } else { byte }).collect()),
        text("two signs are one", |text| {
            let lines = lines_of(text).into_iter().map(|mut line| {
                if is_sister(&line) && line.get(1) == Some(&line[0]) {
                    line.remove(0);
                }
                line
            });
            lines.collect::<Vec<_>>().concat()
        }),
        text("the sides swapped", |text| {
            let lines = lines_of(text).into_iter().map(|line| {
                let ended = line.ends_with(b"\n");
                let body = line.strip_suffix(b"\n").unwrap_or(&line);
                let parts: Vec<Vec<u8>> = body
                    .split(|&byte| byte == b'/')
                    .map(|part| part.split(|&byte| byte == b'_').rev().collect::<Vec<_>>().join(&b'_'))
                    .collect();
                let mut swapped = parts.join(&b'/');
                if ended {
                    swapped.push(b'\n');
                }
                swapped
            });
            lines.collect::<Vec<_>>().concat()
        }),
    ]
}

/// Kinds of bytes that W5's table of 128 might get wrong.
fn bytes() -> Vec<Planted> {
    fn each(text: &[u8], change: fn(u8) -> u8) -> Vec<u8> {
        text.iter().map(|&byte| change(byte)).collect()
    }
    fn as_a(from: u8, byte: u8) -> u8 {
        if byte >= from {
            b'a'
        } else {
            byte
        }
    }
    vec![
        text("folds bytes by seven bits", |text| each(text, |byte| byte % 128)),
        text("folds the first byte of a line", |text| {
            let lines = lines_of(text).into_iter().map(|mut line| {
                line[0] %= 128;
                line
            });
            lines.collect::<Vec<_>>().concat()
        }),
        text("folds letters alone", |text| {
            each(text, |byte| if (byte % 128).is_ascii_lowercase() { byte % 128 } else { byte })
        }),
        text("folds spaces alone", |text| each(text, |byte| if byte == 0xA0 { b' ' } else { byte })),
        text("folds line ends alone", |text| each(text, |byte| if byte == 0x8A { b'\n' } else { byte })),
        text("bytes from 0x80 up are letters", |text| each(text, |byte| as_a(0x80, byte))),
        text("byte 0xFF is a letter", |text| each(text, |byte| as_a(0xFF, byte))),
        text("byte 0x80 is a bar", |text| each(text, |byte| if byte == 0x80 { b'|' } else { byte })),
        text("passes over bytes from 0x80 up", |text| text.iter().copied().filter(u8::is_ascii).collect()),
        text("a table that ends before |", |text| each(text, |byte| if byte < b'|' { byte } else { b'~' })),
        after("a byte from 0x80 up before all else", |request, found| {
            match lines_of(&request.text).iter().position(|line| !line.is_ascii()) {
                Some(index) if found.number == 3 || found.number == 4 => refused(request, 5, index as u64 + 1),
                _ => found,
            }
        }),
        after("a byte from 0x80 up in line 1 stops nothing", |request, found| {
            let lines = lines_of(&request.text);
            if found.number == 5 && found.line == 1 && lines.first().is_some_and(|line| !line.is_ascii()) {
                let first = lines[0].iter().copied().filter(u8::is_ascii).collect::<Vec<_>>();
                return faultless(&Request {
                    text: [vec![first], lines[1..].to_vec()].concat().concat(),
                    ..request.clone()
                });
            }
            found
        }),
    ]
}

fn answers() -> Vec<Planted> {
    vec![
        after("refuses every book", |request, _| refused(request, 5, 1)),
        after("one card for all books", |request, found| {
            let mut found = found;
            let card = crate::examples::FIRST_CARD;
            if found.number == 0 && found.card_buffer.len() >= card.len() {
                found.card_buffer = request.card_before();
                found.card_buffer[..card.len()].copy_from_slice(card);
                found.length = card.len() as u64;
            }
            found
        }),
        after("writes nothing", |request, found| Compiled { card_buffer: request.card_before(), ..found }),
        after("writes one byte more", |_, found| {
            let mut found = found;
            let end = found.length as usize;
            if found.number == 0 && end < found.card_buffer.len() {
                found.card_buffer[end] ^= 1;
            }
            found
        }),
        after("touches the card buffer on a refusal", |_, found| {
            let mut found = found;
            if found.number != 0 && !found.card_buffer.is_empty() {
                found.card_buffer[0] ^= 1;
            }
            found
        }),
        after("touches the card buffer on an oversize stage", |_, found| {
            let mut found = found;
            if found.number == 9 {
                found.card_buffer[0] ^= 1;
            }
            found
        }),
        after("writes outside a lent buffer", |_, found| Compiled { spilled: found.number == 0, ..found }),
        after("a peak of one more", |_, found| Compiled { peak: found.peak + u64::from(found.number == 0), ..found }),
        after("a peak of 0", |_, found| Compiled { peak: 0, ..found }),
        after("the greatest peak is 511", |_, found| Compiled { peak: found.peak.min(511), ..found }),
        after("the peak of refused books too", |_, found| Compiled {
            peak: if found.number == 11 { 7 } else { found.peak },
            ..found
        }),
        after("lines from 0", |_, found| Compiled { line: found.line.saturating_sub(1), ..found }),
        after("a line for 11", |_, found| Compiled { line: if found.number == 11 { 1 } else { found.line }, ..found }),
        after("a line below 256", |_, found| Compiled { line: found.line % 256, ..found }),
        after("old rubbish alters the peak", |request, found| {
            let altered = found.number == 0 && request.rubbish % 5 == 3;
            Compiled { peak: found.peak + u64::from(altered), ..found }
        }),
        after("a long book one byte late", |request, found| {
            if request.text.len() == reader::LONGEST_TEXT + 1 && found.number == 1 {
                return refused(request, 5, 1);
            }
            found
        }),
        after("a long book one byte early", |request, found| {
            if request.text.len() == reader::LONGEST_TEXT {
                return refused(request, 1, 0);
            }
            found
        }),
        after("reads all lines before any stage", |request, found| match reader::read_book(&request.text) {
            Err(refusal) if found.number == 8 || found.number == 9 => {
                refused(request, refusal.number.into(), refusal.line as u64)
            }
            _ => found,
        }),
        after("9 before 8 in one stage", |request, found| {
            let free = Limits { sets: 4000, states: 4000 };
            if found.number == 8 {
                let (_, made) = compile_by(&request.text, &Lent::plenty(), free, rule);
                if made.iter().find(|stage| stage.sets > 512).is_some_and(|stage| stage.states > 120) {
                    return refused(request, 9, found.line);
                }
            }
            found
        }),
        after("the bracket count clipped at 0", |request, found| {
            let clipped = |line: &Vec<u8>| {
                let mut count = 0u32;
                line.iter().any(|byte| {
                    count = match byte {
                        b'(' => count + 1,
                        b')' => count.saturating_sub(1),
                        _ => count,
                    };
                    count > 4
                })
            };
            match lines_of(&request.text).iter().position(clipped) {
                Some(index) if found.number == 5 && found.line == index as u64 + 1 => refused(request, 3, found.line),
                _ => found,
            }
        }),
        after("spoiled before nested", |_, found| Compiled {
            number: if found.number == 3 { 5 } else { found.number },
            ..found
        }),
        after("crowds of contexts are spoiled", |_, found| Compiled {
            number: if found.number == 4 { 5 } else { found.number },
            ..found
        }),
        after("line 1 is only spoiled", |_, found| {
            let first = found.line == 1 && (found.number == 3 || found.number == 4);
            Compiled { number: if first { 5 } else { found.number }, ..found }
        }),
        after("taken before a stranger", |request, found| {
            let lines = lines_of(&request.text);
            let name = |line: &Vec<u8>| line.iter().copied().find(u8::is_ascii_uppercase);
            if found.number == 6 {
                let line = &lines[found.line as usize - 1];
                let above = &lines[1..found.line as usize - 1];
                if line[0] == b'=' && above.iter().any(|other| other[0] == b'=' && name(other) == name(line)) {
                    return refused(request, 7, found.line);
                }
            }
            found
        }),
    ]
}

/// Whether the text is accepted and has no rule.
fn is_ruleless(request: &Request, found: &Compiled) -> bool {
    found.number == 0 && reader::read_book(&request.text).is_ok_and(|book| book.rules().next().is_none())
}

/// Faults with texts that have no rule, or no byte.
fn ruleless() -> Vec<Planted> {
    vec![
        after("no rule is refused", |request, found| match is_ruleless(request, &found) {
            true if !request.text.is_empty() => refused(request, 10, 0),
            _ => found,
        }),
        after("no rule is refused where nothing is defined", |request, found| {
            match is_ruleless(request, &found) && lines_of(&request.text).len() == 1 {
                true => refused(request, 10, 0),
                false => found,
            }
        }),
        after("no bytes is no rule", |request, found| match request.text.is_empty() && found.number == 0 {
            true => refused(request, 10, 0),
            false => found,
        }),
        after("no bytes is a spoiled line", |request, found| match request.text.is_empty() && found.number == 0 {
            true => refused(request, 5, 1),
            false => found,
        }),
        after("10 before 11", |request, found| match request.text.is_empty() && found.number == 11 {
            true => refused(request, 10, 0),
            false => found,
        }),
        after("5 before 2 for no bytes", |request, found| match request.text.is_empty() && found.number == 2 {
            true => refused(request, 5, 1),
            false => found,
        }),
        after("a peak of 1 for no bytes", |request, found| match request.text.is_empty() && found.number == 0 {
            true => Compiled { peak: 1, ..found },
            false => found,
        }),
        after("a peak of 1 where nothing is made", |_, found| match found.number == 0 && found.peak == 0 {
            true => Compiled { peak: 1, ..found },
            false => found,
        }),
        after("no peak without a rule", |request, found| match is_ruleless(request, &found) {
            true => Compiled { peak: 0, ..found },
            false => found,
        }),
        after("the peak of the last definition", |request, found| match is_ruleless(request, &found) {
            true => {
                let mut lines = lines_of(&request.text);
                let stages = |text: &[u8]| compile_by(text, &Lent::plenty(), LIMITS, rule).1;
                let all = stages(&lines.concat());
                lines.pop();
                let last = all[stages(&lines.concat()).len()..].iter().map(|stage| stage.sets as u64);
                Compiled { peak: last.max().unwrap_or(0), ..found }
            }
            false => found,
        }),
        marks_changed("no bytes allows nothing", |request| request.text.is_empty(), 2),
        marks_changed("no bytes has marks 0", |request| request.text.is_empty(), 0),
        marks_changed("no rule allows nothing", |request| !request.text.is_empty(), 2),
        text("a colon alone is a text of no bytes", |text| match text {
            b":" | b":\n" => Vec::new(),
            _ => text.to_vec(),
        }),
        text("a colon without its end is a text of no bytes", |text| match text {
            b":" => Vec::new(),
            _ => text.to_vec(),
        }),
        text("a line end is a text of no bytes", |text| match text {
            b"\n" => Vec::new(),
            _ => text.to_vec(),
        }),
        text("no bytes is a line end", |text| match text {
            b"" => b"\n".to_vec(),
            _ => text.to_vec(),
        }),
        text("no bytes is an alphabet", |text| match text {
            b"" => b":a\n".to_vec(),
            _ => text.to_vec(),
        }),
        Planted {
            name: "no bytes on a short bench will do",
            compile: Box::new(|request| match request.text.is_empty() {
                true => answer(request, compile_by(b"", &Lent { bench: Vec::new(), ..lent(request) }, LIMITS, rule).0),
                false => faultless(request),
            }),
        },
        after("12 bytes will do for no bytes", |request, found| {
            let mut found = found;
            if request.text.is_empty() && found.number == 11 && request.card_length == 12 {
                found.card_buffer.copy_from_slice(&crate::examples::NO_LETTERS_CARD[..12]);
                return Compiled { number: 0, length: 12, ..found };
            }
            found
        }),
        after("14 bytes are due for no bytes", |request, found| match request.text.is_empty() {
            true if request.card_length == card::SHORTEST && found.number == 0 => refused(request, 11, 0),
            _ => found,
        }),
    ]
}

/// Faults in reading lines that begin with `<` and `^`.
fn sisters() -> Vec<Planted> {
    vec![
        text("< is stray", |text| signs_changed(text, |sign| if sign == b'<' { b'~' } else { sign })),
        text("^ is stray", |text| signs_changed(text, |sign| if sign == b'^' { b'~' } else { sign })),
        text("< and ^ exchanged", |text| {
            signs_changed(text, |sign| match sign {
                b'<' => b'^',
                b'^' => b'<',
                _ => sign,
            })
        }),
        text("sister rules rule out nothing", |text| {
            let kept = lines_of(text).into_iter().filter(|line| !is_sister(line) || is_bare_sister(line));
            kept.collect::<Vec<_>>().concat()
        }),
        text("only the first sister rule", |text| {
            let mut sisters = 0;
            let kept = lines_of(text).into_iter().filter(|line| {
                sisters += usize::from(is_sister(line));
                !is_sister(line) || sisters == 1
            });
            kept.collect::<Vec<_>>().concat()
        }),
        text("a sister rule without a context allows everything", |text| {
            let lines = lines_of(text).into_iter().map(|line| match line.strip_suffix(b"\n") {
                Some(body) if is_bare_sister(&line) => [b">", &body[1..], b"/.*_.*\n"].concat(),
                _ => line,
            });
            lines.collect::<Vec<_>>().concat()
        }),
        text("a sister rule without a context is one of >", |text| {
            let lines = lines_of(text).into_iter().map(|line| match is_bare_sister(&line) {
                true => [b">", &line[1..]].concat(),
                false => line,
            });
            lines.collect::<Vec<_>>().concat()
        }),
        after("6 before 5 in a sister rule without a context", |request, found| {
            let mut lines = lines_of(&request.text);
            let index = found.line.saturating_sub(1) as usize;
            if found.number == 5 && lines.get(index).is_some_and(|line| is_bare_sister(line)) {
                lines[index][0] = b'>';
                let read = faultless(&Request { text: lines.concat(), ..request.clone() });
                if (read.number, read.line) == (6, found.line) {
                    return read;
                }
            }
            found
        }),
        after("underscores of sister rules aren't counted", |request, found| {
            let lines = lines_of(&request.text);
            let counted = found.number == 4 && is_sister(&lines[found.line as usize - 1]);
            Compiled { number: if counted { 5 } else { found.number }, ..found }
        }),
    ]
}

fn is_sister(line: &[u8]) -> bool {
    line.starts_with(b"<") || line.starts_with(b"^")
}

fn is_bare_sister(line: &[u8]) -> bool {
    is_sister(line) && !line.contains(&b'/')
}

/// The first byte of every line changed.
fn signs_changed(text: &[u8], change: fn(u8) -> u8) -> Vec<u8> {
    let lines = lines_of(text).into_iter().map(|mut line| {
        line[0] = change(line[0]);
        line
    });
    lines.collect::<Vec<_>>().concat()
}

/// Another first marks byte on the card of a text without rules, where the
/// text is a wanted one.
fn marks_changed(name: &'static str, wanted: fn(&Request) -> bool, byte: u8) -> Planted {
    let compile = move |request: &Request| {
        let mut found = faultless(request);
        if is_ruleless(request, &found) && wanted(request) {
            let letters = usize::from(found.card_buffer[2]);
            found.card_buffer[card::CONTENTS_LENGTH + letters] = byte;
        }
        found
    };
    Planted { name, compile: Box::new(compile) }
}

fn limits() -> Vec<Planted> {
    vec![
        stages("511 sets at most", Limits { sets: 511, ..LIMITS }, rule),
        stages("513 sets at most", Limits { sets: 513, ..LIMITS }, rule),
        stages("119 states at most", Limits { states: 119, ..LIMITS }, rule),
        stages("121 states at most", Limits { states: 121, ..LIMITS }, rule),
    ]
}

fn recipes() -> Vec<Planted> {
    planted_recipes::all().into_iter().map(|(name, recipe)| stages(name, LIMITS, recipe)).collect()
}

/// Faults in what a rule of some kind is or means.
pub fn of_kinds() -> Vec<Planted> {
    let meanings = planted_recipes::wrong_meanings().into_iter();
    sisters().into_iter().chain(meanings.map(|(name, recipe)| stages(name, LIMITS, recipe))).collect()
}

fn cards() -> Vec<Planted> {
    vec![
        card_changed("keeps a dead state that no plan reaches", |bytes| {
            let bodies = board::bodies(bytes).expect("a card");
            let n = bodies.states();
            if bodies.marks.contains(&2) || n >= card::MOST_STATES {
                return bytes.to_vec();
            }
            let marks = [bodies.marks, &[2]].concat();
            let moves = [bodies.moves, &vec![n as u8; bodies.letters.len()]].concat();
            card::lay_out(bodies.letters, &marks, &moves)
        }),
        card_changed("marks dead states 0", |bytes| {
            let bodies = board::bodies(bytes).expect("a card");
            let marks: Vec<u8> = bodies.marks.iter().map(|&byte| byte % 2).collect();
            card::lay_out(bodies.letters, &marks, bodies.moves)
        }),
        card_changed("numbers depth first", |bytes| {
            let bodies = board::bodies(bytes).expect("a card");
            let machine = board::machine(&bodies);
            let mut order: Vec<usize> = Vec::new();
            let mut waiting = vec![0];
            while let Some(state) = waiting.pop() {
                if !order.contains(&state) {
                    order.push(state);
                    waiting.extend(machine.next[state].iter().rev());
                }
            }
            let number = |state: usize| order.iter().position(|&other| other == state).expect("reached") as u8;
            let marks: Vec<u8> = order.iter().map(|&state| bodies.marks[state]).collect();
            let moves: Vec<u8> =
                order.iter().flat_map(|&state| machine.next[state].iter().map(|&target| number(target))).collect();
            card::lay_out(bodies.letters, &marks, &moves)
        }),
        card_changed("high byte first", |bytes| {
            let mut bytes = bytes.to_vec();
            for pair in bytes[..12].chunks_mut(2) {
                pair.swap(0, 1);
            }
            bytes
        }),
        card_changed("the moves' high byte lost", |bytes| {
            let mut bytes = bytes.to_vec();
            bytes[11] = 0;
            bytes
        }),
    ]
}

fn buffers() -> Vec<Planted> {
    let lengths = |name, change: fn(&mut Lent)| {
        let compile = move |request: &Request| {
            let mut lent = lent(request);
            change(&mut lent);
            answer(request, compile_by(&request.text, &lent, LIMITS, rule).0)
        };
        Planted { name, compile: Box::new(compile) }
    };
    vec![
        lengths("an exact card buffer is short", |lent| lent.card = lent.card.saturating_sub(1)),
        lengths("an exact work buffer is short", |lent| lent.bench[1].0 += 1),
        lengths("a work buffer one short will do", |lent| lent.bench[1].0 -= 1),
        lengths("the last work buffer isn't tested", |lent| lent.bench[2].0 = 0),
        Planted {
            name: "the bench before the long book",
            compile: Box::new(|request| {
                let found = faultless(request);
                let short = request.bench.iter().zip(bench()).any(|(lent, buffer)| *lent < buffer.needed);
                if found.number == 1 && short {
                    return refused(request, 2, 0);
                }
                found
            }),
        },
        Planted {
            name: "the card buffer before the lines",
            compile: Box::new(|request| {
                let found = faultless(request);
                if found.line > 0 && request.card_length == 0 {
                    return refused(request, 11, 0);
                }
                found
            }),
        },
    ]
}
