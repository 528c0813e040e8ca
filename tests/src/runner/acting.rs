//! This program in the part of one of the product's programs, with a fault
//! or without: the comparisons of programs are tried on it.

use crate::examples::{EVERYTHING_CARD, NO_LETTERS_CARD};
use crate::expected_output::{card_or_line, verdicts};
use std::io::{Read, Write};

/// The faults of a judging program; the first is none.
pub const JUDGING: &[&str] = &[
    "none",
    "a plan behind the last line end",
    "no plan without a line end",
    "strips carriage returns",
    "strips spaces",
    "prints a header",
    "prints the letters before a foreign one",
    "reads 3,278 bytes of the card",
    "a missing card is everything's",
    "lines of 4,096 bytes at most",
    "input of 65,536 bytes at most",
    "one reading of the input",
    "no line end behind the last verdict",
    "stops at byte 26",
    "crashes on a foreign letter",
    "a failed read is the end",
    "answers at the end only",
    "a failed write is not told",
    "a card without letters is refused",
    "an empty line is no plan without letters",
    "unfinished without its number",
    "one letter less owed",
    "numbers of two digits",
    "the first number for all",
    "a number for all that isn't hopeless",
    "the number in a line of its own",
];

/// The faults of a compiling program; the first is none.
pub const COMPILING: &[&str] = &[
    "none",
    "no line end behind a refusal",
    "a line end behind a card",
    "no line number",
    "reads 16,384 bytes",
    "one reading of the input",
    "prints the card in hexadecimal",
    "says nothing",
    "crashes on a long book",
    "a failed read is the end",
    "a failed write is not told",
    "no input is a spoiled line",
    "no input prints nothing",
    "no rule is refused",
    "a line end is no input",
    "< and ^ exchanged",
    "< and ^ are stray",
    "a rule is one of >",
    "folds bytes by seven bits",
];

/// While the input is no longer than this, what is ready is written before
/// each read.
const SHORT: usize = 64;

pub fn judge(fault: &str) {
    let card = std::fs::read("board.bin").ok();
    let mut input = Vec::new();
    let mut written = 0;
    let mut answer = |input: &[u8], whole: bool| {
        let output = answers(fault, card.clone(), input.to_vec(), whole);
        write_output(fault, &output[written..]);
        written = output.len();
    };
    let read = read_pieces(fault, &mut input, |so_far| {
        if so_far.len() <= SHORT && fault != "answers at the end only" {
            answer(ended(so_far), false);
        }
    });
    if read {
        answer(&input, true)
    } else {
        answer(ended(&input), false)
    }
}

/// The input up to its last line end.
fn ended(input: &[u8]) -> &[u8] {
    &input[..input.iter().rposition(|&byte| byte == b'\n').map_or(0, |place| place + 1)]
}

/// What is printed for an input, the whole one or as far as it came.
fn answers(fault: &str, mut card: Option<Vec<u8>>, mut input: Vec<u8>, whole: bool) -> Vec<u8> {
    match fault {
        "a plan behind the last line end" if whole && input.ends_with(b"\n") => input.push(b'\n'),
        "no plan without a line end" => input.truncate(ended(&input).len()),
        "strips carriage returns" => input.retain(|&byte| byte != b'\r'),
        "strips spaces" => input.retain(|&byte| byte != b' '),
        "reads 3,278 bytes of the card" => {
            if let Some(bytes) = &mut card {
                bytes.truncate(3_278);
            }
        }
        "a missing card is everything's" => card = card.or(Some(EVERYTHING_CARD.to_vec())),
        "lines of 4,096 bytes at most" => {
            let cut = input.split(|&byte| byte == b'\n').map(|line| &line[..line.len().min(4096)]);
            input = cut.collect::<Vec<_>>().join(&b'\n');
        }
        "input of 65,536 bytes at most" => input.truncate(65_536),
        "a card without letters is refused" if is_without_letters(&card) => card = None,
        "an empty line is no plan without letters" if is_without_letters(&card) => {
            let lines = input.split_inclusive(|&byte| byte == b'\n').filter(|line| *line != b"\n");
            input = lines.collect::<Vec<_>>().concat();
        }
        "stops at byte 26" => {
            let kept = input.iter().position(|&byte| byte == 26).unwrap_or(input.len());
            input.truncate(kept);
        }
        _ => {}
    }
    let mut output = verdicts(card.as_deref(), &input);
    let text = String::from_utf8_lossy(&output).into_owned();
    match fault {
        "prints a header" => output = [b"verdicts\n", &output[..]].concat(),
        "prints the letters before a foreign one" => output = text.replace("refused 27", "refused 27 1").into_bytes(),
        "no line end behind the last verdict" => {
            output.pop();
        }
        "unfinished without its number" => output = with_numbers(&text, |_, _| "unfinished".into()),
        "one letter less owed" => output = with_numbers(&text, |_, owed| format!("unfinished {}", owed - 1)),
        "numbers of two digits" => output = with_numbers(&text, |_, owed| format!("unfinished {}", owed % 100)),
        "the first number for all" => output = with_numbers(&text, |first, _| format!("unfinished {first}")),
        "a number for all that isn't hopeless" => output = text.replace("allowed", "allowed 0").into_bytes(),
        "the number in a line of its own" => output = text.replace("unfinished ", "unfinished\n").into_bytes(),
        "crashes on a foreign letter" if text.contains("refused 27") => std::process::abort(),
        _ => {}
    }
    output
}

/// The lines of unfinished plans made from what the first of them owes and
/// what each does.
fn with_numbers(text: &str, line: fn(usize, usize) -> String) -> Vec<u8> {
    let mut first = None;
    let changed = |found: &str| match found.strip_prefix("unfinished ").and_then(|owed| owed.parse().ok()) {
        Some(owed) => line(*first.get_or_insert(owed), owed) + "\n",
        None => format!("{found}\n"),
    };
    text.lines().map(changed).collect::<String>().into_bytes()
}

fn is_without_letters(card: &Option<Vec<u8>>) -> bool {
    card.as_ref().is_some_and(|bytes| bytes.get(2..4) == Some(&[0, 0]))
}

pub fn compile(fault: &str) {
    let mut input = Vec::new();
    if !read_pieces(fault, &mut input, |_| {}) {
        return;
    }
    match fault {
        "reads 16,384 bytes" => input.truncate(16_384),
        "a line end is no input" if input == b"\n" => input.clear(),
        "< and ^ exchanged" => {
            for byte in &mut input {
                *byte = match byte {
                    b'<' => b'^',
                    b'^' => b'<',
                    _ => *byte,
                };
            }
        }
        "< and ^ are stray" => {
            for byte in input.iter_mut().filter(|byte| b"<^".contains(byte)) {
                *byte = b'~';
            }
        }
        "folds bytes by seven bits" => {
            for byte in &mut input {
                *byte %= 128;
            }
        }
        _ => {}
    }
    let mut output = card_or_line(&input);
    let is_refusal = output.starts_with(b"refused");
    match fault {
        "no line end behind a refusal" if is_refusal => {
            output.pop();
        }
        "a line end behind a card" if !is_refusal => output.push(b'\n'),
        "no line number" if is_refusal => output = output[..9].to_vec(),
        "prints the card in hexadecimal" if !is_refusal => {
            output = output.iter().map(|byte| format!("{byte:02X}")).collect::<String>().into_bytes();
        }
        "says nothing" => output.clear(),
        "no input is a spoiled line" if input.is_empty() => output = b"refused 5 line 1\n".to_vec(),
        "no input prints nothing" if input.is_empty() => output.clear(),
        "no rule is refused" if !is_refusal && output != NO_LETTERS_CARD && !has_rule(&input, b"><^") => {
            output = b"refused 10 line 0\n".to_vec();
        }
        "a rule is one of >" if !is_refusal && output != NO_LETTERS_CARD && !has_rule(&input, b">") => {
            output = EVERYTHING_CARD.to_vec();
        }
        "crashes on a long book" if input.len() > 16_384 => std::process::abort(),
        _ => {}
    }
    write_output(fault, &output);
}

/// Whether a line begins with one of the signs.
fn has_rule(text: &[u8], signs: &[u8]) -> bool {
    text.split(|&byte| byte == b'\n').any(|line| line.first().is_some_and(|sign| signs.contains(sign)))
}

/// Reads to the end, calling `before` before each read; false where a read
/// failed, which is told.
fn read_pieces(fault: &str, input: &mut Vec<u8>, mut before: impl FnMut(&[u8])) -> bool {
    let mut buffer = vec![0; 65_536];
    loop {
        before(input);
        match std::io::stdin().read(&mut buffer) {
            Ok(0) => return true,
            Ok(length) => input.extend(&buffer[..length]),
            Err(_) if fault == "a failed read is the end" => return true,
            Err(error) => {
                eprintln!("the input can't be read: {error}");
                return false;
            }
        }
        if fault == "one reading of the input" {
            input.truncate(16_385);
            return true;
        }
    }
}

fn write_output(fault: &str, output: &[u8]) {
    let mut standard_output = std::io::stdout();
    let written = standard_output.write_all(output).and_then(|()| standard_output.flush());
    if let (Err(error), true) = (written, fault != "a failed write is not told") {
        eprintln!("the output can't be written: {error}");
    }
}
