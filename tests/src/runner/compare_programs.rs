//! The product's two programs against the reference.

use crate::board_examples::{chain, near_and_far};
use crate::effort::Effort;
use crate::examples;
use crate::expected_output::{card_or_line, compiled_out, verdicts, written_out};
use crate::extra_books;
use crate::limits;
use crate::program::{Handing, Program, WorkingDirectory};
use crate::random_books;
use crate::random_cards;
use crate::rng::Rng;
use crate::shrink::shrink;
use crate::sister_examples;
use crate::tally::{hex, shown, Tally};
use reference::board;
use reference::compile::{compile, Lent};
use reference::pieces::words;
use reference::reader::LONGEST_TEXT;

/// The judging program.
pub fn judge(tally: &mut Tally, program: &Program, effort: Effort) {
    let judge = Judge { program, place: WorkingDirectory::new() };
    if effort.fixed {
        judge.fixed(tally);
    }
    tally.group("programs: random cards and plans", |tally| {
        let mut rng = tally.rng("programs: random cards and plans");
        for _ in 0..effort.of(300) {
            judge.random(tally, &mut rng);
        }
    });
}

struct Judge<'p> {
    program: &'p Program,
    place: WorkingDirectory,
}

impl Judge<'_> {
    fn fixed(&self, tally: &mut Tally) {
        tally.group("programs: judging, written out", |tally| {
            for (card, input, due) in written_out() {
                self.place.set_board(card);
                let found = self.program.run(&self.place, input, Handing::AtOnce);
                let title = format!("board.bin {}, input {}", hex(card.unwrap_or(b"none")), shown(input));
                tally.same(&title, &Ok(String::from_utf8_lossy(due).into_owned()), &found.map(text_of));
            }
        });
        tally.group("programs: judging, inputs", |tally| self.inputs(tally));
        tally.group("programs: judging, cards", |tally| self.cards(tally));
        tally.group("programs: judging, long inputs", |tally| self.long_inputs(tally));
        tally.group("programs: judging, reads and writes that fail", |tally| self.failures(tally));
        tally.group("programs: judging, answers before it waits", |tally| {
            self.place.set_board(Some(examples::FIRST_CARD));
            let input = b"ab\nabb\nb";
            let due = verdicts(Some(examples::FIRST_CARD), b"ab\nabb\n");
            let found = self.program.first_bytes(&self.place, input, due.len());
            tally.same("two plans and one under way", &Ok(text_of(due)), &found.map(text_of));
        });
    }

    /// A read that fails is not the end: the plan under way has no verdict.
    fn failures(&self, tally: &mut Tally) {
        self.place.set_board(Some(examples::FIRST_CARD));
        for (input, ended) in [(&b"ab\nabb"[..], &b"ab\n"[..]), (b"ab\n", b"ab\n"), (b"b", b""), (b"", b"")] {
            let found = self.program.run_until_read_fails(&self.place, input);
            let due = verdicts(Some(examples::FIRST_CARD), ended);
            tally.check(found.as_ref().is_ok_and(|said| said.output == due && said.complaint.ends_with(b"\n")), || {
                format!("judging program, a read that fails behind {}: {found:?}", shown(input))
            });
        }
        let found = self.program.run_unwritable(&self.place, b"ab\n");
        tally.check(found.as_ref().is_ok_and(|said| said.complaint.ends_with(b"\n")), || {
            format!("judging program, a write that fails: {found:?}")
        });
    }

    fn inputs(&self, tally: &mut Tally) {
        let card = Some(examples::FIRST_CARD);
        let inputs: [&[u8]; 16] = [
            b"\n\n\n",
            b"ab\nab",
            b"ab\nab\n",
            b"\r\n",
            b"\r",
            b"ab\rab\n",
            b" \n",
            b"\t\n",
            b"\0\n",
            b"a\0b\n",
            b"AB\n",
            b"\xff\n\xfe",
            b"\xef\xbb\xbfab\n",
            b"ab\n\x1a",
            b"abc\nab\nbbbbc\n",
            b"\n\nb\n\n",
        ];
        for input in inputs {
            self.compare(tally, card, input, Handing::AtOnce);
            self.compare(tally, card, input, Handing::InPieces(1));
            self.compare(tally, Some(examples::NO_LETTERS_CARD), input, Handing::AtOnce);
            self.compare(tally, Some(&near_and_far()), input, Handing::AtOnce);
        }
        let every_byte: Vec<u8> = (0..=255).flat_map(|byte| [b'a', byte, b'b', b'\n']).collect();
        self.compare(tally, card, &every_byte, Handing::AtOnce);
        let several = b"ab\nabb\nb\n\nba\naaab\nzz\n".repeat(3);
        for size in [1, 2, 3, 5, 7, 11] {
            self.compare(tally, card, &several, Handing::InPieces(size));
        }
    }

    fn cards(&self, tally: &mut Tally) {
        let longest = match compile(&limits::longest_card_book(), &Lent::plenty()) {
            Ok(accepted) => accepted.card,
            Err(_) => Vec::new(),
        };
        let mut cards: Vec<Vec<u8>> = vec![
            Vec::new(),
            examples::FIRST_CARD.to_vec(),
            examples::NO_A_CARD.to_vec(),
            examples::NOTHING_CARD.to_vec(),
            examples::EVERYTHING_CARD.to_vec(),
            [examples::NO_LETTERS_CARD, b"\n"].concat(),
            [examples::FIRST_CARD, b"\n"].concat(),
            [examples::FIRST_CARD, b"\0"].concat(),
            examples::FIRST_CARD[..22].to_vec(),
            longest.clone(),
            [&longest[..], b"\0"].concat(),
            [&longest[..], b"\n"].concat(),
            [&longest[..], &[0; 5000]].concat(),
            [&longest[..], &[0; 100_000]].concat(),
            vec![0x0C; 1_000_000],
            examples::FIRST_CARD.repeat(1000),
            near_and_far(),
        ];
        cards.extend(crate::board_examples::loads().into_iter().map(|(_, card, _)| card));
        for card in cards {
            self.compare(tally, Some(&card), b"ab\n\nb\naaaaaaa\nzz\n", Handing::AtOnce);
        }
        self.compare(tally, None, b"ab\nb", Handing::AtOnce);
        self.compare(tally, None, b"", Handing::AtOnce);
        // Numbers of one digit, two and three: 119 letters are owed, then one less with each line.
        let rising: Vec<u8> = (0..122).flat_map(|length| (examples::a(length) + "\n").into_bytes()).collect();
        for letters in [&b"a"[..], b"ab"] {
            self.compare(tally, Some(&chain(letters, 120)), &rising, Handing::AtOnce);
        }
    }

    fn long_inputs(&self, tally: &mut Tally) {
        let card = Some(examples::FIRST_CARD);
        let line = |length: usize| b"ab".repeat(length / 2 + 1)[..length].to_vec();
        for length in [4095, 4096, 4097, 8191, 8192, 8193, 65_535, 65_536, 65_537, 1 << 20] {
            let mut input = line(length);
            self.compare(tally, card, &input, Handing::AtOnce);
            input.extend(b"\nb\nabb\n");
            self.compare(tally, card, &input, Handing::AtOnce);
            input[length - 1] = b'z';
            self.compare(tally, card, &input, Handing::AtOnce);
        }
        let ten_megabytes = line(10_000_000);
        self.compare(tally, card, &ten_megabytes, Handing::AtOnce);
        self.compare(tally, card, &[&ten_megabytes[..], b"\nb\n"].concat(), Handing::AtOnce);
        self.compare(tally, card, &[b"b\n", &ten_megabytes[..], b"bb\nab"].concat(), Handing::AtOnce);
        self.compare(tally, card, &[&ten_megabytes[..], b"c\nab"].concat(), Handing::AtOnce);
        self.compare(tally, None, &ten_megabytes, Handing::AtOnce);
        self.compare(tally, card, &b"\n".repeat(100_000), Handing::AtOnce);
        self.compare(tally, Some(examples::NO_LETTERS_CARD), &b"\n\na\n".repeat(30_000), Handing::AtOnce);
        let mut rng = tally.rng("100,000 lines");
        let mut many = Vec::new();
        for _ in 0..100_000 {
            for _ in 0..rng.below(8) {
                many.push(*rng.pick(b"aaaabbbbbc"));
            }
            many.push(b'\n');
        }
        self.compare(tally, card, &many, Handing::AtOnce);
        self.compare(tally, Some(&near_and_far()), &many, Handing::AtOnce);
        many.pop();
        self.compare(tally, card, &many, Handing::AtOnce);
    }

    fn random(&self, tally: &mut Tally, rng: &mut Rng) {
        let good = if rng.once_in(4) { random_cards::far(rng) } else { random_cards::good(rng) };
        let card = if rng.once_in(2) { good } else { random_cards::damaged(rng, &good) };
        let letters = board::bodies(&card).map(|bodies| bodies.letters.to_vec()).unwrap_or(b"ab".to_vec());
        let mut input = Vec::new();
        for _ in 0..rng.below(12) {
            let plan =
                if rng.once_in(3) { random_cards::far_plan(rng, &card) } else { random_cards::plan(rng, &letters) };
            input.extend(plan);
            if !rng.once_in(30) {
                input.push(b'\n');
            }
        }
        self.compare(tally, Some(&card), &input, Handing::AtOnce);
    }

    fn compare(&self, tally: &mut Tally, card: Option<&[u8]>, input: &[u8], handing: Handing) {
        if tally.is_over() {
            return;
        }
        self.place.set_board(card);
        let run = |input: &[u8]| self.program.run(&self.place, input, handing);
        let failed = run(input).as_deref() != Ok(&verdicts(card, input)[..]);
        let small = if failed && tally.prints_failures() {
            shrink(input, 150, |input| run(input).as_deref() != Ok(&verdicts(card, input)[..]))
        } else {
            Vec::new()
        };
        tally.check(!failed, || {
            let due = text_of(verdicts(card, &small));
            format!(
                "judging program, board.bin {}, smallest failing input {} ({handing:?})\n  reference: {}\n  product:   {}",
                hex(card.unwrap_or(b"none")),
                shown(&small),
                shown(due.as_bytes()),
                run(&small).map_or_else(|error| error, |output| shown(&output)),
            )
        });
    }
}

fn text_of(bytes: Vec<u8>) -> String {
    String::from_utf8_lossy(&bytes).into_owned()
}

/// The compiling program.
pub fn compiler(tally: &mut Tally, program: &Program, effort: Effort) {
    let compiler = Compiler { program, place: WorkingDirectory::new() };
    if effort.fixed {
        compiler.fixed(tally);
    }
    tally.group("programs: random and damaged books", |tally| {
        let mut rng = tally.rng("programs: random and damaged books");
        for case in 0..effort.of(500) {
            let text = random_books::book(&mut rng);
            let text = if case % 2 == 0 { text } else { random_books::damaged(&mut rng, &text) };
            compiler.compare(tally, &text, Handing::AtOnce);
        }
    });
}

struct Compiler<'p> {
    program: &'p Program,
    place: WorkingDirectory,
}

impl Compiler<'_> {
    fn fixed(&self, tally: &mut Tally) {
        tally.group("programs: compiling, written out", |tally| {
            for (text, due) in compiled_out() {
                let found = self.program.run(&self.place, text, Handing::AtOnce);
                tally.same(&format!("compiling program, text {}", shown(text)), &Ok(due.to_vec()), &found);
            }
        });
        tally.group("programs: compiling, examples", |tally| {
            for example in examples::quick() {
                self.compare(tally, &example.text, Handing::AtOnce);
            }
        });
        tally.group("programs: compiling, further books", |tally| {
            for (_, text) in extra_books::all() {
                self.compare(tally, &text, Handing::AtOnce);
            }
        });
        tally.group("programs: compiling, limits", |tally| {
            for example in examples::many_stages() {
                self.compare(tally, &example.text, Handing::AtOnce);
            }
            for limit in limits::stages() {
                self.compare(tally, &limit.text, Handing::AtOnce);
            }
            self.compare(tally, &limits::longest_card_book(), Handing::AtOnce);
            for length in [LONGEST_TEXT - 1, LONGEST_TEXT, LONGEST_TEXT + 1, LONGEST_TEXT + 2] {
                let text = &limits::long_texts(length)[0];
                self.compare(tally, text, Handing::AtOnce);
                self.compare(tally, text, Handing::InPieces(1000));
            }
            self.compare(tally, &b"\n".repeat(100_000), Handing::AtOnce);
            self.compare(tally, &vec![b' '; 10_000_000], Handing::AtOnce);
        });
        tally.group("programs: compiling, reads and writes that fail", |tally| {
            let book = b":ab\n>b / .*a _ .*\n";
            for text in [&book[..], b":ab\n", b""] {
                let found = self.program.run_until_read_fails(&self.place, text);
                tally.check(
                    found.as_ref().is_ok_and(|said| said.output.is_empty() && said.complaint.ends_with(b"\n")),
                    || format!("compiling program, a read that fails behind {}: {found:?}", shown(text)),
                );
            }
            let found = self.program.run_unwritable(&self.place, book);
            tally.check(found.as_ref().is_ok_and(|said| said.complaint.ends_with(b"\n")), || {
                format!("compiling program, a write that fails: {found:?}")
            });
        });
        tally.group("programs: compiling, input in pieces", |tally| {
            for size in [1, 2, 3, 5] {
                self.compare(tally, b":ab\n>b / .*a _ .*\n", Handing::InPieces(size));
                self.compare(tally, b":ab\n>b / .*a _ .*", Handing::InPieces(size));
            }
        });
    }

    fn compare(&self, tally: &mut Tally, text: &[u8], handing: Handing) {
        if tally.is_over() {
            return;
        }
        let run = |text: &[u8]| self.program.run(&self.place, text, handing);
        let failed = run(text).as_deref() != Ok(&card_or_line(text)[..]);
        let small = if failed && tally.prints_failures() {
            shrink(text, 300, |text| run(text).as_deref() != Ok(&card_or_line(text)[..]))
        } else {
            Vec::new()
        };
        tally.check(!failed, || {
            format!(
                "compiling program, smallest failing text {} ({handing:?})\n  reference: {}\n  product:   {}",
                shown(&small),
                shown(&card_or_line(&small)),
                run(&small).map_or_else(|error| error, |output| shown(&output)),
            )
        });
    }
}

/// Both programs in a row: the compiled card, judged.
pub fn both(tally: &mut Tally, compiler: &Program, judge: &Program, effort: Effort) {
    tally.group("programs: compiled, then judged", |tally| {
        let place = WorkingDirectory::new();
        let mut rng = tally.rng("programs: compiled, then judged");
        let mut texts = Vec::new();
        if effort.fixed {
            let listed = [examples::ruleless(), examples::owing(), sister_examples::all()].concat();
            texts = listed.into_iter().map(|example| example.text).collect();
        }
        texts.extend((0..effort.of(100)).map(|_| random_books::book(&mut rng)));
        for (case, text) in texts.into_iter().enumerate() {
            let Ok(accepted) = compile(&text, &Lent::plenty()) else { continue };
            let Ok(bodies) = board::load(&accepted.card) else { continue };
            let longest = if bodies.letters.len() > 3 { 2 } else { 4 };
            // Every short plan, and a foreign letter: without letters that is the empty plan's line and one more.
            let input = [words(bodies.letters, longest), vec![b"?".to_vec()]].concat().join(&b'\n');
            let answer = compiler.run(&place, &text, Handing::AtOnce).and_then(|card| {
                place.set_board(Some(&card));
                judge.run(&place, &input, Handing::AtOnce)
            });
            let due = verdicts(Some(&accepted.card), &input);
            tally.check(answer.as_deref() == Ok(&due[..]), || {
                format!("case {case}: both programs on {}: {:?}", shown(&text), answer.map(|output| shown(&output)))
            });
        }
    });
}
