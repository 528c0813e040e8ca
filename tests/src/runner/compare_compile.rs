//! The product's compiler against the reference.

use crate::byte_examples;
use crate::effort::Effort;
use crate::entry::{Buffer, CompileEntry, Compiled, Reference, Request};
use crate::examples::{self, Due, Example};
use crate::extra_books;
use crate::last_case;
use crate::limits;
use crate::random_books;
use crate::rng::Rng;
use crate::shrink::shrink;
use crate::sister_examples;
use crate::tally::{hex, shown, Tally};
use reference::card;
use reference::reader::{self, LONGEST_TEXT};
use reference::refusal::{Refusal, NESTED};

/// Work buffers that a caller may be asked for.
const MOST_BUFFERS: usize = 8;
const MOST_BYTES: usize = 65_536;

struct Comparison<'p> {
    product: &'p dyn CompileEntry,
    reference: Reference,
    bench: Vec<Buffer>,
    effort: Effort,
}

pub fn run(tally: &mut Tally, product: &dyn CompileEntry, effort: Effort) {
    let bench = product.bench();
    let comparison = Comparison { product, reference: Reference { bench: bench.clone() }, bench, effort };
    if effort.fixed {
        comparison.fixed(tally);
    }
    comparison.random(tally);
}

impl Comparison<'_> {
    fn fixed(&self, tally: &mut Tally) {
        tally.group("compile: the work buffers' documented lengths", |tally| {
            tally.check(self.bench.len() <= MOST_BUFFERS, || format!("{} work buffers", self.bench.len()));
            for (index, buffer) in self.bench.iter().enumerate() {
                tally.check(buffer.needed * buffer.width <= MOST_BYTES, || format!("buffer {index}: {buffer:?}"));
            }
        });
        tally.group("compile: examples", |tally| {
            for example in examples::quick() {
                self.example(tally, &example);
            }
            for (left, right, _) in examples::binding() {
                for expression in [left, right] {
                    self.text(tally, expression, format!(":abc\n>{expression}/.*a_@|{expression}\n").as_bytes());
                }
            }
            for (left, right, same) in sister_examples::alike() {
                self.alike(tally, left, right, same);
            }
        });
        tally.group("compile: every byte in 24 places", |tally| {
            for example in byte_examples::high() {
                self.example(tally, &example);
            }
            for (title, text) in byte_examples::low() {
                self.text(tally, title, &text);
            }
        });
        tally.group("compile: further books", |tally| {
            for (name, text) in extra_books::all() {
                self.text(tally, &name, &text);
            }
        });
        tally.group("compile: each work buffer exact and one short", |tally| self.benches(tally));
        tally.group("compile: the card buffer exact and one short", |tally| self.card_buffers(tally));
        tally.group("compile: rubbish in the lent buffers", |tally| self.rubbish(tally));
        tally.group("compile: limits from both sides", |tally| {
            for limit in limits::stages() {
                self.text(tally, &format!("{:?}", limit.nearest), &limit.text);
            }
            self.text(tally, "the longest card", &limits::longest_card_book());
        });
        tally.group("compile: long texts", |tally| {
            for example in examples::many_stages() {
                self.example(tally, &example);
            }
            for length in [LONGEST_TEXT + 1, LONGEST_TEXT, LONGEST_TEXT - 1] {
                for text in limits::long_texts(length) {
                    self.text(tally, &format!("{length} bytes"), &text);
                }
            }
            self.text(tally, "many stages of 512 sets", &limits::many_crowds());
            self.text(tally, "100,000 bytes", &[b"\n".repeat(100_000), b">a".to_vec()].concat());
        });
    }

    fn random(&self, tally: &mut Tally) {
        type Make = fn(&mut Rng) -> Vec<u8>;
        let kinds: [(&str, usize, Make); 3] = [
            ("compile: random books", 5000, random_books::book),
            ("compile: damaged books", 5000, |rng| {
                let good = random_books::book(rng);
                random_books::damaged(rng, &good)
            }),
            ("compile: random lines", 3000, random_books::soup),
        ];
        let title = "compile: obliging rules worded as forbidding ones";
        tally.group(title, |tally| {
            let mut rng = tally.rng(title);
            for _ in 0..self.effort.of(1000) {
                self.reworded(tally, &random_books::book(&mut rng));
            }
        });
        for (title, usual, make) in kinds {
            tally.group(title, |tally| {
                let mut rng = tally.rng(title);
                for case in 0..self.effort.of(usual) {
                    let text = make(&mut rng);
                    let request = self.any_request(&mut rng, text);
                    self.compare(tally, &format!("{title}, case {case}"), &request);
                }
            });
        }
    }

    /// A call with exactly what is needed, and a card buffer for any card.
    fn request(&self, text: &[u8]) -> Request {
        Request {
            text: text.to_vec(),
            bench: self.bench.iter().map(|buffer| buffer.needed).collect(),
            card_length: card::LONGEST,
            rubbish: text.len() as u64,
        }
    }

    /// A call with other lengths too: often enough, sometimes short.
    fn any_request(&self, rng: &mut Rng, text: Vec<u8>) -> Request {
        let mut request = self.request(&text);
        request.rubbish = rng.next();
        if rng.once_in(4) {
            request.card_length = rng.below(200);
        }
        if rng.once_in(8) {
            for lent in &mut request.bench {
                *lent += rng.below(3);
            }
        }
        if rng.once_in(40) && !request.bench.is_empty() {
            let index = rng.below(request.bench.len());
            request.bench[index] = request.bench[index].saturating_sub(rng.between(1, 3));
        }
        request
    }

    fn text(&self, tally: &mut Tally, title: &str, text: &[u8]) {
        self.compare(tally, title, &self.request(text));
    }

    /// The product against the written result itself, then the reference.
    fn example(&self, tally: &mut Tally, example: &Example) {
        if tally.is_over() {
            return;
        }
        let request = self.request(&example.text);
        let found = self.answer(&request);
        let fits = match &example.due {
            Due::Refused { number, line } => (found.number, found.line) == (u64::from(*number), *line as u64),
            Due::Accepted { peak, card, .. } => {
                found.number == 0
                    && peak.is_none_or(|peak| found.peak == peak as u64)
                    && card.as_ref().is_none_or(|card| found.card_buffer.starts_with(card))
            }
        };
        tally.check(fits, || {
            format!(
                "{}: {}\n  due: {:?}\n  product: {}",
                example.title,
                shown(&example.text),
                example.due,
                told(&found)
            )
        });
        self.compare(tally, example.title, &request);
    }

    /// Whether the product gives two books the same card, whatever the reference says.
    fn alike(&self, tally: &mut Tally, left: &str, right: &str, same: bool) {
        if tally.is_over() {
            return;
        }
        let card = |text: &str| {
            let found = self.answer(&self.request(text.as_bytes()));
            (found.number, found.card_buffer[..(found.length as usize).min(found.card_buffer.len())].to_vec())
        };
        let (left_card, right_card) = (card(left), card(right));
        tally.check((left_card == right_card) == same && left_card.0 + right_card.0 == 0, || {
            format!("{left:?} and {right:?}: same is {same}\n  product: {left_card:?}\n  and      {right_card:?}")
        });
    }

    /// `^p` has the contexts' stages behind those of `.*-p`, and so has
    /// `<!(p)`: the product's two answers are one, peak and refusal included.
    fn reworded(&self, tally: &mut Tally, text: &[u8]) {
        let other = random_books::without_obliging(text);
        let is_nested = |refusal: Refusal| refusal.number == NESTED;
        if tally.is_over() || other == text || reader::read_book(&other).is_err_and(is_nested) {
            return;
        }
        let [found, reworded] =
            [text, &other[..]].map(|text| self.answer(&Request { rubbish: 0, ..self.request(text) }));
        tally.check(found == reworded, || {
            let (left, right) = (shown(text), shown(&other));
            format!("{left} and {right}\n  product: {}\n  and      {}", told(&found), told(&reworded))
        });
    }

    fn answer(&self, request: &Request) -> Compiled {
        last_case::note(|| {
            let (text, bench, card) = (shown(&request.text), &request.bench, request.card_length);
            format!("compiling {text}\n  lent: {bench:?}, card buffer {card}, rubbish {}", request.rubbish)
        });
        self.product.compile(request)
    }

    fn agrees(&self, request: &Request) -> bool {
        self.answer(request) == self.reference.compile(request)
    }

    fn compare(&self, tally: &mut Tally, title: &str, request: &Request) {
        if tally.is_over() {
            return;
        }
        let agrees = self.agrees(request);
        let small = if !agrees && tally.prints_failures() {
            let text =
                shrink(&request.text, 1500, |text| !self.agrees(&Request { text: text.to_vec(), ..request.clone() }));
            Request { text, ..request.clone() }
        } else {
            request.clone()
        };
        tally.check(agrees, || {
            format!(
                "{title}\n  smallest failing text: {}\n  lent: {:?}, card buffer {}, rubbish {}\n  reference: {}\n  product:   {}",
                shown(&small.text),
                small.bench,
                small.card_length,
                small.rubbish,
                told(&self.reference.compile(&small)),
                told(&self.answer(&small)),
            )
        });
    }

    /// Texts that meet each of the early refusals, and some that are accepted.
    fn telling_texts() -> Vec<Vec<u8>> {
        vec![
            b":ab\n>b / .*a _ .*\n".to_vec(),
            b":ab\n<b / .*a _ .*\n".to_vec(),
            b":ab\n^b\n".to_vec(),
            vec![b' '; LONGEST_TEXT + 1],
            Vec::new(),
            b">".to_vec(),
            b":\n".to_vec(),
            b":ab\n".to_vec(),
            b":ab\n=Aa+\n".to_vec(),
        ]
    }

    fn benches(&self, tally: &mut Tally) {
        for text in Self::telling_texts() {
            let exact = self.request(&text);
            self.compare(tally, "every work buffer exact", &exact);
            let longer = Request { bench: exact.bench.iter().map(|needed| needed + 1).collect(), ..exact.clone() };
            self.compare(tally, "every work buffer one longer", &longer);
            let none = Request { bench: vec![0; exact.bench.len()], ..exact.clone() };
            self.compare(tally, "no work buffer", &none);
            for index in 0..exact.bench.len() {
                let needed = exact.bench[index];
                for lent in [needed.saturating_sub(1), needed / 2, 0] {
                    let mut request = longer.clone();
                    request.bench[index] = lent;
                    self.compare(tally, &format!("work buffer {index} of {lent}"), &request);
                    request.card_length = 0;
                    self.compare(tally, &format!("work buffer {index} of {lent}, no card buffer"), &request);
                }
                let mut request = exact.clone();
                request.bench[index] = needed.saturating_sub(1);
                self.compare(tally, &format!("only work buffer {index} one short"), &request);
            }
        }
    }

    fn card_buffers(&self, tally: &mut Tally) {
        let books: [&[u8]; 11] = [
            b"",
            b":ab\n",
            b":ab\n=Aa+\n",
            b":ab\n>b / .*a _ .*\n",
            b":ab\n>a\n",
            b":ab\n<a/b_b\n",
            b":ab\n^a/a_b/b_a\n",
            b":a\n>@/a_.*\n",
            b":abcdefghijklmnopqrstuvwxyz\n>az/.*_.*b.*\n",
            b":abc\n>b / a _ a / c _ c\n",
            &limits::longest_card_book(),
        ];
        for text in books {
            let whole = self.request(text);
            let length = self.reference.compile(&whole).length as usize;
            for lent in [length, length - 1, length + 1, length / 2, 12, 11, 1, 0, length + 500] {
                let request = Request { card_length: lent, ..whole.clone() };
                self.compare(tally, &format!("a card buffer of {lent} for {length}"), &request);
            }
        }
        for text in Self::telling_texts() {
            for lent in [0, 1, 12, 13, 14, 16, 17, 22, 23] {
                let request = Request { card_length: lent, ..self.request(&text) };
                self.compare(tally, &format!("a card buffer of {lent}"), &request);
            }
        }
    }

    fn rubbish(&self, tally: &mut Tally) {
        let mut rng = tally.rng("rubbish");
        for _ in 0..12 {
            let text = random_books::book(&mut rng);
            for _ in 0..8 {
                let request = Request { rubbish: rng.next(), ..self.request(&text) };
                self.compare(tally, "other rubbish", &request);
            }
        }
    }
}

/// An answer in words.
fn told(answer: &Compiled) -> String {
    let numbers =
        format!("number {} line {} length {} peak {}", answer.number, answer.line, answer.length, answer.peak);
    let spilled = if answer.spilled { ", WROTE OUTSIDE A LENT BUFFER" } else { "" };
    let shown_bytes = (answer.length as usize + 4).min(answer.card_buffer.len());
    format!("{numbers}{spilled}, card buffer begins {}", hex(&answer.card_buffer[..shown_bytes]))
}
