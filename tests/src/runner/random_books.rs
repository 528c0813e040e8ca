//! Random books, well formed and damaged.

use crate::rng::Rng;
use reference::syntax::RuleKind;

/// A well-formed book: an alphabet, perhaps definitions, most often rules of
/// all three kinds. Now and then a text of no bytes.
pub fn book(rng: &mut Rng) -> Vec<u8> {
    if rng.once_in(60) {
        return Vec::new();
    }
    let flavour = rng.below(16);
    let mut writer = Writer {
        letters: match flavour {
            0 => (b'a'..=b'z').collect(),
            1..=3 => some_letters(rng, 1),
            4 => {
                let count = rng.between(4, 8);
                some_letters(rng, count)
            }
            _ => {
                let count = rng.between(2, 3);
                some_letters(rng, count)
            }
        },
        names: Vec::new(),
        spaces: rng.once_in(4),
        heavy: flavour >= 12,
        out: Vec::new(),
    };
    writer.out.push(b':');
    writer.out.extend(writer.letters.clone());
    writer.out.push(b'\n');
    let definitions = if rng.once_in(2) { 0 } else { rng.between(1, 3) };
    for _ in 0..definitions {
        writer.definition(rng);
    }
    let rules = match rng.below(20) {
        0 | 1 => 0,
        2..=10 => 1,
        _ => rng.between(1, 4),
    };
    for _ in 0..rules {
        writer.rule(rng);
        if rng.once_in(10) {
            writer.definition(rng);
        }
    }
    writer.out
}

fn some_letters(rng: &mut Rng, count: usize) -> Vec<u8> {
    if rng.once_in(2) {
        return (b'a'..b'a' + count as u8).collect();
    }
    let mut all: Vec<u8> = (b'a'..=b'z').collect();
    while all.len() > count {
        let gone = rng.below(all.len());
        all.remove(gone);
    }
    all
}

struct Writer {
    letters: Vec<u8>,
    names: Vec<u8>,
    spaces: bool,
    /// Larger expressions and runs of one letter: many sets, many states.
    heavy: bool,
    out: Vec<u8>,
}

impl Writer {
    fn put(&mut self, rng: &mut Rng, byte: u8) {
        if self.spaces && rng.once_in(4) {
            for _ in 0..rng.between(1, 2) {
                self.out.push(b' ');
            }
        }
        self.out.push(byte);
    }

    fn end_line(&mut self, rng: &mut Rng) {
        self.put(rng, b'\n');
    }

    fn definition(&mut self, rng: &mut Rng) {
        let free: Vec<u8> = (b'A'..=b'Z').filter(|name| !self.names.contains(name)).collect();
        let name = *rng.pick(&free);
        self.out.push(b'=');
        self.put(rng, name);
        let size = rng.between(1, if self.heavy { 16 } else { 7 });
        self.choice(rng, size, 0);
        self.end_line(rng);
        self.names.push(name);
    }

    fn rule(&mut self, rng: &mut Rng) {
        let kind = *rng.pick(&RuleKind::ALL);
        self.out.push(kind.sign());
        let size = rng.between(1, if self.heavy { 12 } else { 5 });
        self.choice(rng, size, 0);
        let contexts = *rng.pick(&[0, 1, 1, 1, 1, 2, 2, 2, 3, 4]);
        for _ in 0..contexts.max(kind.fewest_contexts()) {
            self.put(rng, b'/');
            self.side(rng, true);
            self.put(rng, b'_');
            self.side(rng, false);
        }
        self.end_line(rng);
    }

    /// A context's side: often open towards the end of the day.
    fn side(&mut self, rng: &mut Rng, is_left: bool) {
        let size = rng.between(1, 4);
        match rng.below(6) {
            0 => self.put(rng, b'@'),
            1 => self.all_words(rng),
            2 | 3 if is_left => {
                self.all_words(rng);
                self.item(rng, size, 0);
            }
            2 | 3 => {
                self.item(rng, size, 0);
                self.all_words(rng);
            }
            _ => self.choice(rng, size, 0),
        }
    }

    fn all_words(&mut self, rng: &mut Rng) {
        self.put(rng, b'.');
        self.put(rng, b'*');
    }

    /// About `size` atoms; `depth` brackets are open.
    fn choice(&mut self, rng: &mut Rng, size: usize, depth: usize) {
        let (left, right) = halves(rng, size);
        if right > 0 && rng.once_in(4) {
            self.choice(rng, left, depth);
            self.put(rng, b'|');
            self.blend(rng, right, depth);
        } else {
            self.blend(rng, size, depth);
        }
    }

    fn blend(&mut self, rng: &mut Rng, size: usize, depth: usize) {
        let (left, right) = halves(rng, size);
        if right > 0 && rng.once_in(4) {
            self.blend(rng, left, depth);
            let sign = *rng.pick(b"&-");
            self.put(rng, sign);
            self.chain(rng, right, depth);
        } else {
            self.chain(rng, size, depth);
        }
    }

    fn chain(&mut self, rng: &mut Rng, size: usize, depth: usize) {
        let (left, right) = halves(rng, size);
        if right > 0 && !rng.once_in(3) {
            self.chain(rng, left, depth);
            self.item(rng, right, depth);
        } else {
            self.item(rng, size, depth);
        }
    }

    fn item(&mut self, rng: &mut Rng, size: usize, depth: usize) {
        while rng.once_in(9) {
            self.put(rng, b'!');
        }
        if depth < 4 && (size > 1 || rng.once_in(20)) {
            self.put(rng, b'(');
            self.choice(rng, size, depth + 1);
            self.put(rng, b')');
        } else {
            self.atom(rng);
        }
        while rng.once_in(4) {
            let sign = *rng.pick(b"**+?");
            self.put(rng, sign);
        }
    }

    fn atom(&mut self, rng: &mut Rng) {
        let byte = match rng.below(10) {
            0 => b'.',
            1 if rng.once_in(2) => b'@',
            2 | 3 if !self.names.is_empty() => *rng.pick(&self.names),
            _ => *rng.pick(&self.letters),
        };
        let run = if self.heavy && rng.once_in(3) { rng.between(2, 7) } else { 1 };
        for _ in 0..run {
            self.put(rng, byte);
        }
    }
}

/// A size in two parts; the second is 0 only for the size 1.
fn halves(rng: &mut Rng, size: usize) -> (usize, usize) {
    if size < 2 {
        return (size, 0);
    }
    let left = rng.between(1, size - 1);
    (left, size - left)
}

/// The same book with `<!(p)` for every rule `^p`.
pub fn without_obliging(text: &[u8]) -> Vec<u8> {
    let lines = text.split_inclusive(|&byte| byte == b'\n').map(|line| match line.strip_prefix(b"^") {
        Some(rest) => {
            let end = rest.iter().position(|&byte| byte == b'/').unwrap_or(rest.len());
            [b"<!(", &rest[..end], b")", &rest[end..]].concat()
        }
        None => line.to_vec(),
    });
    lines.collect::<Vec<_>>().concat()
}

/// Bytes that mean something in a book, and some that don't.
const LIKELY: &[u8] = b"abcz.@ABC()|&-!*+?/_=>: \n\r\t\0~1<^\x7f\x80\xff";

/// The same book with a few bytes or lines spoiled.
pub fn damaged(rng: &mut Rng, text: &[u8]) -> Vec<u8> {
    let mut text = text.to_vec();
    for _ in 0..*rng.pick(&[1, 1, 1, 2, 3]) {
        damage(rng, &mut text);
    }
    text
}

fn damage(rng: &mut Rng, text: &mut Vec<u8>) {
    let byte = if rng.once_in(8) { rng.next() as u8 } else { *rng.pick(LIKELY) };
    if text.is_empty() {
        text.push(byte);
        return;
    }
    let place = rng.below(text.len());
    match rng.below(18) {
        0..=3 => text[place] = byte,
        4..=6 => text.insert(place, byte),
        7..=8 => {
            text.remove(place);
        }
        9 => text.truncate(if rng.once_in(6) { 0 } else { place }),
        10 => {
            let other = rng.below(text.len());
            text.swap(place, other);
        }
        11 | 12 => {
            // Near the limits that count one sign along a line.
            let sign = *rng.pick(b"((_");
            for _ in 0..rng.between(2, 6) {
                text.insert(place, sign);
            }
        }
        kind => {
            let mut lines: Vec<Vec<u8>> = text.split_inclusive(|&byte| byte == b'\n').map(<[u8]>::to_vec).collect();
            let (from, to) = (rng.below(lines.len()), rng.below(lines.len() + 1));
            let line = lines[from].clone();
            match kind {
                15 => {
                    lines.remove(from);
                }
                16 => lines[from][0] = rng.pick(&RuleKind::ALL).sign(),
                // A rule without its contexts.
                17 => {
                    let end = line.iter().position(|byte| b"/\n".contains(byte)).unwrap_or(line.len());
                    lines[from] = [&line[..end], b"\n"].concat();
                }
                _ => lines.insert(to, line),
            }
            *text = lines.concat();
        }
    }
}

/// A few lines of likely bytes without any plan behind them.
pub fn soup(rng: &mut Rng) -> Vec<u8> {
    let mut text = match rng.below(8) {
        0 => Vec::new(),
        1 => b":".to_vec(),
        _ => b":abc\n".to_vec(),
    };
    for _ in 0..rng.below(4) {
        if !rng.once_in(8) {
            let sign = *rng.pick(b">><^==");
            text.push(sign);
            if sign == b'=' {
                text.push(*rng.pick(b"ABC"));
            }
        }
        let bytes: &[u8] = if rng.once_in(3) { LIKELY } else { b"aabbc.@A()|&-!*+?/_ " };
        for _ in 0..rng.below(9) {
            text.push(*rng.pick(bytes));
        }
        if !rng.once_in(12) {
            text.push(b'\n');
        }
    }
    text
}
