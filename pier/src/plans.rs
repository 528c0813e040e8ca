//! Plans, one a line, read in pieces of whole lines and judged by the proved
//! entry for many plans, which tests the card once a call.

use crate::pipe::Pipe;
use crate::progress::Progress;
use crate::{files, proved, Failure};
use std::fs::File;
use std::io::{self, ErrorKind, IsTerminal, Read};
use std::path::{Path, PathBuf};

/// How much is read at once. A line that is longer makes the room grow.
const PIECE: usize = 1 << 20;
/// How many plans one call judges at most: a piece, where they have 7 letters on
/// average.
const CALL: usize = PIECE / 8;

pub struct Plans {
    input: Box<dyn Read>,
    name: PathBuf,
    /// The file's length, where it has one.
    pub length: Option<u64>,
    room: Vec<u8>,
    filled: usize,
    given: usize,
}

impl Plans {
    pub fn open(path: &Path) -> Result<Plans, Failure> {
        let (input, length): (Box<dyn Read>, _) = if files::is_dash(path) {
            if io::stdin().is_terminal() {
                files::complain("Plans, one a line; end with Ctrl-D.\n");
            }
            (Box::new(Pipe::of(io::stdin())), None)
        } else {
            let file = File::open(path).map_err(|error| files::trouble("read", path, &error))?;
            match file.metadata().ok().filter(|found| found.is_file()) {
                Some(found) => (Box::new(file), Some(found.len())),
                None => (Box::new(Pipe::of(file)), None),
            }
        };
        Ok(Plans { input, name: path.into(), length, room: vec![0; PIECE], filled: 0, given: 0 })
    }

    /// The next bytes that end with a line or with the input, as soon as some
    /// have come; none at the end.
    pub fn next(&mut self) -> Result<Option<&[u8]>, Failure> {
        self.room.copy_within(self.given..self.filled, 0);
        self.filled -= self.given;
        self.given = 0;
        loop {
            if self.filled == self.room.len() {
                self.room.resize(2 * self.filled, 0);
            }
            let got = match self.input.read(&mut self.room[self.filled..]) {
                Err(error) if error.kind() == ErrorKind::Interrupted => continue,
                got => got.map_err(|error| files::trouble("read", &self.name, &error))?,
            };
            let end = self.room[self.filled..self.filled + got].iter().rposition(|&byte| byte == b'\n');
            let before = self.filled;
            self.filled += got;
            if got == 0 || end.is_some() {
                self.given = end.map_or(self.filled, |end| before + end + 1);
                return Ok((self.given > 0).then_some(&self.room[..self.given]));
            }
        }
    }
}

/// Room for the replies of one call.
pub fn room() -> Vec<u64> {
    vec![0; proved::REPLY * CALL]
}

/// The bytes of the plans that were judged, and their replies.
pub fn judge<'a>(
    card: &[u8],
    plans: &'a [u8],
    replies: &'a mut [u64],
) -> Result<(&'a [u8], proved::Replies<'a>), Failure> {
    proved::judge_lines(card, plans, replies)
        .map_err(|number| Failure::Trouble(format!("the card is refused by {number} now: please report this")))
}

/// Judges all plans of a file by a card that loads, call by call, and prints what
/// `answer` makes of the plans' bytes and their replies.
pub fn each(
    card: &[u8],
    path: &Path,
    tell_progress: bool,
    mut answer: impl FnMut(&mut Vec<u8>, &[u8], proved::Replies),
) -> Result<(), Failure> {
    let mut plans = Plans::open(path)?;
    let mut progress = Progress::new(plans.length, tell_progress);
    let mut replies = room();
    let mut out = Vec::new();
    while let Some(mut rest) = plans.next()? {
        while !rest.is_empty() {
            let (judged, replies) = judge(card, rest, &mut replies)?;
            let number = replies.len();
            answer(&mut out, judged, replies);
            progress.judged(number, judged.len());
            files::print(&out)?;
            out.clear();
            rest = &rest[judged.len()..];
        }
    }
    progress.end();
    Ok(())
}

/// The plans of some bytes, without their line ends.
pub fn lines(bytes: &[u8]) -> impl Iterator<Item = &[u8]> {
    bytes.split_inclusive(|&byte| byte == b'\n').map(|line| line.strip_suffix(b"\n").unwrap_or(line))
}

#[cfg(test)]
mod tests {
    use super::*;

    /// Hands out its parts one by one.
    struct Parts(Vec<&'static [u8]>);

    impl Read for Parts {
        fn read(&mut self, into: &mut [u8]) -> io::Result<usize> {
            if self.0.is_empty() {
                return Ok(0);
            }
            let part = self.0.remove(0);
            let taken = part.len().min(into.len());
            into[..taken].copy_from_slice(&part[..taken]);
            if taken < part.len() {
                self.0.insert(0, &part[taken..]);
            }
            Ok(taken)
        }
    }

    fn pieces(parts: Vec<&'static [u8]>, room: usize) -> Vec<Vec<u8>> {
        let input = Box::new(Parts(parts));
        let mut plans = Plans { input, name: "parts".into(), length: None, room: vec![0; room], filled: 0, given: 0 };
        let mut found = Vec::new();
        while let Some(piece) = plans.next().expect("read") {
            found.push(piece.to_vec());
        }
        found
    }

    #[test]
    fn pieces_are_whole_lines() {
        assert_eq!(pieces(vec![b"a\nb", b"c\n\nd"], 100), [&b"a\n"[..], b"bc\n\n", b"d"]);
        assert_eq!(pieces(vec![b"abcdefgh\nx"], 2), [&b"abcdefgh\n"[..], b"x"]);
        assert_eq!(pieces(vec![b"\n"], 100), [b"\n"]);
        assert!(pieces(vec![], 100).is_empty());
    }

    #[test]
    fn lines_are_those_of_the_judging_program() {
        let of = |bytes: &'static [u8]| lines(bytes).collect::<Vec<_>>();
        assert_eq!(of(b"a\n\nb"), [&b"a"[..], b"", b"b"]);
        assert_eq!(of(b"a\n"), [b"a"]);
        assert!(of(b"").is_empty());
    }
}
