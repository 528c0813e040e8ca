//! Standard input, read ahead by a thread, so that one read takes all that has
//! come: a pipe hands over little at a time, and each call of the proved entry
//! tests the card.

use std::io::{self, Read};
use std::sync::mpsc::{sync_channel, Receiver, SyncSender};
use std::thread;

/// What a pipe holds.
const CHUNK: usize = 1 << 16;
/// How many chunks are read ahead at most.
const AHEAD: usize = 32;

pub struct Pipe {
    chunks: Receiver<io::Result<Vec<u8>>>,
    chunk: Vec<u8>,
    taken: usize,
}

impl Pipe {
    pub fn of(input: impl Read + Send + 'static) -> Pipe {
        let (sender, chunks) = sync_channel(AHEAD);
        thread::spawn(move || send(input, &sender));
        Pipe { chunks, chunk: Vec::new(), taken: 0 }
    }
}

/// Sends chunk by chunk, until the input ends or nobody listens.
fn send(mut input: impl Read, sender: &SyncSender<io::Result<Vec<u8>>>) {
    loop {
        let mut chunk = vec![0; CHUNK];
        let got = input.read(&mut chunk).map(|got| chunk.truncate(got));
        let last = got.is_err() || chunk.is_empty();
        if sender.send(got.map(|()| chunk)).is_err() || last {
            return;
        }
    }
}

impl Read for Pipe {
    /// Waits for the first bytes only.
    fn read(&mut self, into: &mut [u8]) -> io::Result<usize> {
        let mut filled = 0;
        while filled < into.len() {
            if self.taken == self.chunk.len() {
                let next = if filled == 0 { self.chunks.recv().ok() } else { self.chunks.try_recv().ok() };
                let Some(next) = next else { break };
                (self.chunk, self.taken) = (next?, 0);
                if self.chunk.is_empty() {
                    break;
                }
            }
            let part = (self.chunk.len() - self.taken).min(into.len() - filled);
            into[filled..filled + part].copy_from_slice(&self.chunk[self.taken..self.taken + part]);
            self.taken += part;
            filled += part;
        }
        Ok(filled)
    }
}

#[cfg(test)]
mod tests {
    use super::*;

    #[test]
    fn everything_arrives_in_order() {
        let bytes: Vec<u8> = (0..5 * CHUNK + 7).map(|place| (place % 251) as u8).collect();
        let mut found = Vec::new();
        let mut pipe = Pipe::of(io::Cursor::new(bytes.clone()));
        let mut room = [0; 1000];
        loop {
            match pipe.read(&mut room).expect("read") {
                0 => break,
                got => found.extend_from_slice(&room[..got]),
            }
        }
        assert!(found == bytes);
        assert_eq!(pipe.read(&mut room).expect("read"), 0);
    }
}
