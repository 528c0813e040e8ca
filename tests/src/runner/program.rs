//! Runs one of the product's programs in a working directory of its own.

use std::fs;
use std::io::{Read, Write};
use std::os::fd::OwnedFd;
use std::os::unix::net::UnixStream;
use std::path::{Path, PathBuf};
use std::process::{Child, Command, Stdio};
use std::sync::atomic::{AtomicUsize, Ordering};
use std::thread;
use std::time::{Duration, Instant};

/// A program that has said nothing for so long is taken to hang.
const PATIENCE: Duration = Duration::from_secs(60);

#[derive(Clone, Debug)]
pub struct Program {
    pub path: PathBuf,
    pub arguments: Vec<String>,
}

/// How the input is handed over.
#[derive(Clone, Copy, PartialEq, Eq, Debug)]
pub enum Handing {
    AtOnce,
    /// In pieces of so many bytes, with pauses between them.
    InPieces(usize),
}

/// A new directory that is removed afterwards.
pub struct WorkingDirectory {
    pub path: PathBuf,
}

static COUNT: AtomicUsize = AtomicUsize::new(0);

impl WorkingDirectory {
    pub fn new() -> WorkingDirectory {
        let count = COUNT.fetch_add(1, Ordering::Relaxed);
        let path = std::env::temp_dir().join(format!("pier-tests-{}-{count}", std::process::id()));
        fs::create_dir_all(&path).expect("a working directory can be made");
        WorkingDirectory { path }
    }

    /// Puts the bytes into `board.bin`, or takes the file away.
    pub fn set_board(&self, card: Option<&[u8]>) {
        let file = self.path.join("board.bin");
        match card {
            Some(bytes) => fs::write(&file, bytes).expect("board.bin can be written"),
            None => {
                if file.exists() {
                    fs::remove_file(&file).expect("board.bin can be removed");
                }
            }
        }
    }
}

impl Drop for WorkingDirectory {
    fn drop(&mut self) {
        let _ = fs::remove_dir_all(&self.path);
    }
}

impl Program {
    /// A program that an environment variable names.
    pub fn named_by(variable: &str) -> Option<Program> {
        let value = std::env::var_os(variable).filter(|value| !value.is_empty())?;
        let path = fs::canonicalize(Path::new(&value)).unwrap_or_else(|_| PathBuf::from(&value));
        Some(Program { path, arguments: Vec::new() })
    }

    /// What the program writes to standard output, or how it went wrong.
    pub fn run(&self, place: &WorkingDirectory, input: &[u8], handing: Handing) -> Result<Vec<u8>, String> {
        let mut child = Command::new(&self.path)
            .args(&self.arguments)
            .current_dir(&place.path)
            .stdin(Stdio::piped())
            .stdout(Stdio::piped())
            .stderr(Stdio::null())
            .spawn()
            .map_err(|error| format!("can't be started: {error}"))?;
        let mut standard_input = child.stdin.take().expect("a pipe");
        let mut standard_output = child.stdout.take().expect("a pipe");
        thread::scope(|scope| {
            scope.spawn(move || {
                // A program may stop reading early; that is its own affair.
                let _ = hand_over(&mut standard_input, input, handing);
            });
            let reader = scope.spawn(move || {
                let mut output = Vec::new();
                standard_output.read_to_end(&mut output).map(|_| output)
            });
            let ended = wait(&mut child);
            let output = reader.join().expect("the reader ends").map_err(|error| error.to_string())?;
            ended.map(|()| output)
        })
    }
}

/// What a program wrote to standard output and to standard error.
#[derive(PartialEq, Eq, Debug)]
pub struct Said {
    pub output: Vec<u8>,
    pub complaint: Vec<u8>,
}

impl Program {
    /// Standard input fails behind these bytes: it hasn't ended, and a read
    /// that would have to wait is an error.
    pub fn run_until_read_fails(&self, place: &WorkingDirectory, input: &[u8]) -> Result<Said, String> {
        let (mut ours, theirs) = UnixStream::pair().map_err(|error| error.to_string())?;
        theirs.set_nonblocking(true).map_err(|error| error.to_string())?;
        ours.write_all(input).map_err(|error| error.to_string())?;
        let said = self.said(place, Stdio::from(OwnedFd::from(theirs)), Stdio::piped());
        drop(ours);
        said
    }

    /// Standard output is a device that is full.
    pub fn run_unwritable(&self, place: &WorkingDirectory, input: &[u8]) -> Result<Said, String> {
        let full = fs::OpenOptions::new().write(true).open("/dev/full").map_err(|error| error.to_string())?;
        let (mut ours, theirs) = UnixStream::pair().map_err(|error| error.to_string())?;
        ours.write_all(input).map_err(|error| error.to_string())?;
        drop(ours);
        self.said(place, Stdio::from(OwnedFd::from(theirs)), Stdio::from(full))
    }

    /// The first bytes of the output, read while the input is still open.
    pub fn first_bytes(&self, place: &WorkingDirectory, input: &[u8], length: usize) -> Result<Vec<u8>, String> {
        let mut child =
            self.command(place, Stdio::piped(), Stdio::piped()).spawn().map_err(|error| error.to_string())?;
        let mut standard_input = child.stdin.take().expect("a pipe");
        let mut standard_output = child.stdout.take().expect("a pipe");
        standard_input.write_all(input).map_err(|error| error.to_string())?;
        let (send, receive) = std::sync::mpsc::channel();
        thread::spawn(move || {
            let mut bytes = vec![0; length];
            let _ = send.send(standard_output.read_exact(&mut bytes).map(|()| bytes));
            let _ = standard_output.read_to_end(&mut Vec::new());
        });
        let bytes = receive.recv_timeout(Duration::from_secs(10));
        drop(standard_input);
        let ended = wait(&mut child);
        let bytes = bytes.map_err(|_| "no reply while the input is open".to_string())?;
        ended.and_then(|()| bytes.map_err(|error| error.to_string()))
    }

    fn command(&self, place: &WorkingDirectory, input: Stdio, output: Stdio) -> Command {
        let mut command = Command::new(&self.path);
        command.args(&self.arguments).current_dir(&place.path).stdin(input).stdout(output).stderr(Stdio::piped());
        command
    }

    /// For short outputs, which a pipe holds.
    fn said(&self, place: &WorkingDirectory, input: Stdio, output: Stdio) -> Result<Said, String> {
        let mut child = self.command(place, input, output).spawn().map_err(|error| error.to_string())?;
        wait(&mut child)?;
        let all = child.wait_with_output().map_err(|error| error.to_string())?;
        Ok(Said { output: all.stdout, complaint: all.stderr })
    }
}

fn hand_over(standard_input: &mut impl Write, input: &[u8], handing: Handing) -> std::io::Result<()> {
    match handing {
        Handing::AtOnce => standard_input.write_all(input),
        Handing::InPieces(size) => {
            for piece in input.chunks(size) {
                standard_input.write_all(piece)?;
                standard_input.flush()?;
                thread::sleep(Duration::from_millis(1));
            }
            Ok(())
        }
    }
}

/// Waits for the end; a program that hangs is stopped.
fn wait(child: &mut Child) -> Result<(), String> {
    let since = Instant::now();
    let mut pause = Duration::from_micros(200);
    loop {
        match child.try_wait() {
            Err(error) => return Err(error.to_string()),
            Ok(Some(status)) if status.code().is_none() => return Err(format!("was stopped: {status}")),
            Ok(Some(_)) => return Ok(()),
            Ok(None) if since.elapsed() > PATIENCE => {
                let _ = child.kill();
                let _ = child.wait();
                return Err("didn't end in time".to_string());
            }
            Ok(None) => {
                thread::sleep(pause);
                pause = (pause * 2).min(Duration::from_millis(20));
            }
        }
    }
}
