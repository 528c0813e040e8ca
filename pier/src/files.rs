//! Reading with a bound, writing whole or not at all, and printing in a pipe.

use crate::Failure;
use std::ffi::OsString;
use std::fs::{self, File, OpenOptions};
use std::io::{self, ErrorKind, Read, Write};
use std::os::unix::fs::MetadataExt;
use std::path::{Path, PathBuf};

/// Is `-` given for standard input or output?
pub fn is_dash(path: &Path) -> bool {
    path.as_os_str() == "-"
}

/// A file's name in a message.
pub fn shown(path: &Path) -> String {
    if is_dash(path) {
        "standard input".into()
    } else {
        path.display().to_string()
    }
}

/// At most `most` bytes of a file.
pub fn read(path: &Path, most: usize) -> Result<Vec<u8>, Failure> {
    let mut bytes = Vec::new();
    let done = if is_dash(path) {
        io::stdin().lock().take(most as u64).read_to_end(&mut bytes)
    } else {
        File::open(path).and_then(|file| file.take(most as u64).read_to_end(&mut bytes))
    };
    done.map_err(|error| trouble("read", path, &error))?;
    Ok(bytes)
}

/// Refuses an output that is one of the inputs, under this name or another.
pub fn refuse_input_as_output(inputs: &[PathBuf], output: &Path) -> Result<(), Failure> {
    let Some(written) = identity(output, "/dev/stdout") else { return Ok(()) };
    match inputs.iter().find(|input| identity(input, "/dev/stdin") == Some(written)) {
        None => Ok(()),
        Some(input) if input == output => {
            Err(Failure::Trouble(format!("{} can't be input and output both; nothing is written", shown(input))))
        }
        Some(input) => Err(Failure::Trouble(format!(
            "{} and {} are the same file, which can't be input and output both; nothing is written",
            shown(input),
            output.display()
        ))),
    }
}

/// A plain file's device and number; `dash` is where `-` leads.
fn identity(path: &Path, dash: &str) -> Option<(u64, u64)> {
    let found = fs::metadata(if is_dash(path) { Path::new(dash) } else { path }).ok()?;
    found.is_file().then(|| (found.dev(), found.ino()))
}

/// Refuses an output whose name has none of these endings.
pub fn require_ending(output: &Path, endings: &[&str]) -> Result<(), Failure> {
    if is_dash(output) || output.extension().is_some_and(|found| endings.iter().any(|&ending| found == ending)) {
        return Ok(());
    }
    let known = endings.iter().map(|ending| format!(".{ending}")).collect::<Vec<_>>().join(" or ");
    Err(Failure::Trouble(format!("{} doesn't end in {known}, the kinds that are written", output.display())))
}

/// The bytes appear under this name whole or not at all: they are written
/// beside it first.
pub fn write(path: &Path, bytes: &[u8]) -> Result<(), Failure> {
    if fs::metadata(path).is_ok_and(|found| !found.is_file()) {
        return Err(Failure::Trouble(format!("can't write {}: it is not a plain file", path.display())));
    }
    let beside = name_beside(path).ok_or_else(|| Failure::Trouble(format!("{} is no file name", path.display())))?;
    let done = write_new(&beside, bytes).and_then(|()| fs::rename(&beside, path));
    done.map_err(|error| {
        let _ = fs::remove_file(&beside);
        trouble("write", path, &error)
    })
}

fn write_new(path: &Path, bytes: &[u8]) -> io::Result<()> {
    let mut file = OpenOptions::new().write(true).create_new(true).open(path)?;
    file.write_all(bytes)?;
    file.sync_all()
}

fn name_beside(path: &Path) -> Option<PathBuf> {
    let mut name = OsString::from(".");
    name.push(path.file_name()?);
    name.push(format!(".{}.part", std::process::id()));
    Some(path.with_file_name(name))
}

/// Writes a file, and says so; `-` is standard output.
pub fn deliver(output: &Path, bytes: &[u8]) -> Result<(), Failure> {
    if is_dash(output) {
        return print(bytes);
    }
    write(output, bytes)?;
    print(format!("wrote {}\n", output.display()).as_bytes())
}

pub fn trouble(what: &str, path: &Path, error: &io::Error) -> Failure {
    Failure::Trouble(format!("can't {what} {}: {error}", shown(path)))
}

/// Prints to standard output; a reader that went away ends the program quietly.
pub fn print(bytes: &[u8]) -> Result<(), Failure> {
    let mut out = io::stdout().lock();
    printed(out.write_all(bytes).and_then(|()| out.flush()))
}

fn printed(done: io::Result<()>) -> Result<(), Failure> {
    done.map_err(|error| match error.kind() {
        ErrorKind::BrokenPipe => Failure::Closed,
        _ => Failure::Trouble(format!("can't write to standard output: {error}")),
    })
}

/// Prints to standard error, whatever becomes of it.
pub fn complain(text: &str) {
    let _ = io::stderr().lock().write_all(text.as_bytes());
}

#[cfg(test)]
mod tests {
    use super::*;

    #[test]
    fn a_file_is_replaced_whole_and_nothing_is_left_beside_it() {
        let folder = std::env::temp_dir().join(format!("pier-files-{}", std::process::id()));
        fs::create_dir(&folder).unwrap();
        let path = folder.join("card");
        assert!(write(&path, b"one").is_ok());
        assert!(write(&path, b"two").is_ok());
        assert_eq!(fs::read(&path).unwrap(), b"two");
        assert!(write(&folder, b"x").is_err());
        assert!(write(&folder.join("missing").join("card"), b"x").is_err());
        assert_eq!(fs::read_dir(&folder).unwrap().count(), 1);
        assert!(read(&path, 2).is_ok_and(|bytes| bytes == b"tw"));
        let (hard, soft) = (folder.join("hard"), folder.join("soft"));
        fs::hard_link(&path, &hard).unwrap();
        std::os::unix::fs::symlink(&path, &soft).unwrap();
        let inputs = [folder.join("missing"), path.clone()];
        for output in [&path, &hard, &soft] {
            assert!(refuse_input_as_output(&inputs, output).is_err());
        }
        assert!(refuse_input_as_output(&inputs, &folder.join("other")).is_ok());
        assert!(refuse_input_as_output(&inputs, &folder).is_ok());
        fs::remove_dir_all(&folder).unwrap();
    }

    #[test]
    fn endings() {
        for (name, known) in
            [("x.svg", true), ("x.dot", true), ("-", true), ("x.png", false), ("svg", false), ("x", false)]
        {
            assert_eq!(require_ending(Path::new(name), &["svg", "dot"]).is_ok(), known, "{name}");
        }
    }
}
