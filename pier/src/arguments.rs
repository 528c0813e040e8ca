//! The words behind a command: files, `-o`, choices.

use crate::command::Command;
use crate::{count, words, Failure};
use std::ffi::{OsStr, OsString};
use std::os::unix::ffi::OsStrExt;
use std::path::{Path, PathBuf};

/// What can be chosen by a word that takes no value.
#[derive(Clone, Copy, PartialEq, Eq, Debug)]
pub enum Choice {
    Explain,
    Strict,
    /// `--strict` of `pier stretch`.
    WithoutStretch,
    Progress,
    All,
}

impl Choice {
    pub fn spelled(self) -> &'static str {
        match self {
            Choice::Explain => "--explain",
            Choice::Strict | Choice::WithoutStretch => "--strict",
            Choice::Progress => "--progress",
            Choice::All => "--all",
        }
    }

    pub fn about(self) -> &'static str {
        match self {
            Choice::Explain => "prints the plan before each reply",
            Choice::Strict => "status 1 where a plan is not allowed",
            Choice::WithoutStretch => "status 1 where a plan has a stretch",
            Choice::Progress => "tells how far it is, also where standard error is no terminal",
            Choice::All => "shows the hopeless state and its arrows, whatever the size",
        }
    }
}

#[derive(Default)]
pub struct Arguments {
    pub files: Vec<PathBuf>,
    pub output: Option<PathBuf>,
    pub chosen: Vec<Choice>,
}

impl Arguments {
    /// The output of a command that must have one.
    pub fn output(&self) -> Result<&Path, Failure> {
        self.output.as_deref().ok_or_else(|| Failure::Usage("-o and a file name are missing".into()))
    }

    pub fn has(&self, choice: Choice) -> bool {
        self.chosen.contains(&choice)
    }

    pub fn parse(command: &Command, words: &[OsString]) -> Result<Arguments, Failure> {
        let mut arguments = Arguments::default();
        let mut words = words.iter();
        while let Some(word) = words.next() {
            let spelled = word.to_string_lossy();
            if word == "--" {
                arguments.files.extend(words.by_ref().map(PathBuf::from));
            } else if word == "-" || !spelled.starts_with('-') || negative(command, &spelled) {
                arguments.files.push(word.into());
            } else if command.output.is_some() && (word == "-o" || word == "--output") {
                let missing = || Failure::Usage(format!("a file name is missing after {spelled}"));
                arguments.set_output(words.next().ok_or_else(missing)?)?;
            } else if let (Some(_), Some(name)) = (command.output, word.as_bytes().strip_prefix(b"--output=")) {
                arguments.set_output(OsStr::from_bytes(name))?;
            } else if let Some(&choice) = command.choices.iter().find(|choice| choice.spelled() == spelled) {
                arguments.chosen.push(choice);
            } else {
                return Err(no_option(command, &spelled));
            }
        }
        arguments.counted(command)
    }

    fn set_output(&mut self, name: &OsStr) -> Result<(), Failure> {
        match self.output.replace(name.into()) {
            None => Ok(()),
            Some(_) => Err(Failure::Usage("-o stands twice".into())),
        }
    }

    fn counted(self, command: &Command) -> Result<Arguments, Failure> {
        let (least, most) = command.bounds();
        match self.files.len() {
            found if found < least => Err(Failure::Usage(format!("{} is missing", command.files[found]))),
            found if found > most => Err(Failure::Usage(match most {
                0 => format!("pier {} takes no file", command.name),
                _ => format!("{found} words, and at most {most} are taken: {}", command.files.join(" ")),
            })),
            _ if command.output.is_some() => self.output().map(|_| ()).map(|()| self),
            _ => Ok(self),
        }
    }
}

/// A number below 0 where lengths are asked for: no option, and no length.
fn negative(command: &Command, word: &str) -> bool {
    command.files.contains(&count::LENGTHS) && word[1..].starts_with(|next: char| next.is_ascii_digit())
}

fn no_option(command: &Command, word: &str) -> Failure {
    let output = command.output.map(|_| "--output");
    let known = command.choices.iter().map(|choice| choice.spelled()).chain(output);
    Failure::Usage(match words::nearest(word, known) {
        Some(meant) => format!("no option {word}; did you mean {meant}?"),
        None => format!("no option {word} (a file name that begins with - stands behind --)"),
    })
}

#[cfg(test)]
mod tests {
    use super::*;
    use crate::command;

    fn parsed(line: &str) -> Result<Arguments, Failure> {
        let words: Vec<OsString> = line.split_whitespace().map(OsString::from).collect();
        Arguments::parse(command::find(&words[0].to_string_lossy()).expect("a command"), &words[1..])
    }

    #[test]
    fn arguments_are_counted_and_named() {
        for output in ["-o card", "--output card", "--output=card"] {
            let arguments = parsed(&format!("compile book {output}")).expect("taken");
            assert_eq!(arguments.output.as_deref(), Some(Path::new("card")));
        }
        assert!(parsed("judge card").is_ok());
        assert!(parsed("judge card plans --explain").is_ok_and(|arguments| arguments.has(Choice::Explain)));
        assert!(parsed("compile - -o -").is_ok());
        let behind = parsed("judge --strict -- -card --explain").expect("taken");
        assert_eq!(behind.files, [Path::new("-card"), Path::new("--explain")]);
        assert!(behind.has(Choice::Strict) && !behind.has(Choice::Explain));
        assert!(parsed("count card -5").is_ok_and(|arguments| arguments.files[1] == Path::new("-5")));
        for wrong in [
            "compile book",
            "compile -o card",
            "compile book -o",
            "compile book --output",
            "compile book -o a -o b",
            "compile book -o a --output=b",
            "compile a b -o card",
            "judge",
            "judge a b c",
            "judge card -5",
            "count card",
            "count card 1 5",
            "count card -k",
            "show card -o x",
            "compare one",
            "check card --explain",
            "check --what card",
            "guide x",
        ] {
            assert!(matches!(parsed(wrong), Err(Failure::Usage(_))), "{wrong}");
        }
    }

    #[test]
    fn an_option_nearly_right_is_named() {
        let Err(Failure::Usage(message)) = parsed("judge card --explian") else { panic!("taken") };
        assert_eq!(message, "no option --explian; did you mean --explain?");
    }
}
