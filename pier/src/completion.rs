//! `pier completion`: completion for bash, made of the table of commands.

use crate::arguments::Arguments;
use crate::command::{Command, COMMANDS};
use crate::{files, Done, Status};

pub const COMMAND: Command = Command {
    name: "completion",
    about: "print the completion, for bash",
    files: &[],
    output: None,
    choices: &[],
    more: "\
Prints what lets bash complete the words of pier; pier/build --install puts it
where bash finds it. By hand: source <(pier completion).
",
    run,
};

/// A card's file, a book's, or any; the words of a command are `choices`.
const SCRIPT: &str = r#"# Completion of pier for bash.
_pier() {
    local word=${COMP_WORDS[COMP_CWORD]} choices="" files=""
    COMPREPLY=()
    if [ "$COMP_CWORD" -eq 1 ]; then
        COMPREPLY=($(compgen -W "@names@ --help --version" -- "$word"))
        return
    fi
    case ${COMP_WORDS[1]} in
@cases@    esac
    case $word in
        -*) COMPREPLY=($(compgen -W "$choices --help" -- "$word")) ;;
        *) compopt -o filenames 2>/dev/null
           COMPREPLY=($(compgen -W "$files" -- "$word") $(compgen -f -- "$word")) ;;
    esac
}
complete -F _pier pier
"#;

pub fn run(_: &Arguments) -> Done {
    files::print(text().as_bytes()).map(|()| Status::Fine)
}

fn text() -> String {
    let names = COMMANDS.map(|command| command.name).join(" ");
    let cases: String = COMMANDS.iter().map(case).collect();
    SCRIPT.replace("@names@", &names).replace("@cases@", &cases.replace("@names@", &names))
}

fn case(command: &Command) -> String {
    let mut choices: Vec<&str> = command.choices.iter().map(|choice| choice.spelled()).collect();
    if command.output.is_some() {
        choices.extend(["-o", "--output"]);
    }
    let files = if command.files == ["[COMMAND]"] { " files=\"@names@\"" } else { "" };
    format!("        {}) choices=\"{}\"{files} ;;\n", command.name, choices.join(" "))
}

#[cfg(test)]
mod tests {
    use super::*;

    #[test]
    fn every_command_and_choice_is_there() {
        let text = text();
        for command in &COMMANDS {
            assert!(text.contains(&format!("        {}) choices=", command.name)));
        }
        assert!(text.contains("judge) choices=\"--explain --strict --progress\""));
        assert!(text.contains("help) choices=\"\" files=\"compile try"));
        assert!(!text.contains('@'), "{text}");
    }
}
