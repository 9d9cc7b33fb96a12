//! Completions for bash, from the table of commands.

use shearcotter::Shape;

use crate::commands::COMMANDS;
use crate::table::{Choice, Command, Kind, Takes};

/// The script, with the table's parts in the places of `@...@`.
const BASH: &str = r#"# Completions of shearcotter for bash; printed by: shearcotter completions bash

_shearcotter_words() {
    mapfile -t COMPREPLY < <(compgen -W "$1" -- "$2")
}

_shearcotter_files() {
    compopt -o filenames 2>/dev/null
    mapfile -t COMPREPLY < <(compgen -f -- "$1")
}

_shearcotter() {
    local cur=${COMP_WORDS[COMP_CWORD]} command='' option='' ended='' place=0 i word
    COMPREPLY=()
    # What stands before the cursor: the command, an option that waits for its value, the number of operands.
    for ((i = 1; i < COMP_CWORD; i++)); do
        word=${COMP_WORDS[i]}
        if [[ $option ]]; then
            [[ $word == = ]] || option=''
        elif [[ -z $ended && $word == -- ]]; then
            ended=1
        elif [[ -z $ended && $word == -?* ]]; then
            case $word in
                @VALUED@) option=$word ;;
            esac
        elif [[ -z $command ]]; then
            command=$word
        else
            place=$((place + 1))
        fi
    done
    if [[ $option ]]; then
        [[ $cur == = ]] && cur=''
        case $command,$option in
@VALUES@
        esac
    elif [[ -z $command ]]; then
        _shearcotter_words '@COMMANDS@' "$cur"
    elif [[ -z $ended && $cur == -* ]]; then
        case $command in
@OPTIONS@
        esac
    else
        case $command,$place in
@OPERANDS@
        esac
    fi
}

complete -F _shearcotter shearcotter
"#;

pub fn bash() -> String {
    let options = || COMMANDS.iter().flat_map(Command::options);
    let valued =
        joined(options().filter(|choice| !matches!(choice.takes, Takes::Nothing)).map(|choice| choice.name), " | ");
    let commands = joined(COMMANDS.iter().map(|command| command.name), " ");
    let parts = [
        ("@VALUED@", valued),
        ("@COMMANDS@", format!("{commands} --help --version")),
        ("@VALUES@", cases(COMMANDS.iter().flat_map(values_of))),
        ("@OPTIONS@", cases(COMMANDS.iter().map(options_of))),
        ("@OPERANDS@", cases(COMMANDS.iter().flat_map(operands))),
    ];
    parts.iter().fold(BASH.to_owned(), |script, (mark, part)| script.replace(mark, part))
}

/// Each word once.
fn joined<'a>(words: impl Iterator<Item = &'a str>, separator: &str) -> String {
    let mut once: Vec<&str> = vec![];
    for word in words {
        if !once.contains(&word) {
            once.push(word);
        }
    }
    once.join(separator)
}

/// Cases of a list of patterns and what is done for each; each pattern once.
fn cases(parts: impl Iterator<Item = (String, String)>) -> String {
    let mut lines: Vec<String> = vec![];
    for (pattern, done) in parts {
        let line = format!("            {pattern}) {done} ;;");
        if !lines.contains(&line) {
            lines.push(line);
        }
    }
    lines.join("\n")
}

fn words(words: &str) -> String {
    format!("_shearcotter_words '{words}' \"$cur\"")
}

/// What the options of a command take.
fn values_of(command: &Command) -> Vec<(String, String)> {
    let of = |choice: &Choice| values(choice).map(|offered| (format!("{},{}", command.name, choice.name), offered));
    command.options().filter_map(of).collect()
}

/// What an option takes: words or a file.
fn values(choice: &Choice) -> Option<String> {
    match choice.takes {
        Takes::OneOf { words: list, .. } => Some(words(&joined(list.iter().map(|word| word.name), " "))),
        Takes::Input { .. } => Some(operand(&Kind::Input)),
        Takes::Output { .. } => Some(operand(&Kind::Output)),
        Takes::Nothing | Takes::Number { .. } => None,
    }
}

fn options_of(command: &Command) -> (String, String) {
    (command.name.to_owned(), words(&joined(command.options().map(|choice| choice.name), " ")))
}

fn operands(command: &Command) -> Vec<(String, String)> {
    let place = |(i, kind): (usize, &Kind)| (format!("{},{i}", command.name), operand(kind));
    command.operands.iter().map(|operand| &operand.kind).enumerate().map(place).collect()
}

fn operand(kind: &Kind) -> String {
    match kind {
        Kind::Input | Kind::Output => "_shearcotter_files \"$cur\"".to_owned(),
        Kind::Shape => words(&Shape::STANDARD.iter().filter_map(|shape| shape.name()).collect::<Vec<_>>().join(" ")),
        Kind::Command => words(&joined(COMMANDS.iter().map(|command| command.name), " ")),
        Kind::OneOf(list) => words(&list.join(" ")),
    }
}
