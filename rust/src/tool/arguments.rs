//! The command line, by the table of commands.

use std::ffi::{OsStr, OsString};
use std::os::unix::ffi::OsStrExt;
use std::{array, slice};

use crate::commands::{self, COMMANDS};
use crate::failure::Failure;
use crate::table::{listed, Choice, Command, Kind, Operand, Takes};
use crate::{files, help, names};

/// What the command line asks for.
pub enum Request {
    /// A text on standard output.
    Text(String),
    Run(Given),
}

/// A command with its operands and options.
pub struct Given {
    command: &'static Command,
    operands: Vec<OsString>,
    /// In the order given: the last of a name counts.
    options: Vec<(&'static Choice, OsString)>,
}

impl Given {
    pub fn command(&self) -> &'static Command {
        self.command
    }

    /// All operands of a command that needs each; a missing input is `-`.
    pub fn operands<const N: usize>(&self) -> [&OsStr; N] {
        array::from_fn(|i| self.operands[i].as_os_str())
    }

    pub fn first(&self) -> Option<&OsStr> {
        self.operands.first().map(OsString::as_os_str)
    }

    fn option(&self, name: &str) -> Option<&OsStr> {
        let found = self.options.iter().rev().find(|(choice, _)| choice.name == name);
        found.map(|(_, value)| value.as_os_str())
    }

    /// The file given for an option.
    pub fn file(&self, name: &str) -> Option<&OsStr> {
        self.option(name)
    }

    pub fn has(&self, name: &str) -> bool {
        self.option(name).is_some()
    }

    /// The word given for an option, or the table's.
    pub fn word(&self, name: &str) -> &str {
        let default = self.command.options().find_map(|choice| match choice.takes {
            Takes::OneOf { default, .. } if choice.name == name => Some(default),
            _ => None,
        });
        self.option(name).and_then(OsStr::to_str).or(default).unwrap_or_default()
    }

    pub fn number(&self, name: &str) -> Option<usize> {
        self.option(name)?.to_str()?.parse().ok()
    }
}

fn is_help(word: &OsString) -> bool {
    word == "--help" || word == "-h"
}

fn is_option(word: &OsStr) -> bool {
    word.as_encoded_bytes().starts_with(b"-") && word != "-"
}

pub fn parse(words: &[OsString]) -> Result<Request, Failure> {
    let Some((first, rest)) = words.split_first() else {
        return Err(Failure::usage("no command"));
    };
    let end = words.iter().position(|word| word == "--").unwrap_or(words.len());
    if words[..end].iter().any(is_help) {
        return help_among(&words[..end]).map(Request::Text);
    }
    if first == "--version" || first == "-V" {
        return Ok(Request::Text(help::version()));
    }
    let command = commands::named(first).ok_or_else(|| no_such_command(first))?;
    given(command, rest).map(Request::Run).map_err(|failure| failure.of(command.name))
}

/// The help of the command that the words name first, or of the tool.
fn help_among(words: &[OsString]) -> Result<String, Failure> {
    match words.iter().find(|word| !is_option(word)) {
        Some(word) => commands::named(word).map(help::of_command).ok_or_else(|| no_such_command(word)),
        None => Ok(help::of_tool()),
    }
}

fn no_such_command(word: &OsStr) -> Failure {
    let what = if is_option(word) { "no such option before the command" } else { "no such command" };
    unknown(what, word.as_encoded_bytes(), COMMANDS.iter().map(|command| command.name))
}

/// A word that is not in a list, with the nearest that is.
fn unknown(what: &str, word: &[u8], list: impl IntoIterator<Item = &'static str>) -> Failure {
    let near = names::nearest(&String::from_utf8_lossy(word), list);
    let near = near.map_or(String::new(), |near| format!("; the nearest is {near}"));
    Failure::usage(format!("{what}: {}{near}", names::shown_bytes(word)))
}

/// The words behind a command; behind `--` none is an option.
fn given(command: &'static Command, words: &[OsString]) -> Result<Given, Failure> {
    let mut given = Given { command, operands: vec![], options: vec![] };
    let mut words = words.iter();
    while let Some(word) = words.next() {
        if word == "--" {
            given.operands.extend(words.by_ref().cloned());
        } else if is_option(word) {
            given.options.push(option(command, word, &mut words)?);
        } else {
            given.operands.push(word.clone());
        }
    }
    count(&mut given)?;
    given.command.operands.iter().zip(&given.operands).try_for_each(|(operand, word)| known(operand, word))?;
    streams(&given)?;
    Ok(given)
}

/// An option and its value, behind `=` or the next word.
fn option(
    command: &Command,
    word: &OsStr,
    words: &mut slice::Iter<'_, OsString>,
) -> Result<(&'static Choice, OsString), Failure> {
    let mut parts = word.as_encoded_bytes().splitn(2, |byte| *byte == b'=');
    let (name, behind) = (parts.next().unwrap_or_default(), parts.next());
    let found = command.options().find(|choice| choice.name.as_bytes() == name);
    let choice = found.ok_or_else(|| no_such_option(command, name))?;
    let value = match (&choice.takes, behind) {
        (Takes::Nothing, None) => b"",
        (Takes::Nothing, Some(_)) => return Err(Failure::usage(format!("{} takes no value", choice.name))),
        (_, Some(value)) => value,
        (_, None) => words.next().map(|next| next.as_encoded_bytes()).ok_or_else(|| no_value(choice))?,
    };
    if !takes(choice, value) {
        return Err(bad_value(choice, value));
    }
    Ok((choice, OsStr::from_bytes(value).to_owned()))
}

fn no_value(choice: &Choice) -> Failure {
    Failure::usage(format!("{} needs a value: {}", choice.name, choice.values()))
}

fn bad_value(choice: &Choice, value: &[u8]) -> Failure {
    let shown = if value.is_empty() { "an empty word".to_owned() } else { names::shown_bytes(value) };
    Failure::usage(format!("{} takes {}, not {shown}", choice.name, choice.values()))
}

fn takes(choice: &Choice, value: &[u8]) -> bool {
    match &choice.takes {
        Takes::Nothing => true,
        Takes::OneOf { words, .. } => words.iter().any(|word| word.name.as_bytes() == value),
        Takes::Number { least, most, .. } => number(value).is_some_and(|number| (*least..=*most).contains(&number)),
        Takes::Input { .. } | Takes::Output { .. } => !value.is_empty(),
    }
}

fn number(value: &[u8]) -> Option<usize> {
    let digits = value.iter().all(u8::is_ascii_digit);
    std::str::from_utf8(value).ok().filter(|_| digits)?.parse().ok()
}

fn no_such_option(command: &Command, name: &[u8]) -> Failure {
    let mut others = COMMANDS.iter().flat_map(Command::options);
    match others.find(|choice| choice.name.as_bytes() == name) {
        Some(choice) => Failure::usage(format!("{} takes no option {}", command.name, choice.name)),
        None => unknown("no such option", name, command.options().map(|choice| choice.name)),
    }
}

/// As many operands as the command takes; a missing input is `-`.
fn count(given: &mut Given) -> Result<(), Failure> {
    let (found, operands) = (given.operands.len(), given.command.operands);
    if let Some(extra) = given.operands.get(operands.len()) {
        let (extra, usage) = (names::shown(extra), given.command.usage());
        return Err(Failure::usage(format!("one operand too many, {extra}: {usage}")));
    }
    for operand in &operands[found..] {
        match (operand.optional, &operand.kind) {
            (false, _) => return Err(Failure::usage(format!("no {}: {}", operand.name, given.command.usage()))),
            (true, Kind::Input) => given.operands.push("-".into()),
            (true, _) => {}
        }
    }
    Ok(())
}

/// A word of a list is in the list.
fn known(operand: &Operand, word: &OsStr) -> Result<(), Failure> {
    match operand.kind {
        Kind::Command if commands::named(word).is_none() => Err(no_such_command(word)),
        Kind::OneOf(words) if !words.iter().any(|known| word == *known) => {
            let list = listed(words.iter().copied());
            Err(Failure::usage(format!("{} takes {list}, not {}", operand.name, names::shown(word))))
        }
        _ => Ok(()),
    }
}

/// One input at most is standard input, no output is an input, and none of an option is where the command prints.
fn streams(given: &Given) -> Result<(), Failure> {
    let mut inputs = files_of(given, |kind| matches!(kind, Kind::Input));
    inputs.extend(files_of_options(given, |takes| matches!(takes, Takes::Input { .. })));
    let outputs = files_of(given, |kind| matches!(kind, Kind::Output));
    let beside = files_of_options(given, |takes| matches!(takes, Takes::Output { .. }));
    files::one_standard_input(&inputs)?;
    outputs.iter().chain(&beside).try_for_each(|out| files::not_an_input(out, &inputs))?;
    beside.iter().try_for_each(|out| files::not_standard_output(out))
}

fn files_of(given: &Given, wanted: fn(&Kind) -> bool) -> Vec<&OsStr> {
    let operands = given.command.operands.iter().zip(&given.operands);
    operands.filter(|(operand, _)| wanted(&operand.kind)).map(|(_, word)| word.as_os_str()).collect()
}

fn files_of_options(given: &Given, wanted: fn(&Takes) -> bool) -> Vec<&OsStr> {
    let options = given.command.options().filter(|choice| wanted(&choice.takes));
    options.filter_map(|choice| given.file(choice.name)).collect()
}
