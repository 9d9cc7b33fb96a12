//! Help texts, within 80 columns.

use std::io::{self, Write};

use crate::arguments::Given;
use crate::commands::{self, COMMANDS};
use crate::failure::Failure;
use crate::status::{Status, STATUSES};
use crate::table::{Choice, Command, Takes};

pub const ABOUT: &str = "opens Classic McEliece capsules";

/// What holds for every command; help and the man page print it.
pub const CONVENTIONS: &[&str] = &[
    "As a file, - is standard input or standard output; at most one input is -. A last FILE that is missing is standard \
     input.",
    "Options stand behind the command, before or behind its operands; a value stands behind = or is the next word, and the \
     last of an option given twice counts. Behind -- no word is an option.",
    "An output is replaced in one step, and left alone where something is refused or fails.",
];

const COLUMNS: usize = 80;

pub fn print(text: &str) -> Result<Status, Failure> {
    let mut out = io::stdout().lock();
    out.write_all(text.as_bytes())?;
    out.flush()?;
    Ok(Status::Accepted)
}

pub fn version() -> String {
    format!("shearcotter {}\n", env!("CARGO_PKG_VERSION"))
}

/// The command `help`.
pub fn help(given: &Given) -> Result<Status, Failure> {
    let command = given.first().and_then(commands::named);
    print(&command.map_or_else(of_tool, of_command))
}

/// What an option does, with the values that it takes.
pub fn about(choice: &Choice) -> String {
    match choice.takes {
        Takes::Nothing | Takes::Input { .. } | Takes::Output { .. } => choice.about.to_owned(),
        Takes::OneOf { default, .. } => format!("{}; {default} where it is not given", choice.about),
        Takes::Number { least, most, .. } => format!("{}; from {least} to {most}", choice.about),
    }
}

pub fn of_tool() -> String {
    let mut text = format!("shearcotter {ABOUT}, and does what belongs to it.\n\n");
    text += "Usage: shearcotter COMMAND [OPTION]... [OPERAND]...\n       shearcotter --version\n\nCommands:\n";
    text += &entries(COMMANDS.iter().map(|command| (command.words(), command.about.to_owned())));
    for paragraph in CONVENTIONS {
        text += &format!("\n{}", wrapped(paragraph, 0));
    }
    text + &statuses() + "\nshearcotter help COMMAND says more.\n"
}

pub fn of_command(command: &Command) -> String {
    let mut text = format!("Usage: {}\n\n{}", command.usage(), command.details);
    if !command.operands.is_empty() {
        let operands = command.operands.iter().map(|operand| (operand.name.to_owned(), operand.about.to_owned()));
        text += &format!("\nOperands:\n{}", entries(operands));
    }
    text + &format!("\nOptions:\n{}", entries(command.options().flat_map(option))) + &statuses()
}

/// An option's entry, and one for each word that it takes.
fn option(choice: &'static Choice) -> Vec<(String, String)> {
    let words = choice.words().iter().map(|word| (format!("  {}", word.name), word.about.to_owned()));
    [(choice.in_help(), about(choice))].into_iter().chain(words).collect()
}

fn statuses() -> String {
    let lines = STATUSES.iter().map(|(status, meaning)| (status.number().to_string(), (*meaning).to_owned()));
    format!("\nExit status:\n{}", entries(lines))
}

/// Two columns.
fn entries(lines: impl Iterator<Item = (String, String)>) -> String {
    let lines: Vec<_> = lines.collect();
    let width = lines.iter().map(|(left, _)| left.chars().count()).max().unwrap_or(0);
    let column = width + 4;
    lines.iter().map(|(left, right)| format!("  {left:<width$}  {}", wrapped(right, column))).collect()
}

/// Lines of words, indented from the second on.
fn wrapped(text: &str, indent: usize) -> String {
    let (mut lines, mut at) = (String::new(), indent);
    for (i, word) in text.split_whitespace().enumerate() {
        let length = word.chars().count();
        if i > 0 && at + 1 + length > COLUMNS {
            lines += &format!("\n{:indent$}", "");
            at = indent;
        } else if i > 0 {
            lines.push(' ');
            at += 1;
        }
        lines += word;
        at += length;
    }
    lines + "\n"
}
