//! What a command is. Parsing, help, usage errors, the man page and the completions all come from its entry.

use crate::arguments::Given;
use crate::failure::Failure;
use crate::status::Status;

/// What an operand names.
pub enum Kind {
    /// A file that is read; `-` is standard input.
    Input,
    /// A file that is written, by a command that prints nothing; `-` is standard output.
    Output,
    /// A shape of a key.
    Shape,
    /// A command of the table.
    Command,
    /// One of these words.
    OneOf(&'static [&'static str]),
}

pub struct Operand {
    pub name: &'static str,
    pub kind: Kind,
    /// May be missing: an input is standard input then. Only the last operands are optional.
    pub optional: bool,
    pub about: &'static str,
}

impl Operand {
    pub const fn needed(name: &'static str, kind: Kind, about: &'static str) -> Operand {
        Operand { name, kind, optional: false, about }
    }

    pub const fn optional(name: &'static str, kind: Kind, about: &'static str) -> Operand {
        Operand { name, kind, optional: true, about }
    }

    fn in_usage(&self) -> String {
        if self.optional {
            format!("[{}]", self.name)
        } else {
            self.name.to_owned()
        }
    }
}

/// A word that an option may take, and what it stands for.
pub struct Word {
    pub name: &'static str,
    pub about: &'static str,
}

/// What stands behind an option. An input is a file that is read beside the operands; `-` is standard input. An output is a
/// file that is written beside what the command prints; `-` is standard output.
pub enum Takes {
    Nothing,
    OneOf { value: &'static str, words: &'static [Word], default: &'static str },
    Number { value: &'static str, least: usize, most: usize },
    Input { value: &'static str },
    Output { value: &'static str },
}

pub struct Choice {
    pub name: &'static str,
    /// A short name, `-h`.
    pub short: Option<&'static str>,
    pub takes: Takes,
    pub about: &'static str,
}

impl Choice {
    /// As help shows it: `--jobs N`, `-h, --help`.
    pub fn in_help(&self) -> String {
        let short = self.short.map_or(String::new(), |short| format!("{short}, "));
        match self.takes {
            Takes::Nothing => format!("{short}{}", self.name),
            Takes::OneOf { value, .. }
            | Takes::Number { value, .. }
            | Takes::Input { value }
            | Takes::Output { value } => format!("{short}{} {value}", self.name),
        }
    }

    /// The values that it takes, in words.
    pub fn values(&self) -> String {
        match &self.takes {
            Takes::Nothing => "no value".to_owned(),
            Takes::OneOf { words, .. } => listed(words.iter().map(|word| word.name)),
            Takes::Number { least, most, .. } => format!("a number from {least} to {most}"),
            Takes::Input { .. } | Takes::Output { .. } => "a file".to_owned(),
        }
    }

    pub fn words(&self) -> &'static [Word] {
        match self.takes {
            Takes::OneOf { words, .. } => words,
            _ => &[],
        }
    }
}

/// `a, b or c`.
pub fn listed<'a>(words: impl IntoIterator<Item = &'a str>) -> String {
    let words: Vec<&str> = words.into_iter().collect();
    match words.split_last() {
        Some((last, before)) if !before.is_empty() => format!("{} or {last}", before.join(", ")),
        Some((last, _)) => (*last).to_owned(),
        None => String::new(),
    }
}

pub struct Command {
    pub name: &'static str,
    pub operands: &'static [Operand],
    /// Its own options; those of every command are added.
    pub options: &'static [Choice],
    /// One line, without a full stop.
    pub about: &'static str,
    /// Paragraphs with empty lines between them; lines that begin with a blank stay as they are.
    pub details: &'static str,
    pub run: fn(&Given) -> Result<Status, Failure>,
}

impl Command {
    /// The name and the operands.
    pub fn words(&self) -> String {
        format!("{}{}", self.name, self.operand_words())
    }

    pub fn usage(&self) -> String {
        format!("shearcotter {} [OPTION]...{}", self.name, self.operand_words())
    }

    fn operand_words(&self) -> String {
        self.operands.iter().map(|operand| format!(" {}", operand.in_usage())).collect()
    }

    pub fn options(&self) -> impl Iterator<Item = &'static Choice> {
        self.options.iter().chain(COMMON)
    }
}

pub const QUIET: &str = "--quiet";

/// The options of every command.
pub const COMMON: &[Choice] = &[
    Choice {
        name: QUIET,
        short: None,
        takes: Takes::Nothing,
        about: "no summary, no note on a key and no progress bar; failures and rows that raw leaves out are named all the same",
    },
    Choice { name: "--help", short: Some("-h"), takes: Takes::Nothing, about: "the command's help" },
];
