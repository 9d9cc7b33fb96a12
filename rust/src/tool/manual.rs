//! The man page, from the table of commands.

use shearcotter::Refusal;

use crate::commands::COMMANDS;
use crate::help::{self, ABOUT, CONVENTIONS};
use crate::status::STATUSES;
use crate::table::{Choice, Command, COMMON};

const EXAMPLES: &str = "\
A public key, a capsule locked with it, and capsules opened:

    shearcotter publish office.key office.pub
    shearcotter lock mceliece348864 office.pub pattern capsule
    shearcotter open office.key capsules

The same public key, worked out in less memory where the key has a standard shape:

    shearcotter publish --small office.key office.pub

A partner's key, stored as a switching network, as one that lists its elements:

    shearcotter convert partner.network partner.key

Capsules from a pipe, opened on four threads, as objects:

    cat *.capsule | shearcotter open --jobs 4 --format json office.key

The session keys of a partner's capsules, as the standard derives them:

    shearcotter session office.key office.secret capsules

Capsules for two offices on one machine, opened by whichever key does:

    shearcotter open --second other.key office.key capsules

A report on a card, with a record for each of its capsules:

    shearcotter report --records card.records office.key card

Words of chips with unsteady cells, read with a row of marks for each word:

    shearcotter read --marks chips.marks office.key chips.words

Patterns as they were printed, locked again:

    shearcotter open --format hex office.key capsules > patterns
    shearcotter lock --format hex 1 office.pub patterns again
";

pub fn page() -> String {
    let mut page = Page(String::new());
    page.title();
    page.macro_line("SH", &["COMMANDS"]);
    COMMANDS.iter().for_each(|command| page.command(command));
    page.macro_line("SH", &["OPTIONS OF EVERY COMMAND"]);
    COMMON.iter().for_each(|choice| page.option(choice));
    page.macro_line("SH", &["REFUSALS"]);
    page.text("A refusal has the number of its condition:");
    for refusal in Refusal::ALL {
        page.entry(&refusal.number().to_string(), refusal.condition());
    }
    page.macro_line("SH", &["EXIT STATUS"]);
    for (status, meaning) in STATUSES {
        page.entry(&status.number().to_string(), meaning);
    }
    page.macro_line("SH", &["EXAMPLES"]);
    page.details(EXAMPLES);
    page.0
}

/// Lines of roff.
struct Page(String);

impl Page {
    /// The title, and what holds for all commands.
    fn title(&mut self) {
        let version = concat!("shearcotter ", env!("CARGO_PKG_VERSION"));
        self.0 += ".\\\" Printed by: shearcotter man\n";
        self.macro_line("TH", &["SHEARCOTTER", "1", "", version, ""]);
        self.macro_line("SH", &["NAME"]);
        self.0 += &format!("shearcotter \\- {}\n", escaped(ABOUT));
        self.macro_line("SH", &["SYNOPSIS"]);
        self.macro_line("B", &["shearcotter"]);
        self.0 += "\\fICOMMAND\\fR [\\fIOPTION\\fR]... [\\fIOPERAND\\fR]...\n";
        self.macro_line("br", &[]);
        self.macro_line("B", &["shearcotter --version"]);
        self.macro_line("SH", &["DESCRIPTION"]);
        for (i, paragraph) in CONVENTIONS.iter().enumerate() {
            if i > 0 {
                self.macro_line("PP", &[]);
            }
            self.text(paragraph);
        }
    }

    fn command(&mut self, command: &Command) {
        self.macro_line("SS", &[&format!("shearcotter {}", command.words())]);
        self.details(command.details);
        for operand in command.operands {
            self.entry(operand.name, operand.about);
        }
        command.options.iter().for_each(|choice| self.option(choice));
    }

    fn option(&mut self, choice: &Choice) {
        self.entry(&choice.in_help(), &help::about(choice));
        for word in choice.words() {
            self.macro_line("RS", &[]);
            self.entry(word.name, word.about);
            self.macro_line("RE", &[]);
        }
    }

    /// Paragraphs; lines that begin with a blank stay as they are.
    fn details(&mut self, details: &str) {
        for (i, paragraph) in details.split("\n\n").enumerate() {
            let literal = paragraph.starts_with(' ');
            if i > 0 {
                self.macro_line("PP", &[]);
            }
            if literal {
                self.macro_line("nf", &[]);
            }
            paragraph.lines().for_each(|line| self.text(line));
            if literal {
                self.macro_line("fi", &[]);
            }
        }
    }

    fn entry(&mut self, name: &str, about: &str) {
        self.macro_line("TP", &[]);
        self.macro_line("B", &[name]);
        self.text(about);
    }

    fn text(&mut self, text: &str) {
        self.0 += &format!("{}\n", escaped(text));
    }

    fn macro_line(&mut self, name: &str, arguments: &[&str]) {
        self.0 += &format!(".{name}");
        for argument in arguments {
            self.0 += &format!(" \"{}\"", escaped(argument).replace('"', "\\(dq"));
        }
        self.0 += "\n";
    }
}

/// Nothing that roff takes for a request, an escape or a hyphen; lines may begin with blanks.
fn escaped(text: &str) -> String {
    let mut line = if text.starts_with(['.', '\'']) { "\\&".to_owned() } else { String::new() };
    for c in text.chars() {
        match c {
            '\\' => line += "\\e",
            '-' => line += "\\-",
            '`' => line += "\\(ga",
            '^' => line += "\\(ha",
            '\'' => line += "\\(aq",
            '~' => line += "\\(ti",
            c if c.is_ascii() => line.push(c),
            c => line += &format!("\\[u{:04X}]", u32::from(c)),
        }
    }
    line
}
