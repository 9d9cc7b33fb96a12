//! The table of commands: a new command is a new entry.

use std::ffi::OsStr;

use crate::arguments::Given;
use crate::table::{Choice, Command, Kind, Operand, Takes};
use crate::{completions, deriving, formats, forms, help, keys, locking, manual, opening, reporting, shapes};

pub const FORMAT: &str = "--format";
pub const JOBS: &str = "--jobs";
pub const EXPLAIN: &str = "--explain";
pub const RECORDS: &str = "--records";
pub const SECOND: &str = "--second";
pub const MARKS: &str = "--marks";
pub const SMALL: &str = "--small";

/// The most threads that may be asked for.
pub const MOST_JOBS: usize = 1024;

const fn format(default: &'static str) -> Choice {
    let takes = Takes::OneOf { value: "FORMAT", words: formats::WORDS, default };
    Choice { name: FORMAT, short: None, takes, about: "how patterns are written" }
}

const ON_THREADS: Choice = Choice {
    name: JOBS,
    short: None,
    takes: Takes::Number { value: "N", least: 1, most: MOST_JOBS },
    about: "rows on N threads, in their order all the same; the machine's cores where it is not given",
};

const EXPLAINED: Choice = Choice {
    name: EXPLAIN,
    short: None,
    takes: Takes::Nothing,
    about: "the number's words, and what was expected and found, behind each refused row, not at the end",
};

const SECOND_KEY: Choice = Choice {
    name: SECOND,
    short: None,
    takes: Takes::Input { value: "KEY" },
    about: "a second key file, of either form, B's, for capsules that are refused 13 with the first, A's",
};

const KEY: Operand = Operand::needed("KEY", Kind::Input, "a key file, of either form: see shearcotter help convert");
const EXCHANGE_KEY: Operand =
    Operand::needed("KEY", Kind::Input, "a key file of an exchange key: see shearcotter help check");
const CAPSULES: Operand = Operand::optional("FILE", Kind::Input, "capsules, back to back");

pub const COMMANDS: &[Command] = &[
    Command {
        name: "check",
        operands: &[KEY],
        options: &[],
        about: "check a key file",
        details: "\
Loads the key file KEY and prints `accepted`, its shape m,n,t, its name where it
is one of the standard's, and `exchange` or `reading-only`; behind that,
`network` where the file is one:

    accepted 12,3488,64 mceliece348864 exchange
    accepted 12,3488,64 mceliece348864 exchange network

An exchange key has an irreducible g, as the standard has it, and works with
partners' programs; whether it has a public key is not looked at. With any other
key words are read, and publish, open, session and report are refused 34. The
status is 0 for both.
",
        run: keys::check,
    },
    Command {
        name: "convert",
        operands: &[
            Operand::needed("IN", Kind::Input, "a key file, of either form"),
            Operand::needed("OUT", Kind::Output, "the same key in the other form"),
        ],
        options: &[],
        about: "convert a key file to its other form",
        details: "\
Writes the key of the key file IN to OUT in the other form. A key file stores
the support as its n elements; a network file as control bits of a switching
network, as the standard's private key does. Which of them IN is, is told from
its bytes, here and in every command that takes KEY: no file is both.

From elements to a network, the network's other values come in rising order, and
the control bits are those of the standard's routine. From there back the file
is the same. A partner's network file may have other control bits for the same
key; converted twice, it has those.

Both files are secret. OUT is replaced in one step, and left alone where IN is
refused; a new one can be read by its owner alone.
",
        run: forms::convert,
    },
    Command {
        name: "publish",
        operands: &[EXCHANGE_KEY, Operand::needed("OUT", Kind::Output, "the public key")],
        options: &[Choice {
            name: SMALL,
            short: None,
            takes: Takes::Nothing,
            about: "the same public key, worked out in a small workspace",
        }],
        about: "write a key's public key",
        details: "\
Writes the public key of the key file KEY to OUT. OUT is replaced in one step,
and left alone where the key is refused: 34 where it is no exchange key, 23
where it has no public key.

The public key is worked out in a workspace of m*t rows of n bits, 1703936 bytes
for the largest keys. With --small it has 2*m*t rows of m*t bits, 692224 bytes
for them; it is the smaller one for keys with n above 16*ceil(m*t/8), those of
the standard's shapes among them. What is written and what is refused are the
same.
",
        run: keys::publish,
    },
    Command {
        name: "lock",
        operands: &[
            Operand::needed("SHAPE", Kind::Shape, "a position, a name, or m,n,t: see shearcotter shapes"),
            Operand::needed("PUBLIC", Kind::Input, "a public key of that shape"),
            Operand::needed("PATTERN", Kind::Input, "one pattern or several"),
            Operand::needed("OUT", Kind::Output, "the capsules, back to back"),
        ],
        options: &[format("raw")],
        about: "lock patterns to capsules",
        details: "\
Locks each pattern of PATTERN with the public key PUBLIC and writes the
capsules, back to back, to OUT. A pattern has n bits, t of them ones.

With raw the patterns stand back to back. With places, hex and json there is
one a line: a line that `open` or `read` prints in that format, or a bare line
of places or a bare hexadecimal word. A line without places is the pattern
without ones, which is refused 12.

All or nothing: where a pattern is refused, or a line is no pattern, it is named
and OUT is left alone. Otherwise OUT is replaced in one step.
",
        run: locking::lock_patterns,
    },
    Command {
        name: "open",
        operands: &[EXCHANGE_KEY, CAPSULES],
        options: &[SECOND_KEY, format("places"), ON_THREADS, EXPLAINED],
        about: "open capsules",
        details: "\
Opens the capsules that stand back to back in FILE with the key file KEY, and
prints a line for each:

    POSITION open PLACES...
    POSITION refused NUMBER

Positions count from 1, places from 0. A short tail is refused 8. At the end a
summary on standard error has the total, as in

    shearcotter: capsules: total 3 opened 1 refused 2

and what the numbers mean by which capsules were refused.

With --second there are two recipients, A with the operand KEY and B with the
option's. A capsule that A refuses 13 is tried under B, and the name of the one
that opens it is said:

    POSITION open A PLACES...
    POSITION open B PLACES...

In json the name is the member `recipient`, and raw has none. A capsule that
A refuses 13 and B does not open is refused 13. The summary says how many each
opened. Both keys have capsules of the same number of bytes, and with raw the
same n too. Where m*t differs within these bytes, KEY had better be the key with
the larger m*t: what is filler under A is refused 9 and not tried under B.
",
        run: opening::open,
    },
    Command {
        name: "session",
        operands: &[
            EXCHANGE_KEY,
            Operand::needed("SECRET", Kind::Input, "the key's secret, as long as a pattern: the standard's s"),
            CAPSULES,
        ],
        options: &[
            Choice {
                name: FORMAT,
                short: None,
                takes: Takes::OneOf { value: "FORMAT", words: formats::KEY_WORDS, default: "hex" },
                about: "how session keys are written",
            },
            ON_THREADS,
            EXPLAINED,
        ],
        about: "derive the session keys of capsules",
        details: "\
Derives the session key of each capsule that stands in FILE, back to back, as
Classic McEliece's decapsulation does, with the key file KEY and its secret
SECRET. Prints a line for each, with the 32 bytes of the key in hexadecimal:

    POSITION session BYTES
    POSITION refused NUMBER

A capsule that `open` refuses 13 has a session key too, which comes from SECRET;
nobody can tell from a key which it is. SECRET has the length of a pattern and
clear filler, else it is refused 33 before any capsule is looked at. It is as
secret as KEY, and the same for all capsules to come.

Positions count from 1. A short tail is refused 8. At the end a summary on
standard error has the total, as in

    shearcotter: capsules: total 3 derived 2 refused 1

and what the numbers mean by which capsules were refused.
",
        run: deriving::session,
    },
    Command {
        name: "report",
        operands: &[EXCHANGE_KEY, CAPSULES],
        options: &[
            SECOND_KEY,
            Choice {
                name: RECORDS,
                short: None,
                takes: Takes::Output { value: "OUT" },
                about: "writes a byte a capsule to OUT, in their order: 0 where it is opened, else its number",
            },
            ON_THREADS,
        ],
        about: "report on capsules, opened and refused",
        details: "\
Tries to open the capsules that stand back to back in FILE with the key file
KEY, and prints how many of them have each number: 0 for those that are opened,
else the number of the refusal with its words. A last line has the total:

    total 3 opened 1 refused 2

A short tail is refused 8. No pattern is printed, and the kept key is checked
once a block of capsules, so that this takes less time than `open`.

OUT is replaced in one step, also where capsules are refused: it has their
numbers. Where it is -, the total and the words go to standard error.

With --second there are two recipients, A with the operand KEY and B with the
option's. A capsule that A refuses 13 is tried under B. The counts of those that
are opened stand by their names, and the record is 0 for both:

    0  opened under A  2
    0  opened under B  1

Both keys have capsules of the same number of bytes. Where m*t differs within
these bytes, KEY had better be the key with the larger m*t: what is filler under
A is refused 9 and not tried under B.
",
        run: reporting::report,
    },
    Command {
        name: "read",
        operands: &[KEY, Operand::optional("FILE", Kind::Input, "words of n bits, back to back")],
        options: &[
            Choice {
                name: MARKS,
                short: None,
                takes: Takes::Input { value: "MARKS" },
                about: "a row of n bits for each word, back to back, with ones at its unsteady places",
            },
            format("places"),
            ON_THREADS,
            EXPLAINED,
        ],
        about: "read words of n bits",
        details: "\
Reads the words that stand back to back in FILE with the key file KEY: finds the
code word within t places of each. Prints a line for each, with how many places
differ, and which:

    POSITION read COUNT PLACES...
    POSITION refused NUMBER

Positions count from 1, places from 0. A short tail is refused 8. At the end a
summary on standard error has the total, as in

    shearcotter: words: total 3 read 2 refused 1

and what the numbers mean by which words were refused.

With --marks some places of a word are unsteady: their bits are known only to be
0 or 1. MARKS has a row of n bits for each word, in the words' order, with ones
at these places, and so as many bytes as FILE. Where s places are marked and d
others differ, the code word is the only one with 2d + s at most 2t; without one
the word is refused 14. COUNT is d, and the unmarked places that differ follow.
Where marked ones differ too, they stand behind these with a count of their own:

    POSITION read COUNT PLACES... marked COUNT PLACES...

In hex the bytes have all differences, and `marked COUNT` stands behind them. In
json `unmarked` is d, `ones` and `places` are those of all differences, and
`marked` lists the marked ones. A word is refused 37 where its marks are missing
or have a filler bit set. Where MARKS and FILE are files of lengths that do not
fit, or marks are left behind the last word, the status is 2.
",
        run: opening::read,
    },
    Command {
        name: "shapes",
        operands: &[],
        options: &[],
        about: "list the standard's shapes",
        details: "\
Lists the standard's shapes with their positions, and the lengths of their files
in bytes.

Where a command takes SHAPE, that is a position from 1 to 5, a name such as
mceliece348864, or m,n,t such as 4,6,1: m is 4, 12 or 13, t from 1 to 128, n
above m*t and at most 2^m.
",
        run: shapes::list,
    },
    Command {
        name: "help",
        operands: &[Operand::optional("COMMAND", Kind::Command, "a command")],
        options: &[],
        about: "help, or a command's own",
        details: "\
Prints what the tool does, or what COMMAND does.
",
        run: help::help,
    },
    Command {
        name: "man",
        operands: &[],
        options: &[],
        about: "print the man page",
        details: "\
Prints the man page, for `man -l` or a folder of man pages.
",
        run: |_: &Given| help::print(&manual::page()),
    },
    Command {
        name: "completions",
        operands: &[Operand::needed("SHELL", Kind::OneOf(&["bash"]), "the shell: bash")],
        options: &[],
        about: "print a shell's completions",
        details: "\
Prints completions of commands, options and operands, for the shell to read:

    source <(shearcotter completions bash)
",
        run: |_: &Given| help::print(&completions::bash()),
    },
];

pub fn named(word: impl AsRef<OsStr>) -> Option<&'static Command> {
    COMMANDS.iter().find(|command| word.as_ref() == command.name)
}

#[cfg(test)]
mod tests {
    use super::COMMANDS;
    use crate::table::{Choice, Command};

    #[test]
    fn every_name_stands_once() {
        for (i, command) in COMMANDS.iter().enumerate() {
            assert!(COMMANDS[..i].iter().all(|before| before.name != command.name), "{}", command.name);
            let options: Vec<&str> = command.options().map(|choice| choice.name).collect();
            for (j, option) in options.iter().enumerate() {
                assert!(!options[..j].contains(option), "{} {option}", command.name);
            }
        }
    }

    /// The completions go by an option's name, whatever the command, in whether a value stands behind it.
    #[test]
    fn an_option_takes_the_same_everywhere() {
        let options: Vec<&Choice> = COMMANDS.iter().flat_map(Command::options).collect();
        for one in &options {
            let same = options.iter().filter(|other| other.name == one.name);
            same.for_each(|other| assert_eq!(one.in_help(), other.in_help()));
        }
    }

    #[test]
    fn optional_operands_come_last() {
        for command in COMMANDS {
            assert!(command.operands.is_sorted_by_key(|operand| operand.optional), "{}", command.name);
        }
    }

    #[test]
    fn texts_have_their_form() {
        for command in COMMANDS {
            assert!(!command.about.ends_with('.') && !command.about.contains('\n'), "{}", command.name);
            assert!(command.details.ends_with(".\n") || command.details.ends_with(")\n"), "{}", command.name);
            assert!(command.details.is_ascii(), "{}", command.name);
        }
    }
}
