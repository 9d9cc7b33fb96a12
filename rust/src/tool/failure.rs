//! What ends a command early, in words, and the exit status for it.

use std::fmt;
use std::io::{self, Write};
use std::path::Path;

use crate::explain::Explained;
use crate::names;
use crate::status::Status;

pub enum Failure {
    /// The command line is wrong; the command that it names.
    Usage(String, Option<&'static str>),
    /// A file or stream fails.
    File(String, io::Error),
    /// A file's contents are not in the format asked for: the file and the line, and why.
    Format(String, String),
    /// A call is refused; the first part says for what.
    Refused(String, Explained, Status),
    /// Whoever read standard output has stopped.
    Closed,
}

impl Failure {
    pub fn usage(words: impl Into<String>) -> Failure {
        Failure::Usage(words.into(), None)
    }

    pub fn file(name: &Path, error: io::Error) -> Failure {
        Failure::File(names::shown(name), error)
    }

    /// An output fails: standard output where it has no name.
    pub fn output(name: Option<&Path>, error: io::Error) -> Failure {
        match name {
            Some(name) => Failure::file(name, error),
            None => error.into(),
        }
    }

    /// The same, of a command: bad usage names its help.
    pub fn of(self, command: &'static str) -> Failure {
        match self {
            Failure::Usage(words, _) => Failure::Usage(words, Some(command)),
            other => other,
        }
    }

    pub fn status(&self) -> Status {
        match self {
            Failure::Refused(_, _, status) => *status,
            _ => Status::Failed,
        }
    }

    /// Says it on standard error, as far as that takes it; a closed standard output is no news.
    pub fn report(&self) {
        if !matches!(self, Failure::Closed) {
            say(&self.to_string());
        }
    }
}

/// A line on standard error, as far as that takes it.
pub fn say(words: &str) {
    let _ = io::stderr().write_all(line(words).as_bytes());
}

/// A line of standard error: the tool's name goes before the words.
pub fn line(words: &str) -> String {
    format!("shearcotter: {words}\n")
}

impl fmt::Display for Failure {
    fn fmt(&self, f: &mut fmt::Formatter<'_>) -> fmt::Result {
        match self {
            Failure::Usage(words, None) => write!(f, "{words}; see shearcotter help"),
            Failure::Usage(words, Some(command)) => write!(f, "{words}; see shearcotter help {command}"),
            Failure::File(name, error) => write!(f, "{name}: {error}"),
            Failure::Format(place, why) => write!(f, "{place}: {why}"),
            Failure::Refused(subject, explained, _) => write!(f, "{subject}: {explained}"),
            Failure::Closed => write!(f, "standard output is closed"),
        }
    }
}

/// A failure of standard output, which is the only stream written without a name.
impl From<io::Error> for Failure {
    fn from(error: io::Error) -> Failure {
        match error.kind() {
            io::ErrorKind::BrokenPipe => Failure::Closed,
            _ => Failure::File("standard output".to_owned(), error),
        }
    }
}
