//! Refusals in words: the condition for the kind of input, and what was expected and what was found.
//!
//! A function for each kind of input. The numbers are those of the calls; what is looked for here only names the place.

mod key_file;
mod marks;
mod network;
mod rows;
mod shapes;

use std::fmt;

use shearcotter::Refusal;

pub use key_file::{key_file, publishing, reading_only};
pub use marks::{marked_word, marks_file};
pub use rows::{number, public_key, row, secret, Row};
pub use shapes::{position, shape};

/// A refusal: its number, its condition in words, and what was expected and found, if that says more.
pub struct Explained {
    pub number: u8,
    pub words: String,
    pub found: String,
}

impl Explained {
    fn new(refusal: Refusal, words: impl Into<String>, found: impl Into<String>) -> Explained {
        Explained { number: refusal.number(), words: words.into(), found: found.into() }
    }

    /// The number and its words only.
    pub fn without_found(&self) -> String {
        format!("refused {}: {}", self.number, self.words)
    }
}

impl fmt::Display for Explained {
    fn fmt(&self, f: &mut fmt::Formatter<'_>) -> fmt::Result {
        match self.found.as_str() {
            "" => f.write_str(&self.without_found()),
            found => write!(f, "{}: {found}", self.without_found()),
        }
    }
}

/// A length in bytes; past the limit nothing was read.
fn bytes_found(found: usize, limit: usize) -> String {
    if found > limit {
        format!("found more than {limit}")
    } else {
        format!("found {found}")
    }
}

fn counted(count: usize, thing: &str) -> String {
    let plural = if count == 1 { "" } else { "s" };
    format!("{count} {thing}{plural}")
}
