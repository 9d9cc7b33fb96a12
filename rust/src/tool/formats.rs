//! How rows and their patterns are printed.

use shearcotter::{MarkedReading, Name, Pattern};

use crate::explain::Explained;
use crate::rows::Answer;
use crate::table::Word;
use crate::wiped::Wiped;
use crate::{failure, json};

#[derive(Clone, Copy, PartialEq, Eq)]
pub enum Format {
    Places,
    Hex,
    Raw,
    Json,
}

/// The formats by their words, in the order of `WORDS`.
const FORMATS: [Format; 4] = [Format::Places, Format::Hex, Format::Raw, Format::Json];

pub const WORDS: &[Word] = &[
    Word { name: "places", about: "the places of the ones, rising, from 0, split by blanks" },
    Word { name: "hex", about: "the pattern's bytes as one hexadecimal word" },
    Word { name: "raw", about: "the pattern's bytes, back to back, and nothing else" },
    Word { name: "json", about: "an object a line: position, answer, number, words, ones and places" },
];

/// Those of session keys, which have no places.
pub const KEY_WORDS: &[Word] = &[
    Word { name: "hex", about: "the key's bytes as one hexadecimal word" },
    Word { name: "raw", about: "the key's 32 bytes, back to back, and nothing else" },
    Word { name: "json", about: "an object a line: position, answer, number, words and key" },
];

impl Format {
    /// By one of the words; the parsing takes no other.
    pub fn named(word: &str) -> Format {
        let place = WORDS.iter().position(|known| known.name == word);
        FORMATS[place.unwrap_or_default()]
    }
}

/// The words of rows.
pub const OPEN: &str = "open";
pub const READ: &str = "read";
pub const SESSION: &str = "session";
pub const REFUSED: &str = "refused";
/// Stands before the differences at marked places.
pub const MARKED: &str = "marked";

/// How the rows of a file are answered.
pub struct Form {
    pub format: Format,
    /// What was expected and found goes behind a refusal.
    pub explain: bool,
    /// The word of an accepted row.
    pub word: &'static str,
    /// Whether the number of ones stands before the places.
    pub counted: bool,
    /// The file's name as shown.
    pub file: String,
}

impl Form {
    /// Of two recipients the name goes before the pattern; raw has none.
    pub fn accepted(&self, position: u64, name: Option<Name>, pattern: &Pattern) -> Answer {
        let text = match self.format {
            Format::Raw => pattern.bytes().to_vec(),
            Format::Json => {
                let name = name.map_or(String::new(), |name| format!(",\"recipient\":\"{name}\""));
                self.object(position, &name, pattern, "")
            }
            Format::Places | Format::Hex => {
                let name = name.map_or(String::new(), |name| format!(" {name}"));
                let count = if self.counted { format!(" {}", pattern.ones()) } else { String::new() };
                self.line(position, &(name + &count), pattern, pattern.places(), "")
            }
        };
        Answer { text: text.into(), notes: String::new(), number: 0 }
    }

    /// A marked reading: d, and the differences, those at marked places apart; where there are none of these, as without marks.
    pub fn marked(&self, position: u64, reading: &MarkedReading, marks: &[u8]) -> Answer {
        let (pattern, unmarked) = (reading.differences(), reading.unmarked());
        let is_marked = |place: &usize| marks[place / 8] >> (place % 8) & 1 == 1;
        let (at_marks, others): (Vec<usize>, Vec<usize>) = pattern.places().partition(is_marked);
        let behind = match (self.format, at_marks.len()) {
            (Format::Json, _) => format!(",\"marked\":[{}]", joined(at_marks, ",")),
            (_, 0) => String::new(),
            (Format::Places, count) => format!(" {MARKED} {count} {}", joined(at_marks, " ")),
            (_, count) => format!(" {MARKED} {count}"),
        };
        let text = match self.format {
            Format::Raw => pattern.bytes().to_vec(),
            Format::Json => self.object(position, &format!(",\"unmarked\":{unmarked}"), pattern, &behind),
            Format::Places | Format::Hex => self.line(position, &format!(" {unmarked}"), pattern, others, &behind),
        };
        Answer { text: text.into(), notes: String::new(), number: 0 }
    }

    /// The places are those to be listed; the bytes are all of the pattern.
    fn line(
        &self,
        position: u64,
        before: &str,
        pattern: &Pattern,
        places: impl IntoIterator<Item = usize>,
        behind: &str,
    ) -> Vec<u8> {
        let written = if self.format == Format::Hex { hex(pattern.bytes()) } else { joined(places, " ") };
        let blank = if written.is_empty() { "" } else { " " };
        format!("{position} {}{before}{blank}{written}{behind}\n", self.word).into_bytes()
    }

    fn object(&self, position: u64, before: &str, pattern: &Pattern, behind: &str) -> Vec<u8> {
        let (answer, ones) = (json_answer(position, self.word, 0, "accepted"), pattern.ones());
        let places = joined(pattern.places(), ",");
        format!("{{{answer}{before},\"ones\":{ones},\"places\":[{places}]{behind}}}\n").into_bytes()
    }

    /// A session key, which is in the text and nowhere else.
    pub fn derived(&self, position: u64, key: &[u8]) -> Answer {
        let (before, behind) = match self.format {
            Format::Raw => (String::new(), ""),
            Format::Json => (format!("{{{},\"key\":\"", json_answer(position, self.word, 0, "accepted")), "\"}\n"),
            Format::Places | Format::Hex => (format!("{position} {} ", self.word), "\n"),
        };
        let mut text = Wiped::from(before);
        match self.format {
            Format::Raw => text.extend(key),
            _ => key.iter().for_each(|byte| text.extend(&hex_digits(*byte))),
        }
        text.extend(behind.as_bytes());
        Answer { text, notes: String::new(), number: 0 }
    }

    /// With raw a refused row is named on standard error, else on standard output.
    pub fn refused(&self, position: u64, explained: &Explained) -> Answer {
        let number = explained.number;
        let said = match (self.format, self.explain) {
            (Format::Json, _) => self.refused_json(position, explained),
            (_, true) => format!("{position} {explained}"),
            (Format::Raw, false) => format!("{position} {}", explained.without_found()),
            (_, false) => format!("{position} {REFUSED} {number}"),
        };
        match self.format {
            Format::Raw => {
                Answer { text: Wiped::default(), notes: failure::line(&format!("{}: {said}", self.file)), number }
            }
            _ => Answer { text: (said + "\n").into(), notes: String::new(), number },
        }
    }

    fn refused_json(&self, position: u64, explained: &Explained) -> String {
        let Explained { number, words, found } = explained;
        let answer = json_answer(position, REFUSED, *number, words);
        let wanted = self.explain && !found.is_empty();
        let found = if wanted { format!(",\"explained\":{}", json::quoted(found)) } else { String::new() };
        format!("{{{answer}{found}}}")
    }
}

fn json_answer(position: u64, word: &str, number: u8, words: &str) -> String {
    format!("\"position\":{position},\"answer\":\"{word}\",\"number\":{number},\"words\":{}", json::quoted(words))
}

fn joined(places: impl IntoIterator<Item = usize>, separator: &str) -> String {
    places.into_iter().map(|place| place.to_string()).collect::<Vec<_>>().join(separator)
}

fn hex(bytes: &[u8]) -> String {
    bytes.iter().flat_map(|byte| hex_digits(*byte)).map(char::from).collect()
}

fn hex_digits(byte: u8) -> [u8; 2] {
    [byte >> 4, byte & 15].map(|half| b"0123456789abcdef"[usize::from(half)])
}
