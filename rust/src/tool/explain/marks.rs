//! Marks, and words that are read with them.

use shearcotter::{Refusal, Shape};

use super::rows::{self, filler, Row};
use super::{counted, Explained};

const WRONG_LENGTH: &str = "marks of wrong length";

/// A word with its marks.
pub fn marked_word(shape: Shape, word: &[u8], marks: &[u8], refusal: Refusal) -> Explained {
    let length = Row::MarkedWord.length(shape);
    match refusal {
        Refusal::BadMarks if marks.len() != length => {
            let found = format!("expected {}, found {}", counted(length, "byte"), marks.len());
            Explained::new(refusal, WRONG_LENGTH, found)
        }
        Refusal::BadMarks => {
            let found = filler(Row::MarkedWord.bits(shape), marks, 0).unwrap_or_default();
            Explained::new(refusal, "marks with filler set", found)
        }
        Refusal::NoCodeWord => {
            let marked: u32 = marks.iter().map(|byte| byte.count_ones()).sum();
            let explained = rows::row(Row::MarkedWord, shape, word, refusal);
            Explained { found: format!("s is {marked}, 2t is {}", 2 * shape.t()), ..explained }
        }
        _ => rows::row(Row::MarkedWord, shape, word, refusal),
    }
}

/// A file of marks for so many words whose length does not fit; none where more was found than fits.
pub fn marks_file(length: usize, words: u64, found: Option<u64>) -> Explained {
    let expected = words * length as u64;
    let bytes = if expected == 1 { "byte" } else { "bytes" };
    let of_each = format!("a row of {} for each of {}", counted(length, "byte"), counted(words as usize, "word"));
    let found = found.map_or("more".to_owned(), |found| found.to_string());
    Explained::new(Refusal::BadMarks, WRONG_LENGTH, format!("expected {expected} {bytes}, {of_each}, found {found}"))
}
