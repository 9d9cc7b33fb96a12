//! `read --marks`: words with a row of marks for each.

use std::ffi::OsStr;

use shearcotter::{Shape, Station};

use crate::arguments::Given;
use crate::explain::{self, Row};
use crate::failure::Failure;
use crate::formats::Form;
use crate::status::Status;
use crate::{keys, opening, rows};

const KIND: Row = Row::MarkedWord;

/// The command `read` with marks: the differences of each word, and how many are at unmarked places.
pub fn read(
    given: &Given,
    (station, shape): (&Station, Shape),
    file: &OsStr,
    marks: &OsStr,
    form: &Form,
) -> Result<Status, Failure> {
    let words = opening::rows(given, file, KIND, shape)?.with_marks(marks)?;
    let counts = rows::each(words, opening::jobs(given), |position, word, marks| {
        match station.read_marked(keys::ONLY, word, marks) {
            Ok(reading) => form.marked(position, &reading, marks),
            Err(refusal) => form.refused(position, &explain::marked_word(shape, word, marks, refusal)),
        }
    })?;
    Ok(opening::end(given, file, KIND, &counts.into()))
}
