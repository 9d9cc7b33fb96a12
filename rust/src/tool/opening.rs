//! `open` and `read`: an answer for each row of a file.

use std::ffi::OsStr;
use std::thread;

use shearcotter::{Refusal, Shape};

use crate::arguments::Given;
use crate::commands::{EXPLAIN, FORMAT, JOBS, MARKS, MOST_JOBS};
use crate::explain::{self, Row};
use crate::failure::{self, Failure};
use crate::formats::{self, Form, Format};
use crate::recipients::{Recipients, Tally};
use crate::rows::{self, Answer, Rows};
use crate::status::Status;
use crate::table::QUIET;
use crate::{keys, marking, names};

/// The command `open`.
pub fn open(given: &Given) -> Result<Status, Failure> {
    let [key, file] = given.operands();
    let recipients = Recipients::published(given, key)?;
    let form = form(given, file, formats::OPEN, false);
    if form.format == Format::Raw {
        recipients.of_one_length()?;
    }
    let tally = answers(given, file, (Row::Capsule, recipients.shape()), form, |form, position, capsule| {
        recipients.open(capsule).map(|(name, pattern)| form.accepted(position, name, &pattern))
    })?;
    Ok(end(given, file, Row::Capsule, &recipients.tally(tally.counts)))
}

/// The command `read`.
pub fn read(given: &Given) -> Result<Status, Failure> {
    let [key, file] = given.operands();
    let (station, _, shape) = keys::load(key)?;
    let form = form(given, file, formats::READ, true);
    if let Some(marks) = given.file(MARKS) {
        return marking::read(given, (&station, shape), file, marks, &form);
    }
    let tally = answers(given, file, (Row::Word, shape), form, |form, position, word| {
        station.read(keys::ONLY, word).map(|pattern| form.accepted(position, None, &pattern))
    })?;
    Ok(end(given, file, Row::Word, &tally))
}

pub fn form(given: &Given, file: &OsStr, word: &'static str, counted: bool) -> Form {
    let format = Format::named(given.word(FORMAT));
    Form { format, explain: given.has(EXPLAIN), word, counted, file: names::input(file) }
}

/// Prints an answer for each row; how many there were, by their numbers.
pub fn answers(
    given: &Given,
    file: &OsStr,
    (kind, shape): (Row, Shape),
    form: Form,
    accepted: impl Fn(&Form, u64, &[u8]) -> Result<Answer, Refusal> + Sync,
) -> Result<Tally, Failure> {
    let rows = rows(given, file, kind, shape)?;
    let counts = rows::each(rows, jobs(given), |position, row, _| {
        let refused = |refusal| form.refused(position, &explain::row(kind, shape, row, refusal));
        accepted(&form, position, row).unwrap_or_else(refused)
    })?;
    Ok(counts.into())
}

/// The rows of a file, of a kind.
pub fn rows(given: &Given, file: &OsStr, kind: Row, shape: Shape) -> Result<Rows, Failure> {
    Rows::new(file, kind.length(shape), kind.plural(), !given.has(QUIET))
}

/// Says at the end how many rows there were and by which numbers some were refused; where each row was explained, not the numbers.
pub fn end(given: &Given, file: &OsStr, kind: Row, tally: &Tally) -> Status {
    if !given.has(QUIET) {
        let said = if given.has(EXPLAIN) { total(file, kind, tally) } else { summary(file, kind, tally) };
        failure::say(&said);
    }
    status(tally)
}

/// How many rows a file had, and by which numbers some were refused.
pub fn summary(file: &OsStr, kind: Row, tally: &Tally) -> String {
    let refused = tally.lines(kind).into_iter().filter(|(number, _, _)| *number > 0);
    let line = |(number, words, count)| format!("\n  {count} by {number}: {words}");
    total(file, kind, tally) + &refused.map(line).collect::<String>()
}

/// The opening program's last line; words are read, and session keys derived. With two keys, how many each opened.
fn total(file: &OsStr, kind: Row, tally: &Tally) -> String {
    let counts = &tally.counts;
    let said = match kind {
        Row::Capsule => counts.to_string(),
        _ => format!("total {} {} {} refused {}", counts.total(), kind.accepted(), counts.of(0), counts.refused()),
    };
    let names = tally.names().into_iter().map(|(words, count)| format!("\n  {count} {words}"));
    format!("{}: {said}{}", names::input(file), names.collect::<String>())
}

/// Whether some row was refused.
pub fn status(tally: &Tally) -> Status {
    match tally.counts.refused() {
        0 => Status::Accepted,
        _ => Status::RowRefused,
    }
}

/// How many threads answer rows.
pub fn jobs(given: &Given) -> usize {
    let cores = || thread::available_parallelism().map_or(1, |cores| cores.get().min(MOST_JOBS));
    given.number(JOBS).unwrap_or_else(cores)
}
