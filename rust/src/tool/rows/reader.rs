//! The reading thread's part: inputs cut into batches of whole rows.

use std::io::{self, Read};
use std::path::PathBuf;
use std::time::Duration;

use super::{Batch, Event, MANY};
use crate::explain;
use crate::failure::Failure;
use crate::files::{self, Input};
use crate::names;
use crate::status::Status;

/// An input that is cut into rows.
pub struct Source {
    name: PathBuf,
    input: Box<dyn Read + Send>,
    /// What has been read and not handed on.
    tail: Vec<u8>,
    ended: bool,
}

impl From<Input> for Source {
    fn from(input: Input) -> Source {
        Source::new(input.name, input.file)
    }
}

impl Source {
    pub fn new(name: PathBuf, input: impl Read + Send + 'static) -> Source {
        Source { name, input: Box::new(input), tail: vec![], ended: false }
    }

    /// Takes the whole rows that are there by now, as many as fit, and waits for one where there is none; the last may be shorter.
    fn fill(&mut self, rows: &mut Vec<u8>, length: usize, room: usize) -> Result<(), Failure> {
        rows.append(&mut self.tail);
        if !self.ended {
            let begun = rows.len();
            rows.resize(room.max(begun), 0);
            let filled = files::read_at_least(&mut self.input, rows, begun, length);
            let filled = filled.map_err(|error| self.failed(error))?;
            rows.truncate(filled);
            self.ended = filled < length;
        }
        let whole = if self.ended { rows.len() } else { rows.len() - rows.len() % length };
        self.tail = rows.split_off(whole);
        Ok(())
    }

    /// Takes back what was handed on last, from a byte on.
    fn take_back(&mut self, rows: &mut Vec<u8>, from: usize) {
        let mut tail = rows.split_off(from);
        tail.append(&mut self.tail);
        self.tail = tail;
    }

    fn failed(&self, error: io::Error) -> Failure {
        Failure::file(&self.name, error)
    }
}

/// Cuts the input into batches.
pub struct Reader {
    rows: Source,
    /// A row of marks for each.
    marks: Option<Source>,
    length: usize,
    /// How long a batch may take before it grows no more.
    together: Duration,
    /// Rows of a full batch.
    full: usize,
    /// The position of the next row.
    position: u64,
}

impl Reader {
    pub fn new(rows: Source, marks: Option<Source>, length: usize, together: Duration) -> Reader {
        Reader { rows, marks, length, together, full: 1, position: 1 }
    }

    pub fn next(&mut self, mut batch: Batch) -> Event {
        self.learn(&batch);
        batch.clear();
        match self.fill(&mut batch) {
            Err(failure) => Event::End(Err(failure)),
            Ok(()) if batch.rows.is_empty() => Event::End(self.no_more_marks()),
            Ok(()) => {
                batch.first = self.position;
                self.position += batch.rows.len().div_ceil(self.length) as u64;
                Event::Read(batch)
            }
        }
    }

    /// Doubles the batches while a full one takes little time.
    fn learn(&mut self, answered: &Batch) {
        let full = answered.numbers.len() == self.full;
        if full && answered.took < self.together && self.full * self.length < MANY {
            self.full *= 2;
        }
    }

    /// Takes rows, and as many of marks; of the rows no more than there are marks by now, unless these have ended.
    fn fill(&mut self, batch: &mut Batch) -> Result<(), Failure> {
        self.rows.fill(&mut batch.rows, self.length, self.full * self.length)?;
        let Some(marks) = self.marks.as_mut().filter(|_| !batch.rows.is_empty()) else {
            return Ok(());
        };
        let room = batch.rows.len().next_multiple_of(self.length);
        marks.fill(&mut batch.marks, self.length, room)?;
        if !marks.ended && batch.marks.len() < batch.rows.len() {
            self.rows.take_back(&mut batch.rows, batch.marks.len());
        }
        Ok(())
    }

    /// Behind the last row there are no marks left.
    fn no_more_marks(&mut self) -> Result<(), Failure> {
        let Some(marks) = &mut self.marks else {
            return Ok(());
        };
        let mut left = vec![];
        marks.fill(&mut left, 1, 1)?;
        if left.is_empty() {
            return Ok(());
        }
        let explained = explain::marks_file(self.length, self.position - 1, None);
        Err(Failure::Refused(names::input(marks.name.as_os_str()), explained, Status::Failed))
    }
}
