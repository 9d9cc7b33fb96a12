//! Rows of one length, back to back: answered on several threads, one by one or in blocks, written in their order. Each may have a
//! row of marks, from a second input.
//!
//! A reader cuts the input into batches, workers answer them, and the calling thread, to which all report, hands the
//! batches to the workers and writes what they answered. Batches are used again and there is a fixed number of them,
//! so that an endless input takes bounded memory. When the calling thread stops, for whatever reason, the workers do,
//! and what `answer` holds is dropped; the reader may still wait for input, and holds none of it.

mod reader;

use std::collections::BTreeMap;
use std::ffi::OsStr;
use std::io::{self, IsTerminal, Write};
use std::path::{Path, PathBuf};
use std::sync::mpsc::{self, Receiver, Sender};
use std::sync::Mutex;
use std::thread::{self, Builder, Scope};
use std::time::{Duration, Instant};
use std::{iter, panic};

use shearcotter::{raw, Counts};

use crate::failure::Failure;
use crate::files::{self, Input, Output, STANDARD};
use crate::progress::Progress;
use crate::status::Status;
use crate::wiped::Wiped;
use crate::{explain, names};
use reader::{Reader, Source};

/// A batch begins as one row, and has more while answering it takes less time than this, so that lines come soon.
const SHORT: Duration = Duration::from_millis(1);

/// The same where nobody waits for lines, so that a batch is a block of many rows.
const LONG: Duration = Duration::from_millis(50);

/// Bytes from which on a batch grows no more.
const MANY: usize = 1 << 15;

/// Batches for each worker: one in work, others read before or answered and not yet written.
const FOR_EACH_WORKER: usize = 4;

/// Bytes of a worker's stack: several times what a call makes sure of.
const STACK: usize = 8 * raw::STACK;

/// Rows of one length, back to back.
pub struct Rows {
    source: Source,
    /// A row of marks for each, back to back too.
    marks: Option<Source>,
    length: usize,
    /// How many bytes there are; none where that is not known.
    bytes: Option<u64>,
    progress: Progress,
    /// How long a batch may take before it grows no more.
    together: Duration,
}

impl Rows {
    /// The rows of a file, or of standard input; how far they are is shown where `progress` says so.
    pub fn new(name: &OsStr, length: usize, unit: &'static str, progress: bool) -> Result<Rows, Failure> {
        files::not_an_input(OsStr::new(STANDARD), &[name])?;
        let mut input = Input::open(name)?;
        let bytes = input.left();
        let total = bytes.map(|bytes| bytes.div_ceil(length as u64));
        let progress = Progress::new(total, unit, progress);
        Ok(Rows { source: input.into(), marks: None, length, bytes, progress, together: SHORT })
    }

    /// With a row of marks for each, from a second input. Where both lengths are known, they fit before any row is answered.
    pub fn with_marks(self, name: &OsStr) -> Result<Rows, Failure> {
        files::not_an_input(OsStr::new(STANDARD), &[name])?;
        let mut input = Input::open(name)?;
        if let (Some(bytes), Some(found)) = (self.bytes, input.left()) {
            let length = self.length as u64;
            // A short last row is refused whatever its marks are.
            if ![bytes, bytes.next_multiple_of(length)].contains(&found) {
                let explained = explain::marks_file(self.length, bytes.div_ceil(length), Some(found));
                return Err(Failure::Refused(names::input(name), explained, Status::Failed));
            }
        }
        Ok(Rows { marks: Some(input.into()), ..self })
    }
}

/// What is said of a row.
pub struct Answer {
    /// For standard output, as it stands.
    pub text: Wiped,
    /// For standard error, as it stands, behind the text.
    pub notes: String,
    /// 0, or the refusal's number.
    pub number: u8,
}

/// Writes the answer to each row, given its position from 1 and its marks, in the rows' order; `jobs` of them at a time. Where marks
/// are missing they are empty.
pub fn each(rows: Rows, jobs: usize, answer: impl Fn(u64, &[u8], &[u8]) -> Answer + Sync) -> Result<Counts, Failure> {
    let mut out = files::standard_output()?;
    let on_terminal = out.is_terminal();
    each_to(Streams { out: &mut out, name: None, error: &mut io::stderr(), on_terminal }, rows, jobs, answer)
}

fn each_to(
    streams: Streams,
    rows: Rows,
    jobs: usize,
    answer: impl Fn(u64, &[u8], &[u8]) -> Answer + Sync,
) -> Result<Counts, Failure> {
    let length = rows.length;
    batches(streams, rows, jobs, |batch| {
        batch.answer(length, &answer);
        Ok(())
    })
}

/// Writes the records of the rows, a byte for each, in the rows' order; as many blocks of rows at a time as `jobs` says.
/// A block that fails ends it.
pub fn blocks(
    rows: Rows,
    jobs: usize,
    out: Option<&mut Output>,
    records: impl Fn(&[u8]) -> Result<Vec<u8>, Failure> + Sync,
) -> Result<Counts, Failure> {
    let (mut nothing, mut error) = (io::sink(), io::stderr());
    let streams = match out {
        Some(out) => {
            Streams { on_terminal: out.is_terminal(), name: out.name().map(Path::to_owned), out, error: &mut error }
        }
        None => Streams { out: &mut nothing, name: None, error: &mut error, on_terminal: false },
    };
    batches(streams, Rows { together: LONG, ..rows }, jobs, |batch| batch.record(&records))
}

/// Where answers go.
struct Streams<'a> {
    out: &'a mut dyn Write,
    /// The file that `out` is; none for standard output.
    name: Option<PathBuf>,
    error: &'a mut dyn Write,
    /// Whether `out` is a terminal, most likely the progress bar's.
    on_terminal: bool,
}

fn batches(
    streams: Streams,
    rows: Rows,
    jobs: usize,
    answer: impl Fn(&mut Batch) -> Result<(), Failure> + Sync,
) -> Result<Counts, Failure> {
    let (report, events) = mpsc::channel();
    let (spare, empty) = mpsc::channel();
    let (work, queue) = mpsc::channel();
    let queue = Mutex::new(queue);
    let reader = Reader::new(rows.source, rows.marks, rows.length, rows.together);
    let writer =
        Writer { streams, progress: rows.progress, events, work, spare, written: 0, answered: BTreeMap::new() };
    let failed = |error| Failure::file("a thread".as_ref(), error);
    thread::scope(|scope| {
        // The writer is dropped at the end of this block, and before the workers are waited for.
        let writer = writer;
        start_reader(reader, empty, Report(report.clone())).map_err(failed)?;
        let start = || start_worker(scope, &queue, &answer, Report(report.clone()));
        let workers = as_many_as_start(jobs, start).map_err(failed)?;
        writer.run(workers * FOR_EACH_WORKER).and_then(|(counts, end)| end.map(|()| counts))
    })
}

/// Rows that go together from the reader to a worker and to the writer.
#[derive(Default)]
struct Batch {
    /// The position of the first row, from 1.
    first: u64,
    rows: Vec<u8>,
    /// Their marks, as far as there are some.
    marks: Vec<u8>,
    /// The answers' texts, one behind the other.
    text: Wiped,
    /// The answers' notes, each with the length of the text before it.
    notes: Vec<(usize, String)>,
    /// The answers' numbers.
    numbers: Vec<u8>,
    /// How long the answers took.
    took: Duration,
}

impl Batch {
    fn answer(&mut self, length: usize, answer: &impl Fn(u64, &[u8], &[u8]) -> Answer) {
        let marks = self.marks.chunks(length).chain(iter::repeat(&[][..]));
        for ((position, row), marks) in (self.first..).zip(self.rows.chunks(length)).zip(marks) {
            let answer = answer(position, row, marks);
            self.text.extend(&answer.text);
            self.numbers.push(answer.number);
            if !answer.notes.is_empty() {
                self.notes.push((self.text.len(), answer.notes));
            }
        }
    }

    /// The records are the text, and the numbers.
    fn record(&mut self, records: &impl Fn(&[u8]) -> Result<Vec<u8>, Failure>) -> Result<(), Failure> {
        self.numbers = records(&self.rows)?;
        self.text.extend(&self.numbers);
        Ok(())
    }

    fn clear(&mut self) {
        self.rows.clear();
        self.marks.clear();
        self.notes.clear();
        self.numbers.clear();
    }
}

/// What the writer is told.
enum Event {
    /// Rows have been read.
    Read(Batch),
    /// Rows have been answered.
    Answered(Batch),
    /// Rows could not be answered.
    Failed(Failure),
    /// No more rows are read.
    End(Result<(), Failure>),
    /// A thread has panicked.
    Lost,
}

/// A thread's way to the writer; a panic is told too.
struct Report(Sender<Event>);

impl Report {
    /// Whether somebody still listens.
    fn send(&self, event: Event) -> bool {
        self.0.send(event).is_ok()
    }
}

impl Drop for Report {
    fn drop(&mut self) {
        if thread::panicking() {
            self.send(Event::Lost);
        }
    }
}

/// The reader is not waited for: it may be waiting itself, for input.
fn start_reader(mut reader: Reader, empty: Receiver<Batch>, report: Report) -> io::Result<()> {
    let run = move || {
        while let Ok(batch) = empty.recv() {
            let event = reader.next(batch);
            let last = matches!(event, Event::End(_));
            if !report.send(event) || last {
                return;
            }
        }
    };
    Builder::new().name("reader".to_owned()).spawn(run).map(drop)
}

/// Up to `jobs`, and at least one: with fewer the answers are the same.
fn as_many_as_start(jobs: usize, start: impl Fn() -> io::Result<()>) -> io::Result<usize> {
    start()?;
    Ok(1 + (1..jobs).map_while(|_| start().ok()).count())
}

fn start_worker<'scope, F: Fn(&mut Batch) -> Result<(), Failure> + Sync>(
    scope: &'scope Scope<'scope, '_>,
    queue: &'scope Mutex<Receiver<Batch>>,
    answer: &'scope F,
    report: Report,
) -> io::Result<()> {
    let run = move || {
        while let Some(mut batch) = next_of(queue) {
            let started = Instant::now();
            let answered = answer(&mut batch);
            batch.took = started.elapsed();
            if !report.send(answered.map_or_else(Event::Failed, |()| Event::Answered(batch))) {
                return;
            }
        }
    };
    Builder::new().name("worker".to_owned()).stack_size(STACK).spawn_scoped(scope, run).map(drop)
}

fn next_of(queue: &Mutex<Receiver<Batch>>) -> Option<Batch> {
    queue.lock().ok()?.recv().ok()
}

/// The calling thread's part.
struct Writer<'a> {
    streams: Streams<'a>,
    progress: Progress,
    events: Receiver<Event>,
    /// To the workers.
    work: Sender<Batch>,
    /// To the reader.
    spare: Sender<Batch>,
    /// How many rows have been written.
    written: u64,
    /// What waits for rows before it, by the first position.
    answered: BTreeMap<u64, Batch>,
}

impl Writer<'_> {
    /// Until everything that was read is written; then the counts, and how reading ended.
    fn run(mut self, batches: usize) -> Result<(Counts, Result<(), Failure>), Failure> {
        for _ in 0..batches {
            let _ = self.spare.send(Batch::default());
        }
        let (mut counts, mut end, mut under_way) = (Counts::default(), None, 0);
        while end.is_none() || under_way > 0 {
            match self.events.recv() {
                Ok(Event::Read(batch)) => {
                    under_way += 1;
                    let _ = self.work.send(batch);
                }
                Ok(Event::Answered(batch)) => {
                    counts.extend(batch.numbers.iter().copied());
                    self.answered.insert(batch.first, batch);
                    let written = self.write_ready();
                    under_way -= written.map_err(|error| Failure::output(self.streams.name.as_deref(), error))?;
                }
                Ok(Event::Failed(failure)) => return Err(failure),
                Ok(Event::End(result)) => end = Some(result),
                Ok(Event::Lost) | Err(_) => panic::resume_unwind(Box::new("a thread has panicked")),
            }
        }
        Ok((counts, end.unwrap_or(Ok(()))))
    }

    /// Writes the batches that no other has to come before, whose texts are wiped then; how many.
    fn write_ready(&mut self) -> io::Result<usize> {
        let mut count = 0;
        while let Some(mut batch) = self.answered.remove(&(self.written + 1)) {
            self.write(&batch)?;
            batch.text.clear();
            self.written += batch.numbers.len() as u64;
            count += 1;
            let _ = self.spare.send(batch);
        }
        self.progress.show(self.written);
        Ok(count)
    }

    fn write(&mut self, batch: &Batch) -> io::Result<()> {
        let mut from = 0;
        for (to, note) in &batch.notes {
            self.write_text(&batch.text[from..*to])?;
            self.progress.clear();
            let _ = self.streams.error.write_all(note.as_bytes());
            from = *to;
        }
        self.write_text(&batch.text[from..])
    }

    fn write_text(&mut self, text: &[u8]) -> io::Result<()> {
        if self.streams.on_terminal && !text.is_empty() {
            self.progress.clear();
        }
        self.streams.out.write_all(text)
    }
}

#[cfg(test)]
mod tests;
