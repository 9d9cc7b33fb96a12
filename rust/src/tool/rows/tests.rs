//! The threads, on inputs, answers and outputs made for them.

use std::io::{Cursor, ErrorKind, Read};
use std::sync::atomic::{AtomicUsize, Ordering};
use std::sync::mpsc::RecvTimeoutError;
use std::sync::{Arc, Barrier};

use super::*;

const ALL_TIME: Duration = Duration::from_secs(60);

/// What the work gives; a failure where it panics, or does not end.
fn ends<T: Send + 'static>(work: impl FnOnce() -> T + Send + 'static) -> Result<T, RecvTimeoutError> {
    let (done, answer) = mpsc::channel();
    thread::spawn(move || drop(done.send(work())));
    let result = answer.recv_timeout(ALL_TIME);
    assert!(!matches!(result, Err(RecvTimeoutError::Timeout)), "it does not end");
    result
}

fn rows(input: impl Read + Send + 'static, length: usize) -> Rows {
    let progress = Progress::new(None, "rows", false);
    let source = Source::new("input".into(), input);
    Rows { source, marks: None, length, bytes: None, progress, together: SHORT }
}

fn with_marks(rows: Rows, marks: impl Read + Send + 'static) -> Rows {
    Rows { marks: Some(Source::new("marks".into(), marks)), ..rows }
}

fn each_into(
    out: &mut dyn Write,
    rows: Rows,
    jobs: usize,
    answer: impl Fn(u64, &[u8]) -> Answer + Sync,
) -> Result<Counts, Failure> {
    marked_into(out, rows, jobs, |position, row, _| answer(position, row))
}

fn marked_into(
    out: &mut dyn Write,
    rows: Rows,
    jobs: usize,
    answer: impl Fn(u64, &[u8], &[u8]) -> Answer + Sync,
) -> Result<Counts, Failure> {
    each_to(Streams { out, name: None, error: &mut io::sink(), on_terminal: false }, rows, jobs, answer)
}

fn line(position: u64, row: &[u8]) -> Answer {
    Answer { text: format!("{position} {row:?}\n").into(), notes: String::new(), number: row[0] % 3 }
}

/// Gives 1 to 7 bytes at a time.
struct Pieces(Vec<u8>);

impl Read for Pieces {
    fn read(&mut self, bytes: &mut [u8]) -> io::Result<usize> {
        let count = (1 + self.0.len() % 7).min(bytes.len()).min(self.0.len());
        bytes[..count].copy_from_slice(&self.0[..count]);
        self.0.drain(..count);
        Ok(count)
    }
}

/// Reads fail.
struct Broken;

impl Read for Broken {
    fn read(&mut self, _: &mut [u8]) -> io::Result<usize> {
        Err(ErrorKind::ConnectionReset.into())
    }
}

/// Reads never come back.
struct Silent;

impl Read for Silent {
    fn read(&mut self, _: &mut [u8]) -> io::Result<usize> {
        loop {
            thread::park();
        }
    }
}

/// Nobody reads it.
struct Closed;

impl Write for Closed {
    fn write(&mut self, _: &[u8]) -> io::Result<usize> {
        Err(ErrorKind::BrokenPipe.into())
    }

    fn flush(&mut self) -> io::Result<()> {
        Ok(())
    }
}

/// How long each write was.
struct Lengths(Vec<usize>);

impl Write for Lengths {
    fn write(&mut self, bytes: &[u8]) -> io::Result<usize> {
        self.0.push(bytes.len());
        Ok(bytes.len())
    }

    fn flush(&mut self) -> io::Result<()> {
        Ok(())
    }
}

#[test]
fn lines_in_order_on_any_number_of_threads() {
    let bytes: Vec<u8> = (0..5000_u32).map(|i| (i * i / 7) as u8).collect();
    let expected: Vec<Answer> = (1..).zip(bytes.chunks(3)).map(|(position, row)| line(position, row)).collect();
    let text: Vec<u8> = expected.iter().flat_map(|answer| answer.text.to_vec()).collect();
    for jobs in [1, 2, 3, 16] {
        let mut out = vec![];
        // Some rows take longer, so that later ones are answered before them.
        let counts = each_into(&mut out, rows(Pieces(bytes.clone()), 3), jobs, |position, row| {
            thread::sleep(Duration::from_micros(if position % 50 == 1 { 3000 } else { 0 }));
            line(position, row)
        });
        let counts = counts.ok().expect("all is written");
        assert!(out == text, "{jobs} jobs");
        let of = |number| expected.iter().filter(|answer| answer.number == number).count();
        assert_eq!([0, 1, 2, 3].map(|number| counts.of(number)), [0, 1, 2, 3].map(of));
        assert_eq!((counts.total(), counts.refused()), (1667, of(1) + of(2)));
    }
}

fn pair(position: u64, row: &[u8], marks: &[u8]) -> Answer {
    Answer { text: format!("{position} {row:?} {marks:?}\n").into(), notes: String::new(), number: 0 }
}

/// Rows and marks in any pieces: each row has its own marks; missing ones are empty, and the last may be shorter.
#[test]
fn each_row_has_its_marks() {
    let bytes: Vec<u8> = (0..5000_u32).map(|i| (i * i / 7) as u8).collect();
    for (rows_given, marks_given) in [(5000, 5000), (5000, 5001), (4999, 4999), (5000, 4000), (5000, 7), (3, 0), (0, 0)]
    {
        let (words, marks) =
            (&bytes[..rows_given], &bytes.iter().rev().chain(&[9]).copied().collect::<Vec<_>>()[..marks_given]);
        let of_each = marks.chunks(3).chain(iter::repeat(&[][..]));
        let expected =
            (1..).zip(words.chunks(3)).zip(of_each).map(|((i, row), marks)| pair(i, row, marks).text.to_vec());
        let expected: Vec<u8> = expected.flatten().collect();
        for jobs in [1, 3] {
            for whole in [false, true] {
                let mut out = vec![];
                let (input, marks) = (Pieces(words.to_vec()), Pieces(marks.to_vec()));
                let rows = match whole {
                    false => with_marks(rows(input, 3), marks),
                    true => with_marks(rows(Cursor::new(input.0), 3), marks),
                };
                marked_into(&mut out, rows, jobs, pair).ok().expect("all is written");
                assert!(out == expected, "{rows_given} {marks_given} {jobs} jobs");
            }
        }
    }
}

#[test]
fn marks_that_are_left_fail_behind_the_rows() {
    for (rows_given, marks_given) in [(6, 7), (6, 9), (4, 7), (0, 1)] {
        let mut out = vec![];
        let rows = with_marks(rows(Pieces(vec![7; rows_given]), 3), Pieces(vec![1; marks_given]));
        let failure = marked_into(&mut out, rows, 2, pair).expect_err("a failure");
        let count = rows_given.div_ceil(3);
        let expected = format!("expected {} bytes, a row of 3 bytes for each of {count} words, found more", 3 * count);
        assert_eq!(failure.to_string(), format!("marks: refused 37: marks of wrong length: {expected}"));
        assert_eq!((failure.status(), String::from_utf8(out).expect("text").lines().count()), (Status::Failed, count));
    }
}

/// A row is answered once it and its marks are there, though no more of either comes.
#[test]
fn a_row_is_answered_before_the_next_marks_come() {
    for (rows_given, marks_given) in [(50, 10), (10, 50), (10, 10)] {
        let (answered, count) = mpsc::channel();
        thread::spawn(move || {
            let input = Cursor::new(vec![7; rows_given]).chain(Silent);
            let rows = with_marks(rows(input, 1), Pieces(vec![1; marks_given]).chain(Silent));
            marked_into(&mut io::sink(), rows, 2, |position, row, marks| {
                assert_eq!(marks, [1]);
                let _ = answered.send(position);
                pair(position, row, marks)
            })
            .is_ok()
        });
        let mut positions: Vec<u64> = (0..10).map(|_| count.recv_timeout(ALL_TIME).expect("an answer")).collect();
        positions.sort_unstable();
        assert!(positions.into_iter().eq(1..=10), "{rows_given} {marks_given}");
    }
}

#[test]
fn failing_marks_have_their_name() {
    let rows = with_marks(rows(io::repeat(7).take(100), 2), Pieces(vec![1; 7]).chain(Broken));
    let mut out = vec![];
    let failure = marked_into(&mut out, rows, 2, pair).expect_err("a failure").to_string();
    assert!(failure.starts_with("marks: "), "{failure}");
    assert_eq!(String::from_utf8(out).expect("text").lines().count(), 3);
}

#[test]
fn as_many_rows_at_a_time_as_jobs() {
    let result = ends(|| {
        let together = Barrier::new(3);
        each_into(&mut vec![], rows(Pieces(vec![0; 9]), 1), 3, |position, row| {
            together.wait();
            line(position, row)
        })
        .is_ok()
    });
    assert_eq!(result, Ok(true));
}

#[test]
fn fewer_workers_where_not_all_start() {
    let started = |room: usize| {
        let count = AtomicUsize::new(0);
        let start = || match count.fetch_add(1, Ordering::Relaxed) {
            earlier if earlier < room => Ok(()),
            _ => Err(ErrorKind::WouldBlock.into()),
        };
        as_many_as_start(4, start).ok()
    };
    assert_eq!([0, 1, 3, 4, 9].map(started), [None, Some(1), Some(3), Some(4), Some(4)]);
}

#[test]
fn quick_rows_travel_together_and_slow_ones_alone() {
    let mut out = Lengths(vec![]);
    let quick = |_: u64, _: &[u8]| Answer { text: vec![0].into(), notes: String::new(), number: 0 };
    each_into(&mut out, rows(io::repeat(7).take(100_000), 1), 2, quick).ok().expect("all is written");
    assert_eq!(out.0.iter().sum::<usize>(), 100_000);
    assert!(out.0.len() < 5_000, "{} writes", out.0.len());
    let mut out = Lengths(vec![]);
    let slow = |_: u64, _: &[u8]| {
        thread::sleep(2 * SHORT);
        Answer { text: vec![0].into(), notes: String::new(), number: 0 }
    };
    each_into(&mut out, rows(io::repeat(7).take(40), 1), 2, slow).ok().expect("all is written");
    assert_eq!(out.0, [1; 40]);
}

#[test]
fn notes_stand_behind_their_lines() {
    /// Both streams in one text.
    #[derive(Clone)]
    struct Page(Arc<Mutex<Vec<u8>>>);
    impl Write for Page {
        fn write(&mut self, bytes: &[u8]) -> io::Result<usize> {
            self.0.lock().expect("the page").write(bytes)
        }
        fn flush(&mut self) -> io::Result<()> {
            Ok(())
        }
    }
    let page = Page(Arc::default());
    let streams = Streams { out: &mut page.clone(), name: None, error: &mut page.clone(), on_terminal: false };
    let answer = |position: u64, _: &[u8], _: &[u8]| {
        let notes = if position % 3 == 1 { format!("note on {position}\n") } else { String::new() };
        Answer { text: format!("{position}\n").into(), notes, number: 0 }
    };
    each_to(streams, rows(io::repeat(7).take(1000), 1), 2, answer).ok().expect("all is written");
    let note = |i: u64| if i % 3 == 1 { format!("{i}\nnote on {i}\n") } else { format!("{i}\n") };
    let expected: String = (1..=1000).map(note).collect();
    assert!(*page.0.lock().expect("the page") == expected.into_bytes());
}

#[test]
fn records_of_blocks_in_order_on_any_number_of_threads() {
    let bytes: Vec<u8> = (0..50_000_u32).map(|i| (i * i / 7) as u8).collect();
    let record = |row: &[u8]| row[0] % 3 + row.len() as u8;
    let expected: Vec<u8> = bytes.chunks(3).map(record).collect();
    for jobs in [1, 2, 3, 16] {
        let (mut out, most) = (vec![], AtomicUsize::new(0));
        let streams = Streams { out: &mut out, name: None, error: &mut io::sink(), on_terminal: false };
        let rows = Rows { together: LONG, ..rows(Cursor::new(bytes.clone()), 3) };
        let counts = batches(streams, rows, jobs, |batch| {
            batch.record(&|block: &[u8]| {
                most.fetch_max(block.len(), Ordering::Relaxed);
                thread::sleep(2 * SHORT);
                Ok(block.chunks(3).map(record).collect())
            })
        });
        let counts = counts.ok().expect("all is written");
        assert!(out == expected, "{jobs} jobs");
        assert_eq!(counts.total(), 16_667);
        let of = |value: u8| (value, expected.iter().filter(|record| **record == value).count());
        let occurring: Vec<(u8, usize)> = (0..=5).map(of).filter(|(_, count)| *count > 0).collect();
        assert_eq!(counts.occurring().collect::<Vec<_>>(), occurring);
        // Though each block takes longer than lines may, it has many rows.
        assert!(most.into_inner() > 100, "{jobs} jobs");
    }
}

#[test]
fn a_block_that_fails_ends_it_though_the_reader_waits() {
    for jobs in [1, 4] {
        let result = ends(move || {
            let mut out = vec![];
            let streams = Streams { out: &mut out, name: None, error: &mut io::sink(), on_terminal: false };
            let rows = rows(Pieces([vec![0; 100], vec![7]].concat()).chain(Silent), 1);
            let refused = || Err(Failure::usage("made for this test"));
            let records = |block: &[u8]| if block.contains(&7) { refused() } else { Ok(block.to_vec()) };
            let result = batches(streams, rows, jobs, |batch| batch.record(&records));
            (result.err().map(|failure| failure.to_string()), out.contains(&7))
        });
        assert_eq!(result, Ok((Some("made for this test; see shearcotter help".to_owned()), false)));
    }
}

#[test]
fn a_failing_output_has_its_name() {
    struct Full;
    impl Write for Full {
        fn write(&mut self, _: &[u8]) -> io::Result<usize> {
            Err(ErrorKind::StorageFull.into())
        }
        fn flush(&mut self) -> io::Result<()> {
            Ok(())
        }
    }
    for (name, said) in [(Some("records"), "records: "), (None, "standard output: ")] {
        let name = name.map(PathBuf::from);
        let streams = Streams { out: &mut Full, name, error: &mut io::sink(), on_terminal: false };
        let result = each_to(streams, rows(io::repeat(7), 1), 2, |position, row, _| line(position, row));
        let failure = result.expect_err("a failure").to_string();
        assert!(failure.starts_with(said), "{failure}");
    }
}

#[test]
fn a_failing_read_comes_behind_the_rows_before_it() {
    let mut out = vec![];
    let result = each_into(&mut out, rows(Pieces(vec![7; 35]).chain(Broken), 2), 2, |position, row| {
        thread::sleep(SHORT);
        line(position, row)
    });
    let failure = result.expect_err("a failure").to_string();
    assert!(failure.starts_with("input: "), "{failure}");
    let expected: String = (1..=17).map(|position| format!("{position} [7, 7]\n")).collect();
    assert_eq!(String::from_utf8(out), Ok(expected));
}

#[test]
fn a_closed_output_ends_the_workers_though_the_reader_waits() {
    let secret = Arc::new(());
    let held = Arc::clone(&secret);
    let result = ends(move || {
        each_into(&mut Closed, rows(Pieces(vec![7; 10]).chain(Silent), 1), 2, move |position, row| {
            let _holds = &held;
            line(position, row)
        })
        .err()
    });
    assert!(matches!(result, Ok(Some(Failure::Closed))));
    assert_eq!(Arc::strong_count(&secret), 1);
}

#[test]
fn an_endless_input_waits_for_the_output() {
    const ENOUGH: usize = 50_000;
    /// From when on enough rows are answered: waits until no more are, then is closed.
    struct Slow(Arc<AtomicUsize>);
    impl Write for Slow {
        fn write(&mut self, bytes: &[u8]) -> io::Result<usize> {
            let mut seen = ENOUGH - 1;
            while seen < self.0.load(Ordering::Relaxed) {
                seen = self.0.load(Ordering::Relaxed);
                thread::sleep(Duration::from_millis(200));
            }
            if seen < ENOUGH {
                return Ok(bytes.len());
            }
            Closed.write(bytes)
        }
        fn flush(&mut self) -> io::Result<()> {
            Ok(())
        }
    }
    let answered = Arc::new(AtomicUsize::new(0));
    let (count, mut out) = (Arc::clone(&answered), Slow(Arc::clone(&answered)));
    let result = ends(move || {
        each_into(&mut out, rows(io::repeat(7), 100), 3, move |position, row| {
            count.fetch_add(1, Ordering::Relaxed);
            line(position, row)
        })
        .err()
    });
    assert!(matches!(result, Ok(Some(Failure::Closed))));
    let most_under_way = 3 * FOR_EACH_WORKER * (2 * MANY / 100);
    assert!(answered.load(Ordering::Relaxed) <= ENOUGH + 2 * most_under_way, "{answered:?}");
}

#[test]
fn a_panic_ends_it() {
    for jobs in [1, 4] {
        let result = ends(move || {
            each_into(&mut vec![], rows(Pieces(vec![7; 100]).chain(Silent), 1), jobs, |position, row| {
                assert!(position < 5, "a panic made for this test");
                line(position, row)
            })
            .is_ok()
        });
        assert_eq!(result, Err(RecvTimeoutError::Disconnected));
    }
}
