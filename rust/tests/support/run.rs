//! Runs of the tool, and folders for their files.

use std::io::{BufRead, BufReader, Write};
use std::path::{Path, PathBuf};
use std::process::{Child, Command, Output, Stdio};
use std::sync::atomic::{AtomicUsize, Ordering};
use std::sync::mpsc::{self, Receiver, RecvTimeoutError};
use std::time::{Duration, Instant};
use std::{env, fs, process, thread};

pub fn tool() -> Command {
    Command::new(env!("CARGO_BIN_EXE_shearcotter"))
}

/// A run with the bytes on standard input.
pub fn run(words: &[&str], input: &[u8]) -> Output {
    let mut command = tool();
    command.args(words).stdin(Stdio::piped());
    let mut child = command.stdout(Stdio::piped()).stderr(Stdio::piped()).spawn().expect("the tool starts");
    let mut stdin = child.stdin.take().expect("its standard input");
    let bytes = input.to_vec();
    // The tool may end before it has read all.
    let writer = thread::spawn(move || drop(stdin.write_all(&bytes)));
    let output = child.wait_with_output().expect("the tool ends");
    writer.join().expect("the writer ends");
    output
}

/// How long a test waits for what has to come.
const LONG: Duration = Duration::from_secs(60);

/// The lines of a run's standard output, read one at a time.
pub struct Lines(Receiver<String>);

impl Lines {
    pub fn of(child: &mut Child) -> Lines {
        let out = BufReader::new(child.stdout.take().expect("its standard output"));
        let (found, lines) = mpsc::sync_channel(0);
        thread::spawn(move || out.lines().try_for_each(|line| found.send(line.expect("text"))));
        Lines(lines)
    }

    /// The next line; none at the end.
    pub fn next(&self) -> Option<String> {
        match self.0.recv_timeout(LONG) {
            Err(RecvTimeoutError::Timeout) => panic!("no line comes"),
            line => line.ok(),
        }
    }
}

/// The exit status of a run that has to end by itself.
pub fn ended(child: &mut Child) -> i32 {
    let started = Instant::now();
    loop {
        if let Some(status) = child.try_wait().expect("the tool's state") {
            return status.code().expect("an exit status");
        }
        if started.elapsed() > LONG {
            let _ = child.kill();
            panic!("the tool does not end");
        }
        thread::sleep(Duration::from_millis(5));
    }
}

pub fn status(output: &Output) -> i32 {
    output.status.code().expect("an exit status")
}

pub fn text(bytes: &[u8]) -> &str {
    std::str::from_utf8(bytes).expect("text")
}

/// A folder of its own for one test, removed at the end.
pub struct Folder(PathBuf);

impl Folder {
    pub fn new() -> Folder {
        static NEXT: AtomicUsize = AtomicUsize::new(0);
        let number = NEXT.fetch_add(1, Ordering::Relaxed);
        let path = env::temp_dir().join(format!("shearcotter-test-{}-{number}", process::id()));
        fs::create_dir_all(&path).expect("a folder for the test");
        Folder(path)
    }

    /// A file's path as text.
    pub fn at(&self, name: &str) -> String {
        self.0.join(name).to_str().expect("a plain path").to_owned()
    }

    pub fn write(&self, name: &str, bytes: &[u8]) -> String {
        fs::write(self.0.join(name), bytes).expect("a file for the test");
        self.at(name)
    }

    pub fn names(&self) -> Vec<String> {
        let entries = fs::read_dir(&self.0).expect("the folder");
        let mut names: Vec<String> =
            entries.map(|entry| entry.expect("an entry").file_name().into_string().expect("a plain name")).collect();
        names.sort();
        names
    }

    pub fn path(&self) -> &Path {
        &self.0
    }
}

impl Drop for Folder {
    fn drop(&mut self) {
        drop(fs::remove_dir_all(&self.0));
    }
}
