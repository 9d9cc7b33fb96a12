//! The command-line tool: each command, its texts, statuses and files.

mod convert;
mod document;
mod errors;
mod exchange;
mod explanations;
mod formats;
mod marks;
mod names;
mod outputs;
mod patterns;
mod report;
mod second;
mod session;
mod shell;
mod small;
mod streams;
mod terminal;
mod texts;
mod usage;
mod wiping;

use crate::bench_keys::K1;
use crate::support::run::{run, status, text, Folder};
use crate::support::vectors;

/// Status, standard output, standard error.
fn outcome(words: &[&str], input: &[u8]) -> (i32, String, String) {
    let output = run(words, input);
    let (out, error) = (text(&output.stdout), text(&output.stderr));
    (status(&output), out.to_owned(), error.to_owned())
}

fn accepted(words: &[&str], input: &[u8], expected: &str) {
    assert_eq!(outcome(words, input), (0, expected.to_owned(), String::new()), "{words:?}");
}

/// Rows that are all accepted: the lines, and the total on standard error without the tool's name.
fn all_accepted(words: &[&str], input: &[u8], expected: &str, total: &str) {
    assert_eq!(outcome(words, input), (0, expected.to_owned(), format!("shearcotter: {total}\n")), "{words:?}");
}

/// Rows of which some are refused: the lines, and standard error without the tool's name.
fn some_refused(words: &[&str], input: &[u8], expected: &str, summary: &str) {
    let said = if summary.is_empty() { String::new() } else { format!("shearcotter: {summary}\n") };
    assert_eq!(outcome(words, input), (1, expected.to_owned(), said), "{words:?}");
}

/// Refused or failed, with words on standard error and nothing on standard output.
fn fails(words: &[&str], expected_status: i32, says: &str) {
    fails_on(words, &[], expected_status, says);
}

/// The same with bytes on standard input.
fn fails_on(words: &[&str], input: &[u8], expected_status: i32, says: &str) {
    let (status, out, error) = outcome(words, input);
    assert_eq!((status, out.as_str()), (expected_status, ""), "{words:?}: {error}");
    assert!(error.starts_with("shearcotter: "), "{words:?}: {error}");
    assert!(error.contains(says), "{words:?}: {error}");
}

/// A folder with the key file of K1.
fn with_k1() -> (Folder, String) {
    let folder = Folder::new();
    let key = folder.write("key.bin", &K1);
    (folder, key)
}

/// A file of the standard's first key, mceliece348864.
fn standard(part: &str) -> Vec<u8> {
    vectors::file(&format!("mceliece348864/count0/{part}"))
}
