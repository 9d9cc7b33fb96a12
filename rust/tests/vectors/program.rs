//! program: the opening program's runs, through the tool's `open`, with the last line of request L1.

use crate::support::run::{run, status, text};
use crate::support::vectors::{exists, file, folder, names};

/// The opening program reads no more than this.
const MOST: usize = 65_536;

/// A key that the program refuses: the tool says why on standard error, and nothing on standard output.
fn refused_key(name: &str, said: &str, key: &str, input: &[u8]) {
    let output = run(&["open", key], input);
    assert_eq!(text(&output.stdout), "", "{name}");
    if !exists(&format!("program/{name}/key.bin")) {
        assert_eq!(status(&output), 2, "{name}");
        return;
    }
    assert_eq!(status(&output), 3, "{name}");
    if let Some(number) = said.strip_prefix("key refused ") {
        let words = format!("refused {}:", number.trim_end());
        assert!(text(&output.stderr).contains(&words), "{name}: {}", text(&output.stderr));
    }
}

/// One run; nothing where the input is longer or shorter than wanted.
fn compare(name: &str, wanted: impl Fn(usize) -> bool) {
    let part = |part: &str| file(&format!("program/{name}/{part}"));
    let key = folder().join(format!("program/{name}/key.bin"));
    let key = key.to_str().expect("a plain path");
    let (mut input, stdout) = (part("stdin.bin"), part("stdout_L1.txt"));
    if !wanted(input.len()) {
        return;
    }
    input.truncate(MOST);
    if stdout.starts_with(b"key ") {
        return refused_key(name, text(&stdout), key, &input);
    }
    let output = run(&["open", key], &input);
    // The total stands on standard error, behind the names of the tool and the file.
    let total = text(&output.stderr).lines().next().and_then(|line| line.strip_prefix("shearcotter: standard input: "));
    let printed = format!("{}{}\n", text(&output.stdout), total.unwrap_or_default());
    assert!(printed == text(&stdout), "{name}: {printed}");
    let refused = !printed.ends_with(" refused 0\n");
    assert_eq!(status(&output), i32::from(refused), "{name}");
    same_total(name, key, &input, &printed);
}

/// The tool's `report` prints the same last line.
fn same_total(name: &str, key: &str, input: &[u8], printed: &str) {
    let output = run(&["report", key], input);
    assert_eq!(text(&output.stdout).lines().last(), printed.lines().last(), "{name}");
    assert_eq!(text(&output.stderr), "", "{name}");
}

#[test]
fn short_runs() {
    let names = names("program");
    assert!(names.len() >= 16);
    names.iter().for_each(|name| compare(name, |length| length < MOST));
}

#[test]
fn a_run_of_the_most_bytes() {
    names("program").iter().for_each(|name| compare(name, |length| length == MOST));
}

#[test]
fn a_run_of_one_byte_more() {
    names("program").iter().for_each(|name| compare(name, |length| length > MOST));
}
