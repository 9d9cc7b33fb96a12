//! Sessions on a terminal: the progress bar, and an error.

use std::fs::{self, File};
use std::process::Command;

use crate::support::run::{tool, Folder};
use crate::support::terminal::session;
use crate::support::vectors;

const CAPSULES: usize = 4000;

/// A key and as many capsules as take a second or two on one thread; all of them are refused 13.
fn long_run() -> (Folder, String, String) {
    let folder = Folder::new();
    let at = |part: &str| vectors::file(&format!("mceliece8192128/count0/{part}"));
    let key = folder.write("key.bin", &at("key.bin"));
    let capsules = folder.write("capsules", &at("capsule_reject.bin").repeat(CAPSULES));
    (folder, key, capsules)
}

fn open(key: &str, capsules: &str) -> Command {
    let mut command = tool();
    command.args(["open", "--jobs", "1", key, capsules]);
    command
}

fn lines() -> Vec<String> {
    (1..=CAPSULES).map(|position| format!("{position} refused 13")).collect()
}

/// What stands on standard error at the end.
fn summary(file: &str) -> Vec<String> {
    let refused = format!("shearcotter: {file}: total {CAPSULES} opened 0 refused {CAPSULES}");
    vec![refused, format!("  {CAPSULES} by 13: no pattern for the capsule")]
}

/// The number that a text begins with, and what follows it.
fn number_in(text: &str) -> Option<(usize, &str)> {
    let end = text.find(|c: char| !c.is_ascii_digit())?;
    Some((text[..end].parse().ok()?, &text[end..]))
}

/// How many capsules are done, as a bar of a known length of work says it with the time left.
fn done_in(bar: &str) -> Option<usize> {
    let (marks, words) = bar.strip_prefix('[')?.split_once("] ")?;
    let percent = number_in(words.trim_start())?;
    let (done, rest) = number_in(percent.1.strip_prefix(" % ")?)?;
    let rest = rest.strip_prefix(&format!(" of {CAPSULES} capsules"))?;
    // Minutes too, on a machine that has other work.
    let time = rest.is_empty() || matches!(number_in(rest.strip_prefix(", ")?)?.1, " s left" | " min left");
    let drawn = marks.trim_end_matches('.') == "#".repeat(30 * done / CAPSULES);
    (marks.len() == 30 && drawn && percent.0 == 100 * done / CAPSULES && time).then_some(done)
}

#[test]
fn a_bar_with_the_time_left() {
    let (folder, key, capsules) = long_run();
    let out = folder.at("out");
    for terminal in ["xterm", "dumb", ""] {
        let mut command = open(&key, &capsules);
        command.env("TERM", terminal);
        let session = session(command, Some(File::create(&out).expect("an output")));
        assert_eq!(session.status, 1);
        let bars = session.bars();
        let done: Option<Vec<usize>> = bars.iter().map(|bar| done_in(bar)).collect();
        let done = done.unwrap_or_else(|| panic!("{bars:?}"));
        assert!(done.len() > 2 && done.is_sorted() && done[0] > 0, "{bars:?}");
        assert!(bars[0].ends_with(" left"), "{bars:?}");
        assert_eq!(session.screen(), summary(&capsules));
        assert!(!session.written.contains('\x1b'), "{:?}", session.written);
        assert_eq!(fs::read_to_string(&out).expect("lines"), lines().join("\n") + "\n");
    }
}

#[test]
fn the_bar_is_taken_away_before_lines() {
    let (_folder, key, capsules) = long_run();
    let session = session(open(&key, &capsules), None);
    assert_eq!((session.status, session.screen()), (1, [lines(), summary(&capsules)].concat()));
    assert!(session.bars().len() > 2, "{:?}", session.bars());
}

#[test]
fn a_count_where_the_total_is_not_known() {
    let (folder, key, _) = long_run();
    let mut command = Command::new("sh");
    // The tool has enough to do before the pipe ends.
    let line = "cat \"$2\" | \"$0\" open --jobs 1 \"$1\"";
    command.args(["-c", line, env!("CARGO_BIN_EXE_shearcotter"), &key, &folder.at("capsules")]);
    let session = session(command, Some(File::create(folder.at("out")).expect("an output")));
    let counts: Vec<&str> = session.written.split('\r').filter(|part| part.ends_with(" capsules")).collect();
    assert!(counts.len() > 2, "{:?}", session.written);
    for count in counts {
        assert!(number_in(count).is_some_and(|(_, rest)| rest == " capsules"), "{count:?}");
    }
    assert_eq!(session.screen(), summary("standard input"));
}

#[test]
fn quiet_shows_no_bar() {
    let (folder, key, capsules) = long_run();
    let mut command = open(&key, &capsules);
    command.arg("--quiet");
    let session = session(command, Some(File::create(folder.at("out")).expect("an output")));
    assert_eq!((session.status, session.written.as_str()), (1, ""));
}

#[test]
fn a_short_run_shows_no_bar() {
    let (folder, key, _) = long_run();
    let none = folder.write("none", &[]);
    let session = session(open(&key, &none), None);
    let said = format!("shearcotter: {none}: total 0 opened 0 refused 0\r\n");
    assert_eq!((session.status, session.written), (0, said));
}

#[test]
fn a_report_shows_a_bar_and_takes_it_away() {
    let (folder, key, capsules) = long_run();
    let report = |words: &[&str]| {
        let mut command = tool();
        command.args(["report", "--jobs", "1", &key, &capsules]).args(words);
        command
    };
    let said = [
        format!("13  no pattern for the capsule  {CAPSULES}"),
        format!("total {CAPSULES} opened 0 refused {CAPSULES}"),
    ];
    let shown = session(report(&["--records", &folder.at("records")]), None);
    let done: Option<Vec<usize>> = shown.bars().iter().map(|bar| done_in(bar)).collect();
    assert!(done.is_some_and(|done| !done.is_empty() && done.is_sorted()), "{:?}", shown.bars());
    assert_eq!((shown.status, shown.screen()), (1, said.to_vec()));
    assert!(fs::read(folder.at("records")).expect("the records") == [13; CAPSULES]);
    let quiet = session(report(&["--quiet"]), None);
    assert_eq!((quiet.status, quiet.screen(), quiet.bars().len()), (1, said.to_vec(), 0));
}

#[test]
fn a_session_shows_a_bar_and_takes_it_away() {
    let (folder, key, capsules) = long_run();
    let secret = folder.write("secret", &vectors::file("mceliece8192128/count0/secret.bin"));
    let run = |words: &[&str]| {
        let mut command = tool();
        command.args(["session", "--jobs", "1", &key, &secret, &capsules]).args(words);
        session(command, Some(File::create(folder.at("out")).expect("an output")))
    };
    let shown = run(&[]);
    let done: Option<Vec<usize>> = shown.bars().iter().map(|bar| done_in(bar)).collect();
    assert!(done.is_some_and(|done| done.len() > 2 && done.is_sorted()), "{:?}", shown.bars());
    let said = format!("shearcotter: {capsules}: total {CAPSULES} derived {CAPSULES} refused 0");
    assert_eq!((shown.status, shown.screen()), (0, vec![said]));
    assert_eq!(fs::read_to_string(folder.at("out")).expect("lines").lines().count(), CAPSULES);
    let quiet = run(&["--quiet"]);
    assert_eq!((quiet.status, quiet.written.as_str()), (0, ""));
}

#[test]
fn an_error_is_one_line() {
    let (folder, key, _) = long_run();
    for words in [["check", "missing"], ["open", "missing"]] {
        let mut command = tool();
        command.current_dir(folder.path()).args(words);
        let session = session(command, None);
        let expected = "shearcotter: missing: No such file or directory (os error 2)\r\n";
        assert_eq!((session.status, session.written.as_str()), (2, expected));
    }
    let session = session(open(&key, &folder.at("none")), None);
    assert_eq!((session.status, session.written.matches('\n').count()), (2, 1), "{}", session.written);
}
