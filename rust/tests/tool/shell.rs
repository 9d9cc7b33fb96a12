//! The man page and the completions: as committed, and as the shell and the formatter take them.

use std::fs;
use std::path::Path;
use std::process::{Command, Output, Stdio};

use super::outcome;
use crate::support::run::{status, text, Folder};

const COMPLETIONS: &str = "completions/shearcotter.bash";
const MANUAL: &str = "man/shearcotter.1";

fn committed(name: &str) -> String {
    let path = Path::new(env!("CARGO_MANIFEST_DIR")).join(name);
    fs::read_to_string(&path).unwrap_or_else(|error| panic!("{}: {error}", path.display()))
}

fn printed(words: &[&str]) -> String {
    let (status, out, error) = outcome(words, &[]);
    assert_eq!((status, error.as_str()), (0, ""), "{words:?}");
    out
}

#[test]
fn the_committed_files_are_current() {
    let again = "print it again: shearcotter man, shearcotter completions bash";
    assert!(committed(MANUAL) == printed(&["man"]), "{MANUAL}: {again}");
    assert!(committed(COMPLETIONS) == printed(&["completions", "bash"]), "{COMPLETIONS}: {again}");
}

/// The output of a program, if it is installed.
fn installed(command: &mut Command) -> Option<Output> {
    command.stdin(Stdio::null()).output().ok()
}

#[test]
fn the_formatter_has_no_warnings() {
    let page = Path::new(env!("CARGO_MANIFEST_DIR")).join(MANUAL);
    if let Some(output) = installed(Command::new("groff").args(["-man", "-ww", "-Tutf8", "-P-cbou"]).arg(&page)) {
        assert_eq!((status(&output), text(&output.stderr)), (0, ""));
        let shown = text(&output.stdout);
        for part in [
            "shearcotter - opens Classic McEliece capsules",
            "--format FORMAT",
            "2^m",
            "`open`",
            "no pattern for the capsule",
        ] {
            assert!(shown.contains(part), "{part}: {shown}");
        }
    }
    if let Some(output) = installed(Command::new("man").args(["--warnings", "-l"]).arg(&page)) {
        assert_eq!((status(&output), text(&output.stderr)), (0, ""));
    }
}

#[test]
fn the_manual_has_known_macros_only() {
    let known = ["TH", "SH", "SS", "TP", "PP", "B", "br", "nf", "fi", "RS", "RE", "\\\""];
    let page = committed(MANUAL);
    let requests = page.lines().filter_map(|line| line.strip_prefix('.'));
    for request in requests {
        assert!(known.contains(&request.split(' ').next().expect("a name")), "{request}");
    }
    assert!(!page.lines().any(|line| line.starts_with('\'') || line.is_empty()));
    let count = |name: &str| page.lines().filter(|line| line.split(' ').next() == Some(name)).count();
    assert_eq!((count(".RS"), count(".nf"), count(".TH")), (count(".RE"), count(".fi"), 1));
    for section in ["NAME", "SYNOPSIS", "DESCRIPTION", "COMMANDS", "REFUSALS", "EXIT STATUS"] {
        assert_eq!(page.matches(&format!(".SH \"{section}\"\n")).count(), 1, "{section}");
    }
}

/// What bash offers for the last word.
fn completed(words: &[&str]) -> Vec<String> {
    completed_in(Path::new(env!("CARGO_MANIFEST_DIR")), words)
}

fn completed_in(folder: &Path, words: &[&str]) -> Vec<String> {
    let script = "source \"$1\"; shift; COMP_WORDS=(\"$@\"); COMP_CWORD=$(($# - 1)); _shearcotter; \
                  printf '%s\\n' \"${COMPREPLY[@]}\"";
    let file = Path::new(env!("CARGO_MANIFEST_DIR")).join(COMPLETIONS);
    let mut bash = Command::new("bash");
    bash.current_dir(folder).args(["--norc", "-c", script, "bash"]).arg(&file).arg("shearcotter").args(words);
    let output = bash.output().expect("bash starts");
    assert_eq!((status(&output), text(&output.stderr)), (0, ""), "{words:?}");
    let mut lines: Vec<String> = text(&output.stdout).lines().map(str::to_owned).collect();
    lines.retain(|line| !line.is_empty());
    lines.sort();
    lines
}

#[test]
fn bash_takes_the_completions() {
    let file = Path::new(env!("CARGO_MANIFEST_DIR")).join(COMPLETIONS);
    let output = Command::new("bash").arg("-n").arg(&file).output().expect("bash starts");
    assert_eq!((status(&output), text(&output.stderr)), (0, ""));
    let line = "source \"$1\"; complete -p shearcotter";
    let output = Command::new("bash").args(["--norc", "-c", line, "bash"]).arg(&file).output().expect("bash starts");
    assert_eq!(text(&output.stdout), "complete -F _shearcotter shearcotter\n");
}

#[test]
fn commands_and_options() {
    assert_eq!(completed(&["op"]), ["open"]);
    assert_eq!(completed(&["c"]), ["check", "completions", "convert"]);
    assert_eq!(completed(&["--v"]), ["--version"]);
    assert_eq!(completed(&["open", "--f"]), ["--format"]);
    let rows = ["--explain", "--format", "--help", "--jobs", "--quiet"];
    let mut marked = rows.to_vec();
    marked.insert(4, "--marks");
    assert_eq!(completed(&["read", "key", "-"]), marked);
    assert_eq!(completed(&["open", "key", "-"]), [&rows[..], &["--second"]].concat());
    assert_eq!(completed(&["check", "-"]), ["--help", "--quiet"]);
    assert_eq!(completed(&["publish", "-"]), ["--help", "--quiet", "--small"]);
    assert_eq!(completed(&["publish", "key", "--s"]), ["--small"]);
    assert_eq!(completed(&["nothing", "-"]), [""; 0]);
    assert_eq!(completed(&["help", "re"]), ["read", "report"]);
    assert_eq!(completed(&["report", "-"]), ["--help", "--jobs", "--quiet", "--records", "--second"]);
    assert_eq!(completed(&["se"]), ["session"]);
    assert_eq!(completed(&["session", "key", "-"]), rows);
    assert_eq!(completed(&["completions", ""]), ["bash"]);
    assert_eq!(completed(&["lock", "mceliece6"]), ["mceliece6688128", "mceliece6960119"]);
}

#[test]
fn values_of_options() {
    let formats = ["hex", "json", "places", "raw"];
    // bash cuts the words at `=` too.
    assert_eq!(completed(&["open", "--format", ""]), formats);
    assert_eq!(completed(&["open", "--format", "="]), formats);
    assert_eq!(completed(&["open", "--format", "=", "j"]), ["json"]);
    assert_eq!(completed(&["open", "--format", "p"]), ["places"]);
    assert_eq!(completed(&["open", "--jobs", ""]), [""; 0]);
    // A session key has no places.
    assert_eq!(completed(&["session", "--format", ""]), ["hex", "json", "raw"]);
    assert_eq!(completed(&["session", "key", "--format", "=", "j"]), ["json"]);
}

#[test]
fn files() {
    let folder = Folder::new();
    for name in ["one key", "other", "-dash"] {
        folder.write(name, &[]);
    }
    let files = |words: &[&str]| completed_in(folder.path(), words);
    assert_eq!(files(&["check", "o"]), ["one key", "other"]);
    assert_eq!(files(&["convert", "o"]), ["one key", "other"]);
    assert_eq!(files(&["convert", "key", "ot"]), ["other"]);
    // Nothing stands behind --small.
    assert_eq!(files(&["publish", "--small", "ot"]), ["other"]);
    assert_eq!(files(&["publish", "--small", "key", "on"]), ["one key"]);
    assert_eq!(files(&["publish", "--small", "key", "out", "on"]), [""; 0]);
    assert_eq!(files(&["open", "--format", "hex", "k", "ot"]), ["other"]);
    assert_eq!(files(&["open", "--format", "=", "hex", "--jobs", "2", "k", "ot"]), ["other"]);
    assert_eq!(files(&["open", "--", "k", "-d"]), ["-dash"]);
    assert_eq!(files(&["report", "--records", "ot"]), ["other"]);
    assert_eq!(files(&["report", "--records", "=", "ot"]), ["other"]);
    assert_eq!(files(&["report", "--records", "out", "key", "ot"]), ["other"]);
    for command in ["open", "report"] {
        assert_eq!(files(&[command, "--second", "ot"]), ["other"]);
        assert_eq!(files(&[command, "--second", "=", "ot"]), ["other"]);
        assert_eq!(files(&[command, "--second", "b", "key", "on"]), ["one key"]);
    }
    assert_eq!(files(&["read", "--marks", "ot"]), ["other"]);
    assert_eq!(files(&["read", "--marks", "=", "ot"]), ["other"]);
    assert_eq!(files(&["read", "--marks", "m", "key", "on"]), ["one key"]);
    for operand in 0..3 {
        let words = [&["session", "a", "b"][..=operand], &["on"]].concat();
        assert_eq!(files(&words), ["one key"]);
    }
    for operand in 2..5 {
        let words = [&["lock", "1", "a", "b"][..operand], &["on"]].concat();
        assert_eq!(files(&words), ["one key"]);
    }
    assert_eq!(files(&["check", "key", "o"]), [""; 0], "no second operand");
    assert_eq!(files(&["lock", "o"]), [""; 0], "a shape is no file");
}
