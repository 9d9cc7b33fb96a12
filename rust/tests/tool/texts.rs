//! Help, version, and the table of shapes.

use super::{accepted, outcome};

const COMMANDS: [&str; 12] = [
    "check",
    "convert",
    "publish",
    "lock",
    "open",
    "session",
    "report",
    "read",
    "shapes",
    "help",
    "man",
    "completions",
];

const STATUSES: &str = "
Exit status:
  0  everything was accepted
  1  some row was refused: a capsule, a word or a pattern
  2  bad usage or a bad shape, or a file failed
  3  the key was refused: a key file, its secret or a public key
";

/// A text that is accepted, within 80 columns.
fn help(words: &[&str]) -> String {
    let (status, out, error) = outcome(words, &[]);
    assert_eq!((status, error.as_str()), (0, ""), "{words:?}");
    for line in out.lines() {
        assert!(line.chars().count() <= 80, "{words:?}: {line}");
        assert_eq!(line, line.trim_end(), "{words:?}");
    }
    assert_eq!(out.matches("Exit status").count(), 1, "{words:?}");
    assert!(out.contains(STATUSES), "{out}");
    out
}

#[test]
fn help_names_every_command() {
    let text = help(&["help"]);
    for words in [&["--help"][..], &["-h"], &["--quiet", "--help"], &["--version", "-h"]] {
        assert_eq!(help(words), text);
    }
    for command in COMMANDS {
        assert!(text.lines().any(|line| line.split_whitespace().next() == Some(command)), "{command}");
    }
}

#[test]
fn help_for_each_command() {
    for command in COMMANDS {
        let text = help(&["help", command]);
        assert!(text.starts_with(&format!("Usage: shearcotter {command} [OPTION]...")), "{text}");
        assert!(text.contains("\n  --quiet ") && text.contains("\n  -h, --help "), "{text}");
        for words in [vec!["--help", command], vec![command, "--help"], vec![command, "KEY", "-h"]] {
            assert_eq!(help(&words), text);
        }
        for words in [vec![command, "--format", "--help"], vec![command, "a", "b", "--what", "-h"]] {
            assert_eq!(help(&words), text);
        }
    }
}

#[test]
fn help_names_operands_options_and_values() {
    let open = help(&["help", "open"]);
    for part in [
        "[OPTION]... KEY [FILE]",
        "  FILE  ",
        "--format FORMAT",
        "--jobs N ",
        "from 1 to 1024",
        "--explain ",
        "  json ",
    ] {
        assert!(open.contains(part), "{part}: {open}");
    }
    assert!(open.contains("places where it is not given"), "{open}");
    assert!(help(&["help", "lock"]).contains("raw where it is not given"));
    let session = help(&["help", "session"]);
    for part in ["[OPTION]... KEY SECRET [FILE]", "  SECRET  ", "hex where it is not given", "--jobs N ", "--explain "]
    {
        assert!(session.contains(part), "{part}: {session}");
    }
    assert!(!session.contains("  places "), "{session}");
    let check = help(&["help", "check"]);
    assert!(check.contains("`exchange` or `reading-only`") && check.contains("refused 34"), "{check}");
    assert!(check.contains("exchange network"), "{check}");
    let convert = help(&["help", "convert"]);
    assert!(convert.contains("[OPTION]... IN OUT") && convert.contains("told from"), "{convert}");
    let publish = help(&["help", "publish"]);
    assert!(publish.contains("[OPTION]... KEY OUT") && publish.contains("\n  --small "), "{publish}");
    assert!(publish.contains("2*m*t rows of m*t bits"), "{publish}");
    let read = help(&["help", "read"]);
    assert!(read.contains("[OPTION]... KEY [FILE]") && read.contains("--marks MARKS "), "{read}");
    assert!(read.contains("2d + s at most 2t") && read.contains("marked COUNT PLACES..."), "{read}");
    let report = help(&["help", "report"]);
    assert!(report.contains("--records OUT ") && report.contains("--jobs N "), "{report}");
}

#[test]
fn version() {
    let expected = concat!("shearcotter ", env!("CARGO_PKG_VERSION"), "\n");
    accepted(&["--version"], &[], expected);
    accepted(&["-V"], &[], expected);
}

#[test]
fn shapes() {
    let (status, out, error) = outcome(&["shapes"], &[]);
    assert_eq!((status, error.as_str()), (0, ""));
    assert!(out.lines().all(|line| line.len() <= 80), "{out}");
    let lines: Vec<Vec<&str>> = out.lines().map(|line| line.split_whitespace().collect()).collect();
    assert_eq!(lines.len(), 6);
    let expected = ["4", "mceliece6960119", "13", "6960", "119", "14163", "1047319", "194", "870"];
    assert_eq!(lines[4], expected);
}
