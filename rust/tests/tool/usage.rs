//! The command line: options and operands in any order, and bad usage in words.

use super::{accepted, fails, fails_on, some_refused, with_k1};

#[test]
fn commands() {
    fails(&[], 2, "no command; see shearcotter help\n");
    fails(&["opne"], 2, "no such command: opne; the nearest is open; see shearcotter help\n");
    fails(&["comp"], 2, "no such command: comp; the nearest is completions;");
    fails(&["decapsulate"], 2, "no such command: decapsulate; see");
    fails(&[""], 2, "no such command: ; see");
    fails(&["-"], 2, "no such command: -; see");
    fails(&["--quiet", "open"], 2, "no such option before the command: --quiet; see");
    fails(&["raed", "--help"], 2, "no such command: raed; the nearest is read; see shearcotter help\n");
    fails(&["help", "raed"], 2, "no such command: raed; the nearest is read; see shearcotter help help");
    fails(&["completions", "zsh"], 2, "SHELL takes bash, not zsh; see shearcotter help completions");
}

#[test]
fn operands() {
    fails(&["check"], 2, "no KEY: shearcotter check [OPTION]... KEY; see shearcotter help check\n");
    fails(&["publish", "a"], 2, "no OUT: shearcotter publish [OPTION]... KEY OUT; ");
    fails(&["lock", "1", "a"], 2, "no PATTERN: ");
    fails(&["open", "a", "b", "c"], 2, "one operand too many, c: shearcotter open [OPTION]... KEY [FILE]; ");
    fails(&["shapes", "1"], 2, "one operand too many, 1: shearcotter shapes [OPTION]...; ");
    fails(&["check", "a", "--", "--help"], 2, "one operand too many, --help: ");
}

#[test]
fn options() {
    let open = |words: &[&str], says: &str| {
        fails(
            &[&["open"], words, &["key.bin"]].concat(),
            2,
            &format!("shearcotter: {says}; see shearcotter help open\n"),
        );
    };
    open(&["--fast"], "no such option: --fast");
    open(&["-x"], "no such option: -x");
    open(&["--fromat", "hex"], "no such option: --fromat; the nearest is --format");
    open(&["--format=xml"], "--format takes places, hex, raw or json, not xml");
    open(&["--format="], "--format takes places, hex, raw or json, not an empty word");
    open(&["--format", "--quiet"], "--format takes places, hex, raw or json, not --quiet");
    open(&["--format", "HEX"], "--format takes places, hex, raw or json, not HEX");
    for jobs in ["0", "1025", "+1", "-1", "x", "1.5", "99999999999999999999"] {
        let says = format!("--jobs takes a number from 1 to 1024, not {jobs}");
        open(&["--jobs", jobs], &says);
        open(&[&format!("--jobs={jobs}")], &says);
    }
    open(&["--quiet=yes"], "--quiet takes no value");
    fails(&["open", "key.bin", "--jobs"], 2, "--jobs needs a value: a number from 1 to 1024; see");
    fails(&["read", "key.bin", "--format"], 2, "--format needs a value: places, hex, raw or json; see");
    fails(&["check", "--format", "hex", "key.bin"], 2, "check takes no option --format; see");
    fails(&["lock", "--jobs=2", "1", "a", "b", "c"], 2, "lock takes no option --jobs; see");
    fails(&["report", "key.bin", "--records"], 2, "--records needs a value: a file; see shearcotter help report");
    fails(&["report", "key.bin", "--records="], 2, "--records takes a file, not an empty word; see");
    fails(&["report", "key.bin", "--format", "hex"], 2, "report takes no option --format; see");
    fails(&["open", "key.bin", "--records", "x"], 2, "open takes no option --records; see");
    fails(&["read", "key.bin", "--marks"], 2, "--marks needs a value: a file; see shearcotter help read");
    fails(&["read", "key.bin", "--marks="], 2, "--marks takes a file, not an empty word; see");
    for command in ["open", "session", "report", "lock"] {
        fails(&[command, "key.bin", "--marks", "x"], 2, &format!("{command} takes no option --marks; see"));
    }
}

#[test]
fn options_stand_anywhere() {
    let (folder, key) = with_k1();
    let capsules = folder.write("capsules", &[0x03]);
    let orders = [
        ["--format", "hex", &key, &capsules],
        [&key, "--format", "hex", &capsules],
        [&key, &capsules, "--format", "hex"],
        ["--format=hex", &key, &capsules, "--quiet"],
        ["--format=json", "--format=hex", &key, &capsules],
        ["--format=hex", "--", &key, &capsules],
        [&key, "--format=hex", "--", &capsules],
    ];
    for words in orders {
        accepted(&[&["open", "--quiet"], &words[..]].concat(), &[], "1 open 10\n");
    }
    for jobs in ["1", "2", "01", "1024"] {
        accepted(&["open", "--quiet", &key, &capsules, "--jobs", jobs], &[], "1 open 4\n");
        some_refused(&["read", &key, "--quiet", "--jobs", jobs], &[0x13, 0x53], "1 read 0\n2 refused 9\n", "");
    }
}

#[test]
fn every_command_takes_quiet() {
    let (folder, key) = with_k1();
    let (public, capsule) = (folder.at("public"), folder.at("capsule"));
    accepted(&["check", &key, "--quiet"], &[], "accepted 4,6,1 exchange\n");
    accepted(&["publish", "--quiet", &key, &public], &[], "");
    accepted(&["lock", "--quiet", "4,6,1", &public, "-", &capsule], &[0x10], "");
    for words in [vec!["shapes"], vec!["help"], vec!["man"], vec!["completions", "bash"]] {
        let quiet = [words.as_slice(), &["--quiet"]].concat();
        let plain = super::outcome(&words, &[]);
        assert!(plain.0 == 0 && plain.2.is_empty() && plain == super::outcome(&quiet, &[]), "{words:?}");
    }
}

#[test]
fn one_input_is_standard_input() {
    let (folder, key) = with_k1();
    let out = folder.at("out");
    for words in [vec!["open", "-"], vec!["read", "-", "-"], vec!["report", "-"], vec!["lock", "4,6,1", "-", "-", &out]]
    {
        fails_on(&words, &[0x13], 2, "standard input");
    }
    accepted(&["read", "--quiet", &key, "-"], &[0x13], "1 read 0\n");
    accepted(&["read", "--quiet", &key], &[0x13], "1 read 0\n");
    assert_eq!(folder.names(), ["key.bin"]);
}
