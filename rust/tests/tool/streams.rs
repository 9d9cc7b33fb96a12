//! Standard input and output: lines in order on any number of threads, tails, long and endless inputs, failing and closed
//! streams, and `-` for a file.

use std::fs::{self, File, OpenOptions};
use std::io::{Read, Write};
use std::os::fd::OwnedFd;
use std::os::unix::net::UnixStream;
use std::process::{Child, Stdio};
use std::thread;
use std::time::Duration;

use super::{accepted, fails, outcome, with_k1};
use crate::bench_keys::K1;
use crate::support::run::{ended, run, status, text, tool, Folder, Lines};
use crate::support::vectors;

/// Some rows are refused; without the summary, which names the file.
fn some_refused(words: &[&str], input: &[u8], expected: &str) {
    super::some_refused(&[words, &["--quiet"]].concat(), input, expected, "");
}

#[test]
fn open_prints_as_the_opening_program() {
    let (folder, key) = with_k1();
    let input = [0x03, 0x00, 0x13];
    let lines = "1 open 4\n2 refused 13\n3 refused 9\n";
    some_refused(&["open", &key], &input, lines);
    some_refused(&["open", &key, "-"], &input, lines);
    let file = folder.write("capsules", &input);
    some_refused(&["open", &key, &file], &[], lines);
    accepted(&["open", "--quiet", &key], &[], "");
    accepted(&["open", "--quiet", &key], &[0x03, 0x03], "1 open 4\n2 open 4\n");
}

#[test]
fn read_prints_count_and_places() {
    let (folder, key) = with_k1();
    let input = [0x13, 0x24, 0x06, 0x53];
    let lines = "1 read 0\n2 read 1 0\n3 refused 14\n4 refused 9\n";
    some_refused(&["read", &key], &input, lines);
    let file = folder.write("words", &input);
    some_refused(&["read", &key, &file], &[], lines);
    accepted(&["read", "--quiet", &key], &[0x13], "1 read 0\n");
}

#[test]
fn a_short_tail_is_refused_8() {
    let folder = Folder::new();
    let at = |part: &str| vectors::file(&format!("mceliece348864/count0/{part}"));
    let key = folder.write("key.bin", &at("key.bin"));
    let (capsule, pattern) = (at("capsule.bin"), at("pattern.bin"));
    let places: String = (0..3488).filter(|i| pattern[i / 8] >> (i % 8) & 1 == 1).map(|i| format!(" {i}")).collect();
    let input = [&capsule[..], &at("capsule_reject.bin"), &capsule, &capsule[..95]].concat();
    let lines = format!("1 open{places}\n2 refused 13\n3 open{places}\n4 refused 8\n");
    some_refused(&["open", &key], &input, &lines);
    some_refused(&["read", &key], &pattern[..435], "1 refused 8\n");
    let lines = format!("1 read 64{places}\n2 refused 8\n");
    some_refused(&["read", &key], &[&pattern[..], &[0]].concat(), &lines);
}

#[test]
fn a_long_input_is_read_to_its_end() {
    let (_folder, key) = with_k1();
    let input: Vec<u8> = (0..70_000_u64).map(|i| [0x03, 0x00, 0x13][(i * i % 11 % 3) as usize]).collect();
    let said = |capsule: &u8| match capsule {
        0x03 => "open 4",
        0x00 => "refused 13",
        _ => "refused 9",
    };
    let lines: String = (1..).zip(&input).map(|(i, capsule)| format!("{i} {}\n", said(capsule))).collect();
    for jobs in ["1", "2", "7"] {
        let (status, out, error) = outcome(&["open", "--quiet", "--jobs", jobs, &key], &input);
        assert_eq!((status, error.as_str()), (1, ""));
        assert!(out == lines, "{jobs} jobs");
    }
}

#[test]
fn lines_in_order_at_a_standard_shape() {
    let folder = Folder::new();
    let at = |part: &str| vectors::file(&format!("mceliece348864/count0/{part}"));
    let key = folder.write("key.bin", &at("key.bin"));
    let input = [at("capsule.bin"), at("capsule_reject.bin")].concat().repeat(50);
    let file = folder.write("capsules", &input);
    let one = run(&["open", "--quiet", "--jobs", "1", &key, &file], &[]);
    assert_eq!(text(&one.stdout).lines().count(), 100);
    for jobs in ["2", "3"] {
        assert!(run(&["open", "--quiet", "--jobs", jobs, &key, &file], &[]) == one);
        assert!(run(&["open", "--quiet", "--jobs", jobs, &key], &input) == one);
    }
}

/// A run with pipes for all three streams.
pub fn start(words: &[&str]) -> Child {
    let mut command = tool();
    command.args(words).stdin(Stdio::piped()).stdout(Stdio::piped()).stderr(Stdio::piped());
    command.spawn().expect("the tool starts")
}

#[test]
fn a_line_comes_before_the_next_capsule() {
    let (_folder, key) = with_k1();
    for jobs in ["1", "2", "5"] {
        let mut child = start(&["open", "--jobs", jobs, &key]);
        let mut input = child.stdin.take().expect("its standard input");
        let lines = Lines::of(&mut child);
        for position in 1..=30 {
            input.write_all(&[0x03]).expect("a capsule");
            let line = lines.next().expect("a line");
            assert_eq!(line, format!("{position} open 4"));
        }
        drop(input);
        assert!(lines.next().is_none());
        assert_eq!(ended(&mut child), 0);
    }
}

#[test]
fn a_capsule_comes_in_pieces() {
    let folder = Folder::new();
    let at = |part: &str| vectors::file(&format!("mceliece348864/count0/{part}"));
    let key = folder.write("key.bin", &at("key.bin"));
    let mut child = start(&["open", &key]);
    let mut input = child.stdin.take().expect("its standard input");
    let lines = Lines::of(&mut child);
    let capsule = at("capsule_reject.bin");
    for (position, end) in [(1, 1), (2, 50), (3, 95)] {
        input.write_all(&capsule[..end]).expect("a piece");
        input.write_all(&capsule[end..]).expect("the rest");
        assert_eq!(lines.next().expect("a line"), format!("{position} refused 13"));
    }
    drop(input);
    assert!(lines.next().is_none());
    assert_eq!(ended(&mut child), 1);
}

#[test]
fn a_read_fails_behind_three_capsules() {
    let (_folder, key) = with_k1();
    let (mut near, mut far) = UnixStream::pair().expect("two sockets");
    let stdin = OwnedFd::from(far.try_clone().expect("a second handle"));
    let mut command = tool();
    command.args(["open", "--jobs", "2", &key]).stdin(stdin).stdout(Stdio::piped()).stderr(Stdio::piped());
    let mut child = command.spawn().expect("the tool starts");
    near.write_all(&[0x03, 0x00, 0x13]).expect("three capsules");
    let lines = Lines::of(&mut child);
    for expected in ["1 open 4", "2 refused 13", "3 refused 9"] {
        assert_eq!(lines.next().expect("a line"), expected);
    }
    // An end that is closed with a byte not read resets the connection.
    far.write_all(&[0]).expect("a byte");
    drop(near);
    assert!(lines.next().is_none());
    assert_eq!(ended(&mut child), 2);
    let mut error = String::new();
    child.stderr.take().expect("its standard error").read_to_string(&mut error).expect("text");
    assert!(error.starts_with("shearcotter: standard input: "), "{error}");
}

/// The most memory that a run has had, in KiB.
pub fn most_memory(child: &Child) -> u64 {
    let status = fs::read_to_string(format!("/proc/{}/status", child.id())).expect("the process's state");
    let line = status.lines().find(|line| line.starts_with("VmHWM:")).expect("its memory");
    line.split_whitespace().nth(1).expect("a number").parse().expect("a number")
}

#[test]
fn an_endless_input_takes_bounded_memory() {
    let (_folder, key) = with_k1();
    let mut child = start(&["open", "--jobs", "4", &key, "/dev/zero"]);
    let lines = Lines::of(&mut child);
    for position in 1..=200_000 {
        assert_eq!(lines.next().expect("a line"), format!("{position} refused 13"));
    }
    // Time to read on, while nobody takes the lines.
    thread::sleep(Duration::from_millis(500));
    assert!(most_memory(&child) < 32 * 1024, "{} KiB", most_memory(&child));
    drop(lines);
    assert_eq!(ended(&mut child), 2);
}

#[test]
fn a_closed_standard_output_ends_it_while_input_is_awaited() {
    let (_folder, key) = with_k1();
    for jobs in ["1", "4"] {
        let mut child = start(&["open", "--jobs", jobs, &key]);
        drop(child.stdout.take());
        let mut input = child.stdin.take().expect("its standard input");
        input.write_all(&[0x03]).expect("a capsule");
        assert_eq!(ended(&mut child), 2);
        let mut error = vec![];
        child.stderr.take().expect("its standard error").read_to_end(&mut error).expect("bytes");
        assert_eq!(error, b"");
        drop(input);
    }
}

#[test]
fn a_full_device_is_named() {
    let (folder, key) = with_k1();
    let file = folder.write("words", &[0x53; 100_000]);
    let report: &[&str] = &["report", &key, &file];
    let records: &[&str] = &["report", "--records=-", &key, &file];
    let secret = folder.write("secret", &[0x15]);
    let session: &[&str] = &["session", &key, &secret, &file];
    for words in [&["read", &key, &file][..], &["publish", &key, "-"], report, records, session] {
        let full = OpenOptions::new().write(true).open("/dev/full").expect("the device");
        let output = tool().args(words).stdout(full).output().expect("the tool ends");
        assert_eq!(status(&output), 2);
        assert!(text(&output.stderr).starts_with("shearcotter: standard output: "), "{}", text(&output.stderr));
    }
}

/// A run of any bytes on standard output.
fn gives(words: &[&str], input: &[u8], expected: &[u8]) {
    let output = run(words, input);
    assert_eq!((status(&output), &output.stdout[..], text(&output.stderr)), (0, expected, ""), "{words:?}");
}

#[test]
fn a_dash_is_a_standard_stream_for_every_file() {
    let (folder, key) = with_k1();
    let public = folder.write("public", &[3, 1, 2, 0]);
    let pattern = folder.write("pattern", &[0x10]);
    let capsule = folder.write("capsule", &[3]);
    gives(&["check", "-"], &K1, b"accepted 4,6,1 exchange\n");
    gives(&["publish", "-", "-"], &K1, &[3, 1, 2, 0]);
    gives(&["publish", &key, "-"], &[], &[3, 1, 2, 0]);
    gives(&["lock", "4,6,1", "-", &pattern, "-"], &[3, 1, 2, 0], &[3]);
    gives(&["lock", "4,6,1", &public, "-", "-"], &[0x10], &[3]);
    gives(&["open", "--quiet", "-", &capsule], &K1, b"1 open 4\n");
    gives(&["open", "--quiet", &key, "-"], &[3], b"1 open 4\n");
    gives(&["report", "--quiet", "--records", "-", &key, "-"], &[3, 3], &[0, 0]);
    gives(&["report", "-", &capsule], &K1, b"0  opened  1\ntotal 1 opened 1 refused 0\n");
    let out = folder.at("out");
    gives(&["lock", "4,6,1", "-", &pattern, &out], &[3, 1, 2, 0], &[]);
    assert_eq!(fs::read(&out).expect("the capsule"), [3]);
    assert_eq!(folder.names(), ["capsule", "key.bin", "out", "pattern", "public"]);
}

#[test]
fn a_long_standard_input_is_read_up_to_the_limit() {
    let folder = Folder::new();
    let at = |part: &str| vectors::file(&format!("mceliece8192128/count0/{part}"));
    let public = folder.at("public");
    assert_eq!(outcome(&["publish", "-", &public], &at("key.bin")).0, 0);
    assert!(fs::read(&public).expect("the public key") == at("public.bin"));
    let (_, _, error) = outcome(&["check", "-"], &[4; 300_000]);
    assert!(error.contains("refused 2"), "{error}");
    let mut child = tool().args(["check", "/dev/zero"]).stderr(Stdio::null()).spawn().expect("the tool starts");
    assert_ne!(ended(&mut child), 0);
}

#[test]
fn a_dash_in_a_folder_is_a_file() {
    let (folder, _) = with_k1();
    let here = |words: &[&str]| tool().current_dir(folder.path()).args(words).output().expect("the tool ends");
    assert_eq!(status(&here(&["publish", "key.bin", "./-"])), 0);
    assert_eq!(fs::read(folder.at("-")).expect("the file"), [3, 1, 2, 0]);
    folder.write("pattern", &[0x10]);
    assert_eq!(here(&["lock", "4,6,1", "./-", "pattern", "-"]).stdout, [3]);
    assert_eq!(folder.names(), ["-", "key.bin", "pattern"]);
}

#[test]
fn standard_input_is_named_once() {
    let (_folder, key) = with_k1();
    for words in
        [&["open", "-", "-"][..], &["open", "-"], &["read", "-"], &["report", "-"], &["lock", "4,6,1", "-", "-", &key]]
    {
        fails(words, 2, "two inputs are `-`");
    }
}

#[test]
fn an_output_is_no_input() {
    let (folder, key) = with_k1();
    let run = |words: &[&str], out: Stdio| {
        let mut command = tool();
        command.args(words).stdin(File::open(&key).expect("the key")).stdout(out).output().expect("the tool ends")
    };
    let linked = folder.at("linked");
    fs::hard_link(&key, &linked).expect("a second name");
    for out in [&key, &linked] {
        for input in [&key, "-"] {
            let output = run(&["publish", input, out], Stdio::piped());
            let said = format!("shearcotter: {out} is an input too; ");
            assert!(text(&output.stderr).starts_with(&said), "{}", text(&output.stderr));
            assert_eq!(status(&output), 2);
        }
        let output = run(&["report", &key, "/dev/null", "--records", out], Stdio::piped());
        assert!(text(&output.stderr).contains(" is an input too; see shearcotter help report"), "{output:?}");
        assert_eq!(status(&output), 2);
    }
    let append = || Stdio::from(OpenOptions::new().append(true).open(&key).expect("the key"));
    let report: &[&str] = &["report", &key, &key, "--records", "-"];
    for words in [&["open", &key, &key][..], &["open", &key], &["publish", "-", "-"], report, &report[..3]] {
        let output = run(words, append());
        let said = "shearcotter: standard output is an input too; ";
        assert!(text(&output.stderr).starts_with(said), "{}", text(&output.stderr));
        assert_eq!(status(&output), 2);
    }
    assert_eq!(fs::read(&key).expect("the key"), K1);
}

#[test]
fn a_closed_standard_output_ends_it_quietly() {
    let (folder, key) = with_k1();
    let file = folder.write("words", &vec![0x53; 100_000]);
    // A short text may be written before standard output is closed.
    let cases: [(&[&str], &[i32]); 3] =
        [(&["read", &key, &file], &[2]), (&["--help"], &[0, 2]), (&["shapes"], &[0, 2])];
    for (words, statuses) in cases {
        let mut child =
            tool().args(words).stdout(Stdio::piped()).stderr(Stdio::piped()).spawn().expect("the tool starts");
        drop(child.stdout.take());
        let output = child.wait_with_output().expect("the tool ends");
        assert_eq!(output.stderr, b"", "{words:?}");
        assert!(statuses.contains(&status(&output)), "{words:?}: {}", output.status);
    }
}
