//! `read --marks`: d and the differences in each format, marks of each word, files of marks that do not fit, streams.

use std::fs::{self, OpenOptions};
use std::io::Write;
use std::process::{Command, Stdio};

use super::streams::start;
use super::{accepted, all_accepted, fails, fails_on, outcome, some_refused, standard, with_k1};
use crate::bench_keys::SPLIT;
use crate::independent::bits::{bit, places};
use crate::independent::drawn::marked_about;
use crate::independent::held::Held;
use crate::independent::key::Key;
use crate::independent::random::Random;
use crate::support::run::{ended, run, status, text, tool, Folder, Lines};

/// K1's words of docs/FORMATS.md and their marks: the third is read by its marks alone.
const WORDS: [u8; 3] = [0x13, 0x24, 0x06];
const MARKS: [u8; 3] = [0x12, 0x00, 0x30];
const LINES: &str = "1 read 0\n2 read 1 0\n3 read 0 marked 2 4 5\n";

/// A folder with the key file of K1, the words and their marks.
fn with_marks() -> (Folder, [String; 3]) {
    let (folder, key) = with_k1();
    let (words, marks) = (folder.write("words", &WORDS), folder.write("marks", &MARKS));
    (folder, [key, words, marks])
}

#[test]
fn each_word_has_its_marks() {
    let (folder, [key, words, marks]) = with_marks();
    let total = "total 3 read 3 refused 0";
    all_accepted(&["read", "--marks", &marks, &key, &words], &[], LINES, &format!("{words}: {total}"));
    all_accepted(&["read", &key, &format!("--marks={marks}")], &WORDS, LINES, &format!("standard input: {total}"));
    for file in ["/dev/stdin", "-"] {
        accepted(&["read", "--quiet", "--marks", &marks, &key, file], &WORDS, LINES);
        accepted(&["read", "--quiet", "--marks", file, &key, &words], &MARKS, LINES);
    }
    accepted(&["read", "--quiet", "--marks", &marks, "-", &words], &fs::read(&key).expect("the key"), LINES);
    let none = folder.write("none", &[]);
    all_accepted(&["read", "--marks", &none, &key], &[], "", "standard input: total 0 read 0 refused 0");
    all_accepted(&["read", "--marks", &none, &key, &none], &[], "", &format!("{none}: total 0 read 0 refused 0"));
}

/// Without ones in the marks all is as without the option, in every format but json, which has `unmarked` and `marked` too.
#[test]
fn marks_without_ones_change_no_line() {
    let (folder, [key, words, _]) = with_marks();
    let zeros = folder.write("zeros", &[0; 3]);
    for format in ["places", "hex", "raw"] {
        let plain = run(&["read", "--quiet", "--format", format, &key, &words], &[]);
        let marked = run(&["read", "--quiet", "--format", format, &key, &words, "--marks", &zeros], &[]);
        assert_eq!((status(&marked), &marked.stdout), (1, &plain.stdout), "{format}");
    }
}

/// A key with t 2, a difference at a marked place and one at another: word 11 00 has them at 0 and 4.
#[test]
fn every_format() {
    let folder = Folder::new();
    let (key, words) = (folder.write("key", &SPLIT), folder.write("words", &[0x11, 0x00, 0x11, 0x00, 0xff, 0x00]));
    let marks = folder.write("marks", &[0x10, 0x00, 0x00, 0x00, 0x1f, 0x00]);
    let lines = |format: &str, expected: &str| {
        let words = ["read", "--quiet", "--format", format, "--marks", &marks, &key, &words];
        some_refused(&words, &[], expected, "");
    };
    lines("places", "1 read 1 0 marked 1 4\n2 read 2 0 4\n3 refused 14\n");
    lines("hex", "1 read 1 1100 marked 1\n2 read 2 1100\n3 refused 14\n");
    let json = [
        r#"{"position":1,"answer":"read","number":0,"words":"accepted","unmarked":1,"ones":2,"places":[0,4],"marked":[4]}"#,
        r#"{"position":2,"answer":"read","number":0,"words":"accepted","unmarked":2,"ones":2,"places":[0,4],"marked":[]}"#,
        r#"{"position":3,"answer":"refused","number":14,"words":"no code word with 2d + s at most 2t"}"#,
    ];
    lines("json", &(json.join("\n") + "\n"));
    let raw = run(&["read", "--quiet", "--format=raw", "--marks", &marks, &key, &words], &[]);
    assert_eq!((status(&raw), &raw.stdout[..]), (1, &[0x11, 0x00, 0x11, 0x00][..]));
    let said = format!("shearcotter: {words}: 3 refused 14: no code word with 2d + s at most 2t\n");
    assert_eq!(text(&raw.stderr), said);
}

#[test]
fn refused_words_are_explained() {
    let (folder, [key, ..]) = with_marks();
    let words = folder.write("some", &[0x13, 0x53, 0x13, 0x13, 0x24]);
    let marks = folder.write("their", &[0x07, 0x40, 0x40, 0x92, 0x02]);
    let numbers = "1 refused 14\n2 refused 9\n3 refused 37\n4 refused 37\n5 refused 14\n";
    let summary =
        "total 5 read 0 refused 5\n  1 by 9: filler bit set\n  2 by 14: no code word with 2d + s at most 2t\n  \
                   2 by 37: marks of wrong length or with filler set";
    some_refused(&["read", &key, &words, "--marks", &marks], &[], numbers, &format!("{words}: {summary}"));
    let explained = "1 refused 14: no code word with 2d + s at most 2t: s is 3, 2t is 2\n\
                     2 refused 9: filler bit set: expected byte 0 up to 3f, found 53 (hexadecimal)\n\
                     3 refused 37: marks with filler set: expected byte 0 up to 3f, found 40 (hexadecimal)\n\
                     4 refused 37: marks with filler set: expected byte 0 up to 3f, found 92 (hexadecimal)\n\
                     5 refused 14: no code word with 2d + s at most 2t: s is 1, 2t is 2\n";
    some_refused(&["read", "--explain", "--quiet", &key, &words, "--marks", &marks], &[], explained, "");
}

/// Files of lengths that do not fit: before any word is read, with the length that was expected.
#[test]
fn a_file_of_marks_of_wrong_length() {
    let (folder, [key, words, _]) = with_marks();
    for (bytes, found) in [(&[][..], 0), (&[0x12, 0x00], 2), (&[0x12, 0x00, 0x30, 0x00], 4)] {
        let marks = folder.write("bad", bytes);
        let expected = "expected 3 bytes, a row of 1 byte for each of 3 words";
        let says = format!("bad: refused 37: marks of wrong length: {expected}, found {found}\n");
        fails(&["read", "--marks", &marks, &key, &words], 2, &says);
    }
    let (large, word) = (folder.write("large", &standard("key.bin")), folder.write("word", &standard("pattern.bin")));
    let marks = folder.write("short", &[0; 435]);
    let says = "short: refused 37: marks of wrong length: expected 436 bytes, a row of 436 bytes for each of 1 word, found 435\n";
    fails(&["read", "--marks", &marks, &large, &word], 2, says);
    fails(&["read", "--marks", &folder.at("missing"), &key, &words], 2, "missing: ");
    fails(&["read", "--marks", &words, &key, &folder.at("missing")], 2, "missing: ");
    let bad = folder.write("bad.key", &[5]);
    fails(&["read", "--marks", &folder.at("missing"), &bad, &words], 3, "bad.key: refused 1: ");
}

/// A short last word is refused 8, whether its marks are as short, whole or, in a stream, missing.
#[test]
fn a_short_tail_is_refused_8() {
    let folder = Folder::new();
    let (key, word) = (folder.write("large", &standard("key.bin")), standard("pattern.bin"));
    let input = [&word[..], &word[..7]].concat();
    let (file, two) = (folder.write("words", &input), vec![0; 2 * 436]);
    for length in [443, 872] {
        let marks = folder.write("marks", &two[..length]);
        let (status, lines, error) = outcome(&["read", "--quiet", "--marks", &marks, &key, &file], &[]);
        assert_eq!((status, error.as_str()), (1, ""));
        assert!(lines.starts_with("1 read 64 ") && lines.ends_with("\n2 refused 8\n"), "{lines}");
        assert_eq!(outcome(&["read", "--quiet", "--marks", &marks, &key], &input).1, lines);
    }
    let marks = folder.write("marks", &two[..436]);
    let says =
        "refused 37: marks of wrong length: expected 872 bytes, a row of 436 bytes for each of 2 words, found 436\n";
    fails(&["read", "--marks", &marks, &key, &file], 2, says);
    let (status, lines, _) = outcome(&["read", "--quiet", "--marks", &marks, &key], &input);
    assert!(status == 1 && lines.ends_with("\n2 refused 8\n"), "{lines}");
}

/// Where a length is not known before: words without marks are refused 37, and marks without words fail at the end.
#[test]
fn streams_that_do_not_fit() {
    let (_folder, [key, words, marks]) = with_marks();
    let lines = format!("{LINES}4 refused 37\n5 refused 37\n");
    let longer = [&WORDS[..], &[0x13, 0x13]].concat();
    some_refused(&["read", "--quiet", "--marks", &marks, &key], &longer, &lines, "");
    let explained = "4 refused 37: marks of wrong length: expected 1 byte, found 0\n";
    some_refused(
        &["read", "--quiet", "--explain", "--marks", &marks, &key],
        &longer[..4],
        &format!("{LINES}{explained}"),
        "",
    );
    some_refused(
        &["read", "--quiet", "--marks", "-", &key, &words],
        &MARKS[..2],
        "1 read 0\n2 read 1 0\n3 refused 37\n",
        "",
    );
    for (words, input) in
        [(["--marks", &marks, &key, "-"], &WORDS[..2]), (["--marks", "-", &key, &words], &[0x12, 0x00, 0x30, 0x00])]
    {
        let (status, out, error) = outcome(&[&["read"], &words[..]].concat(), input);
        let count = if input.len() == 2 { 2 } else { 3 };
        assert_eq!((status, out.lines().count()), (2, count), "{error}");
        let says = format!("refused 37: marks of wrong length: expected {count} bytes, a row of 1 byte for each of {count} words, found more\n");
        assert!(error.ends_with(&says), "{error}");
    }
}

#[test]
fn a_line_comes_before_the_next_word() {
    let (_folder, [key, ..]) = with_marks();
    for jobs in ["1", "3"] {
        let mut child = start(&["read", "--jobs", jobs, "--marks", "/dev/zero", &key]);
        let mut input = child.stdin.take().expect("its standard input");
        let lines = Lines::of(&mut child);
        for position in 1..=30 {
            input.write_all(&[0x24]).expect("a word");
            assert_eq!(lines.next().expect("a line"), format!("{position} read 1 0"));
        }
        drop(input);
        // Marks without end are more than the words.
        assert!(lines.next().is_none());
        assert_eq!(ended(&mut child), 2);
    }
}

/// Words and marks by two pipes: a line comes once a word and its marks have come, whichever was first.
#[test]
fn two_pipes() {
    let (folder, [key, ..]) = with_marks();
    let pipe = folder.at("pipe");
    assert!(Command::new("mkfifo").arg(&pipe).status().expect("mkfifo starts").success());
    let mut child = start(&["read", "--quiet", "--jobs", "2", "--marks", &pipe, &key]);
    let mut marks = OpenOptions::new().write(true).open(&pipe).expect("the pipe");
    let (mut words, lines) = (child.stdin.take().expect("its standard input"), Lines::of(&mut child));
    let line = |position: usize| assert_eq!(lines.next(), Some(format!("{position} read 0 marked 2 4 5")));
    for position in 1..=20 {
        words.write_all(&[0x06]).expect("a word");
        marks.write_all(&[0x30]).expect("its marks");
        line(position);
    }
    words.write_all(&[0x06; 20]).expect("words");
    for position in 21..=40 {
        marks.write_all(&[0x30]).expect("marks of one");
        line(position);
    }
    marks.write_all(&[0x30; 20]).expect("marks");
    for position in 41..=60 {
        words.write_all(&[0x06]).expect("a word");
        line(position);
    }
    drop((words, marks));
    assert_eq!((lines.next(), ended(&mut child)), (None, 0));
}

/// Random words of a standard shape and of a small one, on any number of threads, as the second implementation says.
#[test]
fn many_words() {
    let mut random = Random::new(92);
    let large = Held::new(Key::parse(&standard("key.bin")).expect("a key"));
    for (held, count) in [(random.published(4, 13, 3), 3000), (large, 40)] {
        let (folder, n) = (Folder::new(), held.key.n);
        let (mut words, mut marks, mut lines) = (vec![], vec![], String::new());
        for position in 1..=count {
            let [word, marked, _] = marked_about(&mut random, &held);
            lines += &format!("{position} {}\n", said(&held, &word, &marked));
            words.extend(word);
            marks.extend(marked);
        }
        assert!(lines.contains(" marked ") && lines.contains("refused 14"));
        let (key, file) = (folder.write("key", &held.key.file()), folder.write("words", &words));
        let beside = folder.write("marks", &marks);
        for jobs in ["1", "2", "5"] {
            some_refused(&["read", "--quiet", "--jobs", jobs, "--marks", &beside, &key, &file], &[], &lines, "");
            some_refused(&["read", "--quiet", "--jobs", jobs, "--marks", &beside, &key], &words, &lines, "");
            some_refused(&["read", "--quiet", "--jobs", jobs, "--marks", "-", &key, &file], &marks, &lines, "");
        }
        assert_eq!(words.len(), count * n.div_ceil(8));
    }
}

/// A line of places without its position.
fn said(held: &Held, word: &[u8], marks: &[u8]) -> String {
    let Some((differences, unmarked)) = held.read_marked(word, marks) else {
        return "refused 14".to_owned();
    };
    let (at_marks, others): (Vec<usize>, Vec<usize>) = differences.iter().partition(|place| bit(marks, **place));
    assert!(at_marks.len() <= places(held.key.n, marks).len() && others.len() == unmarked);
    let listed = |places: &[usize]| places.iter().map(|place| format!(" {place}")).collect::<String>();
    match at_marks.len() {
        0 => format!("read {unmarked}{}", listed(&others)),
        count => format!("read {unmarked}{} marked {count}{}", listed(&others), listed(&at_marks)),
    }
}

/// Lines of marked readings go back into `lock`, in each format: all differences, whose number both counts make.
#[test]
fn lock_takes_the_lines() {
    let folder = Folder::new();
    let (key, public) = (folder.write("key", &Random::new(93).published(4, 12, 2).key.file()), folder.at("public"));
    accepted(&["publish", &key, &public], &[], "");
    let held = Held::new(Key::parse(&fs::read(&key).expect("the key")).expect("a key"));
    let pattern = [0x21, 0x00];
    let marks = folder.write("marks", &[0x20, 0x00]);
    let expected = run(&["lock", "4,12,2", &public, "-", "-"], &pattern).stdout;
    assert_eq!(said(&held, &pattern, &[0x20, 0x00]), "read 1 0 marked 1 5");
    for format in ["places", "hex", "json", "raw"] {
        let lines = run(&["read", "--quiet", "--format", format, "--marks", &marks, &key], &pattern).stdout;
        let locked = run(&["lock", "--format", format, "4,12,2", &public, "-", "-"], &lines);
        assert_eq!((status(&locked), &locked.stdout), (0, &expected), "{format}: {}", text(&locked.stderr));
    }
    let lock = |format: &str, line: &str, says: &str| {
        fails_on(&["lock", "--format", format, "4,12,2", &public, "-", "-"], line.as_bytes(), 2, says);
    };
    lock("places", "1 read 1 0 marked 2 5\n", "the count is 3, the pattern has 2");
    lock("hex", "1 read 1 2100 marked 0\n", "the count is 1, the pattern has 2");
    lock("places", "1 read 1 0 marked\n", "line 1: no count behind marked");
    lock("places", "1 read 1 0 marked x 5\n", "x is no count");
    lock("places", "1 open 0 marked 1 5\n", "marked is no place");
}

#[test]
fn streams_that_are_named_twice() {
    let (_folder, [key, words, marks]) = with_marks();
    let two = "two inputs are `-`, but standard input can be read only once";
    fails(&["read", "--marks", "-", &key], 2, two);
    fails(&["read", "--marks", "-", "-", &words], 2, two);
    let append = Stdio::from(OpenOptions::new().append(true).open(&marks).expect("the marks"));
    let output = tool().args(["read", "--marks", &marks, &key, &words]).stdout(append).output().expect("the tool ends");
    assert!(text(&output.stderr).starts_with("shearcotter: standard output is an input too; "), "{output:?}");
    assert_eq!((status(&output), fs::read(&marks).expect("the marks")), (2, MARKS.to_vec()));
    // The last of an option counts, and the words may be their own marks.
    accepted(&["read", "--quiet", "--marks", "missing", "--marks", &marks, &key, &words], &[], LINES);
    assert_eq!(outcome(&["read", "--quiet", "--marks", &words, &key, &words], &[]).0, 1);
}
