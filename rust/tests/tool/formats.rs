//! What open and read print in each format, and that lock takes it back.

use std::fs;

use super::{accepted, outcome, some_refused, standard, with_k1};
use crate::support::run::{run, status, text, Folder};

const FORMATS: [&str; 4] = ["places", "hex", "raw", "json"];
const OPEN_SUMMARY: &str =
    "standard input: total 3 opened 1 refused 2\n  1 by 9: filler bit set\n  1 by 13: no pattern for the capsule";

#[test]
fn open_in_each_format() {
    let (_folder, key) = with_k1();
    let lines = |format: &str, expected: &str| {
        some_refused(&["open", &key, "--format", format], &[0x03, 0x00, 0x13], expected, OPEN_SUMMARY);
    };
    lines("places", "1 open 4\n2 refused 13\n3 refused 9\n");
    lines("hex", "1 open 10\n2 refused 13\n3 refused 9\n");
    let json = [
        r#"{"position":1,"answer":"open","number":0,"words":"accepted","ones":1,"places":[4]}"#,
        r#"{"position":2,"answer":"refused","number":13,"words":"no pattern for the capsule"}"#,
        r#"{"position":3,"answer":"refused","number":9,"words":"filler bit set"}"#,
    ];
    lines("json", &(json.join("\n") + "\n"));
}

#[test]
fn read_in_each_format() {
    let (_folder, key) = with_k1();
    let summary = "standard input: total 3 read 2 refused 1\n  1 by 14: no code word within t places";
    let lines = |format: &str, expected: &str| {
        some_refused(&["read", &key, "--format", format], &[0x13, 0x24, 0x06], expected, summary);
    };
    lines("places", "1 read 0\n2 read 1 0\n3 refused 14\n");
    lines("hex", "1 read 0 00\n2 read 1 01\n3 refused 14\n");
    let json = [
        r#"{"position":1,"answer":"read","number":0,"words":"accepted","ones":0,"places":[]}"#,
        r#"{"position":2,"answer":"read","number":0,"words":"accepted","ones":1,"places":[0]}"#,
        r#"{"position":3,"answer":"refused","number":14,"words":"no code word within t places"}"#,
    ];
    lines("json", &(json.join("\n") + "\n"));
}

#[test]
fn raw_names_refused_rows_on_standard_error() {
    let (folder, key) = with_k1();
    let capsules = folder.write("capsules", &[0x03, 0x00, 0x13, 0x03]);
    let named = format!(
        "{capsules}: 2 refused 13: no pattern for the capsule\nshearcotter: {capsules}: 3 refused 9: filler bit set"
    );
    some_refused(&["open", "--format=raw", "--quiet", &key, &capsules], &[], "\x10\x10", &named);
    let filler = "expected byte 0 up to 0f, found 13 (hexadecimal)";
    some_refused(
        &["open", "--format=raw", "--explain", &key, &capsules],
        &[],
        "\x10\x10",
        &format!("{named}: {filler}\nshearcotter: {capsules}: total 4 opened 2 refused 2"),
    );
    let counts = "total 4 opened 2 refused 2\n  1 by 9: filler bit set\n  1 by 13: no pattern for the capsule";
    let both = format!("{named}\nshearcotter: {capsules}: {counts}");
    some_refused(&["open", "--format=raw", &key, &capsules], &[], "\x10\x10", &both);
    accepted(&["read", "--format=raw", "--quiet", &key], &[0x13, 0x24], "\0\x01");
}

/// Standard output of a run in which all is accepted.
fn printed(words: &[&str], input: &[u8]) -> Vec<u8> {
    let output = run(words, input);
    assert_eq!((status(&output), text(&output.stderr)), (0, ""), "{words:?}");
    output.stdout
}

/// Opened in each format and locked again, the capsules of patterns are the same byte for byte; so are they of
/// patterns that are read as words.
fn round_trips(shape: &str, key: &[u8], patterns: &[u8]) {
    let folder = Folder::new();
    let (key, public) = (folder.write("key", key), folder.at("public"));
    accepted(&["publish", &key, &public], &[], "");
    let capsules = printed(&["lock", shape, &public, "-", "-"], patterns);
    for format in FORMATS {
        let format = format!("--format={format}");
        for (command, rows) in [("open", &capsules[..]), ("read", patterns)] {
            let lines = printed(&[command, "--quiet", &key, &format], rows);
            let again = printed(&["lock", shape, &public, "-", "-", &format], &lines);
            assert!(again == capsules, "{command} {format}");
            let (file, out) = (folder.write("lines", &lines), folder.at("out"));
            accepted(&["lock", &format, shape, &public, &file, &out], &[], "");
            assert!(fs::read(&out).expect("the capsules") == capsules, "{command} {format}");
        }
    }
}

#[test]
fn what_is_printed_goes_back_in_at_k1() {
    round_trips("4,6,1", &crate::bench_keys::K1, &[0x01, 0x02, 0x04, 0x08, 0x10, 0x20]);
}

#[test]
fn what_is_printed_goes_back_in_at_a_standard_key() {
    let pattern = standard("pattern.bin");
    // Whole bytes moved round keep the number of ones.
    let moved = |count: usize| [&pattern[count..], &pattern[..count]].concat();
    round_trips("mceliece348864", &standard("key.bin"), &[pattern.clone(), moved(1), moved(200)].concat());
}

#[test]
fn the_vectors_pattern_is_opened_in_hex() {
    let (folder, _) = with_k1();
    let key = folder.write("key", &standard("key.bin"));
    let hex: String = standard("pattern.bin").iter().map(|byte| format!("{byte:02x}")).collect();
    accepted(&["open", &key, "--quiet", "--format", "hex"], &standard("capsule.bin"), &format!("1 open {hex}\n"));
    let (_, out, _) = outcome(&["read", &key, "--format", "hex"], &standard("pattern.bin"));
    assert_eq!(out, format!("1 read 64 {hex}\n"));
}
