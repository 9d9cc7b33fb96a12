//! Patterns that lock takes: in each format, several at once, all or none.

use std::fs;
use std::process::Command;

use super::{accepted, fails, outcome, standard, with_k1};
use crate::support::run::{status, text, Folder};

/// A folder with K1's public key.
fn with_public() -> (Folder, String) {
    let (folder, _) = with_k1();
    let public = folder.write("public", &[3, 1, 2, 0]);
    (folder, public)
}

/// Locked at K1 to capsules.
fn locks(format: &str, patterns: &str, capsules: &[u8]) {
    let (folder, public) = with_public();
    let (file, out) = (folder.write("patterns", patterns.as_bytes()), folder.at("out"));
    accepted(&["lock", "--format", format, "4,6,1", &public, &file, &out], &[], "");
    assert_eq!(fs::read(&out).expect("capsules"), capsules, "{format}: {patterns}");
}

/// Refused or no pattern: the output is left alone.
fn leaves(format: &str, patterns: &[u8], status: i32, says: &str) {
    let (folder, public) = with_public();
    let (file, out) = (folder.write("patterns", patterns), folder.write("out", b"kept"));
    fails(&["lock", "--format", format, "4,6,1", &public, &file, &out], status, &format!("patterns: {says}"));
    assert_eq!(fs::read(&out).expect("the output"), b"kept", "{format}");
    fails(&["lock", "--format", format, "4,6,1", &public, &file, &folder.at("new")], status, says);
    assert_eq!(folder.names(), ["key.bin", "out", "patterns", "public"]);
}

#[test]
fn lines_with_and_without_their_beginnings() {
    locks("places", "4\n", &[3]);
    locks("places", "4", &[3]);
    locks("places", " \t4 \r\n0\n", &[3, 1]);
    locks("places", "1 open 4\n7 read 1 0\n0004\n", &[3, 1, 3]);
    locks("hex", "10\n1 open 01\n1 read 1 10", &[3, 1, 3]);
    locks("json", "{\"places\":[4]}\n {\"answer\":\"read\", \"ones\":1, \"places\": [ 0 ], \"more\":{}}\r\n", &[3, 1]);
    locks("raw", "\x10\x01\x10", &[3, 1, 3]);
}

#[test]
fn places_in_any_order_and_hexadecimal_in_either_case() {
    let (folder, _) = with_k1();
    let public = folder.write("large", &standard("public.bin"));
    let pattern = standard("pattern.bin");
    let places = (0..3488).rev().filter(|i| pattern[i / 8] >> (i % 8) & 1 == 1);
    let places: Vec<String> = places.map(|place| place.to_string()).collect();
    let hex: String = pattern.iter().map(|byte| format!("{byte:02X}")).collect();
    for (format, line) in [("places", places.join("  ")), ("hex", hex)] {
        let (file, out) = (folder.write("patterns", line.as_bytes()), folder.at("out"));
        accepted(&["lock", "1", &public, &file, &out, "--format", format], &[], "");
        assert_eq!(fs::read(&out).expect("a capsule"), standard("capsule.bin"), "{format}");
    }
}

#[test]
fn lines_of_places_that_are_none() {
    let places = |lines: &str, says: &str| leaves("places", lines.as_bytes(), 2, says);
    places("4\n6\n", "line 2: place 6 is not below n 6\n");
    places("99999999999999999999", "line 1: place 99999999999999999999 is not below n 6\n");
    places("4 4\n", "line 1: place 4 stands twice\n");
    places("4\n0\nx\n", "line 3: x is no place\n");
    places("-1\n", "line 1: -1 is no place\n");
    places("+4\n", "line 1: +4 is no place\n");
    places("4,5\n", "line 1: 4,5 is no place\n");
    places("open 4\n", "line 1: open is no place\n");
    places("1 open 4\n2 refused 13\n", "line 2: a refused row has no pattern\n");
    places("2 refused 13: no pattern for the capsule\n", "line 1: a refused row has no pattern\n");
    places("1 read 2 4\n", "line 1: the count is 2, the pattern has 1\n");
    places("1 read x 4\n", "line 1: x is no count\n");
    places("4\n\x1b[2J\n", "line 2: \\x1b[2J is no place\n");
    leaves("places", b"4\n\xff\n", 2, "line 2: no text\n");
    leaves("places", &vec![b' '; (1 << 20) + 1], 2, "line 1: longer than 1048576 bytes\n");
}

#[test]
fn lines_of_hexadecimal_that_are_none() {
    let hex = |lines: &str, says: &str| leaves("hex", lines.as_bytes(), 2, says);
    hex("10\n1\n", "line 2: an odd number of hexadecimal digits, 1\n");
    hex("1g\n", "line 1: g is no hexadecimal digit\n");
    hex("0x10\n", "line 1: x is no hexadecimal digit\n");
    hex("10 01\n", "line 1: more than one hexadecimal word\n");
    hex("1 read 2 10\n", "line 1: the count is 2, the pattern has 1\n");
    hex("1 refused 13\n", "line 1: a refused row has no pattern\n");
    leaves("hex", b"10\n1000\n", 1, "line 2: refused 8: pattern of wrong byte length: expected 1 byte, found 2\n");
    leaves("hex", b"10\n\n", 1, "line 2: refused 8: pattern of wrong byte length: expected 1 byte, found 0\n");
    leaves("hex", b"50\n", 1, "line 1: refused 9: filler bit set: ");
}

#[test]
fn objects_that_are_no_patterns() {
    let json = |lines: &str, says: &str| leaves("json", lines.as_bytes(), 2, says);
    json("{\"places\":[4]}\n[4]\n", "line 2: no object\n");
    json("{\"places\":[4]}\n\n", "line 2: no JSON: no value at byte 1\n");
    json("4\n", "line 1: no object\n");
    json("{}\n", "line 1: no list of places\n");
    json("{\"places\":4}\n", "line 1: no list of places\n");
    json("{\"places\":[\"4\"]}\n", "line 1: a place is no number\n");
    json("{\"places\":[4.0]}\n", "line 1: 4.0 is no place\n");
    json("{\"places\":[6]}\n", "line 1: place 6 is not below n 6\n");
    json("{\"places\":[4,4]}\n", "line 1: place 4 stands twice\n");
    json("{\"ones\":2,\"places\":[4]}\n", "line 1: the count is 2, the pattern has 1\n");
    json("{\"ones\":\"1\",\"places\":[4]}\n", "line 1: ones is no count\n");
    json("{\"places\":[4]\n", "line 1: no JSON: neither , nor } at byte 14\n");
    json("{\"places\":[4],\"places\":[5]}\n", "line 1: the member places stands twice\n");
    json("{\"answer\":\"refused\",\"number\":13}\n", "line 1: a refused row has no pattern\n");
}

#[test]
fn a_line_without_places_has_no_ones() {
    let says =
        |line: u8| format!("line {line}: refused 12: pattern to lock has not t ones: expected 1 one (t), found 0\n");
    leaves("places", b"\n", 1, &says(1));
    leaves("places", b"4\n\n4\n", 1, &says(2));
    leaves("places", b"1 read 0\n", 1, &says(1));
    leaves("json", b"{\"places\":[]}\n", 1, &says(1));
    leaves("hex", b"00\n", 1, &says(1));
}

#[test]
fn a_file_without_patterns_is_refused() {
    for format in ["places", "hex", "raw", "json"] {
        let says = "refused 8: pattern of wrong byte length: expected 1 byte, found 0\n";
        leaves(format, b"", 1, says);
    }
}

#[test]
fn a_line_without_end_is_not_read_to_it() {
    let (_folder, public) = with_public();
    let line = "ulimit -v 500000; exec \"$0\" lock --format places 4,6,1 \"$1\" /dev/zero -";
    let shell = Command::new("sh").args(["-c", line, env!("CARGO_BIN_EXE_shearcotter"), &public]).output();
    let output = shell.expect("the shell starts");
    let expected = "shearcotter: /dev/zero: line 1: longer than 1048576 bytes\n";
    assert_eq!((status(&output), text(&output.stderr)), (2, expected));
}

#[test]
fn many_patterns() {
    let (folder, public) = with_public();
    let count = 100_000;
    let (status, out, error) = outcome(&["lock", "4,6,1", &public, "-", "-"], &vec![0x10; count]);
    assert_eq!((status, error.as_str()), (0, ""));
    assert!(out.len() == count && out.bytes().all(|byte| byte == 3));
    let mut lines = "4\n".repeat(count);
    lines += "5 5\n";
    let file = folder.write("patterns", lines.as_bytes());
    fails(
        &["lock", "4,6,1", &public, &file, "-", "--format=places"],
        2,
        "patterns: line 100001: place 5 stands twice\n",
    );
}
