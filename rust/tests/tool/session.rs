//! The command `session`: a key for each capsule in each format, refused capsules and secrets, long inputs, the standard's vectors.

use std::fs;
use std::io::Write;

use super::streams::start;
use super::{accepted, all_accepted, fails, fails_on, outcome, some_refused, standard, with_k1};
use crate::bench_keys::K3;
use crate::independent::shake::shake256;
use crate::support::run::{ended, run, status, text, Folder, Lines};
use crate::support::vectors;

/// K1's secret in these tests; its capsule 03 opens to the pattern 10, and 00 does not open.
const SECRET: [u8; 1] = [0x15];

fn hex(bytes: &[u8]) -> String {
    bytes.iter().map(|byte| format!("{byte:02x}")).collect()
}

/// The session keys of K1's capsules 03 and 00.
fn keys() -> [String; 2] {
    [[1, 0x10, 0x03], [0, SECRET[0], 0x00]].map(|input| hex(&shake256(&input, 32)))
}

/// A folder with the key file of K1 and a secret.
fn with_secret() -> (Folder, String, String) {
    let (folder, key) = with_k1();
    let secret = folder.write("secret", &SECRET);
    (folder, key, secret)
}

#[test]
fn a_key_for_each_capsule() {
    let (folder, key, secret) = with_secret();
    let [opened, other] = keys();
    let capsules = [0x03, 0x00, 0x13];
    let lines = format!("1 session {opened}\n2 session {other}\n3 refused 9\n");
    let summary = "total 3 derived 2 refused 1\n  1 by 9: filler bit set";
    some_refused(&["session", &key, &secret], &capsules, &lines, &format!("standard input: {summary}"));
    some_refused(&["session", &key, &secret, "-", "--format", "hex", "--quiet"], &capsules, &lines, "");
    let file = folder.write("capsules", &capsules);
    some_refused(&["session", &key, &secret, &file], &[], &lines, &format!("{file}: {summary}"));
    let total = "standard input: total 2 derived 2 refused 0";
    all_accepted(&["session", &key, &secret], &[0x00, 0x00], &format!("1 session {other}\n2 session {other}\n"), total);
    all_accepted(&["session", &key, &secret], &[], "", "standard input: total 0 derived 0 refused 0");
    assert_eq!(opened, "b5def76bb17404030c17a3527c93c3f26ee1aafb50930a530d6da4c05238e271");
}

#[test]
fn other_formats() {
    let (folder, key, secret) = with_secret();
    let keys = keys();
    let capsules = folder.write("capsules", &[0x03, 0x13, 0x00]);
    let object = |position: usize, key: &str| {
        format!(r#"{{"position":{position},"answer":"session","number":0,"words":"accepted","key":"{key}"}}"#)
    };
    let refused = r#"{"position":2,"answer":"refused","number":9,"words":"filler bit set""#;
    let lines = |refused: &str| format!("{}\n{refused}\n{}\n", object(1, &keys[0]), object(3, &keys[1]));
    let json = ["session", "--format=json", "--quiet", &key, &secret, &capsules];
    some_refused(&json, &[], &lines(&format!("{refused}}}")), "");
    let explained = r#","explained":"expected byte 0 up to 0f, found 13 (hexadecimal)"}"#;
    some_refused(&[&json[..], &["--explain"]].concat(), &[], &lines(&format!("{refused}{explained}")), "");
    let output = run(&["session", "--format", "raw", "--quiet", &key, &secret, &capsules], &[]);
    assert_eq!((status(&output), hex(&output.stdout)), (1, keys.concat()));
    assert_eq!(text(&output.stderr), format!("shearcotter: {capsules}: 2 refused 9: filler bit set\n"));
    fails(
        &["session", "--format", "places", &key, &secret],
        2,
        "--format takes hex, raw or json, not places; see shearcotter help session\n",
    );
}

#[test]
fn refused_capsules_are_explained() {
    let (folder, key, secret) = with_secret();
    let line = format!("1 session {}\n", keys()[0]);
    let filler = "2 refused 9: filler bit set: expected byte 0 up to 0f, found 13 (hexadecimal)\n";
    let total = "standard input: total 2 derived 1 refused 1";
    some_refused(&["session", "--explain", &key, &secret], &[0x03, 0x13], &(line + filler), total);
    let large = folder.write("large.key", &standard("key.bin"));
    let secret = folder.write("large.secret", &standard("secret.bin"));
    let says = "1 refused 8: capsule of wrong byte length: expected 96 bytes, found 95\n";
    some_refused(&["session", "--explain", "--quiet", &large, &secret], &[0; 95], says, "");
    let summary = "standard input: total 1 derived 0 refused 1\n  1 by 8: capsule of wrong byte length";
    some_refused(&["session", &large, &secret], &[0; 95], "1 refused 8\n", summary);
}

/// Both keys of the standard's folder, for capsules back to back with a short tail, on any number of threads.
#[test]
fn the_standard_s_session_keys() {
    let folder = Folder::new();
    for name in ["mceliece348864", "mceliece348864f", "mceliece6960119"] {
        let at = |part: &str| vectors::file(&format!("{name}/count0/{part}"));
        let (key, secret) = (folder.write("key", &at("key.bin")), folder.write("secret", &at("secret.bin")));
        let pair = [at("capsule.bin"), at("capsule_reject.bin")].concat();
        let input = [&pair.repeat(20)[..], &pair[..1]].concat();
        let file = folder.write("capsules", &input);
        let [opened, other] = ["session.bin", "session_capsule_reject.bin"].map(|part| hex(&at(part)));
        let line = |i: usize| format!("{i} session {}\n", if i % 2 == 1 { &opened } else { &other });
        let lines: String = (1..=40).map(line).chain(["41 refused 8\n".to_owned()]).collect();
        for jobs in ["1", "2", "5"] {
            some_refused(&["session", "--quiet", "--jobs", jobs, &key, &secret, &file], &[], &lines, "");
            some_refused(&["session", "--quiet", "--jobs", jobs, &key, &secret], &input, &lines, "");
        }
    }
}

#[test]
fn a_long_input_is_read_to_its_end() {
    let (_folder, key, secret) = with_secret();
    let [opened, other] = keys();
    let input: Vec<u8> = (0..30_000_u32).map(|i| [0x03, 0x00, 0x13][(i * i % 11 % 3) as usize]).collect();
    let said = |capsule: &u8| match capsule {
        0x03 => format!("session {opened}"),
        0x00 => format!("session {other}"),
        _ => "refused 9".to_owned(),
    };
    let lines: String = (1..).zip(&input).map(|(i, capsule)| format!("{i} {}\n", said(capsule))).collect();
    for jobs in ["1", "3"] {
        let (status, out, error) = outcome(&["session", "--quiet", "--jobs", jobs, &key, &secret], &input);
        assert_eq!((status, error.as_str()), (1, ""));
        assert!(out == lines, "{jobs} jobs");
    }
}

#[test]
fn a_key_comes_before_the_next_capsule() {
    let (_folder, key, secret) = with_secret();
    let mut child = start(&["session", &key, &secret]);
    let mut input = child.stdin.take().expect("its standard input");
    let lines = Lines::of(&mut child);
    for position in 1..=10 {
        input.write_all(&[0x03]).expect("a capsule");
        assert_eq!(lines.next().expect("a line"), format!("{position} session {}", keys()[0]));
    }
    drop(input);
    assert!(lines.next().is_none());
    assert_eq!(ended(&mut child), 0);
}

/// Before any capsule, and whatever FILE is; its bits are not said.
#[test]
fn a_secret_that_does_not_fit() {
    let (folder, key, _) = with_secret();
    let refused = |bytes: &[u8], says: &str| {
        let secret = folder.write("bad", bytes);
        let missing = folder.at("missing");
        for words in [vec!["session", &key, &secret], vec!["session", "--quiet", &key, &secret, &missing]] {
            fails_on(&words, &[0x03, 0x13], 3, &format!("bad: refused 33: {says}\n"));
        }
    };
    refused(&[], "secret of wrong length: expected 1 byte for 4,6,1, found 0");
    refused(&[0x15, 0x00], "secret of wrong length: expected 1 byte for 4,6,1, found more than 1");
    refused(&[0x55; 100_000], "secret of wrong length: expected 1 byte for 4,6,1, found more than 1");
    for byte in [0x40, 0x55, 0x80, 0xff] {
        refused(&[byte], "secret with filler set: expected byte 0 up to 3f (hexadecimal), found more");
    }
    let large = folder.write("large.key", &standard("key.bin"));
    let secret = folder.write("short", &standard("secret.bin")[..435]);
    let says = "short: refused 33: secret of wrong length: expected 436 bytes for 12,3488,64, found 435\n";
    fails(&["session", &large, &secret], 3, says);
    fails_on(&["session", &key, "-", "/dev/null"], &[0x40], 3, "shearcotter: standard input: refused 33: ");
}

#[test]
fn the_key_goes_before_the_secret() {
    let (folder, key, secret) = with_secret();
    let k3 = folder.write("k3.bin", &K3);
    fails(&["session", &k3, &folder.at("missing")], 3, "k3.bin: refused 23: ");
    let bad = folder.write("bad.key", &[5]);
    fails(&["session", &bad, &secret], 3, "bad.key: refused 1: ");
    fails(&["session", &folder.at("missing"), &secret], 2, "missing: ");
    fails(&["session", &key, &folder.at("missing")], 2, "missing: ");
    fails(&["session", &key, &secret, &folder.at("missing")], 2, "missing: ");
    fails(&["session", &key], 2, "no SECRET: shearcotter session [OPTION]... KEY SECRET [FILE]; ");
}

#[test]
fn each_file_may_be_standard_input() {
    let (folder, key, secret) = with_secret();
    let capsules = folder.write("capsules", &[0x03]);
    let line = format!("1 session {}\n", keys()[0]);
    let file = fs::read(&key).expect("the key");
    accepted(&["session", "--quiet", "-", &secret, &capsules], &file, &line);
    accepted(&["session", "--quiet", &key, "-", &capsules], &SECRET, &line);
    accepted(&["session", "--quiet", &key, &secret, "-"], &[0x03], &line);
    for words in [["session", "-", "-", &capsules], ["session", "-", &secret, "-"], ["session", &key, "-", "-"]] {
        fails(&words, 2, "two inputs are `-`");
    }
    fails(&["session", &key, "-"], 2, "two inputs are `-`");
}

/// What `session` prints is no pattern.
#[test]
fn lock_takes_no_session_key() {
    let (folder, key, secret) = with_secret();
    let public = folder.write("public", &[3, 1, 2, 0]);
    let (_, lines, _) = outcome(&["session", "--quiet", &key, &secret], &[0x03]);
    let says = "line 1: more than one hexadecimal word\n";
    fails_on(&["lock", "--format=hex", "4,6,1", &public, "-", "-"], lines.as_bytes(), 2, says);
    let (_, object, _) = outcome(&["session", "--quiet", "--format=json", &key, &secret], &[0x03]);
    fails_on(&["lock", "--format=json", "4,6,1", &public, "-", "-"], object.as_bytes(), 2, "no list of places\n");
}
