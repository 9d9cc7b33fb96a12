//! Failing files give 2, a refused shape too, a refused key gives 3; all in words.

use std::fs::File;

use super::{fails, fails_on, with_k1};
use crate::bench_keys::{K1, K3};
use crate::support::run::{status, text, tool};

#[test]
fn missing_files() {
    let (folder, key) = with_k1();
    let missing = folder.at("missing");
    for command in ["check", "open", "read", "report"] {
        fails(&[command, &missing], 2, "missing: ");
    }
    for command in ["open", "read", "report"] {
        fails(&[command, &key, &missing], 2, "missing: ");
    }
    fails(&["publish", &missing, &folder.at("out")], 2, "missing: ");
    fails(&["lock", "4,6,1", &missing, &key, &folder.at("out")], 2, "missing: ");
    let public = folder.write("public.bin", &[3, 1, 2, 0]);
    fails(&["lock", "4,6,1", &public, &missing, &folder.at("out")], 2, "missing: ");
    fails(&["publish", &key, &folder.at("none/out")], 2, "out: ");
    let itself = folder.path().to_str().expect("a plain path");
    fails(&["check", itself], 2, "directory");
    fails(&["publish", &key, itself], 2, "not a regular file");
    assert_eq!(folder.names(), ["key.bin", "public.bin"]);
}

#[test]
fn refused_keys() {
    let (folder, _) = with_k1();
    let mut twice = K1;
    twice[13] = 1;
    let file = folder.write("twice.bin", &twice);
    for command in ["check", "open", "read", "report"] {
        fails(&[command, &file], 3, "twice.bin: refused 5: support element twice: ");
        fails(&[command, "--quiet", &file], 3, "twice.bin: refused 5: ");
    }
    fails(&["publish", &file, &folder.at("out")], 3, "twice.bin: refused 5: ");
    fails_on(&["check", "-"], &twice, 3, "shearcotter: standard input: refused 5: ");
    let k3 = folder.write("k3.bin", &K3);
    fails(&["open", &k3], 3, "k3.bin: refused 23: the first m*t columns are dependent: no public key: ");
    fails(&["report", &k3, "--records", &folder.at("out")], 3, "k3.bin: refused 23: ");
    fails(&["publish", &k3, &folder.at("out")], 3, "k3.bin: refused 23: ");
    assert_eq!(folder.names(), ["k3.bin", "key.bin", "twice.bin"]);
}

#[test]
fn refused_shapes() {
    let lock = |shape: &str, says: &str| fails(&["lock", shape, "a", "b", "c"], 2, says);
    for shape in ["0", "6", "256", "99999999999999999999"] {
        lock(shape, &format!("shape {shape}: refused 3: position not 1 to 5: found {shape}"));
    }
    let limits = "expected t from 1 to 128, n above m*t and at most 2^m";
    for (shape, bits, elements) in
        [("4,4,1", 4, 16), ("4,17,1", 4, 16), ("13,70000,1", 13, 8192), ("12,4096,129", 1548, 4096)]
    {
        let found = format!("found {shape}, where m*t is {bits} and 2^m is {elements}\n");
        lock(shape, &format!("shape {shape}: refused 3: shape out of limits: {limits}, {found}"));
    }
    lock("4,6,99999999999999999999", "at most 2^m, found 4,6,99999999999999999999\n");
    for m in ["5", "260"] {
        let found = format!("refused 1: width missing or not 4, 12, 13: expected 4, 12 or 13, found m {m}");
        lock(&format!("{m},6,1"), &found);
    }
    for shape in ["mceliece1", "4,6", "", "4,6,1,1", "4,6,x", "4, 6,1", "-1"] {
        fails(&["lock", "--", shape, "a", "b", "c"], 2, &format!("no such shape: {shape}; see shearcotter shapes"));
    }
}

#[test]
fn a_failing_standard_input() {
    let (folder, key) = with_k1();
    let secret = folder.write("secret", &[0x15]);
    let session = [vec!["session", &key, &secret], vec!["session", &key, "-", "/dev/null"]];
    let others = [vec!["open", &key], vec!["read", &key, "-"], vec!["report", &key], vec!["check", "-"]];
    for words in session.into_iter().chain(others) {
        let unreadable = File::open(folder.path()).expect("the folder opens");
        let output = tool().args(&words).stdin(unreadable).output().expect("the tool ends");
        assert_eq!((status(&output), text(&output.stdout)), (2, ""), "{words:?}");
        assert!(text(&output.stderr).starts_with("shearcotter: standard input: "), "{}", text(&output.stderr));
    }
}
