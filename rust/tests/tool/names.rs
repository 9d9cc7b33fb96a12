//! Names in messages: nothing in them acts on a terminal.

#![cfg(unix)]

use std::ffi::{OsStr, OsString};
use std::os::unix::ffi::OsStrExt;
use std::path::Path;
use std::{fs, iter};

use super::with_k1;
use crate::bench_keys::K1;
use crate::support::run::{status, text, tool, Folder};

const NAME: &[u8] = b"a\nb\x1b[2J\xff\\";
const SHOWN: &str = "a\\nb\\x1b[2J\\xff\\\\";

/// A run in the folder, with `NAME` in the place of `@`; what it says on standard error.
fn says(folder: &Folder, words: &[&str], expected: i32) -> String {
    let name = |word: &str| -> OsString {
        let parts: Vec<&[u8]> = word.split('@').map(str::as_bytes).collect();
        OsStr::from_bytes(&parts.join(NAME)).to_owned()
    };
    let output = tool().current_dir(folder.path()).args(words.iter().map(|word| name(word))).output().expect("a run");
    let error = text(&output.stderr).to_owned();
    assert_eq!(status(&output), expected, "{words:?}: {error}");
    error
}

fn put(folder: &Folder, bytes: &[u8]) {
    fs::write(folder.path().join(Path::new(OsStr::from_bytes(NAME))), bytes).expect("a file of that name");
}

#[test]
fn escaped_in_every_message() {
    let (folder, _) = with_k1();
    folder.write("public", &[3, 1, 2, 0]);
    folder.write("secret", &[0x15]);
    let commands: [&[&str]; 18] = [
        &["check", "@"],
        &["open", "key.bin", "@"],
        &["read", "key.bin", "@"],
        &["session", "key.bin", "@"],
        &["session", "key.bin", "secret", "@"],
        &["session", "key.bin", "secret", "--format=@"],
        &["report", "key.bin", "@"],
        &["report", "key.bin", "/dev/null", "--records", "none@/out"],
        &["publish", "key.bin", "none@/out"],
        &["lock", "4,6,1", "public", "@", "-"],
        &["lock", "@", "public", "key.bin", "-"],
        &["@"],
        &["--@"],
        &["open", "--@", "key.bin"],
        &["open", "--format=@", "key.bin"],
        &["open", "--jobs", "@", "key.bin"],
        &["help", "@"],
        &["check", "key.bin", "@"],
    ];
    for words in commands {
        let error = says(&folder, words, 2);
        assert!(error.contains(SHOWN), "{words:?}: {error}");
        assert_eq!(error.lines().count(), 1, "{words:?}: {error}");
        assert!(!error.trim_end().contains(char::is_control), "{words:?}: {error}");
    }
}

#[test]
fn escaped_where_files_are_refused() {
    let (folder, _) = with_k1();
    folder.write("public", &[3, 1, 2, 0]);
    folder.write("secret", &[0x15]);
    let key: &[&str] = &["check", "@"];
    let pattern: &[&str] = &["lock", "4,6,1", "public", "@", "-"];
    let rows: &[&str] = &["open", "key.bin", "@", "--format=raw"];
    let public: &[&str] = &["lock", "4,6,1", "@", "key.bin", "-"];
    let secret: &[&str] = &["session", "key.bin", "@"];
    let capsules: &[&str] = &["session", "key.bin", "secret", "@", "--format=raw"];
    let session = [(secret, 3), (capsules, 1)];
    for (words, expected) in iter::zip([key, pattern, rows, public], [3, 1, 1, 3]).chain(session) {
        put(&folder, if words == secret { &[0x40] } else { &[0x13] });
        let error = says(&folder, words, expected);
        assert!(
            error.lines().filter(|line| line.starts_with("shearcotter: ")).all(|line| line.contains(SHOWN)),
            "{error}"
        );
        assert!(error.contains(SHOWN) && !error.contains('\x1b'), "{words:?}: {error}");
    }
    put(&folder, &K1);
    let error = says(&folder, &["publish", "@", "@"], 2);
    assert!(error.contains(&format!("{SHOWN} is an input too")), "{error}");
}
