//! The bytes of a key file are gone while the key is used, and session keys once they are written.

#![cfg(target_os = "linux")]

use std::io::Write;
use std::process::{Child, Stdio};

use super::{standard, with_k1};
use crate::independent::random::Random;
use crate::support::memory;
use crate::support::run::{tool, Lines};

/// How often the bytes stand in the memory of a process.
fn occurrences(process: u32, bytes: &[u8]) -> usize {
    let count = |part: memory::Stretch| part.bytes.windows(bytes.len()).filter(|window| *window == bytes).count();
    memory::private(process).into_iter().map(count).sum()
}

/// A run whose allocator keeps what is freed, so that it can be looked at.
fn start(words: &[&str]) -> Child {
    let mut command = tool();
    command.env("MALLOC_MMAP_THRESHOLD_", "33554432").env("MALLOC_TRIM_THRESHOLD_", "33554432");
    command.args(words).stdin(Stdio::piped()).stdout(Stdio::piped()).stderr(Stdio::null());
    command.spawn().expect("the tool starts")
}

#[test]
fn no_bytes_of_the_key_file_are_left() {
    let (folder, _) = with_k1();
    let (file, word) = (standard("key.bin"), standard("pattern.bin"));
    let key = folder.write("large.key", &file);
    let mut child = start(&["read", &key]);
    let mut input = child.stdin.take().expect("its standard input");
    input.write_all(&word).expect("a word");
    let lines = Lines::of(&mut child);
    assert!(lines.next().expect("a line").starts_with("1 read 64 "));
    // The station has the support and g apart: only the file has t between them.
    let between = &file[3 + 2 * 3480..7 + 2 * 3496];
    assert_eq!(occurrences(child.id(), between), 0);
    // The search does find what is there: the support in the station.
    assert!(occurrences(child.id(), &file[3..3 + 64]) > 0);
    drop(input);
    assert!(child.wait().expect("the tool ends").success());
}

/// Of two keys, neither file is left; the station has both supports.
#[test]
fn no_bytes_of_two_key_files_are_left() {
    let (folder, _) = with_k1();
    let files = [standard("key.bin"), Random::new(73).published(12, 3488, 64).key.file()];
    let [key, second] = [0, 1].map(|i| folder.write(&format!("{i}.key"), &files[i]));
    let mut child = start(&["open", "--jobs", "2", &key, "--second", &second]);
    let mut input = child.stdin.take().expect("its standard input");
    input.write_all(&standard("capsule.bin")).expect("a capsule");
    let lines = Lines::of(&mut child);
    assert!(lines.next().expect("a line").starts_with("1 open A "));
    for file in &files {
        assert_eq!(occurrences(child.id(), &file[3 + 2 * 3480..7 + 2 * 3496]), 0);
        assert!(occurrences(child.id(), &file[3..3 + 64]) > 0);
    }
    drop(input);
    assert!(child.wait().expect("the tool ends").success());
}

/// Of a network file neither its bytes are left nor what the other load was tried on.
#[test]
fn no_bytes_of_a_network_file_are_left() {
    let (folder, _) = with_k1();
    let (file, support) = (standard("key_network_standard.bin"), standard("key.bin"));
    let key = folder.write("large.network", &file);
    let mut child = start(&["read", &key]);
    let mut input = child.stdin.take().expect("its standard input");
    input.write_all(&standard("pattern.bin")).expect("a word");
    let lines = Lines::of(&mut child);
    assert!(lines.next().expect("a line").starts_with("1 read 64 "));
    for part in file[9 + 128..].chunks(64).take(20) {
        assert_eq!(occurrences(child.id(), part), 0);
    }
    assert!(occurrences(child.id(), &support[3..3 + 64]) > 0);
    drop(input);
    assert!(child.wait().expect("the tool ends").success());
}

#[test]
fn no_session_key_is_left_once_it_is_written() {
    let (folder, _) = with_k1();
    let (key, secret) = (folder.write("large.key", &standard("key.bin")), standard("secret.bin"));
    let expected = standard("session.bin");
    let hex: String = expected.iter().map(|byte| format!("{byte:02x}")).collect();
    for (format, starts) in [("hex", "1 session "), ("json", "{\"position\":1,")] {
        let mut child =
            start(&["session", "--jobs", "2", "--format", format, &key, &folder.write("large.secret", &secret)]);
        let mut input = child.stdin.take().expect("its standard input");
        let lines = Lines::of(&mut child);
        input.write_all(&standard("capsule.bin")).expect("a capsule");
        let line = lines.next().expect("a line");
        assert!(line.starts_with(starts) && line.contains(&hex), "{line}");
        // With the second line written, all that is done behind the first has been done.
        input.write_all(&standard("capsule_reject.bin")).expect("a capsule");
        assert!(lines.next().is_some());
        for part in expected.chunks(16).chain(hex.as_bytes().chunks(16)) {
            assert_eq!(occurrences(child.id(), part), 0, "{format}");
        }
        // The search does find what is there: the secret.
        assert!(occurrences(child.id(), &secret[..64]) > 0);
        drop(input);
        assert!(child.wait().expect("the tool ends").success());
    }
}
