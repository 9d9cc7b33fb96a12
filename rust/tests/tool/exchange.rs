//! Keys whose g has a proper factor: `check` says so, `read` takes them, and the other commands refuse them.

use super::{accepted, fails, fails_on, outcome, with_k1};
use crate::bench_keys::{K1, K3, SPLIT};
use crate::independent::random::Random;

const NOTE: &str =
    "g has a proper factor: words are read with the key; publish, open, session and report are refused 34\n";

/// Accepted with a note on standard error, and without it.
fn only_reads(words: &[&str], input: &[u8], printed: &str, name: &str) {
    let note = format!("shearcotter: {name}: {NOTE}");
    assert_eq!(outcome(words, input), (0, printed.to_owned(), note), "{words:?}");
    accepted(&[words, &["--quiet"]].concat(), input, printed);
}

#[test]
fn check_says_which_keys_exchange() {
    let (folder, k1) = with_k1();
    accepted(&["check", &k1], &[], "accepted 4,6,1 exchange\n");
    // Irreducible, though it has no public key.
    accepted(&["check", "-"], &K3, "accepted 4,6,1 exchange\n");
    let split = folder.write("split.key", &SPLIT);
    only_reads(&["check", &split], &[], "accepted 4,9,2 reading-only\n", &split);
    only_reads(&["check", "-"], &SPLIT, "accepted 4,9,2 reading-only\n", "standard input");
    let mut random = Random::new(340);
    let large = random.reading_key(12, 3488, 64).file();
    only_reads(&["check", "-"], &large, "accepted 12,3488,64 mceliece348864 reading-only\n", "standard input");
    let large = random.exchange_key(13, 2000, 100).file();
    accepted(&["check", "-"], &large, "accepted 13,2000,100 exchange\n");
}

#[test]
fn other_commands_refuse_them() {
    let (folder, _) = with_k1();
    let (split, secret) = (folder.write("split.key", &SPLIT), folder.write("secret", &[0; 2]));
    let out = folder.at("out");
    let commands = [
        vec!["publish", &split, &out],
        vec!["publish", "--small", &split, &out],
        vec!["open", &split],
        vec!["session", &split, &secret],
        vec!["report", &split, "--records", &out],
    ];
    let why = "expected an irreducible g; the key opens no capsules, though it reads words: use another key\n";
    for words in commands {
        let says = format!("split.key: refused 34: g has a proper factor: {why}");
        fails_on(&words, &[0x03], 3, &says);
        fails(&[&words[..], &["--quiet"]].concat(), 3, &says);
    }
    assert_eq!(folder.names(), ["key.bin", "secret", "split.key"]);
    accepted(&["read", "--quiet", &split], &[0x11, 0x00, 0x00, 0x00], "1 read 2 0 4\n2 read 0\n");
}

/// A damaged key has load's number, whatever its g.
#[test]
fn numbers_of_load_come_first() {
    let (folder, _) = with_k1();
    let mut twice = SPLIT;
    twice[5] = 2;
    let twice = folder.write("twice.key", &twice);
    for command in ["check", "open", "report", "read"] {
        fails(&[command, &twice], 3, "twice.key: refused 5: ");
    }
    let mut root = K1;
    root[17] = 1;
    let root = folder.write("root.key", &root);
    fails(&["check", &root], 3, "root.key: refused 7: ");
}
