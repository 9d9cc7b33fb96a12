//! `publish --small`: the same public key and the same refusals as without it.

use std::fs;

use super::{accepted, fails, fails_on, outcome, with_k1};
use crate::bench_keys::{K1, K1_NETWORK, K3, SPLIT};
use crate::independent::key::Key;
use crate::independent::random::Random;
use crate::support::run::{run, status, Folder};
use crate::support::vectors;

#[test]
fn k1() {
    let (folder, key) = with_k1();
    let public = folder.write("public.bin", b"old and longer than the new one");
    for words in [["--small", &key, &public], [&key, "--small", &public], [&key, &public, "--small"]] {
        accepted(&[&["publish"], &words[..]].concat(), &[], "");
        assert_eq!(fs::read(&public).expect("the public key"), [3, 1, 2, 0], "{words:?}");
        fs::write(&public, b"old").expect("an old file");
    }
    accepted(&["publish", "--small", "--small", "--quiet", &key, "--", &public], &[], "");
    assert_eq!(fs::read(&public).expect("the public key"), [3, 1, 2, 0]);
    assert_eq!(folder.names(), ["key.bin", "public.bin"]);
    // From standard input to standard output, of either form of key file.
    for key in [&K1[..], &K1_NETWORK] {
        let output = run(&["publish", "--small", "-", "-"], key);
        assert_eq!((status(&output), &output.stdout[..], &output.stderr[..]), (0, &[3, 1, 2, 0][..], &[][..]));
    }
}

#[test]
fn standard_keys() {
    for name in ["mceliece348864", "mceliece6960119", "mceliece8192128"] {
        let (folder, at) = (Folder::new(), |part: &str| vectors::file(&format!("{name}/count0/{part}")));
        let key = folder.write("key.bin", &at("key.bin"));
        let [public, small] = [folder.at("public.bin"), folder.at("small.bin")];
        accepted(&["publish", &key, &public], &[], "");
        accepted(&["publish", "--small", &key, &small], &[], "");
        let [public, small] = [public, small].map(|name| fs::read(name).expect("a public key"));
        assert!(small == public && small == at("public.bin"), "{name}");
    }
}

/// Standard output, standard error, the status and the output file are as without the option, whatever the key is.
#[test]
fn as_without_it() {
    let (folder, _) = with_k1();
    let mut random = Random::new(908);
    let k1 = Key::parse(&K1).expect("a key");
    let mut files = vec![K3.to_vec(), SPLIT.to_vec(), vec![], vec![0; 30]];
    files.extend([1, 2, 3, 4, 5, 7].map(|number| random.damaged(&k1, number)));
    for (m, n, t) in [(4, 6, 1), (4, 12, 2), (4, 16, 3), (12, 100, 5), (13, 1000, 60)] {
        files.extend((0..4).map(|_| random.key(m, n, t).file()));
    }
    let mut met = [0; 4];
    for file in files {
        let key = folder.write("one.key", &file);
        let answers = [&[][..], &["--small"]].map(|option| {
            let out = folder.write("out", b"kept");
            let answer = outcome(&[&["publish", &key, &out], option].concat(), &[]);
            (answer, fs::read(&out).expect("the output"))
        });
        assert!(answers[0] == answers[1], "{file:02x?}: {:?}", answers[1].0);
        met[answers[0].0 .0 as usize] += 1;
        assert_eq!(answers[0].0 .0 == 0, answers[0].1 != b"kept", "{file:02x?}");
    }
    assert!(met[0] > 3 && met[3] > 8, "{met:?}");
    assert_eq!(folder.names(), ["key.bin", "one.key", "out"]);
}

#[test]
fn refusals_in_words() {
    let (folder, key) = with_k1();
    let (k3, split, out) = (folder.write("k3.key", &K3), folder.write("split.key", &SPLIT), folder.at("out"));
    fails(
        &["publish", "--small", &k3, &out],
        3,
        "k3.key: refused 23: the first m*t columns are dependent: no public key",
    );
    fails(&["publish", "--small", &split, &out], 3, "split.key: refused 34: g has a proper factor");
    fails_on(&["publish", "--small", "-", &out], &K1[..17], 3, "standard input: refused 2");
    fails(&["publish", "--small", &key, &key], 2, "key.bin is an input too");
    assert_eq!(folder.names(), ["k3.key", "key.bin", "split.key"]);
}

#[test]
fn usage() {
    fails(&["publish", "--small=yes", "a", "b"], 2, "--small takes no value; see shearcotter help publish");
    fails(&["publish", "--smal", "a", "b"], 2, "no such option: --smal; the nearest is --small; see");
    fails(&["publish", "--small", "a"], 2, "no OUT: shearcotter publish [OPTION]... KEY OUT; ");
    for command in ["check", "open", "report", "read"] {
        fails(&[command, "--small", "a"], 2, &format!("{command} takes no option --small; see"));
    }
}
