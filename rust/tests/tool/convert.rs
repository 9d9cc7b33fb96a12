//! The command `convert`, both ways, and network files where a command takes a key.

use std::fs;
use std::os::unix::fs::{MetadataExt, PermissionsExt};

use super::{accepted, fails, fails_on, outcome, some_refused, standard, with_k1};
use crate::bench_keys::{K1, K1_NETWORK, K3, SPLIT};
use crate::independent::network_key;
use crate::independent::random::Random;
use crate::support::run::{run, status, text, Folder};
use crate::support::vectors;

/// A folder with the key file of K1, and that as a network file.
fn with_both() -> (Folder, [String; 2]) {
    let (folder, key) = with_k1();
    let network = folder.write("network.bin", &K1_NETWORK);
    (folder, [key, network])
}

fn read(path: &str) -> Vec<u8> {
    fs::read(path).expect("the output")
}

/// Both ways by files, by standard input and output, and over an old file.
#[test]
fn both_ways() {
    let (folder, files) = with_both();
    for (from, to) in [(0, 1), (1, 0)] {
        let (bytes, expected) = ([&K1[..], &K1_NETWORK][from], [&K1[..], &K1_NETWORK][to]);
        let out = folder.at("out");
        accepted(&["convert", &files[from], &out], &[], "");
        assert_eq!(read(&out), expected);
        let old = folder.write("old", &[7; 100]);
        accepted(&["convert", "--quiet", "-", &old], bytes, "");
        assert_eq!(read(&old), expected);
        let output = run(&["convert", "-", "-"], bytes);
        assert_eq!((status(&output), &output.stdout[..], text(&output.stderr)), (0, expected, ""));
        let output = run(&["convert", &files[from], "-"], &[]);
        assert_eq!((status(&output), &output.stdout[..]), (0, expected));
        fs::remove_file(&out).expect("the output goes");
    }
    assert_eq!(folder.names(), ["key.bin", "network.bin", "old"]);
}

/// The standard's keys: its own control bits give the key file, and that the conversion's.
#[test]
fn the_standard_s_files() {
    let folder = Folder::new();
    for name in ["mceliece348864", "mceliece460896f", "mceliece8192128"] {
        let at = |part: &str| vectors::file(&format!("{name}/count0/{part}"));
        let (partner, key, network) =
            (folder.write("partner", &at("key_network_standard.bin")), folder.at("key"), folder.at("network"));
        accepted(&["convert", &partner, &key], &[], "");
        assert!(read(&key) == at("key.bin"), "{name}");
        accepted(&["convert", &key, &network], &[], "");
        assert!(read(&network) == at("key_network.bin"), "{name}");
    }
}

/// OUT stays and nothing is left beside it, whatever is refused.
#[test]
fn a_refusal_leaves_the_output() {
    let (folder, [key, network]) = with_both();
    let (out, bad) = (folder.write("out", b"kept"), folder.at("bad"));
    let mut random = Random::new(720);
    let whole = random.key(4, 12, 2);
    for number in [1, 2, 3, 4, 5, 6, 7] {
        fs::write(&bad, random.damaged(&whole, number)).expect("a file");
        fails(&["convert", &bad, &out], 3, &format!("bad: refused {number}: "));
    }
    for number in [1, 2, 36, 3, 4, 6, 7] {
        fs::write(&bad, random.damaged_network(&whole, number)).expect("a file");
        fails(&["convert", &bad, &out], 3, &format!("bad: refused {number}: "));
        fails(&["convert", &bad, &folder.at("new")], 3, &format!("bad: refused {number}: "));
    }
    fails_on(&["convert", "-", &out], &[], 3, "standard input: refused 1: ");
    fails(&["convert", &folder.at("missing"), &out], 2, "missing: ");
    fails(&["convert", &key, &key], 2, "key.bin is an input too");
    fails(&["convert", &network, &folder.at("none/out")], 2, "out: ");
    fails(&["convert", &key], 2, "no OUT: shearcotter convert [OPTION]... IN OUT; ");
    fails(&["convert", &key, "/dev/null"], 2, "not a regular file");
    assert_eq!(read(&out), b"kept");
    assert_eq!((read(&key), read(&network)), (K1.to_vec(), K1_NETWORK.to_vec()));
    assert_eq!(folder.names(), ["bad", "key.bin", "network.bin", "out"]);
}

/// A new file is its owner's alone; an old one keeps its mode.
#[test]
fn others_cannot_read_a_new_file() {
    let (folder, [key, network]) = with_both();
    let mode = |path: &str| fs::metadata(path).expect("the file").mode() & 0o777;
    let out = folder.at("out");
    accepted(&["convert", &key, &out], &[], "");
    assert_eq!(mode(&out), 0o600);
    fs::set_permissions(&out, fs::Permissions::from_mode(0o640)).expect("another mode");
    accepted(&["convert", &network, &out], &[], "");
    assert_eq!((mode(&out), read(&out)), (0o640, K1.to_vec()));
    accepted(&["convert", &key, &out], &[], "");
    assert_eq!((mode(&out), read(&out)), (0o640, K1_NETWORK.to_vec()));
}

/// Random keys of all shapes of m 4: which form a file has is told from its bytes, in either.
#[test]
fn forms_are_told_apart() {
    let (folder, mut random) = (Folder::new(), Random::new(721));
    for (m, n, t) in crate::compare::small_shapes() {
        let key = random.key(m, n, t);
        let (file, network) = (key.file(), random.network_file(&key));
        for (form, bytes) in [("", &file), (" network", &network)] {
            let path = folder.write("key", bytes);
            let (status, out, _) = outcome(&["check", &path], &[]);
            assert_eq!(status, 0, "{bytes:02x?}");
            assert!(out.starts_with(&format!("accepted {m},{n},{t} ")) && out.ends_with(&format!("{form}\n")), "{out}");
            assert_eq!(out.contains("network"), !form.is_empty(), "{out}");
            let converted = run(&["convert", &path, "-"], &[]).stdout;
            let expected = if form.is_empty() { network_key::to_network(&key) } else { file.clone() };
            assert_eq!(converted, expected, "{bytes:02x?}");
        }
    }
}

#[test]
fn check_says_the_form() {
    let (folder, [_, network]) = with_both();
    accepted(&["check", &network], &[], "accepted 4,6,1 exchange network\n");
    accepted(
        &["check", "-"],
        &standard("key_network_standard.bin"),
        "accepted 12,3488,64 mceliece348864 exchange network\n",
    );
    let split = run(&["convert", "-", "-"], &SPLIT).stdout;
    let split = folder.write("split", &split);
    let note = "g has a proper factor: words are read with the key; publish, open, session and report are refused 34\n";
    let said = format!("shearcotter: {split}: {note}");
    assert_eq!(outcome(&["check", &split], &[]), (0, "accepted 4,9,2 reading-only network\n".to_owned(), said));
}

/// Every command that takes a key answers for a network file as for the key file.
#[test]
fn every_command_takes_both_forms() {
    let (folder, [key, network]) = with_both();
    let (secret, capsules) = (folder.write("secret", &[0x15]), folder.write("capsules", &[0x03, 0x00, 0x13]));
    let words = folder.write("words", &[0x13, 0x24, 0x06]);
    for given in [
        vec!["publish", "KEY", "-"],
        vec!["open", "--quiet", "KEY", &capsules],
        vec!["open", "--quiet", "--second", "KEY", &key, &capsules],
        vec!["open", "--quiet", "--second", &network, "KEY", &capsules],
        vec!["session", "KEY", &secret, &capsules],
        vec!["report", "KEY", &capsules],
        vec!["report", "--second", "KEY", "KEY", &capsules],
        vec!["read", "KEY", &words],
    ] {
        let with = |key: &String| -> Vec<String> {
            given.iter().map(|word| if *word == "KEY" { key.clone() } else { (*word).to_owned() }).collect()
        };
        let [of_key, of_network] = [&key, &network].map(|key| {
            let words = with(key);
            let output = run(&words.iter().map(String::as_str).collect::<Vec<_>>(), &[]);
            (status(&output), output.stdout, output.stderr)
        });
        assert!(of_key.0 < 2 && !of_key.1.is_empty(), "{given:?}: {}", text(&of_key.2));
        assert_eq!(of_key, of_network, "{given:?}");
    }
    let lines = "1 open 4\n2 refused 13\n3 refused 9\n";
    some_refused(&["open", "--quiet", "-", &capsules], &K1_NETWORK, lines, "");
}

/// Numbers behind the load are those of the key file.
#[test]
fn keys_that_are_refused_later() {
    let (folder, _) = with_both();
    for (file, number) in [(&K3[..], 23), (&SPLIT, 34)] {
        let network = folder.write("refused.network", &run(&["convert", "-", "-"], file).stdout);
        for command in ["open", "report"] {
            fails(&[command, &network], 3, &format!("refused.network: refused {number}: "));
        }
    }
}

/// At a standard shape: a partner's file opens its capsules.
#[test]
fn a_partner_s_file_opens() {
    let folder = Folder::new();
    let partner = folder.write("partner", &standard("key_network_standard.bin"));
    let output = run(&["open", "--format", "raw", "--quiet", &partner], &standard("capsule.bin"));
    assert_eq!((status(&output), output.stdout), (0, standard("pattern.bin")));
    let public = folder.at("public");
    accepted(&["publish", &partner, &public], &[], "");
    assert!(read(&public) == standard("public.bin"));
}
