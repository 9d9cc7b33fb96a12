//! Outputs: written whole, left alone on refusal, nothing left beside them; what an old file keeps, and where links lead.

use std::fs::{self, Permissions};
use std::os::unix::fs::{chown, symlink, MetadataExt, PermissionsExt};
use std::os::unix::process::CommandExt;
use std::process::{Command, Output};

use super::{accepted, fails, with_k1};
use crate::bench_keys::{K1, K3};
use crate::support::run::{status, text, Folder};
use crate::support::vectors;

#[test]
fn check_names_the_shape() {
    let (folder, key) = with_k1();
    accepted(&["check", &key], &[], "accepted 4,6,1 exchange\n");
    let large = folder.write("large.bin", &vectors::file("mceliece348864/count0/key.bin"));
    accepted(&["check", &large], &[], "accepted 12,3488,64 mceliece348864 exchange\n");
}

#[test]
fn publish_and_lock_k1() {
    let (folder, key) = with_k1();
    let public = folder.write("public.bin", b"old and longer than the new one");
    let pattern = folder.write("-pattern.bin", &[0x10]);
    let capsule = folder.at("capsule.bin");
    accepted(&["publish", &key, &public], &[], "");
    assert_eq!(fs::read(&public).expect("the public key"), [3, 1, 2, 0]);
    accepted(&["lock", "4,6,1", "--", &public, &pattern, &capsule], &[], "");
    assert_eq!(fs::read(&capsule).expect("the capsule"), [3]);
    accepted(&["open", "--quiet", &key, &capsule], &[], "1 open 4\n");
    assert_eq!(folder.names(), ["-pattern.bin", "capsule.bin", "key.bin", "public.bin"]);
}

#[test]
fn publish_and_lock_a_standard_key() {
    let folder = Folder::new();
    let at = |part: &str| vectors::file(&format!("mceliece6960119/count0/{part}"));
    let key = folder.write("key.bin", &at("key.bin"));
    let pattern = folder.write("pattern.bin", &at("pattern.bin"));
    let (public, capsule) = (folder.at("public.bin"), folder.at("capsule.bin"));
    accepted(&["publish", &key, &public], &[], "");
    assert!(fs::read(&public).expect("the public key") == at("public.bin"));
    for shape in ["4", "mceliece6960119", "13,6960,119"] {
        accepted(&["lock", shape, &public, &pattern, &capsule], &[], "");
        assert_eq!(fs::read(&capsule).expect("the capsule"), at("capsule.bin"));
        fs::remove_file(&capsule).expect("the capsule goes");
    }
}

#[test]
fn a_refusal_leaves_the_output() {
    let (folder, key) = with_k1();
    let out = folder.write("out", b"kept");
    let k3 = folder.write("k3.bin", &K3);
    fails(&["publish", &k3, &out], 3, "refused 23");
    let public = folder.write("public.bin", &[3, 1, 2, 0]);
    let cases: [(&[u8], &[u8], i32, &str); 5] = [
        (&[3, 1, 2, 0], &[0x00], 1, "refused 12: pattern to lock has not t ones"),
        (&[3, 1, 2, 0], &[0x50], 1, "refused 9: filler bit set"),
        (&[3, 1, 6, 0], &[0x10], 3, "refused 9: filler bit set"),
        (&[3, 1, 2, 0, 0], &[0x10], 3, "refused 8: public key of wrong byte length"),
        (&[3, 1, 2, 0], &[], 1, "refused 8: pattern of wrong byte length"),
    ];
    for (lent, ones, status, says) in cases {
        fs::write(&public, lent).expect("a public key");
        let pattern = folder.write("pattern.bin", ones);
        fails(&["lock", "4,6,1", &public, &pattern, &out], status, says);
        fails(&["lock", "4,6,1", &public, &pattern, &folder.at("new")], status, says);
    }
    fails(&["publish", &key, &key], 2, "key.bin is an input too");
    assert_eq!(fs::read(&out).expect("the output"), b"kept");
    assert_eq!(fs::read(&key).expect("the key"), K1);
    assert_eq!(folder.names(), ["k3.bin", "key.bin", "out", "pattern.bin", "public.bin"]);
}

const PUBLIC: [u8; 4] = [3, 1, 2, 0];

fn set_mode(path: &str, mode: u32) {
    fs::set_permissions(path, Permissions::from_mode(mode)).expect("another mode");
}

fn mode(path: &str) -> u32 {
    fs::metadata(path).expect("the file").mode() & 0o7777
}

fn is_root(folder: &Folder) -> bool {
    fs::metadata(folder.path()).expect("the folder").uid() == 0
}

/// A shell's line, with the tool as its $0.
fn shell(line: &str, words: &[&str]) -> Output {
    let mut command = Command::new("sh");
    command.args(["-c", line, env!("CARGO_BIN_EXE_shearcotter")]).args(words);
    command.output().expect("the shell starts")
}

#[test]
fn an_old_file_keeps_its_mode() {
    let (folder, key) = with_k1();
    let out = folder.write("out", b"old");
    for kept in [0o600, 0o640, 0o604, 0o666, 0o755, 0o200] {
        for umask in ["000", "077"] {
            set_mode(&out, kept);
            let ended = shell(&format!("umask {umask}; exec \"$0\" publish \"$1\" \"$2\""), &[&key, &out]);
            assert_eq!((status(&ended), mode(&out)), (0, kept), "{kept:o} under {umask}: {}", text(&ended.stderr));
            set_mode(&out, 0o600);
            assert_eq!(fs::read(&out).expect("the public key"), PUBLIC);
            fs::write(&out, b"old").expect("an old file");
        }
    }
    assert_eq!(folder.names(), ["key.bin", "out"]);
}

#[test]
fn a_new_file_has_the_mode_that_the_umask_gives() {
    let (folder, key) = with_k1();
    let out = folder.at("out");
    for (umask, given) in [("000", 0o666), ("022", 0o644), ("027", 0o640), ("077", 0o600)] {
        let ended = shell(&format!("umask {umask}; exec \"$0\" publish \"$1\" \"$2\""), &[&key, &out]);
        assert_eq!((status(&ended), mode(&out)), (0, given), "{umask}");
        fs::remove_file(&out).expect("the file goes");
    }
}

/// Only root may give files away, so that only root sees more here than its own name.
#[test]
fn an_old_file_keeps_its_owner_and_group() {
    let (folder, key) = with_k1();
    let out = folder.write("out", b"old");
    if is_root(&folder) {
        chown(&out, Some(12_345), Some(23_456)).expect("another owner");
    }
    let owners = |path: &str| fs::metadata(path).map(|found| (found.uid(), found.gid())).expect("the file");
    let before = owners(&out);
    accepted(&["publish", &key, &out], &[], "");
    assert_eq!((owners(&out), fs::read(&out).expect("the public key")), (before, PUBLIC.to_vec()));
}

#[test]
fn a_read_only_file_is_not_replaced() {
    let (folder, key) = with_k1();
    let out = folder.write("out", b"old");
    let link = folder.at("link");
    symlink("out", &link).expect("a link");
    for read_only in [0o444, 0o400, 0o555] {
        set_mode(&out, read_only);
        fails(&["publish", &key, &out], 2, "out: read-only, so it is not replaced");
        fails(&["publish", &key, &link], 2, "link: read-only, so it is not replaced");
        assert_eq!((mode(&out), fs::read(&out).expect("the file")), (read_only, b"old".to_vec()));
    }
    assert_eq!(folder.names(), ["key.bin", "link", "out"]);
}

#[test]
fn a_file_that_this_user_may_not_write_is_not_replaced() {
    let (folder, key) = with_k1();
    let out = folder.write("out", b"old");
    let tool = folder.at("tool");
    fs::copy(env!("CARGO_BIN_EXE_shearcotter"), &tool).expect("a copy that others can run");
    set_mode(folder.path().to_str().expect("a plain path"), 0o777);
    set_mode(&key, 0o644);
    // The group may write it: not the owner, and not somebody else.
    set_mode(&out, 0o420);
    let mut command = Command::new(&tool);
    command.args(["publish", &key, &out]);
    if is_root(&folder) {
        command.uid(65_534).gid(65_534);
    }
    let ended = command.output().expect("the tool starts");
    let said = format!("shearcotter: {out}: Permission denied");
    assert!(text(&ended.stderr).starts_with(&said), "{}", text(&ended.stderr));
    assert_eq!((status(&ended), mode(&out)), (2, 0o420));
    assert_eq!(folder.names(), ["key.bin", "out", "tool"]);
    set_mode(&out, 0o600);
    assert_eq!(fs::read(&out).expect("the file"), b"old");
}

#[test]
fn a_link_keeps_pointing() {
    let (folder, key) = with_k1();
    let target = folder.write("target", b"old");
    let link = folder.at("link");
    symlink(&target, &link).expect("a link");
    accepted(&["publish", &key, &link], &[], "");
    assert!(fs::symlink_metadata(&link).expect("the link").is_symlink());
    assert_eq!(fs::read(&target).expect("the target"), PUBLIC);
}

#[test]
fn a_dangling_link_names_the_new_file() {
    let (folder, key) = with_k1();
    fs::create_dir(folder.at("there")).expect("a folder");
    let (absolute, new) = (folder.at("there/second"), folder.at("there/new"));
    // A chain: from this folder to the other, by a name from the root, and by a name in the link's own folder.
    symlink("there/first", folder.at("link")).expect("a link");
    symlink(&absolute, folder.at("there/first")).expect("a link");
    symlink("../there/new", &absolute).expect("a link");
    accepted(&["publish", &key, &folder.at("link")], &[], "");
    assert_eq!(fs::read(&new).expect("the new file"), PUBLIC);
    assert!(!fs::symlink_metadata(&new).expect("the new file").is_symlink());
    for link in ["link", "there/first", "there/second"] {
        assert!(fs::symlink_metadata(folder.at(link)).expect("a link").is_symlink(), "{link}");
    }
    assert_eq!(fs::read_dir(folder.at("there")).expect("the folder").count(), 3);
    // From the folder itself, where the link has no folder before it.
    symlink("newer", folder.at("near")).expect("a link");
    let ended =
        shell("cd \"$1\" && exec \"$0\" publish key.bin near", &[folder.path().to_str().expect("a plain path")]);
    assert_eq!((status(&ended), fs::read(folder.at("newer")).expect("the new file")), (0, PUBLIC.to_vec()));
    assert_eq!(folder.names(), ["key.bin", "link", "near", "newer", "there"]);
}

#[test]
fn links_that_lead_nowhere_fail() {
    let (folder, key) = with_k1();
    symlink("two", folder.at("one")).expect("a link");
    symlink("one", folder.at("two")).expect("a link");
    symlink("missing/out", folder.at("astray")).expect("a link");
    fails(&["publish", &key, &folder.at("one")], 2, "one: Too many levels of symbolic links");
    fails(&["publish", &key, &folder.at("astray")], 2, "astray: No such file");
    fails(&["publish", &key, &folder.at("new/")], 2, "new/: ");
    assert_eq!(folder.names(), ["astray", "key.bin", "one", "two"]);
}

#[test]
fn a_failed_write_leaves_nothing() {
    let (folder, _) = with_k1();
    let key = folder.write("large.bin", &vectors::file("mceliece348864/count0/key.bin"));
    let out = folder.write("out", b"kept");
    set_mode(&out, 0o644);
    // The shell's limit is one block, and the public key is longer.
    let line = "trap '' XFSZ; ulimit -f 1; exec \"$0\" publish \"$1\" \"$2\"";
    for name in [&out, &folder.at("new")] {
        let ended = shell(line, &[&key, name]);
        assert_eq!(status(&ended), 2, "{}", text(&ended.stderr));
        assert!(text(&ended.stderr).contains(&format!("{name}: ")), "{}", text(&ended.stderr));
    }
    assert_eq!((mode(&out), fs::read(&out).expect("the output")), (0o644, b"kept".to_vec()));
    assert_eq!(folder.names(), ["key.bin", "large.bin", "out"]);
}

#[test]
fn a_device_is_no_output() {
    let (_folder, key) = with_k1();
    fails(&["publish", &key, "/dev/null"], 2, "not a regular file");
    assert!(fs::metadata("/dev/null").is_ok_and(|found| !found.is_file()));
}
