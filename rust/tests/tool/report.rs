//! The command `report`: the table, the total and the records, for files of many blocks, tails and pipes.

use std::fs::OpenOptions;
use std::io::{Read, Write};
use std::os::fd::OwnedFd;
use std::os::unix::fs::symlink;
use std::os::unix::net::UnixStream;
use std::process::{Output, Stdio};
use std::time::Duration;
use std::{fs, thread};

use super::streams::{most_memory, start};
use super::{accepted, fails, outcome, some_refused, standard, with_k1};
use crate::support::run::{ended, run, status, text, tool, Folder};

const TABLE: &str = "0   opened                      1\n9   filler bit set              1\n\
                     13  no pattern for the capsule  1\ntotal 3 opened 1 refused 2\n";

#[test]
fn a_line_for_each_number_and_the_total() {
    let (folder, key) = with_k1();
    let capsules = [0x03, 0x00, 0x13];
    some_refused(&["report", &key], &capsules, TABLE, "");
    some_refused(&["report", &key, "-", "--quiet"], &capsules, TABLE, "");
    let file = folder.write("capsules", &capsules);
    some_refused(&["report", &key, &file], &[], TABLE, "");
    accepted(&["report", &key], &[0x03; 12], "0  opened  12\ntotal 12 opened 12 refused 0\n");
    accepted(&["report", &key], &[], "total 0 opened 0 refused 0\n");
    let both = "0   opened                        9\n13  no pattern for the capsule  100\n\
                total 109 opened 9 refused 100\n";
    some_refused(&["report", &key], &[[0x03; 9].to_vec(), vec![0x00; 100]].concat(), both, "");
}

#[test]
fn records_are_written_whether_or_not_capsules_are_refused() {
    let (folder, key) = with_k1();
    let capsules = folder.write("capsules", &[0x03, 0x00, 0x13]);
    let records = folder.write("records", b"old and longer than the new ones");
    some_refused(&["report", &key, &capsules, "--records", &records], &[], TABLE, "");
    assert_eq!(fs::read(&records).expect("the records"), [0, 13, 9]);
    some_refused(
        &["report", &format!("--records={records}"), &key],
        &[0x13],
        "9  filler bit set  1\ntotal 1 opened 0 refused 1\n",
        "",
    );
    assert_eq!(fs::read(&records).expect("the records"), [9]);
    accepted(&["report", "--records", &records, &key], &[], "total 0 opened 0 refused 0\n");
    assert_eq!(fs::read(&records).expect("the records"), []);
    assert_eq!(folder.names(), ["capsules", "key.bin", "records"]);
}

#[test]
fn records_on_standard_output_stand_there_alone() {
    let (folder, key) = with_k1();
    let capsules = folder.write("capsules", &[0x03, 0x00, 0x13]);
    let output = run(&["report", "--records", "-", &key, &capsules], &[]);
    assert_eq!((status(&output), &output.stdout[..]), (1, &[0, 13, 9][..]));
    let numbers = "  1 by 9: filler bit set\n  1 by 13: no pattern for the capsule\n";
    assert_eq!(text(&output.stderr), format!("shearcotter: {capsules}: total 3 opened 1 refused 2\n{numbers}"));
    let output = run(&["report", "--records", "-", "--quiet", &key], &[0x03, 0x03]);
    assert_eq!((status(&output), &output.stdout[..], text(&output.stderr)), (0, &[0, 0][..], ""));
}

/// A run with standard output where it is said, and nothing on standard input.
fn run_to(out: impl Into<Stdio>, words: &[&str]) -> Output {
    tool().args(words).stdin(Stdio::null()).stdout(out).output().expect("the tool ends")
}

#[test]
fn records_do_not_go_where_the_table_does() {
    let (folder, key) = with_k1();
    let (out, linked, link) = (folder.write("out", b"kept"), folder.at("linked"), folder.at("link"));
    fs::hard_link(&out, &linked).expect("a second name");
    symlink("out", &link).expect("a link");
    let appended = |words: &[&str]| {
        let output = run_to(OpenOptions::new().append(true).open(&out).expect("the file"), words);
        (status(&output), text(&output.stderr).to_owned())
    };
    for records in [&out, &linked, &link, "/proc/self/fd/1"] {
        let said = format!("shearcotter: {records} is standard output too; see shearcotter help report\n");
        assert_eq!(appended(&["report", &key, "--records", records]), (2, said.clone()));
        assert_eq!(appended(&["report", "--quiet", "--records=-", &key, "--records", records]), (2, said));
    }
    assert_eq!(fs::read(&out).expect("the file"), b"kept");
    let done = (0, String::new());
    assert_eq!(appended(&["report", &key, "--records", &out, "--records", &folder.at("records")]), done);
    assert_eq!(fs::read(&out).expect("the table"), b"kepttotal 0 opened 0 refused 0\n");
    assert_eq!(appended(&["report", "--quiet", &key, "--records", "-"]), done);
    // Nothing is printed beside a public key.
    assert_eq!(appended(&["publish", &key, &out]), done);
    assert_eq!(fs::read(&out).expect("the public key"), [3, 1, 2, 0]);
    assert_eq!(folder.names(), ["key.bin", "link", "linked", "out", "records"]);
}

#[test]
fn a_failure_leaves_the_records() {
    let (folder, key) = with_k1();
    let records = folder.write("records", b"kept");
    let bad = folder.write("bad.key", &[5]);
    fails(&["report", &bad, "--records", &records], 3, "bad.key: refused 1");
    fails(&["report", &key, &folder.at("none"), "--records", &records], 2, "none: ");
    // A folder opens, and cannot be read.
    let itself = folder.path().to_str().expect("a plain path");
    fails(&["report", &key, itself, "--records", &records], 2, "directory");
    fails(&["report", &key, itself, "--records", &folder.at("new")], 2, "directory");
    fails(&["report", &key, "--records", &key], 2, "key.bin is an input too");
    fails(&["report", &key, "--records", itself], 2, "not a regular file");
    fails(&["report", &key, "--records", "/dev/null"], 2, "not a regular file");
    assert_eq!(fs::read(&records).expect("the records"), b"kept");
    assert_eq!(folder.names(), ["bad.key", "key.bin", "records"]);
}

#[test]
fn a_table_that_cannot_be_printed_leaves_the_records() {
    let (folder, key) = with_k1();
    let (capsules, old) = (folder.write("capsules", &[0x03]), folder.write("records", b"kept"));
    for records in [&old, &folder.at("new")] {
        let words = ["report", &key, &capsules, "--records", records];
        let full = run_to(OpenOptions::new().write(true).open("/dev/full").expect("the device"), &words);
        assert_eq!(status(&full), 2);
        assert!(text(&full.stderr).starts_with("shearcotter: standard output: "), "{}", text(&full.stderr));
        let (far, _) = UnixStream::pair().expect("two sockets, one of which is closed");
        let closed = run_to(OwnedFd::from(far), &words);
        assert_eq!((status(&closed), text(&closed.stderr)), (2, ""));
    }
    assert_eq!(fs::read(&old).expect("the records"), b"kept");
    assert_eq!(folder.names(), ["capsules", "key.bin", "records"]);
}

#[test]
fn a_long_card_with_a_tail_at_a_standard_shape() {
    let folder = Folder::new();
    let (key, records) = (folder.write("key", &standard("key.bin")), folder.at("records"));
    let card = [standard("capsule.bin"), standard("capsule_reject.bin"), standard("capsule.bin")].concat().repeat(200);
    let tail = [&card[..], &card[..95]].concat();
    let file = folder.write("card", &tail);
    let numbers: Vec<u8> = [[0, 13, 0].repeat(200), vec![8]].concat();
    let table = "0   opened                        400\n8   capsule of wrong byte length    1\n\
                 13  no pattern for the capsule    200\ntotal 601 opened 400 refused 201\n";
    for jobs in ["1", "2", "5"] {
        some_refused(&["report", "--jobs", jobs, &key, &file, "--records", &records], &[], table, "");
        assert!(fs::read(&records).expect("the records") == numbers, "{jobs} jobs");
        some_refused(&["report", "--jobs", jobs, &key, "--records", &records], &tail, table, "");
        assert!(fs::read(&records).expect("the records") == numbers, "{jobs} jobs from a pipe");
    }
}

/// More than a block takes at once, at a key of one byte a capsule.
#[test]
fn a_card_of_many_blocks() {
    let (folder, key) = with_k1();
    let (card, numbers): (Vec<u8>, Vec<u8>) =
        (0..300_000).map(|i| [(0x03, 0), (0x00, 13), (0x13, 9)][i % 11 % 3]).unzip();
    let (file, records) = (folder.write("card", &card), folder.at("records"));
    let (status, out, error) = outcome(&["report", &key, &file, "--records", &records], &[]);
    assert_eq!((status, error.as_str()), (1, ""));
    assert!(fs::read(&records).expect("the records") == numbers);
    let opened = numbers.iter().filter(|number| **number == 0).count();
    let total = format!("total 300000 opened {opened} refused {}", 300_000 - opened);
    assert_eq!(out.lines().last(), Some(total.as_str()));
}

/// The lines of `open` and the records of `report` say the same.
#[test]
fn records_are_the_numbers_of_open() {
    let (folder, key) = with_k1();
    let (capsules, records) = (folder.write("capsules", &(0..=255).collect::<Vec<u8>>()), folder.at("records"));
    let (_, lines, error) = outcome(&["open", &key, &capsules], &[]);
    let number = |line: &str| line.rsplit_once(" refused ").map_or(0, |(_, number)| number.parse().expect("a number"));
    let (_, table, _) = outcome(&["report", &key, &capsules, "--records", &records], &[]);
    assert_eq!(fs::read(&records).expect("the records"), lines.lines().map(number).collect::<Vec<u8>>());
    let total = table.lines().last().expect("a total");
    assert_eq!(error.lines().next(), Some(format!("shearcotter: {capsules}: {total}").as_str()));
}

#[test]
fn an_endless_card_takes_bounded_memory() {
    let (_folder, key) = with_k1();
    let mut child = start(&["report", "--jobs", "4", &key, "/dev/zero", "--records", "-"]);
    let mut records = child.stdout.take().expect("its standard output");
    let mut some = vec![0; 2_000_000];
    records.read_exact(&mut some).expect("records");
    assert!(some.iter().all(|record| *record == 13));
    // Time to read on, while nobody takes the records.
    thread::sleep(Duration::from_millis(500));
    assert!(most_memory(&child) < 32 * 1024, "{} KiB", most_memory(&child));
    drop(records);
    assert_eq!(ended(&mut child), 2);
}

#[test]
fn a_pipe_in_pieces() {
    let folder = Folder::new();
    let key = folder.write("key", &standard("key.bin"));
    let mut child = start(&["report", &key, "--records", "-"]);
    let mut input = child.stdin.take().expect("its standard input");
    let capsule = standard("capsule_reject.bin");
    for end in [1, 50, 95] {
        input.write_all(&capsule[..end]).expect("a piece");
        input.write_all(&capsule[end..]).expect("the rest");
    }
    input.write_all(&capsule[..1]).expect("a tail");
    drop(input);
    assert_eq!(ended(&mut child), 1);
    assert_eq!(child.wait_with_output().expect("the tool ends").stdout, [13, 13, 13, 8]);
}
