//! `open` and `report` with a second key: names in every format, counts by name, keys that do not go together.

use std::fs;

use super::{accepted, all_accepted, fails, fails_on, outcome, some_refused, standard, with_k1};
use crate::bench_keys::{file, K1, K3, SPLIT};
use crate::independent::held::Held;
use crate::independent::matrix;
use crate::independent::random::Random;
use crate::independent::recipients::{Answer, Call, Ledger, Named};
use crate::support::run::{run, status, text, Folder};

/// A key of K1's shape: the capsule 06 has a pattern under it, and none under K1.
fn other() -> Vec<u8> {
    file(4, &[1, 9, 13, 15, 7, 11], &[0])
}

/// K1, the other key, and one with capsules as long and other patterns.
fn with_keys() -> (Folder, [String; 3]) {
    let (folder, k1) = with_k1();
    let (second, longer) = (folder.write("second", &other()), folder.write("longer", &file(4, &LONGER, &[0])));
    (folder, [k1, second, longer])
}

/// A support of nine elements whose first four have the inverses 1, 2, 4 and 8.
const LONGER: [u16; 9] = [1, 9, 13, 15, 14, 11, 7, 6, 3];

/// What the second implementation says of capsules of one byte: under A, and where that is 13 and B opens it, under B.
fn opened(keys: [&[u8]; 2], capsule: u8) -> (u8, Answer) {
    let mut ledger = Ledger::blank();
    for (name, key) in (1..).zip(keys) {
        let (out, work) = (vec![0; 64], vec![0; 64]);
        for call in [Call::Load { file: key.to_vec() }, Call::Publish { out, work }] {
            assert_eq!(ledger.call(&Named { name, call }).number, 0);
        }
    }
    let mut open = |name| {
        let call = Call::Open { capsule: vec![capsule], out: vec![0; 2] };
        (name, ledger.call(&Named { name, call }))
    };
    let first = open(1);
    if first.1.number == 13 {
        return Some(open(2)).filter(|second| second.1.number == 0).unwrap_or(first);
    }
    first
}

/// What is expected of a card of K1's and the other key: lines of places, patterns, records, and how many each name opened.
#[derive(Default)]
struct Expected {
    lines: String,
    patterns: Vec<u8>,
    records: Vec<u8>,
    names: [usize; 2],
}

fn expected(card: &[u8]) -> Expected {
    let mut all = Expected::default();
    for (position, capsule) in (1..).zip(card) {
        let (name, answer) = opened([&K1, &other()], *capsule);
        all.records.push(answer.number);
        if answer.number > 0 {
            all.lines += &format!("{position} refused {}\n", answer.number);
            continue;
        }
        let place = usize::from(name) - 1;
        all.names[place] += 1;
        all.lines += &format!("{position} open {} {}\n", ["A", "B"][place], answer.out[0].trailing_zeros());
        all.patterns.push(answer.out[0]);
    }
    all
}

/// Every capsule of a byte beside the second implementation.
#[test]
fn every_capsule_of_a_byte() {
    let (folder, [k1, second, _]) = with_keys();
    let capsules: Vec<u8> = (0..=255).collect();
    let (card, out) = (folder.write("capsules", &capsules), folder.at("records"));
    let Expected { lines, patterns, records, names: [a, b] } = expected(&capsules);
    assert!(a > 0 && b > 0, "{a} {b}");
    let total = format!("total 256 opened {} refused {}", a + b, 256 - a - b);
    let numbers = format!("  240 by 9: filler bit set\n  {} by 13: no pattern for the capsule", 16 - a - b);
    let summary = format!("{card}: {total}\n  {a} opened under A\n  {b} opened under B\n{numbers}");
    for jobs in ["1", "3"] {
        some_refused(&["open", "--jobs", jobs, "--second", &second, &k1, &card], &[], &lines, &summary);
    }
    let raw = run(&["open", "--quiet", "--format", "raw", &format!("--second={second}"), &k1, &card], &[]);
    assert_eq!(raw.stdout, patterns);
    let (status, table, error) = outcome(&["report", &k1, &card, "--second", &second, "--records", &out], &[]);
    assert_eq!((status, error.as_str(), fs::read(&out).expect("the records")), (1, "", records));
    let rows = format!("0   opened under A                {a}\n0   opened under B                {b}\n");
    assert!(table.starts_with(&rows) && table.ends_with(&format!("{total}\n")), "{table}");
}

const CAPSULES: [u8; 4] = [0x03, 0x06, 0x00, 0x13];

#[test]
fn the_name_stands_in_every_format() {
    let (_folder, [k1, second, longer]) = with_keys();
    let open = |format: &str, second: &str, expected: &str| {
        let words = ["open", "--quiet", "--format", format, &k1, "--second", second];
        some_refused(&words, &CAPSULES, expected, "");
    };
    open("places", &second, "1 open A 4\n2 open B 4\n3 refused 13\n4 refused 9\n");
    open("hex", &second, "1 open A 10\n2 open B 10\n3 refused 13\n4 refused 9\n");
    open("hex", &longer, "1 open A 10\n2 open B 4000\n3 refused 13\n4 refused 9\n");
    let accepted = "\"number\":0,\"words\":\"accepted\"";
    open(
        "json",
        &second,
        &format!(
            "{{\"position\":1,\"answer\":\"open\",{accepted},\"recipient\":\"A\",\"ones\":1,\"places\":[4]}}\n\
             {{\"position\":2,\"answer\":\"open\",{accepted},\"recipient\":\"B\",\"ones\":1,\"places\":[4]}}\n\
             {{\"position\":3,\"answer\":\"refused\",\"number\":13,\"words\":\"no pattern for the capsule\"}}\n\
             {{\"position\":4,\"answer\":\"refused\",\"number\":9,\"words\":\"filler bit set\"}}\n"
        ),
    );
}

/// Raw has patterns of one length only, and says no names.
#[test]
fn raw_takes_keys_of_one_n() {
    let (_folder, [k1, second, longer]) = with_keys();
    let words = ["open", "--quiet", "--format", "raw", &k1, "--second"];
    let output = run(&[&words[..], &[&second]].concat(), &[0x03, 0x06]);
    assert_eq!((status(&output), &output.stdout[..], text(&output.stderr)), (0, &[0x10, 0x10][..], ""));
    let says = "raw is for patterns of one length, and these have 6 and 9 bits; see shearcotter help open";
    fails_on(&[&words[..], &[&longer]].concat(), &[0x03], 2, says);
}

#[test]
fn explained_rows_and_the_total() {
    let (_folder, [k1, second, _]) = with_keys();
    let expected = "1 open A 4\n2 open B 4\n3 refused 13: no pattern for the capsule\n\
                    4 refused 9: filler bit set: expected byte 0 up to 0f, found 13 (hexadecimal)\n";
    let total = "standard input: total 4 opened 2 refused 2\n  1 opened under A\n  1 opened under B";
    some_refused(&["open", "--explain", "--second", &second, &k1], &CAPSULES, expected, total);
    all_accepted(
        &["open", &k1, "--second", &second],
        &[0x06],
        "1 open B 4\n",
        "standard input: total 1 opened 1 refused 0\n  1 opened under B",
    );
    all_accepted(&["open", &k1, "--second", &second], &[], "", "standard input: total 0 opened 0 refused 0");
}

#[test]
fn a_report_by_names() {
    let (folder, [k1, second, longer]) = with_keys();
    let table =
        "0   opened under A              1\n0   opened under B              1\n9   filler bit set              1\n\
                 13  no pattern for the capsule  1\ntotal 4 opened 2 refused 2\n";
    let records = folder.at("records");
    for other in [&second, &longer] {
        some_refused(&["report", &k1, "--second", other, "--records", &records], &CAPSULES, table, "");
        assert_eq!(fs::read(&records).expect("the records"), [0, 0, 13, 9]);
    }
    accepted(&["report", "--second", &second, &k1], &[0x06], "0  opened under B  1\ntotal 1 opened 1 refused 0\n");
    accepted(&["report", "--second", &second, &k1], &[], "total 0 opened 0 refused 0\n");
    let output = run(&["report", "--records", "-", "--second", &second, &k1], &CAPSULES);
    assert_eq!((status(&output), &output.stdout[..]), (1, &[0, 0, 13, 9][..]));
    let said = "shearcotter: standard input: total 4 opened 2 refused 2\n  1 opened under A\n  1 opened under B\n  \
                1 by 9: filler bit set\n  1 by 13: no pattern for the capsule\n";
    assert_eq!(text(&output.stderr), said);
}

/// Many blocks on several threads, in their order, with a tail.
#[test]
fn a_long_card() {
    let (folder, [k1, second, _]) = with_keys();
    let kinds = [(0x03, 0), (0x06, 0), (0x00, 13), (0x13, 9)];
    let (card, numbers): (Vec<u8>, Vec<u8>) = (0..200_000).map(|i| kinds[i % 13 % 4]).unzip();
    let (card, records) = (folder.write("card", &card), folder.at("records"));
    let words = ["report", "--jobs", "5", "--second", &second, &k1, &card, "--records", &records];
    let (status, table, error) = outcome(&words, &[]);
    assert_eq!((status, error.as_str()), (1, ""));
    assert!(fs::read(&records).expect("the records") == numbers);
    let count = |kind: usize| (0..200_000).filter(|i| i % 13 % 4 == kind).count().to_string();
    let counts: Vec<&str> = table.lines().filter_map(|line| line.rsplit(' ').next()).collect();
    assert_eq!(counts[..4], [0, 1, 3, 2].map(count));
}

/// At a standard shape: a card of both keys' capsules, with a tail.
#[test]
fn two_keys_of_a_standard_shape() {
    let (folder, mut random) = (Folder::new(), Random::new(71));
    let held: Held = random.published(12, 3488, 64);
    let (key, second) = (folder.write("key", &standard("key.bin")), folder.write("second", &held.key.file()));
    let pattern = random.pattern(3488, 64);
    let public = held.public().expect("a public key");
    let of_second = matrix::lock(12, 3488, 64, public, &pattern);
    let card =
        [&standard("capsule.bin")[..], &of_second, &standard("capsule_reject.bin"), &of_second, &[0; 5]].concat();
    let output = run(&["open", "--format", "hex", "--quiet", &key, "--second", &second], &card);
    let hex = |bytes: &[u8]| bytes.iter().map(|byte| format!("{byte:02x}")).collect::<String>();
    let (of_a, of_b) = (hex(&standard("pattern.bin")), hex(&pattern));
    let expected = format!("1 open A {of_a}\n2 open B {of_b}\n3 refused 13\n4 open B {of_b}\n5 refused 8\n");
    assert_eq!((status(&output), text(&output.stdout)), (1, expected.as_str()));
    let output = run(&["report", "--records", "-", "--quiet", "--second", &key, &second], &card);
    assert_eq!((status(&output), &output.stdout[..]), (1, &[0, 0, 13, 0, 8][..]));
}

#[test]
fn keys_that_do_not_go_together() {
    let (folder, [k1, second, _]) = with_keys();
    let large = folder.write("large", &standard("key.bin"));
    let split = folder.write("split", &SPLIT);
    let dependent = folder.write("dependent", &K3);
    let bad = folder.write("bad", &[4, 6, 0]);
    for command in ["open", "report"] {
        let fails = |second: &str, status: i32, says: &str| fails(&[command, &k1, "--second", second], status, says);
        fails(&large, 2, &format!("{k1} has capsules of length 1, and {large} of 96; see shearcotter help {command}"));
        fails(&split, 3, &format!("{split}: refused 34: g has a proper factor"));
        fails(&dependent, 3, &format!("{dependent}: refused 23"));
        fails(&bad, 3, &format!("{bad}: refused 2"));
        fails(&folder.at("none"), 2, "none: ");
    }
    // The first key is looked at first.
    fails(&["open", &bad, "--second", &split], 3, &format!("{bad}: refused 2"));
    fails(&["open", &k1, "--second", &second, "--records", "x"], 2, "open takes no option --records");
    for command in ["check", "publish", "read", "session", "lock"] {
        fails(&[command, "--second", &second, &k1], 2, &format!("{command} takes no option --second"));
    }
}

/// Four bits and eight are a byte both: what is filler under A is refused 9 and not tried under B, what is filler under B alone is
/// not opened there.
#[test]
fn capsules_of_as_many_bytes() {
    let (folder, [k1, ..]) = with_keys();
    let eight = Random::new(72).published(4, 9, 2).key.file();
    let (longer, capsules) = (folder.write("eight", &eight), (0..=255).collect::<Vec<u8>>());
    for (keys, files) in [([&k1, &longer], [&K1[..], &eight]), ([&longer, &k1], [&eight, &K1])] {
        let records: Vec<u8> = capsules.iter().map(|capsule| opened(files, *capsule).1.number).collect();
        let by_b = capsules.iter().filter(|capsule| matches!(opened(files, **capsule), (2, Answer { number: 0, .. })));
        let by_b = by_b.count();
        assert!(by_b > 0);
        let output = run(&["report", "--records", "-", "--quiet", keys[0], "--second", keys[1]], &capsules);
        assert_eq!((status(&output), output.stdout), (1, records));
        let output = run(&["open", "--quiet", keys[0], "--second", keys[1]], &capsules);
        assert_eq!(text(&output.stdout).matches(" open B ").count(), by_b);
    }
}

/// The second key is an input like the others.
#[test]
fn the_second_key_is_an_input() {
    let (folder, [k1, second, _]) = with_keys();
    let card = folder.write("card", &[0x06]);
    accepted(&["open", "--quiet", "--second", "-", &k1, &card], &other(), "1 open B 4\n");
    accepted(&["open", "--quiet", "--second", &second, "-", &card], &K1, "1 open B 4\n");
    accepted(&["open", "--quiet", "--second", "-", "--second", &second, &k1], &[0x06], "1 open B 4\n");
    let two = "two inputs are `-`, but standard input can be read only once";
    fails(&["open", "--second", "-", &k1], 2, two);
    fails(&["open", "--second", "-", &k1, "-"], 2, two);
    fails(&["report", "--second", "-", "-", &card], 2, two);
    fails(&["report", "--second", &second, "--records", &second, &k1, &card], 2, "second is an input too");
    fails(&["open", &k1, "--second"], 2, "--second needs a value: a file");
    fails(&["open", &k1, "--second="], 2, "--second takes a file, not an empty word");
}

/// The same key twice: A opens all.
#[test]
fn the_same_key_twice() {
    let (_folder, [k1, _, _]) = with_keys();
    some_refused(
        &["open", "--quiet", "--second", &k1, &k1],
        &CAPSULES,
        "1 open A 4\n2 refused 13\n3 refused 13\n4 refused 9\n",
        "",
    );
}

/// Lines with names go back into `lock`, which passes over the names.
#[test]
fn lock_takes_the_lines() {
    let (folder, [k1, second, _]) = with_keys();
    let public = folder.at("second.pub");
    accepted(&["publish", &second, &public], &[], "");
    for format in ["places", "hex", "json"] {
        let opened = run(&["open", "--quiet", "--format", format, &k1, "--second", &second], &[0x06, 0x03]);
        let line = text(&opened.stdout).lines().next().expect("a line").to_owned();
        assert!(line.contains('B'), "{line}");
        let locked = run(&["lock", "--format", format, "4,6,1", &public, "-", "-"], line.as_bytes());
        assert_eq!((status(&locked), &locked.stdout[..]), (0, &[0x06][..]), "{line}");
    }
    let lock = |line: &str| run(&["lock", "--format", "hex", "4,6,1", &public, "-", "-"], line.as_bytes());
    assert_eq!(lock("1 open A 10\n").stdout, lock("1 open 10\n").stdout);
    assert!(text(&lock("1 open C 10\n").stderr).contains("more than one hexadecimal word"));
    assert!(text(&lock("A\n").stderr).contains("an odd number of hexadecimal digits"));
}
