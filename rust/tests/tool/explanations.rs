//! A refusal names the file, what was expected and what was found; a summary says what the numbers of rows mean.

use shearcotter::field;

use super::{accepted, all_accepted, fails, fails_on, some_refused, standard, with_k1};
use crate::bench_keys::{file, K1, K1_NETWORK, K3};
use crate::independent::key::Key;
use crate::independent::random::Random;

/// K1 with 9 as its first element.
const K1_BY_9: [u8; 19] = [4, 6, 0, 9, 0, 1, 0, 13, 0, 15, 0, 14, 0, 11, 0, 1, 0, 0, 0];

/// K1 with a byte changed.
fn with(at: usize, byte: u8) -> Vec<u8> {
    let mut file = K1.to_vec();
    file[at] = byte;
    file
}

fn refused(key: &[u8], says: &str) {
    let (folder, _) = with_k1();
    let key = folder.write("bad.key", key);
    for command in ["check", "open", "read"] {
        fails(&[command, &key], 3, &format!("bad.key: refused {says}\n"));
    }
}

#[test]
fn widths_and_lengths() {
    refused(&[], "1: width missing or not 4, 12, 13: expected 4, 12 or 13, found an empty file");
    refused(&with(0, 5), "1: width missing or not 4, 12, 13: expected 4, 12 or 13, found 5 in byte 0");
    let length = |key: &[u8], says: &str| refused(key, &format!("2: key file ends too early or too late: {says}"));
    let network = "or 18 for a network file with t 1";
    length(&[&K1[..], &[0]].concat(), &format!("expected 19 bytes for n 6 and t 1, {network}, found 20"));
    length(&K1[..15], &format!("expected at least 17 bytes for n 6, {network}, found 15"));
    // 9 is no t of a network file with n 6.
    length(&K1_BY_9[..18], "expected 19 bytes for n 6 and t 1, found 18");
    length(&K1[..1], "expected at least 5 bytes for n and t, found 1");
    length(&[4; 300_000], "expected 4117 bytes for n 1028 and t 1028, found more than 262145");
}

#[test]
fn shapes_and_elements() {
    let four: Vec<u16> = (1..5).collect();
    let limits = "expected t from 1 to 128, n above m*t and at most 2^m";
    let found = "found 4,4,1, where m*t is 4 and 2^m is 16";
    refused(&file(4, &four, &[0]), &format!("3: shape out of limits: {limits}, {found}"));
    let element = "4: element 2^m or more: expected elements below 16, found";
    refused(&with(8, 1), &format!("{element} 269 at place 2 of the support, byte 7"));
    refused(&with(17, 16), &format!("{element} 16 at coefficient 0 of g, byte 17"));
    let twice = "5: support element twice: expected each element once, found 1 at places 0 and 5 of the support";
    refused(&with(13, 1), twice);
    let root = "7: some g(a_i) is 0: expected g other than 0 on the support, found 0 at place 3, element 15";
    refused(&with(17, 15), root);
}

#[test]
fn a_root_of_two() {
    // g is (x - 7)(x - 100), and 7 is the support's element at place 6.
    let support: Vec<u16> = (1..31).collect();
    let (product, sum) = (field::multiply(12, 7, 100).expect("a product"), field::add(12, 7, 100).expect("a sum"));
    let root = "7: some g(a_i) is 0: expected g other than 0 on the support, found 0 at place 6, element 7";
    refused(&file(12, &support, &[product, sum]), root);
}

#[test]
fn conditions_that_need_another_key() {
    let support: Vec<u16> = (2..11).collect();
    let square = "6: a square divides g: expected g without a repeated factor, else t errors cannot be corrected";
    refused(&file(4, &support, &[1, 0]), &format!("{square}: use another key"));
    let (folder, _) = with_k1();
    let k3 = folder.write("k3.bin", &K3);
    let says = "the key opens no capsules, though it reads words: use another key\n";
    fails(&["open", &k3], 3, says);
    fails(&["publish", &k3, "-"], 3, says);
}

/// The network file of K1 with a byte changed.
fn network_with(at: usize, byte: u8) -> Vec<u8> {
    let mut file = K1_NETWORK.to_vec();
    file[at] = byte;
    file
}

#[test]
fn network_files() {
    let count = "36: bit count other than (2m-1)*2^(m-1): expected 56 for m 4 from byte 7 on, found";
    refused(&network_with(7, 57), &format!("{count} 57"));
    refused(&network_with(10, 1), &format!("{count} 16777272"));
    // A key file that is cut to the length of a network file.
    refused(&K1[..18], &format!("{count} 983053"));
    let limits = "expected t from 1 to 128, n above m*t and at most 2^m";
    let shape = |n: u8| format!("3: shape out of limits: {limits}, found 4,{n},1, where m*t is 4 and 2^m is 16");
    [4, 17, 255].into_iter().for_each(|n| refused(&network_with(1, n), &shape(n)));
    let element = "4: element 2^m or more: expected elements below 16, found 16 at coefficient 0 of g, byte 5";
    refused(&network_with(5, 16), element);
    let root = "7: some g(a_i) is 0: expected g other than 0 on the support, found 0 at place 3, element 15";
    refused(&network_with(5, 15), root);
    // Of wrong length for both forms.
    let length = "2: key file ends too early or too late: expected at least 17 bytes for n 6";
    refused(&K1_NETWORK[..16], &format!("{length}, or 18 for a network file with t 1, found 16"));
    refused(&network_with(0, 5), "1: width missing or not 4, 12, 13: expected 4, 12 or 13, found 5 in byte 0");
}

/// Large network files: the count, a square, and a place far behind.
#[test]
fn large_network_files() {
    let mut file = standard("key_network_standard.bin");
    let key = Key::parse(&standard("key.bin")).expect("a key");
    file[5..7].copy_from_slice(&[255, 255]);
    refused(&file, "4: element 2^m or more: expected elements below 4096, found 65535 at coefficient 0 of g, byte 5");
    // x^64 + c^64 for an element c of the support has all its roots there, 64 times c.
    let (place, f) = (3000, key.field());
    let power = (0..6).fold(key.support[place], |x, _| f.multiply(x, x));
    file[5..5 + 2 * 64].fill(0);
    file[5..7].copy_from_slice(&power.to_le_bytes());
    let square = "6: a square divides g: expected g without a repeated factor, else t errors cannot be corrected";
    refused(&file, &format!("{square}: use another key"));
    // x times an irreducible polynomial of degree 63, where 0 is an element of the support.
    let mut random = Random::new(710);
    let key = random.key_with_root(12, 3488, 64, place);
    let root = "7: some g(a_i) is 0: expected g other than 0 on the support, found 0 at place 3000, element";
    refused(&random.network_file(&key), &format!("{root} {}", key.support[place]));
    file[5 + 2 * 64 + 3] = 1;
    let count = "36: bit count other than (2m-1)*2^(m-1): expected 47104 for m 12 from byte 133 on, found 16824320";
    refused(&file, count);
}

/// A file with the length of both forms counts by its bit count.
#[test]
fn files_with_both_lengths() {
    // 5 + 2n + 2t of a key file at m 12 is 9 + 2·64 + 5888, where the first element is 64.
    let mut random = Random::new(711);
    let (n, t) = (2946, 64);
    let mut key = random.exchange_key(12, n, t);
    let place = key.support.iter().position(|x| *x == 64).unwrap_or(0);
    key.support.swap(0, place);
    key.support[0] = 64;
    key.support[5] = key.support[9];
    let file = key.file();
    assert_eq!(file.len(), 9 + 2 * 64 + 5888);
    let twice = "5: support element twice: expected each element once, found";
    refused(&file, &format!("{twice} {} at places 5 and 9 of the support", key.support[5]));
    // With the bit count of a network file in its place, it is one, whose g has this element.
    let mut other = file.clone();
    other[5 + 128..9 + 128].copy_from_slice(&47_104_u32.to_le_bytes());
    other[5..7].copy_from_slice(&[255, 255]);
    refused(&other, "4: element 2^m or more: expected elements below 4096, found 65535 at coefficient 0 of g, byte 5");
}

fn lock(shape: &str, public: &[u8], pattern: &[u8], status: i32, says: &str) {
    let (folder, _) = with_k1();
    let public = folder.write("public.bin", public);
    let pattern = folder.write("pattern.bin", pattern);
    fails(&["lock", shape, &public, &pattern, &folder.at("out")], status, says);
    assert_eq!(folder.names(), ["key.bin", "pattern.bin", "public.bin"]);
}

#[test]
fn public_keys() {
    let good = [3, 1, 2, 0];
    let length = "public.bin: refused 8: public key of wrong byte length: expected 4 bytes for 4,6,1, found";
    lock("4,6,1", &good[..3], &[0x10], 3, &format!("{length} 3\n"));
    lock("4,6,1", &[], &[0x10], 3, &format!("{length} 0\n"));
    lock("4,6,1", &[3, 1, 2, 0, 0, 0], &[0x10], 3, &format!("{length} more than 4\n"));
    // The public key is looked at first, whatever the pattern is.
    let filler = "public.bin: refused 9: filler bit set: row 2: expected byte 2 up to 03, found 06 (hexadecimal)\n";
    for pattern in [&[0x10][..], &[], &[0x50], &[0x00]] {
        lock("4,6,1", &[3, 1, 6, 0], pattern, 3, filler);
    }
}

#[test]
fn filler_in_a_wide_public_key() {
    // 13,6960,119: rows of 677 bytes with 5413 bits, 3 filler bits in each last byte.
    let shape = "13,6960,119";
    let mut public = vec![0; 1_047_319];
    public[3 * 677 + 676] = 0x3f;
    let says = "row 3: expected byte 2707 up to 1f, found 3f (hexadecimal)\n";
    lock(shape, &public, &[0; 870], 3, says);
}

#[test]
fn patterns() {
    let public = [3, 1, 2, 0];
    let refused = |pattern: &[u8], says: &str| lock("4,6,1", &public, pattern, 1, &format!("pattern.bin: {says}\n"));
    refused(&[], "refused 8: pattern of wrong byte length: expected 1 byte, found 0");
    refused(&[0x50], "pattern 1: refused 9: filler bit set: expected byte 0 up to 3f, found 50 (hexadecimal)");
    refused(&[0x10, 0x00], "pattern 2: refused 12: pattern to lock has not t ones: expected 1 one (t), found 0");
    refused(&[0x11], "pattern 1: refused 12: pattern to lock has not t ones: expected 1 one (t), found 2");
    let pattern = standard("pattern.bin");
    let two = [&pattern[..], &pattern[..435]].concat();
    let says = "pattern 2: refused 8: pattern of wrong byte length: expected 436 bytes, found 435\n";
    lock("1", &standard("public.bin"), &two, 1, says);
    fails_on(&["lock", "4,6,1", "-", "/dev/null", "-"], &public, 1, "shearcotter: /dev/null: refused 8: ");
}

#[test]
fn rows_explained() {
    let (folder, k1) = with_k1();
    let lines = "1 open 4\n2 refused 13: no pattern for the capsule\n\
                 3 refused 9: filler bit set: expected byte 0 up to 0f, found 13 (hexadecimal)\n";
    let total = "standard input: total 3 opened 1 refused 2";
    some_refused(&["open", "--explain", &k1], &[0x03, 0x00, 0x13], lines, total);
    let lines = "1 refused 14: no code word within t places\n\
                 2 refused 9: filler bit set: expected byte 0 up to 3f, found 53 (hexadecimal)\n";
    some_refused(&["read", "--explain", &k1], &[0x06, 0x53], lines, "standard input: total 2 read 0 refused 2");
    let key = folder.write("large.key", &standard("key.bin"));
    let says = "1 refused 8: capsule of wrong byte length: expected 96 bytes, found 95\n";
    some_refused(&["open", &key, "--explain"], &[0; 95], says, "standard input: total 1 opened 0 refused 1");
    let says = "1 refused 8: word of wrong byte length: expected 436 bytes, found 1\n";
    some_refused(&["read", &key, "--explain", "--quiet"], &[0], says, "");
    let object = r#"{"position":1,"answer":"refused","number":8,"words":"capsule of wrong byte length""#;
    let found = format!("{object},\"explained\":\"expected 96 bytes, found 95\"}}\n");
    some_refused(&["open", &key, "--explain", "--format=json", "--quiet"], &[0; 95], &found, "");
    some_refused(&["open", &key, "--quiet", "--format=json"], &[0; 95], &format!("{object}}}\n"), "");
}

#[test]
fn a_summary_says_what_the_numbers_mean() {
    let (folder, key) = with_k1();
    let (capsules, lines) = ([0x03, 0x00, 0x13, 0x00], "1 open 4\n2 refused 13\n3 refused 9\n4 refused 13\n");
    let counts = "total 4 opened 1 refused 3\n  1 by 9: filler bit set\n  2 by 13: no pattern for the capsule";
    some_refused(&["open", &key], &capsules, lines, &format!("standard input: {counts}"));
    some_refused(&["open", &key, "--quiet"], &capsules, lines, "");
    let file = folder.write("capsules", &capsules);
    some_refused(&["open", &key, &file], &[], lines, &format!("{file}: {counts}"));
    let summary = "standard input: total 2 read 1 refused 1\n  1 by 14: no code word within t places";
    some_refused(&["read", &key], &[0x13, 0x06], "1 read 0\n2 refused 14\n", summary);
    let large = folder.write("large.key", &standard("key.bin"));
    let summary = "standard input: total 1 opened 0 refused 1\n  1 by 8: capsule of wrong byte length";
    some_refused(&["open", &large], &[0], "1 refused 8\n", summary);
}

#[test]
fn a_total_where_nothing_is_refused() {
    let (folder, key) = with_k1();
    all_accepted(&["open", &key], &[0x03, 0x03], "1 open 4\n2 open 4\n", "standard input: total 2 opened 2 refused 0");
    all_accepted(&["open", &key], &[], "", "standard input: total 0 opened 0 refused 0");
    all_accepted(&["read", &key], &[0x13], "1 read 0\n", "standard input: total 1 read 1 refused 0");
    let file = folder.write("capsules", &[0x03]);
    for (format, line) in [("hex", "1 open 10\n"), ("raw", "\x10")] {
        let total = format!("{file}: total 1 opened 1 refused 0");
        all_accepted(&["open", &key, &file, "--format", format], &[], line, &total);
        all_accepted(&["open", &key, &file, "--format", format, "--explain"], &[], line, &total);
        accepted(&["open", &key, &file, "--format", format, "--quiet"], &[], line);
    }
}
