//! The stack of a thread, filled with a mark before a call and looked at after it, at the shape that takes the most.

use std::fs::File;
use std::hint::black_box;
use std::os::unix::fs::FileExt;
use std::ptr;

use shearcotter::{
    from_network_into, lock, raw, shake256, to_network_into, wipe, Name, Refusal, Shape, Station, Workspace,
};

use crate::independent::random::Random;
use crate::support::{raw_calls, vectors};

const MARK: u8 = 0xA5;
/// What the functions here take themselves.
const OWN: usize = 4096;

fn file(name: &str) -> Vec<u8> {
    vectors::file(&format!("mceliece8192128/count0/{name}"))
}

/// The code word with ones at all places from m·t on, and marks at 2t of them: only the reading with ones there succeeds.
pub fn code_word(public: &[u8]) -> (Vec<u8>, Vec<u8>) {
    let (rows, length) = (13 * 128, 816);
    let (mut word, mut marks) = (vec![0xFF; 1024], vec![0; 1024]);
    word[..rows / 8].fill(0);
    for (r, row) in public.chunks(length).enumerate() {
        word[r / 8] |= ((row.iter().map(|byte| byte.count_ones()).sum::<u32>() % 2) as u8) << (r % 8);
    }
    marks[rows / 8..][..2 * 128 / 8].fill(0xFF);
    (word, marks)
}

#[inline(never)]
fn mark() {
    black_box(&mut [MARK; raw::STACK]);
}

/// How many bytes of the stack that a call makes sure of hold neither the mark nor 0 after it.
#[inline(never)]
fn left_by(mut call: impl FnMut()) -> usize {
    let memory = File::open("/proc/self/mem").expect("this program's memory");
    let mut stack = vec![0; raw::STACK - OWN];
    let here = ptr::from_ref(&memory) as usize;
    mark();
    call();
    memory.read_exact_at(&mut stack, (here - raw::STACK) as u64).expect("the stack");
    assert!(stack.contains(&MARK), "no mark is left");
    stack.iter().filter(|byte| ![0, MARK].contains(byte)).count()
}

#[test]
fn calls_leave_zeros_on_the_stack() {
    let (key, capsule, pattern) = (file("key.bin"), file("capsule.bin"), file("pattern.bin"));
    let mut station = Station::fresh();
    let mut public = vec![];
    assert_eq!(left_by(|| station.load(Name::A, &key).expect("load accepts")), 0, "load");
    assert_eq!(left_by(|| assert_eq!(station.is_exchange_key(Name::A), Ok(true))), 0, "is_exchange_key");
    for workspace in Workspace::BOTH {
        let publish = || public = station.publish_with(Name::A, workspace).expect("publish accepts");
        assert_eq!(left_by(publish), 0, "publish, {workspace:?}");
    }
    assert_eq!(left_by(|| drop(station.open(Name::A, &capsule).expect("it opens"))), 0, "open");
    // Of all capsules and words the dense ones take the most stack.
    let (dense, far) = (vec![0xFF; capsule.len()], vec![0x55; pattern.len()]);
    assert_eq!(
        left_by(|| assert_eq!(station.open(Name::A, &dense).err(), Some(Refusal::NoPattern))),
        0,
        "open, refused"
    );
    for card in [capsule.repeat(3), dense.repeat(3)] {
        assert_eq!(left_by(|| drop(station.report(Name::A, &card).expect("a report"))), 0, "report");
    }
    let (refused, secret) = (file("capsule_reject.bin"), file("secret.bin"));
    for capsule in [&capsule, &refused, &dense] {
        let session = || station.session(Name::A, capsule, &secret).iter_mut().for_each(|key| wipe(key));
        assert_eq!(left_by(session), 0, "session");
    }
    assert_eq!(left_by(|| drop(station.read(Name::A, &pattern).expect("it reads"))), 0, "read");
    for marks in [&vec![0; pattern.len()], &pattern] {
        let marked = || drop(station.read_marked(Name::A, &pattern, marks).expect("it reads"));
        assert_eq!(left_by(marked), 0, "read_marked");
    }
    let no_code_word = Some(Refusal::NoCodeWord);
    assert_eq!(left_by(|| assert_eq!(station.read(Name::A, &far).err(), no_code_word)), 0, "read, refused");
    let refused = || assert_eq!(station.read_marked(Name::A, &far, &pattern).err(), no_code_word);
    assert_eq!(left_by(refused), 0, "read_marked, refused");
    let (code_word, marks) = code_word(&public);
    let by_ones = || drop(station.read_marked(Name::A, &code_word, &marks).expect("it reads"));
    assert_eq!(left_by(by_ones), 0, "read_marked by ones");
    assert_eq!(left_by(|| drop(lock(Shape::MCELIECE8192128, &public, &pattern).expect("it locks"))), 0, "lock");
    assert_eq!(left_by(|| station.load(Name::B, &key).expect("load accepts")), 0, "load beside another key");
    assert_eq!(left_by(|| drop(station.publish(Name::B).expect("publish accepts"))), 0, "publish beside another key");
    assert_eq!(left_by(|| drop(station.open(Name::B, &capsule).expect("it opens"))), 0, "open beside another key");
    assert_eq!(left_by(|| station.drop_key(Name::A).expect("there is a key")), 0, "drop");
    let network = file("key_network_standard.bin");
    assert_eq!(left_by(|| station.load_network(Name::A, &network).expect("load accepts")), 0, "load_network");
    let mut other = vec![0; key.len()];
    assert_eq!(left_by(|| assert!(to_network_into(&key, &mut other).is_ok())), 0, "to_network");
    assert_eq!(left_by(|| assert!(from_network_into(&network, &mut other).is_ok())), 0, "from_network");
    let mut out = vec![0; 300];
    assert_eq!(left_by(|| shake256(&pattern, &mut out)), 0, "shake256");
}

/// The key with its support in another order, in which it has no public key.
fn dependent(mut key: Vec<u8>) -> Vec<u8> {
    loop {
        key[3..3 + 2 * 8192].rotate_left(2);
        let mut station = Station::fresh();
        station.load(Name::A, &key).expect("load accepts");
        if station.publish(Name::A).is_err() {
            return key;
        }
    }
}

#[test]
fn a_refused_publish_leaves_zeros_on_the_stack() {
    let split = Random::new(909).reading_key(13, 8192, 128).file();
    for (key, refusal) in [(dependent(file("key.bin")), Refusal::DependentColumns), (split, Refusal::ReducibleKey)] {
        let mut station = Station::fresh();
        station.load(Name::B, &key).expect("load accepts");
        for workspace in Workspace::BOTH {
            let publish = || assert_eq!(station.publish_with(Name::B, workspace), Err(refusal));
            assert_eq!(left_by(publish), 0, "{refusal:?}, {workspace:?}");
        }
    }
}

#[test]
fn raw_calls_leave_more_than_zeros() {
    let key = file("key.bin");
    let left = left_by(|| {
        black_box(raw_calls::load(raw_calls::fresh(), raw::A, &key));
    });
    assert!(left > key.len(), "{left} bytes");
}

/// Not inlined and with room of its own, so that what the call leaves lies below what the functions here take.
#[inline(never)]
fn deeper(call: impl FnOnce()) {
    let mut room = [0_u8; OWN];
    black_box(&mut room);
    call();
    black_box(&mut room);
}

/// The stack as a call has left it.
#[inline(never)]
fn stack_after(call: impl FnOnce()) -> Vec<u8> {
    let memory = File::open("/proc/self/mem").expect("this program's memory");
    let mut stack = vec![0; raw::STACK];
    let here = ptr::from_ref(&memory) as usize;
    mark();
    deeper(call);
    memory.read_exact_at(&mut stack, (here - raw::STACK) as u64).expect("the stack");
    stack
}

#[test]
fn no_copy_of_a_session_key_is_left_on_the_stack() {
    let (key, secret) = (file("key.bin"), file("secret.bin"));
    let mut station = Station::fresh();
    station.load(Name::A, &key).expect("load accepts");
    station.publish(Name::A).expect("publish accepts");
    let of_pattern = ("capsule.bin", "session.bin");
    for (capsule, expected) in [of_pattern, ("capsule_reject.bin", "session_capsule_reject.bin")] {
        let (capsule, expected) = (file(capsule), file(expected));
        let found = |stack: Vec<u8>| stack.windows(16).any(|part| expected.windows(16).any(|known| known == part));
        let wiped = stack_after(|| station.session(Name::A, &capsule, &secret).iter_mut().for_each(|key| wipe(key)));
        assert!(!found(wiped));
        let held = stack_after(|| assert!(black_box(&station.session(Name::A, &capsule, &secret)).is_ok()));
        assert!(found(held));
    }
}
