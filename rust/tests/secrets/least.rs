//! Every call of the crate in a thread with little more stack than a call makes sure of. An overflow aborts, so that a child makes
//! them: this test program again, started for the test `entry` alone.

use std::env;
use std::process::Command;
use std::thread::Builder;

use shearcotter::{
    field, from_network, lock, lock_into, raw, register, shake256, to_network, Name, Recipient, Refusal, Shape,
    Station, Workspace,
};

use crate::secrets::stack;
use crate::support::vectors;

const VARIABLE: &str = "SHEARCOTTER_LEAST";
const DONE: &str = "every call was made";
const SHAPE: Shape = Shape::MCELIECE8192128;
/// What the thread and the functions here take themselves.
const OWN: usize = 16 * 1024;

fn file(name: &str) -> Vec<u8> {
    vectors::file(&format!("mceliece8192128/count0/{name}"))
}

#[test]
fn a_thread_with_the_least_stack() {
    let mut command = Command::new(env::current_exe().expect("this program"));
    command.args(["--exact", "secrets::least::entry", "--nocapture"]).env(VARIABLE, "1");
    let output = command.output().expect("the child ends");
    let said = String::from_utf8_lossy(&output.stdout);
    assert!(output.status.success() && said.contains(DONE), "{output:?}");
}

/// The child's part; in an ordinary run of the tests it does nothing.
#[test]
fn entry() {
    if env::var_os(VARIABLE).is_some() {
        let thread = Builder::new().stack_size(raw::STACK + OWN).spawn(every_call).expect("a thread");
        thread.join().expect("no call fails");
        println!("{DONE}");
    }
}

fn every_call() {
    let mut station = Station::fresh();
    for name in Name::BOTH {
        own_buffers(station.recipient_mut(name));
        lent_buffers(&mut station, name);
    }
    for name in Name::BOTH {
        station.drop_key(name).expect("there is a key");
        assert_eq!((station.shape(name), station.is_published(name)), (None, false));
    }
    for name in Name::BOTH {
        station.load_network(name, &file("key_network.bin")).expect("load accepts");
    }
    drop(Station::default());
    without_station();
}

/// The calls that hand their answer back, with the largest key, which stays published.
fn own_buffers(mut office: Recipient<&mut Station>) {
    let (capsule, pattern, secret) = (file("capsule.bin"), file("pattern.bin"), file("secret.bin"));
    office.load(&file("key.bin")).expect("load accepts");
    assert_eq!(office.is_exchange_key(), Ok(true));
    let public = office.publish().expect("publish accepts");
    assert!(office.publish_with(Workspace::Small).as_ref() == Ok(&public));
    assert_eq!(lock(SHAPE, &public, &pattern).as_ref(), Ok(&capsule));
    let mut row = vec![0; capsule.len()];
    lock_into(13, 8192, 128, &public, &pattern, &mut row).expect("it locks");
    assert_eq!(office.open(&row).expect("it opens").bytes(), pattern);
    assert_eq!(office.report(&capsule.repeat(3)).expect("a report").records(), [0; 3]);
    // Of all capsules and words the dense ones take the most stack.
    let (dense, far) = (vec![0xFF; capsule.len()], vec![0x55; pattern.len()]);
    assert_eq!(office.open(&dense).err(), Some(Refusal::NoPattern));
    assert_eq!(office.report(&dense.repeat(3)).expect("a report").records(), [13; 3]);
    assert_eq!(office.read(&far).err(), Some(Refusal::NoCodeWord));
    assert_eq!(office.read_marked(&far, &pattern).err(), Some(Refusal::NoCodeWord));
    let (code_word, marks) = stack::code_word(&public);
    assert_eq!(office.read_marked(&code_word, &marks).expect("it reads").unmarked(), 0);
    assert_eq!(office.read(&pattern).expect("it reads").ones(), 128);
    for (marks, unmarked) in [(&vec![0; pattern.len()], 128), (&pattern, 0)] {
        assert_eq!(office.read_marked(&pattern, marks).expect("it reads").unmarked(), unmarked);
    }
    for capsule in [capsule, file("capsule_reject.bin"), dense] {
        office.session(&capsule, &secret).expect("a session key");
    }
}

/// The calls that are lent their buffers, on a published key.
fn lent_buffers(station: &mut Station, name: Name) {
    let (capsule, pattern) = (file("capsule.bin"), file("pattern.bin"));
    let (mut public, mut work) = (vec![0; SHAPE.public_length()], vec![0; SHAPE.workspace_length()]);
    station.publish_into(name, &mut public, &mut work).expect("publish accepts");
    let small = &mut work[..SHAPE.small_workspace_length()];
    station.publish_into_with(name, Workspace::Small, &mut public, small).expect("publish accepts");
    let mut out = vec![0; pattern.len()];
    assert_eq!(station.open_into(name, &capsule, &mut out), Ok(128));
    assert_eq!(station.read_into(name, &pattern, &mut out), Ok(128));
    assert_eq!(station.read_marked_into(name, &pattern, &pattern, &mut out), Ok(0));
    let far = vec![0x55; pattern.len()];
    assert_eq!(station.open_into(name, &vec![0xFF; capsule.len()], &mut out), Err(Refusal::NoPattern));
    assert_eq!(station.read_into(name, &far, &mut out), Err(Refusal::NoCodeWord));
    assert_eq!(station.read_marked_into(name, &far, &pattern, &mut out), Err(Refusal::NoCodeWord));
    assert_eq!(station.report_into(name, &capsule, &mut out).expect("a report").opened(), 1);
    assert_eq!(station.load(name, &[]), Err(Refusal::KeyHeld));
}

fn without_station() {
    assert_eq!((field::add(13, 1, 1), field::multiply(13, 1, 1), field::invert(13, 1)), (Ok(0), Ok(1), Ok(1)));
    assert_eq!(register(13, &[1; raw::LONGEST]).expect("a register").length(), 1);
    assert_eq!(Shape::new(13, 8192, 128), Ok(SHAPE));
    shake256(&[1; 200], &mut [0; 300]);
    let network = to_network(&file("key.bin")).expect("a key");
    assert!(network == file("key_network.bin") && from_network(&network).as_ref() == Ok(&file("key.bin")));
}
