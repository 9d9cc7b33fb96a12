//! The safe types: texts, shapes and lengths, buffers of the caller, the station's states, names and handles.

use std::fmt::Debug;
use std::marker::PhantomData;
use std::mem::size_of;

use shearcotter::{
    field, lock_into, raw, register, shake256, wipe, Counts, Name, Pattern, Recipient, Refusal, Shape, Station,
    Workspace,
};

use crate::bench_keys::{K1, K3, SPLIT};
use crate::support::bytes;

#[test]
fn refusals_have_their_numbers_and_words() {
    let numbers: Vec<u8> = Refusal::ALL.iter().map(|refusal| refusal.number()).collect();
    let expected: Vec<u8> = (1..=14).chain(21..=25).chain(31..=37).collect();
    assert_eq!(numbers, expected);
    for number in 0..=255 {
        let refusal = Refusal::from_number(number);
        assert_eq!(refusal.map(Refusal::number), expected.contains(&number).then_some(number));
    }
    assert_eq!(Refusal::NoPattern.to_string(), "refused 13: no pattern for the capsule");
    assert_eq!(Refusal::Other(99).to_string(), "refused 99: a number that this version does not know");
    assert!(Refusal::ALL.iter().all(|refusal| refusal.condition().is_ascii()));
}

/// Whether a type has `Debug`: the constant of the type goes before that of the trait, where it applies.
struct Shown<T>(PhantomData<T>);

impl<T: Debug> Shown<T> {
    const SHOWN: bool = true;
}

trait Hidden {
    const SHOWN: bool = false;
}

impl<T> Hidden for Shown<T> {}

#[test]
fn secrets_are_not_shown() {
    let replies = [Shown::<raw::Reply>::SHOWN, Shown::<raw::Reported>::SHOWN, Shown::<raw::Derived>::SHOWN];
    let structs = [Shown::<raw::Key>::SHOWN, Shown::<raw::Slot>::SHOWN, Shown::<raw::Station>::SHOWN];
    assert_eq!((replies, structs, Shown::<raw::Element>::SHOWN), ([false; 3], [false; 3], true));
    let mut station = Station::fresh();
    station.load(Name::A, &K1).expect("load accepts");
    station.publish(Name::A).expect("publish accepts");
    let a = "Recipient { name: A, shape: Some(Shape { m: 4, n: 6, t: 1 }), published: true, .. }";
    let b = "Recipient { name: B, shape: None, published: false, .. }";
    assert_eq!(format!("{station:?}"), format!("Station {{ a: {a}, b: {b} }}"));
    assert_eq!(format!("{:?}", station.recipient(Name::B)), b);
    assert_eq!(format!("{:?}", station.recipient_mut(Name::A)), a);
    let opened: Pattern = station.open(Name::A, &[3]).expect("it opens");
    assert_eq!((format!("{opened:?}"), opened.into_bytes()), ("Pattern { ones: 1, .. }".to_owned(), vec![0x10]));
}

#[test]
fn wipe_overwrites_what_it_is_lent() {
    let mut bytes = [7; 5];
    wipe(&mut bytes[1..4]);
    assert_eq!(bytes, [7, 0, 0, 0, 7]);
    wipe(&mut []);
}

#[test]
fn positions_names_and_lengths() {
    for (position, shape) in (1..).zip(Shape::STANDARD) {
        assert_eq!(Shape::at(position), Ok(shape));
        assert_eq!(Shape::new(shape.m(), shape.n(), shape.t()), Ok(shape));
        assert_eq!(Shape::named(&shape.name().expect("a name")), Some(shape));
    }
    for position in [0, 6, 255] {
        assert_eq!(Shape::at(position), Err(Refusal::BadShape));
    }
    assert_eq!(Shape::MCELIECE6960119.name().as_deref(), Some("mceliece6960119"));
    assert_eq!(Shape::MCELIECE6960119.public_length(), 1_047_319);
    assert_eq!(Shape::MCELIECE8192128.capsule_length(), 208);
    assert_eq!(Shape::MCELIECE348864.workspace_length(), 768 * 436);
    assert_eq!(Shape::STANDARD.map(Shape::small_workspace_length), [147_456, 389_376, 692_224, 600_236, 692_224]);
    for shape in Shape::STANDARD {
        let lengths = [shape.workspace_length(), shape.small_workspace_length()];
        assert_eq!(Workspace::BOTH.map(|workspace| workspace.length(shape)), lengths);
        assert!(lengths[1] < lengths[0], "{shape}");
    }
    assert_eq!(Workspace::default(), Workspace::Full);
    assert_eq!(Shape::MCELIECE8192128.key_file_length(), 16_645);
    assert_eq!(Shape::STANDARD.map(Shape::network_file_length), [6025, 13_001, 13_065, 13_047, 13_065]);
    assert_eq!([Shape::MCELIECE348864, Shape::MCELIECE460896].map(Shape::switches), [47_104, 102_400]);
    assert_eq!(Shape::named("mceliece"), None);
    let capsules = [0, 1, 95, 96, 97, 960].map(|length| Shape::MCELIECE348864.capsules_in(length));
    assert_eq!(capsules, [0, 1, 1, 1, 2, 10]);
}

#[test]
fn shapes_out_of_limits() {
    assert_eq!(Shape::new(5, 6, 1), Err(Refusal::BadWidth));
    for (m, n, t) in [(4, 4, 1), (4, 17, 1), (4, 6, 0), (13, 8192, 129), (12, 4097, 64), (12, 0, 0)] {
        assert_eq!(Shape::new(m, n, t), Err(Refusal::BadShape), "{m},{n},{t}");
    }
    assert!(Shape::new(4, 5, 1).is_ok() && Shape::new(12, 13, 1).is_ok());
}

/// The sizes of the header's structs on x86-64, members in order with C's padding.
#[test]
fn sizes_of_the_structs() {
    assert_eq!(size_of::<raw::Key>(), 6 + 2 * 8192 + 2 * 128);
    assert_eq!(size_of::<raw::Slot>(), 2 + size_of::<raw::Key>());
    assert_eq!(size_of::<raw::Station>(), 2 * size_of::<raw::Slot>());
    assert_eq!(size_of::<raw::Reply>(), size_of::<raw::Station>() + 4);
    assert_eq!(size_of::<raw::Reported>(), size_of::<raw::Station>() + 8 + 8 * 256);
    // To the station's 2 bytes of alignment.
    assert_eq!(size_of::<raw::Derived>(), size_of::<raw::Station>() + 1 + 32 + 1);
    assert_eq!((size_of::<raw::Element>(), size_of::<raw::Shape>()), (4, 6));
    assert_eq!((size_of::<raw::Register>(), size_of::<raw::Converted>()), (536, 16));
}

#[test]
fn lent_buffers() {
    let mut station = Station::fresh();
    station.load(Name::A, &K1).expect("load accepts");
    let (mut out, mut work) = ([7; 6], [7; 6]);
    assert_eq!(station.publish_into(Name::A, &mut out[..3], &mut work), Err(Refusal::ShortOutput));
    assert_eq!(station.publish_into(Name::A, &mut out, &mut work[..3]), Err(Refusal::ShortWorkspace));
    assert_eq!((out, work), ([7; 6], [7; 6]));
    assert_eq!(station.publish_into(Name::A, &mut out, &mut work), Ok(()));
    assert_eq!((out, &work[4..]), ([3, 1, 2, 0, 7, 7], &[7; 2][..]));
    let mut dependent = Station::fresh();
    dependent.load(Name::A, &K3).expect("load accepts");
    let (mut none, mut work) = ([7; 6], [7; 6]);
    assert_eq!(dependent.publish_into(Name::A, &mut none, &mut work), Err(Refusal::DependentColumns));
    assert_eq!((none, &work[4..]), ([7; 6], &[7; 2][..]));
    assert!(!dependent.is_published(Name::A));
    let mut pattern = [7; 2];
    assert_eq!(station.open_into(Name::A, &[3], &mut pattern[..0]), Err(Refusal::ShortOutput));
    assert_eq!(station.read_into(Name::A, &[0x24], &mut pattern[..0]), Err(Refusal::ShortOutput));
    assert_eq!(station.open_into(Name::A, &[3], &mut pattern), Ok(1));
    assert_eq!(pattern, [0x10, 7]);
    assert_eq!(station.read_into(Name::A, &[0x24], &mut pattern), Ok(1));
    assert_eq!(pattern, [0x01, 7]);
    for (marks, room, refusal) in [(&[][..], 0, Refusal::BadMarks), (&[0x30], 0, Refusal::ShortOutput)] {
        assert_eq!(station.read_marked_into(Name::A, &[0x06], marks, &mut pattern[..room]), Err(refusal));
    }
    assert_eq!(station.read_marked_into(Name::A, &[0x06], &[0x00], &mut pattern), Err(Refusal::NoCodeWord));
    assert_eq!(pattern, [0x01, 7]);
    assert_eq!(station.read_marked_into(Name::A, &[0x06], &[0x30], &mut pattern), Ok(0));
    assert_eq!(pattern, [0x30, 7]);
    let mut records = [7; 4];
    assert_eq!(station.report_into(Name::A, &[3, 0, 0x13], &mut records[..2]), Err(Refusal::ShortRecords));
    assert_eq!(records, [7; 4]);
    let counts = station.report_into(Name::A, &[3, 0, 0x13], &mut records).expect("a report");
    assert_eq!((records, counts.total()), ([0, 13, 9, 7], 3));
    let mut capsule = [7; 2];
    assert_eq!(lock_into(4, 6, 1, &out[..4], &[0x10], &mut capsule[..0]), Err(Refusal::ShortOutput));
    assert_eq!(lock_into(4, 6, 1, &out[..4], &[0x10], &mut capsule), Ok(()));
    assert_eq!(capsule, [3, 7]);
    assert_eq!(lock_into(3, 6, 1, &[], &[], &mut []), Err(Refusal::BadWidth));
    assert_eq!(lock_into(4, 4, 1, &[], &[], &mut []), Err(Refusal::BadShape));
}

/// 2·m·t rows of ceil(m·t/8) bytes are 8 for K1, and the other workspace is 4.
#[test]
fn a_lent_small_workspace() {
    let small = Workspace::Small;
    let (mut station, mut out, mut work) = (Station::fresh(), [7; 6], [7; 10]);
    assert_eq!(station.publish_into_with(Name::A, small, &mut out, &mut work), Err(Refusal::NoKey));
    station.load(Name::A, &K1).expect("load accepts");
    assert_eq!(station.publish_into_with(Name::A, small, &mut out[..3], &mut work), Err(Refusal::ShortOutput));
    assert_eq!(station.publish_into_with(Name::A, small, &mut out[..3], &mut []), Err(Refusal::ShortOutput));
    for length in 0..8 {
        let lent = &mut work[..length];
        assert_eq!(station.publish_into_with(Name::A, small, &mut out, lent), Err(Refusal::ShortWorkspace));
    }
    assert_eq!((out, work, station.is_published(Name::A)), ([7; 6], [7; 10], false));
    assert_eq!(station.publish_into_with(Name::A, small, &mut out, &mut work), Ok(()));
    assert_eq!((out, &work[8..], station.is_published(Name::A)), ([3, 1, 2, 0, 7, 7], &[7; 2][..], true));
    assert_eq!(station.open(Name::A, &[3]).map(Pattern::into_bytes), Ok(vec![0x10]));
    let mut dependent = Station::fresh();
    dependent.load(Name::B, &K3).expect("load accepts");
    let (mut none, mut work) = ([7; 6], [7; 10]);
    let refused = dependent.publish_into_with(Name::B, small, &mut none, &mut work);
    assert_eq!((refused, none, &work[8..]), (Err(Refusal::DependentColumns), [7; 6], &[7; 2][..]));
    assert!(!dependent.is_published(Name::B));
}

/// Each choice of workspace answers the same.
#[test]
fn workspaces_of_its_own() {
    for workspace in Workspace::BOTH {
        let mut station = Station::fresh();
        assert_eq!(station.publish_with(Name::A, workspace), Err(Refusal::NoKey));
        station.load(Name::A, &K1).expect("load accepts");
        station.load(Name::B, &SPLIT).expect("load accepts");
        assert_eq!(station.publish_with(Name::A, workspace), Ok(vec![3, 1, 2, 0]));
        assert_eq!(station.publish_with(Name::B, workspace), Err(Refusal::ReducibleKey));
        assert_eq!(Name::BOTH.map(|name| station.is_published(name)), [true, false]);
        station.drop_key(Name::A).expect("there is a key");
        station.load(Name::A, &K3).expect("load accepts");
        assert_eq!(station.publish_with(Name::A, workspace), Err(Refusal::DependentColumns));
    }
}

#[test]
fn states() {
    let mut station = Station::default();
    assert_eq!((station.shape(Name::A), station.is_published(Name::A)), (None, false));
    assert_eq!(station.is_exchange_key(Name::A), Err(Refusal::NoKey));
    assert_eq!(station.publish(Name::A), Err(Refusal::NoKey));
    assert_eq!(station.open(Name::A, &[3]), Err(Refusal::NoKey));
    assert_eq!(station.report(Name::A, &[3]), Err(Refusal::NoKey));
    assert_eq!(station.report(Name::A, &[]), Err(Refusal::NoKey));
    assert_eq!(station.session(Name::A, &[3], &[0]), Err(Refusal::NoKey));
    assert_eq!(station.read(Name::A, &[3]), Err(Refusal::NoKey));
    assert_eq!(station.read_marked(Name::A, &[3], &[3]), Err(Refusal::NoKey));
    assert_eq!(station.drop_key(Name::A), Err(Refusal::NoKey));
    station.load(Name::A, &K1).expect("load accepts");
    assert_eq!(station.load(Name::A, &K1), Err(Refusal::KeyHeld));
    assert_eq!(station.open(Name::A, &[3]), Err(Refusal::NotPublished));
    assert_eq!(station.report(Name::A, &[3]), Err(Refusal::NotPublished));
    assert_eq!(station.session(Name::A, &[3], &[0]), Err(Refusal::NotPublished));
    assert_eq!((station.shape(Name::A), station.is_published(Name::A)), (Shape::new(4, 6, 1).ok(), false));
    station.publish(Name::A).expect("publish accepts");
    assert!(station.is_published(Name::A));
    assert_eq!(station.drop_key(Name::A), Ok(()));
    assert_eq!((station.shape(Name::A), station.is_published(Name::A)), (None, false));
    station.load(Name::A, &K1).expect("load accepts again");
}

#[test]
fn names() {
    assert_eq!(Name::BOTH, [Name::A, Name::B]);
    for (name, byte, word) in [(Name::A, raw::A, "A"), (Name::B, raw::B, "B")] {
        assert_eq!((name.byte(), name.as_str(), name.to_string().as_str()), (byte, word, word));
        assert_eq!((Name::try_from(byte), word.parse()), (Ok(name), Ok(name)));
        assert_eq!((name.other() == name, name.other().other()), (false, name));
    }
    assert_eq!(format!("[{:>3}] {:?}", Name::A, Name::B), "[  A] B");
    for byte in (0..=255).filter(|byte| ![raw::A, raw::B].contains(byte)) {
        assert_eq!(Name::try_from(byte), Err(Refusal::UnknownName));
    }
    for word in ["", "a", "b", "AB", "C", "1", " A"] {
        assert_eq!(word.parse::<Name>(), Err(Refusal::UnknownName));
    }
    assert_eq!(Refusal::UnknownName.to_string(), "refused 35: a name other than A and B");
}

/// The calls of one recipient leave the other as it is, in every state.
#[test]
fn two_recipients() {
    let mut station = Station::fresh();
    for name in Name::BOTH {
        let other = name.other();
        station.load(name, &K1).expect("load accepts");
        assert_eq!(
            (station.open(name, &[3]), station.open(other, &[3])),
            (Err(Refusal::NotPublished), Err(Refusal::NoKey))
        );
        station.load(other, &SPLIT).expect("load accepts");
        assert_eq!(station.publish(name), Ok(vec![3, 1, 2, 0]));
        assert_eq!((station.is_published(name), station.is_published(other)), (true, false));
        assert_eq!((station.is_exchange_key(name), station.is_exchange_key(other)), (Ok(true), Ok(false)));
        assert_eq!([name, other].map(|name| station.shape(name)), [Shape::new(4, 6, 1).ok(), Shape::new(4, 9, 2).ok()]);
        assert_eq!(station.open(name, &[3]).map(Pattern::into_bytes), Ok(vec![0x10]));
        assert_eq!(station.open(other, &[3]), Err(Refusal::ReducibleKey));
        assert_eq!(station.read(other, &[0x11, 0x00]).map(Pattern::into_bytes), Ok(vec![0x11, 0x00]));
        assert_eq!(station.drop_key(other), Ok(()));
        assert_eq!((station.is_published(name), station.shape(other)), (true, None));
        assert_eq!(station.drop_key(name), Ok(()));
        assert_eq!((station.drop_key(name), station.drop_key(other)), (Err(Refusal::NoKey), Err(Refusal::NoKey)));
    }
}

/// A handle answers as the station does under its name.
#[test]
fn handles() {
    let mut station = Station::fresh();
    let mut office: Recipient<&mut Station> = station.recipient_mut(Name::B);
    assert_eq!((office.name(), office.shape(), office.open(&[3])), (Name::B, None, Err(Refusal::NoKey)));
    assert_eq!(office.load(&K1), Ok(()));
    assert_eq!(office.load(&K1), Err(Refusal::KeyHeld));
    let (mut out, mut work) = ([7; 5], [7; 4]);
    assert_eq!(office.publish_into(&mut out[..3], &mut work), Err(Refusal::ShortOutput));
    assert_eq!(office.publish_into(&mut out, &mut work), Ok(()));
    assert_eq!((out, office.publish()), ([3, 1, 2, 0, 7], Ok(vec![3, 1, 2, 0])));
    let (mut out, mut work) = ([7; 5], [7; 8]);
    assert_eq!(office.publish_into_with(Workspace::Small, &mut out, &mut work[..7]), Err(Refusal::ShortWorkspace));
    assert_eq!(office.publish_into_with(Workspace::Small, &mut out, &mut work), Ok(()));
    assert_eq!((out, office.publish_with(Workspace::Small)), ([3, 1, 2, 0, 7], Ok(vec![3, 1, 2, 0])));
    assert_eq!((office.is_published(), office.is_exchange_key()), (true, Ok(true)));
    let office: Recipient<&Station> = station.recipient(Name::B);
    let copied = office;
    assert_eq!((copied.shape(), copied.name()), (station.shape(Name::B), office.name()));
    assert_eq!(office.open(&[3]), station.open(Name::B, &[3]));
    assert_eq!(office.read(&[0x24]), station.read(Name::B, &[0x24]));
    assert_eq!(office.read_marked(&[0x06], &[0x30]), station.read_marked(Name::B, &[0x06], &[0x30]));
    assert_eq!(office.report(&[3, 0]), station.report(Name::B, &[3, 0]));
    assert_eq!(office.session(&[3], &[0x15]), station.session(Name::B, &[3], &[0x15]));
    let (mut pattern, mut records) = ([7; 2], [7; 2]);
    assert_eq!((office.open_into(&[3], &mut pattern), pattern), (Ok(1), [0x10, 7]));
    assert_eq!((office.read_into(&[0x24], &mut pattern), pattern), (Ok(1), [0x01, 7]));
    assert_eq!((office.read_marked_into(&[0x06], &[0x30], &mut pattern), pattern), (Ok(0), [0x30, 7]));
    assert_eq!(office.report_into(&[3], &mut records).map(|counts| counts.opened()), Ok(1));
    assert_eq!(records, [0, 7]);
    assert_eq!(station.recipient_mut(Name::A).drop_key(), Err(Refusal::NoKey));
    assert_eq!(station.recipient_mut(Name::B).drop_key(), Ok(()));
    assert_eq!(station.recipient(Name::B).shape(), None);
}

/// g = x·(x + 1): the key is loaded and read with, and refused with 34 by all else, whatever is lent.
#[test]
fn a_key_that_only_reads() {
    let mut station = Station::fresh();
    station.load(Name::A, &SPLIT).expect("load accepts");
    assert_eq!((station.shape(Name::A), station.is_exchange_key(Name::A)), (Shape::new(4, 9, 2).ok(), Ok(false)));
    assert_eq!(station.publish(Name::A), Err(Refusal::ReducibleKey));
    for length in [0, 8, 100] {
        let (mut out, mut work) = (vec![7; length], vec![7; length]);
        assert_eq!(station.publish_into(Name::A, &mut out, &mut work), Err(Refusal::ReducibleKey));
        let small = station.publish_into_with(Name::A, Workspace::Small, &mut out, &mut work);
        assert_eq!(small, Err(Refusal::ReducibleKey));
        assert!(out.iter().chain(&work).all(|byte| *byte == 7));
    }
    assert!(!station.is_published(Name::A));
    for capsule in [&[][..], &[0x03], &[0x03, 0x00]] {
        let (mut out, mut records) = ([7; 2], [7; 2]);
        assert_eq!(station.open(Name::A, capsule), Err(Refusal::ReducibleKey));
        assert_eq!(station.open_into(Name::A, capsule, &mut out[..capsule.len()]), Err(Refusal::ReducibleKey));
        assert_eq!(station.report(Name::A, capsule), Err(Refusal::ReducibleKey));
        assert_eq!(station.report_into(Name::A, capsule, &mut records), Err(Refusal::ReducibleKey));
        assert_eq!(station.session(Name::A, capsule, &[0; 2]), Err(Refusal::ReducibleKey));
        assert_eq!(station.session(Name::A, capsule, &[]), Err(Refusal::ReducibleKey));
        assert_eq!((out, records), ([7; 2], [7; 2]));
    }
    let read = station.read(Name::A, &[0x11, 0x00]).expect("it reads");
    assert_eq!((read.bytes(), read.ones()), (&[0x11, 0x00][..], 2));
    let marked = station.read_marked(Name::A, &[0x11, 0x00], &[0x10, 0x00]).expect("it reads");
    assert_eq!((marked.differences(), marked.unmarked()), (&read, 1));
    assert_eq!(station.drop_key(Name::A), Ok(()));
    assert_eq!(station.is_exchange_key(Name::A), Err(Refusal::NoKey));
    assert_eq!(Refusal::ReducibleKey.to_string(), "refused 34: g has a proper factor");
}

/// Asking changes nothing: the same station publishes and opens afterwards, and is asked again.
#[test]
fn an_exchange_key() {
    let mut station = Station::fresh();
    station.load(Name::A, &K1).expect("load accepts");
    assert_eq!((station.is_exchange_key(Name::A), station.is_published(Name::A)), (Ok(true), false));
    assert_eq!(station.publish(Name::A), Ok(vec![3, 1, 2, 0]));
    assert_eq!((station.is_exchange_key(Name::A), station.is_published(Name::A)), (Ok(true), true));
    assert_eq!(station.open(Name::A, &[3]).map(Pattern::into_bytes), Ok(vec![0x10]));
    // Irreducible, and without a public key.
    let mut dependent = Station::fresh();
    dependent.load(Name::A, &K3).expect("load accepts");
    assert_eq!(dependent.is_exchange_key(Name::A), Ok(true));
    assert_eq!(dependent.publish(Name::A), Err(Refusal::DependentColumns));
}

#[test]
fn what_a_report_says() {
    let mut station = Station::fresh();
    station.load(Name::A, &K1).expect("load accepts");
    station.publish(Name::A).expect("publish accepts");
    let report = station.report(Name::A, &[0x03, 0x00, 0x13, 0x03]).expect("a report");
    assert_eq!(report.records(), [0, 13, 9, 0]);
    let answers = [Ok(()), Err(Refusal::NoPattern), Err(Refusal::FillerSet), Ok(())];
    assert_eq!(report.answers().collect::<Vec<_>>(), answers);
    let counts = report.counts();
    assert_eq!((counts.total(), counts.opened(), counts.refused()), (4, 2, 2));
    assert_eq!([0, 9, 13, 8, 255].map(|number| counts.of(number)), [2, 1, 1, 0, 0]);
    assert_eq!(counts.occurring().collect::<Vec<_>>(), [(0, 2), (9, 1), (13, 1)]);
    assert_eq!(counts.to_string(), "total 4 opened 2 refused 2");
    assert_eq!(report.clone().into_records(), [0, 13, 9, 0]);
    let none = station.report(Name::A, &[]).expect("a report on nothing");
    assert_eq!((none.records(), none.counts().to_string().as_str()), (&[][..], "total 0 opened 0 refused 0"));
    assert_eq!(none.counts().occurring().count(), 0);
    assert_eq!(*none.counts(), Counts::default());
}

/// Records counted in parts, or by the calls, or all at once.
#[test]
fn counts_of_records() {
    let mut station = Station::fresh();
    station.load(Name::A, &K1).expect("load accepts");
    station.publish(Name::A).expect("publish accepts");
    let capsules: Vec<u8> = (0..=u8::MAX).collect();
    let report = station.report(Name::A, &capsules).expect("a report");
    assert_eq!(report.records().iter().copied().collect::<Counts>(), *report.counts());
    for length in [1, 100, 256] {
        let mut counts = Counts::default();
        for block in capsules.chunks(length) {
            counts.extend(station.report(Name::A, block).expect("a report").into_records());
        }
        assert_eq!(counts, *report.counts(), "blocks of {length}");
    }
    let all: Counts = (0..=u8::MAX).chain([255; 2]).collect();
    assert_eq!([0, 1, 254, 255].map(|number| all.of(number)), [1, 1, 1, 3]);
    assert_eq!((all.total(), all.opened(), all.refused()), (258, 1, 257));
}

/// K1's capsule 03 is that of the pattern 10, and 00 is no pattern's. The keys were worked out by another SHAKE256.
#[test]
fn what_a_session_gives() {
    let opened = bytes("b5def76bb17404030c17a3527c93c3f26ee1aafb50930a530d6da4c05238e271");
    let other = bytes("f32b24300fe876014d9bca2339e547c8c052cc68a34354f1ccc0cb887bb4cd6d");
    let mut station = Station::fresh();
    station.load(Name::A, &K1).expect("load accepts");
    station.publish(Name::A).expect("publish accepts");
    for secret in [[0x00], [0x15], [0x3f]] {
        assert_eq!(station.session(Name::A, &[0x03], &secret).expect("a key"), opened[..]);
    }
    assert_eq!(station.session(Name::A, &[0x00], &[0x15]).expect("a key"), other[..]);
    assert_ne!(station.session(Name::A, &[0x00], &[0x14]).expect("a key"), other[..]);
    for secret in [&[][..], &[0x15, 0x00], &[0x55], &[0x95]] {
        assert_eq!(station.session(Name::A, &[0x03], secret), Err(Refusal::BadSecret));
        assert_eq!(station.session(Name::A, &[0x00], secret), Err(Refusal::BadSecret));
        assert_eq!(station.session(Name::A, &[0x13], secret), Err(Refusal::FillerSet));
        assert_eq!(station.session(Name::A, &[], secret), Err(Refusal::BadBytes));
    }
    assert_eq!(Refusal::BadSecret.to_string(), "refused 33: secret of wrong length or with filler set");
}

#[test]
fn shake256_fills_what_it_is_lent() {
    let mut out = [7; 40];
    shake256(&[0x01, 0x10, 0x03], &mut out[4..36]);
    let expected = bytes("b5def76bb17404030c17a3527c93c3f26ee1aafb50930a530d6da4c05238e271");
    assert_eq!((&out[..4], &out[4..36], &out[36..]), (&[7; 4][..], &expected[..], &[7; 4][..]));
    shake256(&[1, 2, 3], &mut out[..0]);
    assert_eq!(out[..4], [7; 4]);
    let mut longer = [0; 300];
    shake256(&[], &mut longer);
    let mut shorter = [0; 299];
    shake256(&[], &mut shorter);
    assert_eq!(longer[..299], shorter);
}

#[test]
fn field_and_register_numbers() {
    assert_eq!(field::add(4, 9, 15), Ok(6));
    assert_eq!(field::invert(13, 0), Err(Refusal::InverseOfZero));
    assert_eq!(field::add(5, 0, 0), Err(Refusal::BadWidth));
    assert_eq!(field::multiply(12, 4096, 0), Err(Refusal::BadElement));
    let found = register(4, &[0, 15]).expect("a register");
    assert_eq!((found.length(), &found.coefficients()[..4]), (2, &[1, 0, 15, 0][..]));
    assert_eq!(register(4, &[0; 257]), Err(Refusal::BadLength));
    assert_eq!(register(4, &[16]), Err(Refusal::BadElement));
    assert_eq!(register(0, &[16; 257]), Err(Refusal::BadWidth));
    assert_eq!(register(4, &[]).map(|found| found.length()), Ok(0));
}

#[test]
fn many_stations_on_many_threads() {
    let opened = |_| {
        std::thread::spawn(|| {
            let mut station = Station::fresh();
            station.load(Name::A, &K1).expect("load accepts");
            station.publish(Name::A).expect("publish accepts");
            station.open(Name::A, &[3]).expect("it opens").places().collect::<Vec<_>>()
        })
    };
    let threads: Vec<_> = (0..8).map(opened).collect();
    for thread in threads {
        assert_eq!(thread.join().expect("the thread ends"), [4]);
    }
}
