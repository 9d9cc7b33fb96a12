//! Buffers that end where a page begins that nothing may touch: a byte read or written past the end stops the test.

use std::ffi::{c_int, c_void};
use std::ptr;
use std::slice;

use shearcotter::raw::{self, A, B};

use crate::independent::drawn::{has_reading_keys, marked_word, near_code_word};
use crate::independent::held::Held;
use crate::independent::random::Random;
use crate::independent::{calls, matrix, shake};
use crate::support::forms::FORMS;
use crate::support::raw_calls::{empty, holding, placed};

const PAGE: usize = 4096;
const NO_ACCESS: c_int = 0;
const READ_WRITE: c_int = 3;
const PRIVATE_ANONYMOUS: c_int = 0x22;

extern "C" {
    fn mmap(at: *mut c_void, length: usize, access: c_int, flags: c_int, file: c_int, offset: i64) -> *mut c_void;
    fn mprotect(at: *mut c_void, length: usize, access: c_int) -> c_int;
    fn munmap(at: *mut c_void, length: usize) -> c_int;
}

/// A buffer right before a page that nothing may touch; such a page stands before its first page too.
struct Walled {
    map: *mut u8,
    pages: usize,
    length: usize,
}

impl Walled {
    fn new(content: &[u8]) -> Walled {
        let pages = 2 + content.len().div_ceil(PAGE);
        let walled = unsafe {
            let map = mmap(ptr::null_mut(), pages * PAGE, READ_WRITE, PRIVATE_ANONYMOUS, -1, 0).cast::<u8>();
            assert_ne!(map as isize, -1, "no memory");
            assert_eq!(mprotect(map.cast(), PAGE, NO_ACCESS), 0);
            assert_eq!(mprotect(map.add((pages - 1) * PAGE).cast(), PAGE, NO_ACCESS), 0);
            Walled { map, pages, length: content.len() }
        };
        unsafe { slice::from_raw_parts_mut(walled.start(), content.len()) }.copy_from_slice(content);
        walled
    }

    fn start(&self) -> *mut u8 {
        unsafe { self.map.add((self.pages - 1) * PAGE - self.length) }
    }

    fn bytes(&self) -> &[u8] {
        unsafe { slice::from_raw_parts(self.start(), self.length) }
    }
}

impl Drop for Walled {
    fn drop(&mut self) {
        unsafe { munmap(self.map.cast(), self.pages * PAGE) };
    }
}

/// An output of the given length, beside what is expected at its start.
fn written(out: &Walled, expected: &calls::Outcome) {
    let (start, rest) = out.bytes().split_at(expected.written.len());
    assert!(start == expected.written && rest.iter().all(|byte| *byte == 0));
}

fn load_and_publish(held: &Held, cut: usize) {
    let key = &held.key;
    let file = key.file();
    let file = Walled::new(&file[..file.len() - cut]);
    for (name, station) in placed(empty()) {
        let reply = unsafe { raw::shearcotter_load(station, name, file.start(), file.length) };
        assert_eq!(reply.refused, calls::load(0, file.bytes()));
    }
    for form in &FORMS {
        for (name, station) in placed(holding(1, key)) {
            let out = Walled::new(&vec![0; key.public_length() - cut]);
            let work = Walled::new(&vec![0; (form.needed)(key)]);
            let (lent, length) = (work.start(), work.length);
            let reply = unsafe { (form.raw)(station, name, out.start(), out.length, lent, length) };
            let expected = (form.expected)(1, held, out.length, work.length);
            assert_eq!(reply.refused, expected.number);
            written(&out, &expected);
        }
    }
}

/// A network file of the key, loaded and converted, and the key's file converted, with room as needed, one byte less and one more.
fn networks(random: &mut Random, held: &Held, cut: usize) {
    let (file, network) = (held.key.file(), random.network_file(&held.key));
    let [file, network] = [file, network].map(|file| Walled::new(&file[..file.len() - cut]));
    for (name, station) in placed(empty()) {
        let reply = unsafe { raw::shearcotter_load_network(station, name, network.start(), network.length) };
        assert_eq!(reply.refused, calls::load_network(0, network.bytes()));
    }
    let (to, from) = (calls::to_network(file.bytes(), usize::MAX), calls::from_network(network.bytes(), usize::MAX));
    for more in [0, 1, 2] {
        let [out, other] =
            [&to, &from].map(|whole| Walled::new(&vec![0; (whole.written.len() + more).saturating_sub(1)]));
        let converted = unsafe { raw::shearcotter_to_network(file.start(), file.length, out.start(), out.length) };
        let expected = calls::to_network(file.bytes(), out.length);
        assert_eq!((converted.refused, converted.length), (expected.number, expected.written.len()));
        written(&out, &expected);
        let converted =
            unsafe { raw::shearcotter_from_network(network.start(), network.length, other.start(), other.length) };
        let expected = calls::from_network(network.bytes(), other.length);
        assert_eq!((converted.refused, converted.length), (expected.number, expected.written.len()));
        written(&other, &expected);
    }
}

fn open_and_read(random: &mut Random, held: &Held, cut: usize) {
    let (key, [(_, station), _]) = (&held.key, placed(holding(2, &held.key)));
    let pattern = random.pattern(key.n, key.t);
    let capsule = held
        .public()
        .map_or_else(|| random.row(key.capsule_bits()), |public| matrix::lock(key.m, key.n, key.t, public, &pattern));
    let capsule = Walled::new(&capsule[cut..]);
    let out = Walled::new(&vec![0; key.n.div_ceil(8)]);
    let reply = unsafe { raw::shearcotter_open(station, A, capsule.start(), capsule.length, out.start(), out.length) };
    let expected = calls::open(2, held, capsule.bytes(), out.length);
    assert_eq!((reply.refused, reply.ones), (expected.number, expected.ones));
    written(&out, &expected);
    let word = Walled::new(&near_code_word(random, held, key.t)[cut..]);
    let out = Walled::new(&vec![0; key.n.div_ceil(8)]);
    let reply = unsafe { raw::shearcotter_read(station, A, word.start(), word.length, out.start(), out.length) };
    let expected = calls::read(2, held, word.bytes(), out.length);
    assert_eq!((reply.refused, reply.ones), (expected.number, expected.ones));
    written(&out, &expected);
}

/// Marks as long as the word or shorter, and room as needed, or one byte less or more.
fn read_marked(random: &mut Random, held: &Held, cut: usize) {
    let (key, [(_, station), _]) = (&held.key, placed(holding(1, &held.key)));
    let [word, marks, _] = marked_word(random, held, key.t - 1, 2);
    let word = Walled::new(&word[cut..]);
    for (missing, more) in [(0, 1), (1, 1), (0, 0), (0, 2)] {
        let marks = Walled::new(&marks[missing..]);
        let out = Walled::new(&vec![0; key.n.div_ceil(8) + more - 1]);
        let (row, marked) = ((word.start(), word.length), (marks.start(), marks.length));
        let reply = unsafe {
            raw::shearcotter_read_marked(station, A, row.0, row.1, marked.0, marked.1, out.start(), out.length)
        };
        let expected = calls::read_marked(1, held, word.bytes(), marks.bytes(), out.length);
        assert_eq!((reply.refused, reply.ones), (expected.number, expected.ones));
        written(&out, &expected);
    }
}

/// Three capsules or two and a tail, with room for their records, or for one less.
fn report(random: &mut Random, held: &Held, cut: usize) {
    let length = held.key.capsule_bits().div_ceil(8);
    let [_, (_, station)] = placed(holding(2, &held.key));
    let capsules = Walled::new(&random.bytes(3 * length - cut));
    let total = capsules.length.div_ceil(length);
    for room in [total, total - 1, total + 1] {
        let records = Walled::new(&vec![0; room]);
        let reported =
            unsafe { raw::shearcotter_report(station, B, capsules.start(), capsules.length, records.start(), room) };
        let expected = calls::report(2, held, capsules.bytes(), room);
        assert_eq!((reported.refused, reported.counts), (expected.number, calls::counts(&expected.written)));
        written(&records, &expected);
    }
}

/// A capsule that opens and one that does not, with a secret that fits and one that is shorter.
fn session(random: &mut Random, held: &Held, cut: usize) {
    let (key, [_, (_, station)]) = (&held.key, placed(holding(2, &held.key)));
    let public = held.public().expect("a public key");
    let locked = matrix::lock(key.m, key.n, key.t, public, &random.pattern(key.n, key.t));
    for capsule in [locked, random.row(key.capsule_bits())] {
        let capsule = Walled::new(&capsule[cut..]);
        for missing in [0, 1] {
            let secret = Walled::new(&random.row(key.n)[missing..]);
            let derived = unsafe {
                raw::shearcotter_session(station, B, capsule.start(), capsule.length, secret.start(), secret.length)
            };
            let expected = calls::session(2, held, capsule.bytes(), secret.bytes());
            assert_eq!((derived.refused, derived.key), expected);
        }
    }
}

fn lock(random: &mut Random, held: &Held, cut: usize) {
    let key = &held.key;
    let shape = (key.m, key.n as u16, key.t as u16);
    let public = Walled::new(held.public().expect("a public key"));
    let pattern = Walled::new(&random.pattern(key.n, key.t));
    let out = Walled::new(&vec![0; key.capsule_bits().div_ceil(8) - cut]);
    let number = unsafe {
        raw::shearcotter_lock(
            shape.0,
            shape.1,
            shape.2,
            public.start(),
            public.length,
            pattern.start(),
            pattern.length,
            out.start(),
            out.length,
        )
    };
    let expected = calls::lock(shape, public.bytes(), pattern.bytes(), out.length);
    assert_eq!(number, expected.number);
    written(&out, &expected);
}

#[test]
fn nothing_past_the_ends() {
    let mut random = Random::new(9);
    let mut shapes = crate::compare::small_shapes();
    shapes.extend([(12, 100, 5), (12, 3488, 64), (13, 4608, 96), (13, 6960, 119)]);
    for (m, n, t) in shapes {
        let held = random.published(m, n, t);
        for cut in [0, 1] {
            load_and_publish(&held, cut);
            networks(&mut random, &held, cut);
            open_and_read(&mut random, &held, cut);
            read_marked(&mut random, &held, cut);
            report(&mut random, &held, cut);
            session(&mut random, &held, cut);
            lock(&mut random, &held, cut);
        }
        if has_reading_keys((m, n, t)) {
            let held = Held::new(random.reading_key(m, n, t));
            for cut in [0, 1] {
                load_and_publish(&held, cut);
                open_and_read(&mut random, &held, cut);
                read_marked(&mut random, &held, cut);
                report(&mut random, &held, cut);
            }
        }
    }
}

#[test]
fn nothing_past_the_ends_of_what_is_hashed() {
    let mut random = Random::new(10);
    let beside = [0, 1, 2, 7, 8, 9, 63, 134, 135, 136, 137, 271, 272, 273, 408, 4095, 4096, 4097];
    for length in (0..300).chain(beside) {
        let input = Walled::new(&random.bytes(length));
        for room in beside {
            let out = Walled::new(&vec![0; room]);
            unsafe { raw::shearcotter_shake256(input.start(), input.length, out.start(), out.length) };
            assert!(out.bytes() == shake::shake256(input.bytes(), room), "{room} bytes of {length}");
        }
    }
}
