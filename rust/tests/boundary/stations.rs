//! Trials of the station's calls under both names and others, with slots made by the calls and forged ones.

use std::sync::Arc;

use shearcotter::raw::{self, Reply, Slot, Station, A, B};

use super::buffers::{awkward, cut, holding, noise};
use super::pool::{capsule, marked_word, word, Pool};
use super::{Met, NONE};
use crate::independent::calls::{self as expected, Outcome};
use crate::independent::held::Held;
use crate::independent::key::Key;
use crate::independent::random::Random;
use crate::support::forms::{Form, FORMS};
use crate::support::raw_calls::{self, empty, with};

/// A station, the name that a call takes, and the slot with that name and its key. Where no slot has it, the slot is any, and the
/// call is refused with 35.
struct Case {
    station: Station,
    name: u8,
    slot: Slot,
    held: Arc<Held>,
}

/// A slot and the key in it.
type Made = (Slot, Arc<Held>);

fn forged(slot: Slot) -> Made {
    (slot, Arc::new(Held::new(raw_calls::held(&slot))))
}

/// Random numbers in the key; the first three small, mostly.
fn random_key(random: &mut Random, slot: &mut Slot) {
    for x in slot.key.support.iter_mut().chain(&mut slot.key.g) {
        *x = random.number() as u16;
    }
    slot.key.m = *random.pick(&[4, 12, 13, 0, 255]);
    slot.key.n = random.number() as u16;
    slot.key.t = random.number() as u16;
}

fn other_element(random: &mut Random, slot: &mut Slot, held: &Held) {
    let at = random.below(held.key.n + held.key.t);
    let x = if random.one_in(3) { random.number() as u16 } else { random.element(held.key.m) };
    match at.checked_sub(held.key.n) {
        None => slot.key.support[at] = x,
        Some(at) => slot.key.g[at] = x,
    }
}

fn other_number(random: &mut Random, slot: &mut Slot) {
    let key = &mut slot.key;
    let step = |x: u16, random: &mut Random| match random.below(4) {
        0 => random.number() as u16,
        1 => x.wrapping_sub(1),
        2 => 0,
        _ => x.wrapping_add(1),
    };
    match random.below(3) {
        0 => key.m = random.number() as u8,
        1 => key.n = step(key.n, random),
        _ => key.t = step(key.t, random),
    }
}

fn noise_past_the_lists(random: &mut Random, slot: &mut Slot, held: &Held) {
    let key = &mut slot.key;
    let past = key.support[held.key.n..].iter_mut().chain(&mut key.g[held.key.t..]);
    for x in past {
        *x = random.number() as u16;
    }
}

/// A slot not made by the calls.
fn forge(random: &mut Random, pool: &Pool) -> Made {
    let held = pool.small(random);
    let state = random.number() as u8;
    let mut slot = raw_calls::holding(state, &held.key);
    match random.below(8) {
        0 => random_key(random, &mut slot),
        1 | 2 => other_element(random, &mut slot, &held),
        3 | 4 => other_number(random, &mut slot),
        5 => noise_past_the_lists(random, &mut slot, &held),
        _ => return (slot, held),
    }
    forged(slot)
}

/// A slot of any kind: fresh, loaded, published, forged.
fn any_slot(random: &mut Random, pool: &Pool) -> Made {
    match random.below(12) {
        0 => forged(empty()),
        1..=4 => forge(random, pool),
        5 | 6 => with_state(1, pool.key(random)),
        _ => with_state(2, pool.key(random)),
    }
}

fn with_state(state: u8, held: Arc<Held>) -> Made {
    (raw_calls::holding(state, &held.key), held)
}

/// A recipient's name, mostly.
fn name(random: &mut Random) -> u8 {
    match random.below(16) {
        0 => random.number() as u8,
        _ => *random.pick(&[A, B]),
    }
}

/// A call that names a slot beside another one.
fn case(random: &mut Random, pool: &Pool, (slot, held): Made) -> Case {
    let (other, name) = (any_slot(random, pool).0, name(random));
    let station = if name == B { Station { a: other, b: slot } } else { Station { a: slot, b: other } };
    Case { station, name, slot, held }
}

fn any(random: &mut Random, pool: &Pool) -> Case {
    let made = any_slot(random, pool);
    case(random, pool, made)
}

impl Case {
    /// What is expected of the call: 35 before all else.
    fn expected(&self, of_slot: impl FnOnce(u8, &Held) -> Outcome) -> Outcome {
        match self.name {
            A | B => of_slot(self.slot.state, &self.held),
            _ => Outcome { number: 35, ..Outcome::default() },
        }
    }

    /// What is counted of the call.
    fn met(&self, call: &'static str, number: u8) -> Met {
        (call, if [A, B].contains(&self.name) { self.name } else { NONE }, number)
    }

    /// The reply beside what is expected; the named slot after an accepted call. The other one stays.
    fn same(&self, reply: &Reply, expected: &Outcome, accepted: Slot) {
        let said = || format!("{} state {} {:?}", self.name, self.slot.state, raw_calls::held(&self.slot));
        assert_eq!((reply.refused, reply.ones), (expected.number, expected.ones), "{}", said());
        let after = if reply.refused == 0 { with(self.station, self.name, accepted) } else { self.station };
        assert!(reply.station == after, "the station after {}: {}", reply.refused, said());
    }
}

/// A held key for rows where the slot's own has none that fits.
fn fitting(random: &mut Random, pool: &Pool, case: &Case) -> Arc<Held> {
    let fits = case.slot.state != 0 && case.held.number() == 0;
    if fits {
        Arc::clone(&case.held)
    } else {
        pool.small(random)
    }
}

/// A key file, mostly damaged.
pub fn file(random: &mut Random, held: &Held) -> Vec<u8> {
    let key: &Key = &held.key;
    match random.below(12) {
        0 => {
            let length = random.below(60);
            random.bytes(length)
        }
        1 => cut(random, key.file()),
        2 => {
            let mut file = key.file();
            let at = random.below(file.len());
            file[at] = random.number() as u8;
            file
        }
        3..=8 => {
            let number = 1 + random.below(7) as u8;
            random.damaged(key, if number == 6 && key.t == 1 { 7 } else { number })
        }
        _ => key.file(),
    }
}

/// One of the two loads: its C call, its number on a slot in a state, and the key of a file that it accepts.
pub struct Loading {
    pub name: &'static str,
    pub call: unsafe extern "C" fn(Station, u8, *const u8, usize) -> Reply,
    pub number: fn(u8, &[u8]) -> u8,
    pub key: fn(&[u8]) -> Option<Key>,
}

/// Loads a file on a slot that is mostly empty.
pub fn load_as(loading: &Loading, random: &mut Random, pool: &Pool, content: &[u8]) -> Met {
    let (mut slot, held) = any_slot(random, pool);
    if !random.one_in(8) {
        slot.state = 0;
    }
    let case = case(random, pool, (slot, held));
    let file = holding(random, content);
    let reply = unsafe { (loading.call)(case.station, case.name, file.as_ptr(), file.len()) };
    file.same();
    let number = |state| (loading.number)(state, file.content());
    let expected = case.expected(|state, _| Outcome { number: number(state), ..Outcome::default() });
    let accepted = match (loading.key)(file.content()) {
        Some(key) if expected.number == 0 => raw_calls::holding(1, &key),
        _ => case.slot,
    };
    case.same(&reply, &expected, accepted);
    case.met(loading.name, reply.refused)
}

const LOAD: Loading = Loading { name: "load", call: raw::shearcotter_load, number: expected::load, key: Key::parse };

pub fn load(random: &mut Random, pool: &Pool) -> Met {
    let held = pool.key(random);
    let content = file(random, &held);
    load_as(&LOAD, random, pool, &content)
}

/// Either form of publish, with a workspace about as long as it needs, mostly, or as the other does.
pub fn publish(random: &mut Random, pool: &Pool) -> Met {
    let case = any(random, pool);
    let key = &fitting(random, pool, &case).key;
    let form: &Form = random.pick(&FORMS);
    let lent_for = if random.one_in(8) { random.pick(&FORMS) } else { form };
    let (out, work) = (awkward(random, key.public_length()), awkward(random, (lent_for.needed)(key)));
    let (mut out, mut work) = (noise(random, out), noise(random, work));
    let (lent, length) = (work.as_mut_ptr(), work.len());
    let reply = unsafe { (form.raw)(case.station, case.name, out.as_mut_ptr(), out.len(), lent, length) };
    let expected = case.expected(|state, held| (form.expected)(state, held, out.len(), work.len()));
    case.same(&reply, &expected, Slot { state: 2, ..case.slot });
    out.written(&expected.written);
    match expected.number {
        0 | 23 => work.free((form.needed)(&case.held.key)),
        _ => work.same(),
    }
    case.met(form.name, reply.refused)
}

pub fn open(random: &mut Random, pool: &Pool) -> Met {
    let case = any(random, pool);
    let held = fitting(random, pool, &case);
    let mut row = capsule(random, &held);
    if random.one_in(4) {
        row = cut(random, row);
    }
    let capsule = holding(random, &row);
    let length = awkward(random, held.key.n.div_ceil(8));
    let mut out = noise(random, length);
    let (lent, room) = (out.as_mut_ptr(), out.len());
    let reply = unsafe { raw::shearcotter_open(case.station, case.name, capsule.as_ptr(), capsule.len(), lent, room) };
    let expected = case.expected(|state, held| expected::open(state, held, capsule.content(), length));
    case.same(&reply, &expected, case.slot);
    out.written(&expected.written);
    capsule.same();
    case.met("open", reply.refused)
}

/// Some capsules back to back, the last of any length.
fn capsules(random: &mut Random, held: &Held) -> Vec<u8> {
    let count = random.below(6);
    let mut rows: Vec<u8> = (0..count).flat_map(|_| capsule(random, held)).collect();
    if random.one_in(2) {
        let length = random.below(held.key.capsule_bits().div_ceil(8) + 1);
        rows.extend(random.bytes(length));
    }
    rows
}

pub fn report(random: &mut Random, pool: &Pool) -> Met {
    let case = any(random, pool);
    let held = fitting(random, pool, &case);
    let rows = capsules(random, &held);
    let capsules = holding(random, &rows);
    let length = awkward(random, rows.len().div_ceil(held.key.capsule_bits().div_ceil(8)));
    let mut records = noise(random, length);
    let (lent, room) = (records.as_mut_ptr(), records.len());
    let reported =
        unsafe { raw::shearcotter_report(case.station, case.name, capsules.as_ptr(), capsules.len(), lent, room) };
    let expected = case.expected(|state, held| expected::report(state, held, capsules.content(), length));
    let reply = Reply { station: reported.station, refused: reported.refused, ones: 0 };
    case.same(&reply, &expected, case.slot);
    assert_eq!(reported.counts, expected::counts(&expected.written), "{:?}", expected.written);
    records.written(&expected.written);
    capsules.same();
    case.met("report", reported.refused)
}

pub fn session(random: &mut Random, pool: &Pool) -> Met {
    let case = any(random, pool);
    let held = fitting(random, pool, &case);
    let mut row = capsule(random, &held);
    if random.one_in(4) {
        row = cut(random, row);
    }
    let lent = if random.one_in(8) { random.bytes(held.key.n.div_ceil(8)) } else { random.secret(held.key.n) };
    let (capsule, secret) = (holding(random, &row), holding(random, &lent));
    let (row, length) = (capsule.as_ptr(), capsule.len());
    let derived =
        unsafe { raw::shearcotter_session(case.station, case.name, row, length, secret.as_ptr(), secret.len()) };
    let mut key = [0; 32];
    let expected = case.expected(|state, held| {
        let (number, of_slot) = expected::session(state, held, capsule.content(), secret.content());
        key = of_slot;
        Outcome { number, ..Outcome::default() }
    });
    let reply = Reply { station: derived.station, refused: derived.refused, ones: 0 };
    case.same(&reply, &expected, case.slot);
    assert_eq!(derived.key, key, "{:02x?} {lent:02x?} {:?}", capsule.content(), case.held.key);
    capsule.same();
    secret.same();
    case.met("session", derived.refused)
}

pub fn read(random: &mut Random, pool: &Pool) -> Met {
    let case = any(random, pool);
    let held = fitting(random, pool, &case);
    let mut row = word(random, &held);
    if random.one_in(4) {
        row = cut(random, row);
    }
    let word = holding(random, &row);
    let length = awkward(random, held.key.n.div_ceil(8));
    let mut out = noise(random, length);
    let (lent, room) = (out.as_mut_ptr(), out.len());
    let reply = unsafe { raw::shearcotter_read(case.station, case.name, word.as_ptr(), word.len(), lent, room) };
    let expected = case.expected(|state, held| expected::read(state, held, word.content(), length));
    case.same(&reply, &expected, case.slot);
    out.written(&expected.written);
    word.same();
    case.met("read", reply.refused)
}

pub fn read_marked(random: &mut Random, pool: &Pool) -> Met {
    let case = any(random, pool);
    let held = fitting(random, pool, &case);
    let [mut row, mut marked] = marked_word(random, &held);
    if random.one_in(6) {
        row = cut(random, row);
    }
    if random.one_in(6) {
        marked = cut(random, marked);
    }
    let (word, marks) = (holding(random, &row), holding(random, &marked));
    let length = awkward(random, held.key.n.div_ceil(8));
    let mut out = noise(random, length);
    let (row, marked) = ((word.as_ptr(), word.len()), (marks.as_ptr(), marks.len()));
    let (lent, room) = (out.as_mut_ptr(), out.len());
    let reply =
        unsafe { raw::shearcotter_read_marked(case.station, case.name, row.0, row.1, marked.0, marked.1, lent, room) };
    let expected =
        case.expected(|state, held| expected::read_marked(state, held, word.content(), marks.content(), length));
    case.same(&reply, &expected, case.slot);
    out.written(&expected.written);
    word.same();
    marks.same();
    case.met("read_marked", reply.refused)
}

pub fn drop(random: &mut Random, pool: &Pool) -> Met {
    let case = any(random, pool);
    let reply = unsafe { raw::shearcotter_drop(case.station, case.name) };
    let expected = case.expected(|state, _| Outcome { number: expected::drop(state), ..Outcome::default() });
    case.same(&reply, &expected, empty());
    case.met("drop", reply.refused)
}
