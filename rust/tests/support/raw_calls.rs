//! The raw calls on slices, and slots and stations made by hand.

use shearcotter::raw::{self, Converted, Derived, Key, Reply, Reported, Slot, Station, A, B, MOST_ERRORS, MOST_PLACES};

use crate::independent::key;

pub fn fresh() -> Station {
    unsafe { raw::shearcotter_fresh() }
}

pub fn load(station: Station, name: u8, file: &[u8]) -> Reply {
    unsafe { raw::shearcotter_load(station, name, file.as_ptr(), file.len()) }
}

pub fn load_network(station: Station, name: u8, file: &[u8]) -> Reply {
    unsafe { raw::shearcotter_load_network(station, name, file.as_ptr(), file.len()) }
}

pub fn to_network(file: &[u8], out: &mut [u8]) -> Converted {
    unsafe { raw::shearcotter_to_network(file.as_ptr(), file.len(), out.as_mut_ptr(), out.len()) }
}

pub fn from_network(file: &[u8], out: &mut [u8]) -> Converted {
    unsafe { raw::shearcotter_from_network(file.as_ptr(), file.len(), out.as_mut_ptr(), out.len()) }
}

pub fn publish(station: Station, name: u8, out: &mut [u8], work: &mut [u8]) -> Reply {
    unsafe { raw::shearcotter_publish(station, name, out.as_mut_ptr(), out.len(), work.as_mut_ptr(), work.len()) }
}

pub fn publish_small(station: Station, name: u8, out: &mut [u8], work: &mut [u8]) -> Reply {
    unsafe { raw::shearcotter_publish_small(station, name, out.as_mut_ptr(), out.len(), work.as_mut_ptr(), work.len()) }
}

pub fn open(station: Station, name: u8, capsule: &[u8], out: &mut [u8]) -> Reply {
    unsafe { raw::shearcotter_open(station, name, capsule.as_ptr(), capsule.len(), out.as_mut_ptr(), out.len()) }
}

pub fn read(station: Station, name: u8, word: &[u8], out: &mut [u8]) -> Reply {
    unsafe { raw::shearcotter_read(station, name, word.as_ptr(), word.len(), out.as_mut_ptr(), out.len()) }
}

pub fn read_marked(station: Station, name: u8, word: &[u8], marks: &[u8], out: &mut [u8]) -> Reply {
    let (row, length, room) = (word.as_ptr(), word.len(), out.len());
    let (marks, marked) = (marks.as_ptr(), marks.len());
    unsafe { raw::shearcotter_read_marked(station, name, row, length, marks, marked, out.as_mut_ptr(), room) }
}

pub fn report(station: Station, name: u8, capsules: &[u8], records: &mut [u8]) -> Reported {
    let (rows, length) = (capsules.as_ptr(), capsules.len());
    unsafe { raw::shearcotter_report(station, name, rows, length, records.as_mut_ptr(), records.len()) }
}

pub fn session(station: Station, name: u8, capsule: &[u8], secret: &[u8]) -> Derived {
    unsafe { raw::shearcotter_session(station, name, capsule.as_ptr(), capsule.len(), secret.as_ptr(), secret.len()) }
}

pub fn drop(station: Station, name: u8) -> Reply {
    unsafe { raw::shearcotter_drop(station, name) }
}

/// A slot of a fresh station.
pub fn empty() -> Slot {
    fresh().a
}

/// The slot that holds a key, with zeros past n and t.
pub fn holding(state: u8, key: &key::Key) -> Slot {
    let mut raw = Key { m: key.m, n: key.n as u16, t: key.t as u16, support: [0; MOST_PLACES], g: [0; MOST_ERRORS] };
    raw.support[..key.n].copy_from_slice(&key.support);
    raw.g[..key.t].copy_from_slice(&key.g);
    Slot { state, key: raw }
}

/// The key in a slot, without what lies past n and t.
pub fn held(slot: &Slot) -> key::Key {
    let (n, t) = (usize::from(slot.key.n), usize::from(slot.key.t));
    key::Key {
        m: slot.key.m,
        n,
        t,
        support: slot.key.support[..n.min(MOST_PLACES)].to_vec(),
        g: slot.key.g[..t.min(MOST_ERRORS)].to_vec(),
    }
}

/// The slot that a byte names.
pub fn slot(station: &Station, name: u8) -> &Slot {
    match name {
        A => &station.a,
        B => &station.b,
        _ => panic!("{name} names no slot"),
    }
}

/// The station with another slot in the place of the named one.
pub fn with(station: Station, name: u8, slot: Slot) -> Station {
    match name {
        A => Station { a: slot, ..station },
        B => Station { b: slot, ..station },
        _ => panic!("{name} names no slot"),
    }
}

/// A slot that no call makes, for the recipient that is not named.
const STRANGER: Slot = Slot {
    state: 255,
    key: Key { m: 77, n: 65_535, t: 65_535, support: [0xABCD; MOST_PLACES], g: [0xCDEF; MOST_ERRORS] },
};

/// The slot under each name, beside another that must not count.
pub fn placed(slot: Slot) -> [(u8, Station); 2] {
    [A, B].map(|name| (name, with(Station { a: STRANGER, b: STRANGER }, name, slot)))
}
