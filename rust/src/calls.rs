//! The calls on slices: with `wiping`, the only unsafe code of the crate.
//!
//! Slices give pointers that are valid and not null, and `&mut` keeps a buffer that is written apart from every other of the
//! call, while those that are only read may overlap; that the stack is long enough is made sure of before. Calls on secrets run where the stack that they used is wiped after them.

#![allow(unsafe_code)]

use std::mem::{size_of, MaybeUninit};

use crate::{raw, wiping, Counts, Name, Refusal, Workspace};

/// Bytes of stack that the functions here take beyond a C call's.
const FRAMES: usize = 4096;
/// The same with the copies of station and reply that builds without optimisation make.
const COPIES: usize = FRAMES + size_of::<raw::Station>() + size_of::<raw::Reported>();
// What each call takes lies in the stack that is made sure of.
const _: () = {
    let taken = [
        raw::STACK_FRESH,
        raw::STACK_LOAD,
        raw::STACK_LOAD_NETWORK,
        raw::STACK_PUBLISH,
        raw::STACK_PUBLISH_SMALL,
        raw::STACK_LOCK,
        raw::STACK_OPEN,
        raw::STACK_READ,
        raw::STACK_READ_MARKED,
        raw::STACK_REPORT,
        raw::STACK_SESSION,
        raw::STACK_DROP,
        raw::STACK_SHAKE,
        raw::STACK_TO_NETWORK,
        raw::STACK_FROM_NETWORK,
    ];
    let mut i = 0;
    while i < taken.len() {
        assert!(taken[i] + COPIES + FRAMES <= raw::STACK);
        i += 1;
    }
};

/// Touches `LENGTH` bytes of stack, page after page, so that a call that would not fit ends here.
#[inline(never)]
fn touch_stack<const LENGTH: usize>() {
    wiping::keep(MaybeUninit::<[u8; LENGTH]>::uninit().as_ptr().cast());
}

/// Runs a call on a secret that takes up to `LENGTH` bytes of stack, and wipes them. What it answers is no secret.
fn secretly<const LENGTH: usize, A>(call: impl FnOnce() -> A) -> A {
    touch_stack::<{ raw::STACK }>();
    unsafe { wiping::wiping_stack::<LENGTH, A>(call) }
}

fn element(answer: raw::Element) -> Result<u16, Refusal> {
    Refusal::check(answer.refused).map(|()| answer.value)
}

pub(crate) fn add(m: u8, a: u32, b: u32) -> Result<u16, Refusal> {
    element(unsafe { raw::shearcotter_add(m, a, b) })
}

pub(crate) fn multiply(m: u8, a: u32, b: u32) -> Result<u16, Refusal> {
    element(unsafe { raw::shearcotter_multiply(m, a, b) })
}

pub(crate) fn invert(m: u8, a: u32) -> Result<u16, Refusal> {
    element(unsafe { raw::shearcotter_invert(m, a) })
}

pub(crate) fn shape_at(position: u8) -> Result<raw::Shape, Refusal> {
    let shape = unsafe { raw::shearcotter_shape_at(position) };
    Refusal::check(shape.refused).map(|()| shape)
}

pub(crate) fn register(m: u8, list: &[u16]) -> Result<raw::Register, Refusal> {
    touch_stack::<{ raw::STACK }>();
    let found = unsafe { raw::shearcotter_shortest_register(m, list.as_ptr(), list.len()) };
    Refusal::check(found.refused).map(|()| found)
}

/// What is hashed may be a secret.
pub(crate) fn shake256(input: &[u8], out: &mut [u8]) {
    secretly::<{ raw::STACK_SHAKE + FRAMES }, _>(|| unsafe {
        raw::shearcotter_shake256(input.as_ptr(), input.len(), out.as_mut_ptr(), out.len());
    });
}

pub(crate) fn lock(shape: (u8, u16, u16), public: &[u8], pattern: &[u8], out: &mut [u8]) -> Result<(), Refusal> {
    let (m, n, t) = shape;
    secretly::<{ raw::STACK_LOCK + FRAMES }, _>(|| {
        Refusal::check(unsafe {
            raw::shearcotter_lock(
                m,
                n,
                t,
                public.as_ptr(),
                public.len(),
                pattern.as_ptr(),
                pattern.len(),
                out.as_mut_ptr(),
                out.len(),
            )
        })
    })
}

fn converted(answer: raw::Converted) -> Result<usize, Refusal> {
    Refusal::check(answer.refused).map(|()| answer.length)
}

/// How many bytes are written.
pub(crate) fn to_network(file: &[u8], out: &mut [u8]) -> Result<usize, Refusal> {
    secretly::<{ raw::STACK_TO_NETWORK + FRAMES }, _>(|| {
        converted(unsafe { raw::shearcotter_to_network(file.as_ptr(), file.len(), out.as_mut_ptr(), out.len()) })
    })
}

/// How many bytes are written.
pub(crate) fn from_network(file: &[u8], out: &mut [u8]) -> Result<usize, Refusal> {
    secretly::<{ raw::STACK_FROM_NETWORK + FRAMES }, _>(|| {
        converted(unsafe { raw::shearcotter_from_network(file.as_ptr(), file.len(), out.as_mut_ptr(), out.len()) })
    })
}

/// Not inlined, so that no caller's frame holds the station; its own does, and so it makes sure of what it needs alone.
#[inline(never)]
pub(crate) fn fresh() -> Box<raw::Station> {
    touch_stack::<{ raw::STACK_FRESH + COPIES }>();
    Box::new(unsafe { raw::shearcotter_fresh() })
}

pub(crate) fn load(station: &mut raw::Station, name: Name, file: &[u8]) -> Result<(), Refusal> {
    secretly::<{ raw::STACK_LOAD + COPIES }, _>(|| {
        let reply = unsafe { raw::shearcotter_load(*station, name.byte(), file.as_ptr(), file.len()) };
        *station = reply.station;
        Refusal::check(reply.refused)
    })
}

pub(crate) fn load_network(station: &mut raw::Station, name: Name, file: &[u8]) -> Result<(), Refusal> {
    secretly::<{ raw::STACK_LOAD_NETWORK + COPIES }, _>(|| {
        let reply = unsafe { raw::shearcotter_load_network(*station, name.byte(), file.as_ptr(), file.len()) };
        *station = reply.station;
        Refusal::check(reply.refused)
    })
}

pub(crate) fn publish(
    station: &mut raw::Station,
    name: Name,
    workspace: Workspace,
    out: &mut [u8],
    work: &mut [u8],
) -> Result<(), Refusal> {
    let (full, small) = (raw::shearcotter_publish, raw::shearcotter_publish_small);
    match workspace {
        Workspace::Full => publish_by::<{ raw::STACK_PUBLISH + COPIES }>(full, station, name, out, work),
        Workspace::Small => publish_by::<{ raw::STACK_PUBLISH_SMALL + COPIES }>(small, station, name, out, work),
    }
}

/// One of the forms of publish, which takes up to `LENGTH` bytes of stack with the copies here.
fn publish_by<const LENGTH: usize>(
    call: unsafe extern "C" fn(raw::Station, u8, *mut u8, usize, *mut u8, usize) -> raw::Reply,
    station: &mut raw::Station,
    name: Name,
    out: &mut [u8],
    work: &mut [u8],
) -> Result<(), Refusal> {
    secretly::<LENGTH, _>(|| {
        let (row, length) = (out.as_mut_ptr(), out.len());
        let reply = unsafe { call(*station, name.byte(), row, length, work.as_mut_ptr(), work.len()) };
        *station = reply.station;
        Refusal::check(reply.refused)
    })
}

/// By publishing into no room: 34 stands before 10, and neither changes anything.
pub(crate) fn is_exchange_key(station: &raw::Station, name: Name) -> Result<bool, Refusal> {
    let answer = secretly::<{ raw::STACK_PUBLISH + COPIES }, _>(|| {
        let (mut out, mut work) = ([0; 0], [0; 0]);
        let (out, work) = (out.as_mut_ptr(), work.as_mut_ptr());
        Refusal::check(unsafe { raw::shearcotter_publish(*station, name.byte(), out, 0, work, 0) }.refused)
    });
    match answer {
        Ok(()) | Err(Refusal::ShortOutput) => Ok(true),
        Err(Refusal::ReducibleKey) => Ok(false),
        Err(refusal) => Err(refusal),
    }
}

/// The station that the call hands back is the caller's own.
pub(crate) fn open(station: &raw::Station, name: Name, capsule: &[u8], out: &mut [u8]) -> Result<u16, Refusal> {
    secretly::<{ raw::STACK_OPEN + COPIES }, _>(|| {
        let (row, length) = (capsule.as_ptr(), capsule.len());
        let reply = unsafe { raw::shearcotter_open(*station, name.byte(), row, length, out.as_mut_ptr(), out.len()) };
        Refusal::check(reply.refused).map(|()| reply.ones)
    })
}

/// The station that the call hands back is the caller's own.
pub(crate) fn read(station: &raw::Station, name: Name, word: &[u8], out: &mut [u8]) -> Result<u16, Refusal> {
    secretly::<{ raw::STACK_READ + COPIES }, _>(|| {
        let (row, length) = (word.as_ptr(), word.len());
        let reply = unsafe { raw::shearcotter_read(*station, name.byte(), row, length, out.as_mut_ptr(), out.len()) };
        Refusal::check(reply.refused).map(|()| reply.ones)
    })
}

/// The number of differences at unmarked places. The station that the call hands back is the caller's own.
pub(crate) fn read_marked(
    station: &raw::Station,
    name: Name,
    word: &[u8],
    marks: &[u8],
    out: &mut [u8],
) -> Result<u16, Refusal> {
    secretly::<{ raw::STACK_READ_MARKED + COPIES }, _>(|| {
        let (row, length, room) = (word.as_ptr(), word.len(), out.len());
        let (marks, marked) = (marks.as_ptr(), marks.len());
        let reply = unsafe {
            raw::shearcotter_read_marked(*station, name.byte(), row, length, marks, marked, out.as_mut_ptr(), room)
        };
        Refusal::check(reply.refused).map(|()| reply.ones)
    })
}

/// The station that the call hands back is the caller's own.
pub(crate) fn report(
    station: &raw::Station,
    name: Name,
    capsules: &[u8],
    records: &mut [u8],
) -> Result<Counts, Refusal> {
    let mut counts = Counts::default();
    secretly::<{ raw::STACK_REPORT + COPIES }, _>(|| {
        let (rows, length) = (capsules.as_ptr(), capsules.len());
        let reported = unsafe {
            raw::shearcotter_report(*station, name.byte(), rows, length, records.as_mut_ptr(), records.len())
        };
        *counts.as_mut() = reported.counts;
        Refusal::check(reported.refused)
    })
    .map(|()| counts)
}

/// Writes the session key, zeros where it is refused. The station that the call hands back is the caller's own.
pub(crate) fn session(
    station: &raw::Station,
    name: Name,
    capsule: &[u8],
    secret: &[u8],
    key: &mut [u8; raw::SESSION_BYTES],
) -> Result<(), Refusal> {
    secretly::<{ raw::STACK_SESSION + COPIES }, _>(|| {
        let (row, length) = (capsule.as_ptr(), capsule.len());
        let derived =
            unsafe { raw::shearcotter_session(*station, name.byte(), row, length, secret.as_ptr(), secret.len()) };
        *key = derived.key;
        Refusal::check(derived.refused)
    })
}

pub(crate) fn drop_key(station: &mut raw::Station, name: Name) -> Result<(), Refusal> {
    secretly::<{ raw::STACK_DROP + COPIES }, _>(|| {
        let reply = unsafe { raw::shearcotter_drop(*station, name.byte()) };
        *station = reply.station;
        Refusal::check(reply.refused)
    })
}
