//! Secrets overwritten with zeros, in memory and on the stack: with `calls`, the only unsafe code of the crate.
//!
//! What follows a wipe may be the end of the memory's life, so the compiler would drop plain stores of zeros. A block of
//! assembly that is taken to read the memory keeps them.

#![allow(unsafe_code)]

use std::arch::asm;
use std::ptr;

use crate::raw;

#[cfg(not(target_arch = "x86_64"))]
compile_error!("libshearcotter.a is for x86-64");

/// Overwrites the bytes with zeros, in a way that the compiler keeps.
///
/// For what the caller holds: the bytes of a key file of either form after [`load`](crate::Station::load) or a conversion, a
/// lent workspace, a pattern that was written into a lent output, a session key and the secret that was lent for it.
pub fn wipe(bytes: &mut [u8]) {
    bytes.fill(0);
    keep(bytes.as_ptr());
}

/// Overwrites a station with zeros, padding included; afterwards it is an empty one.
pub(crate) fn wipe_station(station: &mut raw::Station) {
    unsafe { ptr::write_bytes(station, 0, 1) };
    keep(ptr::from_ref(station).cast());
}

/// The compiler takes the memory as read here, so that what is stored before stays.
pub(crate) fn keep(start: *const u8) {
    unsafe { asm!("/* {} */", in(reg) start, options(nostack, preserves_flags, readonly)) };
}

/// Runs a call that leaves secrets on the stack, and wipes the `LENGTH` bytes of stack below this function's frame: what
/// the call used, since its own frame and all below it lie there. What it answers must be no secret.
///
/// The thread must have that much stack left.
#[inline(never)]
pub(crate) unsafe fn wiping_stack<const LENGTH: usize, A>(call: impl FnOnce() -> A) -> A {
    let answer = apart(call);
    // As for an array of that length, the stack pointer moves for the time of the wipe.
    asm!(
        "mov {kept}, rsp",
        "sub rsp, rcx",
        "mov rdi, rsp",
        "rep stosb",
        "mov rsp, {kept}",
        kept = out(reg) _,
        inout("rcx") LENGTH => _,
        out("rdi") _,
        in("al") 0_u8,
    );
    answer
}

/// Not inlined, so that what the call holds is below its caller's frame.
#[inline(never)]
fn apart<A>(call: impl FnOnce() -> A) -> A {
    call()
}
