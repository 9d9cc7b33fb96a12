//! Locking a pattern with a public key.

use crate::{calls, Refusal, Shape};

/// The capsule [I|T]·e of a pattern e with exactly t ones, under the public key T.
pub fn lock(shape: Shape, public: &[u8], pattern: &[u8]) -> Result<Vec<u8>, Refusal> {
    let mut capsule = vec![0; shape.capsule_length()];
    lock_into(shape.m(), shape.n(), shape.t(), public, pattern, &mut capsule)?;
    Ok(capsule)
}

/// The same with any numbers for the shape and the caller's output: refused with the first that applies of
/// 1, 3, 8, 9, 12, 10; bytes beyond the capsule stay as they are.
pub fn lock_into(m: u8, n: u16, t: u16, public: &[u8], pattern: &[u8], out: &mut [u8]) -> Result<(), Refusal> {
    calls::lock((m, n, t), public, pattern, out)
}
