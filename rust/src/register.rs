//! The shortest register of a list of elements.

use crate::{calls, raw, Refusal};

/// A shortest register: its length and its connection polynomial.
#[derive(Clone, PartialEq, Eq, Debug)]
pub struct Register {
    length: usize,
    coefficients: [u16; raw::COEFFICIENTS],
}

impl Register {
    /// The length, which is not always the polynomial's degree.
    pub fn length(&self) -> usize {
        self.length
    }

    /// The coefficients 0 to 256 of the connection polynomial, 0 past the length.
    pub fn coefficients(&self) -> &[u16; raw::COEFFICIENTS] {
        &self.coefficients
    }
}

/// The shortest register of at most 256 elements: refused with the first that applies of 1, 2, 4.
pub fn register(m: u8, list: &[u16]) -> Result<Register, Refusal> {
    calls::register(m, list).map(|found| Register { length: found.length, coefficients: found.c })
}
