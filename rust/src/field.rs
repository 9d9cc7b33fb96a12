//! The fields of 2^m elements, m 4, 12 or 13; an element is a number below 2^m.
//!
//! Refused with [`BadWidth`](crate::Refusal::BadWidth) where m is no width, with
//! [`BadElement`](crate::Refusal::BadElement) where an operand is 2^m or more, and the inverse of 0 with
//! [`InverseOfZero`](crate::Refusal::InverseOfZero).
//!
//! ```
//! use shearcotter::{field, Refusal};
//!
//! assert_eq!(field::add(4, 8, 15)?, 7);
//! assert_eq!(field::multiply(4, 8, 15)?, 1);
//! assert_eq!(field::invert(4, 8)?, 15);
//! let refused = field::invert(4, 0).expect_err("0 has no inverse");
//! assert_eq!(refused.to_string(), "refused 32: inverse of 0");
//! assert_eq!(field::invert(4, 16), Err(Refusal::BadElement));
//! # Ok::<(), Refusal>(())
//! ```

use crate::{calls, Refusal};

/// The sum, which is the exclusive or: refused with the first that applies of 1, 4.
pub fn add(m: u8, a: u32, b: u32) -> Result<u16, Refusal> {
    calls::add(m, a, b)
}

/// The product of the polynomials over two elements, reduced by the width's modulus: refused with the first that
/// applies of 1, 4.
pub fn multiply(m: u8, a: u32, b: u32) -> Result<u16, Refusal> {
    calls::multiply(m, a, b)
}

/// The inverse: refused with the first that applies of 1, 4, 32.
pub fn invert(m: u8, a: u32) -> Result<u16, Refusal> {
    calls::invert(m, a)
}
