//! SHAKE256, by which session keys are derived.

use crate::calls;

/// Fills the output with the first bytes of SHAKE256, FIPS 202's function, of the input; both have any length.
///
/// ```
/// use shearcotter::shake256;
///
/// let mut out = [0; 4];
/// shake256(b"", &mut out);
/// assert_eq!(out, [0x46, 0xb9, 0xdd, 0x2b]);
/// ```
pub fn shake256(input: &[u8], out: &mut [u8]) {
    calls::shake256(input, out);
}
