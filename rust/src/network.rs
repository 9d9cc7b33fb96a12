//! Key files as switching networks: the two forms of file, each turned into the other.

use crate::{calls, Refusal, Shape};

/// The shape with the longest files of both forms: m, n and t are the most that there are.
const LONGEST: Shape = Shape::MCELIECE8192128;

/// The network file of a key file: refused with the first that applies of 1 to 7.
///
/// The network's other values, those whose bits in reverse order the support has not, come behind the support's in rising
/// order, and the control bits are those of the standard's routine. [`from_network`] gives the same key file back. Both files
/// are the caller's to [`wipe`](crate::wipe).
///
/// ```
/// use shearcotter::{from_network, to_network, Refusal};
///
/// let file = [4, 6, 0, 1, 0, 9, 0, 13, 0, 15, 0, 14, 0, 11, 0, 1, 0, 0, 0];
/// let network = to_network(&file)?;
/// assert_eq!(network[11..], [0x60, 0x40, 0xb0, 0x7c, 0x33, 0xfc, 0x84]);
/// assert_eq!(from_network(&network)?, file);
/// assert_eq!(to_network(&network), Err(Refusal::BadLength));
/// # Ok::<(), Refusal>(())
/// ```
pub fn to_network(file: &[u8]) -> Result<Vec<u8>, Refusal> {
    written(LONGEST.network_file_length(), |out| to_network_into(file, out))
}

/// Writes the network file from the start of `out`, and gives its length: refused with the first that applies of 1 to 7, and
/// 10. Bytes beyond it stay as they are. [`Shape::network_file_length`] says what is needed.
pub fn to_network_into(file: &[u8], out: &mut [u8]) -> Result<usize, Refusal> {
    calls::to_network(file, out)
}

/// The key file of a network file: refused with the first that applies of 1, 2, 36, 3, 4, 6, 7.
///
/// Network files with other spare settings have the same key file, so that [`to_network`] of it may differ from this one in
/// control bits; support and g are the same. Both files are the caller's to [`wipe`](crate::wipe).
pub fn from_network(file: &[u8]) -> Result<Vec<u8>, Refusal> {
    written(LONGEST.key_file_length(), |out| from_network_into(file, out))
}

/// Writes the key file from the start of `out`, and gives its length: refused with the first that applies of 1, 2, 36, 3, 4,
/// 6, 7, 10. Bytes beyond it stay as they are. [`Shape::key_file_length`] says what is needed.
pub fn from_network_into(file: &[u8], out: &mut [u8]) -> Result<usize, Refusal> {
    calls::from_network(file, out)
}

/// What a call writes into a buffer of so many bytes. They are never moved, so that the caller can wipe the only copy.
fn written(room: usize, call: impl FnOnce(&mut [u8]) -> Result<usize, Refusal>) -> Result<Vec<u8>, Refusal> {
    let mut out = vec![0; room];
    let length = call(&mut out)?;
    out.truncate(length);
    Ok(out)
}
