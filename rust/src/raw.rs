//! The C interface as it is: the declarations of `include/shearcotter.h`.
//!
//! The functions are unsafe: pointers must be valid for their lengths and not null even with length 0, a buffer that is
//! written must overlap no other buffer of the call, while buffers that are only read may overlap, and the thread must have
//! [`STACK`] bytes of stack left. They wipe nothing: stations, replies, and what a call leaves on the stack are the caller's.

/// The most places of a key, 2^13.
pub const MOST_PLACES: usize = 8192;
/// The most errors of a key, the limit of t.
pub const MOST_ERRORS: usize = 128;
/// The longest list for the shortest register.
pub const LONGEST: usize = 256;
/// Coefficients of a register's connection polynomial.
pub const COEFFICIENTS: usize = LONGEST + 1;
/// The values of a byte, which a report counts.
pub const BYTE_VALUES: usize = 256;
/// Bytes of a session key.
pub const SESSION_BYTES: usize = 32;
/// Bytes of stack that each safe call makes sure of, but for a fresh station, which takes less.
pub const STACK: usize = 512 * 1024;
/// Bytes of stack that `shearcotter_fresh` takes, the station in the caller included.
pub const STACK_FRESH: usize = 52 * 1024;
/// Bytes of stack that `shearcotter_load` takes, its argument and reply in the caller included.
pub const STACK_LOAD: usize = 225 * 1024;
/// The same for `shearcotter_load_network`.
pub const STACK_LOAD_NETWORK: usize = 225 * 1024;
/// The same for `shearcotter_publish`.
pub const STACK_PUBLISH: usize = 280 * 1024;
/// The same for `shearcotter_publish_small`.
pub const STACK_PUBLISH_SMALL: usize = 160 * 1024;
/// Bytes of stack that `shearcotter_lock` takes.
pub const STACK_LOCK: usize = 2 * 1024;
/// The same as [`STACK_LOAD`] for `shearcotter_open`.
pub const STACK_OPEN: usize = 304 * 1024;
/// The same for `shearcotter_read`.
pub const STACK_READ: usize = 304 * 1024;
/// The same for `shearcotter_read_marked`.
pub const STACK_READ_MARKED: usize = 311 * 1024;
/// The same for `shearcotter_report`.
pub const STACK_REPORT: usize = 308 * 1024;
/// The same for `shearcotter_session`.
pub const STACK_SESSION: usize = 306 * 1024;
/// The same for `shearcotter_drop`.
pub const STACK_DROP: usize = 98 * 1024;
/// Bytes of stack that `shearcotter_shake256` takes.
pub const STACK_SHAKE: usize = 2 * 1024;
/// Bytes of stack that `shearcotter_to_network` takes.
pub const STACK_TO_NETWORK: usize = 224 * 1024;
/// Bytes of stack that `shearcotter_from_network` takes.
pub const STACK_FROM_NETWORK: usize = 127 * 1024;

/// `state` of an empty slot.
pub const EMPTY: u8 = 0;
/// `state` of a loaded slot.
pub const LOADED: u8 = 1;
/// `state` of a published slot.
pub const PUBLISHED: u8 = 2;

/// The name of the recipient A; a call that takes neither this nor [`B`] is refused with 35.
pub const A: u8 = 1;
/// The name of the recipient B.
pub const B: u8 = 2;

/// A kept key; numbers past n and t do not count.
#[derive(Clone, Copy, PartialEq, Eq)]
#[repr(C)]
pub struct Key {
    /// The width.
    pub m: u8,
    /// The number of places.
    pub n: u16,
    /// The degree of g.
    pub t: u16,
    /// The support.
    pub support: [u16; MOST_PLACES],
    /// The coefficients of g below the leading one.
    pub g: [u16; MOST_ERRORS],
}

/// A recipient's slot: its state and its key.
#[derive(Clone, Copy, PartialEq, Eq)]
#[repr(C)]
pub struct Slot {
    /// [`EMPTY`], [`LOADED`], or any other number for published.
    pub state: u8,
    /// The kept key.
    pub key: Key,
}

/// A station: a slot for each recipient.
#[derive(Clone, Copy, PartialEq, Eq)]
#[repr(C)]
pub struct Station {
    /// The slot that [`A`] names.
    pub a: Slot,
    /// The slot that [`B`] names.
    pub b: Slot,
}

/// What a station's call hands back.
#[derive(Clone, Copy, PartialEq, Eq)]
#[repr(C)]
pub struct Reply {
    /// The new station; the caller's own after a refusal.
    pub station: Station,
    /// 0, or the refusal's number.
    pub refused: u8,
    /// The ones of the pattern that open or read has written; of a marked reading the differences at unmarked places alone.
    pub ones: u16,
}

/// What the call for a report hands back.
#[derive(Clone, Copy, PartialEq, Eq)]
#[repr(C)]
pub struct Reported {
    /// The caller's own station.
    pub station: Station,
    /// 0, or the refusal's number.
    pub refused: u8,
    /// How many records have each value; zeros where it is refused.
    pub counts: [usize; BYTE_VALUES],
}

/// What the call for a session key hands back.
#[derive(Clone, Copy, PartialEq, Eq)]
#[repr(C)]
pub struct Derived {
    /// The caller's own station.
    pub station: Station,
    /// 0, or the refusal's number.
    pub refused: u8,
    /// The session key; zeros where it is refused.
    pub key: [u8; SESSION_BYTES],
}

/// What a field call hands back.
#[derive(Clone, Copy, PartialEq, Eq, Debug)]
#[repr(C)]
pub struct Element {
    /// 0, or the refusal's number.
    pub refused: u8,
    /// The element.
    pub value: u16,
}

/// What the call for a position hands back.
#[derive(Clone, Copy, PartialEq, Eq, Debug)]
#[repr(C)]
pub struct Shape {
    /// 0, or the refusal's number.
    pub refused: u8,
    /// The width.
    pub m: u8,
    /// The number of places.
    pub n: u16,
    /// The degree of g.
    pub t: u16,
}

/// What the register's call hands back.
#[derive(Clone, Copy, PartialEq, Eq, Debug)]
#[repr(C)]
pub struct Register {
    /// 0, or the refusal's number.
    pub refused: u8,
    /// The register's length.
    pub length: usize,
    /// The connection polynomial, 0 past the length.
    pub c: [u16; COEFFICIENTS],
}

/// What a conversion hands back.
#[derive(Clone, Copy, PartialEq, Eq, Debug)]
#[repr(C)]
pub struct Converted {
    /// 0, or the refusal's number.
    pub refused: u8,
    /// How many bytes were written; 0 where it is refused.
    pub length: usize,
}

extern "C" {
    /// a + b.
    pub fn shearcotter_add(m: u8, a: u32, b: u32) -> Element;
    /// a · b.
    pub fn shearcotter_multiply(m: u8, a: u32, b: u32) -> Element;
    /// 1/a; of 0 there is none.
    pub fn shearcotter_invert(m: u8, a: u32) -> Element;
    /// The standard's shape at a position from 1 to 5.
    pub fn shearcotter_shape_at(position: u8) -> Shape;
    /// The shortest register of a list.
    pub fn shearcotter_shortest_register(m: u8, list: *const u16, list_length: usize) -> Register;
    /// Fills the output with the first bytes of SHAKE256 of the input.
    pub fn shearcotter_shake256(input: *const u8, input_length: usize, out: *mut u8, out_length: usize);
    /// Writes the capsule of a pattern; 0, or the refusal's number.
    pub fn shearcotter_lock(
        m: u8,
        n: u16,
        t: u16,
        public_key: *const u8,
        public_length: usize,
        pattern: *const u8,
        pattern_length: usize,
        out: *mut u8,
        out_length: usize,
    ) -> u8;
    /// Writes the network file of a key file.
    pub fn shearcotter_to_network(file: *const u8, file_length: usize, out: *mut u8, out_length: usize) -> Converted;
    /// Writes the key file of a network file.
    pub fn shearcotter_from_network(file: *const u8, file_length: usize, out: *mut u8, out_length: usize) -> Converted;
    /// A station with both slots empty.
    pub fn shearcotter_fresh() -> Station;
    /// Keeps the key of a key file.
    pub fn shearcotter_load(station: Station, name: u8, file: *const u8, file_length: usize) -> Reply;
    /// Keeps the key of a network file.
    pub fn shearcotter_load_network(station: Station, name: u8, file: *const u8, file_length: usize) -> Reply;
    /// Writes the public key.
    pub fn shearcotter_publish(
        station: Station,
        name: u8,
        out: *mut u8,
        out_length: usize,
        work: *mut u8,
        work_length: usize,
    ) -> Reply;
    /// Writes the public key, with a workspace of 2·m·t × ceil(m·t/8) bytes.
    pub fn shearcotter_publish_small(
        station: Station,
        name: u8,
        out: *mut u8,
        out_length: usize,
        work: *mut u8,
        work_length: usize,
    ) -> Reply;
    /// Writes the pattern of a capsule.
    pub fn shearcotter_open(
        station: Station,
        name: u8,
        capsule: *const u8,
        capsule_length: usize,
        out: *mut u8,
        out_length: usize,
    ) -> Reply;
    /// Writes the pattern that turns a word into the code word within t places.
    pub fn shearcotter_read(
        station: Station,
        name: u8,
        word: *const u8,
        word_length: usize,
        out: *mut u8,
        out_length: usize,
    ) -> Reply;
    /// Writes the differences from the code word with 2d + s ≤ 2t, where s places are marked and d of the others differ.
    pub fn shearcotter_read_marked(
        station: Station,
        name: u8,
        word: *const u8,
        word_length: usize,
        marks: *const u8,
        marks_length: usize,
        out: *mut u8,
        out_length: usize,
    ) -> Reply;
    /// Writes a record for each capsule, and counts the records of each value.
    pub fn shearcotter_report(
        station: Station,
        name: u8,
        capsules: *const u8,
        capsules_length: usize,
        records: *mut u8,
        records_length: usize,
    ) -> Reported;
    /// The session key of a capsule, with the secret for one that does not open.
    pub fn shearcotter_session(
        station: Station,
        name: u8,
        capsule: *const u8,
        capsule_length: usize,
        secret: *const u8,
        secret_length: usize,
    ) -> Derived;
    /// Drops the key.
    pub fn shearcotter_drop(station: Station, name: u8) -> Reply;
}
