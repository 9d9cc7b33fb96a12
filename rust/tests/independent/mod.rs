//! A second implementation, written from document 01 alone: the public key by plain elimination of the
//! defined matrix, reading by Euclid's algorithm on the syndrome of g², and by search over all patterns for m 4.
//! Of the requests, SHAKE256 on single bits, from FIPS 202, whether g has a proper factor, two recipients with names, keys as a
//! switching network, reading with marks, by Euclid's algorithm with erasures and by search over all code words, and what counts as
//! too short for publishing with a small workspace.

pub mod bits;
pub mod calls;
pub mod drawn;
pub mod drawn_networks;
pub mod euclid;
pub mod factors;
pub mod field;
pub mod held;
pub mod key;
pub mod matrix;
pub mod named;
pub mod network;
pub mod network_key;
pub mod poly;
pub mod random;
pub mod recipients;
pub mod register;
pub mod search;
pub mod shake;
