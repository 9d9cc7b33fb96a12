//! Classic McEliece capsules: the proved calls of `libshearcotter.a` as safe types.
//!
//! A [`Station`] keeps a key for each of two recipients, [`Name::A`] and [`Name::B`], and each call names one:
//! [`load`](Station::load) its key from a key file, or from a [network file](Station::load_network),
//! [`publish`](Station::publish) its public key, also [with a small workspace](Station::publish_with),
//! [`open`](Station::open) capsules, derive their [`session`](Station::session) keys, [`report`](Station::report) on them
//! and [`read`](Station::read) words, also [with marks](Station::read_marked) at unsteady places. A [`Recipient`] is a
//! handle for one of the two. [`lock`](lock()) makes a capsule from a public key, [`to_network`] and [`from_network`] turn
//! the one form of key file into the other, and [`shake256`](shake256()) is the function that session keys are derived by.
//! A call that is refused answers a [`Refusal`] and changes nothing.
//! Words are read with every key; all else asks for an exchange key, one with an irreducible g:
//! [`is_exchange_key`](Station::is_exchange_key).
//!
//! ```
//! use shearcotter::{lock, Name, Shape, Station};
//!
//! let file = [4, 6, 0, 1, 0, 9, 0, 13, 0, 15, 0, 14, 0, 11, 0, 1, 0, 0, 0];
//! let mut station = Station::fresh();
//! station.load(Name::A, &file)?;
//! let public = station.publish(Name::A)?;
//! let capsule = lock(Shape::new(4, 6, 1)?, &public, &[0x10])?;
//! assert_eq!(capsule, [0x03]);
//! assert_eq!(station.open(Name::A, &capsule)?.places().collect::<Vec<_>>(), [4]);
//! let report = station.report(Name::A, &[0x03, 0x00, 0x13])?;
//! assert_eq!(report.records(), [0, 13, 9]);
//! assert_eq!(report.counts().to_string(), "total 3 opened 1 refused 2");
//! # Ok::<(), shearcotter::Refusal>(())
//! ```
//!
//! # Stack
//!
//! A call takes up to 311 KiB of stack, at most 383 without optimisation, since the station passes by value. Each call touches
//! [`raw::STACK`] bytes of stack first, 512 KiB, and [`Station::fresh`] fewer, so that a thread with less ends at its guard
//! page and nowhere else. Beyond these 512 KiB a thread needs what its own functions take.
//!
//! # Secrets
//!
//! A [`Station`] and a [`Pattern`] are overwritten with zeros when they are dropped, publish's workspace when it is done,
//! and the stack that a call used when it returns. The caller's to [`wipe`] are the bytes of a key file, also one that a
//! conversion gave, buffers and secrets that were lent, session keys, and bytes from [`Pattern::into_bytes`]. Registers,
//! swapped pages and core dumps are not reached, nor what the calls of [`raw`] leave, nor what [`std::mem::forget`] keeps.

#![deny(missing_docs)]
#![deny(unsafe_code)]

mod calls;
pub mod field;
mod locking;
mod marked;
mod name;
mod network;
mod pattern;
pub mod raw;
mod recipient;
mod refusal;
mod register;
mod report;
mod shake;
mod shape;
mod station;
mod wiping;
mod workspace;

pub use locking::{lock, lock_into};
pub use marked::MarkedReading;
pub use name::Name;
pub use network::{from_network, from_network_into, to_network, to_network_into};
pub use pattern::Pattern;
pub use recipient::Recipient;
pub use refusal::Refusal;
pub use register::{register, Register};
pub use report::{Counts, Report};
pub use shake::shake256;
pub use shape::Shape;
pub use station::Station;
pub use wiping::wipe;
pub use workspace::Workspace;
