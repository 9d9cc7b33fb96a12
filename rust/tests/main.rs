//! All Rust tests: the library, the tool and the raw C interface against vectors and a second implementation.

mod bench_keys;
mod boundary;
mod compare;
mod exchange;
mod header;
mod independent;
mod library;
mod lists;
mod marked;
mod networks;
mod reports;
#[cfg(target_os = "linux")]
mod secrets;
mod sessions;
mod shake;
mod support;
mod tool;
mod vectors;
mod workspaces;
