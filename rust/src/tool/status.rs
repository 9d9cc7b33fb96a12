//! The exit statuses.

use std::process::ExitCode;

#[derive(Clone, Copy, PartialEq, Eq, Debug)]
pub enum Status {
    Accepted = 0,
    RowRefused = 1,
    Failed = 2,
    KeyRefused = 3,
}

/// What each status says: help and the man page print this.
pub const STATUSES: [(Status, &str); 4] = [
    (Status::Accepted, "everything was accepted"),
    (Status::RowRefused, "some row was refused: a capsule, a word or a pattern"),
    (Status::Failed, "bad usage or a bad shape, or a file failed"),
    (Status::KeyRefused, "the key was refused: a key file, its secret or a public key"),
];

impl Status {
    pub fn number(self) -> u8 {
        self as u8
    }
}

impl From<Status> for ExitCode {
    fn from(status: Status) -> ExitCode {
        ExitCode::from(status.number())
    }
}
