//! Packed rows: capsules, words and patterns, secrets, and public keys, which are rows back to back.

use shearcotter::{Refusal, Shape};

use super::{bytes_found, counted, Explained};

/// What a row is.
#[derive(Clone, Copy)]
pub enum Row {
    Capsule,
    /// A capsule whose session key is asked for.
    SessionCapsule,
    Word,
    /// A word with marks.
    MarkedWord,
    Pattern,
}

impl Row {
    pub fn name(self) -> &'static str {
        match self {
            Row::Capsule | Row::SessionCapsule => "capsule",
            Row::Word | Row::MarkedWord => "word",
            Row::Pattern => "pattern",
        }
    }

    pub fn plural(self) -> &'static str {
        match self {
            Row::Capsule | Row::SessionCapsule => "capsules",
            Row::Word | Row::MarkedWord => "words",
            Row::Pattern => "patterns",
        }
    }

    /// What an accepted one was.
    pub fn accepted(self) -> &'static str {
        match self {
            Row::Capsule => "opened",
            Row::SessionCapsule => "derived",
            Row::Word | Row::MarkedWord => "read",
            Row::Pattern => "locked",
        }
    }

    /// Bits of a row.
    pub fn bits(self, shape: Shape) -> usize {
        match self {
            Row::Capsule | Row::SessionCapsule => capsule_bits(shape),
            Row::Word | Row::MarkedWord | Row::Pattern => usize::from(shape.n()),
        }
    }

    /// Bytes of a row.
    pub fn length(self, shape: Shape) -> usize {
        self.bits(shape).div_ceil(8)
    }
}

fn capsule_bits(shape: Shape) -> usize {
    usize::from(shape.m()) * usize::from(shape.t())
}

fn wrong_length(name: &str) -> String {
    format!("{name} of wrong byte length")
}

/// What a refusal says of a row.
fn words(kind: Row, refusal: Refusal) -> String {
    match (refusal, kind) {
        (Refusal::BadBytes, _) => wrong_length(kind.name()),
        (Refusal::NoCodeWord, Row::MarkedWord) => "no code word with 2d + s at most 2t".to_owned(),
        (Refusal::NoCodeWord, _) => "no code word within t places".to_owned(),
        _ => refusal.condition().to_owned(),
    }
}

/// What a number says of a row, 0 too.
pub fn number(kind: Row, number: u8) -> String {
    match number {
        0 => kind.accepted().to_owned(),
        _ => words(kind, Refusal::from_number(number).unwrap_or(Refusal::Other(number))),
    }
}

/// A capsule, word or pattern.
pub fn row(kind: Row, shape: Shape, bytes: &[u8], refusal: Refusal) -> Explained {
    let found = match refusal {
        Refusal::BadBytes => format!("expected {}, found {}", counted(kind.length(shape), "byte"), bytes.len()),
        Refusal::FillerSet => filler(kind.bits(shape), bytes, 0).unwrap_or_default(),
        Refusal::NotTOnes => {
            let ones: u32 = bytes.iter().map(|byte| byte.count_ones()).sum();
            format!("expected {} (t), found {ones}", counted(shape.t().into(), "one"))
        }
        _ => String::new(),
    };
    Explained::new(refusal, words(kind, refusal), found)
}

/// A secret, of which at most one byte past its length was read; none of its bits are said.
pub fn secret(shape: Shape, found: usize, refusal: Refusal) -> Explained {
    let length = Row::Pattern.length(shape);
    match refusal {
        Refusal::BadSecret if found != length => {
            let found = format!("expected {} for {shape}, {}", counted(length, "byte"), bytes_found(found, length));
            Explained::new(refusal, "secret of wrong length", found)
        }
        Refusal::BadSecret => {
            let found = format!("expected byte {} up to {:02x} (hexadecimal), found more", length - 1, most(shape.n()));
            Explained::new(refusal, "secret with filler set", found)
        }
        _ => Explained::new(refusal, refusal.condition(), ""),
    }
}

/// A public key, of which at most one byte past its length was read.
pub fn public_key(shape: Shape, bytes: &[u8], refusal: Refusal) -> Explained {
    let length = shape.public_length();
    match refusal {
        Refusal::BadBytes => {
            let found =
                format!("expected {} for {shape}, {}", counted(length, "byte"), bytes_found(bytes.len(), length));
            Explained::new(refusal, wrong_length("public key"), found)
        }
        Refusal::FillerSet => Explained::new(refusal, refusal.condition(), public_filler(shape, bytes)),
        _ => Explained::new(refusal, refusal.condition(), ""),
    }
}

/// The first row of a public key with a filler bit set, counted from 0.
fn public_filler(shape: Shape, bytes: &[u8]) -> String {
    let bits = usize::from(shape.n()) - capsule_bits(shape);
    let width = bits.div_ceil(8);
    let mut rows = bytes.chunks(width).enumerate();
    let found = rows.find_map(|(i, row)| filler(bits, row, i * width).map(|found| format!("row {i}: {found}")));
    found.unwrap_or_default()
}

/// The most that the last byte of a row of so many bits may be.
fn most(bits: impl Into<usize>) -> u8 {
    u8::MAX >> ((8 - bits.into() % 8) % 8)
}

/// The last byte of a row that starts at a byte of its file, where it has a one past the row's bits.
pub(super) fn filler(bits: usize, row: &[u8], start: usize) -> Option<String> {
    let (last, most) = (row.last()?, most(bits));
    let at = start + row.len() - 1;
    (*last > most).then(|| format!("expected byte {at} up to {most:02x}, found {last:02x} (hexadecimal)"))
}
