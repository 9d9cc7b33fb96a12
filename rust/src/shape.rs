//! Shapes of keys, and the lengths that follow from them.

use std::fmt;

use crate::{calls, raw, Refusal};

/// A shape (m, n, t): m 4, 12 or 13, t from 1 to 128, m·t < n ≤ 2^m.
#[derive(Clone, Copy, PartialEq, Eq, Hash, Debug)]
pub struct Shape {
    m: u8,
    n: u16,
    t: u16,
}

impl Shape {
    /// mceliece348864.
    pub const MCELIECE348864: Shape = Shape { m: 12, n: 3488, t: 64 };
    /// mceliece460896.
    pub const MCELIECE460896: Shape = Shape { m: 13, n: 4608, t: 96 };
    /// mceliece6688128.
    pub const MCELIECE6688128: Shape = Shape { m: 13, n: 6688, t: 128 };
    /// mceliece6960119.
    pub const MCELIECE6960119: Shape = Shape { m: 13, n: 6960, t: 119 };
    /// mceliece8192128.
    pub const MCELIECE8192128: Shape = Shape { m: 13, n: 8192, t: 128 };

    /// The standard's shapes, in the order of their positions.
    pub const STANDARD: [Shape; 5] = [
        Shape::MCELIECE348864,
        Shape::MCELIECE460896,
        Shape::MCELIECE6688128,
        Shape::MCELIECE6960119,
        Shape::MCELIECE8192128,
    ];

    /// The shape (m, n, t), refused with [`Refusal::BadWidth`] or [`Refusal::BadShape`].
    pub fn new(m: u8, n: u16, t: u16) -> Result<Shape, Refusal> {
        if !matches!(m, 4 | 12 | 13) {
            return Err(Refusal::BadWidth);
        }
        let (width, places, errors) = (usize::from(m), usize::from(n), usize::from(t));
        let allowed = (1..=raw::MOST_ERRORS).contains(&errors) && width * errors < places && places <= 1 << width;
        allowed.then_some(Shape { m, n, t }).ok_or(Refusal::BadShape)
    }

    /// The standard's shape at position 1 to 5, else refused with [`Refusal::BadShape`].
    pub fn at(position: u8) -> Result<Shape, Refusal> {
        calls::shape_at(position).map(|shape| Shape { m: shape.m, n: shape.n, t: shape.t })
    }

    /// The standard's shape with a name.
    pub fn named(name: &str) -> Option<Shape> {
        let has = |shape: &Shape| shape.name().as_deref() == Some(name);
        Shape::STANDARD.into_iter().find(has)
    }

    /// The standard's name: mceliece, then n, then t.
    pub fn name(self) -> Option<String> {
        Shape::STANDARD.contains(&self).then(|| format!("mceliece{}{}", self.n, self.t))
    }

    /// The width.
    pub fn m(self) -> u8 {
        self.m
    }

    /// The number of places.
    pub fn n(self) -> u16 {
        self.n
    }

    /// The degree of g, and the ones of a pattern to lock.
    pub fn t(self) -> u16 {
        self.t
    }

    fn capsule_bits(self) -> usize {
        usize::from(self.m) * usize::from(self.t)
    }

    /// Bytes of a key file.
    pub fn key_file_length(self) -> usize {
        5 + 2 * usize::from(self.n) + 2 * usize::from(self.t)
    }

    /// Bytes of a network file.
    pub fn network_file_length(self) -> usize {
        9 + 2 * usize::from(self.t) + self.switches().div_ceil(8)
    }

    /// Control bits of a network file: 2m - 1 layers of 2^(m-1) switches.
    pub fn switches(self) -> usize {
        (2 * usize::from(self.m) - 1) << (self.m - 1)
    }

    /// Bytes of a pattern, word, secret or row of marks.
    pub fn pattern_length(self) -> usize {
        usize::from(self.n).div_ceil(8)
    }

    /// Bytes of a capsule.
    pub fn capsule_length(self) -> usize {
        self.capsule_bits().div_ceil(8)
    }

    /// How many capsules stand back to back in so many bytes; a short last one counts.
    pub fn capsules_in(self, length: usize) -> usize {
        length.div_ceil(self.capsule_length())
    }

    /// Bytes of the public key.
    pub fn public_length(self) -> usize {
        self.capsule_bits() * (usize::from(self.n) - self.capsule_bits()).div_ceil(8)
    }

    /// Bytes of publish's workspace, [`Workspace::Full`](crate::Workspace::Full).
    pub fn workspace_length(self) -> usize {
        self.capsule_bits() * self.pattern_length()
    }

    /// Bytes of publish's small workspace, [`Workspace::Small`](crate::Workspace::Small).
    pub fn small_workspace_length(self) -> usize {
        2 * self.capsule_bits() * self.capsule_length()
    }
}

impl fmt::Display for Shape {
    fn fmt(&self, f: &mut fmt::Formatter<'_>) -> fmt::Result {
        write!(f, "{},{},{}", self.m, self.n, self.t)
    }
}
