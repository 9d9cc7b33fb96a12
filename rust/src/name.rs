//! The two recipients' names.

use std::fmt;
use std::str::FromStr;

use crate::{raw, Refusal};

/// A recipient of a station. A byte or a word that is neither answers [`Refusal::UnknownName`], 35.
///
/// ```
/// use shearcotter::{Name, Refusal};
///
/// assert_eq!(Name::BOTH.map(Name::byte), [1, 2]);
/// assert_eq!(Name::A.other(), Name::B);
/// assert_eq!((Name::try_from(2), Name::try_from(3)), (Ok(Name::B), Err(Refusal::UnknownName)));
/// assert_eq!(("A".parse(), "a".parse::<Name>()), (Ok(Name::A), Err(Refusal::UnknownName)));
/// assert_eq!(Name::B.to_string(), "B");
/// ```
#[derive(Clone, Copy, PartialEq, Eq, PartialOrd, Ord, Hash, Debug)]
pub enum Name {
    /// 1.
    A,
    /// 2.
    B,
}

impl Name {
    /// Both names, in order.
    pub const BOTH: [Name; 2] = [Name::A, Name::B];

    /// The byte that the calls take.
    pub const fn byte(self) -> u8 {
        match self {
            Name::A => raw::A,
            Name::B => raw::B,
        }
    }

    /// The other recipient.
    pub const fn other(self) -> Name {
        match self {
            Name::A => Name::B,
            Name::B => Name::A,
        }
    }

    /// The letter.
    pub const fn as_str(self) -> &'static str {
        match self {
            Name::A => "A",
            Name::B => "B",
        }
    }
}

impl TryFrom<u8> for Name {
    type Error = Refusal;

    fn try_from(byte: u8) -> Result<Name, Refusal> {
        Name::BOTH.into_iter().find(|name| name.byte() == byte).ok_or(Refusal::UnknownName)
    }
}

impl FromStr for Name {
    type Err = Refusal;

    fn from_str(word: &str) -> Result<Name, Refusal> {
        Name::BOTH.into_iter().find(|name| name.as_str() == word).ok_or(Refusal::UnknownName)
    }
}

impl fmt::Display for Name {
    fn fmt(&self, f: &mut fmt::Formatter<'_>) -> fmt::Result {
        f.pad(self.as_str())
    }
}
