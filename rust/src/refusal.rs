//! Why a call is refused: numbers and conditions, under the names of `include/shearcotter.h`.

use std::error::Error;
use std::fmt;

macro_rules! refusals {
    ($($name:ident $number:literal $condition:literal,)*) => {
        /// Why a call is refused. The conditions are plain ASCII, and those of `shearcotter_words` in C.
        #[derive(Clone, Copy, PartialEq, Eq, Hash, Debug)]
        #[non_exhaustive]
        pub enum Refusal {
            $(#[doc = concat!(stringify!($number), ": ", $condition, ".")] $name,)*
            /// A number that this version does not know: the archive is newer than the crate.
            Other(u8),
        }

        impl Refusal {
            /// All refusals that this version knows, by number.
            pub const ALL: &'static [Refusal] = &[$(Refusal::$name),*];

            /// The number.
            pub const fn number(self) -> u8 {
                match self {
                    $(Refusal::$name => $number,)*
                    Refusal::Other(number) => number,
                }
            }

            /// The condition in words.
            pub const fn condition(self) -> &'static str {
                match self {
                    $(Refusal::$name => $condition,)*
                    Refusal::Other(_) => "a number that this version does not know",
                }
            }

            /// The refusal with a number, if this version knows it.
            pub const fn from_number(number: u8) -> Option<Refusal> {
                match number {
                    $($number => Some(Refusal::$name),)*
                    _ => None,
                }
            }
        }
    };
}

refusals! {
    BadWidth 1 "width missing or not 4, 12, 13",
    BadLength 2 "key file ends too early or too late; register list over 256",
    BadShape 3 "shape out of limits; position not 1 to 5",
    BadElement 4 "element 2^m or more",
    ElementTwice 5 "support element twice",
    SquareFactor 6 "a square divides g",
    RootInSupport 7 "some g(a_i) is 0",
    BadBytes 8 "word, capsule, pattern or public key of wrong byte length",
    FillerSet 9 "filler bit set",
    ShortOutput 10 "output shorter than needed",
    ShortWorkspace 11 "workspace shorter than needed",
    NotTOnes 12 "pattern to lock has not t ones",
    NoPattern 13 "no pattern for the capsule",
    NoCodeWord 14 "no code word within t places; with marks, none with 2d + s <= 2t",
    NoKey 21 "no key",
    KeyHeld 22 "a key is held already",
    DependentColumns 23 "the first m*t columns are dependent: no public key",
    NotPublished 24 "not published",
    UnsoundKey 25 "the kept key is not one that load accepts",
    ShortRecords 31 "record buffer shorter than the number of capsules",
    InverseOfZero 32 "inverse of 0",
    BadSecret 33 "secret of wrong length or with filler set",
    ReducibleKey 34 "g has a proper factor",
    UnknownName 35 "a name other than A and B",
    BadBitCount 36 "bit count other than (2m-1)*2^(m-1)",
    BadMarks 37 "marks of wrong length or with filler set",
}

impl Refusal {
    /// What a call's number says: accepted for 0.
    pub(crate) fn check(number: u8) -> Result<(), Refusal> {
        match number {
            0 => Ok(()),
            _ => Err(Refusal::from_number(number).unwrap_or(Refusal::Other(number))),
        }
    }
}

impl fmt::Display for Refusal {
    fn fmt(&self, f: &mut fmt::Formatter<'_>) -> fmt::Result {
        write!(f, "refused {}: {}", self.number(), self.condition())
    }
}

impl Error for Refusal {}

#[cfg(test)]
mod tests {
    use super::Refusal;

    #[test]
    fn every_number_has_an_answer() {
        assert_eq!(Refusal::check(0), Ok(()));
        for number in 1..=255 {
            let expected = Refusal::from_number(number).unwrap_or(Refusal::Other(number));
            assert_eq!(Refusal::check(number), Err(expected));
            assert_eq!(expected.number(), number);
        }
        assert_eq!(Refusal::check(13), Err(Refusal::NoPattern));
        assert_eq!(Refusal::check(99), Err(Refusal::Other(99)));
    }
}
