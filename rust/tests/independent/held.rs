//! A key together with what is worked out from it once: its number, whether g has a proper factor, its public key, its reader.

use std::sync::OnceLock;

use super::bits;
use super::key::Key;
use super::{euclid, factors, matrix, search};

enum Reader {
    Search(search::Reader),
    Euclid(euclid::Reader),
}

pub struct Held {
    pub key: Key,
    number: OnceLock<u8>,
    factor: OnceLock<bool>,
    public: OnceLock<Option<Vec<u8>>>,
    reader: OnceLock<Reader>,
}

fn word_of(row: &[u8]) -> u16 {
    let byte = |i: usize| u16::from(row.get(i).copied().unwrap_or(0));
    byte(0) | byte(1) << 8
}

impl Held {
    pub fn new(key: Key) -> Held {
        let (number, factor) = (OnceLock::new(), OnceLock::new());
        Held { key, number, factor, public: OnceLock::new(), reader: OnceLock::new() }
    }

    /// Load's number for the key, or 0.
    pub fn number(&self) -> u8 {
        *self.number.get_or_init(|| self.key.number())
    }

    /// Whether a polynomial of degree 1 to t - 1 divides g.
    pub fn has_factor(&self) -> bool {
        *self.factor.get_or_init(|| {
            let test = if self.key.m == 4 { factors::by_division } else { factors::by_powers };
            test(self.key.field(), &self.key.polynomial())
        })
    }

    pub fn public(&self) -> Option<&[u8]> {
        let made = self.public.get_or_init(|| matrix::public_key(&self.key));
        made.as_deref()
    }

    fn reader(&self) -> &Reader {
        self.reader.get_or_init(|| match self.key.m {
            4 => Reader::Search(search::Reader::new(&self.key)),
            _ => Reader::Euclid(euclid::Reader::new(&self.key)),
        })
    }

    /// The pattern within t places for a well-formed word or capsule; bits that are not there are 0.
    pub fn read(&self, word: &[u8]) -> Option<Vec<usize>> {
        match self.reader() {
            Reader::Search(reader) => {
                let pattern = reader.read(word_of(word))?;
                Some(bits::places(self.key.n, &pattern.to_le_bytes()))
            }
            Reader::Euclid(reader) => reader.read(word),
        }
    }

    /// The places where a well-formed word differs from the only code word with 2d + s ≤ 2t, where s places are marked and d of
    /// the others differ; and d.
    pub fn read_marked(&self, word: &[u8], marks: &[u8]) -> Option<(Vec<usize>, usize)> {
        let places = match self.reader() {
            Reader::Search(reader) => {
                let near = reader.near(word_of(word), word_of(marks), 2 * self.key.t as u32);
                assert!(near.len() <= 1, "two code words have 2d + s ≤ 2t");
                bits::places(self.key.n, &near.first()?.to_le_bytes())
            }
            Reader::Euclid(reader) => reader.read_marked(word, marks)?,
        };
        let unmarked = places.iter().filter(|i| !bits::bit(marks, **i)).count();
        Some((places, unmarked))
    }

    /// The pattern of a capsule: a reading, accepted only with exactly t ones.
    pub fn open(&self, capsule: &[u8]) -> Option<Vec<usize>> {
        self.read(capsule).filter(|places| places.len() == self.key.t)
    }
}
