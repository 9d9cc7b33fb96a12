//! Key files: m in a byte, then n, n elements, t, and t coefficients of g, each in two bytes, the low byte first. Network files: m, n,
//! t, g, the bit count in four bytes, and packed control bits.

use std::collections::HashMap;

use shearcotter::{field, Refusal, Shape};

use super::{bytes_found, network, shapes, Explained};
use crate::forms::KeyForm;

const ANOTHER: &str = "use another key";

/// A key file that the load of its form refuses; of a file past the limit one byte more was read.
pub fn key_file(file: &[u8], form: KeyForm, limit: usize, refusal: Refusal) -> Explained {
    let file = KeyFile::new(file, form);
    match refusal {
        Refusal::BadWidth => Explained::new(refusal, refusal.condition(), file.width()),
        Refusal::BadLength => Explained::new(refusal, "key file ends too early or too late", file.length(limit)),
        Refusal::BadBitCount => Explained::new(refusal, refusal.condition(), file.bit_count()),
        Refusal::BadShape => {
            let found = format!("{},{},{}", file.m, file.n, file.t);
            shapes::shape(&found, [file.m.into(), file.t as u64], refusal)
        }
        Refusal::BadElement => Explained::new(refusal, refusal.condition(), file.no_element()),
        Refusal::ElementTwice => Explained::new(refusal, refusal.condition(), file.twice()),
        Refusal::SquareFactor => {
            let found = format!("expected g without a repeated factor, else t errors cannot be corrected: {ANOTHER}");
            Explained::new(refusal, refusal.condition(), found)
        }
        Refusal::RootInSupport => Explained::new(refusal, refusal.condition(), file.root()),
        _ => Explained::new(refusal, refusal.condition(), ""),
    }
}

/// A key that publish refuses.
pub fn publishing(refusal: Refusal) -> Explained {
    let found = match refusal {
        Refusal::DependentColumns => {
            format!("the key opens no capsules, though it reads words: {ANOTHER}")
        }
        Refusal::ReducibleKey => {
            format!("expected an irreducible g; the key opens no capsules, though it reads words: {ANOTHER}")
        }
        _ => String::new(),
    };
    Explained::new(refusal, refusal.condition(), found)
}

/// A key that load accepts and publish refuses for its g.
pub fn reading_only() -> String {
    let (condition, number) = (Refusal::ReducibleKey.condition(), Refusal::ReducibleKey.number());
    format!("{condition}: words are read with the key; publish, open, session and report are refused {number}")
}

/// A key file's numbers as load counts them: what is missing is 0.
struct KeyFile<'a> {
    bytes: &'a [u8],
    form: KeyForm,
    m: u8,
    n: usize,
    t: usize,
}

impl KeyFile<'_> {
    fn new(bytes: &[u8], form: KeyForm) -> KeyFile<'_> {
        let mut file = KeyFile { bytes, form, m: bytes.first().copied().unwrap_or(0), n: 0, t: 0 };
        file.n = file.number(1).into();
        file.t = file.number(file.t_start()).into();
        file
    }

    /// The shape that the file has as a network file, where it is one.
    fn network_shape(&self) -> Option<Shape> {
        Shape::new(self.m, self.number(1), self.number(3)).ok()
    }

    fn number(&self, at: usize) -> u16 {
        let byte = |at: usize| self.bytes.get(at).copied().unwrap_or(0);
        u16::from_le_bytes([byte(at), byte(at + 1)])
    }

    /// Where t stands: behind the support, or behind n.
    fn t_start(&self) -> usize {
        match self.form {
            KeyForm::Support => 3 + 2 * self.n,
            KeyForm::Network => 3,
        }
    }

    fn g_start(&self) -> usize {
        self.t_start() + 2
    }

    fn g_end(&self) -> usize {
        self.g_start() + 2 * self.t
    }

    fn support(&self) -> Vec<u16> {
        match (self.form, self.network_shape()) {
            (KeyForm::Support, _) => (0..self.n).map(|i| self.number(3 + 2 * i)).collect(),
            (KeyForm::Network, Some(shape)) => network::support(shape, &self.bytes[self.g_end() + 4..]),
            (KeyForm::Network, None) => vec![],
        }
    }

    fn g(&self) -> impl DoubleEndedIterator<Item = u16> + '_ {
        (0..self.t).map(|i| self.number(self.g_start() + 2 * i))
    }

    fn width(&self) -> String {
        match self.bytes.first() {
            Some(m) => shapes::width(&format!("{m} in byte 0")),
            None => shapes::width("an empty file"),
        }
    }

    fn length(&self, limit: usize) -> String {
        let found = bytes_found(self.bytes.len(), limit);
        let (KeyFile { n, t, .. }, least) = (self, self.g_start());
        let network = self.network_shape().map_or(String::new(), |shape| {
            format!(", or {} for a network file with t {}", shape.network_file_length(), shape.t())
        });
        match self.bytes.len() {
            0..=2 => format!("expected at least 5 bytes for n and t, {found}"),
            length if length < least => format!("expected at least {least} bytes for n {n}{network}, {found}"),
            _ => format!("expected {} bytes for n {n} and t {t}{network}, {found}", self.g_end()),
        }
    }

    /// The four bytes behind g, of a network file with the right length.
    fn bit_count(&self) -> String {
        let (at, m) = (self.g_end(), usize::from(self.m));
        let found = u32::from(self.number(at)) + (u32::from(self.number(at + 2)) << 16);
        format!("expected {} for m {m} from byte {at} on, found {found}", (2 * m - 1) << (m - 1))
    }

    fn no_element(&self) -> String {
        let elements = 1_u32 << self.m.min(16);
        let support = self.support().into_iter().enumerate();
        let support = support.map(|(i, x)| (x, format!("place {i} of the support"), 3 + 2 * i));
        let g = self.g().enumerate().map(|(i, x)| (x, format!("coefficient {i} of g"), self.g_start() + 2 * i));
        let found = support.chain(g).find(|(x, ..)| u32::from(*x) >= elements);
        found.map_or(String::new(), |(x, place, byte)| {
            format!("expected elements below {elements}, found {x} at {place}, byte {byte}")
        })
    }

    fn twice(&self) -> String {
        let mut seen = HashMap::new();
        let found =
            self.support().into_iter().enumerate().find_map(|(i, x)| seen.insert(x, i).map(|first| (x, first, i)));
        found.map_or(String::new(), |(x, first, second)| {
            format!("expected each element once, found {x} at places {first} and {second} of the support")
        })
    }

    /// The value of g, which has a leading 1 at degree t.
    fn value(&self, x: u16) -> Result<u16, Refusal> {
        self.g().rev().try_fold(1, |sum, coefficient| {
            let product = field::multiply(self.m, u32::from(sum), u32::from(x))?;
            field::add(self.m, u32::from(product), u32::from(coefficient))
        })
    }

    fn root(&self) -> String {
        let found = self.support().into_iter().enumerate().find(|(_, x)| self.value(*x) == Ok(0));
        found.map_or(String::new(), |(i, x)| {
            format!("expected g other than 0 on the support, found 0 at place {i}, element {x}")
        })
    }
}
