//! The fields of 2^4, 2^12 and 2^13 elements by logarithms to a generator that is found by trial.

use std::sync::OnceLock;

pub struct Field {
    pub m: u8,
    log: Vec<u16>,
    power: Vec<u16>,
}

fn modulus(m: u8) -> Option<u32> {
    match m {
        4 => Some(0x13),
        12 => Some(0x1009),
        13 => Some(0x201B),
        _ => None,
    }
}

/// The product of polynomials over two elements, then its remainder.
fn long_product(m: u8, modulus: u32, a: u16, b: u16) -> u16 {
    let mut product = 0u32;
    for i in 0..m {
        if b >> i & 1 == 1 {
            product ^= u32::from(a) << i;
        }
    }
    for i in (m..2 * m).rev() {
        if product >> i & 1 == 1 {
            product ^= modulus << (i - m);
        }
    }
    product as u16
}

/// The powers of `base` from 1 up to where they return to 1.
fn powers(m: u8, modulus: u32, base: u16) -> Vec<u16> {
    let mut list = vec![1];
    let mut x = base;
    while x != 1 && list.len() < 1 << m {
        list.push(x);
        x = long_product(m, modulus, x, base);
    }
    list
}

impl Field {
    fn build(m: u8) -> Field {
        let modulus = modulus(m).expect("a width of document 01");
        let order = (1usize << m) - 1;
        let once = (2..=order as u16)
            .map(|base| powers(m, modulus, base))
            .find(|list| list.len() == order)
            .expect("a generator");
        let mut log = vec![0; order + 1];
        for (i, x) in once.iter().enumerate() {
            log[usize::from(*x)] = i as u16;
        }
        let power = [once.as_slice(), once.as_slice()].concat();
        Field { m, log, power }
    }

    /// The field of width m, or none where m is no width.
    pub fn of(m: u8) -> Option<&'static Field> {
        static FIELDS: [OnceLock<Field>; 3] = [OnceLock::new(), OnceLock::new(), OnceLock::new()];
        let position = [4, 12, 13].iter().position(|width| *width == m)?;
        Some(FIELDS[position].get_or_init(|| Field::build(m)))
    }

    pub fn size(&self) -> usize {
        1 << self.m
    }

    pub fn multiply(&self, a: u16, b: u16) -> u16 {
        if a == 0 || b == 0 {
            return 0;
        }
        let sum = usize::from(self.log[usize::from(a)]) + usize::from(self.log[usize::from(b)]);
        self.power[sum]
    }

    /// The inverse; none for 0.
    pub fn invert(&self, a: u16) -> Option<u16> {
        (a != 0).then(|| self.power[self.size() - 1 - usize::from(self.log[usize::from(a)])])
    }
}
