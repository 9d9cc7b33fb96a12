//! Request L7's form of key file: m; n and t in two bytes; g; the bit count in four bytes, and the packed control bits.

use super::bits;
use super::field::Field;
use super::key::{elements_at, number_at, Key};
use super::network::{control_bits, permutation};

/// The parts of a network file, whatever they are.
#[derive(Clone, PartialEq, Eq, Debug)]
pub struct NetworkFile {
    pub m: u8,
    pub n: usize,
    pub t: usize,
    pub g: Vec<u16>,
    pub count: u32,
    pub bits: Vec<u8>,
}

/// 2m - 1 layers of 2^(m-1) switches.
fn switches(m: u8) -> usize {
    (2 * usize::from(m) - 1) << (m - 1)
}

/// The m bits of a number, the last one first.
fn reversed(m: u8, x: usize) -> usize {
    (0..m).fold(0, |all, i| 2 * all + (x >> i) % 2)
}

impl NetworkFile {
    /// With a width of document 01; none where the length is another than m and t call for.
    fn parse(file: &[u8]) -> Option<NetworkFile> {
        let (m, t) = (file[0], number_at(file, 3));
        let behind = 5 + 2 * t;
        if file.len() != behind + 4 + switches(m).div_ceil(8) {
            return None;
        }
        let count = (number_at(file, behind) + 65_536 * number_at(file, behind + 2)) as u32;
        let bits = file[behind + 4..].to_vec();
        Some(NetworkFile { m, n: number_at(file, 1), t, g: elements_at(file, 5, t), count, bits })
    }

    /// The file of a key whose values are followed by the others in an order of their own.
    pub fn of(key: &Key, others: &[usize]) -> NetworkFile {
        let mut values = values(key);
        values.extend(others);
        let set = control_bits(&values).into_iter().enumerate().filter(|(_, bit)| *bit).map(|(i, _)| i);
        let Key { m, n, t, ref g, .. } = *key;
        let bits = bits::pack(switches(m), set);
        NetworkFile { m, n, t, g: g.clone(), count: switches(m) as u32, bits }
    }

    pub fn file(&self) -> Vec<u8> {
        let two = |x: usize| (x as u16).to_le_bytes();
        let mut file = vec![self.m];
        file.extend([self.n, self.t].into_iter().flat_map(two));
        file.extend(self.g.iter().flat_map(|x| x.to_le_bytes()));
        file.extend(self.count.to_le_bytes());
        file.extend(&self.bits);
        file
    }

    /// The key: its support is the first n values that the network sends out, bit-reversed. Of more than 2^m there are none.
    fn key(&self) -> Key {
        let set: Vec<bool> = (0..switches(self.m)).map(|i| self.bits[i / 8] >> (i % 8) & 1 == 1).collect();
        let sent = permutation(self.m.into(), &set).into_iter().take(self.n);
        let support = sent.map(|value| reversed(self.m, value) as u16).collect();
        Key { m: self.m, n: self.n, t: self.t, support, g: self.g.clone() }
    }
}

/// The network's values for a key's support.
pub fn values(key: &Key) -> Vec<usize> {
    key.support.iter().map(|x| reversed(key.m, usize::from(*x))).collect()
}

/// The values that a key's support leaves, in rising order.
pub fn unused(key: &Key) -> Vec<usize> {
    let used = values(key);
    (0..1 << key.m).filter(|value| !used.contains(value)).collect()
}

/// The network file of a key that load accepts.
pub fn to_network(key: &Key) -> Vec<u8> {
    NetworkFile::of(key, &unused(key)).file()
}

/// The number of load_network for a file on an empty station, and the key where that is 0.
pub fn load_network(file: &[u8]) -> (u8, Option<Key>) {
    if file.first().and_then(|m| Field::of(*m)).is_none() {
        return (1, None);
    }
    let Some(parts) = NetworkFile::parse(file) else {
        return (2, None);
    };
    if parts.count as usize != switches(parts.m) {
        return (36, None);
    }
    let key = parts.key();
    match key.number() {
        0 => (0, Some(key)),
        number => (number, None),
    }
}
