//! What is looked for in memory: the key, the pattern, the secret, session keys, control bits, and numbers that opening and conversions
//! work out.

use std::collections::{BTreeMap, HashMap};

use super::child::{FOLDER, SECOND};
use super::{G, KEY, PATTERN, SECOND_G, SECOND_KEY, SECRET, SESSION, SETTINGS};
use crate::independent::bits::places;
use crate::independent::key::Key;
use crate::independent::network_key;
use crate::independent::poly;
use crate::support::memory::Stretch;
use crate::support::vectors;

/// How often a secret is found, and in which mappings, by the secret's name.
pub type Found = BTreeMap<&'static str, (usize, Vec<String>)>;

/// The first bytes of a part decide where it may be.
const FIRST: usize = 16;
/// Elements in a part.
const ELEMENTS: usize = 8;
/// Bytes in a part of a pattern, and the ones that it has at least.
const BYTES: usize = 32;
const ONES: u32 = 6;

struct Part {
    name: &'static str,
    bytes: Vec<u8>,
}

/// Parts of the secrets, by their first bytes as a number.
pub struct Secrets {
    parts: HashMap<u128, Vec<Part>>,
    /// The digests that occur, so that few places are looked up.
    likely: Vec<bool>,
}

fn number(bytes: &[u8]) -> u128 {
    u128::from_le_bytes(bytes[..FIRST].try_into().expect("the first bytes"))
}

/// Sixteen digits from all of a number.
fn digest(number: u128) -> usize {
    let folded = (number ^ number >> 64) as u64;
    (folded.wrapping_mul(0x9E37_79B9_7F4A_7C15) >> 48) as usize
}

impl Secrets {
    fn new() -> Secrets {
        Secrets { parts: HashMap::new(), likely: vec![false; 1 << 16] }
    }

    /// A part counts under the first name that has it.
    fn add(&mut self, name: &'static str, bytes: Vec<u8>) {
        let first = number(&bytes);
        let known = self.parts.entry(first).or_default();
        if first != 0 && known.iter().all(|part| part.bytes != bytes) {
            self.likely[digest(first)] = true;
            known.push(Part { name, bytes });
        }
    }

    /// All parts of a list of numbers of two bytes.
    fn add_list(&mut self, name: &'static str, list: &[u16]) {
        for part in list.windows(ELEMENTS) {
            self.add(name, part.iter().flat_map(|x| x.to_le_bytes()).collect());
        }
    }

    fn add_bits(&mut self, name: &'static str, bits: &[u8]) {
        let ones = |part: &&[u8]| part.iter().map(|byte| byte.count_ones()).sum::<u32>() >= ONES;
        for part in bits.windows(BYTES).filter(ones) {
            self.add(name, part.to_vec());
        }
    }

    /// The child's keys, pattern, secret, session keys and control bits, and what is worked out from the first key and the pattern.
    pub fn of_the_vector() -> Secrets {
        let at = |part: &str| vectors::file(&format!("{FOLDER}/{part}"));
        let key = Key::parse(&at("key.bin")).expect("a key");
        let pattern = at("pattern.bin");
        let mut secrets = Secrets::new();
        secrets.add_list(KEY, &key.support);
        secrets.add_list(G, &key.g);
        secrets.add_bits(PATTERN, &pattern);
        secrets.add_bits(SECRET, &at("secret.bin"));
        for name in ["session.bin", "session_capsule_reject.bin"] {
            at(name).windows(FIRST).for_each(|part| secrets.add(SESSION, part.to_vec()));
        }
        secrets.add_worked_out(&key, &places(key.n, &pattern));
        for name in ["control_bits.bin", "key_network.bin"] {
            secrets.add_bits(SETTINGS, &at(name)[2 * key.t..]);
        }
        let values: Vec<u16> = network_key::values(&key).iter().map(|value| *value as u16).collect();
        secrets.add_list("values of the network", &values);
        let second = Key::parse(&vectors::file(&format!("{SECOND}/key.bin"))).expect("a key");
        secrets.add_list(SECOND_KEY, &second.support);
        secrets.add_list(SECOND_G, &second.g);
        secrets
    }

    /// What opening leaves on the stack: the points of the pattern, g's values there, and the register.
    fn add_worked_out(&mut self, key: &Key, pattern: &[usize]) {
        let (field, g) = (key.field(), key.polynomial());
        let points: Vec<u16> = pattern.iter().map(|place| key.support[*place]).collect();
        let values: Vec<u16> = points.iter().map(|x| poly::value(field, &g, *x)).collect();
        let by_point = |product: Vec<u16>, x: &u16| poly::multiply(field, &product, &[1, *x]);
        self.add_list("points of the pattern", &points);
        self.add_list("g at the points", &values);
        self.add_list("register", &points.iter().fold(vec![1], by_point));
    }

    pub fn in_memory(&self, memory: &[Stretch]) -> Found {
        let mut found = Found::new();
        for stretch in memory {
            for (at, window) in stretch.bytes.windows(FIRST).enumerate() {
                let first = number(window);
                if first != 0 && self.likely[digest(first)] {
                    self.count(first, &stretch.bytes[at..], &stretch.name, &mut found);
                }
            }
        }
        found
    }

    fn count(&self, first: u128, bytes: &[u8], place: &str, found: &mut Found) {
        for part in self.parts.get(&first).into_iter().flatten().filter(|part| bytes.starts_with(&part.bytes)) {
            let (count, places) = found.entry(part.name).or_default();
            *count += 1;
            if !places.iter().any(|name| name == place) {
                places.push(place.to_owned());
            }
        }
    }
}
