//! Trials of the conversions, and of the load of a network file.

use shearcotter::raw::{self, Converted};

use super::buffers::{awkward, cut, holding, noise};
use super::pool::Pool;
use super::stations::{self, file, Loading};
use super::Met;
use crate::independent::calls::{self as expected, Outcome};
use crate::independent::drawn_networks::DAMAGES;
use crate::independent::held::Held;
use crate::independent::network_key::load_network;
use crate::independent::random::Random;

/// A network file, mostly damaged.
fn network_file(random: &mut Random, held: &Held) -> Vec<u8> {
    let key = &held.key;
    match random.below(12) {
        0 => {
            let length = random.below(60);
            random.bytes(length)
        }
        1 => {
            let file = random.network_file(key);
            cut(random, file)
        }
        2 => {
            let mut file = random.network_file(key);
            let at = random.below(file.len());
            file[at] = random.number() as u8;
            file
        }
        3 => key.file(),
        4..=7 => {
            let number = *random.pick(&DAMAGES);
            random.damaged_network(key, number)
        }
        8 => random.network_noise(key),
        _ => random.network_file(key),
    }
}

const LOAD: Loading = Loading {
    name: "load_network",
    call: raw::shearcotter_load_network,
    number: expected::load_network,
    key: |file| load_network(file).1,
};

pub fn load(random: &mut Random, pool: &Pool) -> Met {
    let held = pool.key(random);
    let content = network_file(random, &held);
    stations::load_as(&LOAD, random, pool, &content)
}

/// A conversion: its C call, and what it answers and writes with so much room.
struct Converting {
    name: &'static str,
    call: unsafe extern "C" fn(*const u8, usize, *mut u8, usize) -> Converted,
    expected: fn(&[u8], usize) -> Outcome,
}

const TO: Converting =
    Converting { name: "to_network", call: raw::shearcotter_to_network, expected: expected::to_network };
const FROM: Converting =
    Converting { name: "from_network", call: raw::shearcotter_from_network, expected: expected::from_network };

/// Either conversion, with an output about as long as it needs.
pub fn convert(random: &mut Random, pool: &Pool) -> (&'static str, u8) {
    let held = pool.key(random);
    let (way, content) = match random.below(2) {
        0 => (&TO, file(random, &held)),
        _ => (&FROM, network_file(random, &held)),
    };
    let needed = (way.expected)(&content, usize::MAX).written.len();
    let room = awkward(random, needed);
    let (file, mut out) = (holding(random, &content), noise(random, room));
    let converted = unsafe { (way.call)(file.as_ptr(), file.len(), out.as_mut_ptr(), out.len()) };
    let expected = (way.expected)(&content, room);
    let answer = (converted.refused, converted.length);
    assert_eq!(answer, (expected.number, expected.written.len()), "{} {content:02x?} {room}", way.name);
    out.written(&expected.written);
    file.same();
    (way.name, expected.number)
}
