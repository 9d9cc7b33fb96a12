//! SHAKE256 beside the second implementation: inputs and outputs of many lengths.

use shearcotter::shake256;

use crate::independent::random::Random;
use crate::independent::shake;

/// Bytes of a block.
const RATE: usize = 136;

fn same(input: &[u8], length: usize) {
    let mut out = vec![0xA5; length];
    shake256(input, &mut out);
    assert!(out == shake::shake256(input, length), "{} bytes of {} bytes: {input:02x?}", length, input.len());
}

#[test]
fn inputs_of_every_length_to_1000() {
    let mut random = Random::new(51);
    for length in 0..=1000 {
        let out = random.below(601);
        same(&random.bytes(length), out);
    }
}

#[test]
fn outputs_of_every_length_to_600() {
    let mut random = Random::new(52);
    for out in 0..=600 {
        let length = random.below(1001);
        same(&random.bytes(length), out);
    }
}

/// A byte or two beside whole blocks, of input and of output; the last bytes of a block are padding, or there is a block of its own
/// for it.
#[test]
fn lengths_about_whole_blocks() {
    let mut random = Random::new(53);
    let about = |blocks: usize| (blocks * RATE).saturating_sub(3)..=blocks * RATE + 3;
    for blocks in 0..=12 {
        for length in about(blocks) {
            for out in about(blocks % 5) {
                same(&random.bytes(length), out);
            }
        }
    }
}

#[test]
fn zeros_and_ones_only() {
    for length in 0..=300 {
        same(&vec![0x00; length], 32);
        same(&vec![0xFF; length], 32);
    }
}

#[test]
fn long_inputs_and_outputs() {
    let mut random = Random::new(54);
    for (length, out) in [(100_000, 64), (200_001, 1), (0, 100_000), (5, 200_001), (136 * 500, 136 * 500)] {
        same(&random.bytes(length), out);
    }
}
