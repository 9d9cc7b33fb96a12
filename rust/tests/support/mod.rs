//! What the tests share: hexadecimal, buffers, the vectors' folder, the raw calls by slices, the forms of publish, runs of the tool,
//! terminals, memory.

pub mod forms;
#[cfg(target_os = "linux")]
pub mod memory;
pub mod named;
pub mod raw_calls;
pub mod run;
pub mod terminal;
pub mod vectors;

/// What every byte of an output is before a call.
pub const UNTOUCHED: u8 = 0xA5;

/// Whether an output begins with what was to be written, and every byte past that is untouched.
pub fn only_written(out: &[u8], written: &[u8]) -> bool {
    out.strip_prefix(written).is_some_and(|rest| rest.iter().all(|byte| *byte == UNTOUCHED))
}

/// Bytes from hexadecimal; `-` is none.
pub fn bytes(text: &str) -> Vec<u8> {
    if text == "-" {
        return vec![];
    }
    let digits: Vec<u32> = text.chars().map(|c| c.to_digit(16).expect("a digit")).collect();
    let pairs = digits.chunks_exact(2);
    assert!(pairs.remainder().is_empty(), "half a byte in {text}");
    pairs.map(|pair| (16 * pair[0] + pair[1]) as u8).collect()
}
