//! The memory of a process, by /proc.

use std::fs::{self, File};
use std::os::unix::fs::FileExt;

/// A stretch of memory: its name in the maps, `[stack]` and the like, and its bytes.
pub struct Stretch {
    pub name: String,
    pub bytes: Vec<u8>,
}

/// The readable private mappings of a process: heap, stacks, data, what is mapped without a file.
pub fn private(process: u32) -> Vec<Stretch> {
    let maps = fs::read_to_string(format!("/proc/{process}/maps")).expect("the maps of the child");
    let memory = File::open(format!("/proc/{process}/mem")).expect("the memory of the child");
    let stretches: Vec<Stretch> = maps.lines().filter_map(|line| stretch(line, &memory)).collect();
    assert!(stretches.iter().any(|stretch| stretch.name == "[stack]"), "no stack in the maps:\n{maps}");
    stretches
}

/// The stretch of a line of the maps: addresses, rights, offset, device, number, name. The kernel's own pages are none.
fn stretch(line: &str, memory: &File) -> Option<Stretch> {
    let fields: Vec<&str> = line.split_whitespace().collect();
    let (addresses, rights, name) = (fields[0], fields[1], fields.get(5).copied().unwrap_or(""));
    if !rights.starts_with('r') || !rights.ends_with('p') || name.starts_with("[v") {
        return None;
    }
    let (first, end) = addresses.split_once('-').expect("two addresses");
    let [first, end] = [first, end].map(|address| u64::from_str_radix(address, 16).expect("an address"));
    Some(Stretch { name: name.to_owned(), bytes: bytes(memory, first, (end - first) as usize) })
}

fn bytes(memory: &File, first: u64, length: usize) -> Vec<u8> {
    let mut bytes = vec![0; length];
    memory.read_exact_at(&mut bytes, first).unwrap_or_else(|error| panic!("memory from {first:x}: {error}"));
    bytes
}
