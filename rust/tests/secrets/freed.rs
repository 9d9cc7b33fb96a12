//! Heap blocks at the moment when they are freed: the program's allocator, which looks at them on request.

use std::alloc::{GlobalAlloc, Layout, System};
use std::cell::Cell;
use std::mem::size_of;
use std::slice;

use shearcotter::{raw, Name, Refusal, Shape, Station, Workspace};

use super::child::FOLDER;
use crate::bench_keys::K3;
use crate::support::vectors;

thread_local! {
    /// The size of the blocks to look at; 0 for none.
    static SIZE: Cell<usize> = const { Cell::new(0) };
    static BLOCKS: Cell<usize> = const { Cell::new(0) };
    static NOT_ZERO: Cell<usize> = const { Cell::new(0) };
}

struct Looking;

#[global_allocator]
static LOOKING: Looking = Looking;

unsafe impl GlobalAlloc for Looking {
    unsafe fn alloc(&self, layout: Layout) -> *mut u8 {
        System.alloc(layout)
    }

    unsafe fn alloc_zeroed(&self, layout: Layout) -> *mut u8 {
        System.alloc_zeroed(layout)
    }

    unsafe fn dealloc(&self, block: *mut u8, layout: Layout) {
        if SIZE.get() == layout.size() {
            let bytes = slice::from_raw_parts(block, layout.size());
            BLOCKS.set(BLOCKS.get() + 1);
            NOT_ZERO.set(NOT_ZERO.get() + bytes.iter().filter(|byte| **byte != 0).count());
        }
        System.dealloc(block, layout);
    }
}

/// How many blocks of a size this thread frees in a run, and how many of their bytes are not 0 then.
fn freed(size: usize, run: impl FnOnce()) -> (usize, usize) {
    BLOCKS.set(0);
    NOT_ZERO.set(0);
    SIZE.set(size);
    run();
    SIZE.set(0);
    (BLOCKS.get(), NOT_ZERO.get())
}

#[test]
fn blocks_are_zeros_when_freed() {
    let at = |name: &str| vectors::file(&format!("{FOLDER}/{name}"));
    let shape = Shape::MCELIECE348864;
    let mut station = Station::fresh();
    station.load(Name::A, &at("key.bin")).expect("load accepts");
    for workspace in Workspace::BOTH {
        let mut public = vec![];
        let publish = || public = station.publish_with(Name::A, workspace).expect("publish accepts");
        assert_eq!(freed(workspace.length(shape), publish), (1, 0), "{workspace:?}");
        assert_eq!(public.len(), shape.public_length());
    }
    let pattern = station.open(Name::A, &at("capsule.bin")).expect("it opens");
    let (word, ones) = (pattern.bytes().to_vec(), pattern.clone().into_bytes());
    assert_eq!(freed(shape.pattern_length(), || drop(pattern)), (1, 0));
    let read = station.read(Name::A, &word).expect("it reads");
    assert_eq!(freed(shape.pattern_length(), || drop(read)), (1, 0));
    let marked = station.read_marked(Name::A, &word, &vec![0; word.len()]).expect("it reads");
    assert_eq!(freed(shape.pattern_length(), || drop(marked)), (1, 0));
    assert_eq!(freed(size_of::<raw::Station>(), || drop(station)), (1, 0));
    // What `into_bytes` hands over is the caller's, and shows that bytes other than 0 are seen.
    let (blocks, bytes) = freed(shape.pattern_length(), || drop(ones));
    assert!(blocks == 1 && bytes > 32, "{blocks} blocks, {bytes} bytes");
}

#[test]
fn a_refused_publish_frees_zeros() {
    let mut station = Station::fresh();
    station.load(Name::A, &K3).expect("load accepts");
    for workspace in Workspace::BOTH {
        let length = station.shape(Name::A).map_or(0, |shape| workspace.length(shape));
        let refused = Err(Refusal::DependentColumns);
        let (blocks, bytes) = freed(length, || assert_eq!(station.publish_with(Name::A, workspace), refused));
        assert!(blocks > 0 && bytes == 0, "{workspace:?}: {blocks} blocks, {bytes} bytes");
    }
}
