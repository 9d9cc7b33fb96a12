//! The two forms of publish: through the C interface, in the crate, and by the second implementation.

use shearcotter::raw::{self, Reply, Slot, Station};
use shearcotter::Workspace;

use super::raw_calls::{self, placed, with};
use super::{only_written, UNTOUCHED};
use crate::independent::calls::{self, Outcome};
use crate::independent::held::Held;
use crate::independent::key::Key;

pub struct Form {
    pub name: &'static str,
    /// What chooses it in the crate.
    pub workspace: Workspace,
    /// The C call, and the same on slices.
    pub raw: unsafe extern "C" fn(Station, u8, *mut u8, usize, *mut u8, usize) -> Reply,
    pub call: fn(Station, u8, &mut [u8], &mut [u8]) -> Reply,
    /// Bytes of workspace that it needs.
    pub needed: fn(&Key) -> usize,
    /// What it answers on a slot in a state with an output and a workspace of these lengths.
    pub expected: fn(u8, &Held, usize, usize) -> Outcome,
}

pub const FORMS: [Form; 2] = [
    Form {
        name: "publish",
        workspace: Workspace::Full,
        raw: raw::shearcotter_publish,
        call: raw_calls::publish,
        needed: Key::work_length,
        expected: calls::publish,
    },
    Form {
        name: "publish_small",
        workspace: Workspace::Small,
        raw: raw::shearcotter_publish_small,
        call: raw_calls::publish_small,
        needed: Key::small_work_length,
        expected: calls::publish_small,
    },
];

impl Form {
    /// Publishes the key in a slot, under each name, with an output of so many bytes and a copy of the workspace: the answer, every
    /// byte of both, and the station are as expected. The number.
    pub fn same(&self, slot: &Slot, held: &Held, out: usize, work: &[u8]) -> u8 {
        let expected = (self.expected)(slot.state, held, out, work.len());
        let free = if matches!(expected.number, 0 | 23) { (self.needed)(&held.key) } else { 0 };
        for (name, station) in placed(*slot) {
            let said = || format!("{} of {name}, {out} and {} bytes: {:?}", self.name, work.len(), held.key);
            let (mut out, mut lent) = (vec![UNTOUCHED; out], work.to_vec());
            let reply = (self.call)(station, name, &mut out, &mut lent);
            assert_eq!((reply.refused, reply.ones), (expected.number, 0), "{}", said());
            assert!(only_written(&out, &expected.written), "the output after {}", said());
            assert!(lent[free..] == work[free..], "the workspace after {}", said());
            let state = if reply.refused == 0 { raw::PUBLISHED } else { slot.state };
            assert!(reply.station == with(station, name, Slot { state, ..*slot }), "the station after {}", said());
        }
        expected.number
    }
}
