//! Calls that name a recipient, through the C interface, beside what the second implementation says of them.

use shearcotter::raw::{Derived, Reply, Reported, Slot, Station};

use super::raw_calls::{self, empty, holding};
use crate::independent::recipients::{Answer, Call, Entry, Ledger, Named, NAMES};

/// What a call handed back and wrote.
pub struct Made {
    pub station: Station,
    pub answer: Answer,
    /// The whole workspace.
    pub work: Vec<u8>,
}

impl Made {
    fn reply(reply: Reply, call: &Call, out: Vec<u8>, work: Vec<u8>) -> Made {
        let answer = Answer { ones: reply.ones, out, ..Answer::refused(reply.refused, call) };
        Made { station: reply.station, answer, work }
    }

    fn reported(reported: &Reported, call: &Call, out: Vec<u8>) -> Made {
        let answer = Answer { counts: reported.counts, out, ..Answer::refused(reported.refused, call) };
        Made { station: reported.station, answer, work: vec![] }
    }

    fn derived(derived: &Derived, call: &Call) -> Made {
        let answer = Answer { key: derived.key, ..Answer::refused(derived.refused, call) };
        Made { station: derived.station, answer, work: vec![] }
    }
}

/// Makes the call on a station, with copies of the buffers that it is lent.
pub fn make(station: Station, named: &Named) -> Made {
    let (name, call) = (named.name, &named.call);
    let (mut out, mut work) = (call.out().to_vec(), call.work().to_vec());
    match call {
        Call::Load { file } => Made::reply(raw_calls::load(station, name, file), call, out, work),
        Call::LoadNetwork { file } => Made::reply(raw_calls::load_network(station, name, file), call, out, work),
        Call::Publish { .. } => {
            let reply = raw_calls::publish(station, name, &mut out, &mut work);
            Made::reply(reply, call, out, work)
        }
        Call::PublishSmall { .. } => {
            let reply = raw_calls::publish_small(station, name, &mut out, &mut work);
            Made::reply(reply, call, out, work)
        }
        Call::Open { capsule, .. } => {
            let reply = raw_calls::open(station, name, capsule, &mut out);
            Made::reply(reply, call, out, work)
        }
        Call::Read { word, .. } => {
            let reply = raw_calls::read(station, name, word, &mut out);
            Made::reply(reply, call, out, work)
        }
        Call::ReadMarked { word, marks, .. } => {
            let reply = raw_calls::read_marked(station, name, word, marks, &mut out);
            Made::reply(reply, call, out, work)
        }
        Call::Report { capsules, .. } => {
            let reported = raw_calls::report(station, name, capsules, &mut out);
            Made::reported(&reported, call, out)
        }
        Call::Session { capsule, secret } => Made::derived(&raw_calls::session(station, name, capsule, secret), call),
        Call::Drop => Made::reply(raw_calls::drop(station, name), call, out, work),
    }
}

fn slot(entry: &Entry) -> Slot {
    match entry.state {
        0 => empty(),
        state => holding(state, &entry.held.key),
    }
}

/// The station that a ledger describes.
pub fn station(ledger: &Ledger) -> Station {
    let [a, b] = NAMES.map(|name| slot(ledger.entry(name).expect("a name")));
    Station { a, b }
}

/// Makes the call on both sides: the answer, the whole station and the workspace are as the ledger says. The new station, and the
/// answer.
pub fn same(station_before: Station, ledger: &mut Ledger, named: &Named) -> (Station, Answer) {
    let expected = ledger.call(named);
    let made = make(station_before, named);
    assert_eq!(made.answer, expected, "{named:02x?}");
    assert!(made.station == station(ledger), "the station after {named:02x?}");
    let free = ledger.free(named, &expected);
    assert!(made.work[free..] == named.call.work()[free..], "the workspace after {named:02x?}");
    (made.station, expected)
}
