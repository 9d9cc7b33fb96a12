//! Two recipients, from request L6: a name before all else, and a ledger of two entries, each by the calls that name it alone.

use std::sync::Arc;

use super::calls::{self, Outcome};
use super::held::Held;
use super::key::Key;
use super::network_key::load_network;

/// The names of A and B.
pub const NAMES: [u8; 2] = [1, 2];

/// A call with what it is lent; outputs and workspaces have their contents before the call.
#[derive(Clone, PartialEq, Eq, Debug)]
pub enum Call {
    Load { file: Vec<u8> },
    LoadNetwork { file: Vec<u8> },
    Publish { out: Vec<u8>, work: Vec<u8> },
    PublishSmall { out: Vec<u8>, work: Vec<u8> },
    Open { capsule: Vec<u8>, out: Vec<u8> },
    Read { word: Vec<u8>, out: Vec<u8> },
    ReadMarked { word: Vec<u8>, marks: Vec<u8>, out: Vec<u8> },
    Report { capsules: Vec<u8>, out: Vec<u8> },
    Session { capsule: Vec<u8>, secret: Vec<u8> },
    Drop,
}

impl Call {
    pub fn kind(&self) -> &'static str {
        match self {
            Call::Load { .. } => "load",
            Call::LoadNetwork { .. } => "load_network",
            Call::Publish { .. } => "publish",
            Call::PublishSmall { .. } => "publish_small",
            Call::Open { .. } => "open",
            Call::Read { .. } => "read",
            Call::ReadMarked { .. } => "read_marked",
            Call::Report { .. } => "report",
            Call::Session { .. } => "session",
            Call::Drop => "drop",
        }
    }

    /// The output as it is lent.
    pub fn out(&self) -> &[u8] {
        match self {
            Call::Publish { out, .. }
            | Call::PublishSmall { out, .. }
            | Call::Open { out, .. }
            | Call::Read { out, .. }
            | Call::ReadMarked { out, .. }
            | Call::Report { out, .. } => out,
            Call::Load { .. } | Call::LoadNetwork { .. } | Call::Session { .. } | Call::Drop => &[],
        }
    }

    /// The workspace as it is lent.
    pub fn work(&self) -> &[u8] {
        match self {
            Call::Publish { work, .. } | Call::PublishSmall { work, .. } => work,
            _ => &[],
        }
    }
}

#[derive(Clone, PartialEq, Eq, Debug)]
pub struct Named {
    pub name: u8,
    pub call: Call,
}

/// All that a call hands back or writes, but the station and the workspace.
#[derive(Clone, PartialEq, Eq, Debug)]
pub struct Answer {
    pub number: u8,
    pub ones: u16,
    /// The whole output.
    pub out: Vec<u8>,
    pub counts: [usize; 256],
    pub key: [u8; 32],
}

impl Answer {
    /// The answer with a number and nothing else: the output as it was lent.
    pub fn refused(number: u8, call: &Call) -> Answer {
        Answer { number, ones: 0, out: call.out().to_vec(), counts: [0; 256], key: [0; 32] }
    }

    fn written(outcome: &Outcome, call: &Call) -> Answer {
        let mut answer = Answer::refused(outcome.number, call);
        answer.ones = outcome.ones;
        answer.out[..outcome.written.len()].copy_from_slice(&outcome.written);
        answer
    }
}

/// What a recipient has: its state, and its key where that is not 0.
#[derive(Clone)]
pub struct Entry {
    pub state: u8,
    pub held: Arc<Held>,
}

impl Entry {
    fn blank() -> Entry {
        let none = Key { m: 0, n: 0, t: 0, support: vec![], g: vec![] };
        Entry { state: 0, held: Arc::new(Held::new(none)) }
    }

    fn loaded(key: Option<Key>) -> Entry {
        Entry { state: 1, held: Arc::new(Held::new(key.expect("a key"))) }
    }

    /// What a call by its name answers, and how it leaves the entry.
    fn call(&mut self, call: &Call) -> Answer {
        let (state, held) = (self.state, Arc::clone(&self.held));
        let answer = match call {
            Call::Load { file } => Answer::refused(calls::load(state, file), call),
            Call::LoadNetwork { file } => Answer::refused(calls::load_network(state, file), call),
            Call::Publish { out, work } => Answer::written(&calls::publish(state, &held, out.len(), work.len()), call),
            Call::PublishSmall { out, work } => {
                Answer::written(&calls::publish_small(state, &held, out.len(), work.len()), call)
            }
            Call::Open { capsule, out } => Answer::written(&calls::open(state, &held, capsule, out.len()), call),
            Call::Read { word, out } => Answer::written(&calls::read(state, &held, word, out.len()), call),
            Call::ReadMarked { word, marks, out } => {
                Answer::written(&calls::read_marked(state, &held, word, marks, out.len()), call)
            }
            Call::Report { capsules, out } => {
                let outcome = calls::report(state, &held, capsules, out.len());
                Answer { counts: calls::counts(&outcome.written), ..Answer::written(&outcome, call) }
            }
            Call::Session { capsule, secret } => {
                let (number, key) = calls::session(state, &held, capsule, secret);
                Answer { key, ..Answer::refused(number, call) }
            }
            Call::Drop => Answer::refused(calls::drop(state), call),
        };
        if answer.number == 0 {
            self.accepted(call);
        }
        answer
    }

    fn accepted(&mut self, call: &Call) {
        match call {
            Call::Load { file } => *self = Entry::loaded(Key::parse(file)),
            Call::LoadNetwork { file } => *self = Entry::loaded(load_network(file).1),
            Call::Publish { .. } | Call::PublishSmall { .. } => self.state = 2,
            Call::Drop => *self = Entry::blank(),
            _ => {}
        }
    }
}

/// Both recipients' entries.
#[derive(Clone)]
pub struct Ledger {
    a: Entry,
    b: Entry,
}

impl Ledger {
    pub fn blank() -> Ledger {
        Ledger { a: Entry::blank(), b: Entry::blank() }
    }

    /// The entry with a name; none for a byte that is no name.
    pub fn entry(&self, name: u8) -> Option<&Entry> {
        match name {
            1 => Some(&self.a),
            2 => Some(&self.b),
            _ => None,
        }
    }

    /// What a call answers: 35 where its name is neither, and nothing changes.
    pub fn call(&mut self, named: &Named) -> Answer {
        match named.name {
            1 => self.a.call(&named.call),
            2 => self.b.call(&named.call),
            _ => Answer::refused(35, &named.call),
        }
    }

    /// How many bytes of the workspace have free contents after a call that is answered so: those of the key that it names.
    pub fn free(&self, named: &Named, answer: &Answer) -> usize {
        match (&named.call, self.entry(named.name), answer.number) {
            (Call::Publish { .. }, Some(entry), 0 | 23) => entry.held.key.work_length(),
            (Call::PublishSmall { .. }, Some(entry), 0 | 23) => entry.held.key.small_work_length(),
            _ => 0,
        }
    }
}
