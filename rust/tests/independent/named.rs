//! Random lists of calls that name either recipient, or neither, drawn beside a ledger so that rows fit the keys that are held.

use std::sync::Arc;

use super::drawn::{marked_about, near_code_word};
use super::drawn_networks::DAMAGES;
use super::held::Held;
use super::matrix;
use super::random::Random;
use super::recipients::{Call, Ledger, Named, NAMES};

/// Which of the calls are drawn, each as often as it stands there.
pub type Kinds = [&'static str];

/// What calls are drawn from.
pub struct Drawing<'a> {
    pub random: &'a mut Random,
    pub keys: &'a [Held],
    /// One of so many names is neither A nor B.
    pub unknown: usize,
    /// The numbers of damaged key files.
    pub damages: &'a [u8],
    /// The most bytes of a key file or a secret.
    pub longest: usize,
}

impl Drawing<'_> {
    /// A call of one of the kinds, and what comes of it for the ledger.
    pub fn call(&mut self, ledger: &mut Ledger, kinds: &Kinds) -> Named {
        let name = self.name();
        let kind = self.kind(ledger.entry(name).map(|entry| entry.state), kinds);
        let held = ledger.entry(name).filter(|entry| entry.state != 0).map(|entry| Arc::clone(&entry.held));
        let keys = self.keys;
        let call = match &held {
            Some(held) => self.fitting(kind, held),
            None => {
                let held = self.random.pick(keys);
                self.fitting(kind, held)
            }
        };
        let named = Named { name, call };
        ledger.call(&named);
        named
    }

    /// A list of calls from a blank ledger.
    pub fn list(&mut self, length: usize, kinds: &Kinds) -> Vec<Named> {
        let mut ledger = Ledger::blank();
        (0..length).map(|_| self.call(&mut ledger, kinds)).collect()
    }

    /// Any of the kinds, or the one that a recipient in that state waits for.
    fn kind(&mut self, state: Option<u8>, kinds: &Kinds) -> &'static str {
        match state {
            Some(0) if self.random.one_in(2) => self.either("load", "load_network", kinds),
            Some(1) if self.random.one_in(3) => self.either("publish", "publish_small", kinds),
            _ => kinds[self.random.below(kinds.len())],
        }
    }

    /// Either form of a call, where both are drawn.
    fn either(&mut self, first: &'static str, second: &'static str, kinds: &Kinds) -> &'static str {
        if kinds.contains(&second) && self.random.one_in(2) {
            second
        } else {
            first
        }
    }

    fn name(&mut self) -> u8 {
        if !self.random.one_in(self.unknown) {
            return *self.random.pick(&NAMES);
        }
        loop {
            let any = self.random.number() as u8;
            let name = *self.random.pick(&[0, 3, 255, any]);
            if !NAMES.contains(&name) {
                return name;
            }
        }
    }

    /// A call with buffers that fit a key, mostly.
    fn fitting(&mut self, kind: &str, held: &Held) -> Call {
        let key = &held.key;
        match kind {
            "load" => Call::Load { file: self.file() },
            "load_network" => Call::LoadNetwork { file: self.network_file() },
            "publish" => {
                let (out, work) = (self.buffer(key.public_length()), self.buffer(key.work_length()));
                Call::Publish { out, work }
            }
            "publish_small" => {
                let (out, work) = (self.buffer(key.public_length()), self.buffer(key.small_work_length()));
                Call::PublishSmall { out, work }
            }
            "open" => Call::Open { capsule: self.capsule(held), out: self.buffer(key.n.div_ceil(8)) },
            "read" => Call::Read { word: self.word(held), out: self.buffer(key.n.div_ceil(8)) },
            "read_marked" => {
                let (word, marks) = self.marked(held);
                Call::ReadMarked { word, marks, out: self.buffer(key.n.div_ceil(8)) }
            }
            "report" => {
                let count = self.random.below(5);
                let mut capsules: Vec<u8> = (0..count).flat_map(|_| self.capsule(held)).collect();
                let tail = self.random.below(2);
                capsules.extend(self.random.bytes(tail));
                let needed = capsules.len().div_ceil(key.capsule_bits().div_ceil(8));
                Call::Report { capsules, out: self.buffer(needed) }
            }
            "session" => Call::Session { capsule: self.capsule(held), secret: self.secret(key.n) },
            "drop" => Call::Drop,
            other => panic!("no such call: {other}"),
        }
    }

    /// A file of one of the keys, one in six of them damaged.
    fn file(&mut self) -> Vec<u8> {
        let keys = self.keys;
        let key = &self.random.pick(keys).key;
        if !self.random.one_in(6) {
            return key.file();
        }
        loop {
            let number = *self.random.pick(self.damages);
            let file = self.random.damaged(key, if number == 6 && key.t == 1 { 7 } else { number });
            if file.len() <= self.longest {
                return file;
            }
        }
    }

    /// A network file of one of the keys, one in six of them damaged, or of the other form.
    fn network_file(&mut self) -> Vec<u8> {
        let keys = self.keys;
        let key = &self.random.pick(keys).key;
        match self.random.below(12) {
            0 => key.file(),
            1 | 2 => {
                let number = *self.random.pick(&DAMAGES);
                self.random.damaged_network(key, number)
            }
            _ => self.random.network_file(key),
        }
    }

    /// A secret for patterns of n bits, mostly.
    fn secret(&mut self, n: usize) -> Vec<u8> {
        loop {
            let secret = self.random.secret(n);
            if secret.len() <= self.longest {
                return secret;
            }
        }
    }

    /// A buffer with contents of its own, of the length that is needed or about it.
    fn buffer(&mut self, needed: usize) -> Vec<u8> {
        let length = match self.random.below(8) {
            0 => needed.saturating_sub(1),
            1 => needed + 1,
            2 => needed + self.random.below(6),
            _ => needed,
        };
        vec![self.random.number() as u8; length]
    }

    /// A capsule of a pattern under the key or under another, a random row, or one of another length or with filler.
    fn capsule(&mut self, held: &Held) -> Vec<u8> {
        let keys = self.keys;
        let locked = match self.random.below(8) {
            0..=3 => held,
            4 | 5 => self.random.pick(keys),
            6 => return self.random.row(held.key.capsule_bits()),
            _ => {
                let length = self.random.below(4);
                return self.random.bytes(length);
            }
        };
        let (key, pattern) = (&locked.key, self.random.pattern(locked.key.n, locked.key.t));
        match locked.public() {
            Some(public) => matrix::lock(key.m, key.n, key.t, public, &pattern),
            None => self.random.row(key.capsule_bits()),
        }
    }

    /// A word and marks about the bound, marks of another length or with filler, a word as for read with any marks, or none set.
    fn marked(&mut self, held: &Held) -> (Vec<u8>, Vec<u8>) {
        let n = held.key.n;
        match self.random.below(6) {
            0 => (self.word(held), self.random.row(n)),
            1 => (self.word(held), vec![0; n.div_ceil(8)]),
            _ => {
                let [word, marks, _] = marked_about(self.random, held);
                (word, self.random.mostly_fitting(n, marks))
            }
        }
    }

    /// A word near a code word, a random one, or one of another length or with filler.
    fn word(&mut self, held: &Held) -> Vec<u8> {
        match self.random.below(6) {
            0 => self.random.row(held.key.n),
            1 => {
                let length = self.random.below(4);
                self.random.bytes(length)
            }
            _ => {
                let errors = self.random.below(held.key.t + 2);
                near_code_word(self.random, held, errors)
            }
        }
    }
}
