//! The keys that capsules are opened with: A's, and with `--second` B's too.

use std::ffi::OsStr;
use std::sync::atomic::{AtomicUsize, Ordering};

use shearcotter::{Counts, Name, Pattern, Refusal, Report, Shape, Station};

use crate::arguments::Given;
use crate::commands::SECOND;
use crate::explain::{self, Row};
use crate::failure::Failure;
use crate::{keys, names};

/// A station that has published A's key, and B's where there is one. Capsules of both have the same number of bytes.
pub struct Recipients {
    station: Station,
    shape: Shape,
    /// B's.
    second: Option<Second>,
}

struct Second {
    shape: Shape,
    /// How many capsules were opened under it.
    opened: AtomicUsize,
}

impl Recipients {
    /// A alone, on a station that holds its key.
    pub fn one(station: Station, shape: Shape) -> Recipients {
        Recipients { station, shape, second: None }
    }

    /// A has the key that is named, and B that of the option.
    pub fn published(given: &Given, key: &OsStr) -> Result<Recipients, Failure> {
        let mut station = Station::fresh();
        let shape = keys::publish_for(station.recipient_mut(Name::A), key)?;
        let Some(other) = given.file(SECOND) else {
            return Ok(Recipients::one(station, shape));
        };
        let second = keys::publish_for(station.recipient_mut(Name::B), other)?;
        let [bytes, others] = [shape, second].map(Shape::capsule_length);
        if bytes != others {
            let [key, other] = [key, other].map(names::input);
            return Err(Failure::usage(format!("{key} has capsules of length {bytes}, and {other} of {others}")));
        }
        Ok(Recipients { station, shape, second: Some(Second { shape: second, opened: AtomicUsize::new(0) }) })
    }

    /// A's shape, which goes for capsules of both.
    pub fn shape(&self) -> Shape {
        self.shape
    }

    /// A usage failure where patterns back to back would have different lengths.
    pub fn of_one_length(&self) -> Result<(), Failure> {
        match &self.second {
            Some(second) if second.shape.n() != self.shape.n() => {
                let [n, other] = [self.shape, second.shape].map(Shape::n);
                Err(Failure::usage(format!("raw is for patterns of one length, and these have {n} and {other} bits")))
            }
            _ => Ok(()),
        }
    }

    /// Under A, and where that has no pattern for it under B; with two keys the name too. What B does not open is refused as A has it.
    pub fn open(&self, capsule: &[u8]) -> Result<(Option<Name>, Pattern), Refusal> {
        let first = self.station.open(Name::A, capsule);
        let Some(second) = &self.second else {
            return first.map(|pattern| (None, pattern));
        };
        if first != Err(Refusal::NoPattern) {
            return first.map(|pattern| (Some(Name::A), pattern));
        }
        let pattern = self.station.open(Name::B, capsule).map_err(|_| Refusal::NoPattern)?;
        second.opened.fetch_add(1, Ordering::Relaxed);
        Ok((Some(Name::B), pattern))
    }

    /// A record for each capsule: A's, and where that is 13 and B opens it, B's.
    pub fn report(&self, capsules: &[u8]) -> Result<Vec<u8>, Refusal> {
        let mut records = self.station.report(Name::A, capsules).map(Report::into_records)?;
        let Some(second) = &self.second else {
            return Ok(records);
        };
        let left = |record: &u8| *record == Refusal::NoPattern.number();
        let parts = capsules.chunks(self.shape.capsule_length()).zip(&records);
        let tried: Vec<u8> = parts.filter(|(_, record)| left(record)).flat_map(|(part, _)| part).copied().collect();
        let report = self.station.report(Name::B, &tried)?;
        second.opened.fetch_add(report.counts().opened(), Ordering::Relaxed);
        let places = records.iter_mut().filter(|record| left(record)).zip(report.records());
        places.filter(|(_, other)| **other == 0).for_each(|(record, _)| *record = 0);
        Ok(records)
    }

    /// How many capsules were opened or refused, once all are.
    pub fn tally(&self, counts: Counts) -> Tally {
        Tally { counts, second: self.second.as_ref().map(|second| second.opened.load(Ordering::Relaxed)) }
    }
}

/// How many rows have each number, and with two keys how many of those opened were opened under B.
pub struct Tally {
    pub counts: Counts,
    second: Option<usize>,
}

/// Of one key.
impl From<Counts> for Tally {
    fn from(counts: Counts) -> Tally {
        Tally { counts, second: None }
    }
}

impl Tally {
    /// How many each name opened, where there are two keys and it opened some.
    pub fn names(&self) -> Vec<(String, usize)> {
        let Some(second) = self.second else { return vec![] };
        let opened = [(Name::A, self.counts.opened() - second), (Name::B, second)];
        let some = opened.into_iter().filter(|(_, count)| *count > 0);
        some.map(|(name, count)| (format!("{} under {name}", Row::Capsule.accepted()), count)).collect()
    }

    /// What the numbers that occur say of the rows: number, words, count. With two keys 0 stands by the names.
    pub fn lines(&self, kind: Row) -> Vec<(u8, String, usize)> {
        let mut lines: Vec<_> = self.names().into_iter().map(|(words, count)| (0, words, count)).collect();
        let others = self.counts.occurring().filter(|(number, _)| *number > 0 || self.second.is_none());
        lines.extend(others.map(|(number, count)| (number, explain::number(kind, number), count)));
        lines
    }
}
