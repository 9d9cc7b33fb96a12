//! Reports on capsules: a record for each, and how often each number stands in the records.

use std::fmt;

use crate::{raw, Refusal};

/// How many records have each number: 0 for opened, else the number of a capsule's refusal.
///
/// Its text is that of the opening program's last line, as `total 3 opened 1 refused 2`. Records of several reports are
/// counted together by `extend`:
///
/// ```
/// use shearcotter::Counts;
///
/// let mut counts: Counts = [0, 13, 9].into_iter().collect();
/// counts.extend([0, 8]);
/// assert_eq!(counts.to_string(), "total 5 opened 2 refused 3");
/// ```
#[derive(Clone, PartialEq, Eq, Debug)]
pub struct Counts(Box<[usize; raw::BYTE_VALUES]>);

impl Counts {
    pub(crate) fn as_mut(&mut self) -> &mut [usize; raw::BYTE_VALUES] {
        &mut self.0
    }

    /// The count of one number.
    pub fn of(&self, number: u8) -> usize {
        self.0[usize::from(number)]
    }

    /// The number of capsules, a short tail included.
    pub fn total(&self) -> usize {
        self.0.iter().sum()
    }

    /// How many were opened.
    pub fn opened(&self) -> usize {
        self.of(0)
    }

    /// How many were refused.
    pub fn refused(&self) -> usize {
        self.total() - self.opened()
    }

    /// The numbers that occur, rising, with their counts.
    pub fn occurring(&self) -> impl Iterator<Item = (u8, usize)> + '_ {
        (0..=u8::MAX).map(|number| (number, self.of(number))).filter(|(_, count)| *count > 0)
    }
}

/// The counts of no records.
impl Default for Counts {
    fn default() -> Counts {
        Counts(Box::new([0; raw::BYTE_VALUES]))
    }
}

/// Counts further records.
impl Extend<u8> for Counts {
    fn extend<I: IntoIterator<Item = u8>>(&mut self, records: I) {
        for record in records {
            self.0[usize::from(record)] += 1;
        }
    }
}

/// The counts of records.
impl FromIterator<u8> for Counts {
    fn from_iter<I: IntoIterator<Item = u8>>(records: I) -> Counts {
        let mut counts = Counts::default();
        counts.extend(records);
        counts
    }
}

impl fmt::Display for Counts {
    fn fmt(&self, f: &mut fmt::Formatter<'_>) -> fmt::Result {
        write!(f, "total {} opened {} refused {}", self.total(), self.opened(), self.refused())
    }
}

/// What [`Station::report`](crate::Station::report) gives: a record for each capsule, in their order, and the counts.
#[derive(Clone, PartialEq, Eq, Debug)]
pub struct Report {
    records: Vec<u8>,
    counts: Counts,
}

impl Report {
    pub(crate) fn new(records: Vec<u8>, counts: Counts) -> Report {
        Report { records, counts }
    }

    /// The records: a byte for each capsule, 0 for opened, else the number of its refusal.
    pub fn records(&self) -> &[u8] {
        &self.records
    }

    /// The records, handed over.
    pub fn into_records(self) -> Vec<u8> {
        self.records
    }

    /// How often each number stands in the records.
    pub fn counts(&self) -> &Counts {
        &self.counts
    }

    /// For each capsule whether it was opened, or why not.
    pub fn answers(&self) -> impl Iterator<Item = Result<(), Refusal>> + '_ {
        self.records.iter().map(|record| Refusal::check(*record))
    }
}
