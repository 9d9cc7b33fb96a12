//! Readings of words with marks.

use crate::Pattern;

/// What [`Station::read_marked`](crate::Station::read_marked) gives: all differences from the code word, and how many of them
/// are at unmarked places.
#[derive(Clone, PartialEq, Eq, Debug)]
pub struct MarkedReading {
    differences: Pattern,
    unmarked: u16,
}

impl MarkedReading {
    /// Of the packed differences, whose ones are counted here, marked and unmarked ones together.
    pub(crate) fn new(differences: Vec<u8>, unmarked: u16) -> MarkedReading {
        let ones = differences.iter().map(|byte| byte.count_ones() as u16).sum();
        MarkedReading { differences: Pattern::new(differences, ones), unmarked }
    }

    /// The places where the given word differs from the code word, those at marked places included.
    pub fn differences(&self) -> &Pattern {
        &self.differences
    }

    /// The differences, handed over.
    pub fn into_differences(self) -> Pattern {
        self.differences
    }

    /// How many of the differences are at unmarked places, d. All together are [`differences().ones()`](Pattern::ones).
    pub fn unmarked(&self) -> u16 {
        self.unmarked
    }
}
