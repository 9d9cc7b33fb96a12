//! `report`: how many capsules of a file have each number, and a record for each.

use std::ffi::OsStr;
use std::iter;

use crate::arguments::Given;
use crate::commands::RECORDS;
use crate::explain::{self, Row};
use crate::failure::{self, Failure};
use crate::files::{Output, STANDARD};
use crate::recipients::{Recipients, Tally};
use crate::rows::{self, Rows};
use crate::status::Status;
use crate::table::QUIET;
use crate::{help, names, opening};

const KIND: Row = Row::Capsule;

/// The command `report`.
pub fn report(given: &Given) -> Result<Status, Failure> {
    let [key, file] = given.operands();
    let recipients = Recipients::published(given, key)?;
    let rows = Rows::new(file, recipients.shape().capsule_length(), KIND.plural(), !given.has(QUIET))?;
    let mut out = given.file(RECORDS).map(Output::create).transpose()?;
    let records = |capsules: &[u8]| records(&recipients, file, capsules);
    let counts = rows::blocks(rows, opening::jobs(given), out.as_mut(), records)?;
    let tally = recipients.tally(counts);
    say(given, file, &tally)?;
    out.map_or(Ok(()), Output::finish)?;
    Ok(opening::status(&tally))
}

/// A record for each capsule; a station that has published refuses no report.
fn records(recipients: &Recipients, file: &OsStr, capsules: &[u8]) -> Result<Vec<u8>, Failure> {
    recipients.report(capsules).map_err(|refusal| {
        let explained = explain::row(KIND, recipients.shape(), capsules, refusal);
        Failure::Refused(names::input(file), explained, Status::Failed)
    })
}

/// The table on standard output; where the records stand there, a summary on standard error.
fn say(given: &Given, file: &OsStr, tally: &Tally) -> Result<(), Failure> {
    if given.file(RECORDS) != Some(OsStr::new(STANDARD)) {
        return help::print(&table(tally)).map(drop);
    }
    if !given.has(QUIET) {
        failure::say(&opening::summary(file, KIND, tally));
    }
    Ok(())
}

/// A line for each number that occurs, with its words and its count, and the total.
fn table(tally: &Tally) -> String {
    let lines = tally.lines(KIND).into_iter();
    let rows: Vec<[String; 3]> =
        lines.map(|(number, words, count)| [number.to_string(), words, count.to_string()]).collect();
    let width = |column: usize| rows.iter().map(|row| row[column].len()).max().unwrap_or(0);
    let (first, second, third) = (width(0), width(1), width(2));
    let line = |[number, words, count]: &[String; 3]| format!("{number:<first$}  {words:<second$}  {count:>third$}\n");
    rows.iter().map(line).chain(iter::once(format!("{}\n", tally.counts))).collect()
}

#[cfg(test)]
mod tests {
    use shearcotter::{Name, Shape, Station};

    use super::*;

    /// A station that load and publish, as many of them as wanted, were called on.
    fn recipients(calls: usize) -> Recipients {
        let file = [4, 6, 0, 1, 0, 9, 0, 13, 0, 15, 0, 14, 0, 11, 0, 1, 0, 0, 0];
        let mut station = Station::fresh();
        if calls > 0 {
            station.load(Name::A, &file).expect("load accepts");
        }
        if calls > 1 {
            station.publish(Name::A).expect("publish accepts");
        }
        Recipients::one(station, Shape::new(4, 6, 1).expect("a shape"))
    }

    #[test]
    fn a_refused_report_is_a_failure() {
        let says = |calls| {
            let failure = records(&recipients(calls), OsStr::new("card"), &[0x03, 0x00]).expect_err("a failure");
            (failure.status(), failure.to_string())
        };
        assert_eq!(says(0), (Status::Failed, "card: refused 21: no key".to_owned()));
        assert_eq!(says(1), (Status::Failed, "card: refused 24: not published".to_owned()));
        assert_eq!(records(&recipients(2), OsStr::new("card"), &[0x03, 0x00]).ok(), Some(vec![0, 13]));
    }
}
