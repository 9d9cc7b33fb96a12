//! `lock`: capsules of patterns, all or none.

use shearcotter::{lock, Refusal, Shape};

use crate::arguments::Given;
use crate::commands::FORMAT;
use crate::explain::{self, Explained, Row};
use crate::failure::Failure;
use crate::formats::Format;
use crate::patterns::Patterns;
use crate::status::Status;
use crate::{files, names, shapes};

/// The command `lock`.
pub fn lock_patterns(given: &Given) -> Result<Status, Failure> {
    let [shape, public, patterns, out] = given.operands();
    let shape = shapes::parse(shape)?;
    let lent = files::read(public, shape.public_length())?;
    sound(shape, &lent).map_err(|explained| Failure::Refused(names::input(public), explained, Status::KeyRefused))?;
    let patterns = Patterns::new(patterns, shape, Format::named(given.word(FORMAT)))?;
    files::write(out, &capsules(shape, &lent, patterns)?)?;
    Ok(Status::Accepted)
}

/// Whether the public key has its length and no filler bit set: a pattern of zeros is refused for its ones only behind these.
fn sound(shape: Shape, public: &[u8]) -> Result<(), Explained> {
    match lock(shape, public, &vec![0; shape.pattern_length()]) {
        Err(refusal) if refusal != Refusal::NotTOnes => Err(explain::public_key(shape, public, refusal)),
        _ => Ok(()),
    }
}

fn capsules(shape: Shape, public: &[u8], mut patterns: Patterns) -> Result<Vec<u8>, Failure> {
    let mut capsules = vec![];
    while let Some(pattern) = patterns.next()? {
        let capsule = lock(shape, public, &pattern).map_err(|refusal| {
            let explained = explain::row(Row::Pattern, shape, &pattern, refusal);
            Failure::Refused(patterns.place(), explained, Status::RowRefused)
        })?;
        capsules.extend(capsule);
    }
    Ok(capsules)
}
