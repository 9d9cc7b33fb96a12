//! `session`: the session key of each capsule of a file.

use std::ffi::OsStr;

use shearcotter::{wipe, Shape, Station};

use crate::arguments::Given;
use crate::explain::{self, Row};
use crate::failure::Failure;
use crate::formats;
use crate::status::Status;
use crate::wiped::Wiped;
use crate::{files, keys, names, opening};

/// The command `session`.
pub fn session(given: &Given) -> Result<Status, Failure> {
    let [key, secret, file] = given.operands();
    let (station, shape) = keys::published(key)?;
    let secret = fitting(&station, shape, secret)?;
    let form = opening::form(given, file, formats::SESSION, false);
    let tally = opening::answers(given, file, (Row::SessionCapsule, shape), form, |form, position, capsule| {
        let mut answer = station.session(keys::ONLY, capsule, &secret);
        let said = answer.as_ref().map(|key| form.derived(position, key)).map_err(|refusal| *refusal);
        answer.iter_mut().for_each(|key| wipe(key));
        said
    })?;
    Ok(opening::end(given, file, Row::SessionCapsule, &tally))
}

/// The secret of a file, where it fits the key: a capsule of zeros is refused only for its secret.
fn fitting(station: &Station, shape: Shape, name: &OsStr) -> Result<Wiped, Failure> {
    let secret = Wiped::from(files::read(name, shape.pattern_length())?);
    let mut answer = station.session(keys::ONLY, &vec![0; shape.capsule_length()], &secret);
    answer.iter_mut().for_each(|key| wipe(key));
    match answer {
        Ok(_) => Ok(secret),
        Err(refusal) => {
            let explained = explain::secret(shape, secret.len(), refusal);
            Err(Failure::Refused(names::input(name), explained, Status::KeyRefused))
        }
    }
}
