//! Keys: `check` and `publish`, and what the commands that take a key begin with.

use std::ffi::OsStr;

use shearcotter::{Name, Recipient, Refusal, Shape, Station, Workspace};

use crate::arguments::Given;
use crate::commands::SMALL;
use crate::explain::{self, Explained};
use crate::failure::{self, Failure};
use crate::forms::{self, KeyForm};
use crate::status::Status;
use crate::table::QUIET;
use crate::wiped::Wiped;
use crate::{files, help, names};

/// What `check` says of a key by its g: irreducible, or with a proper factor.
const EXCHANGE: &str = "exchange";
const READING_ONLY: &str = "reading-only";
/// What it says behind that of a network file.
const NETWORK: &str = " network";

fn refused(key: &OsStr, explained: Explained) -> Failure {
    Failure::Refused(names::input(key), explained, Status::KeyRefused)
}

/// The recipient that commands with one key act for.
pub const ONLY: Name = Name::A;

/// A key file that is refused as one of a form.
pub fn refused_file(key: &OsStr, file: &[u8], (form, refusal): (KeyForm, Refusal)) -> Failure {
    refused(key, explain::key_file(file, form, files::MOST_OF_A_KEY, refusal))
}

/// The recipient takes the key of a key file of either form; the form, and its shape.
fn load_for(recipient: &mut Recipient<&mut Station>, key: &OsStr) -> Result<(KeyForm, Shape), Failure> {
    let file = Wiped::from(files::read(key, files::MOST_OF_A_KEY)?);
    let loaded = forms::either(|form| {
        match form {
            KeyForm::Support => recipient.load(&file)?,
            KeyForm::Network => recipient.load_network(&file)?,
        }
        recipient.shape().ok_or(Refusal::NoKey)
    });
    loaded.map_err(|refused| refused_file(key, &file, refused))
}

/// The recipient takes the key of a key file and publishes it; its shape.
pub fn publish_for(mut recipient: Recipient<&mut Station>, key: &OsStr) -> Result<Shape, Failure> {
    let (_, shape) = load_for(&mut recipient, key)?;
    public_key(&mut recipient, key, Workspace::default())?;
    Ok(shape)
}

/// The public key of the key that the recipient has taken, which is published then.
fn public_key(recipient: &mut Recipient<&mut Station>, key: &OsStr, workspace: Workspace) -> Result<Vec<u8>, Failure> {
    recipient.publish_with(workspace).map_err(|refusal| refused(key, explain::publishing(refusal)))
}

/// A station that holds the key of a key file, the file's form, and the key's shape.
pub fn load(key: &OsStr) -> Result<(Station, KeyForm, Shape), Failure> {
    let mut station = Station::fresh();
    let (form, shape) = load_for(&mut station.recipient_mut(ONLY), key)?;
    Ok((station, form, shape))
}

/// A station that has published, and its shape.
pub fn published(key: &OsStr) -> Result<(Station, Shape), Failure> {
    let mut station = Station::fresh();
    let shape = publish_for(station.recipient_mut(ONLY), key)?;
    Ok((station, shape))
}

/// The command `check`.
pub fn check(given: &Given) -> Result<Status, Failure> {
    let [key] = given.operands();
    let (station, form, shape) = load(key)?;
    let exchange = station.is_exchange_key(ONLY).map_err(|refusal| refused(key, explain::publishing(refusal)))?;
    let name = shape.name().map_or(String::new(), |name| format!(" {name}"));
    let kind = if exchange { EXCHANGE } else { READING_ONLY };
    let stored = if form == KeyForm::Network { NETWORK } else { "" };
    let status = help::print(&format!("accepted {shape}{name} {kind}{stored}\n"))?;
    if !exchange && !given.has(QUIET) {
        failure::say(&format!("{}: {}", names::input(key), explain::reading_only()));
    }
    Ok(status)
}

/// The command `publish`.
pub fn publish(given: &Given) -> Result<Status, Failure> {
    let [key, out] = given.operands();
    let workspace = if given.has(SMALL) { Workspace::Small } else { Workspace::Full };
    let (mut station, _, _) = load(key)?;
    let public = public_key(&mut station.recipient_mut(ONLY), key, workspace)?;
    files::write(out, &public)?;
    Ok(Status::Accepted)
}
