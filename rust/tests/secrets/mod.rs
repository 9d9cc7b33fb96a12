//! Secrets in memory: a child that uses a key is looked through from outside while it holds the secrets and after.

mod child;
mod freed;
mod least;
mod parts;
mod stack;

use child::{Child, Mode, Point};
use parts::{Found, Secrets};

use crate::support::memory;

const KEY: &str = "support";
const G: &str = "g";
const SECOND_KEY: &str = "the second support";
const SECOND_G: &str = "the second g";
const PATTERN: &str = "pattern";
const SECRET: &str = "secret";
const SESSION: &str = "session key";
const SETTINGS: &str = "control bits";

/// What is found in the child at a point.
fn found_at(child: &mut Child, point: Point, secrets: &Secrets) -> Found {
    child.wait_for(point);
    let found = secrets.in_memory(&memory::private(child.id()));
    child.go_on();
    found
}

/// The names are found and no others.
fn only(found: &Found, names: &[&str], point: Point) {
    let others: Vec<_> = found.iter().filter(|(name, _)| !names.contains(name)).collect();
    assert!(others.is_empty(), "at {point:?}, found in memory: {others:?}");
    for name in names {
        assert!(found.contains_key(name), "at {point:?}, not found in memory: {name}");
    }
}

/// Held secrets are in memory once they are held, and nothing worked out from them; dropped ones are not.
#[test]
fn no_secret_outlives_its_owner() {
    let secrets = Secrets::of_the_vector();
    let mut child = Child::start(Mode::Crate);
    for (point, names) in [
        (Point::Empty, &[][..]),
        (Point::Loaded, &[KEY, G]),
        (Point::Published, &[KEY, G]),
        (Point::Opened, &[KEY, G, PATTERN]),
        (Point::PatternDropped, &[KEY, G]),
        (Point::Refused, &[KEY, G]),
        (Point::Reported, &[KEY, G]),
        (Point::Derived, &[KEY, G, SECRET, SESSION]),
        (Point::SessionsWiped, &[KEY, G, SECRET]),
        (Point::SecretWiped, &[KEY, G]),
        (Point::Read, &[KEY, G]),
        (Point::ReadMarked, &[KEY, G]),
        (Point::SecondPublished, &[KEY, G, SECOND_KEY, SECOND_G]),
        (Point::FirstDropped, &[SECOND_KEY, SECOND_G]),
        (Point::StationDropped, &[]),
        (Point::LoadedAgain, &[KEY, G]),
        (Point::KeyDropped, &[]),
        (Point::NetworkLoaded, &[KEY, G]),
        (Point::NetworkDropped, &[]),
        (Point::ToNetwork, &[KEY, G, SETTINGS]),
        (Point::ToNetworkWiped, &[]),
        (Point::FromNetwork, &[KEY, G, SETTINGS]),
        (Point::FromNetworkWiped, &[]),
    ] {
        only(&found_at(&mut child, point, &secrets), names, point);
    }
    child.end();
}

/// The raw calls wipe nothing: after them the key, the pattern and the session key are found, and numbers worked out from them. Which
/// of these are still there is the compiler's choice.
#[test]
fn what_the_calls_leave_is_found() {
    let secrets = Secrets::of_the_vector();
    let mut child = Child::start(Mode::Raw);
    let found = found_at(&mut child, Point::Opened, &secrets);
    child.end();
    let held = [KEY, G, PATTERN, SECRET, SESSION];
    assert!(held.iter().all(|name| found.contains_key(name)), "{found:?}");
    assert!(found.keys().any(|name| !held.contains(name)), "{found:?}");
}
