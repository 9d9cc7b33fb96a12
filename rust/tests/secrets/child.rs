//! A child that uses a key: this test program again, started for the test `entry` alone.
//!
//! At each point it writes a byte to standard error and waits for one on standard input.

use std::fs::File;
use std::hint::black_box;
use std::io::{self, Read, Write};
use std::process::{self, Command, Stdio};
use std::{env, iter};

use shearcotter::{from_network, raw, to_network, wipe, Name, Refusal, Shape, Station, Workspace};

use crate::independent::bits::pack;
use crate::support::{raw_calls, vectors};

const VARIABLE: &str = "SHEARCOTTER_CHILD";
pub const FOLDER: &str = "mceliece348864/count0";
/// Where the key of the second recipient is.
pub const SECOND: &str = "mceliece348864f/count0";

/// Whether the child uses the crate's calls, or the raw ones, which wipe nothing.
#[derive(Clone, Copy, PartialEq, Eq, Debug)]
pub enum Mode {
    Crate,
    Raw,
}

#[derive(Clone, Copy, PartialEq, Eq, Debug)]
#[repr(u8)]
pub enum Point {
    Empty = b'a',
    Loaded,
    Published,
    Opened,
    PatternDropped,
    Refused,
    Reported,
    Derived,
    SessionsWiped,
    SecretWiped,
    Read,
    ReadMarked,
    SecondPublished,
    FirstDropped,
    StationDropped,
    LoadedAgain,
    KeyDropped,
    NetworkLoaded,
    NetworkDropped,
    ToNetwork,
    ToNetworkWiped,
    FromNetwork,
    FromNetworkWiped,
}

pub struct Child(process::Child);

impl Child {
    pub fn start(mode: Mode) -> Child {
        let mut command = Command::new(env::current_exe().expect("this program"));
        command.args(["--exact", "secrets::child::entry", "--nocapture"]).env(VARIABLE, format!("{mode:?}"));
        command.stdin(Stdio::piped()).stdout(Stdio::null()).stderr(Stdio::piped());
        Child(command.spawn().expect("the child starts"))
    }

    pub fn id(&self) -> u32 {
        self.0.id()
    }

    pub fn wait_for(&mut self, point: Point) {
        let mut mark = [0];
        let stream = self.0.stderr.as_mut().expect("its standard error");
        stream.read_exact(&mut mark).expect("a mark from the child");
        if mark != [point as u8] {
            let mut text = mark.to_vec();
            stream.read_to_end(&mut text).expect("what the child says");
            panic!("no {point:?} from the child, but: {}", String::from_utf8_lossy(&text));
        }
    }

    pub fn go_on(&mut self) {
        self.0.stdin.as_mut().expect("its standard input").write_all(b".").expect("the child waits");
    }

    pub fn end(mut self) {
        assert!(self.0.wait().expect("the child ends").success(), "the child failed");
    }
}

/// Where a check fails, the child is not left waiting.
impl Drop for Child {
    fn drop(&mut self) {
        drop(self.0.kill());
        drop(self.0.wait());
    }
}

/// The child's part; in an ordinary run of the tests it does nothing.
#[test]
fn entry() {
    match env::var(VARIABLE).as_deref() {
        Ok("Crate") => with_the_crate(),
        Ok("Raw") => with_raw_calls(),
        _ => {}
    }
}

fn pause(point: Point) {
    io::stderr().write_all(&[point as u8]).expect("the parent reads");
    io::stdin().read_exact(&mut [0]).expect("the parent answers");
}

/// A file of known length, read without a copy elsewhere.
fn file<const LENGTH: usize>(name: &str) -> Box<[u8; LENGTH]> {
    file_in(FOLDER, name)
}

fn file_in<const LENGTH: usize>(folder: &str, name: &str) -> Box<[u8; LENGTH]> {
    let path = vectors::folder().join(folder).join(name);
    let mut bytes = Box::new([0; LENGTH]);
    File::open(path).expect("a file of the vectors").read_exact(&mut bytes[..]).expect("its bytes");
    bytes
}

fn load(station: &mut Station) {
    let mut key = file::<7109>("key.bin");
    station.load(Name::A, &key[..]).expect("load accepts");
    assert_eq!(station.load(Name::A, &key[..]), Err(Refusal::KeyHeld));
    assert_eq!(station.is_exchange_key(Name::A), Ok(true));
    wipe(&mut key[..]);
}

/// The session keys of a capsule that opens and of one that does not.
fn derive(station: &Station, capsule: &[u8]) {
    let mut secret = file::<436>("secret.bin");
    assert_eq!(station.session(Name::A, capsule, &secret[1..]), Err(Refusal::BadSecret));
    let mut of_pattern = station.session(Name::A, capsule, &secret[..]);
    let mut of_secret = station.session(Name::A, &file::<96>("capsule_reject.bin")[..], &secret[..]);
    assert!(of_pattern.is_ok() && of_secret.is_ok());
    pause(Point::Derived);
    of_pattern.iter_mut().chain(&mut of_secret).for_each(|key| wipe(key));
    pause(Point::SessionsWiped);
    wipe(&mut secret[..]);
    pause(Point::SecretWiped);
}

/// The second recipient's key beside the first's, published, and again with the small workspace; then the first is dropped.
fn hold_two(station: &mut Station) {
    let mut key = file_in::<7109>(SECOND, "key.bin");
    station.load(Name::B, &key[..]).expect("load accepts");
    wipe(&mut key[..]);
    station.publish(Name::B).expect("publish accepts");
    station.publish_with(Name::B, Workspace::Small).expect("publish accepts");
    assert_eq!(station.open(Name::B, &file::<96>("capsule.bin")[..]), Err(Refusal::NoPattern));
    pause(Point::SecondPublished);
    station.drop_key(Name::A).expect("there is a key");
    assert_eq!(Name::BOTH.map(|name| station.is_published(name)), [false, true]);
    pause(Point::FirstDropped);
}

fn with_the_crate() {
    let mut station = Station::fresh();
    pause(Point::Empty);
    load(&mut station);
    pause(Point::Loaded);
    station.publish(Name::A).expect("publish accepts");
    pause(Point::Published);
    let capsule = file::<96>("capsule.bin");
    let pattern = station.open(Name::A, &capsule[..]).expect("it opens");
    assert_eq!(pattern.ones(), 64);
    pause(Point::Opened);
    drop(pattern);
    pause(Point::PatternDropped);
    assert_eq!(station.open(Name::A, &file::<96>("capsule_reject.bin")[..]), Err(Refusal::NoPattern));
    pause(Point::Refused);
    let card = [&capsule[..], &file::<96>("capsule_reject.bin")[..]].concat();
    let report = station.report(Name::A, &card).expect("a report");
    assert_eq!(report.records(), [0, 13]);
    pause(Point::Reported);
    derive(&station, &capsule[..]);
    let word: Vec<u8> = capsule.iter().copied().chain(iter::repeat(0)).take(436).collect();
    let read = station.read(Name::A, &word).expect("it reads").clone();
    assert_eq!(read.ones(), 64);
    let marks = pack(3488, read.places().take(2));
    drop(read);
    pause(Point::Read);
    assert_eq!(station.read_marked(Name::A, &word, &marks).expect("it reads").clone().unmarked(), 62);
    pause(Point::ReadMarked);
    hold_two(&mut station);
    drop(station);
    pause(Point::StationDropped);
    let mut again = Station::fresh();
    load(&mut again);
    pause(Point::LoadedAgain);
    again.drop_key(Name::A).expect("there is a key");
    pause(Point::KeyDropped);
    assert_eq!(again.shape(Name::A), None);
    networks(again);
}

/// A network file loaded, and both conversions; the files are wiped.
fn networks(mut station: Station) {
    let mut network = file::<6025>("key_network_standard.bin");
    station.load_network(Name::B, &network[..]).expect("load accepts");
    assert_eq!(station.load_network(Name::B, &network[..]), Err(Refusal::KeyHeld));
    wipe(&mut network[..]);
    pause(Point::NetworkLoaded);
    drop(station);
    pause(Point::NetworkDropped);
    converted(&mut file::<7109>("key.bin")[..], to_network, [Point::ToNetwork, Point::ToNetworkWiped]);
    converted(&mut file::<6025>("key_network.bin")[..], from_network, [Point::FromNetwork, Point::FromNetworkWiped]);
}

/// While both files are held, and when they are wiped; a conversion that is refused leaves nothing either.
fn converted(file: &mut [u8], convert: fn(&[u8]) -> Result<Vec<u8>, Refusal>, [held, wiped]: [Point; 2]) {
    let mut other = convert(file).expect("a key");
    let length = file.len();
    assert_eq!(convert(&file[..length - 1]), Err(Refusal::BadLength));
    pause(held);
    wipe(&mut other);
    wipe(file);
    pause(wiped);
}

/// Publishes, opens and derives; the station, the pattern, the secret, the session key and the workspace are left where they are.
fn with_raw_calls() {
    let (key, capsule) = (file::<7109>("key.bin"), file::<96>("capsule.bin"));
    let shape = Shape::MCELIECE348864;
    let mut public = vec![0; shape.public_length()];
    let mut work = vec![0; shape.workspace_length()];
    let loaded = raw_calls::load(raw_calls::fresh(), raw::A, &key[..]).station;
    let published = raw_calls::publish(loaded, raw::A, &mut public, &mut work).station;
    let mut pattern = [0; 436];
    let opened = raw_calls::open(published, raw::A, &capsule[..], &mut pattern);
    assert_eq!((opened.refused, opened.station.a.state), (0, raw::PUBLISHED));
    let secret = file::<436>("secret.bin");
    let derived = raw_calls::session(opened.station, raw::A, &capsule[..], &secret[..]);
    assert_eq!(derived.refused, 0);
    pause(Point::Opened);
    black_box((&opened, &pattern, &work, &secret, &derived));
}
