//! One of a station's recipients.

use std::borrow::{Borrow, BorrowMut};
use std::fmt;

use crate::{raw, Counts, MarkedReading, Name, Pattern, Refusal, Report, Shape, Station, Workspace};

/// One recipient of a borrowed [`Station`]: its calls, without the name. With `&Station` those that leave the station as it is,
/// with `&mut Station` all of them.
///
/// ```
/// use shearcotter::{Name, Refusal, Station};
///
/// let mut station = Station::fresh();
/// let mut office = station.recipient_mut(Name::B);
/// office.load(&[4, 6, 0, 1, 0, 9, 0, 13, 0, 15, 0, 14, 0, 11, 0, 1, 0, 0, 0])?;
/// assert_eq!(office.publish()?, [3, 1, 2, 0]);
/// let office = station.recipient(Name::B);
/// assert_eq!(office.open(&[0x03])?.bytes(), [0x10]);
/// assert_eq!(station.recipient(office.name().other()).open(&[0x03]), Err(Refusal::NoKey));
/// # Ok::<(), Refusal>(())
/// ```
#[derive(Clone, Copy)]
pub struct Recipient<S> {
    station: S,
    name: Name,
}

impl<S> Recipient<S> {
    pub(crate) fn new(station: S, name: Name) -> Recipient<S> {
        Recipient { station, name }
    }

    /// Its name.
    pub fn name(&self) -> Name {
        self.name
    }
}

impl<S: Borrow<Station>> Recipient<S> {
    fn station(&self) -> &Station {
        self.station.borrow()
    }

    /// [`Station::shape`].
    pub fn shape(&self) -> Option<Shape> {
        self.station().shape(self.name)
    }

    /// [`Station::is_published`].
    pub fn is_published(&self) -> bool {
        self.station().is_published(self.name)
    }

    /// [`Station::is_exchange_key`].
    pub fn is_exchange_key(&self) -> Result<bool, Refusal> {
        self.station().is_exchange_key(self.name)
    }

    /// [`Station::open`].
    pub fn open(&self, capsule: &[u8]) -> Result<Pattern, Refusal> {
        self.station().open(self.name, capsule)
    }

    /// [`Station::open_into`].
    pub fn open_into(&self, capsule: &[u8], out: &mut [u8]) -> Result<u16, Refusal> {
        self.station().open_into(self.name, capsule, out)
    }

    /// [`Station::report`].
    pub fn report(&self, capsules: &[u8]) -> Result<Report, Refusal> {
        self.station().report(self.name, capsules)
    }

    /// [`Station::report_into`].
    pub fn report_into(&self, capsules: &[u8], records: &mut [u8]) -> Result<Counts, Refusal> {
        self.station().report_into(self.name, capsules, records)
    }

    /// [`Station::session`].
    pub fn session(&self, capsule: &[u8], secret: &[u8]) -> Result<[u8; raw::SESSION_BYTES], Refusal> {
        self.station().session(self.name, capsule, secret)
    }

    /// [`Station::read`].
    pub fn read(&self, word: &[u8]) -> Result<Pattern, Refusal> {
        self.station().read(self.name, word)
    }

    /// [`Station::read_into`].
    pub fn read_into(&self, word: &[u8], out: &mut [u8]) -> Result<u16, Refusal> {
        self.station().read_into(self.name, word, out)
    }

    /// [`Station::read_marked`].
    pub fn read_marked(&self, word: &[u8], marks: &[u8]) -> Result<MarkedReading, Refusal> {
        self.station().read_marked(self.name, word, marks)
    }

    /// [`Station::read_marked_into`].
    pub fn read_marked_into(&self, word: &[u8], marks: &[u8], out: &mut [u8]) -> Result<u16, Refusal> {
        self.station().read_marked_into(self.name, word, marks, out)
    }
}

impl<S: BorrowMut<Station>> Recipient<S> {
    /// [`Station::load`].
    pub fn load(&mut self, file: &[u8]) -> Result<(), Refusal> {
        self.station.borrow_mut().load(self.name, file)
    }

    /// [`Station::load_network`].
    pub fn load_network(&mut self, file: &[u8]) -> Result<(), Refusal> {
        self.station.borrow_mut().load_network(self.name, file)
    }

    /// [`Station::publish`].
    pub fn publish(&mut self) -> Result<Vec<u8>, Refusal> {
        self.station.borrow_mut().publish(self.name)
    }

    /// [`Station::publish_with`].
    pub fn publish_with(&mut self, workspace: Workspace) -> Result<Vec<u8>, Refusal> {
        self.station.borrow_mut().publish_with(self.name, workspace)
    }

    /// [`Station::publish_into`].
    pub fn publish_into(&mut self, out: &mut [u8], work: &mut [u8]) -> Result<(), Refusal> {
        self.station.borrow_mut().publish_into(self.name, out, work)
    }

    /// [`Station::publish_into_with`].
    pub fn publish_into_with(&mut self, workspace: Workspace, out: &mut [u8], work: &mut [u8]) -> Result<(), Refusal> {
        self.station.borrow_mut().publish_into_with(self.name, workspace, out, work)
    }

    /// [`Station::drop_key`].
    pub fn drop_key(&mut self) -> Result<(), Refusal> {
        self.station.borrow_mut().drop_key(self.name)
    }
}

/// Without the key, which is secret.
impl<S: Borrow<Station>> fmt::Debug for Recipient<S> {
    fn fmt(&self, f: &mut fmt::Formatter<'_>) -> fmt::Result {
        f.debug_struct("Recipient")
            .field("name", &self.name)
            .field("shape", &self.shape())
            .field("published", &self.is_published())
            .finish_non_exhaustive()
    }
}
