//! The station that keeps two keys.

use std::fmt;

use crate::{calls, raw, wipe, wiping};
use crate::{Counts, MarkedReading, Name, Pattern, Recipient, Refusal, Report, Shape, Workspace};

/// A station: two recipients, [`Name::A`] and [`Name::B`], each of them empty, loaded with a key, or published.
///
/// Every call names one of them, and neither answers by the other's key nor changes it; [`recipient`](Station::recipient)
/// and [`recipient_mut`](Station::recipient_mut) give handles that name one for all their calls. The calls take the
/// station as the C interface's calls do, by value inside; a refusal leaves it as it was. The stack that a call used is
/// wiped after it, and the station, both keys, when it is dropped.
///
/// ```
/// use shearcotter::{Name, Refusal, Station};
///
/// let file = [4, 6, 0, 1, 0, 9, 0, 13, 0, 15, 0, 14, 0, 11, 0, 1, 0, 0, 0];
/// let mut station = Station::fresh();
/// station.load(Name::A, &file)?;
/// station.publish(Name::A)?;
/// assert!(station.open(Name::A, &[0x03]).is_ok());
/// assert_eq!(station.open(Name::B, &[0x03]), Err(Refusal::NoKey));
/// station.load(Name::B, &file)?;
/// station.drop_key(Name::A)?;
/// assert_eq!(Name::BOTH.map(|name| station.shape(name).is_some()), [false, true]);
/// # Ok::<(), Refusal>(())
/// ```
pub struct Station {
    raw: Box<raw::Station>,
}

impl Station {
    /// A station without keys.
    pub fn fresh() -> Station {
        Station { raw: calls::fresh() }
    }

    /// One recipient, for what leaves the station as it is: opening, reports, session keys and reading.
    pub fn recipient(&self, name: Name) -> Recipient<&Station> {
        Recipient::new(self, name)
    }

    /// One recipient, for all its calls.
    pub fn recipient_mut(&mut self, name: Name) -> Recipient<&mut Station> {
        Recipient::new(self, name)
    }

    fn slot(&self, name: Name) -> &raw::Slot {
        match name {
            Name::A => &self.raw.a,
            Name::B => &self.raw.b,
        }
    }

    /// The shape of the key that the recipient holds.
    pub fn shape(&self, name: Name) -> Option<Shape> {
        let raw::Slot { state, key } = self.slot(name);
        let held = *state != raw::EMPTY;
        held.then(|| Shape::new(key.m, key.n, key.t).ok()).flatten()
    }

    /// Whether the recipient holds a key and has published it.
    pub fn is_published(&self, name: Name) -> bool {
        self.slot(name).state == raw::PUBLISHED
    }

    /// Takes the key of a key file for the recipient: refused with the first that applies of 22, 1, 2, 3, 4, 5, 6, 7. The
    /// file's bytes are the caller's to [`wipe`].
    ///
    /// A key whose g has a proper factor is taken, for [`read`](Station::read) and [`read_marked`](Station::read_marked) alone:
    /// see [`is_exchange_key`](Station::is_exchange_key).
    pub fn load(&mut self, name: Name, file: &[u8]) -> Result<(), Refusal> {
        calls::load(&mut self.raw, name, file)
    }

    /// Takes the key of a network file, which stores the support as control bits of a switching network: refused with the
    /// first that applies of 22, 1, 2, 36, 3, 4, 6, 7. Afterwards the station is as by [`load`](Station::load) of the file
    /// that [`from_network`](crate::from_network) gives. The file's bytes are the caller's to [`wipe`].
    ///
    /// ```
    /// use shearcotter::{to_network, wipe, Name, Refusal, Station};
    ///
    /// let file = [4, 6, 0, 1, 0, 9, 0, 13, 0, 15, 0, 14, 0, 11, 0, 1, 0, 0, 0];
    /// let mut network = to_network(&file)?;
    /// let mut station = Station::fresh();
    /// station.load_network(Name::A, &network)?;
    /// wipe(&mut network);
    /// assert_eq!(station.publish(Name::A)?, [3, 1, 2, 0]);
    /// // Neither form of file is taken for the other.
    /// assert_eq!(station.load_network(Name::B, &file), Err(Refusal::BadLength));
    /// # Ok::<(), Refusal>(())
    /// ```
    pub fn load_network(&mut self, name: Name, file: &[u8]) -> Result<(), Refusal> {
        calls::load_network(&mut self.raw, name, file)
    }

    /// Whether the recipient's key is an exchange key: one whose g is irreducible, as the standard has it, so that
    /// partners' programs work with it. Refused with 21.
    ///
    /// With any other key [`publish`](Station::publish), [`open`](Station::open), [`report`](Station::report) and
    /// [`session`](Station::session) refuse with 34, and [`read`](Station::read) and [`read_marked`](Station::read_marked)
    /// work. An exchange key may still have no public key (23).
    ///
    /// ```
    /// use shearcotter::{Name, Refusal, Station};
    ///
    /// let mut station = Station::fresh();
    /// // g = x is irreducible.
    /// station.load(Name::A, &[4, 6, 0, 1, 0, 9, 0, 13, 0, 15, 0, 14, 0, 11, 0, 1, 0, 0, 0])?;
    /// assert!(station.is_exchange_key(Name::A)?);
    /// // g = x^2 + x is x times x + 1.
    /// let split = [4, 9, 0, 2, 0, 3, 0, 4, 0, 5, 0, 6, 0, 7, 0, 8, 0, 9, 0, 10, 0, 2, 0, 0, 0, 1, 0];
    /// station.load(Name::B, &split)?;
    /// assert!(!station.is_exchange_key(Name::B)?);
    /// assert_eq!(station.publish(Name::B), Err(Refusal::ReducibleKey));
    /// assert_eq!(station.read(Name::B, &[0x11, 0x00])?.places().collect::<Vec<_>>(), [0, 4]);
    /// # Ok::<(), Refusal>(())
    /// ```
    pub fn is_exchange_key(&self, name: Name) -> Result<bool, Refusal> {
        calls::is_exchange_key(&self.raw, name)
    }

    /// The public key T of the recipient's key; afterwards published. Refused with the first that applies of 21, 34, 23.
    ///
    /// [`publish_with`](Station::publish_with) chooses another workspace than the default, where that is too much memory.
    pub fn publish(&mut self, name: Name) -> Result<Vec<u8>, Refusal> {
        self.publish_with(name, Workspace::default())
    }

    /// The same as [`publish`](Station::publish), worked out in the chosen workspace.
    ///
    /// ```
    /// use shearcotter::{Name, Refusal, Station, Workspace};
    ///
    /// let mut station = Station::fresh();
    /// station.load(Name::A, &[4, 6, 0, 1, 0, 9, 0, 13, 0, 15, 0, 14, 0, 11, 0, 1, 0, 0, 0])?;
    /// assert_eq!(station.publish_with(Name::A, Workspace::Small)?, [3, 1, 2, 0]);
    /// assert_eq!(station.open(Name::A, &[0x03])?.bytes(), [0x10]);
    /// # Ok::<(), Refusal>(())
    /// ```
    pub fn publish_with(&mut self, name: Name, workspace: Workspace) -> Result<Vec<u8>, Refusal> {
        let shape = self.shape(name).ok_or(Refusal::NoKey)?;
        let mut public = vec![0; shape.public_length()];
        let mut work = vec![0; workspace.length(shape)];
        let answer = self.publish_into_with(name, workspace, &mut public, &mut work);
        wipe(&mut work);
        answer.map(|()| public)
    }

    /// Writes T from the start of `out`: refused with the first that applies of 21, 34, 10, 11, 23. What the
    /// first [`Shape::workspace_length`] bytes of `work` hold afterwards is free once 21, 34, 10 and 11
    /// are passed; every other byte of it stays. They are worked out from the key: the caller's to [`wipe`].
    pub fn publish_into(&mut self, name: Name, out: &mut [u8], work: &mut [u8]) -> Result<(), Refusal> {
        self.publish_into_with(name, Workspace::default(), out, work)
    }

    /// The same as [`publish_into`](Station::publish_into) with the chosen workspace, whose bytes are the first
    /// [`Workspace::length`] of `work`.
    ///
    /// ```
    /// use shearcotter::{wipe, Name, Refusal, Shape, Station, Workspace};
    ///
    /// let mut station = Station::fresh();
    /// station.load(Name::A, &[4, 6, 0, 1, 0, 9, 0, 13, 0, 15, 0, 14, 0, 11, 0, 1, 0, 0, 0])?;
    /// // 2·m·t rows of ceil(m·t/8) bytes, where m·t is 4.
    /// let (mut public, mut work) = ([0; 4], [0; 8]);
    /// assert_eq!(Workspace::Small.length(Shape::new(4, 6, 1)?), work.len());
    /// let short = station.publish_into_with(Name::A, Workspace::Small, &mut public, &mut work[..7]);
    /// assert_eq!(short, Err(Refusal::ShortWorkspace));
    /// station.publish_into_with(Name::A, Workspace::Small, &mut public, &mut work)?;
    /// wipe(&mut work);
    /// assert_eq!(public, [3, 1, 2, 0]);
    /// # Ok::<(), Refusal>(())
    /// ```
    pub fn publish_into_with(
        &mut self,
        name: Name,
        workspace: Workspace,
        out: &mut [u8],
        work: &mut [u8],
    ) -> Result<(), Refusal> {
        calls::publish(&mut self.raw, name, workspace, out, work)
    }

    /// The pattern of a capsule under the recipient's key: refused with the first that applies of 21, 34, 24, 8, 9, 13.
    pub fn open(&self, name: Name, capsule: &[u8]) -> Result<Pattern, Refusal> {
        let mut out = self.pattern_buffer(name);
        let ones = self.open_into(name, capsule, &mut out)?;
        Ok(Pattern::new(out, ones))
    }

    /// Writes the pattern from the start of `out` and gives its number of ones: refused with the first that applies
    /// of 21, 34, 24, 8, 9, 10, 13.
    pub fn open_into(&self, name: Name, capsule: &[u8], out: &mut [u8]) -> Result<u16, Refusal> {
        calls::open(&self.raw, name, capsule, out)
    }

    /// A record for each of the capsules that stand back to back, and how often each number stands in the records:
    /// refused with the first that applies of 21, 34, 24.
    ///
    /// A record is 0 where [`open`](Station::open) gives a pattern, else the number with which it refuses the capsule.
    /// A short tail is the last capsule, refused with 8. The kept key is checked once for all, so that this takes less
    /// time than a call of `open` for each.
    pub fn report(&self, name: Name, capsules: &[u8]) -> Result<Report, Refusal> {
        let count = self.shape(name).map_or(0, |shape| shape.capsules_in(capsules.len()));
        let mut records = vec![0; count];
        let counts = self.report_into(name, capsules, &mut records)?;
        Ok(Report::new(records, counts))
    }

    /// Writes the records from the start of `records` and gives the counts: refused with the first that applies of 21,
    /// 34, 24, 31. [`Shape::capsules_in`] says how many records there are.
    pub fn report_into(&self, name: Name, capsules: &[u8], records: &mut [u8]) -> Result<Counts, Refusal> {
        calls::report(&self.raw, name, capsules, records)
    }

    /// The session key of a capsule under the recipient's key, as Classic McEliece's decapsulation derives it: refused with
    /// the first that applies of 21, 34, 24, 8, 9, 33.
    ///
    /// It is the first 32 bytes of [`shake256`](crate::shake256) of the byte 1, the pattern and the capsule; where
    /// [`open`](Station::open) refuses with 13, of the byte 0, the secret and the capsule. A sender cannot tell from the
    /// key which of the two it is, so that the caller has no 13 to hide; how long the call takes is not the same for both.
    ///
    /// The secret is the standard's s, [`Shape::pattern_length`] random bytes with clear filler. It is as secret as the key
    /// file, and the same in every call with that key. It and the key that is answered are the caller's to [`wipe`].
    ///
    /// ```
    /// use shearcotter::{shake256, wipe, Name, Refusal, Station};
    ///
    /// let file = [4, 6, 0, 1, 0, 9, 0, 13, 0, 15, 0, 14, 0, 11, 0, 1, 0, 0, 0];
    /// let mut station = Station::fresh();
    /// station.load(Name::A, &file)?;
    /// station.publish(Name::A)?;
    /// let mut secret = [0x2a];
    /// // The capsule 03 opens to the pattern 10; no pattern has the capsule 00.
    /// let (mut opened, mut other) = ([0; 32], [0; 32]);
    /// shake256(&[1, 0x10, 0x03], &mut opened);
    /// shake256(&[0, 0x2a, 0x00], &mut other);
    /// assert_eq!(station.session(Name::A, &[0x03], &secret)?, opened);
    /// assert_eq!(station.session(Name::A, &[0x00], &secret)?, other);
    /// assert_eq!(station.session(Name::A, &[0x13], &secret), Err(Refusal::FillerSet));
    /// assert_eq!(station.session(Name::A, &[0x03], &[0x6a]), Err(Refusal::BadSecret));
    /// wipe(&mut secret);
    /// # Ok::<(), Refusal>(())
    /// ```
    pub fn session(&self, name: Name, capsule: &[u8], secret: &[u8]) -> Result<[u8; raw::SESSION_BYTES], Refusal> {
        let mut key = [0; raw::SESSION_BYTES];
        let answer = calls::session(&self.raw, name, capsule, secret, &mut key).map(|()| key);
        wipe(&mut key);
        answer
    }

    /// The pattern that turns a word into the code word of the recipient's key within t places: refused with the first that
    /// applies of 21, 8, 9, 14.
    pub fn read(&self, name: Name, word: &[u8]) -> Result<Pattern, Refusal> {
        let mut out = self.pattern_buffer(name);
        let ones = self.read_into(name, word, &mut out)?;
        Ok(Pattern::new(out, ones))
    }

    /// Writes the pattern from the start of `out` and gives its number of ones: refused with the first that applies
    /// of 21, 8, 9, 10, 14.
    pub fn read_into(&self, name: Name, word: &[u8], out: &mut [u8]) -> Result<u16, Refusal> {
        calls::read(&self.raw, name, word, out)
    }

    /// Reads a word some of whose places are unsteady: their bits are known only to be 0 or 1. The marks are packed bits like the
    /// word's, with a one at each such place. Refused with the first that applies of 21, 8, 9, 37, 14.
    ///
    /// With s marked places and d differences at unmarked ones, there is at most one code word with 2d + s ≤ 2t. The answer has
    /// the places where the given word differs from it, those at marked places included, and d, which counts the unmarked ones
    /// alone; 14 says that there is no such code word. Any number of places may be marked, and without marks it answers as
    /// [`read`](Station::read) does.
    ///
    /// ```
    /// use shearcotter::{Name, Refusal, Station};
    ///
    /// let mut station = Station::fresh();
    /// // t is 1: two marks, or one difference without marks.
    /// station.load(Name::A, &[4, 6, 0, 1, 0, 9, 0, 13, 0, 15, 0, 14, 0, 11, 0, 1, 0, 0, 0])?;
    /// // The code word 13 with its bits at the places 1 and 4 turned: two differences are too many, unless they are marked.
    /// assert_eq!(station.read(Name::A, &[0x01])?.places().collect::<Vec<_>>(), [0]);
    /// let reading = station.read_marked(Name::A, &[0x01], &[0x12])?;
    /// assert_eq!(reading.differences().places().collect::<Vec<_>>(), [1, 4]);
    /// assert_eq!((reading.differences().ones(), reading.unmarked()), (2, 0));
    /// // Marks of the same length, without filler.
    /// assert_eq!(station.read_marked(Name::A, &[0x01], &[]).err(), Some(Refusal::BadMarks));
    /// assert_eq!(station.read_marked(Name::A, &[0x01], &[0x40]).err(), Some(Refusal::BadMarks));
    /// # Ok::<(), Refusal>(())
    /// ```
    pub fn read_marked(&self, name: Name, word: &[u8], marks: &[u8]) -> Result<MarkedReading, Refusal> {
        let mut out = self.pattern_buffer(name);
        let unmarked = self.read_marked_into(name, word, marks, &mut out)?;
        Ok(MarkedReading::new(out, unmarked))
    }

    /// Writes the differences from the start of `out`, those at marked places included, and gives how many are at unmarked
    /// places, which may be fewer than the ones written: refused with the first that applies of 21, 8, 9, 37, 10, 14.
    pub fn read_marked_into(&self, name: Name, word: &[u8], marks: &[u8], out: &mut [u8]) -> Result<u16, Refusal> {
        calls::read_marked(&self.raw, name, word, marks, out)
    }

    /// Drops the recipient's key; afterwards it is as in a fresh station, and the other recipient as before. Refused with 21.
    pub fn drop_key(&mut self, name: Name) -> Result<(), Refusal> {
        calls::drop_key(&mut self.raw, name)
    }

    fn pattern_buffer(&self, name: Name) -> Vec<u8> {
        vec![0; self.shape(name).map_or(0, Shape::pattern_length)]
    }
}

impl Drop for Station {
    fn drop(&mut self) {
        wiping::wipe_station(&mut self.raw);
    }
}

impl Default for Station {
    fn default() -> Station {
        Station::fresh()
    }
}

/// Without the keys, which are secret.
impl fmt::Debug for Station {
    fn fmt(&self, f: &mut fmt::Formatter<'_>) -> fmt::Result {
        let [a, b] = Name::BOTH.map(|name| self.recipient(name));
        f.debug_struct("Station").field("a", &a).field("b", &b).finish()
    }
}
