//! File operands: inputs read up to a limit, outputs replaced in one step; `-` is standard input or standard output.

use std::ffi::OsStr;
use std::fs::{self, File, Metadata, OpenOptions, Permissions};
use std::io::{self, IsTerminal, Read, Seek, Write};
use std::os::fd::AsFd;
use std::os::unix::fs::{fchown, MetadataExt, OpenOptionsExt, PermissionsExt};
use std::path::{Path, PathBuf};
use std::process;

use shearcotter::wipe;

use crate::failure::Failure;
use crate::names;

/// The operand for standard input or standard output; a file of that name is `./-`.
pub const STANDARD: &str = "-";

/// The longest file whose length its own n and t can call for.
pub const MOST_OF_A_KEY: usize = 5 + 4 * u16::MAX as usize;

/// As many symbolic links in a chain as Linux follows.
const MOST_LINKS: usize = 40;

/// An open input, and its name for messages.
pub struct Input {
    pub name: PathBuf,
    pub file: File,
}

impl Input {
    pub fn open(name: &OsStr) -> Result<Input, Failure> {
        let (name, opened) = if name == STANDARD {
            (Path::new("standard input"), standard_input())
        } else {
            (Path::new(name), File::open(name))
        };
        let file = opened.map_err(|error| Failure::file(name, error))?;
        Ok(Input { name: name.to_owned(), file })
    }

    /// How many bytes are still to be read; none where that is not known.
    pub fn left(&mut self) -> Option<u64> {
        let found = self.file.metadata().ok().filter(Metadata::is_file)?;
        let here = self.file.stream_position().ok()?;
        Some(found.len().saturating_sub(here))
    }
}

/// Standard input without the library's buffer, which would keep a copy of a key.
fn standard_input() -> io::Result<File> {
    io::stdin().as_fd().try_clone_to_owned().map(File::from)
}

/// Standard output without the library's buffer: what is written is handed on.
pub fn standard_output() -> io::Result<File> {
    io::stdout().as_fd().try_clone_to_owned().map(File::from)
}

/// The file's bytes, and at most one byte past the limit, so that a longer file is still too long.
///
/// The bytes stay where they are read to, so that the caller can wipe the only copy.
pub fn read(name: &OsStr, limit: usize) -> Result<Vec<u8>, Failure> {
    let mut input = Input::open(name)?;
    let mut bytes = vec![0; limit + 1];
    match read_at_least(&mut input.file, &mut bytes, 0, limit + 1) {
        Ok(count) => {
            bytes.truncate(count);
            Ok(bytes)
        }
        Err(error) => {
            wipe(&mut bytes);
            Err(Failure::file(&input.name, error))
        }
    }
}

/// Reads behind the bytes that are filled until `least` are, or the input ends; how many are then filled.
pub fn read_at_least(input: &mut impl Read, bytes: &mut [u8], mut filled: usize, least: usize) -> io::Result<usize> {
    while filled < least {
        match input.read(&mut bytes[filled..]) {
            Ok(0) => break,
            Ok(count) => filled += count,
            Err(error) if error.kind() == io::ErrorKind::Interrupted => {}
            Err(error) => return Err(error),
        }
    }
    Ok(filled)
}

/// A usage failure where two inputs are standard input, which can be read only once.
pub fn one_standard_input(inputs: &[&OsStr]) -> Result<(), Failure> {
    if inputs.iter().filter(|name| **name == STANDARD).count() > 1 {
        return Err(Failure::usage("two inputs are `-`, but standard input can be read only once"));
    }
    Ok(())
}

/// A usage failure where the output is the same file as one of the inputs, under whatever names.
pub fn not_an_input(out: &OsStr, inputs: &[&OsStr]) -> Result<(), Failure> {
    let Some(target) = identity(out, standard_output) else {
        return Ok(());
    };
    if inputs.iter().any(|input| identity(input, standard_input) == Some(target)) {
        let name = if out == STANDARD { Path::new("standard output") } else { Path::new(out) };
        return Err(Failure::usage(format!("{} is an input too", names::shown(name))));
    }
    Ok(())
}

/// A usage failure where an output with a name is the file that standard output goes to, under whatever name.
pub fn not_standard_output(out: &OsStr) -> Result<(), Failure> {
    let printed = identity(OsStr::new(STANDARD), standard_output);
    if out != STANDARD && printed.is_some() && identity(out, standard_output) == printed {
        return Err(Failure::usage(format!("{} is standard output too", names::shown(Path::new(out)))));
    }
    Ok(())
}

/// What tells a regular file from every other one; none for all else.
fn identity(name: &OsStr, standard: fn() -> io::Result<File>) -> Option<(u64, u64)> {
    let found = if name == STANDARD { standard().and_then(|file| file.metadata()) } else { fs::metadata(name) };
    let file = found.ok().filter(Metadata::is_file)?;
    Some((file.dev(), file.ino()))
}

/// Modes of a new file, before the umask: for everyone, and for its owner alone.
const FOR_ALL: u32 = 0o666;
const FOR_OWNER: u32 = 0o600;

/// Writes to standard output, or replaces a file in one step; a failure leaves the file as it was, and nothing beside it.
pub fn write(name: &OsStr, bytes: &[u8]) -> Result<(), Failure> {
    write_new(name, bytes, FOR_ALL)
}

/// The same for a secret: a file that was not there is its owner's alone.
pub fn write_secret(name: &OsStr, bytes: &[u8]) -> Result<(), Failure> {
    write_new(name, bytes, FOR_OWNER)
}

fn write_new(name: &OsStr, bytes: &[u8], mode: u32) -> Result<(), Failure> {
    let mut out = Output::with_mode(name, mode)?;
    let done = out.write_all(bytes);
    done.map_err(|error| Failure::output(out.name(), error)).and_then(|()| out.finish())
}

/// An output that is written piece by piece: standard output, or a new file beside the one that it replaces in the end.
pub struct Output {
    file: File,
    new: Option<New>,
}

/// A new file, removed when it is dropped before it has taken the target's name.
struct New {
    /// The target's name as it was given.
    name: PathBuf,
    target: PathBuf,
    old: Option<Metadata>,
    beside: PathBuf,
}

impl Output {
    pub fn create(name: &OsStr) -> Result<Output, Failure> {
        Output::with_mode(name, FOR_ALL)
    }

    fn with_mode(name: &OsStr, mode: u32) -> Result<Output, Failure> {
        if name == STANDARD {
            return Ok(Output { file: standard_output()?, new: None });
        }
        let path = Path::new(name);
        create_new(path, mode).map_err(|error| Failure::file(path, error))
    }

    /// The file's name; none for standard output.
    pub fn name(&self) -> Option<&Path> {
        self.new.as_ref().map(|new| new.name.as_path())
    }

    pub fn is_terminal(&self) -> bool {
        self.file.is_terminal()
    }

    /// Gives a new file the target's name.
    pub fn finish(mut self) -> Result<(), Failure> {
        let Some(new) = self.new.take() else {
            return Ok(());
        };
        settle(&self.file, &new).map_err(|error| Failure::file(&new.name, error))
    }
}

impl Write for Output {
    fn write(&mut self, bytes: &[u8]) -> io::Result<usize> {
        self.file.write(bytes)
    }

    fn flush(&mut self) -> io::Result<()> {
        self.file.flush()
    }
}

/// Behind a rename there is no such file any more.
impl Drop for New {
    fn drop(&mut self) {
        let _ = fs::remove_file(&self.beside);
    }
}

fn create_new(path: &Path, mode: u32) -> io::Result<Output> {
    let (target, old) = target(path)?;
    let (beside, file) = create_beside(&target, if old.is_some() { FOR_OWNER } else { mode })?;
    Ok(Output { file, new: Some(New { name: path.to_owned(), target, old, beside }) })
}

/// With the old file's owner and mode, on the disk, and then under its name.
fn settle(file: &File, new: &New) -> io::Result<()> {
    if let Some(old) = &new.old {
        take_after(file, old)?;
    }
    file.sync_all()?;
    fs::rename(&new.beside, &new.target)
}

/// Where the bytes go, behind all symbolic links: a file that may be replaced, or a new name.
fn target(path: &Path) -> io::Result<(PathBuf, Option<Metadata>)> {
    match fs::metadata(path) {
        Ok(found) if found.is_file() => {
            may_be_written(path, &found)?;
            Ok((path.canonicalize()?, Some(found)))
        }
        Ok(_) => Err(io::Error::other("not a regular file")),
        Err(error) if error.kind() == io::ErrorKind::NotFound => Ok((behind_links(path)?, None)),
        Err(error) => Err(error),
    }
}

/// A file that nobody has permission to write is kept from root too.
fn may_be_written(path: &Path, found: &Metadata) -> io::Result<()> {
    if found.permissions().readonly() {
        return Err(io::Error::other("read-only, so it is not replaced"));
    }
    OpenOptions::new().write(true).open(path).map(drop)
}

/// The name at the end of a chain of symbolic links that leads to no file.
fn behind_links(path: &Path) -> io::Result<PathBuf> {
    let mut path = path.to_owned();
    for _ in 0..MOST_LINKS {
        match fs::read_link(&path) {
            Ok(next) => path = path.parent().unwrap_or(Path::new("")).join(next),
            Err(error) if matches!(error.kind(), io::ErrorKind::NotFound | io::ErrorKind::InvalidInput) => {
                return Ok(path);
            }
            Err(error) => return Err(error),
        }
    }
    Err(io::Error::other("too many symbolic links"))
}

/// A new file beside the target: with the mode that the umask leaves, or closed to others until it has the old one's.
fn create_beside(target: &Path, mode: u32) -> io::Result<(PathBuf, File)> {
    let mut attempt = 0;
    loop {
        let path = target.with_file_name(format!(".shearcotter.{}.{attempt}.tmp", process::id()));
        match OpenOptions::new().write(true).create_new(true).mode(mode).open(&path) {
            Err(error) if error.kind() == io::ErrorKind::AlreadyExists && attempt < 100 => attempt += 1,
            other => return other.map(|file| (path, file)),
        }
    }
}

/// Gives the file the old one's owner and group, as far as that is permitted, and its permissions.
fn take_after(file: &File, old: &Metadata) -> io::Result<()> {
    if fchown(file, Some(old.uid()), Some(old.gid())).is_err() {
        let _ = fchown(file, None, Some(old.gid()));
    }
    file.set_permissions(Permissions::from_mode(old.mode() & 0o777))
}

#[cfg(test)]
mod tests {
    use super::*;

    /// Gives 1,000 bytes at a time, and an interruption before each.
    struct Slow(usize, bool);

    impl Read for Slow {
        fn read(&mut self, bytes: &mut [u8]) -> io::Result<usize> {
            self.1 = !self.1;
            if self.1 {
                return Err(io::ErrorKind::Interrupted.into());
            }
            let count = self.0.min(bytes.len()).min(1000);
            self.0 -= count;
            bytes[..count].fill(7);
            Ok(count)
        }
    }

    #[test]
    fn a_file_is_read_to_one_place() {
        let name = std::env::temp_dir().join(format!("shearcotter-files-{}", process::id()));
        for length in [0, 1, 9_999, 10_000, 10_001, 70_000] {
            fs::write(&name, vec![7; length]).expect("a file for the test");
            let bytes = read(name.as_os_str(), 10_000).ok().expect("its bytes");
            assert!(bytes.iter().all(|byte| *byte == 7));
            // As long as was reserved at first, so that nothing was moved and left behind.
            assert_eq!((bytes.len(), bytes.capacity()), (length.min(10_001), 10_001));
        }
        fs::remove_file(&name).expect("the file goes");
    }

    #[test]
    fn what_is_left_of_an_input() {
        let mut input = Input::open(OsStr::new("Cargo.toml")).ok().expect("a file");
        let length = fs::metadata("Cargo.toml").expect("the file").len();
        assert_eq!(input.left(), Some(length));
        input.file.read_exact(&mut [0; 10]).expect("its first bytes");
        assert_eq!(input.left(), Some(length - 10));
        let mut input = Input::open(OsStr::new("/dev/zero")).ok().expect("a device");
        assert_eq!(input.left(), None);
    }

    #[test]
    fn reads_go_on_until_enough_is_there() {
        for (least, filled) in [(1, 1000), (1000, 1000), (1001, 2000), (5000, 4500)] {
            let mut bytes = [0; 6000];
            let read = read_at_least(&mut Slow(4500, false), &mut bytes, 0, least);
            assert_eq!(read.ok(), Some(filled));
            assert!(bytes[..filled].iter().all(|byte| *byte == 7) && bytes[filled..].iter().all(|byte| *byte == 0));
        }
        let mut bytes = [0; 10];
        assert_eq!(read_at_least(&mut Slow(100, false), &mut bytes, 4, 9).ok(), Some(10));
        assert_eq!(bytes, [0, 0, 0, 0, 7, 7, 7, 7, 7, 7]);
    }
}
