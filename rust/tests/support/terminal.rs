//! A pseudo terminal: what a run writes to it, and what then stands on its screen.

use std::ffi::{c_char, c_int, CStr};
use std::fs::{File, OpenOptions};
use std::io::{ErrorKind, Read};
use std::os::fd::{AsRawFd, FromRawFd};
use std::os::unix::fs::OpenOptionsExt;
use std::process::{Command, Stdio};

extern "C" {
    fn posix_openpt(flags: c_int) -> c_int;
    fn grantpt(terminal: c_int) -> c_int;
    fn unlockpt(terminal: c_int) -> c_int;
    fn ptsname_r(terminal: c_int, name: *mut c_char, length: usize) -> c_int;
}

const O_RDWR: c_int = 2;
const O_NOCTTY: c_int = 0o400;
/// What a read fails with when nobody has the terminal open any more.
const EIO: i32 = 5;

/// What a run wrote to its terminal, and its exit status.
pub struct Session {
    pub written: String,
    pub status: i32,
}

/// The side of the test and the side of the run.
fn pair() -> (File, File) {
    let mut name: [c_char; 128] = [0; 128];
    let (test, name) = unsafe {
        let test = posix_openpt(O_RDWR | O_NOCTTY);
        assert!(test >= 0 && grantpt(test) == 0 && unlockpt(test) == 0, "a pseudo terminal");
        assert_eq!(ptsname_r(test, name.as_mut_ptr(), name.len()), 0, "its name");
        (File::from_raw_fd(test), CStr::from_ptr(name.as_ptr()))
    };
    assert!(test.as_raw_fd() > 2);
    let path = name.to_str().expect("a plain path");
    let run = OpenOptions::new().read(true).write(true).custom_flags(O_NOCTTY).open(path).expect("the run's side");
    (test, run)
}

/// Runs with standard error on a terminal, and standard output where `out` says or on the same terminal.
pub fn session(mut command: Command, out: Option<File>) -> Session {
    let (mut test, run) = pair();
    let lines = out.unwrap_or_else(|| run.try_clone().expect("a second handle"));
    command.stdin(Stdio::null()).stdout(lines).stderr(run);
    let mut child = command.spawn().expect("the tool starts");
    // Only the run holds its side now, so that reading ends with it.
    drop(command);
    let mut written = vec![];
    let mut piece = [0; 4096];
    loop {
        match test.read(&mut piece) {
            Ok(0) => break,
            Ok(count) => written.extend_from_slice(&piece[..count]),
            Err(error) if error.kind() == ErrorKind::Interrupted => {}
            Err(error) => {
                assert_eq!(error.raw_os_error(), Some(EIO), "{error}");
                break;
            }
        }
    }
    let status = child.wait().expect("the tool ends").code().expect("an exit status");
    Session { written: String::from_utf8(written).expect("text"), status }
}

impl Session {
    /// The lines that stand there at the end, without blanks behind them.
    pub fn screen(&self) -> Vec<String> {
        let mut lines = vec![vec![]];
        let mut column = 0;
        for letter in self.written.chars() {
            let line: &mut Vec<char> = lines.last_mut().expect("a line");
            match letter {
                '\r' => column = 0,
                '\n' => lines.push(vec![]),
                _ => {
                    line.resize(line.len().max(column + 1), ' ');
                    line[column] = letter;
                    column += 1;
                }
            }
        }
        let text = |line: Vec<char>| line.into_iter().collect::<String>().trim_end().to_owned();
        let mut screen: Vec<String> = lines.into_iter().map(text).collect();
        screen.truncate(screen.iter().rposition(|line| !line.is_empty()).map_or(0, |last| last + 1));
        screen
    }

    /// The progress bars that were drawn, one after the other.
    pub fn bars(&self) -> Vec<&str> {
        self.written.split(['\r', '\n']).filter(|part| part.starts_with('[')).map(str::trim_end).collect()
    }
}
