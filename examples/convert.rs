//! Converts a key file to its other form: elements to a switching network, and a switching network to elements.

use std::env;
use std::error::Error;
use std::fs::{self, OpenOptions};
use std::io::Write;
use std::os::unix::fs::OpenOptionsExt;

use shearcotter::{from_network, to_network, wipe, Refusal};

fn main() -> Result<(), Box<dyn Error>> {
    let names: Vec<String> = env::args().skip(1).collect();
    let [from, to] = &names[..] else {
        return Err("usage: convert IN OUT".into());
    };
    let mut file = fs::read(from)?;
    // No file is taken in both forms. Of a key file that is refused, the number is said.
    let converted = to_network(&file).or_else(|refusal| match refusal {
        Refusal::BadLength => from_network(&file),
        _ => from_network(&file).map_err(|_| refusal),
    });
    wipe(&mut file);
    let mut other = converted?;
    let written =
        OpenOptions::new().write(true).create_new(true).mode(0o600).open(to).and_then(|mut out| out.write_all(&other));
    wipe(&mut other);
    Ok(written?)
}
