//! Writes the public key of a key file, worked out in the small workspace, and says how many bytes that has.

use std::error::Error;
use std::{env, fs};

use shearcotter::{wipe, Name, Station, Workspace};

fn main() -> Result<(), Box<dyn Error>> {
    let names: Vec<String> = env::args().skip(1).collect();
    let [key, out] = &names[..] else {
        return Err("usage: small KEY OUT".into());
    };
    let mut file = fs::read(key)?;
    let mut station = Station::fresh();
    let loaded = station.load(Name::A, &file);
    wipe(&mut file);
    loaded?;
    let public = station.publish_with(Name::A, Workspace::Small)?;
    fs::write(out, public)?;
    if let Some(shape) = station.shape(Name::A) {
        let [full, small] = Workspace::BOTH.map(|workspace| workspace.length(shape));
        println!("{shape}: {small} bytes of workspace, {full} for publish");
    }
    Ok(())
}
