//! Opens the capsules of a file with a key file: a line for each and the total, as the opening program prints them.

use std::error::Error;
use std::{env, fs};

use shearcotter::{wipe, Name, Station};

fn main() -> Result<(), Box<dyn Error>> {
    let names: Vec<String> = env::args().skip(1).collect();
    let [key, capsules] = &names[..] else {
        return Err("usage: open KEY CAPSULES".into());
    };
    let mut file = fs::read(key)?;
    let mut station = Station::fresh();
    let mut office = station.recipient_mut(Name::A);
    let loaded = office.load(&file);
    wipe(&mut file);
    loaded?;
    office.publish()?;
    let length = office.shape().map_or(1, |shape| shape.capsule_length());
    let capsules = fs::read(capsules)?;
    for (position, capsule) in (1..).zip(capsules.chunks(length)) {
        match office.open(capsule) {
            Ok(pattern) => println!("{position} open{}", places(pattern.places())),
            Err(refusal) => println!("{position} refused {}", refusal.number()),
        }
    }
    println!("{}", office.report(&capsules)?.counts());
    Ok(())
}

fn places(rising: impl Iterator<Item = usize>) -> String {
    rising.map(|place| format!(" {place}")).collect()
}
