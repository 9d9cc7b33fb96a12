//! Reads the words of a file with a row of marks for each: where they differ from the code word, and which of these places are
//! marked.

use std::error::Error;
use std::{env, fs, iter};

use shearcotter::{wipe, Name, Station};

fn main() -> Result<(), Box<dyn Error>> {
    let names: Vec<String> = env::args().skip(1).collect();
    let [key, words, marks] = &names[..] else {
        return Err("usage: marked KEY WORDS MARKS".into());
    };
    let mut file = fs::read(key)?;
    let mut station = Station::fresh();
    let loaded = station.load(Name::A, &file);
    wipe(&mut file);
    loaded?;
    let office = station.recipient(Name::A);
    let length = office.shape().map_or(1, |shape| shape.pattern_length());
    let (words, marks) = (fs::read(words)?, fs::read(marks)?);
    let rows = marks.chunks(length).chain(iter::repeat(&[][..]));
    for (position, (word, marks)) in (1..).zip(words.chunks(length).zip(rows)) {
        match office.read_marked(word, marks) {
            Ok(reading) => {
                let is_marked = |place: &usize| marks[place / 8] >> (place % 8) & 1 == 1;
                let (marked, others): (Vec<_>, Vec<_>) = reading.differences().places().partition(is_marked);
                println!("{position} {} unmarked {others:?}, {} marked {marked:?}", reading.unmarked(), marked.len());
            }
            Err(refusal) => println!("{position} {refusal}"),
        }
    }
    Ok(())
}
