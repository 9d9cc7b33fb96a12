//! The patterns of a file, in each of the formats that `open` and `read` print.

use std::ffi::OsStr;
use std::fs::File;
use std::io::{self, BufRead, BufReader, Read};

use shearcotter::{Name, Shape};

use crate::explain::Row;
use crate::failure::Failure;
use crate::files::Input;
use crate::formats::{self, Format};
use crate::json::{self, Json};
use crate::names;
use crate::shapes::decimal;

/// Bytes of the longest line; a file without lines is not read to its end.
const LONGEST: usize = 1 << 20;

/// The patterns of a file, one after another.
pub struct Patterns {
    name: String,
    input: BufReader<File>,
    shape: Shape,
    format: Format,
    /// How many have been read: the position of the last.
    count: u64,
}

impl Patterns {
    pub fn new(name: &OsStr, shape: Shape, format: Format) -> Result<Patterns, Failure> {
        let input = BufReader::new(Input::open(name)?.file);
        Ok(Patterns { name: names::input(name), input, shape, format, count: 0 })
    }

    /// Where the last one stands.
    pub fn place(&self) -> String {
        match (self.count, self.format) {
            (0, _) => self.name.clone(),
            (count, Format::Raw) => format!("{}: pattern {count}", self.name),
            (count, _) => format!("{}: line {count}", self.name),
        }
    }

    /// The bytes of the next; a file without any has one without bytes, so that it is refused.
    pub fn next(&mut self) -> Result<Option<Vec<u8>>, Failure> {
        let bytes = self.next_bytes().map_err(|error| Failure::File(self.name.clone(), error))?;
        if bytes.is_empty() {
            return Ok((self.count == 0).then_some(bytes));
        }
        self.count += 1;
        if self.format == Format::Raw {
            return Ok(Some(bytes));
        }
        let pattern = line(&bytes).and_then(|line| self.of_line(line));
        pattern.map(Some).map_err(|why| Failure::Format(self.place(), why))
    }

    /// A row, shorter at a tail, or a line with its end; empty at the end of the file.
    fn next_bytes(&mut self) -> io::Result<Vec<u8>> {
        let mut bytes = vec![];
        match self.format {
            Format::Raw => {
                let length = Row::Pattern.length(self.shape);
                self.input.by_ref().take(length as u64).read_to_end(&mut bytes)?;
            }
            _ => {
                self.input.by_ref().take(LONGEST as u64 + 1).read_until(b'\n', &mut bytes)?;
            }
        }
        Ok(bytes)
    }

    fn of_line(&self, line: &str) -> Result<Vec<u8>, String> {
        match self.format {
            Format::Json => self.of_object(line),
            Format::Hex => of_hex(line),
            _ => self.of_places(line),
        }
    }

    fn of_places(&self, line: &str) -> Result<Vec<u8>, String> {
        let (count, words) = pattern_words(line)?;
        self.packed(words.into_iter().map(Ok), count)
    }

    /// An object with the member `places`, as `open` and `read` print it; other members are passed over.
    fn of_object(&self, line: &str) -> Result<Vec<u8>, String> {
        let object = json::parse(line)?;
        if object.member("answer").and_then(Json::text) == Some(formats::REFUSED) {
            return Err(no_pattern());
        }
        let places = object.member("places").and_then(Json::list).ok_or("no list of places")?;
        let ones = object.member("ones").map(|ones| ones.number().and_then(decimal).ok_or("ones is no count"));
        self.packed(places.iter().map(|place| place.number().ok_or("a place is no number")), ones.transpose()?)
    }

    /// The pattern with ones at the places, which are below n, and each once.
    fn packed<'a>(
        &self,
        places: impl Iterator<Item = Result<&'a str, &'a str>>,
        count: Option<u64>,
    ) -> Result<Vec<u8>, String> {
        let (mut bytes, mut ones, n) = (vec![0_u8; Row::Pattern.length(self.shape)], 0, self.shape.n());
        for word in places {
            let word = word?;
            let place = decimal(word).ok_or_else(|| format!("{} is no place", names::shown(word)))?;
            if place >= n.into() {
                return Err(format!("place {word} is not below n {n}"));
            }
            let (byte, bit) = (&mut bytes[place as usize / 8], 1 << (place % 8));
            if *byte & bit != 0 {
                return Err(format!("place {place} stands twice"));
            }
            *byte |= bit;
            ones += 1;
        }
        counts(count, ones)?;
        Ok(bytes)
    }
}

/// A line's text without its end.
fn line(bytes: &[u8]) -> Result<&str, String> {
    if bytes.len() > LONGEST {
        return Err(format!("longer than {LONGEST} bytes"));
    }
    std::str::from_utf8(bytes).map_err(|_| "no text".to_owned())
}

fn no_pattern() -> String {
    "a refused row has no pattern".to_owned()
}

/// The words behind `POSITION open`, `POSITION open NAME` or `POSITION read COUNT`, with the count; all words where a line has
/// none of these. No place and no hexadecimal word is a name. Behind `read`, those of `marked COUNT` and its count are added.
fn pattern_words(line: &str) -> Result<(Option<u64>, Vec<&str>), String> {
    let words: Vec<&str> = line.split_ascii_whitespace().collect();
    match words[..] {
        [position, formats::OPEN, name, ref rest @ ..]
            if decimal(position).is_some() && name.parse::<Name>().is_ok() =>
        {
            Ok((None, rest.to_vec()))
        }
        [position, formats::OPEN, ref rest @ ..] if decimal(position).is_some() => Ok((None, rest.to_vec())),
        [position, formats::READ, said, ref rest @ ..] if decimal(position).is_some() => {
            match rest.iter().position(|word| *word == formats::MARKED) {
                None => Ok((Some(count(said)?), rest.to_vec())),
                Some(at) => {
                    let marked = count(rest.get(at + 1).ok_or("no count behind marked")?)?;
                    let words = rest[..at].iter().chain(rest.iter().skip(at + 2));
                    Ok((Some(count(said)?.saturating_add(marked)), words.copied().collect()))
                }
            }
        }
        [position, formats::REFUSED, ..] if decimal(position).is_some() => Err(no_pattern()),
        _ => Ok((None, words)),
    }
}

fn count(word: &str) -> Result<u64, String> {
    decimal(word).ok_or_else(|| format!("{} is no count", names::shown(word)))
}

/// The number of ones that a line says, if it does, is the pattern's.
fn counts(said: Option<u64>, ones: u64) -> Result<(), String> {
    match said {
        Some(said) if said != ones => Err(format!("the count is {said}, the pattern has {ones}")),
        _ => Ok(()),
    }
}

fn of_hex(line: &str) -> Result<Vec<u8>, String> {
    let (count, words) = pattern_words(line)?;
    let bytes = match words[..] {
        [] => vec![],
        [word] => hexadecimal(word)?,
        _ => return Err("more than one hexadecimal word".to_owned()),
    };
    counts(count, bytes.iter().map(|byte| u64::from(byte.count_ones())).sum())?;
    Ok(bytes)
}

fn hexadecimal(word: &str) -> Result<Vec<u8>, String> {
    let digit =
        |c: char| c.to_digit(16).ok_or_else(|| format!("{} is no hexadecimal digit", names::shown(c.to_string())));
    let digits = word.chars().map(digit).collect::<Result<Vec<u32>, String>>()?;
    if digits.len() % 2 == 1 {
        return Err(format!("an odd number of hexadecimal digits, {}", digits.len()));
    }
    Ok(digits.chunks(2).map(|pair| (16 * pair[0] + pair[1]) as u8).collect())
}
