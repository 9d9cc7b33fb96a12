//! Shapes on the command line, and the table of the standard's.

use std::ffi::OsStr;

use shearcotter::{Refusal, Shape};

use crate::arguments::Given;
use crate::failure::Failure;
use crate::status::Status;
use crate::{explain, help, names};

/// A position, a name, or m,n,t.
pub fn parse(word: &OsStr) -> Result<Shape, Failure> {
    let text = word.to_string_lossy();
    if let Some(shape) = Shape::named(&text) {
        return Ok(shape);
    }
    let shape = match numbers(&text).as_deref() {
        Some([position]) => at(*position).map_err(|refusal| explain::position(&text, refusal)),
        Some([m, n, t]) => by_numbers(*m, *n, *t).map_err(|refusal| explain::shape(&text, [*m, *t], refusal)),
        _ => return Err(Failure::usage(format!("no such shape: {}; see shearcotter shapes", names::shown(word)))),
    };
    shape.map_err(|explained| Failure::Refused(format!("shape {text}"), explained, Status::Failed))
}

/// Decimal numbers split by commas; one too long to hold counts as the greatest.
fn numbers(text: &str) -> Option<Vec<u64>> {
    text.split(',').map(decimal).collect()
}

/// A decimal number; one too long to hold counts as the greatest.
pub fn decimal(text: &str) -> Option<u64> {
    let digits = !text.is_empty() && text.bytes().all(|byte| byte.is_ascii_digit());
    digits.then(|| text.parse().unwrap_or(u64::MAX))
}

fn at(position: u64) -> Result<Shape, Refusal> {
    u8::try_from(position).map_or(Err(Refusal::BadShape), Shape::at)
}

fn by_numbers(m: u64, n: u64, t: u64) -> Result<Shape, Refusal> {
    let limited = |x: u64| u16::try_from(x).unwrap_or(u16::MAX);
    let width = u8::try_from(m).map_err(|_| Refusal::BadWidth)?;
    Shape::new(width, limited(n), limited(t))
}

/// The command `shapes`.
pub fn list(_: &Given) -> Result<Status, Failure> {
    help::print(&table())
}

fn table() -> String {
    let mut text = format!(
        "{:<9} {:<15} {:>2} {:>5} {:>4} {:>9} {:>11} {:>8} {:>8}\n",
        "position", "name", "m", "n", "t", "key file", "public key", "capsule", "pattern"
    );
    for (position, shape) in (1..).zip(Shape::STANDARD) {
        text += &format!(
            "{:<9} {:<15} {:>2} {:>5} {:>4} {:>9} {:>11} {:>8} {:>8}\n",
            position,
            shape.name().unwrap_or_default(),
            shape.m(),
            shape.n(),
            shape.t(),
            shape.key_file_length(),
            shape.public_length(),
            shape.capsule_length(),
            shape.pattern_length()
        );
    }
    text
}
