//! Shapes, on the command line and in key files.

use shearcotter::Refusal;

use super::Explained;

const WIDTHS: &str = "expected 4, 12 or 13";

/// A shape given as m,n,t; `found` is what was given.
pub fn shape(found: &str, [m, t]: [u64; 2], refusal: Refusal) -> Explained {
    match refusal {
        Refusal::BadWidth => Explained::new(refusal, refusal.condition(), width(&format!("m {m}"))),
        Refusal::BadShape => Explained::new(refusal, "shape out of limits", limits(found, [m, t])),
        _ => Explained::new(refusal, refusal.condition(), ""),
    }
}

/// A shape given as a position.
pub fn position(found: &str, refusal: Refusal) -> Explained {
    Explained::new(refusal, "position not 1 to 5", format!("found {found}"))
}

pub(super) fn width(found: &str) -> String {
    format!("{WIDTHS}, found {found}")
}

pub(super) fn limits(found: &str, [m, t]: [u64; 2]) -> String {
    let limits = "expected t from 1 to 128, n above m*t and at most 2^m";
    let where_they_are = match (m.checked_mul(t), 1_u64.checked_shl(m as u32)) {
        (Some(bits), Some(elements)) => format!(", where m*t is {bits} and 2^m is {elements}"),
        _ => String::new(),
    };
    format!("{limits}, found {found}{where_they_are}")
}
