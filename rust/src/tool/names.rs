//! Names as messages show them.

use std::ffi::OsStr;

/// The name in which nothing acts on a terminal or looks like another name: control characters, bytes that are no
/// text, marks that turn the direction of text, and the backslash are escaped.
pub fn shown(name: impl AsRef<OsStr>) -> String {
    shown_bytes(name.as_ref().as_encoded_bytes())
}

/// A part of a name.
pub fn shown_bytes(bytes: &[u8]) -> String {
    let mut text = String::new();
    for chunk in bytes.utf8_chunks() {
        chunk.valid().chars().for_each(|c| push(&mut text, c));
        chunk.invalid().iter().for_each(|byte| text += &format!("\\x{byte:02x}"));
    }
    text
}

fn push(text: &mut String, c: char) {
    match c {
        '\n' | '\r' | '\t' | '\\' => text.extend(c.escape_default()),
        '\0'..='\x1f' | '\x7f' => *text += &format!("\\x{:02x}", u32::from(c)),
        c if c.is_control() || turns_or_hides(c) => text.extend(c.escape_unicode()),
        c => text.push(c),
    }
}

/// Separators of lines, marks of direction, and characters without width.
fn turns_or_hides(c: char) -> bool {
    matches!(c, '\u{200b}'..='\u{200f}' | '\u{2028}'..='\u{202e}' | '\u{2060}'..='\u{2069}' | '\u{feff}')
}

/// An input's name: `-` is standard input.
pub fn input(name: &OsStr) -> String {
    if name == "-" {
        "standard input".to_owned()
    } else {
        shown(name)
    }
}

/// The word of a list that is nearest to one that the list has not, if one is near.
pub fn nearest<'a>(word: &str, list: impl IntoIterator<Item = &'a str>) -> Option<&'a str> {
    let near = |known: &&str| !word.is_empty() && known.starts_with(word) || distance(word, known) <= NEAR;
    list.into_iter().filter(near).min_by_key(|known| distance(word, known))
}

const NEAR: usize = 2;

/// How many letters to put in, leave out, change or swap with the next turn one word into the other.
fn distance(from: &str, to: &str) -> usize {
    let (from, to): (Vec<char>, Vec<char>) = (from.chars().collect(), to.chars().collect());
    let mut rows = vec![(0..=to.len()).collect::<Vec<_>>()];
    for i in 1..=from.len() {
        let mut row = vec![i];
        for j in 1..=to.len() {
            let change = rows[i - 1][j - 1] + usize::from(from[i - 1] != to[j - 1]);
            let swapped = i > 1 && j > 1 && from[i - 1] == to[j - 2] && from[i - 2] == to[j - 1];
            let swap = if swapped { rows[i - 2][j - 2] + 1 } else { usize::MAX };
            row.push(change.min(rows[i - 1][j] + 1).min(row[j - 1] + 1).min(swap));
        }
        rows.push(row);
    }
    rows[from.len()][to.len()]
}

#[cfg(test)]
mod tests {
    use super::{distance, nearest, shown};

    #[test]
    fn nothing_acts_on_a_terminal() {
        assert_eq!(shown("a b.key"), "a b.key");
        assert_eq!(shown("Schlüssel"), "Schlüssel");
        assert_eq!(shown("a\nb\r\t\x1b[2J\x7f\0"), "a\\nb\\r\\t\\x1b[2J\\x7f\\x00");
        assert_eq!(shown("\\n"), "\\\\n");
        assert_eq!(shown("\u{85}\u{202e}\u{feff}"), "\\u{85}\\u{202e}\\u{feff}");
    }

    #[cfg(unix)]
    #[test]
    fn bytes_that_are_no_text() {
        use std::ffi::OsStr;
        use std::os::unix::ffi::OsStrExt;
        assert_eq!(shown(OsStr::from_bytes(b"a\xffb\xc3")), "a\\xffb\\xc3");
    }

    #[test]
    fn distances() {
        assert_eq!(
            [("", "ab"), ("lock", "unlock"), ("opne", "open"), ("read", "raed")].map(|(a, b)| distance(a, b)),
            [2, 2, 1, 1]
        );
        let commands = ["check", "open", "completions"];
        assert_eq!(nearest("opne", commands), Some("open"));
        assert_eq!(nearest("comp", commands), Some("completions"));
        assert_eq!(nearest("decapsulate", commands), None);
        assert_eq!(nearest("", commands), None);
    }
}
