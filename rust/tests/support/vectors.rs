//! The vectors' folder and the lines of its files.

use std::env;
use std::fs;
use std::path::PathBuf;

/// The folder named by SHEARCOTTER_VECTORS, or ../target/vectors.
pub fn folder() -> PathBuf {
    let default = concat!(env!("CARGO_MANIFEST_DIR"), "/../target/vectors");
    let folder = env::var_os("SHEARCOTTER_VECTORS").map_or_else(|| PathBuf::from(default), PathBuf::from);
    assert!(
        folder.join("field.txt").is_file(),
        "no vectors in {}: unpack rust/tests/vectors*.tar.xz there, or name their folder in SHEARCOTTER_VECTORS",
        folder.display()
    );
    folder
}

pub fn file(name: &str) -> Vec<u8> {
    let path = folder().join(name);
    fs::read(&path).unwrap_or_else(|error| panic!("{}: {error}", path.display()))
}

pub fn exists(name: &str) -> bool {
    folder().join(name).exists()
}

/// The names in a folder of the vectors, sorted.
pub fn names(name: &str) -> Vec<String> {
    let entries = fs::read_dir(folder().join(name)).expect("a folder of the vectors");
    let name_of = |entry: std::io::Result<fs::DirEntry>| entry.expect("an entry").file_name();
    let mut names: Vec<String> = entries.map(|entry| name_of(entry).into_string().expect("a plain name")).collect();
    names.sort();
    names
}

/// The cases of a text file of the vectors.
pub fn cases(name: &str) -> Vec<Vec<String>> {
    cases_of(&String::from_utf8(file(name)).expect("text"))
}

/// The cases of a text: lines without comments, split by blanks.
pub fn cases_of(text: &str) -> Vec<Vec<String>> {
    let fields = |line: &str| -> Vec<String> {
        let case = line.split('#').next().unwrap_or("");
        case.split_whitespace().map(str::to_owned).collect()
    };
    text.lines().map(fields).filter(|case| !case.is_empty()).collect()
}
