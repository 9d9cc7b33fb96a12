//! Links libshearcotter.a from the folder in SHEARCOTTER_LIB, or from ../crates/shearcotter/out.

use std::path::PathBuf;
use std::{env, process};

fn main() {
    println!("cargo:rerun-if-env-changed=SHEARCOTTER_LIB");
    let named = env::var_os("SHEARCOTTER_LIB").filter(|folder| !folder.is_empty());
    let folder = named.map_or_else(|| PathBuf::from("../crates/shearcotter/out"), PathBuf::from);
    let archive = folder.join("libshearcotter.a");
    println!("cargo:rerun-if-changed={}", archive.display());
    let Ok(found) = archive.canonicalize() else {
        eprintln!(
            "{} is missing: run `rt lib` in crates/shearcotter, or name the archive's folder in SHEARCOTTER_LIB",
            archive.display()
        );
        process::exit(1);
    };
    if let Some(folder) = found.parent() {
        println!("cargo:rustc-link-search=native={}", folder.display());
    }
    println!("cargo:rustc-link-lib=static=shearcotter");
}
