//! The command-line tool: checks and converts keys, publishes, locks patterns, opens capsules, derives their session keys, reports on
//! them and reads words.

#![forbid(unsafe_code)]

mod arguments;
mod commands;
mod completions;
mod deriving;
mod explain;
mod failure;
mod files;
mod formats;
mod forms;
mod help;
mod json;
mod keys;
mod locking;
mod manual;
mod marking;
mod names;
mod opening;
mod patterns;
mod progress;
mod recipients;
mod reporting;
mod rows;
mod shapes;
mod status;
mod table;
mod wiped;

use std::env;
use std::ffi::OsString;
use std::process::ExitCode;

use arguments::Request;
use failure::Failure;
use status::Status;

fn run(words: &[OsString]) -> Result<Status, Failure> {
    match arguments::parse(words)? {
        Request::Text(text) => help::print(&text),
        Request::Run(given) => (given.command().run)(&given).map_err(|failure| failure.of(given.command().name)),
    }
}

fn main() -> ExitCode {
    let words: Vec<OsString> = env::args_os().skip(1).collect();
    let status = run(&words).unwrap_or_else(|failure| {
        failure.report();
        failure.status()
    });
    status.into()
}
