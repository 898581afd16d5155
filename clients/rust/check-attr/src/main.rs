//! Answers as `git check-attr` does, by a proved engine, and tells what decides.
#![forbid(unsafe_code)]

mod arguments;
mod checker;
mod configuration;
mod contents;
mod failure;
mod files;
mod git;
mod index;
mod json;
mod modes;
mod objects;
mod output;
mod paths;
mod quoting;
mod reader;
mod repository;
mod source;
mod trees;

use arguments::{Command, USAGE};
use failure::Failure;
use std::io::{self, Write};
use std::os::unix::ffi::OsStringExt;
use std::process::ExitCode;

fn main() -> ExitCode {
    match run() {
        Ok(status) => ExitCode::from(status),
        Err(failure) => {
            if let Failure::Ambiguous(_) = failure {
                let _ = io::stdout().write_all(USAGE.as_bytes());
            }
            let words = failure.to_string();
            if !words.is_empty() {
                // Where standard error is gone, the words are lost.
                let _ = writeln!(io::stderr(), "{}", words.trim_end());
            }
            ExitCode::from(failure.status())
        }
    }
}

/// Does what is wanted, and returns the status.
fn run() -> Result<u8, Failure> {
    let words = std::env::args_os().skip(1).map(OsStringExt::into_vec).collect();
    let (told, status) = match arguments::parse(words) {
        Ok(Command::Usage) => (USAGE, 129),
        Ok(Command::Help) => (USAGE, 0),
        Ok(Command::Version) => (concat!("check-attr ", env!("CARGO_PKG_VERSION"), "\n"), 0),
        Ok(Command::Check(arguments)) => return checker::run(Ok(arguments)).map(|()| 0),
        Err(failure) => return checker::run(Err(failure)).map(|()| 0),
    };
    io::stdout().write_all(told.as_bytes()).map_err(Failure::Write)?;
    Ok(status)
}
