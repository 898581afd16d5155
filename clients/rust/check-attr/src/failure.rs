//! Why a run ends early: what is told, and the status.

use crate::arguments::USAGE;
use std::fmt;
use std::io::{self, Write};

/// Why a run ends early. The words and the statuses are git's where git has them.
#[derive(Debug)]
pub enum Failure {
    /// An option that there is not, or arguments that don't go together: the usage is told too.
    Usage(String),
    /// An option that is misused, in words that need no usage.
    Option(String),
    /// A short form of several options. Git prints the usage on standard output.
    Ambiguous(String),
    /// A name that no attribute can have.
    InvalidName(Vec<u8>),
    /// Any other end, in words.
    Fatal(String),
    /// A child has told why, and has ended with this status.
    Told(u8),
    /// Standard output can't be written.
    Write(io::Error),
}

/// The status of a program that SIGPIPE ends, as a shell tells it.
const SIGPIPE: u8 = 128 + 13;

impl Failure {
    /// The status of the run.
    pub fn status(&self) -> u8 {
        match self {
            Failure::Usage(_) | Failure::Option(_) | Failure::Ambiguous(_) => 129,
            Failure::InvalidName(_) => 255,
            Failure::Fatal(_) => 128,
            Failure::Told(status) => *status,
            Failure::Write(error) if error.kind() == io::ErrorKind::BrokenPipe => SIGPIPE,
            Failure::Write(_) => 128,
        }
    }
}

/// What is told on standard error, without an LF at its end; empty if nothing is.
impl fmt::Display for Failure {
    fn fmt(&self, f: &mut fmt::Formatter<'_>) -> fmt::Result {
        match self {
            Failure::Usage(words) => write!(f, "error: {words}\n{USAGE}"),
            Failure::Option(words) | Failure::Ambiguous(words) => write!(f, "error: {words}"),
            Failure::InvalidName(name) => write!(f, "error: {}: not a valid attribute name", shown(name)),
            Failure::Fatal(words) => write!(f, "fatal: {words}"),
            Failure::Told(_) => Ok(()),
            Failure::Write(error) if error.kind() == io::ErrorKind::BrokenPipe => Ok(()),
            Failure::Write(error) => write!(f, "fatal: write failure on 'attribute to stdout': {}", reason(error)),
        }
    }
}

impl std::error::Error for Failure {}

/// Passes through a reader.
impl From<Failure> for io::Error {
    fn from(failure: Failure) -> io::Error {
        io::Error::new(io::ErrorKind::Other, failure)
    }
}

/// What a reader failed with.
impl From<io::Error> for Failure {
    fn from(error: io::Error) -> Failure {
        let told = reason(&error);
        match error.into_inner().map(|inner| inner.downcast::<Failure>()) {
            Some(Ok(failure)) => *failure,
            _ => Failure::Fatal(told),
        }
    }
}

/// A text as it is told on standard error: without bytes that control a terminal, and with U+FFFD for what is not UTF-8.
pub fn shown(text: &[u8]) -> String {
    String::from_utf8_lossy(text).chars().map(|it| if it.is_control() { '?' } else { it }).collect()
}

/// The system's words for an error.
pub fn reason(error: &io::Error) -> String {
    let words = error.to_string();
    match words.find(" (os error ") {
        Some(end) => words[..end].to_string(),
        None => words,
    }
}

/// Tells a warning. Where standard error is gone, it is lost.
pub fn warn(words: &str) {
    let _ = writeln!(io::stderr(), "warning: {words}");
}

#[cfg(test)]
mod tests {
    use super::*;

    #[test]
    fn reasons_are_words() {
        assert_eq!(reason(&io::Error::from_raw_os_error(28)), "No space left on device");
        assert_eq!(Failure::Write(io::Error::from_raw_os_error(28)).status(), 128);
        assert_eq!(Failure::Write(io::Error::from_raw_os_error(32)).status(), 141);
        assert_eq!(shown(b"a\nb\xff"), "a?b\u{fffd}");
    }
}
