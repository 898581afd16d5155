//! Why a question to a stack fails.

use crate::Error;
use std::{fmt, io};

/// Why a [`Stack`](super::Stack) gives no answers for a path. The same question can be asked again.
#[derive(Debug)]
#[non_exhaustive]
pub enum AskError {
    /// The reader could not read the attributes file of a directory.
    Read {
        /// The directory; empty for the top.
        directory: Vec<u8>,
        /// What the reader returned.
        error: io::Error,
    },
    /// The path has a slash at its start, or `//`, or a part `.` or `..`.
    InvalidPath,
    /// The engine's error.
    Engine(Error),
}

impl From<Error> for AskError {
    fn from(error: Error) -> AskError {
        AskError::Engine(error)
    }
}

impl fmt::Display for AskError {
    fn fmt(&self, f: &mut fmt::Formatter<'_>) -> fmt::Result {
        match self {
            AskError::Read { directory, .. } => {
                let directory = String::from_utf8_lossy(directory);
                write!(f, "cannot read the attributes file of the directory `{directory}`")
            }
            AskError::InvalidPath => f.write_str("a path has a slash at its start, or `//`, or a part `.` or `..`"),
            AskError::Engine(error) => error.fmt(f),
        }
    }
}

impl std::error::Error for AskError {
    fn source(&self) -> Option<&(dyn std::error::Error + 'static)> {
        match self {
            AskError::Read { error, .. } => Some(error),
            AskError::InvalidPath | AskError::Engine(_) => None,
        }
    }
}
