//! Why a call fails.

use crate::sys::{self, Status};
use std::fmt;

/// Why a call of an [`Engine`](crate::Engine) fails. The engine is then as it was before the call, but that a failed `ask`
/// leaves no answers.
#[derive(Clone, Copy, Debug, PartialEq, Eq, Hash)]
#[non_exhaustive]
pub enum Error {
    /// The library got no memory.
    OutOfMemory,
    /// A directory begins or ends with a slash, or it has `//` or a part `.` or `..`.
    InvalidDirectory,
    /// A name that was selected is not UTF-8.
    InvalidName,
    /// There is no list to remove.
    NoList,
    /// The library that is linked has another version than this crate: `major << 16 | minor << 8 | patch`.
    Version(u32),
    /// The library returned a status that it doesn't document for the call.
    Status(i32),
}

impl Error {
    /// The error of a status that means the same in all calls, and of `INVALID` what it means in this one.
    pub(crate) fn of(status: Status, invalid: Option<Error>) -> Error {
        match (status, invalid) {
            (sys::NO_MEMORY, _) => Error::OutOfMemory,
            (sys::NO_LIST, _) => Error::NoList,
            (sys::INVALID, Some(error)) => error,
            (status, _) => Error::Status(status),
        }
    }
}

impl From<Status> for Error {
    fn from(status: Status) -> Error {
        Error::of(status, None)
    }
}

impl fmt::Display for Error {
    fn fmt(&self, f: &mut fmt::Formatter<'_>) -> fmt::Result {
        match self {
            Error::OutOfMemory => f.write_str("out of memory"),
            Error::InvalidDirectory => f.write_str("a directory has a slash at an end, or `//` or a part `.` or `..`"),
            Error::InvalidName => f.write_str("a selected name is not UTF-8"),
            Error::NoList => f.write_str("there is no list to remove"),
            Error::Version(it) => write!(f, "libyektrod has version {}.{}.{}", it >> 16, it >> 8 & 0xff, it & 0xff),
            Error::Status(status) => write!(f, "libyektrod returned the status {status}"),
        }
    }
}

impl std::error::Error for Error {}
