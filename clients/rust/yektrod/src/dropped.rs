//! Dropped lines.

use crate::sys;
use std::fmt;

/// A line of an attributes file that was dropped.
#[derive(Clone, Copy, Debug, PartialEq, Eq, Hash)]
pub struct Dropped {
    /// Its number, from 1.
    pub line: usize,
    /// Why it was.
    pub reason: Reason,
}

/// Why a line was dropped.
///
/// ```
/// assert_eq!(yektrod::Reason::NegativePattern.to_string(), "its pattern is negative");
/// ```
#[derive(Clone, Copy, Debug, PartialEq, Eq, Hash)]
#[non_exhaustive]
pub enum Reason {
    /// It defines a macro whose name is invalid or reserved.
    MacroName,
    /// Its pattern begins with `!`.
    NegativePattern,
    /// One of its names is invalid.
    InvalidName,
    /// One of its names is reserved: it begins with `builtin_`.
    Reserved,
    /// A reason that this crate doesn't know, by the library's number.
    Other(i32),
}

impl Dropped {
    pub(crate) fn new(line: &sys::DroppedLine) -> Dropped {
        let reason = match line.reason {
            1 => Reason::MacroName,
            2 => Reason::NegativePattern,
            3 => Reason::InvalidName,
            4 => Reason::Reserved,
            other => Reason::Other(other),
        };
        Dropped { line: line.line, reason }
    }
}

impl fmt::Display for Reason {
    fn fmt(&self, f: &mut fmt::Formatter<'_>) -> fmt::Result {
        match self {
            Reason::MacroName => f.pad("its macro has a bad name"),
            Reason::NegativePattern => f.pad("its pattern is negative"),
            Reason::InvalidName => f.pad("an attribute has a bad name"),
            Reason::Reserved => f.pad("an attribute has a name that is reserved"),
            Reason::Other(number) => write!(f, "the library's reason {number}"),
        }
    }
}
