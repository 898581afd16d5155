//! A name with its state.

use crate::{Name, NameRef, State, StateRef};
use bstr::ByteSlice;
use std::fmt;

/// The name of an attribute and its state.
#[derive(Clone, Debug, PartialEq, Eq, PartialOrd, Ord, Hash)]
#[cfg_attr(feature = "serde", derive(serde::Serialize, serde::Deserialize))]
pub struct Assignment {
    /// The name.
    pub name: Name,
    /// The state.
    pub state: State,
}

/// The name of an attribute and its state, both borrowed.
#[derive(Clone, Copy, Debug, PartialEq, Eq, PartialOrd, Ord, Hash)]
pub struct AssignmentRef<'a> {
    /// The name.
    pub name: NameRef<'a>,
    /// The state.
    pub state: StateRef<'a>,
}

impl<'a> Assignment {
    /// Borrows the name and the state.
    pub fn as_ref(&'a self) -> AssignmentRef<'a> {
        AssignmentRef { name: self.name.as_ref(), state: self.state.as_ref() }
    }
}

impl AssignmentRef<'_> {
    /// Copies the name and the state.
    pub fn to_owned(self) -> Assignment {
        Assignment { name: self.name.to_owned(), state: self.state.to_owned() }
    }
}

impl<'a> From<AssignmentRef<'a>> for Assignment {
    fn from(assignment: AssignmentRef<'a>) -> Assignment {
        assignment.to_owned()
    }
}

/// As in an attributes file: `name`, `-name`, `!name` or `name=value`, with U+FFFD for bytes of a value that are not UTF-8.
impl fmt::Display for AssignmentRef<'_> {
    fn fmt(&self, f: &mut fmt::Formatter<'_>) -> fmt::Result {
        let name = self.name.as_str();
        match self.state {
            StateRef::Set => f.write_str(name),
            StateRef::Unset => write!(f, "-{name}"),
            StateRef::Unspecified => write!(f, "!{name}"),
            StateRef::Value(value) => write!(f, "{name}={}", value.as_bstr().to_str_lossy()),
        }
    }
}
