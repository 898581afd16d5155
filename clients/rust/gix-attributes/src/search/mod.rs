//! Searches: the lists of attributes files, the names that they have, and what is found for a path.

use crate::Assignment;
use smallvec::SmallVec;

mod attributes;
mod engine;
mod found;
pub(crate) mod lists;
mod matched;
mod metadata;
mod outcome;
mod question;

pub use attributes::Attributes;
pub use matched::{Match, MatchKind, MatchLocation};
pub use metadata::{Metadata, MetadataCollection};
pub use outcome::Outcome;

/// The assignments of a line.
pub type Assignments = SmallVec<[TrackedAssignment; ROOM]>;

/// How many assignments a line has, or names a selection, before they take memory of their own.
const ROOM: usize = 3;

/// The number of an attribute or a macro in a [`MetadataCollection`].
#[derive(Clone, Copy, Debug, PartialEq, Eq, PartialOrd, Ord, Hash)]
pub struct AttributeId(pub usize);

/// An assignment with the number of its name.
#[derive(Clone, Debug, PartialEq, Eq, PartialOrd, Ord, Hash)]
pub struct TrackedAssignment {
    /// The number, which is the default one until the list is passed to a collection.
    pub id: AttributeId,
    /// The name and the state.
    pub inner: Assignment,
}

/// What a line gives: the value of a [mapping](gix_glob::search::pattern::Mapping).
#[derive(Clone, Debug, PartialEq, Eq, PartialOrd, Ord, Hash)]
pub enum Value {
    /// The line defines a macro. The text of the mapping's pattern is its name.
    MacroAssignments {
        /// The number of the macro, which is an attribute too.
        id: AttributeId,
        /// What the macro brings.
        assignments: Assignments,
    },
    /// The states that the line gives to the paths of its pattern.
    Assignments(Assignments),
}

/// No number.
impl Default for AttributeId {
    fn default() -> AttributeId {
        AttributeId(usize::MAX)
    }
}
