//! What is found for an attribute.

use super::AttributeId;
use crate::AssignmentRef;
use std::path::Path;

/// What is found for an attribute: its state, and which line gives it.
#[derive(Clone, Debug, PartialEq, Eq, PartialOrd, Ord, Hash)]
pub struct Match<'a> {
    /// The pattern of the line.
    pub pattern: &'a gix_glob::Pattern,
    /// The attribute and its state.
    pub assignment: AssignmentRef<'a>,
    /// Whether it is a macro, and which macro brings it.
    pub kind: MatchKind,
    /// Where the line stands.
    pub location: MatchLocation<'a>,
}

/// Where a line stands.
#[derive(Clone, Debug, PartialEq, Eq, PartialOrd, Ord, Hash)]
pub struct MatchLocation<'a> {
    /// The path of the file, as it was passed; `None` if no line was found.
    pub source: Option<&'a Path>,
    /// The number of the line, from 1; 0 if no line was found.
    pub sequence_number: usize,
}

/// Whether what is found is a macro, and how it comes to the line: by name, or by a macro that the line names or brings.
/// [`Outcome::match_by_id()`](super::Outcome::match_by_id()) tells what is found for that macro.
#[derive(Clone, Copy, Debug, PartialEq, Eq, PartialOrd, Ord, Hash)]
pub enum MatchKind {
    /// An attribute that is no macro.
    Attribute {
        /// The macro that brings it; `None` if the line names it.
        macro_id: Option<AttributeId>,
    },
    /// A macro.
    Macro {
        /// The macro that brings it; `None` if the line names it.
        parent_macro_id: Option<AttributeId>,
    },
}

impl MatchKind {
    /// The macro that brings it; `None` if the line names it.
    pub fn source_id(&self) -> Option<AttributeId> {
        match *self {
            MatchKind::Attribute { macro_id: id } | MatchKind::Macro { parent_macro_id: id } => id,
        }
    }
}
