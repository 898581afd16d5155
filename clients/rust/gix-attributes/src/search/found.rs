//! What an outcome keeps of an answer.

use super::lists::Lines;
use super::{AttributeId, Match, MatchKind, MatchLocation};
use crate::{AssignmentRef, Name, NameRef, State, StateRef};
use bstr::BString;
use gix_glob::pattern::Mode;
use gix_parallel::OwnShared;

/// What was found for an attribute.
#[derive(Clone)]
pub(crate) struct Found {
    /// The number of the attribute.
    pub(crate) id: AttributeId,
    pub(crate) state: State,
    pub(crate) kind: MatchKind,
    /// The index of the list among those of the question, or `EARLIER`.
    pub(crate) list: usize,
    /// The lines of the list, and the index of the line.
    pub(crate) lines: OwnShared<Lines>,
    pub(crate) line: usize,
}

/// In place of the index of a list: it was found for an earlier question.
pub(crate) const EARLIER: usize = usize::MAX;

/// The pattern of a selected attribute that no line gives a state.
static NO_PATTERN: gix_glob::Pattern =
    gix_glob::Pattern { text: BString::new(Vec::new()), mode: Mode::empty(), first_wildcard_pos: None };

impl Found {
    /// The name of the attribute, among the names by number, and its state.
    pub(crate) fn assignment<'a>(&'a self, names: &'a [Name]) -> AssignmentRef<'a> {
        AssignmentRef { name: names[self.id.0].as_ref(), state: self.state.as_ref() }
    }

    /// The same for a caller.
    pub(crate) fn to_match<'a>(&'a self, names: &'a [Name]) -> Match<'a> {
        let (number, pattern) = &self.lines.patterns[self.line];
        Match {
            pattern,
            assignment: self.assignment(names),
            kind: self.kind,
            location: MatchLocation { source: self.lines.source.as_deref(), sequence_number: *number },
        }
    }
}

/// What a caller gets for a selected attribute for which nothing was found.
pub(crate) fn nothing(name: NameRef<'_>) -> Match<'_> {
    Match {
        pattern: &NO_PATTERN,
        assignment: AssignmentRef { name, state: StateRef::Unspecified },
        kind: MatchKind::Attribute { macro_id: None },
        location: MatchLocation { source: None, sequence_number: 0 },
    }
}
