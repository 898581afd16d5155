//! How a list of patterns reads an attributes file.

use super::{Assignments, AttributeId, ROOM, TrackedAssignment, Value};
use crate::parse::{Iter, Kind};
use crate::{Assignment, AssignmentRef, Name, NameRef};
use gix_error::Result;
use gix_glob::pattern::Mode;
use gix_glob::search::pattern::Mapping;
use smallvec::SmallVec;
use std::path::Path;

/// The parser of a [list](gix_glob::search::pattern::List) of an attributes file.
#[derive(Clone, Debug, Default, PartialEq, Eq, PartialOrd, Ord, Hash)]
pub struct Attributes;

impl gix_glob::search::Pattern for Attributes {
    type Value = Value;

    /// The lines of the file. One that is not valid is dropped, with a warning to the log.
    fn bytes_to_patterns(&self, bytes: &[u8], source: &Path) -> Vec<Mapping<Value>> {
        mappings(bytes, source, true, |name| (AttributeId::default(), name.to_owned()))
    }
}

/// The lines of a file, without those that define macros if these are not allowed. `name` numbers and copies a name.
pub(crate) fn mappings(
    bytes: &[u8],
    _source: &Path,
    allow_macros: bool,
    mut name: impl FnMut(NameRef<'_>) -> (AttributeId, Name),
) -> Vec<Mapping<Value>> {
    let mut mappings = Vec::new();
    for line in crate::parse(bytes) {
        match line.and_then(|(kind, assignments, number)| Ok((kind, valid(assignments)?, number))) {
            Ok((Kind::Macro(_), ..)) if !allow_macros => {}
            Ok((kind, assignments, number)) => mappings.push(mapping(kind, &assignments, number, &mut name)),
            Err(_error) => gix_trace::warn!("{}: {_error}", _source.display()),
        }
    }
    mappings
}

/// The assignments of a line, if all are valid.
fn valid(assignments: Iter<'_>) -> Result<SmallVec<[AssignmentRef<'_>; ROOM]>> {
    let mut all = SmallVec::new();
    for assignment in assignments {
        all.push(assignment?);
    }
    Ok(all)
}

fn mapping(
    kind: Kind,
    assignments: &[AssignmentRef<'_>],
    sequence_number: usize,
    name: &mut impl FnMut(NameRef<'_>) -> (AttributeId, Name),
) -> Mapping<Value> {
    let id = if let Kind::Macro(of) = &kind { name(of.as_ref()).0 } else { AttributeId::default() };
    let tracked = assignments.iter().map(|assignment| {
        let (id, name) = name(assignment.name);
        TrackedAssignment { id, inner: Assignment { name, state: assignment.state.to_owned() } }
    });
    let assignments: Assignments = tracked.collect();
    match kind {
        Kind::Pattern(pattern) => Mapping { pattern, value: Value::Assignments(assignments), sequence_number },
        Kind::Macro(name) => Mapping {
            pattern: gix_glob::Pattern { text: name.as_str().into(), mode: Mode::all(), first_wildcard_pos: None },
            value: Value::MacroAssignments { id, assignments },
            sequence_number,
        },
    }
}
