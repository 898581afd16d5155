//! The names of lists, with their numbers and what macros bring.

use super::{Assignments, AttributeId, Attributes, Value};
use crate::{Name, NameRef};
use bstr::ByteSlice;
use gix_glob::search::pattern::List;
use gix_parallel::OwnShared;
use std::collections::HashMap;

/// The names of attributes and macros of all lists that were passed to it. Each has a number, in the order of addition.
#[derive(Clone, Debug, Default)]
pub struct MetadataCollection {
    known: OwnShared<Known>,
}

/// What is known of a name.
#[derive(Clone, Debug, PartialEq, Eq, PartialOrd, Ord, Hash)]
pub struct Metadata {
    /// Its number.
    pub id: AttributeId,
    /// What it brings as a macro; empty if it is none.
    pub macro_attributes: Assignments,
}

/// What outcomes share with their collection, until the collection changes.
#[derive(Clone, Debug, Default)]
pub(crate) struct Known {
    metadata: HashMap<Name, Metadata>,
    /// The names by number.
    names: Vec<Name>,
    /// The definitions of all macros, as an attributes file.
    definitions: OwnShared<Vec<u8>>,
}

impl MetadataCollection {
    /// Adds the names of a list, and notes their numbers in the list. Definitions of macros take the place of earlier ones, and
    /// stay when the list is gone.
    pub fn update_from_list(&mut self, list: &mut List<Attributes>) {
        for mapping in &mut list.patterns {
            let assignments = match &mut mapping.value {
                Value::Assignments(assignments) => assignments,
                Value::MacroAssignments { id, assignments } => {
                    *id = self.add(NameRef::of(&mapping.pattern.text).expect(VALID)).0;
                    assignments
                }
            };
            for assignment in assignments {
                assignment.id = self.add(assignment.inner.name.as_ref()).0;
            }
        }
        self.define_macros(list);
    }

    /// All names, in no particular order.
    pub fn iter(&self) -> impl Iterator<Item = (&str, &Metadata)> {
        self.known.metadata.iter().map(|(name, metadata)| (name.as_str(), metadata))
    }

    pub(crate) fn known(&self) -> &OwnShared<Known> {
        &self.known
    }

    /// The number of a name, which is added if it is new, and the name.
    pub(crate) fn add(&mut self, name: NameRef<'_>) -> (AttributeId, Name) {
        if let Some((name, metadata)) = self.known.metadata.get_key_value(name.as_str()) {
            return (metadata.id, name.clone());
        }
        let known = OwnShared::make_mut(&mut self.known);
        let (id, name) = (AttributeId(known.names.len()), name.to_owned());
        known.names.push(name.clone());
        known.metadata.insert(name.clone(), id.into());
        (id, name)
    }

    /// Takes over the macros of a list, whose names have their numbers.
    pub(crate) fn define_macros(&mut self, list: &List<Attributes>) {
        let mut has_macros = false;
        for mapping in &list.patterns {
            if let Value::MacroAssignments { assignments, .. } = &mapping.value {
                let metadata = &mut OwnShared::make_mut(&mut self.known).metadata;
                metadata.get_mut(macro_name(&mapping.pattern)).expect(VALID).macro_attributes.clone_from(assignments);
                has_macros = true;
            }
        }
        if has_macros {
            let known = OwnShared::make_mut(&mut self.known);
            known.definitions = OwnShared::new(known.definitions_file());
        }
    }
}

const VALID: &str = "the names of a list are valid";

fn macro_name(pattern: &gix_glob::Pattern) -> &str {
    pattern.text.to_str().expect(VALID)
}

impl Known {
    /// The number of a name.
    pub(crate) fn id(&self, name: &str) -> Option<AttributeId> {
        self.metadata.get(name).map(|metadata| metadata.id)
    }

    /// The names by number.
    pub(crate) fn names(&self) -> &[Name] {
        &self.names
    }

    /// The definitions of all macros, as an attributes file.
    pub(crate) fn definitions(&self) -> &OwnShared<Vec<u8>> {
        &self.definitions
    }

    /// The definitions of macros as they are now, a line each.
    fn definitions_file(&self) -> Vec<u8> {
        let mut file = Vec::new();
        for name in &self.names {
            let body = &self.metadata[name].macro_attributes;
            if body.is_empty() {
                continue;
            }
            file.extend_from_slice(b"[attr]");
            file.extend_from_slice(name.as_str().as_bytes());
            for assignment in body {
                write_assignment(&mut file, assignment.inner.as_ref());
            }
            file.push(b'\n');
        }
        file
    }
}

/// Writes an assignment as it stands in an attributes file, with a blank in front.
pub(crate) fn write_assignment(file: &mut Vec<u8>, assignment: crate::AssignmentRef<'_>) {
    let (mark, value): (&[u8], _) = match assignment.state {
        crate::StateRef::Set => (b" ", None),
        crate::StateRef::Unset => (b" -", None),
        crate::StateRef::Unspecified => (b" !", None),
        crate::StateRef::Value(value) => (b" ", Some(value.as_bstr())),
    };
    file.extend_from_slice(mark);
    file.extend_from_slice(assignment.name.as_str().as_bytes());
    if let Some(value) = value {
        file.push(b'=');
        file.extend_from_slice(value);
    }
}

/// That of an attribute that is no macro.
impl From<AttributeId> for Metadata {
    fn from(id: AttributeId) -> Metadata {
        Metadata { id, macro_attributes: Assignments::new() }
    }
}
