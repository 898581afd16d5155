//! Which tree the attributes files of directories are read in, if not the work tree.

use crate::arguments::Options;
use crate::configuration::Configuration;
use crate::failure::{shown, Failure};
use crate::objects::{is_id, Objects};
use crate::reader::Place;
use crate::trees::Trees;
use std::env;
use std::os::unix::ffi::OsStringExt;

/// A name of a tree leads to a tree, to an object that has none, or nowhere.
#[derive(Clone, Debug, PartialEq, Eq)]
enum Lead {
    Tree(Vec<u8>),
    NoTree,
    Nowhere,
}

/// Where attributes files are read: as `--cached` and `--source` say, then `GIT_ATTR_SOURCE`, then `attr.tree`; else in the work
/// tree, and nowhere in a bare repository.
///
/// # Errors
///
/// [`Failure::Fatal`] if `--source` names no object.
pub fn place(options: &Options, configuration: &Configuration, is_bare: bool, objects: &mut Objects) -> Result<Place, Failure> {
    let from_environment = || env::var_os("GIT_ATTR_SOURCE").map(OsStringExt::into_vec);
    let place = if let Some(name) = &options.source {
        match lead(name, objects)? {
            Lead::Nowhere => return Err(Failure::Fatal(format!("{}: not a valid tree-ish source", shown(name)))),
            lead => lead.place(),
        }
    } else if let Some(name) = from_environment() {
        lead(&name, objects)?.place()
    } else {
        let named = configuration.tree.as_ref().map(|name| lead(name, objects)).transpose()?;
        match named {
            Some(Lead::Tree(id)) => Place::Tree(Trees::new(id)),
            None | Some(Lead::Nowhere) if !is_bare => Place::WorkTree,
            _ => Place::Nothing,
        }
    };
    Ok(match place {
        Place::BadSource => place,
        _ if options.cached => Place::Index,
        _ => place,
    })
}

impl Lead {
    fn place(self) -> Place {
        match self {
            Lead::Tree(id) => Place::Tree(Trees::new(id)),
            Lead::NoTree => Place::Nothing,
            Lead::Nowhere => Place::BadSource,
        }
    }
}

/// Where a name leads. The number of an object leads to it even if the repository lacks it.
fn lead(name: &[u8], objects: &mut Objects) -> Result<Lead, Failure> {
    let found = match objects.find(name)? {
        Some(found) if found.kind == b"tree" => return Ok(Lead::Tree(found.id)),
        Some(found) => Some(found.id),
        None => None,
    };
    // A short number may be that of one tree only.
    let peeled = [found.as_deref().unwrap_or(name), b"^{tree}"].concat();
    Ok(match objects.find(&peeled)? {
        Some(tree) => Lead::Tree(tree.id),
        None if found.is_some() || is_id(name) => Lead::NoTree,
        None => Lead::Nowhere,
    })
}
