//! The public surface of `gix-attributes` 0.37 over the proved engine of the library Yektrod, so that gitoxide's other crates
//! can be built on it unchanged:
//!
//! ```toml
//! [patch.crates-io]
//! gix-attributes = { path = "../yektrod/clients/rust/gix-attributes" }
//! ```
//!
//! Which lines match a path, what macros bring, and which line wins is found by the engine, by way of the crate `yektrod`. Here
//! are the types, the parser of lines, the numbers of names, and what brings lists and questions to an engine.
//!
//! ```
//! use gix_attributes::{Search, glob::pattern::Case, search::{MetadataCollection, Outcome}};
//!
//! let (mut search, mut names) = (Search::default(), MetadataCollection::default());
//! search.add_patterns_buffer(b"*.md text\n/docs/* -text eol=lf\n", ".gitattributes".into(), None, &mut names, true)?;
//! let mut outcome = Outcome::default();
//! outcome.initialize_with_selection(&names, ["eol", "text"]);
//! search.pattern_matching_relative_path("docs/a.md".into(), Case::Sensitive, Some(false), &mut outcome);
//! let found: Vec<_> = outcome.iter_selected().map(|it| it.assignment.to_string()).collect();
//! assert_eq!(found, ["eol=lf", "-text"]);
//! # Ok::<(), std::io::Error>(())
//! ```
//!
//! A call has no way to report that the library gets no memory: it panics then. `README.md` has what else differs.
#![forbid(unsafe_code)]
#![warn(missing_docs)]

pub use gix_glob as glob;

mod assignment;
pub mod name;
pub mod parse;
pub mod search;
mod source;
pub mod state;

pub use assignment::{Assignment, AssignmentRef};
pub use name::{Name, NameRef};
pub use search::lists::Search;
pub use source::Source;
pub use state::{State, StateRef};

/// Parses the lines of an attributes file. A line that is not valid is an error, and those after it follow.
pub fn parse(bytes: &[u8]) -> parse::Lines<'_> {
    parse::Lines::new(bytes)
}
