//! The gitattributes of paths, by the proved engine of the library Yektrod.
//!
//! An [`Engine`] holds the lists of attributes files that a caller adds, and answers for paths. A [`Stack`] finds the
//! attributes files of a tree in git's order by itself.
//!
//! Paths, directories, sources and values are bytes. Paths are relative to the top of the tree, and have single slashes and no
//! parts `.` and `..`.
#![deny(unsafe_code)]
#![warn(missing_docs)]

mod answers;
mod dropped;
mod engine;
mod error;
pub mod stack;
mod sys;

pub use answers::{Answer, Answers, Iter, Macro, Origin, State};
pub use dropped::{Dropped, Reason};
pub use engine::{Added, Case, Engine, Place};
pub use error::Error;
pub use stack::Stack;
