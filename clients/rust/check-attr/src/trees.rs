//! Attributes files in a tree of the repository.

use crate::failure::{shown, Failure};
use crate::objects::{Contents, Objects};
use std::collections::HashMap;

const OF_DIRECTORY: &[u8] = b"40000";
const OF_SUBMODULE: &[u8] = b"160000";

/// A tree, of which each directory is read when it is first entered: after the one above it.
#[derive(Debug)]
pub struct Trees {
    /// The number of the tree of the top.
    top: Vec<u8>,
    /// The numbers of directories that were found in those that were entered.
    below: HashMap<Vec<u8>, Vec<u8>>,
}

/// An entry of a tree.
#[derive(Debug, PartialEq, Eq)]
struct Entry<'a> {
    mode: &'a [u8],
    name: &'a [u8],
    /// The bytes of the object's number.
    id: &'a [u8],
}

impl Trees {
    /// The tree with this number, in hexadecimal digits.
    pub fn new(top: Vec<u8>) -> Trees {
        Trees { top, below: HashMap::new() }
    }

    /// Enters a directory, and returns the number of its attributes file, if it has one.
    ///
    /// # Errors
    ///
    /// [`Failure::Fatal`] if git has ended, or a tree is malformed or corrupt.
    pub fn attributes_file(&mut self, directory: &[u8], objects: &mut Objects) -> Result<Option<Vec<u8>>, Failure> {
        if directory.is_empty() {
            // Whoever begins at the top again enters all directories again.
            self.below.clear();
        }
        let id = match directory {
            b"" => Some(&self.top),
            _ => self.below.get(directory),
        };
        let id = match id {
            Some(id) => id,
            None => return Ok(None),
        };
        match objects.contents(id, b"tree", u64::MAX)? {
            Some(Contents::Whole(tree)) => self.enter(directory, &tree),
            Some(Contents::TooLarge) | None => Ok(None),
        }
    }

    /// Keeps the directories of a tree, and returns the number of its attributes file.
    fn enter(&mut self, directory: &[u8], tree: &[u8]) -> Result<Option<Vec<u8>>, Failure> {
        let mut found = None;
        let mut entries = Entries { rest: tree, id_length: self.top.len() / 2 };
        for entry in entries.by_ref() {
            if entry.mode == OF_DIRECTORY {
                let path = if directory.is_empty() { entry.name.to_vec() } else { [directory, b"/", entry.name].concat() };
                self.below.entry(path).or_insert_with(|| digits(entry.id));
            } else if entry.name == b".gitattributes" && entry.mode != OF_SUBMODULE {
                found = Some(digits(entry.id));
            }
        }
        if !entries.rest.is_empty() {
            return Err(Failure::Fatal(format!("malformed tree of '{}/'", shown(directory))));
        }
        Ok(found)
    }
}

/// The entries of a tree, up to one that is malformed.
struct Entries<'a> {
    rest: &'a [u8],
    id_length: usize,
}

impl<'a> Iterator for Entries<'a> {
    type Item = Entry<'a>;

    fn next(&mut self) -> Option<Entry<'a>> {
        let blank = self.rest.iter().position(|&byte| byte == b' ')?;
        let end = self.rest.iter().position(|&byte| byte == 0)?;
        let entry = Entry {
            mode: &self.rest[..blank],
            name: self.rest.get(blank + 1..end)?,
            id: self.rest.get(end + 1..end + 1 + self.id_length)?,
        };
        self.rest = &self.rest[end + 1 + self.id_length..];
        Some(entry)
    }
}

/// The hexadecimal digits of a number.
fn digits(id: &[u8]) -> Vec<u8> {
    let digit = |it: u8| b"0123456789abcdef"[usize::from(it)];
    id.iter().flat_map(|byte| [digit(byte >> 4), digit(byte & 15)]).collect()
}

#[cfg(test)]
mod tests {
    use super::*;

    fn entry(mode: &str, name: &str, id: u8) -> Vec<u8> {
        [mode.as_bytes(), b" ", name.as_bytes(), b"\0", &[id; 20]].concat()
    }

    #[test]
    fn directories_and_the_attributes_file_are_found() {
        let tree = [
            entry("100644", ".gitattributes", 0x1f),
            entry("40000", "a b", 0xa0),
            entry("120000", "link", 3),
            entry("160000", "module", 4),
        ];
        let mut trees = Trees::new(b"00".repeat(20));
        assert_eq!(trees.enter(b"x", &tree.concat()).unwrap(), Some(b"1f".repeat(20)));
        assert_eq!(trees.below.len(), 1);
        assert_eq!(trees.below.get(&b"x/a b"[..]), Some(&b"a0".repeat(20)));
        for mode in ["40000", "160000"] {
            assert_eq!(trees.enter(b"", &entry(mode, ".gitattributes", 1)).unwrap(), None);
        }
        assert_eq!(trees.enter(b"", &entry("120000", ".gitattributes", 1)).unwrap(), Some(b"01".repeat(20)));
    }

    #[test]
    fn a_malformed_tree_is_refused() {
        let mut trees = Trees::new(b"00".repeat(20));
        let whole = entry("100644", "f", 7);
        assert_eq!(trees.enter(b"", b"").unwrap(), None);
        assert_eq!(trees.enter(b"", &whole).unwrap(), None);
        for end in 1..whole.len() {
            assert!(trees.enter(b"", &whole[..end]).is_err());
            assert!(trees.enter(b"", &[&whole, &whole[..end]].concat()).is_err());
        }
    }
}
