//! Entries of the index, as `git ls-files` lists them.

use crate::failure::Failure;
use crate::git::{self, Git};
use std::collections::HashMap;

/// Entries of the index by path.
#[derive(Debug, Default)]
pub struct Index {
    entries: HashMap<Vec<u8>, Entry>,
}

#[derive(Clone, Debug, PartialEq, Eq)]
pub struct Entry {
    /// `100644` and the like.
    pub mode: Vec<u8>,
    /// The number of its object.
    pub id: Vec<u8>,
    /// 0, or 2 for our side of a conflict.
    stage: u8,
}

impl Index {
    /// Lists the entries whose path ends in `.gitattributes`.
    ///
    /// # Errors
    ///
    /// What git fails with.
    pub fn of_attributes_files(git: &Git) -> Result<Index, Failure> {
        Index::list(git, &["ls-files", "-s", "-z", "--full-name", "--", ":(top)*.gitattributes"])
    }

    /// Lists all entries.
    ///
    /// # Errors
    ///
    /// What git fails with.
    pub fn whole(git: &Git) -> Result<Index, Failure> {
        Index::list(git, &["ls-files", "-s", "-z", "--full-name", "--", ":(top)"])
    }

    fn list(git: &Git, words: &[&str]) -> Result<Index, Failure> {
        let asked = git.output(words)?;
        if !asked.status.success() {
            return Err(git::failed(&asked));
        }
        Ok(Index::read(&asked.stdout))
    }

    /// Reads entries `MODE ID STAGE`, TAB, path, NUL. Of a conflict it keeps our side.
    fn read(listed: &[u8]) -> Index {
        let parsed = listed.split(|&byte| byte == 0).filter_map(parse);
        Index { entries: parsed.filter(|(_, entry)| matches!(entry.stage, 0 | 2)).collect() }
    }

    /// What git reads in the place of a file: in a conflict our side.
    pub fn get(&self, path: &[u8]) -> Option<&Entry> {
        self.entries.get(path)
    }

    /// The mode of a path that is in no conflict.
    pub fn mode(&self, path: &[u8]) -> Option<&[u8]> {
        self.entries.get(path).filter(|entry| entry.stage == 0).map(|entry| &entry.mode[..])
    }
}

fn parse(listed: &[u8]) -> Option<(Vec<u8>, Entry)> {
    let tab = listed.iter().position(|&byte| byte == b'\t')?;
    let mut words = listed[..tab].split(|&byte| byte == b' ').map(<[u8]>::to_vec);
    let (mode, id, stage) = (words.next()?, words.next()?, words.next()?);
    let stage = stage.first()?.wrapping_sub(b'0');
    Some((listed[tab + 1..].to_vec(), Entry { mode, id, stage }))
}

#[cfg(test)]
mod tests {
    use super::*;

    #[test]
    fn our_side_of_a_conflict_is_kept() {
        let index = Index::read(b"100644 aa 0\ta b\t\nc\0100644 bb 1\tx\0100755 cc 2\tx\0100644 dd 3\tx\0100644 ee 3\ty\0");
        assert_eq!(index.get(b"a b\t\nc").unwrap().id, b"aa");
        assert_eq!(index.get(b"x").unwrap().id, b"cc");
        assert_eq!(index.get(b"y"), None);
        assert_eq!((index.mode(b"a b\t\nc"), index.mode(b"x"), index.mode(b"z")), (Some(&b"100644"[..]), None, None));
    }
}
