//! The attributes files of directories: from the work tree, the index or a tree.

use crate::contents::{Kind, Lines};
use crate::failure::{shown, warn, Failure};
use crate::files::{self, Links, TOO_LARGE};
use crate::git::Git;
use crate::index::Index;
use crate::objects::{Contents, Objects};
use crate::trees::Trees;
use std::collections::HashSet;
use std::ffi::OsStr;
use std::io;
use std::os::unix::ffi::OsStrExt;
use std::path::Path;

/// Where the attributes files of directories are read.
#[derive(Debug)]
pub enum Place {
    /// In the work tree whose top is the current directory, and what it lacks in the index.
    WorkTree,
    /// In the index.
    Index,
    /// In a tree.
    Tree(Trees),
    /// Directories have none.
    Nothing,
    /// In a tree that is named wrongly: no path can be answered.
    BadSource,
}

/// Reads the attributes file of a directory.
#[derive(Debug)]
pub struct Reader {
    git: Git,
    place: Place,
    /// The index, once a file was missing.
    index: Option<Index>,
    objects: Objects,
    /// The files whose warnings were told.
    told: HashSet<Vec<u8>>,
}

impl Reader {
    pub fn new(git: Git, place: Place, objects: Objects) -> Reader {
        Reader { git, place, index: None, objects, told: HashSet::new() }
    }

    /// The lines that the engine is given of a directory's file, whose path is this.
    fn lines(&mut self, directory: &[u8], path: &[u8]) -> Result<Option<Lines>, Failure> {
        if let Place::WorkTree = self.place {
            if let Some(contents) = files::read(Path::new(OsStr::from_bytes(path)), path, Links::Refused) {
                return Ok(Some(Lines::read(contents, Kind::File, path, directory.is_empty())));
            }
        }
        let id = match &mut self.place {
            Place::WorkTree | Place::Index => self.in_index(path)?,
            Place::Tree(trees) => trees.attributes_file(directory, &mut self.objects)?,
            Place::Nothing => None,
            Place::BadSource => return Err(Failure::Fatal("bad --attr-source or GIT_ATTR_SOURCE".to_string())),
        };
        let contents = match id {
            Some(id) => self.blob(&id, path)?,
            None => None,
        };
        Ok(contents.map(|contents| Lines::read(contents, Kind::Object, path, directory.is_empty())))
    }

    /// The number of a file in the index.
    fn in_index(&mut self, path: &[u8]) -> Result<Option<Vec<u8>>, Failure> {
        let index = match self.index.take() {
            Some(index) => index,
            None => Index::of_attributes_files(&self.git)?,
        };
        Ok(self.index.insert(index).get(path).map(|entry| entry.id.clone()))
    }

    /// What the blob with this number holds.
    fn blob(&mut self, id: &[u8], path: &[u8]) -> Result<Option<Vec<u8>>, Failure> {
        match self.objects.contents(id, b"blob", TOO_LARGE)? {
            Some(Contents::Whole(contents)) => Ok(Some(contents)),
            Some(Contents::TooLarge) => {
                warn(&format!("ignoring overly large gitattributes blob '{}'", shown(path)));
                Ok(None)
            }
            None => Ok(None),
        }
    }
}

impl yektrod::stack::Reader for Reader {
    fn read(&mut self, directory: &[u8]) -> io::Result<Option<Vec<u8>>> {
        let path = if directory.is_empty() { b".gitattributes".to_vec() } else { [directory, b"/.gitattributes"].concat() };
        let lines = match self.lines(directory, &path)? {
            Some(lines) => lines,
            None => return Ok(None),
        };
        if !lines.warnings.is_empty() && self.told.insert(path) {
            lines.warnings.iter().for_each(|words| warn(words));
        }
        Ok(Some(lines.contents))
    }
}
