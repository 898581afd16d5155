//! The lists of a stack in its engine.

use super::tree::{FileId, Tree};
use super::{DroppedLines, File};
use crate::{Added, Engine, Error, Place};
use std::collections::HashSet;

/// Of so many sources it is remembered that their dropped lines were handed out.
const MOST_TOLD: usize = 10_000;

/// An engine with the lists of the system and the user, above them lists of a tree, and above these the one of
/// `info/attributes`.
///
/// Lists of a tree may stand in any order but that those of the directories above stand below, since each applies below its own
/// directory alone.
pub struct Lists {
    pub engine: Engine,
    /// The lists of the tree that stand, in their order.
    standing: Vec<FileId>,
    /// How many bytes these take, about.
    weight: usize,
    info: Option<File>,
    info_stands: bool,
    /// Dropped lines that the caller has not taken so far.
    pub dropped: Vec<DroppedLines>,
    /// The sources whose dropped lines were handed out.
    told: HashSet<Vec<u8>>,
}

impl Lists {
    /// An engine with the lists of these files alone.
    pub fn new(files: impl IntoIterator<Item = File>, info: Option<File>) -> Result<Lists, Error> {
        let mut lists = Lists {
            engine: Engine::new()?,
            standing: Vec::new(),
            weight: 0,
            info,
            info_stands: false,
            dropped: Vec::new(),
            told: HashSet::new(),
        };
        for File { source, contents } in files {
            let added = lists.engine.add(&contents, Place { directory: b"", source: &source }, true)?;
            lists.tell(source, added);
        }
        Ok(lists)
    }

    /// How many lists of the tree stand.
    pub fn len(&self) -> usize {
        self.standing.len()
    }

    /// How many bytes the lists of the tree take, about.
    pub fn weight(&self) -> usize {
        self.weight
    }

    /// How many lists from the first one on are those of these files, in their order.
    pub fn common(&self, chain: &[FileId]) -> usize {
        self.standing.iter().zip(chain).take_while(|(one, other)| one == other).count()
    }

    /// Whether that of `info/attributes` stands above all others.
    pub fn is_complete(&self) -> bool {
        self.info_stands || self.info.is_none()
    }

    /// Removes the list of `info/attributes`, and those of the tree above the first ones, so many of which stay.
    pub fn take_off(&mut self, tree: &mut Tree, kept: usize) -> Result<(), Error> {
        if self.info_stands {
            self.engine.pop()?;
            self.info_stands = false;
        }
        while self.standing.len() > kept {
            self.engine.pop()?;
            if let Some(id) = self.standing.pop() {
                tree[id].stands = false;
                tree[id].stood = true;
                self.weight -= tree[id].weight;
            }
        }
        Ok(())
    }

    /// Adds the list of a file of the tree. Those of the files above stand, and the one of `info/attributes` doesn't.
    pub fn push(&mut self, tree: &mut Tree, id: FileId) -> Result<(), Error> {
        let file = &mut tree[id];
        let contents = file.contents.as_deref().unwrap_or_default();
        let source = source_of(&file.directory);
        let allow_macros = file.directory.is_empty();
        let added = self.engine.add(contents, Place { directory: &file.directory, source: &source }, allow_macros)?;
        file.stands = true;
        self.standing.push(id);
        self.weight += file.weight;
        self.tell(source, added);
        Ok(())
    }

    /// Adds the list of `info/attributes`, if there is one and it doesn't stand.
    pub fn complete(&mut self) -> Result<(), Error> {
        if let (Some(File { source, contents }), false) = (&self.info, self.info_stands) {
            let added = self.engine.add(contents, Place { directory: b"", source }, true)?;
            self.info_stands = true;
            let source = source.clone();
            self.tell(source, added);
        }
        Ok(())
    }

    /// Keeps the lines that were dropped for the caller, unless it was given those of the source before.
    fn tell(&mut self, source: Vec<u8>, added: Added) {
        if added.dropped.is_empty() {
            return;
        }
        if self.told.len() == MOST_TOLD {
            self.told.clear();
        }
        if self.told.insert(source.clone()) {
            self.dropped.push(DroppedLines { source, lines: added.dropped });
        }
    }
}

/// The path of the attributes file of a directory.
fn source_of(directory: &[u8]) -> Vec<u8> {
    let mut source = directory.to_vec();
    if !directory.is_empty() {
        source.push(b'/');
    }
    source.extend_from_slice(b".gitattributes");
    source
}
