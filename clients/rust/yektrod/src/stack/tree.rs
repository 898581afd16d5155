//! What is known of a tree: which of its directories have an attributes file, and what is in these.

use std::collections::HashMap;
use std::iter;
use std::ops::{Index, IndexMut};

/// The number of an attributes file of a tree.
#[derive(Clone, Copy, Debug, PartialEq, Eq)]
pub struct FileId(usize);

/// The attributes file of a directory.
#[derive(Debug)]
pub struct File {
    pub directory: Box<[u8]>,
    /// The nearest file above.
    parent: Option<FileId>,
    /// What is in it, unless that is to be read again.
    pub contents: Option<Vec<u8>>,
    /// How many bytes its list takes in an engine, about.
    pub weight: usize,
    /// The same of its list and those of all files above together.
    pub chain_weight: usize,
    /// Whether its list stands in the engine. If so, those of the files above stand below it.
    pub stands: bool,
    /// Whether its list stood before.
    pub stood: bool,
}

/// The directories that were entered, and their files.
#[derive(Debug, Default)]
pub struct Tree {
    /// Of each directory the nearest file: its own, or one above.
    nearest: HashMap<Box<[u8]>, Option<FileId>>,
    files: Vec<File>,
    /// How many bytes the directories and their files take, about, without the contents of these.
    directories_size: usize,
    /// How many bytes all contents take.
    contents_size: usize,
}

impl Tree {
    /// The nearest file of a directory, if the directory was entered.
    pub fn nearest(&self, directory: &[u8]) -> Option<Option<FileId>> {
        self.nearest.get(directory).copied()
    }

    /// Enters a directory, with what is in its file, below a directory with that nearest file. Returns its own nearest file.
    pub fn enter(&mut self, directory: &[u8], parent: Option<FileId>, contents: Option<Vec<u8>>) -> Option<FileId> {
        let nearest = match contents {
            Some(contents) if !contents.is_empty() => Some(self.add_file(directory, parent, contents)),
            _ => parent,
        };
        self.nearest.insert(directory.into(), nearest);
        self.directories_size += directory_size(directory);
        nearest
    }

    fn add_file(&mut self, directory: &[u8], parent: Option<FileId>, contents: Vec<u8>) -> FileId {
        let id = FileId(self.files.len());
        let weight = weight(&contents);
        self.directories_size += directory_size(directory);
        self.contents_size += contents.len();
        self.files.push(File {
            directory: directory.into(),
            parent,
            contents: Some(contents),
            weight,
            chain_weight: weight + self.chain_weight(parent),
            stands: false,
            stood: false,
        });
        id
    }

    /// How many bytes the lists of a file and of those above take, about.
    pub fn chain_weight(&self, nearest: Option<FileId>) -> usize {
        nearest.map_or(0, |id| self[id].chain_weight)
    }

    /// The nearest file that stands: this one, or one above.
    pub fn nearest_standing(&self, nearest: Option<FileId>) -> Option<FileId> {
        self.upward(nearest).find(|&id| self[id].stands)
    }

    fn upward(&self, nearest: Option<FileId>) -> impl Iterator<Item = FileId> + '_ {
        iter::successors(nearest, move |&id| self[id].parent)
    }

    /// A file and those above, that of the highest directory first.
    pub fn chain(&self, nearest: Option<FileId>) -> Vec<FileId> {
        let mut chain: Vec<FileId> = self.upward(nearest).collect();
        chain.reverse();
        chain
    }

    /// Keeps the contents of a file, which were read again.
    pub fn keep(&mut self, id: FileId, contents: Vec<u8>) {
        self.contents_size += contents.len();
        self[id].contents = Some(contents);
    }

    /// Lets the contents of a file go if all contents together are longer than this.
    pub fn trim(&mut self, id: FileId, limit: usize) {
        if self.contents_size > limit {
            let gone = self[id].contents.take();
            self.contents_size -= gone.map_or(0, |contents| contents.len());
        }
    }

    /// How many bytes the record of directories takes, about.
    pub fn directories_size(&self) -> usize {
        self.directories_size
    }
}

impl Index<FileId> for Tree {
    type Output = File;

    fn index(&self, id: FileId) -> &File {
        &self.files[id.0]
    }
}

impl IndexMut<FileId> for Tree {
    fn index_mut(&mut self, id: FileId) -> &mut File {
        &mut self.files[id.0]
    }
}

/// How many bytes the list of a file takes in an engine, about: so many for itself, for each of its lines and for each byte.
fn weight(contents: &[u8]) -> usize {
    let lines = contents.iter().filter(|&&byte| byte == b'\n').count();
    2_000 + 300 * lines + 16 * contents.len()
}

/// How many bytes a directory takes in the table, or its file in the vector, about: the path, and what stands beside it.
fn directory_size(directory: &[u8]) -> usize {
    directory.len() + 80
}

/// The directory that a path lies in, without a slash at its end; empty for the top. `None` if the name of the path there is
/// not one, or the path begins with a slash.
pub fn directory_of(path: &[u8]) -> Option<&[u8]> {
    match path.iter().rposition(|&byte| byte == b'/') {
        Some(slash) => (slash > 0 && is_name(&path[slash + 1..])).then(|| &path[..slash]),
        None => (path.is_empty() || is_name(path)).then(|| &path[..0]),
    }
}

/// Whether a directory has single slashes between its parts alone, and no part `.` or `..`.
pub fn is_normal(directory: &[u8]) -> bool {
    directory.is_empty() || directory.split(|&byte| byte == b'/').all(is_name)
}

fn is_name(part: &[u8]) -> bool {
    !matches!(part, b"" | b"." | b"..")
}

/// A directory and those above, up to the top.
pub fn up_from(directory: &[u8]) -> impl Iterator<Item = &[u8]> {
    iter::successors(Some(directory), |below| {
        let slash = below.iter().rposition(|&byte| byte == b'/');
        (!below.is_empty()).then(|| &below[..slash.unwrap_or(0)])
    })
}

#[cfg(test)]
mod tests {
    use super::*;

    #[test]
    fn directories_of_paths() {
        let rows: [(&[u8], Option<&[u8]>); 13] = [
            (b"", Some(b"")),
            (b"a", Some(b"")),
            (b"a/b", Some(b"a")),
            (b"a/b/c", Some(b"a/b")),
            (b"/", None),
            (b"/a", None),
            (b"a/", None),
            (b"a//", None),
            (b".", None),
            (b"..", None),
            (b"a/.", None),
            (b"a/..", None),
            (b"a/...", Some(b"a")),
        ];
        for (path, directory) in rows {
            assert_eq!(directory_of(path), directory, "{}", path.escape_ascii());
        }
    }

    #[test]
    fn normal_directories() {
        for directory in ["", "a", "a/b", "...", ".a/b.", "a b"] {
            assert!(is_normal(directory.as_bytes()), "{directory}");
        }
        for directory in ["/", "/a", "a/", "a//b", ".", "..", "a/./b", "a/.."] {
            assert!(!is_normal(directory.as_bytes()), "{directory}");
        }
    }

    #[test]
    fn directories_above() {
        let above = |directory| up_from(directory).collect::<Vec<&[u8]>>();
        assert_eq!(above(b""), [b""]);
        assert_eq!(above(b"a"), [&b"a"[..], b""]);
        assert_eq!(above(b"a/bc/d"), [&b"a/bc/d"[..], b"a/bc", b"a", b""]);
    }

    #[test]
    fn files_above() {
        let mut tree = Tree::default();
        let top = tree.enter(b"", None, Some(b"* a\n".to_vec()));
        let empty = tree.enter(b"a", top, Some(Vec::new()));
        let none = tree.enter(b"a/b", empty, None);
        let deep = tree.enter(b"a/b/c", none, Some(b"* b\n".to_vec()));
        assert_eq!((empty, none), (top, top));
        assert_eq!((tree.nearest(b"a/b"), tree.nearest(b"b")), (Some(top), None));
        assert_eq!(tree.chain(deep), [top.unwrap(), deep.unwrap()]);
        assert_eq!(tree.chain_weight(deep), 2 * tree.chain_weight(top));
    }

    #[test]
    fn contents_beyond_the_limit_are_let_go() {
        let mut tree = Tree::default();
        let one = tree.enter(b"", None, Some(vec![b'\n'; 100])).unwrap();
        tree.trim(one, 100);
        assert!(tree[one].contents.is_some());
        let other = tree.enter(b"a", Some(one), Some(vec![b'\n'; 1])).unwrap();
        tree.trim(other, 100);
        tree.trim(one, 100);
        assert!(tree[one].contents.is_some() && tree[other].contents.is_none());
        tree.keep(other, vec![b'\n'; 1]);
        tree.trim(one, 100);
        assert!(tree[one].contents.is_none());
    }
}
