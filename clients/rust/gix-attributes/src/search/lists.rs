//! The lists of attributes files.

use super::attributes::mappings;
use super::{Attributes, MetadataCollection, Outcome, Value};
use bstr::{BStr, BString};
use gix_glob::pattern::Case;
use gix_glob::search::pattern::{List, Mapping};
use gix_parallel::OwnShared;
use smallvec::SmallVec;
use std::cmp::Ordering;
use std::fmt;
use std::hash::{Hash, Hasher};
use std::io;
use std::path::{Path, PathBuf};

/// The lists of attributes files, in ascending order of precedence.
#[derive(Clone, Debug, Default, PartialEq, Eq, PartialOrd, Ord, Hash)]
pub struct Search {
    patterns: Vec<Entry>,
}

/// A list, and what outcomes share of it, if a line of it has a pattern.
#[derive(Clone)]
struct Entry {
    list: List<Attributes>,
    lines: Option<OwnShared<Lines>>,
}

/// What outcomes share of a list: the file, as an engine reads it, and the patterns of its lines.
pub(crate) struct Lines {
    /// The contents of the file.
    pub(crate) contents: Vec<u8>,
    /// The directory below which the list applies, without a slash at the end; empty: everywhere.
    pub(crate) directory: BString,
    /// The path of the file.
    pub(crate) source: Option<PathBuf>,
    /// The patterns, each with the number of its line, in ascending order.
    pub(crate) patterns: Vec<(usize, gix_glob::Pattern)>,
}

impl Search {
    /// A search with the built-in list, which defines the macro `binary`, and then the files, which apply to all paths. A file
    /// that doesn't exist is left out. `buf` is room to read them.
    ///
    /// # Errors
    ///
    /// A file that can't be read.
    pub fn new_globals(
        files: impl IntoIterator<Item = impl Into<PathBuf>>,
        buf: &mut Vec<u8>,
        collection: &mut MetadataCollection,
    ) -> io::Result<Search> {
        let mut search = Search::default();
        search.add_patterns_buffer(b"[attr]binary -diff -merge -text", "[builtin]".into(), None, collection, true)?;
        for file in files {
            search.add_patterns_file(file.into(), true, None, buf, collection, true)?;
        }
        Ok(search)
    }

    /// Adds the list of a file as the last one, as [`Search::add_patterns_buffer`] does, and returns whether there is a file.
    /// `buf` is room to read it. Without `follow_symlinks` a symbolic link is no file.
    ///
    /// # Errors
    ///
    /// The file can't be read, or its directory has no form in bytes.
    pub fn add_patterns_file(
        &mut self,
        source: PathBuf,
        follow_symlinks: bool,
        root: Option<&Path>,
        buf: &mut Vec<u8>,
        collection: &mut MetadataCollection,
        allow_macros: bool,
    ) -> io::Result<bool> {
        let Some(file) = List::from_file(source, root, follow_symlinks, buf, NoLines)? else { return Ok(false) };
        self.push(buf, file.source, file.base, collection, allow_macros);
        Ok(true)
    }

    /// Adds the list of an attributes file as the last one, which takes precedence, and its names to the collection. It
    /// applies to the paths in the directory of `source`, as that is seen from `root`; without a root, to all paths. Without
    /// `allow_macros` the lines that define macros are dropped. So are lines that are not valid, with a warning to the log.
    ///
    /// # Errors
    ///
    /// There is a root, and `source` has no directory, or one without a form in bytes.
    pub fn add_patterns_buffer(
        &mut self,
        bytes: &[u8],
        source: PathBuf,
        root: Option<&Path>,
        collection: &mut MetadataCollection,
        allow_macros: bool,
    ) -> io::Result<()> {
        let file = List::from_bytes(bytes, source, root, NoLines)?;
        self.push(bytes, file.source, file.base, collection, allow_macros);
        Ok(())
    }

    fn push(
        &mut self,
        bytes: &[u8],
        source: Option<PathBuf>,
        base: Option<BString>,
        collection: &mut MetadataCollection,
        allow_macros: bool,
    ) {
        let path = source.as_deref().unwrap_or(Path::new(""));
        let patterns = mappings(bytes, path, allow_macros, |name| collection.add(name));
        let list = List { patterns, source, base };
        collection.define_macros(&list);
        self.patterns.push(Entry { lines: Lines::of(&list, bytes).map(OwnShared::new), list });
    }

    /// Removes the last list, and returns it. What its macros bring stays in the collection.
    pub fn pop_pattern_list(&mut self) -> Option<List<Attributes>> {
        self.patterns.pop().map(|entry| entry.list)
    }

    /// How many lists there are.
    pub fn num_pattern_lists(&self) -> usize {
        self.patterns.len()
    }

    /// Looks a path up: what is found is added to `out`, where what earlier searches found stays. Returns whether anything was
    /// found that is looked for. `is_dir` is whether the path is a directory, `None` if that is not known.
    ///
    /// # Panics
    ///
    /// If `out` is not initialized, or the library has no memory.
    pub fn pattern_matching_relative_path(
        &self,
        relative_path: &BStr,
        case: Case,
        is_dir: Option<bool>,
        out: &mut Outcome,
    ) -> bool {
        let lists: SmallVec<[_; 8]> = self.patterns.iter().filter_map(|entry| entry.lines.as_ref()).collect();
        out.search(&lists, relative_path, case, is_dir)
    }
}

/// The parser of a list that has no lines, and so only tells where a file lies.
#[derive(Clone, Debug, Default, PartialEq, Eq, PartialOrd, Ord, Hash)]
struct NoLines;

impl gix_glob::search::Pattern for NoLines {
    type Value = ();

    fn bytes_to_patterns(&self, _bytes: &[u8], _source: &Path) -> Vec<Mapping<()>> {
        Vec::new()
    }
}

impl Lines {
    /// Those of a list, if a line of it has a pattern.
    fn of(list: &List<Attributes>, bytes: &[u8]) -> Option<Lines> {
        let with_patterns = list.patterns.iter().filter(|mapping| matches!(mapping.value, Value::Assignments(_)));
        let patterns: Vec<_> = with_patterns.map(|mapping| (mapping.sequence_number, mapping.pattern.clone())).collect();
        let base = list.base.as_ref().map_or(&b""[..], |base| base.strip_suffix(b"/").unwrap_or(base));
        (!patterns.is_empty()).then(|| Lines {
            contents: bytes.to_vec(),
            directory: base.into(),
            source: list.source.clone(),
            patterns,
        })
    }
}

// Searches are compared by their lists.

impl PartialEq for Entry {
    fn eq(&self, other: &Entry) -> bool {
        self.list == other.list
    }
}

impl Eq for Entry {}

impl PartialOrd for Entry {
    fn partial_cmp(&self, other: &Entry) -> Option<Ordering> {
        Some(self.cmp(other))
    }
}

impl Ord for Entry {
    fn cmp(&self, other: &Entry) -> Ordering {
        self.list.cmp(&other.list)
    }
}

impl Hash for Entry {
    fn hash<H: Hasher>(&self, state: &mut H) {
        self.list.hash(state);
    }
}

impl fmt::Debug for Entry {
    fn fmt(&self, f: &mut fmt::Formatter<'_>) -> fmt::Result {
        self.list.fmt(f)
    }
}
