//! The attributes files of a tree, in git's order.
//!
//! In ascending precedence these are the system's file, the user's, those of the directories from the top down to that of the
//! path, and `info/attributes`. Macros may be defined in all but the files below the top.

mod error;
mod lists;
mod tree;

pub use error::AskError;

use crate::{Answer, Answers, Case, Dropped, Error};
use lists::Lists;
use std::{fmt, io, mem};
use tree::{FileId, Tree};

/// Reads the attributes files of directories. A closure is one too.
pub trait Reader {
    /// The contents of the attributes file of a directory, `None` if it has none. The top directory is empty; others have a
    /// slash at neither end.
    ///
    /// # Errors
    ///
    /// What [`Stack::ask`] returns as [`AskError::Read`]. If the file is needed again, it is read again.
    fn read(&mut self, directory: &[u8]) -> io::Result<Option<Vec<u8>>>;
}

impl<F: FnMut(&[u8]) -> io::Result<Option<Vec<u8>>>> Reader for F {
    fn read(&mut self, directory: &[u8]) -> io::Result<Option<Vec<u8>>> {
        self(directory)
    }
}

/// An attributes file that belongs to no directory.
#[derive(Clone, Debug, PartialEq, Eq)]
pub struct File {
    /// What it is called in answers and with dropped lines: its path, in any bytes.
    pub source: Vec<u8>,
    /// What is in it.
    pub contents: Vec<u8>,
}

/// What a [`Stack`] has beside the files of its tree.
#[derive(Clone, Debug, Default)]
pub struct Options {
    /// The system's file.
    pub system: Option<File>,
    /// The user's file.
    pub user: Option<File>,
    /// `info/attributes` of the repository.
    pub info: Option<File>,
    /// Whether letters match in either case, as with `core.ignoreCase`.
    pub case: Case,
    /// How much is kept.
    pub limits: Limits,
}

/// How many bytes are kept for later paths, about.
#[derive(Clone, Copy, Debug, PartialEq, Eq)]
pub struct Limits {
    /// For lists that don't apply to the path that is asked for. When another list is added, they are taken off if they take
    /// more.
    pub lists: usize,
    /// For contents of attributes files. A file beyond them is read again when its list is added again.
    pub contents: usize,
    /// For the record of the directories that were entered, and of which have a file. All are forgotten when they take more.
    pub directories: usize,
}

impl Default for Limits {
    /// Together 24 MB in a process, but for large files that apply to one path.
    fn default() -> Limits {
        Limits { lists: 8 << 20, contents: 8 << 20, directories: 4 << 20 }
    }
}

/// The lines of a file that were dropped.
#[derive(Clone, Debug, PartialEq, Eq)]
pub struct DroppedLines {
    /// The path of the file below the top, or what its [`File`] is called.
    pub source: Vec<u8>,
    /// The lines, one at least.
    pub lines: Vec<Dropped>,
}

/// Looks up the paths of a tree, in any order, and reads the attributes files on their way when a directory is first entered.
///
/// ```
/// # fn main() -> Result<(), yektrod::stack::AskError> {
/// use yektrod::Stack;
///
/// let mut stack = Stack::new(|directory: &[u8]| {
///     Ok(match directory {
///         b"" => Some(b"*.md text\n".to_vec()),
///         b"docs" => Some(b"*.md eol=lf\n".to_vec()),
///         _ => None,
///     })
/// })?;
/// stack.select(&["text", "eol"])?;
/// let answers = stack.ask(b"docs/guide/first.md", Some(false))?;
/// let eol = answers.get(1).unwrap();
/// assert_eq!(eol.state.to_string(), "lf");
/// assert_eq!(eol.origin.unwrap().source, b"docs/.gitattributes");
/// # Ok(())
/// # }
/// ```
pub struct Stack<R> {
    reader: R,
    case: Case,
    limits: Limits,
    tree: Tree,
    lists: Lists,
    /// How many bytes the lists may take that don't apply to the last path. It grows with each list that is added again.
    spare: usize,
    /// The directory that was entered last.
    directory: Vec<u8>,
    /// Whether the lists of that directory stand.
    stands: bool,
}

impl<R: Reader> Stack<R> {
    /// A stack with the files of a tree alone.
    ///
    /// # Errors
    ///
    /// Those of [`Engine::new`](crate::Engine::new).
    pub fn new(reader: R) -> Result<Stack<R>, Error> {
        Stack::with_options(reader, Options::default())
    }

    /// A stack with other files too.
    ///
    /// ```
    /// # fn main() -> Result<(), yektrod::stack::AskError> {
    /// use yektrod::stack::{File, Options};
    /// use yektrod::{Case, Stack};
    ///
    /// let info = File { source: b".git/info/attributes".to_vec(), contents: b"*.log -diff\n".to_vec() };
    /// let options = Options { info: Some(info), case: Case::Fold, ..Options::default() };
    /// let mut stack = Stack::with_options(|_: &[u8]| Ok(None), options)?;
    /// assert_eq!(stack.ask(b"A.LOG", None)?.len(), 1);
    /// # Ok(())
    /// # }
    /// ```
    ///
    /// # Errors
    ///
    /// Those of [`Engine::new`](crate::Engine::new), and [`Error::OutOfMemory`].
    pub fn with_options(reader: R, options: Options) -> Result<Stack<R>, Error> {
        let Options { system, user, info, case, mut limits } = options;
        if case == Case::Fold {
            // The list of `a` would apply to the paths in `A` too, for which git reads another file.
            limits.lists = 0;
        }
        let lists = Lists::new(system.into_iter().chain(user), info)?;
        Ok(Stack { reader, case, limits, tree: Tree::default(), lists, spare: 0, directory: Vec::new(), stands: false })
    }

    /// Selects the names that are looked up, as [`Engine::select`](crate::Engine::select) does.
    ///
    /// # Errors
    ///
    /// [`Error::OutOfMemory`] and [`Error::InvalidName`].
    pub fn select<N: AsRef<[u8]>>(&mut self, names: &[N]) -> Result<(), Error> {
        self.lists.engine.select(names)
    }

    /// Ends the selection, so that all names are looked up.
    ///
    /// # Errors
    ///
    /// [`Error::OutOfMemory`].
    pub fn select_all(&mut self) -> Result<(), Error> {
        self.lists.engine.select_all()
    }

    /// Looks up a path. A path that ends in a slash is a directory, whatever `is_dir` says; the attributes file in a directory
    /// doesn't apply to the directory itself. `is_dir` is `None` if it is not known whether the path is a directory.
    ///
    /// # Errors
    ///
    /// [`AskError::Read`] if the reader fails, [`AskError::InvalidPath`], and [`Error::OutOfMemory`]. The same can be asked
    /// again.
    pub fn ask(&mut self, path: &[u8], is_dir: Option<bool>) -> Result<Answers<'_>, AskError> {
        let (path, is_dir) = match path.strip_suffix(b"/") {
            Some(path) if !path.is_empty() => (path, Some(true)),
            _ => (path, is_dir),
        };
        let directory = tree::directory_of(path).ok_or(AskError::InvalidPath)?;
        if !self.stands || self.directory != directory {
            self.enter(directory)?;
        }
        Ok(self.lists.engine.ask(path, self.case, is_dir)?)
    }

    /// The answer to the last question for the attribute with this number, as [`Engine::found`](crate::Engine::found) tells it.
    ///
    /// # Errors
    ///
    /// Those of [`Engine::found`](crate::Engine::found).
    pub fn found(&mut self, number: usize) -> Result<Option<Answer<'_>>, Error> {
        self.lists.engine.found(number)
    }

    /// The dropped lines of the files that were added since the last call. Those of a file are handed out once, when it is
    /// first added (once more after ten thousand other files with dropped lines). Definitions of macros in files below the top
    /// are dropped without being told.
    pub fn take_dropped(&mut self) -> Vec<DroppedLines> {
        mem::take(&mut self.lists.dropped)
    }

    /// The reader.
    pub fn reader(&self) -> &R {
        &self.reader
    }

    /// The reader. What it has read before is not read again.
    pub fn reader_mut(&mut self) -> &mut R {
        &mut self.reader
    }

    /// Brings the lists of a directory to the engine.
    fn enter(&mut self, directory: &[u8]) -> Result<(), AskError> {
        self.stands = false;
        let nearest = self.nearest(directory)?;
        self.stand(nearest)?;
        self.directory.clear();
        self.directory.extend_from_slice(directory);
        self.stands = true;
        Ok(())
    }

    /// The nearest file of a directory. Directories on the way that were not entered before are entered, from the highest one
    /// on.
    fn nearest(&mut self, directory: &[u8]) -> Result<Option<FileId>, AskError> {
        if self.tree.directories_size() > self.limits.directories {
            self.lists.take_off(&mut self.tree, 0)?;
            self.tree = Tree::default();
        }
        let mut nearest = None;
        let mut unknown = Vec::new();
        for directory in tree::up_from(directory) {
            match self.tree.nearest(directory) {
                Some(known) => {
                    nearest = known;
                    break;
                }
                None => unknown.push(directory),
            }
        }
        if !unknown.is_empty() && !tree::is_normal(directory) {
            return Err(AskError::InvalidPath);
        }
        for directory in unknown.into_iter().rev() {
            let contents = read(&mut self.reader, directory)?;
            nearest = self.tree.enter(directory, nearest, contents);
        }
        Ok(nearest)
    }

    /// Has the lists of a file and of those above stand, which are its chain.
    ///
    /// When one is added, others are taken off, so that the chain alone stands, as in git. But a list that is added again shows
    /// that paths jump: from then on others may stay, up to twice its weight more, and up to the limit. So in a walk few lists
    /// stand, and where paths jump they are not added again and again.
    ///
    /// What is read is read before anything changes.
    fn stand(&mut self, nearest: Option<FileId>) -> Result<(), AskError> {
        let above = self.tree.nearest_standing(nearest);
        let others = self.lists.weight() - self.tree.chain_weight(above);
        let may_stay = others == 0 || self.case == Case::Sensitive;
        if above == nearest && may_stay && self.lists.is_complete() {
            return Ok(());
        }
        let chain = self.tree.chain(nearest);
        // How many lists stay in all, and how many of the chain: its first ones.
        let (kept, kept_of_chain) = if others > self.spare {
            let common = self.lists.common(&chain);
            (common, common)
        } else {
            (self.lists.len(), chain.iter().take_while(|&&id| self.tree[id].stands).count())
        };
        let wanted = &chain[kept_of_chain..];
        for &id in wanted {
            if self.tree[id].contents.is_none() {
                let contents = read(&mut self.reader, &self.tree[id].directory)?;
                self.tree.keep(id, contents.unwrap_or_default());
            }
        }
        self.lists.take_off(&mut self.tree, kept)?;
        for &id in wanted {
            self.lists.push(&mut self.tree, id)?;
            self.tree.trim(id, self.limits.contents);
            if self.tree[id].stood {
                self.spare = self.limits.lists.min(self.spare + 2 * self.tree[id].weight);
            }
        }
        Ok(self.lists.complete()?)
    }
}

/// What the reader reads of a directory.
fn read<R: Reader>(reader: &mut R, directory: &[u8]) -> Result<Option<Vec<u8>>, AskError> {
    reader.read(directory).map_err(|error| AskError::Read { directory: directory.to_vec(), error })
}

impl<R> fmt::Debug for Stack<R> {
    fn fmt(&self, f: &mut fmt::Formatter<'_>) -> fmt::Result {
        f.debug_struct("Stack").field("directory", &self.directory).finish_non_exhaustive()
    }
}
