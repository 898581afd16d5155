//! An engine: lists of attributes files, selected names, and the answers to the last question.

use crate::answers::{Answer, Answers};
use crate::dropped::Dropped;
use crate::error::Error;
use crate::sys::{self, Handle, Row};
use std::fmt;

/// Lists of attributes files that are added and removed, the names that are selected, and the answers to the last question.
///
/// An engine begins with the built-in list, which defines the macro `binary`, and without a selection. Two engines share
/// nothing.
///
/// ```
/// # fn main() -> Result<(), yektrod::Error> {
/// use yektrod::{Case, Engine, Place};
///
/// let mut engine = Engine::new()?;
/// engine.add(b"*.sh text eol=lf\n", Place::top(), true)?;
/// engine.select(&["text", "eol"])?;
/// let answers = engine.ask(b"script.sh", Case::Sensitive, Some(false))?;
/// let told: Vec<String> = answers.iter().map(|answer| answer.state.to_string()).collect();
/// assert_eq!(told, ["set", "lf"]);
/// # Ok(())
/// # }
/// ```
///
/// An engine may be sent to another thread, but not be shared by threads:
///
/// ```compile_fail
/// fn is_sync<T: Sync>() {}
/// is_sync::<yektrod::Engine>();
/// ```
pub struct Engine {
    handle: Handle,
    /// The rows of the last answers, and room for more.
    rows: Vec<Row>,
    /// Their texts, and room for more.
    text: Vec<u8>,
}

/// Where a list applies, and what it is called.
#[derive(Clone, Copy, Debug, PartialEq, Eq)]
pub struct Place<'a> {
    /// The directory below which the list applies, without a slash at either end; empty: everywhere.
    pub directory: &'a [u8],
    /// What the answers of the list tell as their source, as the path of its file.
    pub source: &'a [u8],
}

/// What an addition tells.
#[derive(Clone, Debug, PartialEq, Eq)]
pub struct Added {
    /// The index of the list.
    pub list: usize,
    /// The lines that were dropped, in their order.
    pub dropped: Vec<Dropped>,
}

/// Whether ASCII letters match in either case.
#[derive(Clone, Copy, Debug, Default, PartialEq, Eq, Hash)]
pub enum Case {
    /// They match in their own case.
    #[default]
    Sensitive,
    /// They match in either case, as with `core.ignoreCase`.
    Fold,
}

impl<'a> Place<'a> {
    /// That of the file `.gitattributes` of the top directory.
    pub fn top() -> Place<'a> {
        Place { directory: b"", source: b".gitattributes" }
    }
}

impl Engine {
    /// An engine with the built-in list.
    ///
    /// # Errors
    ///
    /// [`Error::OutOfMemory`], and [`Error::Version`] if the library has other calls than this crate makes.
    pub fn new() -> Result<Engine, Error> {
        let version = sys::version();
        if version >> 8 != sys::VERSION >> 8 {
            return Err(Error::Version(version));
        }
        Ok(Engine { handle: Handle::open()?, rows: Vec::new(), text: Vec::new() })
    }

    /// Adds the list of an attributes file as the last one, which takes precedence. Without `allow_macros` its definitions of
    /// macros are dropped.
    ///
    /// ```
    /// # fn main() -> Result<(), yektrod::Error> {
    /// # use yektrod::{Case, Engine, Place, Reason};
    /// let mut engine = Engine::new()?;
    /// let place = Place { directory: b"docs", source: b"docs/.gitattributes" };
    /// let added = engine.add(b"!*.md text\n*.md eol=lf\n", place, false)?;
    /// assert_eq!((added.dropped[0].line, added.dropped[0].reason), (1, Reason::NegativePattern));
    /// assert_eq!(engine.ask(b"docs/a.md", Case::Sensitive, None)?.len(), 1);
    /// assert_eq!(engine.ask(b"a.md", Case::Sensitive, None)?.len(), 0);
    /// # Ok(())
    /// # }
    /// ```
    ///
    /// # Errors
    ///
    /// [`Error::OutOfMemory`] and [`Error::InvalidDirectory`].
    pub fn add(&mut self, contents: &[u8], place: Place<'_>, allow_macros: bool) -> Result<Added, Error> {
        let added = self.handle.add(contents, place.directory, place.source, allow_macros);
        let (list, count) = added.map_err(|status| Error::of(status, Some(Error::InvalidDirectory)))?;
        let dropped = (0..count).map(|i| Ok(Dropped::new(&self.handle.dropped(i)?)));
        Ok(Added { list, dropped: dropped.collect::<Result<_, Error>>()? })
    }

    /// Removes the last list. Its macros are gone with it. The built-in list can be removed too, as the very last.
    ///
    /// # Errors
    ///
    /// [`Error::NoList`].
    pub fn pop(&mut self) -> Result<(), Error> {
        Ok(self.handle.pop()?)
    }

    /// Selects the names that are looked up, in the order of the answers. They stay selected whatever is added and removed. A
    /// text that is no valid name is always unspecified. Without any name all are looked up, as after [`Engine::select_all`].
    ///
    /// # Errors
    ///
    /// [`Error::OutOfMemory`], and [`Error::InvalidName`] for a name that is not UTF-8.
    pub fn select<N: AsRef<[u8]>>(&mut self, names: &[N]) -> Result<(), Error> {
        let names: Vec<&[u8]> = names.iter().map(AsRef::as_ref).collect();
        self.handle.select(&names).map_err(|status| Error::of(status, Some(Error::InvalidName)))
    }

    /// Ends the selection, so that all names are looked up.
    ///
    /// # Errors
    ///
    /// [`Error::OutOfMemory`].
    pub fn select_all(&mut self) -> Result<(), Error> {
        Ok(self.handle.select(&[])?)
    }

    /// Looks up a path, which has a slash at neither end. `is_dir` is whether it is a directory, `None` if that is not known.
    ///
    /// # Errors
    ///
    /// [`Error::OutOfMemory`].
    pub fn ask(&mut self, path: &[u8], case: Case, is_dir: Option<bool>) -> Result<Answers<'_>, Error> {
        let fold = case == Case::Fold;
        let is_dir = is_dir.map_or(-1, i32::from);
        let (mut needed, mut asked) = self.handle.ask(path, fold, is_dir, &mut self.rows, &mut self.text);
        if asked == Err(sys::BUFFER_TOO_SMALL) {
            grow(&mut self.rows, needed.rows);
            grow(&mut self.text, needed.text);
            (needed, asked) = self.handle.ask(path, fold, is_dir, &mut self.rows, &mut self.text);
        }
        asked?;
        Ok(Answers::new(&self.rows[..needed.rows], &self.text[..needed.text]))
    }

    /// The answer to the last question for the attribute with this number, whether it is selected or not. `None` if no line
    /// names the attribute.
    ///
    /// It is there for each selected attribute and for each macro that is the cause of an answer, of its cause, and so on;
    /// without a selection for all. For another attribute it may be `None`.
    ///
    /// # Errors
    ///
    /// None but [`Error::Status`].
    pub fn found(&mut self, number: usize) -> Result<Option<Answer<'_>>, Error> {
        let mut row = Row::default();
        let (needed, mut found) = self.handle.found(number, &mut row, &mut self.text);
        if found == Err(sys::BUFFER_TOO_SMALL) {
            grow(&mut self.text, needed);
            found = self.handle.found(number, &mut row, &mut self.text).1;
        }
        match found {
            Ok(()) => Ok(Some(Answer::new(&row, &self.text))),
            Err(sys::NOT_FOUND) => Ok(None),
            Err(status) => Err(status.into()),
        }
    }

    /// How many names are known. The numbers of names are those below.
    ///
    /// # Errors
    ///
    /// None but [`Error::Status`].
    pub fn names(&mut self) -> Result<usize, Error> {
        Ok(self.handle.names()?)
    }

    /// The name with this number.
    ///
    /// # Errors
    ///
    /// None but [`Error::Status`].
    pub fn name(&mut self, number: usize) -> Result<Option<&[u8]>, Error> {
        let (mut needed, mut told) = self.handle.name(number, &mut self.text);
        if told == Err(sys::BUFFER_TOO_SMALL) {
            grow(&mut self.text, needed);
            (needed, told) = self.handle.name(number, &mut self.text);
        }
        match told {
            Ok(()) => Ok(Some(&self.text[..needed])),
            Err(sys::NOT_FOUND) => Ok(None),
            Err(status) => Err(status.into()),
        }
    }
}

impl fmt::Debug for Engine {
    fn fmt(&self, f: &mut fmt::Formatter<'_>) -> fmt::Result {
        f.debug_struct("Engine").finish_non_exhaustive()
    }
}

/// Makes room for so many elements at least. The room grows by a factor, so that it seldom does.
fn grow<T: Clone + Default>(room: &mut Vec<T>, needed: usize) {
    if needed > room.len() {
        room.resize(needed.max(2 * room.len()), T::default());
    }
}
