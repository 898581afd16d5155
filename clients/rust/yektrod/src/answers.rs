//! The answers to a question.

use crate::sys::{self, Row};
use std::fmt;

/// The answers to a question: one for each selected name, in the order of the selection; without a selection one for each
/// attribute that is specified.
///
/// Their texts are lent from the engine that was asked, until it is used again.
///
/// ```
/// # fn main() -> Result<(), yektrod::Error> {
/// use yektrod::{Case, Engine, Place, State};
///
/// let mut engine = Engine::new()?;
/// engine.add(b"*.png binary\n", Place::top(), true)?;
/// engine.select(&["diff"])?;
/// let answers = engine.ask(b"logo.png", Case::Sensitive, Some(false))?;
/// let diff = answers.get(0).unwrap();
/// assert_eq!((diff.name, diff.state), (&b"diff"[..], State::Unset));
///
/// let origin = diff.origin.unwrap();
/// assert_eq!((origin.source, origin.line, origin.pattern), (&b".gitattributes"[..], 1, &b"*.png"[..]));
/// assert_eq!(origin.via.unwrap().name, b"binary");
/// # Ok(())
/// # }
/// ```
#[derive(Clone, Copy)]
pub struct Answers<'a> {
    rows: &'a [Row],
    text: &'a [u8],
}

/// The answer for an attribute.
#[derive(Clone, Copy, PartialEq, Eq)]
pub struct Answer<'a> {
    /// The name of the attribute, as it was selected.
    pub name: &'a [u8],
    /// The number of the attribute, if its name is known: one that was selected, or that a line has named.
    pub number: Option<usize>,
    /// Its state.
    pub state: State<'a>,
    /// Whether the attribute is a macro.
    pub is_macro: bool,
    /// What decided. An unspecified attribute may have no origin.
    pub origin: Option<Origin<'a>>,
}

/// The state of an attribute.
#[derive(Clone, Copy, PartialEq, Eq, Hash)]
pub enum State<'a> {
    /// `text`
    Set,
    /// `-text`
    Unset,
    /// `text=auto`, with the value.
    Value(&'a [u8]),
    /// `!text`, or no line names the attribute.
    Unspecified,
}

/// What decided an answer.
#[derive(Clone, Copy, PartialEq, Eq)]
pub struct Origin<'a> {
    /// The source of the list, as it was added; empty for the built-in list.
    pub source: &'a [u8],
    /// The index of the list: that of the built-in list is 0, and others are in the order of addition.
    pub list: usize,
    /// The number of the line, from 1.
    pub line: usize,
    /// The pattern of the line.
    pub pattern: &'a [u8],
    /// The macro whose body has the attribute, if the line doesn't name the attribute itself.
    pub via: Option<Macro<'a>>,
}

/// A macro whose body has an attribute.
#[derive(Clone, Copy, PartialEq, Eq)]
pub struct Macro<'a> {
    /// Its name.
    pub name: &'a [u8],
    /// Its number. [`Engine::found`](crate::Engine::found) tells the macro's own answer by it.
    pub number: usize,
}

impl<'a> Answers<'a> {
    pub(crate) fn new(rows: &'a [Row], text: &'a [u8]) -> Answers<'a> {
        Answers { rows, text }
    }

    /// How many there are.
    pub fn len(&self) -> usize {
        self.rows.len()
    }

    /// Whether there is none.
    pub fn is_empty(&self) -> bool {
        self.rows.is_empty()
    }

    /// The answer at an index.
    pub fn get(&self, index: usize) -> Option<Answer<'a>> {
        self.rows.get(index).map(|row| Answer::new(row, self.text))
    }

    /// All answers in their order.
    pub fn iter(&self) -> Iter<'a> {
        Iter { rows: self.rows.iter(), text: self.text }
    }
}

impl<'a> IntoIterator for Answers<'a> {
    type Item = Answer<'a>;
    type IntoIter = Iter<'a>;

    fn into_iter(self) -> Iter<'a> {
        self.iter()
    }
}

impl<'a> IntoIterator for &Answers<'a> {
    type Item = Answer<'a>;
    type IntoIter = Iter<'a>;

    fn into_iter(self) -> Iter<'a> {
        self.iter()
    }
}

impl fmt::Debug for Answers<'_> {
    fn fmt(&self, f: &mut fmt::Formatter<'_>) -> fmt::Result {
        f.debug_list().entries(self).finish()
    }
}

/// The answers in their order.
#[derive(Clone, Debug)]
pub struct Iter<'a> {
    rows: std::slice::Iter<'a, Row>,
    text: &'a [u8],
}

impl<'a> Iterator for Iter<'a> {
    type Item = Answer<'a>;

    fn next(&mut self) -> Option<Answer<'a>> {
        self.rows.next().map(|row| Answer::new(row, self.text))
    }

    fn size_hint(&self) -> (usize, Option<usize>) {
        self.rows.size_hint()
    }
}

impl ExactSizeIterator for Iter<'_> {}

impl<'a> Answer<'a> {
    pub(crate) fn new(row: &Row, text: &'a [u8]) -> Answer<'a> {
        let mut texts = Texts(&text[row.at..]);
        let name = texts.next(row.name_length);
        let value = texts.next(row.value_length);
        let has = |flag| row.flags & flag != 0;
        Answer {
            name,
            number: (row.name != sys::NONE).then_some(row.name),
            state: State::new(row.state, value),
            is_macro: has(sys::IS_MACRO),
            // The other texts are there only if a line decides.
            origin: has(sys::HAS_SOURCE).then(|| {
                let source = texts.next(row.source_length);
                let pattern = texts.next(row.pattern_length);
                let cause = texts.next(row.cause_length);
                let via = has(sys::HAS_CAUSE).then_some(Macro { name: cause, number: row.cause });
                Origin { source, list: row.list, line: row.line, pattern, via }
            }),
        }
    }
}

/// Texts that stand one directly after the other.
struct Texts<'a>(&'a [u8]);

impl<'a> Texts<'a> {
    fn next(&mut self, length: usize) -> &'a [u8] {
        let (text, rest) = self.0.split_at(length);
        self.0 = rest;
        text
    }
}

impl<'a> State<'a> {
    fn new(state: i32, value: &'a [u8]) -> State<'a> {
        match state {
            sys::SET => State::Set,
            sys::UNSET => State::Unset,
            sys::HAS_VALUE => State::Value(value),
            _ => State::Unspecified,
        }
    }

    /// The state as `git check-attr` prints it: `set`, `unset`, `unspecified` or the value.
    ///
    /// ```
    /// use yektrod::State;
    ///
    /// assert_eq!(State::Value(b"lf").as_bytes(), b"lf");
    /// assert_eq!(State::Unset.as_bytes(), b"unset");
    /// ```
    pub fn as_bytes(&self) -> &'a [u8] {
        match *self {
            State::Set => b"set",
            State::Unset => b"unset",
            State::Value(value) => value,
            State::Unspecified => b"unspecified",
        }
    }
}

/// As `git check-attr` prints it, with U+FFFD for bytes of a value that are not UTF-8.
impl fmt::Display for State<'_> {
    fn fmt(&self, f: &mut fmt::Formatter<'_>) -> fmt::Result {
        f.pad(&String::from_utf8_lossy(self.as_bytes()))
    }
}

impl fmt::Debug for State<'_> {
    fn fmt(&self, f: &mut fmt::Formatter<'_>) -> fmt::Result {
        match self {
            State::Set => f.write_str("Set"),
            State::Unset => f.write_str("Unset"),
            State::Value(value) => f.debug_tuple("Value").field(&Escaped(value)).finish(),
            State::Unspecified => f.write_str("Unspecified"),
        }
    }
}

impl fmt::Debug for Answer<'_> {
    fn fmt(&self, f: &mut fmt::Formatter<'_>) -> fmt::Result {
        f.debug_struct("Answer")
            .field("name", &Escaped(self.name))
            .field("number", &self.number)
            .field("state", &self.state)
            .field("is_macro", &self.is_macro)
            .field("origin", &self.origin)
            .finish()
    }
}

impl fmt::Debug for Origin<'_> {
    fn fmt(&self, f: &mut fmt::Formatter<'_>) -> fmt::Result {
        f.debug_struct("Origin")
            .field("source", &Escaped(self.source))
            .field("list", &self.list)
            .field("line", &self.line)
            .field("pattern", &Escaped(self.pattern))
            .field("via", &self.via)
            .finish()
    }
}

impl fmt::Debug for Macro<'_> {
    fn fmt(&self, f: &mut fmt::Formatter<'_>) -> fmt::Result {
        f.debug_struct("Macro").field("name", &Escaped(self.name)).field("number", &self.number).finish()
    }
}

/// Bytes that are shown as a text.
struct Escaped<'a>(&'a [u8]);

impl fmt::Debug for Escaped<'_> {
    fn fmt(&self, f: &mut fmt::Formatter<'_>) -> fmt::Result {
        write!(f, "\"{}\"", self.0.escape_ascii())
    }
}
