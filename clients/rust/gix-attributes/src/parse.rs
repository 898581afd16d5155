//! The lines of attributes files.

use crate::{AssignmentRef, Name, NameRef, StateRef};
use bstr::{BStr, ByteSlice};
use gix_error::{Result, ResultExt, message, validation};
use std::borrow::Cow;

/// What a line begins with.
#[derive(Clone, Debug, PartialEq, Eq, PartialOrd, Ord, Hash)]
#[cfg_attr(feature = "serde", derive(serde::Serialize, serde::Deserialize))]
pub enum Kind {
    /// The pattern of the paths that the assignments are for.
    Pattern(gix_glob::Pattern),
    /// The name of the macro that the assignments define.
    Macro(Name),
}

/// The lines of an attributes file that have a pattern or define a macro, each with its number, from 1.
pub struct Lines<'a> {
    lines: bstr::Lines<'a>,
    number: usize,
}

/// The assignments of a line.
pub struct Iter<'a> {
    rest: &'a BStr,
}

impl<'a> Lines<'a> {
    /// The lines of these bytes. A byte order mark in front is left out.
    pub fn new(bytes: &'a [u8]) -> Lines<'a> {
        Lines { lines: bytes[byte_order_mark(bytes)..].lines(), number: 0 }
    }
}

impl<'a> Iterator for Lines<'a> {
    type Item = Result<(Kind, Iter<'a>, usize)>;

    /// The error of a line is one of validation. Its `input` is the name of the macro or the pattern.
    fn next(&mut self) -> Option<Self::Item> {
        loop {
            let line = without_blanks(self.lines.next()?);
            self.number += 1;
            if line.is_empty() || line.starts_with(b"#") {
                continue;
            }
            let (first, rest) = first_word(line);
            if let Some(kind) = kind_of(&first, self.number).transpose() {
                return Some(kind.map(|kind| (kind, Iter::new(rest), self.number)));
            }
        }
    }
}

impl<'a> Iter<'a> {
    /// The assignments in the rest of a line, behind its pattern or the name of its macro.
    pub fn new(rest: &'a BStr) -> Iter<'a> {
        Iter { rest }
    }
}

impl<'a> Iterator for Iter<'a> {
    type Item = Result<AssignmentRef<'a>>;

    /// The error of an assignment is one of validation, with the name as its `input`.
    fn next(&mut self) -> Option<Self::Item> {
        let (word, rest) = word(without_blanks(self.rest));
        self.rest = rest;
        (!word.is_empty()).then(|| assignment(word))
    }
}

/// The length of the byte order mark in front: that of UTF-8, UTF-32 or UTF-16, as the library has them.
fn byte_order_mark(bytes: &[u8]) -> usize {
    const MARKS: [&[u8]; 5] = [b"\xef\xbb\xbf", b"\x00\x00\xfe\xff", b"\xff\xfe\x00\x00", b"\xfe\xff", b"\xff\xfe"];
    MARKS.iter().find(|mark| bytes.starts_with(mark)).map_or(0, |mark| mark.len())
}

fn is_blank(byte: &u8) -> bool {
    matches!(byte, b' ' | b'\t' | b'\r')
}

/// What follows the blanks in front.
fn without_blanks(text: &[u8]) -> &BStr {
    let start = text.iter().position(|byte| !is_blank(byte)).unwrap_or(text.len());
    text[start..].as_bstr()
}

/// The bytes up to the first blank, and what follows them.
fn word(text: &BStr) -> (&BStr, &BStr) {
    let (word, rest) = text.split_at(text.iter().position(is_blank).unwrap_or(text.len()));
    (word.as_bstr(), rest.as_bstr())
}

/// The first word of a line, whose quotes are undone, and what follows it. Quotes that can't be undone are bytes of the word.
fn first_word(line: &BStr) -> (Cow<'_, BStr>, &BStr) {
    if line.starts_with(b"\"") {
        if let Ok((word, length)) = gix_quote::ansi_c::undo(line) {
            return (word, &line[length..]);
        }
    }
    let (word, rest) = word(line);
    (Cow::Borrowed(word), rest)
}

/// What the first word of a line is; `None` if it is a pattern without bytes.
fn kind_of(word: &BStr, number: usize) -> Result<Option<Kind>> {
    if let Some(name) = word.strip_prefix(b"[attr]").filter(|name| !name.is_empty()) {
        let name = assignable(name.as_bstr()).or_raise(|| message!("line {number}: no name of a macro").validation())?;
        return Ok(Some(Kind::Macro(name.to_owned())));
    }
    match gix_glob::Pattern::from_bytes(word) {
        Some(pattern) if pattern.is_negative() => {
            let text = format!("line {number}: a pattern can't be negative; `\\!` stands for a `!` in front");
            Err(validation(text).with_input(word).into())
        }
        pattern => Ok(pattern.map(Kind::Pattern)),
    }
}

fn assignment(word: &[u8]) -> Result<AssignmentRef<'_>> {
    let (name, value) = match word.iter().position(|&byte| byte == b'=') {
        Some(position) => (&word[..position], Some(&word[position + 1..])),
        None => (word, None),
    };
    let (name, state) = match name {
        [b'-', name @ ..] => (name, StateRef::Unset),
        [b'!', name @ ..] => (name, StateRef::Unspecified),
        _ => (name, value.map_or(StateRef::Set, StateRef::from_bytes)),
    };
    Ok(AssignmentRef { name: assignable(name.as_bstr())?, state })
}

/// A name that a file may give a state.
fn assignable(name: &BStr) -> Result<NameRef<'_>> {
    let valid = NameRef::try_from(name)?;
    if valid.as_str().starts_with("builtin_") {
        return Err(validation("names that begin with `builtin_` are reserved").with_input(name).into());
    }
    Ok(valid)
}
