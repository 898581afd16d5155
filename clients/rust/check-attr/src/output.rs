//! Answers, as `git check-attr` prints them.

use crate::failure::Failure;
use crate::json::push_answers;
use crate::quoting::push_quoted;
use std::fs::File;
use std::io::{self, Write};
use std::os::unix::io::AsFd;
use yektrod::{Answer, Origin};

/// So many bytes are kept before they are written.
const ROOM: usize = 1 << 16;

/// How answers are printed.
#[derive(Clone, Copy, Debug, PartialEq, Eq)]
pub struct Form {
    pub format: Format,
    pub show_origin: bool,
    /// `core.quotePath`
    pub quotes: bool,
}

#[derive(Clone, Copy, Debug, PartialEq, Eq)]
pub enum Format {
    /// A line for each answer.
    Lines,
    /// Fields that end with NUL: `-z`.
    Fields,
    /// A line of JSON for each path.
    Json,
}

/// Standard output.
#[derive(Debug)]
pub struct Output {
    form: Form,
    file: File,
    buffer: Vec<u8>,
    /// Whether the answers of each path are written at once.
    flushes: bool,
    /// What stands in front of each answer for a path.
    front: Vec<u8>,
}

impl Output {
    /// Standard output. `flushes` is what `GIT_FLUSH` says; without it a file is written when there is enough.
    ///
    /// # Errors
    ///
    /// [`Failure::Write`] if there is no standard output.
    pub fn new(form: Form, flushes: Option<bool>) -> Result<Output, Failure> {
        let file = File::from(io::stdout().as_fd().try_clone_to_owned().map_err(Failure::Write)?);
        let flushes = flushes.unwrap_or_else(|| file.metadata().map_or(true, |it| !it.is_file()));
        Ok(Output { form, file, buffer: Vec::with_capacity(2 * ROOM), flushes, front: Vec::new() })
    }

    /// Prints the answers for a path, as it was given.
    pub fn answers<'a>(&mut self, path: &[u8], answers: impl Iterator<Item = Answer<'a>>) {
        self.front.clear();
        match self.form.format {
            Format::Lines => {
                push_quoted(&mut self.front, path, self.form.quotes);
                self.front.extend_from_slice(b": ");
                answers.for_each(|answer| self.answer(&answer, b": ", b'\n'));
            }
            Format::Fields => {
                self.front.extend_from_slice(path);
                self.front.push(0);
                answers.for_each(|answer| self.answer(&answer, b"\0", 0));
            }
            Format::Json => {
                push_answers(&mut self.buffer, path, answers);
                self.buffer.push(b'\n');
            }
        }
    }

    fn answer(&mut self, answer: &Answer<'_>, between: &[u8], end: u8) {
        for part in [&self.front, answer.name, between, answer.state.as_bytes()] {
            self.buffer.extend_from_slice(part);
        }
        if self.form.show_origin {
            self.origin(answer.origin.as_ref());
        }
        self.buffer.push(end);
    }

    /// Prints the file and the line, the pattern and the macro that decide.
    fn origin(&mut self, origin: Option<&Origin<'_>>) {
        let at = origin.map(|origin| [origin.source, b":", origin.line.to_string().as_bytes()].concat());
        let pattern = origin.map(|origin| origin.pattern);
        let via = origin.and_then(|origin| origin.via).map(|via| via.name);
        let in_fields = self.form.format == Format::Fields;
        for text in [at.as_deref(), pattern, via] {
            let text = text.unwrap_or(b"-");
            self.buffer.push(if in_fields { 0 } else { b'\t' });
            // No text ends its field: a pattern may hold a NUL.
            if in_fields && !text.contains(&0) {
                self.buffer.extend_from_slice(text);
            } else {
                push_quoted(&mut self.buffer, text, self.form.quotes);
            }
        }
    }

    /// Ends the answers for a path on standard input.
    ///
    /// # Errors
    ///
    /// [`Failure::Write`]
    pub fn path_ends(&mut self) -> Result<(), Failure> {
        if self.flushes || self.buffer.len() >= ROOM {
            self.flush()?;
        }
        Ok(())
    }

    /// Writes what is kept.
    ///
    /// # Errors
    ///
    /// [`Failure::Write`]
    pub fn flush(&mut self) -> Result<(), Failure> {
        let written = self.file.write_all(&self.buffer);
        self.buffer.clear();
        written.map_err(Failure::Write)
    }
}
