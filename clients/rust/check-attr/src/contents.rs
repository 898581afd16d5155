//! What the engine is given of an attributes file: the lines that git reads of it.

use crate::failure::shown;
use crate::quoting::unquoted;
use std::borrow::Cow;

/// A line of so many bytes is ignored.
const TOO_LONG: usize = 2048;
/// The byte order mark of UTF-8. The engine removes one mark at the start.
const MARK: &[u8] = b"\xef\xbb\xbf";
const MACRO: &[u8] = b"[attr]";

/// Where contents come from, which git reads in two ways.
#[derive(Clone, Copy, Debug, PartialEq, Eq)]
pub enum Kind {
    /// A byte order mark is removed, and CR before LF. NUL ends a line.
    File,
    /// NUL ends all.
    Object,
}

/// The lines that git reads, and its warnings of others.
#[derive(Debug, PartialEq, Eq)]
pub struct Lines {
    pub contents: Vec<u8>,
    pub warnings: Vec<String>,
}

impl Lines {
    /// Leaves out what git leaves out, and no line as such: each keeps its number. `allows_macros` is false in the file of a
    /// directory below the top, whose macros the engine drops without a word.
    pub fn read(mut contents: Vec<u8>, kind: Kind, name: &[u8], allows_macros: bool) -> Lines {
        let end = contents.iter().position(|&byte| byte == 0);
        match (kind, end) {
            (Kind::Object, Some(end)) => contents.truncate(end),
            (Kind::File, _) if contents.starts_with(MARK) => drop(contents.drain(..MARK.len())),
            _ => {}
        }
        let mut lines = Lines { contents, warnings: Vec::new() };
        let may_have_macro = || lines.contents.windows(MACRO.len()).any(|it| it == MACRO);
        if kind == Kind::File && end.is_some() || lines.contents.len() >= TOO_LONG || !allows_macros && may_have_macro() {
            lines.leave_out(kind, name, allows_macros);
        }
        if lines.contents.first().map_or(false, |&byte| byte >= 0x80) {
            // The engine would take other marks for one than git does.
            lines.contents.splice(..0, MARK.iter().copied());
        }
        lines
    }

    fn leave_out(&mut self, kind: Kind, name: &[u8], allows_macros: bool) {
        let contents = std::mem::take(&mut self.contents);
        let mut number = 0;
        for whole in contents.split_inclusive(|&byte| byte == b'\n') {
            number += 1;
            let (line, end) = match whole.strip_suffix(b"\n") {
                Some(line) => (line.strip_suffix(b"\r").filter(|_| kind == Kind::File).unwrap_or(line), &b"\n"[..]),
                None => (whole, &b""[..]),
            };
            let line = line.split(|&byte| byte == 0).next().unwrap_or_default();
            if line.len() >= TOO_LONG && is_read(line) {
                self.warnings.push(format!("ignoring overly long attributes line {number}"));
            } else {
                self.contents.extend_from_slice(line);
                if !allows_macros && is_macro(line) {
                    let at = format!("{}:{number}", shown(name));
                    self.warnings.push(format!("{at} is left out: macros are allowed at the top only"));
                }
            }
            self.contents.extend_from_slice(end);
        }
    }
}

/// Whether a line is no comment, and not blank.
fn is_read(line: &[u8]) -> bool {
    !matches!(trimmed(line).first(), None | Some(b'#'))
}

/// Whether a line defines a macro: its first word, which may be quoted, begins with `[attr]` and is longer.
fn is_macro(line: &[u8]) -> bool {
    let line = trimmed(line);
    let word = match unquoted(line) {
        Some(word) => Cow::Owned(word),
        None => Cow::Borrowed(line.split(is_blank).next().unwrap_or_default()),
    };
    word.len() > MACRO.len() && word.starts_with(MACRO)
}

fn trimmed(line: &[u8]) -> &[u8] {
    let start = line.iter().position(|byte| !is_blank(byte)).unwrap_or(line.len());
    &line[start..]
}

fn is_blank(byte: &u8) -> bool {
    b" \t\r\n".contains(byte)
}

#[cfg(test)]
mod tests {
    use super::*;

    fn long(length: usize) -> String {
        format!("* a={}", "b".repeat(length - 4))
    }

    fn read(contents: &str, kind: Kind) -> Lines {
        Lines::read(contents.as_bytes().to_vec(), kind, b"sub/.gitattributes", false)
    }

    fn lines(contents: &str, warnings: &[&str]) -> Lines {
        Lines { contents: contents.as_bytes().to_vec(), warnings: warnings.iter().map(|it| it.to_string()).collect() }
    }

    #[test]
    fn long_lines_are_left_out() {
        let warning = "ignoring overly long attributes line 2";
        for length in [2047, 2048, 5000] {
            let text = format!("* x\n{}\n* y\n", long(length));
            let wanted = if length < 2048 { lines(&text, &[]) } else { lines("* x\n\n* y\n", &[warning]) };
            assert_eq!(read(&text, Kind::File), wanted);
            assert_eq!(read(&text, Kind::Object), wanted);
        }
        let text = format!("* x\n{}\r\n", long(2047));
        assert_eq!(read(&text, Kind::File).warnings, [""; 0]);
        assert_eq!(read(&text, Kind::Object).warnings, [warning]);
        let comment = format!(" # {}\n{}", "c".repeat(3000), " ".repeat(3000));
        assert_eq!(read(&comment, Kind::File), lines(&comment, &[]));
    }

    #[test]
    fn nul_ends_a_line_of_a_file_and_all_of_an_object() {
        let text = "* a\0 b\n* c\n";
        assert_eq!(read(text, Kind::File), lines("* a\n* c\n", &[]));
        assert_eq!(read(text, Kind::Object), lines("* a", &[]));
        assert_eq!(read("\0* a\n* c", Kind::File), lines("\n* c", &[]));
    }

    #[test]
    fn a_mark_is_removed_from_a_file_alone() {
        let marked = "\u{feff}* a\n";
        assert_eq!(read(marked, Kind::File), lines("* a\n", &[]));
        assert_eq!(read(marked, Kind::Object), lines("\u{feff}\u{feff}* a\n", &[]));
        assert_eq!(read("ü a\n", Kind::File), lines("\u{feff}ü a\n", &[]));
    }

    #[test]
    fn macros_of_a_directory_are_told() {
        let text = "# [attr]no\n [attr]m x\n[attr] y\n\"[attr]n\" z\n";
        let told = |line| format!("sub/.gitattributes:{line} is left out: macros are allowed at the top only");
        assert_eq!(read(text, Kind::File), lines(text, &[&told(2), &told(4)]));
        assert_eq!(Lines::read(text.as_bytes().to_vec(), Kind::File, b".gitattributes", true), lines(text, &[]));
    }
}
