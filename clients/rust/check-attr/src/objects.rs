//! Objects of the repository, read by one `git cat-file`.

use crate::failure::{reason, shown, Failure};
use crate::git::Git;
use std::ffi::OsStr;
use std::io::{self, BufRead, BufReader, ErrorKind, Write};
use std::os::unix::ffi::OsStrExt;
use std::process::{Child, ChildStdin, ChildStdout};

/// The objects of the repository. Git is started for the first of them.
#[derive(Debug)]
pub struct Objects {
    git: Git,
    running: Option<CatFile>,
}

/// An object that was found: its number, and its kind as git calls it.
#[derive(Clone, Debug, PartialEq, Eq)]
pub struct Found {
    pub id: Vec<u8>,
    pub kind: Vec<u8>,
    pub size: u64,
}

/// What an object holds.
#[derive(Clone, Debug, PartialEq, Eq)]
pub enum Contents {
    Whole(Vec<u8>),
    TooLarge,
}

impl Objects {
    pub fn new(git: &Git) -> Objects {
        Objects { git: git.clone(), running: None }
    }

    /// Looks an object up by an expression of git, which has no NUL. `None` if there is none.
    ///
    /// # Errors
    ///
    /// [`Failure::Fatal`] if git can't be started, or has ended.
    pub fn find(&mut self, name: &[u8]) -> Result<Option<Found>, Failure> {
        let running = self.running()?;
        running.ask(&[b"info ", name, b"\0"])?;
        running.answer(name)
    }

    /// What the object with this number holds if it has fewer bytes than this. `None` if there is none of this kind.
    ///
    /// # Errors
    ///
    /// Those of [`Objects::find`], and [`Failure::Fatal`] if the object is corrupt.
    pub fn contents(&mut self, id: &[u8], kind: &[u8], too_large: u64) -> Result<Option<Contents>, Failure> {
        let running = self.running()?;
        // The answer to the second question marks the end of the contents, however long git says that they are.
        running.ask(&[b"contents ", id, b"\0info ", id, b"\0"])?;
        let found = match running.answer(id)? {
            Some(found) => found,
            None => {
                running.answer(id)?;
                return self.refuse_corrupt(id).map(|()| None);
            }
        };
        if found.kind != kind || found.size >= too_large {
            // What is not wanted is not read: another git is started for the next object.
            self.running = None;
            return Ok((found.kind == kind).then_some(Contents::TooLarge));
        }
        match read_contents(&mut running.answers, &found) {
            Ok(contents) => Ok(Some(Contents::Whole(contents))),
            Err(error) if error.kind() == ErrorKind::InvalidData => Err(corrupt(id)),
            Err(error) => Err(ended(error)),
        }
    }

    /// Refuses an object that git tells as missing since it can't be read.
    fn refuse_corrupt(&self, id: &[u8]) -> Result<(), Failure> {
        let asked = self.git.output(&["cat-file".as_ref(), "-e".as_ref(), OsStr::from_bytes(id)])?;
        if asked.status.success() {
            return Err(corrupt(id));
        }
        Ok(())
    }

    fn running(&mut self) -> Result<&mut CatFile, Failure> {
        let running = match self.running.take() {
            Some(running) => running,
            None => CatFile::start(&self.git)?,
        };
        Ok(self.running.insert(running))
    }
}

/// A running `git cat-file --batch-command`. It ends when its pipes are closed, so these are dropped before it is waited for.
#[derive(Debug)]
struct CatFile {
    questions: ChildStdin,
    answers: BufReader<ChildStdout>,
    _child: Awaited,
}

/// A child that is waited for, however it ends.
#[derive(Debug)]
struct Awaited(Child);

impl Drop for Awaited {
    fn drop(&mut self) {
        // It has nothing left to do.
        let _ = self.0.wait();
    }
}

impl CatFile {
    fn start(git: &Git) -> Result<CatFile, Failure> {
        let mut child = git.start(&["cat-file", "--batch-command", "-z"])?;
        let (questions, answers) = (child.stdin.take(), child.stdout.take());
        match (questions, answers) {
            (Some(questions), Some(answers)) => {
                Ok(CatFile { questions, answers: BufReader::new(answers), _child: Awaited(child) })
            }
            _ => Err(ended(ErrorKind::BrokenPipe.into())),
        }
    }

    /// Asks for what stands in these parts together.
    fn ask(&mut self, parts: &[&[u8]]) -> Result<(), Failure> {
        self.questions.write_all(&parts.concat()).map_err(ended)
    }

    /// Reads the first line of the answer for an object of this name.
    fn answer(&mut self, name: &[u8]) -> Result<Option<Found>, Failure> {
        read_answer(&mut self.answers, name).map_err(ended)
    }
}

/// Reads the first line of an answer. Where there is no object it is the name, which may have LFs, and a word.
fn read_answer(answers: &mut impl BufRead, name: &[u8]) -> io::Result<Option<Found>> {
    let mut line = Vec::new();
    read_line(answers, &mut line)?;
    if let Some(found) = found(&line) {
        return Ok(Some(found));
    }
    // Newer versions of git say so of an entry for a submodule, by its number.
    if line.strip_suffix(b" submodule\n").map_or(false, is_id) {
        return Ok(None);
    }
    while line.len() <= name.len() {
        read_line(answers, &mut line)?;
    }
    match line.strip_prefix(name) {
        Some(b" missing\n" | b" ambiguous\n") => Ok(None),
        _ => Err(ErrorKind::InvalidData.into()),
    }
}

/// Appends a line with its LF.
fn read_line(answers: &mut impl BufRead, line: &mut Vec<u8>) -> io::Result<()> {
    let read = answers.read_until(b'\n', line)?;
    if read > 0 && line.ends_with(b"\n") {
        Ok(())
    } else {
        Err(ErrorKind::UnexpectedEof.into())
    }
}

/// The object of a line `ID KIND SIZE`.
fn found(line: &[u8]) -> Option<Found> {
    let mut words = line.strip_suffix(b"\n")?.split(|&byte| byte == b' ');
    let (id, kind, size) = (words.next()?, words.next()?, words.next()?);
    let is_kind = matches!(kind, b"blob" | b"tree" | b"commit" | b"tag");
    let size = std::str::from_utf8(size).ok()?.parse().ok()?;
    (is_id(id) && is_kind && words.next().is_none()).then(|| Found { id: id.to_vec(), kind: kind.to_vec(), size })
}

/// Reads what an object holds: behind it stand an LF, and its first line once more. Of a corrupt object these come early.
fn read_contents(answers: &mut impl BufRead, object: &Found) -> io::Result<Vec<u8>> {
    let end = [b"\n", &object.id[..], b" ", &object.kind, b" ", object.size.to_string().as_bytes(), b"\n"].concat();
    let size = usize::try_from(object.size).map_err(|_| ErrorKind::OutOfMemory)?;
    let mut contents = Vec::new();
    contents.try_reserve_exact(size.saturating_add(end.len())).map_err(|_| ErrorKind::OutOfMemory)?;
    while contents.len() < size + end.len() && !contents.ends_with(&end) {
        read_line(answers, &mut contents)?;
    }
    if contents.len() != size + end.len() || !contents.ends_with(&end) {
        return Err(ErrorKind::InvalidData.into());
    }
    contents.truncate(size);
    Ok(contents)
}

/// Whether a text is the whole number of an object.
pub fn is_id(text: &[u8]) -> bool {
    matches!(text.len(), 40 | 64) && text.iter().all(u8::is_ascii_hexdigit)
}

fn corrupt(id: &[u8]) -> Failure {
    Failure::Fatal(format!("object {} is corrupt", shown(id)))
}

fn ended(error: io::Error) -> Failure {
    Failure::Fatal(format!("git cat-file failed: {}", reason(&error)))
}

#[cfg(test)]
mod tests {
    use super::*;

    const ID: &str = "0123456789abcdef0123456789abcdef01234567";

    fn read(answer: &str, name: &str) -> Result<Option<Found>, ErrorKind> {
        read_answer(&mut answer.as_bytes(), name.as_bytes()).map_err(|error| error.kind())
    }

    #[test]
    fn a_missing_one_is_told_by_its_whole_name() {
        let odd = "a b blob 12\nx missing\n0: blob 1";
        for name in ["HEAD", odd, "", "x\n"] {
            assert_eq!(read(&format!("{name} missing\n"), name), Ok(None), "{name}");
            assert_eq!(read(&format!("{name} ambiguous\n"), name), Ok(None), "{name}");
        }
        let path = format!("{ID}:a\nb/.gitattributes");
        assert_eq!(read(&format!("{path} missing\nmore"), &path), Ok(None));
        assert_eq!(read("other missing\n", "name"), Err(ErrorKind::InvalidData));
        assert_eq!(read("", "name"), Err(ErrorKind::UnexpectedEof));
        assert_eq!(read("name missing", "name"), Err(ErrorKind::UnexpectedEof));
        assert_eq!(read("a\n", "a\nb"), Err(ErrorKind::UnexpectedEof));
    }

    #[test]
    fn contents_end_where_the_first_line_comes_again() {
        let object = |size| Found { id: ID.as_bytes().to_vec(), kind: b"blob".to_vec(), size };
        let read = |text: String, size| read_contents(&mut text.as_bytes(), &object(size)).map_err(|error| error.kind());
        assert_eq!(read(format!("* a\n\n{ID} blob 4\n"), 4), Ok(b"* a\n".to_vec()));
        assert_eq!(read(format!("\n{ID} blob 0\n"), 0), Ok(Vec::new()));
        assert_eq!(read(format!("* a\n\n{ID} blob 400\n"), 400), Err(ErrorKind::InvalidData));
        assert_eq!(read(format!("* a\n\n{ID} blob 3\n"), 3), Err(ErrorKind::InvalidData));
        assert_eq!(read("* a\n".to_string(), 4), Err(ErrorKind::UnexpectedEof));
        assert_eq!(read(String::new(), u64::MAX), Err(ErrorKind::OutOfMemory));
    }

    #[test]
    fn an_object_is_told_by_three_words() {
        let wanted = Found { id: ID.as_bytes().to_vec(), kind: b"blob".to_vec(), size: 12 };
        assert_eq!(read(&format!("{ID} blob 12\n"), "HEAD:x"), Ok(Some(wanted)));
        assert_eq!(read(&format!("{ID} missing\n"), ID), Ok(None));
        assert_eq!(read(&format!("{ID} submodule\n"), "HEAD:x"), Ok(None));
    }
}
