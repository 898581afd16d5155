//! Where the work tree and the attributes files beside it are.

use crate::configuration::environment_truth;
use crate::failure::{reason, shown, Failure};
use crate::git::{self, Git};
use crate::paths;
use std::ffi::OsStr;
use std::os::unix::ffi::{OsStrExt, OsStringExt};
use std::path::{Path, PathBuf};
use std::{env, fs};

/// Stands between the two paths that `git rev-parse` prints. The second one has no `//`.
const MARK: &str = "--//";
/// Git as distributions build it, and its system-wide attributes file.
const USUAL_GIT: &str = "/usr/bin/git";
const USUAL_SYSTEM_FILE: &str = "/etc/gitattributes";

/// The repository of the current directory, or that of the environment.
#[derive(Debug)]
pub struct Repository {
    /// The top of the work tree; `None` if the repository is bare.
    pub top: Option<Vec<u8>>,
    /// The directory where the run began, below the top: empty, or with a slash at its end.
    pub prefix: Vec<u8>,
    /// `info/attributes`, seen from where the run began.
    pub info: PathBuf,
}

impl Repository {
    /// Asks git, and goes to the top of the work tree.
    ///
    /// # Errors
    ///
    /// What git fails with, and [`Failure::Fatal`] if the work tree can't be entered.
    pub fn enter(git: &Git) -> Result<Repository, Failure> {
        let words = ["rev-parse", "--is-bare-repository", "--git-path", "info/attributes", MARK, "--show-toplevel"];
        let asked = git.output(&words)?;
        match Told::read(&asked.stdout) {
            Some(Told { is_bare: true, info, .. }) => Ok(Repository { top: None, prefix: Vec::new(), info: path(info) }),
            Some(Told { top: Some(top), info, .. }) => {
                let words = |error| Failure::Fatal(format!("cannot chdir to '{}': {}", shown(top), reason(&error)));
                env::set_current_dir(path(top)).map_err(words)?;
                Ok(Repository { top: Some(top.to_vec()), prefix: prefix(top, git.directory()), info: path(info) })
            }
            _ => Err(git::failed(&asked)),
        }
    }
}

/// What `git rev-parse` prints. Without a work tree it stops at the mark.
struct Told<'a> {
    is_bare: bool,
    info: &'a [u8],
    top: Option<&'a [u8]>,
}

impl<'a> Told<'a> {
    fn read(text: &'a [u8]) -> Option<Told<'a>> {
        let (is_bare, rest) = match text.strip_prefix(b"true\n") {
            Some(rest) => (true, rest),
            None => (false, text.strip_prefix(b"false\n")?),
        };
        let mark = [b"\n", MARK.as_bytes(), b"\n"].concat();
        let at = rest.windows(mark.len()).rposition(|part| part == mark)?;
        Some(Told { is_bare, info: &rest[..at], top: rest[at + mark.len()..].strip_suffix(b"\n") })
    }
}

fn path(text: &[u8]) -> PathBuf {
    PathBuf::from(OsStr::from_bytes(text))
}

/// A directory below the top. At the top itself it is that of `GIT_PREFIX`, where git starts an alias. Outside of the work tree
/// git takes paths as from the top.
fn prefix(top: &[u8], directory: &Path) -> Vec<u8> {
    let below = match directory.strip_prefix(path(top)) {
        Ok(below) if !below.as_os_str().is_empty() => below.as_os_str().as_bytes().to_vec(),
        Ok(_) => env::var_os("GIT_PREFIX").unwrap_or_default().into_vec(),
        Err(_) => Vec::new(),
    };
    let mut prefix = paths::normalised(&below).unwrap_or_default();
    if !prefix.is_empty() && !prefix.ends_with(b"/") {
        prefix.push(b'/');
    }
    prefix
}

/// The system's attributes file, wherever git looks for it. That of git in its usual place is known; another git is asked, and
/// the usual file taken if it is too old to tell.
///
/// # Errors
///
/// [`Failure::Fatal`] if `GIT_ATTR_NOSYSTEM` is neither true nor false.
pub fn system_file(git: &Git) -> Result<Option<PathBuf>, Failure> {
    if environment_truth("GIT_ATTR_NOSYSTEM")? == Some(true) {
        return Ok(None);
    }
    if on_path("git").map_or(false, |program| program == Path::new(USUAL_GIT)) {
        return Ok(Some(USUAL_SYSTEM_FILE.into()));
    }
    let asked = git.output(&["var", "GIT_ATTR_SYSTEM"])?;
    match asked.stdout.strip_suffix(b"\n") {
        Some(told) if asked.status.success() => Ok(Some(path(told))),
        _ => Ok(Some(USUAL_SYSTEM_FILE.into())),
    }
}

/// A program on `PATH`, without links on its way.
fn on_path(name: &str) -> Option<PathBuf> {
    let directories = env::var_os("PATH")?;
    let found = env::split_paths(&directories).map(|it| it.join(name)).find(|it| it.is_file())?;
    fs::canonicalize(found).ok()
}

#[cfg(test)]
mod tests {
    use super::*;

    #[test]
    fn two_paths_are_told_apart() {
        let rows: &[(&[u8], Option<(bool, &[u8], Option<&[u8]>)>)] = &[
            (b"false\n.git/info/attributes\n--//\n/top\n", Some((false, b".git/info/attributes", Some(b"/top")))),
            (b"false\n/a\n--//\nb/info/attributes\n--//\n/c\nd\n", Some((false, b"/a\n--//\nb/info/attributes", Some(b"/c\nd")))),
            (b"true\ninfo/attributes\n--//\n", Some((true, b"info/attributes", None))),
            (b"false\ninfo/attributes\n--//\n", Some((false, b"info/attributes", None))),
            (b"", None),
            (b"false\n", None),
        ];
        for (text, wanted) in rows {
            let told = Told::read(text).map(|it| (it.is_bare, it.info, it.top));
            assert_eq!(told, *wanted, "{}", shown(text));
        }
    }
}
