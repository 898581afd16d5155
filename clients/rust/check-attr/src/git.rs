//! Short runs of git.

use crate::failure::{reason, Failure};
use std::env;
use std::ffi::{OsStr, OsString};
use std::io::{self, ErrorKind, Write};
use std::os::unix::ffi::OsStrExt;
use std::path::{Path, PathBuf};
use std::process::{Child, Command, ExitStatus, Output, Stdio};

/// Variables that give pathspecs another meaning, or `git config` another file than `git check-attr` has.
const WITHOUT: [&str; 5] =
    ["GIT_LITERAL_PATHSPECS", "GIT_GLOB_PATHSPECS", "GIT_NOGLOB_PATHSPECS", "GIT_ICASE_PATHSPECS", "GIT_CONFIG"];

/// Variables that name paths from the top of the work tree.
const INDEX_FILE: &str = "GIT_INDEX_FILE";
const ALTERNATES: &str = "GIT_ALTERNATE_OBJECT_DIRECTORIES";

/// Calls git from the directory where the run began, from which variables may name paths.
#[derive(Clone, Debug)]
pub struct Git {
    directory: PathBuf,
    /// Variables that are changed.
    variables: Vec<(&'static str, OsString)>,
}

impl Git {
    /// Calls from the current directory, whatever it is later.
    ///
    /// # Errors
    ///
    /// [`Failure::Fatal`] if there is no current directory.
    pub fn from_here() -> Result<Git, Failure> {
        let words = |error| Failure::Fatal(format!("Unable to read current working directory: {}", reason(&error)));
        Ok(Git { directory: env::current_dir().map_err(words)?, variables: Vec::new() })
    }

    /// Has variables name paths from the top of the work tree, as they do for `git check-attr`. For other commands they do if the
    /// run began in the work tree. A list of directories that has quotes, or can't have the top in it, stays.
    pub fn with_paths_below(mut self, top: &[u8]) -> Git {
        let top = Path::new(OsStr::from_bytes(top));
        if let Some(name) = value(INDEX_FILE) {
            self.variables.push((INDEX_FILE, top.join(name).into()));
        }
        let plain = value(ALTERNATES).filter(|names| !names.as_bytes().contains(&b'"'));
        if let Some(Ok(names)) = plain.map(|names| env::join_paths(env::split_paths(&names).map(|name| top.join(name)))) {
            self.variables.push((ALTERNATES, names));
        }
        self
    }

    /// The directory where the run began.
    pub fn directory(&self) -> &Path {
        &self.directory
    }

    /// What a call writes, and its status.
    ///
    /// # Errors
    ///
    /// [`Failure::Fatal`] if git can't be started.
    pub fn output<W: AsRef<OsStr>>(&self, words: &[W]) -> Result<Output, Failure> {
        self.command(words).output().map_err(not_started)
    }

    /// Starts git, to be written to and read from.
    ///
    /// # Errors
    ///
    /// [`Failure::Fatal`] if git can't be started.
    pub fn start<W: AsRef<OsStr>>(&self, words: &[W]) -> Result<Child, Failure> {
        self.command(words).stdin(Stdio::piped()).stdout(Stdio::piped()).spawn().map_err(not_started)
    }

    /// A call whose words are those of no other language.
    fn command<W: AsRef<OsStr>>(&self, words: &[W]) -> Command {
        let mut command = Command::new("git");
        command.args(words).current_dir(&self.directory).env("LC_ALL", "C").stdin(Stdio::null());
        for name in WITHOUT {
            command.env_remove(name);
        }
        command.envs(self.variables.iter().map(|(name, value)| (name, value)));
        command
    }
}

/// What a variable says, if it is not empty.
fn value(name: &str) -> Option<OsString> {
    env::var_os(name).filter(|value| !value.is_empty())
}

/// Ends the run as a call of git ended that failed: with its words, and its status.
pub fn failed(output: &Output) -> Failure {
    // Where standard error is gone, the words are lost.
    let _ = io::stderr().write_all(&output.stderr);
    Failure::Told(status(output.status))
}

/// The status of a child, 128 if a signal ended it.
fn status(ended: ExitStatus) -> u8 {
    ended.code().and_then(|code| u8::try_from(code).ok()).unwrap_or(128)
}

fn not_started(error: io::Error) -> Failure {
    Failure::Fatal(match error.kind() {
        ErrorKind::NotFound => "there is no git on PATH".to_string(),
        _ => format!("cannot run git: {}", reason(&error)),
    })
}
