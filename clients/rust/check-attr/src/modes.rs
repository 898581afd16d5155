//! The attribute `builtin_objectmode`, which git gives each path.

use crate::failure::{reason, shown, Failure};
use crate::git::Git;
use crate::index::Index;
use std::ffi::OsStr;
use std::fs::{self, Metadata};
use std::os::unix::ffi::OsStrExt;
use std::os::unix::fs::PermissionsExt;
use std::path::Path;

pub const NAME: &[u8] = b"builtin_objectmode";

/// Tells the modes of paths.
#[derive(Debug)]
pub struct Modes {
    git: Git,
    /// Whether modes are those of the index, or of files below the current directory.
    is_cached: bool,
    index: Option<Index>,
}

impl Modes {
    pub fn new(git: Git, is_cached: bool) -> Modes {
        Modes { git, is_cached, index: None }
    }

    /// The mode of a path; `None` if the index alone is looked at and lacks it.
    ///
    /// # Errors
    ///
    /// [`Failure::Fatal`] if the work tree lacks the path, and what git fails with.
    pub fn mode(&mut self, path: &[u8]) -> Result<Option<Vec<u8>>, Failure> {
        if self.is_cached {
            return Ok(self.index()?.mode(path).map(<[u8]>::to_vec));
        }
        let found = fs::symlink_metadata(OsStr::from_bytes(path))
            .map_err(|error| Failure::Fatal(format!("unable to stat '{}': {}", shown(path), reason(&error))))?;
        let mode: &[u8] = match of_file(&found) {
            DIRECTORY if self.is_submodule(path)? => SUBMODULE,
            mode => mode,
        };
        Ok(Some(mode.to_vec()))
    }

    /// Whether a directory is a submodule in the index, or a repository with a commit that the index lacks.
    fn is_submodule(&mut self, path: &[u8]) -> Result<bool, Failure> {
        if let Some(mode) = self.index()?.mode(path) {
            return Ok(mode == SUBMODULE);
        }
        let repository = match fs::canonicalize(Path::new(OsStr::from_bytes(path)).join(".git")) {
            Ok(repository) => repository,
            Err(_) => return Ok(false),
        };
        let words = ["--git-dir".as_ref(), repository.as_os_str(), "rev-parse".as_ref(), "-q".as_ref(), "HEAD^0".as_ref()];
        Ok(self.git.output(&words)?.status.success())
    }

    fn index(&mut self) -> Result<&Index, Failure> {
        let index = match self.index.take() {
            Some(index) => index,
            None => Index::whole(&self.git)?,
        };
        Ok(self.index.insert(index))
    }
}

const DIRECTORY: &[u8] = b"040000";
const SUBMODULE: &[u8] = b"160000";

/// The mode that git has for a file.
fn of_file(found: &Metadata) -> &'static [u8] {
    if found.is_dir() {
        DIRECTORY
    } else if found.file_type().is_symlink() {
        b"120000"
    } else if found.permissions().mode() & 0o100 != 0 {
        b"100755"
    } else {
        b"100644"
    }
}
