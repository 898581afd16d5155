//! Where attributes files that are not in a directory of the repository lie.

use std::ffi::OsString;
use std::path::PathBuf;

/// The attributes files beside those in directories, in ascending order of precedence.
#[derive(Clone, Copy, Debug, PartialEq, Eq, PartialOrd, Ord, Hash)]
pub enum Source {
    /// The file that is shipped with git.
    GitInstallation,
    /// The file of the machine, `etc/gitattributes` below the prefix that git was built with.
    System,
    /// The user's file, `git/attributes` below `XDG_CONFIG_HOME` or `~/.config`.
    Git,
    /// The repository's file, `info/attributes` in its git directory.
    Local,
}

impl Source {
    /// The path of the file, or `None` if there can be none: the variable `GIT_ATTR_NOSYSTEM` is set, or a directory is not
    /// known. That of the repository is relative to its git directory. `env_var` looks variables of the environment up.
    pub fn storage_location(self, env_var: &mut dyn FnMut(&str) -> Option<OsString>) -> Option<PathBuf> {
        match self {
            Source::GitInstallation => Some(gix_path::env::installation_config_prefix()?.join("gitattributes")),
            Source::System if env_var("GIT_ATTR_NOSYSTEM").is_some() => None,
            Source::System => Some(gix_path::env::system_prefix()?.join("etc/gitattributes")),
            Source::Git => gix_path::env::xdg_config("attributes", env_var),
            Source::Local => Some("info/attributes".into()),
        }
    }
}
