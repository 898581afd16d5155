//! The values of git's configuration and environment that matter for attributes.

use crate::failure::{shown, Failure};
use crate::git::{self, Git};
use std::env;
use std::ffi::{OsStr, OsString};
use std::os::unix::ffi::{OsStrExt, OsStringExt};
use std::path::PathBuf;

const WANTED: &str = r"^(core\.(attributesfile|ignorecase|quotepath)|attr\.tree)$";
const OPTIONAL: &[u8] = b":(optional)";

/// What the configuration says.
#[derive(Debug, PartialEq, Eq)]
pub struct Configuration {
    /// `core.ignoreCase`
    pub folds: bool,
    /// `core.quotePath`
    pub quotes: bool,
    /// `core.attributesFile`
    pub attributes_file: Option<PathBuf>,
    /// `attr.tree`
    pub tree: Option<Vec<u8>>,
}

impl Default for Configuration {
    fn default() -> Configuration {
        Configuration { folds: false, quotes: true, attributes_file: None, tree: None }
    }
}

impl Configuration {
    /// Asks git.
    ///
    /// # Errors
    ///
    /// [`Failure::Fatal`] for a bad value, and what git fails with.
    pub fn read(git: &Git) -> Result<Configuration, Failure> {
        let asked = git.output(&["config", "-z", "--get-regexp", WANTED])?;
        match asked.status.code() {
            Some(0) => Configuration::from_entries(&asked.stdout, git),
            // There is no such entry.
            Some(1) => Ok(Configuration::default()),
            _ => Err(git::failed(&asked)),
        }
    }

    /// Reads entries that end with NUL: the name of a value, an LF, and the value. Without an LF there is no value.
    fn from_entries(entries: &[u8], git: &Git) -> Result<Configuration, Failure> {
        let mut found = Configuration::default();
        for entry in entries.split(|&byte| byte == 0).filter(|entry| !entry.is_empty()) {
            let (name, value) = match entry.iter().position(|&byte| byte == b'\n') {
                Some(end) => (&entry[..end], Some(&entry[end + 1..])),
                None => (entry, None),
            };
            match name {
                b"core.ignorecase" => found.folds = truth(value, "config", "core.ignorecase")?,
                b"core.quotepath" => found.quotes = truth(value, "config", "core.quotepath")?,
                b"core.attributesfile" => {
                    let value = value.ok_or_else(|| missing("core.attributesfile"))?;
                    found.set_attributes_file(value, git)?;
                }
                b"attr.tree" => found.tree = Some(value.ok_or_else(|| missing("attr.tree"))?.to_vec()),
                _ => {}
            }
        }
        Ok(found)
    }

    /// Takes a path, in which `~` and `%(prefix)` are expanded. An optional one that is missing is as none at all.
    fn set_attributes_file(&mut self, value: &[u8], git: &Git) -> Result<(), Failure> {
        let (path, is_optional) = match value.strip_prefix(OPTIONAL) {
            Some(path) => (path, true),
            None => (value, false),
        };
        let path = expanded(path, git)?;
        self.attributes_file = Some(path).filter(|path| !is_optional || path.exists());
        Ok(())
    }

    /// Where the user's attributes file is, if there is one.
    pub fn user_file(&self) -> Option<PathBuf> {
        if self.attributes_file.is_some() {
            return self.attributes_file.clone().filter(|path| !path.as_os_str().is_empty());
        }
        let (mut path, below) = match env::var_os("XDG_CONFIG_HOME").filter(|it| !it.is_empty()) {
            Some(directory) => (directory, "/git/attributes"),
            None => (env::var_os("HOME")?, "/.config/git/attributes"),
        };
        path.push(below);
        Some(path.into())
    }
}

fn missing(name: &str) -> Failure {
    Failure::Fatal(format!("missing value for '{name}'"))
}

/// A path of the configuration. Git itself expands the home of another user, and its own prefix.
fn expanded(value: &[u8], git: &Git) -> Result<PathBuf, Failure> {
    let failed = || Failure::Fatal(format!("failed to expand user dir in: '{}'", shown(value)));
    match value {
        b"~" | [b'~', b'/', ..] => {
            let home = env::var_os("HOME").ok_or_else(failed)?;
            let mut path = home.into_vec();
            path.extend_from_slice(&value[1..]);
            Ok(OsString::from_vec(path).into())
        }
        [b'~', ..] | [b'%', b'(', ..] => expanded_by_git(value, git),
        _ => Ok(PathBuf::from(OsStr::from_bytes(value))),
    }
}

fn expanded_by_git(value: &[u8], git: &Git) -> Result<PathBuf, Failure> {
    let setting = [b"yektrod.path=", value].concat();
    let words = [&b"-c"[..], &setting, b"config", b"-z", b"--type=path", b"yektrod.path"].map(OsStr::from_bytes);
    let asked = git.output(&words)?;
    match asked.stdout.strip_suffix(b"\0") {
        Some(path) if asked.status.success() => Ok(PathBuf::from(OsStr::from_bytes(path))),
        _ => Err(git::failed(&asked)),
    }
}

/// A variable of the environment that is true or false; `None` if there is none.
///
/// # Errors
///
/// [`Failure::Fatal`] if it is neither.
pub fn environment_truth(name: &str) -> Result<Option<bool>, Failure> {
    env::var_os(name).map(|value| truth(Some(value.as_bytes()), "environment", name)).transpose()
}

/// What git takes a value for. A name without a value is true.
fn truth(value: Option<&[u8]>, kind: &str, name: &str) -> Result<bool, Failure> {
    let value = match value {
        Some(value) => value,
        None => return Ok(true),
    };
    match &value.to_ascii_lowercase()[..] {
        b"true" | b"yes" | b"on" => Ok(true),
        b"false" | b"no" | b"off" | b"" => Ok(false),
        word => match number(word) {
            Some(number) => Ok(number != 0),
            None => Err(Failure::Fatal(format!("bad boolean {kind} value '{}' for '{name}'", shown(value)))),
        },
    }
}

/// A number of a configuration, which may have a unit: `k`, `m` or `g`. It is one of 32 bits.
fn number(word: &[u8]) -> Option<i32> {
    let word = std::str::from_utf8(word).ok()?.trim_start();
    let (word, unit) = match word.char_indices().last()? {
        (at, 'k') => (&word[..at], 1 << 10),
        (at, 'm') => (&word[..at], 1 << 20),
        (at, 'g') => (&word[..at], 1 << 30),
        _ => (word, 1),
    };
    let (digits, sign) = match word.strip_prefix('-') {
        Some(digits) => (digits, -1),
        None => (word.strip_prefix('+').unwrap_or(word), 1),
    };
    let (digits, radix) = match digits.strip_prefix("0x") {
        Some(digits) => (digits, 16),
        None if digits.starts_with('0') => (digits, 8),
        None => (digits, 10),
    };
    if !digits.starts_with(|it: char| it.is_digit(radix)) {
        return None;
    }
    i64::from_str_radix(digits, radix).ok()?.checked_mul(sign * unit).and_then(|it| i32::try_from(it).ok())
}

#[cfg(test)]
mod tests {
    use super::*;

    fn read(entries: &[u8]) -> Result<Configuration, Failure> {
        Configuration::from_entries(entries, &Git::from_here()?)
    }

    #[test]
    fn truths_are_gits() {
        for word in ["true", "Yes", "ON", "1", "-1", "0x1", " 2", "1k", "010"] {
            assert!(truth(Some(word.as_bytes()), "config", "x").unwrap(), "{word}");
        }
        assert!(truth(None, "config", "x").unwrap());
        for word in ["", "false", "No", "oFF", "0", "00", "-0", "0x0", "0g"] {
            assert!(!truth(Some(word.as_bytes()), "config", "x").unwrap(), "{word}");
        }
        for word in ["maybe", "1 ", "1t", "-", "k", "3g", "2147483648", "0x", "++1", "09"] {
            let failure = truth(Some(word.as_bytes()), "config", "core.x").unwrap_err();
            assert_eq!(failure.to_string(), format!("fatal: bad boolean config value '{word}' for 'core.x'"));
        }
    }

    #[test]
    fn the_last_entry_counts() {
        let entries =
            b"core.ignorecase\0core.quotepath\nno\0core.attributesfile\n/a\0attr.tree\nmain\0core.attributesfile\n/b\nc\0";
        let found = read(entries).unwrap();
        assert!(found.folds && !found.quotes);
        assert_eq!(found.tree.as_deref(), Some(&b"main"[..]));
        assert_eq!(found.attributes_file, Some(PathBuf::from("/b\nc")));
        assert_eq!(found.user_file(), Some(PathBuf::from("/b\nc")));
    }

    #[test]
    fn an_optional_file_counts_if_it_is_there() {
        let found = read(b"core.attributesfile\n/a\0core.attributesfile\n:(optional)/no/such\0").unwrap();
        assert_eq!(found.attributes_file, None);
        let found = read(b"core.attributesfile\n:(optional)/\0").unwrap();
        assert_eq!(found.attributes_file, Some(PathBuf::from("/")));
    }

    #[test]
    fn no_file_is_named_by_an_empty_value() {
        let found = read(b"core.attributesfile\n\0").unwrap();
        assert_eq!(found.user_file(), None);
        let failure = read(b"core.attributesfile\0").unwrap_err();
        assert_eq!(failure.to_string(), "fatal: missing value for 'core.attributesfile'");
    }
}
