//! Paths as they are given, and as attributes files see them: below the top, normalised as git does it.

use crate::failure::{shown, Failure};
use std::ffi::OsStr;
use std::fs;
use std::os::unix::ffi::OsStrExt;
use std::path::Path;

/// Where the paths that are given begin.
#[derive(Debug)]
pub struct Base {
    /// The top of the work tree, which has no link on its way; `None` in a bare repository.
    pub top: Option<Vec<u8>>,
    /// The current directory below the top: empty, or with a slash at its end.
    pub prefix: Vec<u8>,
    /// `core.ignoreCase`
    pub folds: bool,
}

impl Base {
    /// A path below the top. A slash is left at its end if it is given as a directory.
    ///
    /// # Errors
    ///
    /// [`Failure::Fatal`] if the path is not below the top.
    pub fn inside(&self, given: &[u8]) -> Result<Vec<u8>, Failure> {
        let path = match given {
            [b'/', ..] => normalised(given).and_then(|absolute| self.below_top(&absolute)),
            _ if self.prefix.is_empty() => normalised(given),
            _ => normalised(&[&self.prefix, given].concat()),
        };
        path.ok_or_else(|| {
            let top = self.top.as_deref().unwrap_or(b".");
            Failure::Fatal(format!("'{}' is outside repository at '{}'", shown(given), shown(top)))
        })
    }

    /// What stands behind the top in an absolute path, which is normalised and has no slash in front. Links may lead to the top.
    fn below_top(&self, absolute: &[u8]) -> Option<Vec<u8>> {
        let top = self.top.as_deref()?;
        let path = [b"/", absolute].concat();
        let stem = top.strip_suffix(b"/").unwrap_or(top);
        if path.len() >= stem.len() && self.is_same(&path[..stem.len()], stem) {
            match &path[stem.len()..] {
                [] => return Some(Vec::new()),
                [b'/', below @ ..] => return Some(below.to_vec()),
                _ => {}
            }
        }
        let slashes = path.iter().enumerate().skip(1).filter(|(_, &byte)| byte == b'/').map(|(at, _)| at);
        for end in slashes.chain([path.len()]) {
            // Nothing below a path that leads nowhere is the top.
            let real = fs::canonicalize(Path::new(OsStr::from_bytes(&path[..end]))).ok()?;
            if self.is_same(real.as_os_str().as_bytes(), top) {
                return Some(path.get(end + 1..).unwrap_or_default().to_vec());
            }
        }
        None
    }

    fn is_same(&self, one: &[u8], other: &[u8]) -> bool {
        one == other || self.folds && one.eq_ignore_ascii_case(other)
    }
}

/// A path with single slashes and without parts `.` and `..`, and without a slash in front. A slash stays at its end if it had
/// one there, or such a part. `None` if it leads above its start.
pub fn normalised(path: &[u8]) -> Option<Vec<u8>> {
    if is_normal(path) {
        return Some(path.to_vec());
    }
    let mut kept = Vec::with_capacity(path.len() + 1);
    for part in path.split(|&byte| byte == b'/') {
        match part {
            b"" | b"." => {}
            b".." => {
                kept.pop()?;
                let end = kept.iter().rposition(|&byte| byte == b'/').map_or(0, |slash| slash + 1);
                kept.truncate(end);
            }
            _ => {
                kept.extend_from_slice(part);
                kept.push(b'/');
            }
        }
    }
    let last = path.rsplit(|&byte| byte == b'/').next();
    if !matches!(last, Some(b"" | b"." | b"..")) {
        kept.pop();
    }
    Some(kept)
}

/// Whether a path is surely normalised: none of its parts is empty or begins with a dot, but that a slash may be at its end.
fn is_normal(path: &[u8]) -> bool {
    let may_begin = |byte: Option<&u8>| !matches!(byte, Some(b'/' | b'.'));
    may_begin(path.first()) && !path.windows(2).any(|pair| pair[0] == b'/' && !may_begin(pair.get(1)))
}

#[cfg(test)]
mod tests {
    use super::*;

    #[test]
    fn paths_are_normalised() {
        let rows: &[(&[u8], Option<&[u8]>)] = &[
            (b"a", Some(b"a")),
            (b"", Some(b"")),
            (b".", Some(b"")),
            (b"./", Some(b"")),
            (b"a/", Some(b"a/")),
            (b"a/.", Some(b"a/")),
            (b"a/b/..", Some(b"a/")),
            (b"a/..", Some(b"")),
            (b"a/../b", Some(b"b")),
            (b"./a//b/./c", Some(b"a/b/c")),
            (b"a/b/../../c", Some(b"c")),
            (b"..", None),
            (b"a/../..", None),
            (b"a/../../a", None),
            (b"...", Some(b"...")),
            (b"/a", Some(b"a")),
        ];
        for (path, wanted) in rows {
            assert_eq!(normalised(path).as_deref(), *wanted, "{}", shown(path));
        }
    }

    #[test]
    fn paths_begin_at_the_prefix_or_the_top() {
        let mut base = Base { top: Some(b"/no/such/Top".to_vec()), prefix: b"sub/".to_vec(), folds: false };
        assert_eq!(base.inside(b"a").unwrap(), b"sub/a");
        assert_eq!(base.inside(b"../a/").unwrap(), b"a/");
        assert_eq!(base.inside(b"").unwrap(), b"sub/");
        assert_eq!(base.inside(b"/no/such/Top/x//y").unwrap(), b"x/y");
        assert_eq!(base.inside(b"/no/such/Top").unwrap(), b"");
        assert_eq!(base.inside(b"/no/such/Top/").unwrap(), b"");
        for outside in [&b"../.."[..], b"/no/such/Topmost", b"/no/such/top/x", b"/", b"/no/../.."] {
            let failure = base.inside(outside).unwrap_err();
            assert_eq!(failure.status(), 128);
            assert_eq!(failure.to_string(), format!("fatal: '{}' is outside repository at '/no/such/Top'", shown(outside)));
        }
        base.folds = true;
        assert_eq!(base.inside(b"/NO/such/top/X").unwrap(), b"X");
        base.top = Some(b"/".to_vec());
        assert_eq!(base.inside(b"/etc/x").unwrap(), b"etc/x");
        base.top = None;
        assert!(base.inside(b"/etc/x").is_err());
    }

    #[test]
    fn links_may_lead_to_the_top() {
        let room = std::env::temp_dir().join(format!("check-attr-{}", std::process::id()));
        fs::create_dir_all(room.join("top/sub")).unwrap();
        std::os::unix::fs::symlink(room.join("top"), room.join("link")).unwrap();
        let top = fs::canonicalize(room.join("top")).unwrap();
        let base = Base { top: Some(top.as_os_str().as_bytes().to_vec()), prefix: Vec::new(), folds: false };
        let below = |path: &str| base.inside(room.join(path).as_os_str().as_bytes()).ok();
        assert_eq!(below("link/sub/f"), Some(b"sub/f".to_vec()));
        assert_eq!(below("link"), Some(b"".to_vec()));
        assert_eq!(below("link/"), Some(b"".to_vec()));
        assert_eq!(below("none/sub/f"), None);
        fs::remove_dir_all(&room).unwrap();
    }
}
