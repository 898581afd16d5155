//! Files of the system, read as git reads attributes files.

use crate::failure::{reason, shown, warn};
use std::fs::{self, File, OpenOptions};
use std::io::{self, Read};
use std::os::unix::fs::OpenOptionsExt;
use std::path::Path;

/// A file or an object of so many bytes is ignored.
pub const TOO_LARGE: u64 = 100 << 20;

/// Numbers of Linux.
const O_NONBLOCK: i32 = 0o4000;
#[cfg(target_arch = "aarch64")]
const O_NOFOLLOW: i32 = 0o100000;
#[cfg(not(target_arch = "aarch64"))]
const O_NOFOLLOW: i32 = 0o400000;
const ENOTDIR: i32 = 20;
const ELOOP: i32 = 40;

/// Whether a link at the end of a path is followed.
#[derive(Clone, Copy, Debug, PartialEq, Eq)]
pub enum Links {
    Followed,
    Refused,
}

/// The contents of an attributes file; `None` if git takes it for missing, which it may warn of. A directory is an empty file
/// for git. What is neither is taken for missing, and is not opened.
pub fn read(path: &Path, name: &[u8], links: Links) -> Option<Vec<u8>> {
    match try_read(path, name, links) {
        Ok(contents) => contents,
        Err(error) if error.kind() == io::ErrorKind::NotFound || error.raw_os_error() == Some(ENOTDIR) => None,
        Err(error) => {
            warn(&format!("unable to access '{}': {}", shown(name), reason(&error)));
            None
        }
    }
}

fn try_read(path: &Path, name: &[u8], links: Links) -> io::Result<Option<Vec<u8>>> {
    let (found, flags) = match links {
        Links::Followed => (fs::metadata(path)?, O_NONBLOCK),
        Links::Refused => (fs::symlink_metadata(path)?, O_NONBLOCK | O_NOFOLLOW),
    };
    if found.is_dir() {
        return Ok(Some(Vec::new()));
    }
    if found.file_type().is_symlink() {
        return Err(io::Error::from_raw_os_error(ELOOP));
    }
    if !found.is_file() {
        return Ok(None);
    }
    contents(OpenOptions::new().read(true).custom_flags(flags).open(path)?, name)
}

fn contents(file: File, name: &[u8]) -> io::Result<Option<Vec<u8>>> {
    let found = file.metadata()?;
    if !found.is_file() {
        return Ok(None);
    }
    if found.len() >= TOO_LARGE {
        warn(&format!("ignoring overly large gitattributes file '{}'", shown(name)));
        return Ok(None);
    }
    let mut contents = Vec::with_capacity(usize::try_from(found.len()).unwrap_or(0) + 1);
    file.take(TOO_LARGE).read_to_end(&mut contents)?;
    Ok(Some(contents))
}

#[cfg(test)]
mod tests {
    use super::*;
    use std::os::unix::fs::symlink;
    use std::process::Command;

    #[test]
    fn only_plain_files_are_read() {
        let room = std::env::temp_dir().join(format!("check-attr-files-{}", std::process::id()));
        fs::create_dir_all(room.join("directory")).unwrap();
        fs::write(room.join("file"), b"* a\n").unwrap();
        File::create(room.join("large")).unwrap().set_len(TOO_LARGE).unwrap();
        symlink("file", room.join("link")).unwrap();
        symlink("loop", room.join("loop")).unwrap();
        assert!(Command::new("mkfifo").arg(room.join("fifo")).status().unwrap().success());
        let text: &[u8] = b"* a\n";
        let rows: [(&str, Option<&[u8]>, Option<&[u8]>); 8] = [
            ("file", Some(text), Some(text)),
            ("link", Some(text), None),
            ("directory", Some(b""), Some(b"")),
            ("none", None, None),
            ("file/below", None, None),
            ("loop", None, None),
            ("large", None, None),
            ("fifo", None, None),
        ];
        for (name, followed, refused) in rows {
            assert_eq!(read(&room.join(name), name.as_bytes(), Links::Followed).as_deref(), followed, "{name}");
            assert_eq!(read(&room.join(name), name.as_bytes(), Links::Refused).as_deref(), refused, "{name}");
        }
        fs::remove_dir_all(&room).unwrap();
    }
}
