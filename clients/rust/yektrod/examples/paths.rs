//! Looks attributes up for paths below the current directory, a line each on standard input, as `git check-attr --stdin` does.
//! Only the attributes files of directories are read, and paths are printed without quotes.
//!
//! usage: paths NAME..

use std::env;
use std::error::Error;
use std::ffi::{OsStr, OsString};
use std::fs;
use std::io::{self, BufRead, BufWriter, Write};
use std::os::unix::ffi::{OsStrExt, OsStringExt};
use std::path::PathBuf;
use yektrod::stack::Reader;
use yektrod::Stack;

/// Reads the attributes files below the current directory.
#[derive(Default)]
struct Directories {
    path: PathBuf,
}

impl Reader for Directories {
    fn read(&mut self, directory: &[u8]) -> io::Result<Option<Vec<u8>>> {
        self.path.clear();
        self.path.push(OsStr::from_bytes(directory));
        self.path.push(".gitattributes");
        // As in git, a link isn't followed. What is no file isn't opened: a named pipe would wait for a writer.
        match fs::symlink_metadata(&self.path) {
            Ok(found) if found.is_file() => fs::read(&self.path).map(Some),
            Ok(_) => Ok(None),
            Err(error) if is_missing(&error) => Ok(None),
            Err(error) => Err(error),
        }
    }
}

/// Whether a file or a directory on its way isn't there.
fn is_missing(error: &io::Error) -> bool {
    const ENOTDIR: i32 = 20;
    error.kind() == io::ErrorKind::NotFound || error.raw_os_error() == Some(ENOTDIR)
}

fn main() -> Result<(), Box<dyn Error>> {
    let names: Vec<Vec<u8>> = env::args_os().skip(1).map(OsString::into_vec).collect();
    let mut stack = Stack::new(Directories::default())?;
    stack.select(&names)?;

    let mut input = io::stdin().lock();
    let mut output = BufWriter::with_capacity(1 << 16, io::stdout().lock());
    let mut line = Vec::new();
    while input.read_until(b'\n', &mut line)? > 0 {
        let path = line.strip_suffix(b"\n").unwrap_or(&line);
        for answer in stack.ask(path, Some(false))? {
            for part in [path, b": ", answer.name, b": ", answer.state.as_bytes(), b"\n"] {
                output.write_all(part)?;
            }
        }
        line.clear();
    }
    output.flush()?;
    Ok(())
}
