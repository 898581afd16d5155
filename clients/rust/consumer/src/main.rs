//! Prints what gitoxide's crates do with the attributes of a repository, so that the outputs of two programs can be compared:
//! one that is built with its own crate `gix-attributes`, and one with another.
//!
//! usage: consumer MODE REPOSITORY [ARGUMENT..]
//!
//! - `attributes SOURCE [NAME..]`: what is found for each path of the index: of all attributes, or of those that are named.
//! - `walk TIMES SOURCE [NAME..]`: looks the same up so many times, and prints how many attributes are set, and how much memory the
//!   program had at most. It is to be measured.
//! - `pathspec SOURCE SPEC..`: the paths of the index that the specs select.
//! - `filter`: what becomes of each blob of the index in a work tree.
//! - `archive`: the entries of an archive of the commit.
//! - `checkout DIRECTORY`: checks the commit out there, by threads.
//!
//! SOURCE is `worktree` or `index`: where attributes files of directories are read first, or at all.

use gix::attrs::search::{Match, MatchKind, Outcome};
use gix::bstr::{BStr, ByteSlice};
use gix::worktree::stack::state::attributes::Source;
use gix::{Repository, index::State};
use std::error::Error;
use std::hash::{DefaultHasher, Hash, Hasher};
use std::io::{self, BufWriter, Read, Write};
use std::path::Path;
use std::sync::atomic::AtomicBool;

type Done = Result<(), Box<dyn Error>>;

fn main() -> Done {
    let arguments: Vec<String> = std::env::args().skip(1).collect();
    let words: Vec<&str> = arguments.iter().map(String::as_str).collect();
    let [mode, directory, rest @ ..] = &words[..] else { return Err("usage: consumer MODE REPOSITORY [ARGUMENT..]".into()) };
    let repository = gix::open(*directory)?;
    let mut to = BufWriter::new(io::stdout().lock());
    match (*mode, rest) {
        ("attributes", [source, names @ ..]) => attributes(&repository, source_of(source), names, &mut to)?,
        ("walk", [times, source, names @ ..]) => {
            let mut count = 0;
            for _ in 0..times.parse()? {
                count += walk(&repository, source_of(source), names)?;
            }
            writeln!(to, "{count} are set, {} KB", memory()?)?;
        }
        ("pathspec", [source, specs @ ..]) => pathspec(&repository, source_of(source), specs, &mut to)?,
        ("filter", []) => filter(&repository, &mut to)?,
        ("archive", []) => archive(&repository, &mut to)?,
        ("checkout", [directory]) => checkout(&repository, Path::new(directory), &mut to)?,
        _ => return Err("no such mode, or not its arguments".into()),
    }
    Ok(to.flush()?)
}

fn source_of(word: &str) -> Source {
    match word {
        "index" => Source::IdMapping,
        _ => Source::WorktreeThenIdMapping,
    }
}

/// Calls a function for each path of the index, with what is found for it and whether anything was.
fn each_path(
    repository: &Repository,
    source: Source,
    names: &[&str],
    mut tell: impl FnMut(&BStr, bool, &Outcome) -> Done,
) -> Done {
    let index = repository.index_or_empty()?;
    let mut stack = repository.attributes_only(&index, source)?;
    let mut found =
        if names.is_empty() { stack.attribute_matches() } else { stack.selected_attribute_matches(names.iter().copied()) };
    for entry in index.entries() {
        let path = entry.path(&index);
        let any = stack.at_entry(path, Some(entry.mode))?.matching_attributes(&mut found);
        tell(path, any, &found)?;
    }
    Ok(())
}

fn attributes(repository: &Repository, source: Source, names: &[&str], to: &mut impl Write) -> Done {
    each_path(repository, source, names, |path, any, found| {
        writeln!(to, "{path}: {any}, done: {}", found.is_done())?;
        if names.is_empty() {
            found.iter().try_for_each(|it| print(it, found, to))
        } else {
            found.iter_selected().try_for_each(|it| print(it, found, to))
        }
    })
}

/// Prints all that is told of an attribute, with the chain of macros that bring it.
fn print(it: Match<'_>, found: &Outcome, to: &mut impl Write) -> Done {
    let kind = if matches!(it.kind, MatchKind::Macro { .. }) { "macro " } else { "" };
    let (location, pattern) = (&it.location, it.pattern);
    let source = location.source.map(|path| path.as_os_str().as_encoded_bytes().as_bstr());
    write!(to, "  {kind}{} by {pattern:?} in {source:?}:{}", it.assignment, location.sequence_number)?;
    let mut next = it.kind.source_id();
    while let Some(cause) = next.and_then(|id| found.match_by_id(id)) {
        write!(to, " of {}", cause.assignment)?;
        next = cause.kind.source_id();
    }
    Ok(writeln!(to)?)
}

/// How many attributes are set in all.
fn walk(repository: &Repository, source: Source, names: &[&str]) -> Result<usize, Box<dyn Error>> {
    let mut count = 0;
    each_path(repository, source, names, |_, _, found| {
        count += if names.is_empty() {
            found.iter().filter(|it| it.assignment.state.is_set()).count()
        } else {
            found.iter_selected().filter(|it| it.assignment.state.is_set()).count()
        };
        Ok(())
    })?;
    Ok(count)
}

/// The memory that this program had at most, in KB, as Linux tells it.
fn memory() -> Result<usize, Box<dyn Error>> {
    let status = std::fs::read_to_string("/proc/self/status")?;
    let line = status.lines().find_map(|line| line.strip_prefix("VmHWM:")).ok_or("Linux tells no VmHWM")?;
    Ok(line.trim().trim_end_matches(" kB").parse()?)
}

fn pathspec(repository: &Repository, source: Source, specs: &[&str], to: &mut impl Write) -> Done {
    let index = repository.index_or_empty()?;
    let mut specs = repository.pathspec(false, specs.iter().map(|spec| BStr::new(*spec)), false, &index, source)?;
    for entry in index.entries() {
        let path = entry.path(&index);
        if specs.is_included(path, Some(false)) {
            writeln!(to, "{path}")?;
        }
    }
    Ok(())
}

fn filter(repository: &Repository, to: &mut impl Write) -> Done {
    let (mut pipeline, index) = repository.filter_pipeline(None)?;
    let state: &State = &index;
    for entry in state.entries() {
        let path = entry.path(state);
        let blob = repository.find_object(entry.id)?.detach();
        let mut bytes = Vec::new();
        pipeline.convert_to_worktree(&blob.data, path, Default::default())?.read_to_end(&mut bytes)?;
        writeln!(to, "{path}: {} bytes to {}", blob.data.len(), summary(&bytes))?;
    }
    Ok(())
}

fn archive(repository: &Repository, to: &mut impl Write) -> Done {
    let tree = repository.head_commit()?.tree_id()?.detach();
    let (mut stream, _index) = repository.worktree_stream(tree)?;
    while let Some(mut entry) = stream.next_entry()? {
        let mut bytes = Vec::new();
        entry.read_to_end(&mut bytes)?;
        writeln!(to, "{}: {}", entry.relative_path(), summary(&bytes))?;
    }
    Ok(())
}

fn checkout(repository: &Repository, directory: &Path, to: &mut impl Write) -> Done {
    let mut index = repository.index_from_tree(&repository.head_commit()?.tree_id()?)?;
    let mut options = repository.checkout_options(Source::IdMapping)?;
    options.destination_is_initially_empty = true;
    std::fs::create_dir_all(directory)?;
    let objects = repository.objects.clone().into_arc()?;
    let (files, bytes, interrupt) = (gix::progress::Discard, gix::progress::Discard, AtomicBool::default());
    let done = gix::worktree::state::checkout(&mut index, directory, objects, &files, &bytes, &interrupt, options)?;
    writeln!(to, "{} files, {} bytes, {} errors", done.files_updated, done.bytes_written, done.errors.len())?;
    Ok(())
}

/// The length of bytes, and a number that differs for others.
fn summary(bytes: &[u8]) -> String {
    let mut hasher = DefaultHasher::new();
    bytes.hash(&mut hasher);
    format!("{} bytes {:016x}", bytes.len(), hasher.finish())
}
