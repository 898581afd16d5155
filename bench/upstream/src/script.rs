//! Plays scripts (docs/SCRIPT.md) through the crate, as `check_attr_cli` plays them.
//!
//! Each path has an outcome of its own. A pop leaves the macros of its list in the collection, as the crate does. The lines
//! `dropped:` come from the crate's parser, since a search doesn't return them. What is measured has neither: it keeps an outcome
//! until the next addition, pop or selection, and parses a file once.

use bstr::{BStr, ByteSlice};
use gix_attributes::glob::pattern::Case;
use gix_attributes::search::{Match, MatchKind, MetadataCollection, Outcome};
use gix_attributes::{Search, StateRef};
use std::io::{self, Write};
use std::path::{Path, PathBuf};

/// What is left of a script.
struct Script<'a>(&'a [u8]);

impl<'a> Script<'a> {
    fn take(&mut self, count: usize) -> Option<&'a [u8]> {
        let (taken, rest) = self.0.split_at_checked(count)?;
        self.0 = rest;
        Some(taken)
    }

    fn line(&mut self) -> Option<&'a [u8]> {
        let line = self.take(self.0.find_byte(b'\n')?)?;
        self.line_feed().then_some(line)
    }

    fn line_feed(&mut self) -> bool {
        self.take(1) == Some(b"\n")
    }

    fn text(&mut self, count: usize) -> Option<&'a str> {
        self.take(count)?.to_str().ok()
    }
}

fn number(word: &[u8]) -> Option<usize> {
    let zero = word.len() > 1 && word.starts_with(b"0");
    let digits = (1..=8).contains(&word.len()) && word.iter().all(u8::is_ascii_digit);
    (digits && !zero).then(|| word.to_str().ok()?.parse().ok())?
}

/// The lists of a script, as they are after some of its records.
pub struct State {
    search: Search,
    collection: MetadataCollection,
    names: Vec<String>,
    is_measured: bool,
    kept: Option<Outcome>,
}

/// Plays a script. Returns the number of its first malformed record, if it has one.
pub fn play(files: &[&str], script: &[u8], is_measured: bool, output: &mut impl Write) -> io::Result<Option<usize>> {
    let mut collection = MetadataCollection::default();
    let search = Search::new_globals(files.iter().map(PathBuf::from), &mut Vec::new(), &mut collection)?;
    let mut state = State { search, collection, names: Vec::new(), is_measured, kept: None };
    let mut script = Script(script);
    let mut record = 0;
    while !script.0.is_empty() {
        record += 1;
        match state.record(&mut script, output) {
            None => return Ok(Some(record)),
            Some(written) => written?,
        }
    }
    Ok(None)
}

impl State {
    fn record(&mut self, script: &mut Script, output: &mut impl Write) -> Option<io::Result<()>> {
        let header: Vec<&[u8]> = script.line()?.split(|byte| *byte == b' ').collect();
        if header[0] != b"ask" {
            self.kept = None;
        }
        match header.as_slice() {
            [b"add", macros @ (b"m" | b"-"), source, root, contents] => {
                let (source, root) = (number(source)?, if *root == b"-" { None } else { Some(number(root)?) });
                let contents = number(contents)?;
                let source = script.text(source)?;
                let root = if let Some(count) = root { Some(Path::new(script.text(count)?)) } else { None };
                let contents = script.take(contents)?;
                let allow = *macros == b"m";
                script.line_feed().then(|| {
                    self.search.add_patterns_buffer(contents, source.into(), root, &mut self.collection, allow)?;
                    if self.is_measured { Ok(()) } else { write_dropped(contents, source, output) }
                })
            }
            [b"pop"] => {
                self.search.pop_pattern_list();
                Some(Ok(()))
            }
            [b"names", count] => {
                let names: Option<Vec<_>> = (0..number(count)?).map(|_| Some(script.line()?.to_str().ok()?.to_owned())).collect();
                self.names = names?;
                Some(Ok(()))
            }
            [b"ask", [form @ (b'l' | b'z' | b'o')], [case @ (b's' | b'i')], kind @ (b"f" | b"d" | b"u"), length] => {
                let path = script.take(number(length)?)?.as_bstr();
                let case = if *case == b'i' { Case::Fold } else { Case::Sensitive };
                let is_dir = (*kind != b"u").then_some(*kind == b"d");
                script.line_feed().then(|| self.ask(*form, path, case, is_dir, output))
            }
            _ => None,
        }
    }

    fn ask(&mut self, form: u8, path: &BStr, case: Case, is_dir: Option<bool>, output: &mut impl Write) -> io::Result<()> {
        let mut outcome = self.kept.take().unwrap_or_else(|| {
            let mut outcome = Outcome::default();
            outcome.initialize_with_selection(&self.collection, &self.names);
            outcome
        });
        self.search.pattern_matching_relative_path(path, case, is_dir, &mut outcome);
        if self.names.is_empty() {
            let mut told = outcome.iter().filter(|it| it.assignment.state != StateRef::Unspecified);
            told.try_for_each(|it| write(form, path, &it, &outcome, output))?;
        } else {
            outcome.iter_selected().try_for_each(|it| write(form, path, &it, &outcome, output))?;
        }
        if self.is_measured {
            outcome.reset();
            self.kept = Some(outcome);
        }
        Ok(())
    }
}

fn write(form: u8, path: &BStr, found: &Match<'_>, outcome: &Outcome, output: &mut impl Write) -> io::Result<()> {
    let (between, end) = if form == b'z' { ("\0", "\0") } else { (": ", "") };
    for part in [path, between.into(), found.assignment.name.as_str().into(), between.into()] {
        output.write_all(part)?;
    }
    output.write_all(match found.assignment.state {
        StateRef::Set => b"set",
        StateRef::Unset => b"unset",
        StateRef::Unspecified => b"unspecified",
        StateRef::Value(value) => value.as_bstr(),
    })?;
    output.write_all(end.as_bytes())?;
    match (form, found.location.source) {
        (b'o', Some(source)) => write_origin(found, source, outcome, output)?,
        (b'o', None) => output.write_all(b"\t-\t-\t-")?,
        _ => {}
    }
    if form == b'z' { Ok(()) } else { output.write_all(b"\n") }
}

fn write_origin(found: &Match<'_>, source: &Path, outcome: &Outcome, output: &mut impl Write) -> io::Result<()> {
    let (MatchKind::Attribute { macro_id } | MatchKind::Macro { parent_macro_id: macro_id }) = found.kind;
    let cause = macro_id.and_then(|id| outcome.match_by_id(id));
    write!(output, "\t{}:{}\t{}\t", source.display(), found.location.sequence_number, found.pattern)?;
    output.write_all(cause.as_ref().map_or(b"-", |it| it.assignment.name.as_str().as_bytes()))
}

fn write_dropped(contents: &[u8], source: &str, output: &mut impl Write) -> io::Result<()> {
    // The number of a refused line is only in the text of its error.
    for line in gix_attributes::parse(contents) {
        match line {
            Ok((_, items, number)) => {
                if let Some(error) = items.filter_map(Result::err).next() {
                    let reason = if error.to_string().contains("builtin_") { "reserved" } else { "attribute-name" };
                    writeln!(output, "dropped: {source}:{number}: {reason}")?;
                }
            }
            Err(error) => {
                let text = error.to_string();
                let number = text.split(' ').find(|word| word.parse::<usize>().is_ok()).unwrap_or("?");
                let reason = if text.contains("negative pattern") { "negative" } else { "macro-name" };
                writeln!(output, "dropped: {source}:{number}: {reason}")?;
            }
        }
    }
    Ok(())
}
